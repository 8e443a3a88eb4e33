"""What runs beside a daemon: its supervisor, the look's half of the page, the log, and where the trace goes."""
