"""What the tools share: the texts of schedules and traces, and the program that makes them."""
import signal

# (until a tool runs, an interrupt ends it as the system does, without a word)
if signal.getsignal(signal.SIGINT) is signal.default_int_handler:
    signal.signal(signal.SIGINT, signal.SIG_DFL)
