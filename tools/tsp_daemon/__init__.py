"""Running daemons, for the tools that ask them or read their traces."""
