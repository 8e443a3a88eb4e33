"""Programs whose time runs fast."""
import os
import sys

sys.path.insert(0, os.path.join(os.path.dirname(os.path.dirname(os.path.dirname(os.path.realpath(__file__)))), 'tools'))
from tsp_daemon.sockets import free_ports  # noqa: E402,F401  (labs take both from here)
from tsp_texts.library import fast as environment  # noqa: E402,F401
