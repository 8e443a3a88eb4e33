"""Whether no name server answers for a name: `away.py NAME` ends with 0 then, and with 1 where it is known that the name has no address."""
import socket
import sys


def is_away(name):
    """Whether it can't be known now what address a name has. (one that has an address by now will be found)"""
    try:
        socket.getaddrinfo(name, None, socket.AF_INET, socket.SOCK_DGRAM)
    except socket.gaierror as fault:
        return fault.errno == socket.EAI_AGAIN
    return True


sys.exit(not is_away(sys.argv[1]))
