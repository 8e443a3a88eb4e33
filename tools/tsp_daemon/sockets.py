"""What the system says of an address: why it can't be bound, or nothing can be sent to it; and ports that nobody has."""
import socket


def why_not_bound(address):
    """Why an address A.B.C.D:PORT of UDP can't be bound, or None where it can be."""
    return tried(address, socket.socket.bind)


def why_not_reached(address):
    """Why nothing can be sent to an address, or None where something can be. Nothing is sent."""
    return tried(address, socket.socket.connect)


def tried(address, call):
    """What the system says where a socket is to be bound, or connected, to an address; None where it does that."""
    host, port = address.split(':')
    try:
        with socket.socket(socket.AF_INET, socket.SOCK_DGRAM) as link:
            call(link, (host, int(port)))
    except OSError as fault:
        return fault.strerror
    return None


def free_ports(count):
    """So many ports of the loopback that nobody has."""
    held = [socket.socket(socket.AF_INET, socket.SOCK_DGRAM) for _ in range(count)]
    for each in held:
        each.bind(('127.0.0.1', 0))
    ports = [each.getsockname()[1] for each in held]
    for each in held:
        each.close()
    return ports
