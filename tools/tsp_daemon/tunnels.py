"""Which addresses of this machine are those of a tunnel, whose datagrams come by its interface alone if they are genuine."""
import array
import fcntl
import socket
import struct

# The system's calls for all addresses with their interfaces, and for an interface's kind; and what they take, for one interface.
GET_ADDRESSES, GET_KIND = 0x8912, 0x8927
REQUEST = struct.Struct('16s24s')
MOST = 4096
# The kinds of interface that aren't tunnels, by the kernel's numbers: Ethernet, InfiniBand and the loopback.
CABLES = 1, 32, 772


def kind_of(link, interface):
    """The kernel's number for the kind of an interface."""
    return struct.unpack_from('H', fcntl.ioctl(link, GET_KIND, REQUEST.pack(interface, b'')), 16)[0]


def by_address():
    """The interface of each address that is a tunnel's."""
    found, room = {}, array.array('B', bytes(MOST * REQUEST.size))
    with socket.socket(socket.AF_INET, socket.SOCK_DGRAM) as link:
        length, _ = struct.unpack('iP', fcntl.ioctl(link, GET_ADDRESSES, struct.pack('iP', len(room), room.buffer_info()[0])))
        for name, address in REQUEST.iter_unpack(room.tobytes()[:length]):
            # (behind a colon stands a label of the address)
            interface = name.partition(b'\0')[0].partition(b':')[0]
            if kind_of(link, interface) not in CABLES:
                found[socket.inet_ntoa(address[4:8])] = interface.decode('ascii', 'replace')
    return found
