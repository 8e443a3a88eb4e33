"""What a capture has, read by the program and by tshark."""
import os
import shutil
import struct
import subprocess

from lab.hosts import Failed, PORT

LUA = os.path.join(os.path.dirname(os.path.dirname(os.path.dirname(os.path.realpath(__file__)))), 'tools', 'tsp.lua')


def frames(path):
    """The frames of a capture."""
    with open(path, 'rb') as file:
        file.read(24)
        while True:
            head = file.read(16)
            if len(head) < 16:
                return
            yield file.read(struct.unpack('=IIII', head)[2])


def datagrams(path):
    """The octets of each UDP datagram of a capture to or from the daemons' port."""
    for frame in frames(path):
        begin = 14 + (frame[14] & 15) * 4
        if frame[12:14] == b'\x08\x00' and frame[23] == 17:
            source, to, length = struct.unpack_from('>HHH', frame, begin)
            if PORT in (source, to):
                yield frame[begin + 8:begin + length]


def convert(program, command, text):
    """What `show` or `pack` writes of a text that it takes whole."""
    ran = subprocess.run([program, command], input=text, stdout=subprocess.PIPE, stderr=subprocess.DEVNULL, check=False)
    if ran.returncode:
        raise Failed(f'{command} of the capture ends with status {ran.returncode}: {ran.stdout[-80:]!r}')
    return ran.stdout


def read_by_program(path, program):
    """Wants `show` to read each datagram, and `pack` to give it back; says how many of each type there are."""
    octets = ''.join(datagram.hex() + '\n' for datagram in datagrams(path)).encode()
    shown = convert(program, 'show', octets)
    if convert(program, 'pack', shown) != octets:
        raise Failed('pack gives other octets than were captured')
    counts = {}
    for line in shown.decode('ascii').splitlines():
        kind = line.split()[0]
        counts[kind] = counts.get(kind, 0) + 1
    return counts


def read_by_tshark(path):
    """Wants tshark to find no fault in a capture; says whether there is a tshark."""
    if not shutil.which('tshark'):
        return False
    words = ['tshark', '-r', path, '-X', f'lua_script:{LUA}', '-o', 'udp.check_checksum:TRUE', '-o', 'ip.check_checksum:TRUE']
    faulty = '_ws.malformed || _ws.expert.severity == error || udp.checksum.status == "Bad" || ip.checksum.status == "Bad"'
    # (what the user has set for it is to change nothing)
    home = {**os.environ, 'HOME': os.path.dirname(path), 'XDG_CONFIG_HOME': os.path.dirname(path)}
    ran = subprocess.run([*words, '-Y', faulty], stdout=subprocess.PIPE, stderr=subprocess.PIPE, env=home, check=False)
    if ran.returncode or ran.stdout:
        raise Failed(f'tshark: {(ran.stdout or ran.stderr).decode(errors="replace").splitlines()[-1]}')
    return True
