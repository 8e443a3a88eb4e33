#!/usr/bin/env python3
"""Tries the rules of `tsp-launch --firewall nft` between two network namespaces: `firewall.py PROGRAM FOLDER`, in one of its own.

The daemon is in this namespace, and those who ask it are in another one.
"""
import fcntl
import os
import re
import select
import socket
import struct
import subprocess
import sys
import time

HERE = os.path.dirname(os.path.realpath(__file__))
TOOLS = os.path.dirname(HERE)
LAUNCH = os.path.join(TOOLS, 'tsp-launch')
PROGRAM, FOLDER = sys.argv[1:3]
DAEMON, PEER, STRANGER, ASKER = '192.0.2.11', '192.0.2.12', '192.0.2.13', '198.51.100.7'
# Those of a tunnel's two ends.
NEAR, FAR = '10.99.0.1', '10.99.0.2'
TUN, SET_NAME, IS_TUN_WITHOUT_HEADER = '/dev/net/tun', 0x400454ca, 0x1001
QUESTION = bytes([128, 1]) + bytes(26)
# Sends an octet string, in hexadecimal, as a packet of IP.
SEND = '''
import socket, sys
link = socket.socket(socket.AF_INET, socket.SOCK_RAW, socket.IPPROTO_RAW)
link.sendto(bytes.fromhex(sys.argv[1]), (sys.argv[2], 0))
'''
# Asks so many times from an address and a port as this user, and prints how many answers came.
ASK = '''
import os, socket, sys, time
user, host, port, count, to = sys.argv[1:]
if user != '0':
    os.setuid(int(user))
link = socket.socket(socket.AF_INET, socket.SOCK_DGRAM)
link.setsockopt(socket.SOL_SOCKET, socket.SO_RCVBUF, 1 << 22)
link.bind((host, int(port)))
for number in range(int(count)):
    link.sendto(bytes([128, 1]) + bytes(26), (to, 525))
link.settimeout(0.4)
got = 0
try:
    while True:
        got += len(link.recv(512)) == 28
except OSError:
    print(got)
'''


def run(*words):
    """Runs a command that is to end well, and gives what it wrote."""
    return subprocess.run(words, stdout=subprocess.PIPE, check=True).stdout.decode()


def wanted(is_so, text):
    """Ends where something isn't so."""
    if not is_so:
        sys.exit(f'firewall: {text}')


class Others:
    """The other namespace, joined by a cable, with these addresses."""

    def __init__(self, *addresses):
        self.process = subprocess.Popen(['unshare', '-n', 'sleep', '600'])
        self.at = ['nsenter', '-t', str(self.process.pid), '-n']
        time.sleep(0.3)
        run('ip', 'link', 'set', 'lo', 'up')
        run('ip', 'link', 'add', 'here', 'type', 'veth', 'peer', 'name', 'there', 'netns', str(self.process.pid))
        run('ip', 'address', 'add', f'{DAEMON}/24', 'dev', 'here')
        run('ip', 'link', 'set', 'here', 'up')
        for address in addresses:
            run(*self.at, 'ip', 'address', 'add', f'{address}/24', 'dev', 'there')
        run(*self.at, 'ip', 'link', 'set', 'there', 'up')
        run('ip', 'route', 'add', '198.51.100.0/24', 'dev', 'here')

    def ask(self, host, port=0, count=1):
        """How many of so many questions from this address are answered."""
        return int(run(*self.at, sys.executable, '-c', ASK, '0', host, str(port), str(count), DAEMON))


def ask_here(user):
    """Whether a user of the daemon's own machine is answered."""
    ran = subprocess.run([sys.executable, '-c', ASK, str(user), DAEMON, '0', '1', DAEMON], stdout=subprocess.PIPE, stderr=subprocess.DEVNULL, check=False)
    return ran.stdout.strip() == b'1'


def load(hosts):
    """Loads the rules, twice, since a second time they replace the first ones."""
    rules = subprocess.run([LAUNCH, '--firewall', 'nft', '-f', hosts, '-s', 'alpha'], stdout=subprocess.PIPE, check=True,
                           env={**os.environ, 'TSP_ASKERS': '198.51.100.0/24'}).stdout
    for _ in range(2):
        subprocess.run(['nft', '-f', '-'], input=rules, check=True)


def counters():
    """How many packets met each rule that counts, in their order: peers, questions, others, and other users of this machine."""
    return [int(count) for count in re.findall(r'counter packets ([0-9]+)', run('nft', 'list', 'table', 'inet', 'tsp'))]


def packet(source, target):
    """A packet of IP with a question for a daemon's clock, from port 525."""
    datagram = struct.pack('>HHHH', 525, 525, 8 + len(QUESTION), 0) + QUESTION
    head = struct.pack('>BBHHHBBH4s4s', 0x45, 0, 20 + len(datagram), 1, 0, 64, 17, 0, socket.inet_aton(source), socket.inet_aton(target))
    total = sum(struct.unpack('>10H', head))
    total = (total & 0xffff) + (total >> 16)
    return head[:10] + struct.pack('>H', ~total & 0xffff) + head[12:] + datagram


class Tunnel:
    """A tunnel whose other end is this process; None of its datagrams are on a wire."""

    def __init__(self):
        self.file = os.open(TUN, os.O_RDWR | os.O_NONBLOCK)
        fcntl.ioctl(self.file, SET_NAME, struct.pack('16sH22x', b'tsp', IS_TUN_WITHOUT_HEADER))
        run('ip', 'address', 'add', f'{NEAR}/24', 'dev', 'tsp')
        run('ip', 'link', 'set', 'tsp', 'up')

    def answers(self, seconds=0.4):
        """How many answers of the daemon came out of it."""
        found, until = 0, time.monotonic() + seconds
        while time.monotonic() < until:
            if select.select([self.file], [], [], 0.05)[0]:
                octets = os.read(self.file, 2048)
                found += octets[12:16] == socket.inet_aton(NEAR) and octets[9:10] == b'\x11'
        return found

    def asks(self):
        """Whether a question that comes by it is answered."""
        os.write(self.file, packet(FAR, NEAR))
        return self.answers() == 1


def try_tunnel(others, hosts):
    """A daemon at a tunnel's address hears the other end, and with the rules nobody who sends with that one's address on the wire beneath."""
    try:
        tunnel = Tunnel()
    except OSError:
        return 'there is no tun, so rules with a tunnel aren\'t tried'
    with open(hosts, 'w', encoding='ascii') as file:
        file.write(f'alpha {NEAR} master\nbeta {FAR} slave\n')
    run(*others.at, 'ip', 'route', 'add', NEAR, 'via', DAEMON)

    def forged():
        run(*others.at, sys.executable, '-c', SEND, packet(FAR, NEAR).hex(), NEAR)
        return tunnel.answers()

    daemon = subprocess.Popen([PROGRAM, 'serve', f'{NEAR}:525', 'alpha', 'm', '1000000', f'{FAR}:525'])
    try:
        time.sleep(0.3)
        run('nft', 'delete', 'table', 'inet', 'tsp')
        wanted(tunnel.asks() and forged() == 1, 'without rules the tunnel\'s other end isn\'t answered, or one on the wire with its address')
        load(hosts)
        wanted(tunnel.asks(), 'with rules the tunnel\'s other end isn\'t answered')
        wanted(forged() == 0, 'with rules one on the wire with the address of the tunnel\'s other end is answered')
    finally:
        daemon.kill()
    return 'with a tunnel its other end is answered, and nobody on the wire who has that one\'s address'


def main():
    hosts = os.path.join(FOLDER, 'hosts')
    with open(hosts, 'w', encoding='ascii') as file:
        file.write(f'alpha {DAEMON} master\nbeta {PEER} slave\n')
    others = Others(PEER, STRANGER, ASKER)
    daemon = subprocess.Popen([PROGRAM, 'serve', f'{DAEMON}:525', 'alpha', 'm', '1000000', f'{PEER}:525'])
    try:
        time.sleep(0.3)
        wanted(others.ask(STRANGER) == 1, 'without rules a stranger isn\'t answered')
        load(hosts)
        for host, port, answers in ((PEER, 525, 1), (PEER, 0, 1), (ASKER, 0, 1), (STRANGER, 0, 0), (STRANGER, 525, 0)):
            wanted(others.ask(host, port) == answers, f'{host}:{port} gets another number of answers than {answers}')
        many = others.ask(ASKER, count=10_000)
        wanted(1 <= many <= 4000, f'of 10,000 questions at once {many} are answered')
        wanted(others.ask(PEER, 525) == 1, 'a peer isn\'t answered beside many questions')
        wanted(ask_here(0), 'root isn\'t answered on the daemon\'s own machine')
        users = ''
        if os.getuid() == 0 and '4294967295' in open('/proc/self/uid_map', encoding='ascii').read():
            wanted(ask_here(61184), 'a service isn\'t answered on the daemon\'s own machine')
            wanted(not ask_here(65534), 'nobody is answered on the daemon\'s own machine')
            users = ', a service on it and not nobody'
        peers, asked, dropped, *local = counters()
        wanted(peers >= 2 and 1000 <= asked <= 4000 and dropped >= 6000 and (not users or local[-1] >= 1), f'the counters are {counters()}')
        print(f'a peer, its machine, a named network and root on this machine{users} are answered, and a stranger is not; of 10,000 questions at once {asked} come in; '
              + try_tunnel(others, hosts))
    finally:
        daemon.kill()
        others.process.kill()


main()
