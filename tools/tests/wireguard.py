#!/usr/bin/env python3
"""Tries the tunnel of `tsp-launch --wireguard` between hosts on a wire of IPv6, with a forger on it: `wireguard.py PROGRAM FOLDER`, in network and mount
namespaces of its own."""
import os
import re
import socket
import subprocess
import sys
import time

HERE = os.path.dirname(os.path.realpath(__file__))
TOOLS = os.path.dirname(HERE)
sys.dont_write_bytecode = True
sys.path.insert(0, TOOLS)
from tsp_witness.datagram import octets_of  # noqa: E402

LAUNCH = os.path.join(TOOLS, 'tsp-launch')
PROGRAM, FOLDER = sys.argv[1:3]
NAMES = ('alpha', 'beta', 'gamma')
TUNNEL = {name: f'10.99.0.{number}' for number, name in enumerate(NAMES, 1)}
BENEATH = {name: f'fd77::{number}' for number, name in enumerate((*NAMES, 'forger'), 1)}
COUNT = 20
# Sends so many datagrams with the header of a host, each in a frame to and from these cards where they are named.
SEND = '''
import socket, struct, sys, time
source, target, count, card, octets = sys.argv[1:]
octets = bytes.fromhex(octets)
datagram = struct.pack('>HHHH', 525, 525, 8 + len(octets), 0) + octets
head = struct.pack('>BBHHHBBH4s4s', 0x45, 0, 20 + len(datagram), 1, 0, 64, 17, 0, socket.inet_aton(source), socket.inet_aton(target))
total = sum(struct.unpack('>10H', head))
while total > 65535:
    total = (total & 65535) + (total >> 16)
packet = head[:10] + struct.pack('>H', ~total & 65535) + head[12:] + datagram
if card:
    link = socket.socket(socket.AF_PACKET, socket.SOCK_RAW)
    link.bind(('wire', 0))
else:
    link = socket.socket(socket.AF_INET, socket.SOCK_RAW, socket.IPPROTO_RAW)
for _ in range(int(count)):
    if card:
        link.send(bytes.fromhex(card) + b'\\x08\\x00' + packet)
    else:
        link.sendto(packet, (target, 0))
    time.sleep(0.01)
'''


def wanted(is_so, text):
    """Ends where something isn't so."""
    if not is_so:
        sys.exit(f'wireguard: {text}')


def run(*words, **more):
    """Runs a command that is to end well, and gives what it wrote."""
    ran = subprocess.run(words, stdout=subprocess.PIPE, stderr=subprocess.STDOUT, check=False, **more)
    wanted(ran.returncode == 0, f'{" ".join(words)[:200]}: status {ran.returncode}: {ran.stdout.decode("utf-8", "replace")}')
    return ran.stdout.decode('utf-8', 'replace')


class Host:
    """A machine: namespaces of its own, joined to the switch by a cable, and its folder."""

    def __init__(self, name):
        self.name, self.folder = name, os.path.join(FOLDER, name)
        os.mkdir(self.folder)
        self.process = subprocess.Popen(['unshare', '-n', '-m', 'sh', '-c', 'mount -t tmpfs tmpfs /run && mkdir /run/wireguard && echo && exec sleep 600'],
                                        stdout=subprocess.PIPE)
        self.process.stdout.readline()
        self.at = ['nsenter', '-t', str(self.process.pid), '-n', '-m']
        cable = f'c{len(os.listdir(FOLDER))}'
        run('ip', 'link', 'add', cable, 'type', 'veth', 'peer', 'name', 'wire', 'netns', str(self.process.pid))
        run('ip', 'link', 'set', cable, 'master', 'switch', 'up')
        for words in (('link', 'set', 'lo', 'up'), ('link', 'set', 'wire', 'up'), ('address', 'add', f'{BENEATH[name]}/64', 'dev', 'wire', 'nodad')):
            run(*self.at, 'ip', *words)
        # (Linux asks by default from where a datagram came on no interface, and Debian leaves it so)
        run(*self.at, 'sh', '-c', 'for file in /proc/sys/net/ipv4/conf/*/rp_filter; do echo 0 >"$file"; done')
        self.daemon = self.trace = None

    def run(self, *words, **variables):
        """Runs a command on this machine."""
        return run(*self.at, *words, env={**os.environ, 'TSP_KEYS': os.path.join(FOLDER, 'keys'), 'TSP_KEY': os.path.join(self.folder, 'key'), **variables})

    def card(self):
        """The address of its card."""
        return re.search(r'link/ether ([0-9a-f:]+)', self.run('ip', 'link', 'show', 'wire'))[1].replace(':', '')

    def make_key(self, hosts):
        """Makes its keys, twice, since they stay what they are, and puts the public one into the folder of all."""
        key = self.run(LAUNCH, '--wireguard', 'keys').strip()
        wanted(self.run(LAUNCH, '--wireguard', '--keys').strip() == key, 'the key is another one the second time')
        mode = os.stat(os.path.join(self.folder, 'key')).st_mode & 0o777
        wanted(mode == 0o600, f'the private key has the mode {mode:o}')
        with open(os.path.join(FOLDER, 'keys', self.name), 'w', encoding='ascii') as file:
            file.write(f'{key} {BENEATH[self.name]}\n')
        wanted(os.path.exists(hosts), 'there is no hosts file')

    def bring_up(self, hosts):
        """Writes what is printed for wg-quick, and brings the tunnel up."""
        path = os.path.join(self.folder, 'tsp.conf')
        text = self.run(LAUNCH, '--wireguard', 'wg-quick', '-f', hosts, '-s', self.name)
        with open(os.open(path, os.O_WRONLY | os.O_CREAT, 0o600), 'w', encoding='ascii') as file:
            file.write(text)
        self.run('wg-quick', 'up', path)

    def serve(self):
        """Starts its daemon, and lets it trace."""
        peers = [f'{TUNNEL[name]}:525' for name in NAMES if name != self.name]
        self.trace = os.path.join(self.folder, 'trace')
        with open(self.trace, 'wb') as out:
            self.daemon = subprocess.Popen([*self.at, PROGRAM, 'serve', f'{TUNNEL[self.name]}:525', self.name, 'm', '100000', *peers], stdout=out)
        time.sleep(0.5)
        self.run(PROGRAM, 'trace', f'{TUNNEL[self.name]}:525', 'on')

    def send(self, source, target, card, name):
        """Sends datagrams with the address of a host, which bear this name."""
        octets = octets_of(('masterreq', '7', name)).hex()
        self.run(sys.executable, '-c', SEND, source, target, str(COUNT), card, octets)
        time.sleep(0.3)

    def heard(self, name):
        """How many datagrams its daemon took as a peer's that bear this name."""
        with open(self.trace, encoding='ascii') as file:
            return len(re.findall(rf' took [0-9]+ masterreq 7 {name}$', file.read(), re.MULTILINE))

    def end(self):
        """Ends all that runs there."""
        for process in (self.daemon, self.process):
            if process:
                process.kill()
                process.wait()


def write_hosts():
    """The hosts file, which has the tunnel's addresses."""
    path = os.path.join(FOLDER, 'hosts')
    with open(path, 'w', encoding='ascii') as file:
        file.writelines(f'{name} {TUNNEL[name]} master\n' for name in NAMES)
    os.mkdir(os.path.join(FOLDER, 'keys'))
    return path


def forge(alpha, beta, forger):
    """What comes in: a peer's own datagrams, and neither those with its address from the wire nor those that a peer sends with another one's."""
    card = alpha.card() + forger.card()
    beta.send(TUNNEL['beta'], TUNNEL['alpha'], '', 'own')
    wanted(alpha.heard('own') == COUNT, f'{alpha.heard("own")} of {COUNT} datagrams of a peer come through the tunnel')
    forger.send(TUNNEL['beta'], TUNNEL['alpha'], card, 'forged')
    wanted(alpha.heard('forged') == 0, f'{alpha.heard("forged")} of {COUNT} forged datagrams come in')
    dropped = re.search(r'counter packets ([0-9]+)', alpha.run('nft', 'list', 'table', 'inet', 'tsp_tunnel'))
    wanted(int(dropped[1]) == COUNT, f'the rule met {dropped[1]} of {COUNT} forged datagrams')
    beta.send(TUNNEL['gamma'], TUNNEL['alpha'], '', 'borrowed')
    wanted(alpha.heard('borrowed') == 0, f'{alpha.heard("borrowed")} of {COUNT} datagrams with another peer\'s address come in')
    # (without the rule they would, so the forger knows how)
    alpha.run('nft', 'delete table inet tsp_tunnel')
    forger.send(TUNNEL['beta'], TUNNEL['alpha'], card, 'unruled')
    wanted(alpha.heard('unruled') == COUNT, f'{alpha.heard("unruled")} of {COUNT} forged datagrams come in without the rule')
    rules = alpha.run(LAUNCH, '--wireguard', 'nft', '-f', os.path.join(FOLDER, 'hosts'), '-s', 'alpha')
    for _ in range(2):
        run(*alpha.at, 'nft', '-f', '-', input=rules.encode('ascii'))
    forger.send(TUNNEL['beta'], TUNNEL['alpha'], card, 'ruled')
    wanted(alpha.heard('ruled') == 0, f'{alpha.heard("ruled")} of {COUNT} forged datagrams come in by the rule of `nft`')


def main():
    run('ip', 'link', 'add', 'switch', 'type', 'bridge')
    run('ip', 'link', 'set', 'switch', 'up')
    hosts = write_hosts()
    machines = [Host(name) for name in (*NAMES, 'forger')]
    try:
        for host in machines[:3]:
            host.make_key(hosts)
        for host in machines[:3]:
            host.bring_up(hosts)
        for host in machines[:3]:
            host.serve()
        machines[0].run(PROGRAM, 'clockdiff', f'{TUNNEL["gamma"]}:525')
        forge(machines[0], machines[1], machines[3])
        print(f'{COUNT} of a peer\'s datagrams come through the tunnel over IPv6, none of {COUNT} forged on the wire, and none with another peer\'s address')
    finally:
        for host in machines:
            host.end()


socket.setdefaulttimeout(5)
main()
