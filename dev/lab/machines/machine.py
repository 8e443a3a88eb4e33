"""One virtual machine: how it is started, commands in it, and what befalls it."""
import base64
import json
import os
import signal
import socket
import subprocess
import time

from lab.hosts import Failed

# Octets of memory in MiB, and how many octets of a file go into a machine at once, and out of it.
MEMORY, PART, TAKEN = 384, 1 << 18, 1 << 21
# Seconds: until a machine has booted at most, an answer of a machine that does nothing long, and between two looks.
BOOTED, PATIENCE, OFTEN = 900, 120, 0.5
# The kernel's line: no clock of the processor, so that the machine counts by hardware that QEMU counts.
LINE = 'root=/dev/vda rw console=ttyS0 net.ifnames=0 tsc=unstable no-kvmclock clocksource=hpet mitigations=off quiet'


class Gone(Failed):
    """The machine gives no answer."""


def connect(path, patience):
    """A link to a socket of QEMU's."""
    until = time.monotonic() + patience
    while True:
        link = socket.socket(socket.AF_UNIX)
        try:
            link.connect(path)
            link.settimeout(patience)
            return link
        except OSError as fault:
            link.close()
            if time.monotonic() > until:
                raise Gone(f'{path}: {fault.strerror}') from fault
            time.sleep(OFTEN)


def share_with(process):
    """Gives a process the share of the processors that this one has. (a session is a group of its own for the scheduler, in which niceness has no effect on others)"""
    try:
        with open('/proc/self/autogroup', encoding='ascii') as own, open(f'/proc/{process}/autogroup', 'w', encoding='ascii') as file:
            file.write(own.read().split()[-1])
    except OSError:
        pass


class Machine:
    """A machine of a lab, by its number; its hardware counts `ppm` parts in a million too fast."""

    def __init__(self, folder, number, switch, by, ppm=0):
        self.folder, self.number, self.switch, self.by, self.ppm = folder, number, switch, by, ppm
        self.name, self.address = f'm{number}', f'10.77.0.{number}'
        self.shared, self.process = f'/dev/shm/{os.path.basename(folder)}-{self.name}', None

    def path(self, what):
        """A file of this machine's."""
        return os.path.join(self.folder, f'{self.name}.{what}')

    def make(self):
        """Makes its disk, which has what differs from the one that all share."""
        ran = subprocess.run(['qemu-img', 'create', '-q', '-f', 'qcow2', '-b', os.path.join(self.folder, 'disk'), '-F', 'raw', self.path('qcow2')],
                             stdout=subprocess.DEVNULL, stderr=subprocess.PIPE, check=False)
        if ran.returncode:
            raise Failed(f'{self.name} has no disk: {ran.stderr.decode().split(chr(10))[0]} (do machines of an earlier call still run?)')
        subprocess.run(['truncate', '-s', '1M', self.shared], check=True)

    def words(self):
        """QEMU's words."""
        return ['qemu-system-x86_64', '-nodefaults', '-display', 'none', '-M', 'pc', '-accel', self.by, '-cpu', 'max', '-m', str(MEMORY), '-smp', '1',
                '-kernel', os.path.join(self.folder, 'kernel'), '-initrd', os.path.join(self.folder, 'initrd'), '-append', f'{LINE} machine={self.number}',
                '-drive', f'file={self.path("qcow2")},if=virtio', '-netdev', f'tap,id=n,ifname={self.switch.cable(self.name)},script=no,downscript=no',
                '-device', f'virtio-net-pci,id=cable,netdev=n,mac=52:54:00:77:00:{self.number:02x}', '-device', 'virtio-serial-pci',
                '-chardev', f'socket,id=a,path={self.path("agent")},server=on,wait=off', '-device', 'virtserialport,chardev=a,name=agent',
                '-object', f'memory-backend-file,id=s,size=1M,share=on,mem-path={self.shared}', '-device', 'ivshmem-plain,memdev=s',
                '-qmp', f'unix:{self.path("qmp")},server=on,wait=off', '-serial', f'file:{self.path("console")}']

    def start(self):
        """Turns it on."""
        rate = ['env', f'LD_PRELOAD={os.path.join(self.folder, "rate.so")}', f'MACHINE_PPM={self.ppm}']
        with open(self.path('log'), 'ab') as log:
            self.process = subprocess.Popen([*self.switch.inside, *rate, *self.words()], stdin=subprocess.DEVNULL, stdout=log, stderr=log, start_new_session=True)
        share_with(self.process.pid)

    def cut(self):
        """Cuts its power."""
        if self.process:
            self.process.send_signal(signal.SIGKILL)
            self.process.wait()
        self.process = None

    def remove(self):
        """Cuts its power for good."""
        self.cut()
        if os.path.exists(self.shared):
            os.unlink(self.shared)

    def run(self, command, data=b'', patience=PATIENCE):
        """Runs a command in the machine: its status, and what it wrote. Gone comes where the machine doesn't answer."""
        link, name = connect(self.path('agent'), patience), os.urandom(6).hex()
        asked = {'id': name, 'command': command, 'input': base64.b64encode(data).decode(), 'patience': patience}
        with link:
            link.settimeout(patience + 10)
            try:
                link.sendall(json.dumps(asked).encode() + b'\n')
                return self.answer(link, name)
            except OSError as fault:
                raise Gone(f'{self.name} doesn\'t answer') from fault

    def answer(self, link, name):
        """The answer to a command."""
        kept = b''
        while True:
            got = link.recv(1 << 20)
            if not got:
                raise Gone(f'{self.name} is gone')
            *lines, kept = (kept + got).split(b'\n')
            for line in lines:
                try:
                    answer = json.loads(line)
                except ValueError:
                    # (a rest of an answer that nobody waited for)
                    continue
                if answer['id'] == name:
                    return answer['status'], base64.b64decode(answer['output'])

    def must(self, command, data=b'', patience=PATIENCE):
        """Runs a command that is to end well, and gives what it wrote."""
        status, output = self.run(command, data, patience)
        text = output.decode('utf-8', 'replace').strip()
        if status:
            raise Failed(f'{self.name}: `{command[:80]}` ends with {status}: {text[-300:]}')
        return text

    def says(self, command):
        """What a command writes, whatever its status."""
        return self.run(command)[1].decode('utf-8', 'replace').strip()

    def burden(self, seconds):
        """Has programs reckon and write in the machine for so many seconds, and doesn't wait."""
        self.must(f'systemd-run --quiet --collect --unit=busy stress-ng --cpu 2 --io 1 --timeout {seconds:.0f}')

    def put(self, file, place, mode='644'):
        """Copies a file into the machine."""
        self.must(f'mkdir -p $(dirname {place}); : >{place}; chmod {mode} {place}')
        with open(file, 'rb') as source:
            for part in iter(lambda: source.read(PART), b''):
                self.must(f'cat >>{place}', part)

    def write(self, place, text):
        """Writes a file in the machine."""
        self.must(f'mkdir -p $(dirname {place}); cat >{place}; chmod 644 {place}', text.encode())

    def get(self, place):
        """The octets of a file in the machine."""
        parts = []
        while not parts or len(parts[-1]) == TAKEN:
            status, part = self.run(f'[ -r {place} ] && tail -c +{TAKEN * len(parts) + 1} {place} | head -c {TAKEN}')
            if status:
                raise Failed(f'{self.name}: {place} can\'t be read')
            parts.append(part)
        return b''.join(parts)

    def ready(self, longest=BOOTED):
        """Waits until it has booted, and gives how the system says that it runs."""
        until = time.monotonic() + longest
        while time.monotonic() < until:
            try:
                # (an agent that is asked before it has started loses the question)
                status, output = self.run('systemctl is-system-running --wait', patience=20)
                if status >= 0 and output.strip() not in (b'', b'starting', b'initializing', b'offline'):
                    return output.decode().strip()
            except Gone:
                time.sleep(OFTEN)
        raise Gone(f'{self.name} hasn\'t booted after {longest} s')

    def monitor(self, command, **arguments):
        """A command for QEMU."""
        with connect(self.path('qmp'), 10) as link, link.makefile('rw') as file:
            file.readline()
            for one in ({'execute': 'qmp_capabilities'}, {'execute': command, 'arguments': arguments}):
                file.write(json.dumps(one) + '\n')
                file.flush()
                answer = {}
                while 'return' not in answer and 'error' not in answer:
                    answer = json.loads(file.readline())
        if 'error' in answer:
            raise Failed(f'{self.name}: QEMU says of {command}: {answer["error"]["desc"]}')
        return answer['return']

    def pull(self):
        """Pulls its cable."""
        self.monitor('set_link', name='cable', up=False)

    def plug(self):
        """Plugs its cable in again."""
        self.monitor('set_link', name='cable', up=True)
