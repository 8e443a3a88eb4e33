"""What the lab of machines needs: root, programs of Debian, and a processor for the machines, which is KVM's where that runs them."""
import os
import shutil
import subprocess
import time

from lab.hosts import Failed

# Each program, and the package of Debian that has it.
PROGRAMS = (('qemu-system-x86_64', 'qemu-system-x86'), ('qemu-img', 'qemu-utils'), ('mmdebstrap', 'mmdebstrap'), ('mke2fs', 'e2fsprogs'),
            ('ip', 'iproute2'), ('cc', 'gcc'), ('tar', 'tar'))
# A machine that KVM runs gets to its first program in so many seconds.
TRIED = 20
KVM, TCG = 'kvm', 'tcg,thread=multi,tb-size=96'
# What the kernel writes when it starts the first program.
RUNS = b'Run /init as init process'


def missing():
    """What is missing, in a line; empty where nothing is."""
    lacking = [] if os.geteuid() == 0 else ['root, for switches and cables']
    lacking += [f'{program} (Debian\'s {package})' for program, package in PROGRAMS if not shutil.which(program)]
    if not os.path.exists('/dev/net/tun'):
        lacking.append('/dev/net/tun')
    return ', '.join(lacking)


def runs_by_kvm(kernel, initrd, console):
    """Whether KVM runs this kernel up to its first program, by what it writes to its console."""
    if not os.access('/dev/kvm', os.R_OK | os.W_OK):
        return False
    line = ['qemu-system-x86_64', '-nodefaults', '-display', 'none', '-accel', KVM, '-cpu', 'max', '-m', '256', '-kernel', kernel, '-initrd', initrd,
            '-append', 'console=ttyS0 panic=-1', '-no-reboot', '-serial', f'file:{console}']
    with open(console, 'wb'), subprocess.Popen(line, stdin=subprocess.DEVNULL, stdout=subprocess.DEVNULL, stderr=subprocess.DEVNULL) as machine:
        until = time.monotonic() + TRIED
        while time.monotonic() < until and machine.poll() is None:
            with open(console, 'rb') as written:
                if RUNS in written.read():
                    break
            time.sleep(0.2)
        machine.kill()
    with open(console, 'rb') as written:
        return RUNS in written.read()


def processor(folder):
    """By what machines run, and a line that says so. It is found once for an image."""
    noted = os.path.join(folder, 'processor')
    if not os.path.exists(noted):
        found = runs_by_kvm(os.path.join(folder, 'kernel'), os.path.join(folder, 'initrd'), os.path.join(folder, 'tried'))
        with open(noted, 'w', encoding='ascii') as file:
            file.write(KVM if found else TCG)
    with open(noted, encoding='ascii') as file:
        by = file.read()
    if by == KVM:
        return by, 'machines run by KVM'
    why = 'it doesn\'t run Debian\'s kernel' if os.path.exists('/dev/kvm') else 'there is no /dev/kvm'
    return by, f'machines run without KVM, since {why}: a program in them takes some ten times as long'


def wanted():
    """Ends where something is missing."""
    lacking = missing()
    if lacking:
        raise Failed(f'this needs {lacking}')
