"""The disk that all machines share: Debian by mmdebstrap, with a small first disk, an agent, and a name and an address by the kernel's line."""
import os
import shutil
import subprocess

HERE = os.path.dirname(os.path.realpath(__file__))
PACKAGES = ('systemd', 'systemd-sysv', 'dbus', 'udev', 'kmod', 'linux-image-amd64', 'initramfs-tools', 'chrony', 'nftables', 'wireguard-tools', 'python3',
            'libfaketime', 'iproute2', 'iputils-ping', 'logrotate', 'procps', 'util-linux', 'stress-ng', 'e2fsprogs', 'apparmor', 'apparmor-utils',
            'needrestart', 'prometheus-node-exporter', 'curl')
SUITE, SIZE = 'bookworm', '2G'
UNWANTED = ('apt-daily.timer', 'apt-daily-upgrade.timer', 'fstrim.timer', 'e2scrub_all.timer', 'dpkg-db-backup.timer', 'e2scrub_reap.service', 'systemd-timesyncd.service',
            'systemd-binfmt.service', 'getty.target')
# What the first disk has: without KVM a large one takes long to unpack.
DRIVERS = ('virtio_pci', 'virtio_blk', 'ext4', 'crc32c_generic')
# A machine has number N by the word machine=N of the kernel's line, the name mN and the address 10.77.0.N.
NAMED = r'''#!/bin/sh
number=$(sed -n 's/.*machine=\([0-9]*\).*/\1/p' /proc/cmdline)
mkdir -p /run/systemd/network
printf '[Match]\nType=ether\n[Network]\nAddress=10.77.0.%s/24\nAddress=fd77::%s/64\nLinkLocalAddressing=ipv6\nIPv6AcceptRA=no\n' \
    "$number" "$number" >/run/systemd/network/10-cable.network
hostname "m$number"
echo "m$number" >/etc/hostname
grep -q " m$number\$" /etc/hosts || echo "127.0.1.1 m$number" >>/etc/hosts
'''
NAMED_UNIT = '''[Unit]
DefaultDependencies=no
Before=systemd-networkd.service network-pre.target
After=local-fs.target
Wants=network-pre.target

[Service]
Type=oneshot
ExecStart=/usr/local/sbin/machine-named

[Install]
WantedBy=multi-user.target
'''
AGENT_UNIT = '''[Unit]
DefaultDependencies=no
After=local-fs.target systemd-udevd.service

[Service]
ExecStart=/usr/local/sbin/machine-agent
Restart=always
RestartSec=1
OOMScoreAdjust=-1000

[Install]
WantedBy=multi-user.target
'''


def call(*words):
    """Runs a command that is to end well."""
    subprocess.run(words, check=True, stdout=subprocess.DEVNULL)


def write(root, place, text, mode=0o644):
    """Writes a file below a folder that becomes the disk."""
    path = os.path.join(root, place.lstrip('/'))
    with open(path, 'w', encoding='ascii') as file:
        file.write(text)
    os.chmod(path, mode)


def unpack(folder):
    """Debian's files in a folder, which mmdebstrap makes once."""
    packed, root = os.path.join(folder, 'root.tar'), os.path.join(folder, 'root')
    if not os.path.exists(packed):
        call('mmdebstrap', '--quiet', '--format=tar', '--variant=apt', f'--include={",".join(PACKAGES)}', SUITE, f'{packed}.new')
        os.rename(f'{packed}.new', packed)
    shutil.rmtree(root, ignore_errors=True)
    os.makedirs(root)
    call('tar', '-xf', packed, '-C', root)
    return root


def set_up(root):
    """What makes a machine of these files."""
    with open(os.path.join(HERE, 'agent.py'), encoding='ascii') as agent:
        write(root, '/usr/local/sbin/machine-agent', agent.read(), 0o755)
    write(root, '/usr/local/sbin/machine-named', NAMED, 0o755)
    write(root, '/etc/systemd/system/machine-named.service', NAMED_UNIT)
    write(root, '/etc/systemd/system/machine-agent.service', AGENT_UNIT)
    write(root, '/etc/fstab', '/dev/vda / ext4 defaults 0 0\n')
    write(root, '/etc/resolv.conf', '')
    # (a machine that boots for the first time would set up all units anew, for a minute)
    write(root, '/etc/machine-id', f'{os.urandom(16).hex()}\n', 0o444)
    call('chroot', root, 'systemctl', '--quiet', 'enable', 'machine-named', 'machine-agent', 'systemd-networkd', 'systemd-networkd-wait-online')
    call('chroot', root, 'systemctl', '--quiet', 'set-default', 'multi-user.target')
    # (nothing of Debian's own work comes in between; scenarios turn on what they need)
    call('chroot', root, 'systemctl', '--quiet', 'disable', 'chrony', 'prometheus-node-exporter')
    call('chroot', root, 'systemctl', '--quiet', 'mask', *UNWANTED)
    call('chroot', root, 'passwd', '--quiet', '-d', 'root')


def boot_files(root, folder):
    """The kernel and the first disk."""
    call('sed', '-i', 's/^MODULES=.*/MODULES=list/', os.path.join(root, 'etc/initramfs-tools/initramfs.conf'))
    write(root, '/etc/initramfs-tools/modules', '\n'.join(DRIVERS) + '\n')
    call('chroot', root, 'update-initramfs', '-u')
    for begins, name in (('vmlinuz', 'kernel'), ('initrd.img', 'initrd')):
        found = max(one for one in os.listdir(os.path.join(root, 'boot')) if one.startswith(begins))
        shutil.copy(os.path.join(root, 'boot', found), os.path.join(folder, name))


def made(folder):
    """Makes the disk, the kernel and the first disk in a folder, where they aren't there yet."""
    disk = os.path.join(folder, 'disk')
    if os.path.exists(disk):
        return
    root = unpack(folder)
    set_up(root)
    boot_files(root, folder)
    call('truncate', '-s', SIZE, f'{disk}.new')
    call('mke2fs', '-q', '-F', '-t', 'ext4', '-E', 'lazy_itable_init=0', '-d', root, f'{disk}.new')
    os.rename(f'{disk}.new', disk)
    shutil.rmtree(root)
