"""Tells systemd of a service: nothing, where it wasn't started by systemd."""
import os
import socket

# The least seconds between two messages, and after how many one that couldn't be sent is sent again.
APART, AGAIN = 1, 10


class Systemd:
    """What systemd was told last, and what it is told next."""

    def __init__(self, loop, say):
        self.path = os.environ.pop('NOTIFY_SOCKET', '')
        self.address = '\0' + self.path[1:] if self.path.startswith('@') else self.path
        self.loop, self.say, self.last, self.next, self.told_at = loop, say, None, None, -APART
        self.is_faulty = False

    def tell(self, *lines):
        """Sends these lines, unless they were the last ones: at once, or when a second has passed since the last ones. Of several that wait
        the last ones are sent."""
        self.next = lines
        self.loop.at('systemd', max(self.loop.now(), self.told_at + APART), self.send)

    def end(self):
        """Says at once that the service ends."""
        self.next = ('STOPPING=1',)
        self.send()

    def hand_on(self):
        """Lets the program that this process becomes tell systemd."""
        if self.path:
            os.environ['NOTIFY_SOCKET'] = self.path

    def send(self):
        """Sends what waits, without waiting for systemd; that it couldn't be sent is said once."""
        lines, self.next = self.next, None
        if not self.address or lines is None or lines == self.last:
            return
        self.told_at = self.loop.now()
        try:
            with socket.socket(socket.AF_UNIX, socket.SOCK_DGRAM) as link:
                link.setblocking(False)
                link.sendto('\n'.join(lines).encode('ascii', 'replace'), self.address)
            self.last, self.is_faulty = lines, False
        except OSError as fault:
            if not self.is_faulty:
                self.say(f'systemd isn\'t told: {fault.strerror}; it is tried again')
            self.next, self.is_faulty = lines, True
            self.loop.after('systemd', AGAIN, self.send)
