"""Reads the hosts file again for a daemon that runs."""
import hashlib
import os
import subprocess

from tsp_daemon import child
from tsp_supervise import log
from tsp_daemon.hosts import LAUNCH


def digest_of(text):
    """The digest of what is listed of a hosts file, as tsp-launch prints it."""
    return hashlib.sha256(text.encode('ascii', 'replace')).hexdigest()[:16]


class Reload:
    """Has tsp-launch read the hosts file by the variables with which it began. `changed` is called if the words or the peers' names are other ones then."""

    def __init__(self, loop, words, names, say, changed):
        self.loop, self.words, self.names, self.say, self.changed = loop, words, names, say, changed
        self.process, self.octets, self.then, self.is_wanted = None, b'', None, False

    def begin(self):
        """Begins to read the file; where it is read already, it is read once more afterwards."""
        if self.process:
            self.is_wanted = True
            return
        self.is_wanted = False
        self.ask('--print', self.compare_words)

    def ask(self, word, then):
        """Has tsp-launch print something of the file, and calls with that then."""
        self.octets, self.then = b'', then
        try:
            self.process = child.begin([LAUNCH, word], stdin=subprocess.DEVNULL, stdout=subprocess.PIPE)
        except OSError as fault:
            self.go_on(f'the hosts file isn\'t read again: {LAUNCH}: {fault.strerror}', log.FAULT)
            return
        self.loop.watch(self.process.stdout.fileno(), self.read)

    def read(self):
        """Reads what is printed, and hands it on at its end."""
        octets = os.read(self.process.stdout.fileno(), 65536)
        self.octets += octets
        if octets:
            return
        self.loop.unwatch(self.process.stdout.fileno())
        self.process.stdout.close()
        status, self.process = self.process.wait(), None
        if status:
            self.go_on('the hosts file isn\'t read again, and the daemon goes on as it was', log.WARNING)
        else:
            self.then(self.octets.decode('ascii', 'replace'))

    def compare_words(self, text):
        """Compares the words, which have the peers' addresses, and has the names read if they are the same."""
        if text.split() == self.words[1:]:
            self.ask('--list', self.compare_names)
        else:
            self.changed()

    def compare_names(self, text):
        """Compares the peers' names, in the order of the words."""
        name_at = {address: name for _, name, address, _ in (line.split() for line in text.splitlines())}
        if self.names and [name_at.get(word) for word in self.words[6:] if word != '+'] != self.names[1:]:
            self.changed()
        else:
            self.go_on(f'a hosts file with the digest {digest_of(text)} was read: the daemon goes on, since it is started with the same arguments')

    def go_on(self, text, level=log.NOTICE):
        """Says what came of it, and reads the file once more if that is wanted."""
        self.say(text, level)
        if self.is_wanted:
            self.begin()

    @staticmethod
    def begin_anew():
        """Becomes tsp-launch, which reads all anew."""
        os.execv(LAUNCH, [LAUNCH, '--supervise'])
