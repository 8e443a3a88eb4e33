"""The switch of the machines, and a cable to each, in a network namespace of the lab's own."""
import subprocess


def ip(*words):
    """Calls ip."""
    subprocess.run(['ip', *words], check=True)


class Switch:
    """A bridge in a namespace. What is begun in it by `inside` is on the wire beside the machines."""

    def __init__(self, name):
        self.name, self.cables = name, set()
        self.inside = ['ip', 'netns', 'exec', name]
        subprocess.run(['ip', 'netns', 'del', name], check=False, stderr=subprocess.DEVNULL)
        ip('netns', 'add', name)
        ip('-n', name, 'link', 'set', 'lo', 'up')
        ip('-n', name, 'link', 'add', 'switch', 'type', 'bridge')
        self.turn(True)

    def cable(self, name):
        """The cable of a machine, which is made where it isn't there yet."""
        if name not in self.cables:
            ip('-n', self.name, 'tuntap', 'add', name, 'mode', 'tap')
            ip('-n', self.name, 'link', 'set', name, 'master', 'switch', 'up')
            self.cables.add(name)
        return name

    def turn(self, is_on):
        """Turns it on or off, without a change of the machines' own ends."""
        ip('-n', self.name, 'link', 'set', 'switch', 'up' if is_on else 'down')

    def remove(self):
        """Takes it away, with all cables."""
        subprocess.run(['ip', 'netns', 'del', self.name], check=False)
