"""Another reference clock of chronyd, for tests: sends samples to a socket, twice a second: `feed_other.py SOCKET SECONDS`."""
import os
import socket
import sys
import time

sys.dont_write_bytecode = True
sys.path.insert(0, os.path.dirname(os.path.dirname(os.path.realpath(__file__))))

from tsp_daemon import feed  # noqa: E402


def main(path, seconds):
    with socket.socket(socket.AF_UNIX, socket.SOCK_DGRAM) as link:
        for _ in range(2 * int(seconds)):
            link.sendto(feed.packed(time.time_ns(), 3_000_000), path)
            time.sleep(0.5)


main(*sys.argv[1:])
