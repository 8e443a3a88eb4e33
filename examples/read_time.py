#!/usr/bin/env python3
"""Prints the network's time once a second, with the interval in which the master's clock lies."""
import time

import tsp_clock

WORDS = {tsp_clock.STALE: 'the daemon doesn\'t run', tsp_clock.WAITING: 'waits for a master', tsp_clock.SYNCHRONISED: 'synchronised', tsp_clock.HOLDING: 'had a master'}

clock = tsp_clock.Clock()
while True:
    now = clock.now()
    text = f'{(now.shown or 0) / 1e6:.6f}, '
    if now.earliest is not None:
        text += f'from {now.shown - now.earliest} us earlier to {now.latest - now.shown} us later, '
    print(text + WORDS[now.status], flush=True)
    time.sleep(1)
