#!/usr/bin/python3
"""In a machine: runs commands that come as lines of JSON on a virtual serial port, each in a thread of its own, and answers in the same way."""
import base64
import json
import os
import subprocess
import threading

PORT = '/dev/virtio-ports/agent'
# How long nobody is at the other end before that is looked at again, in seconds.
NOBODY = 0.2


def run(request):
    """A command's status and output; the status is -1 where it took too long."""
    try:
        done = subprocess.run(request['command'], shell=True, executable='/bin/bash', input=base64.b64decode(request['input']),
                              stdout=subprocess.PIPE, stderr=subprocess.STDOUT, timeout=request['patience'], check=False)
        return {'status': done.returncode, 'output': base64.b64encode(done.stdout).decode()}
    except subprocess.TimeoutExpired as late:
        return {'status': -1, 'output': base64.b64encode(late.stdout or b'').decode()}


def main():
    """Answers until the machine ends."""
    port, lock = os.open(PORT, os.O_RDWR), threading.Lock()

    def answer(request):
        line = json.dumps({'id': request['id'], **run(request)}).encode() + b'\n'
        with lock:
            while line:
                line = line[os.write(port, line):]

    kept = b''
    while True:
        got = os.read(port, 65536)
        if not got:
            threading.Event().wait(NOBODY)
            continue
        *lines, kept = (kept + got).split(b'\n')
        for line in lines:
            try:
                request = json.loads(line)
            except ValueError:
                continue
            threading.Thread(target=answer, args=(request,), daemon=True).start()


main()
