# What the checks have in common, those of the tools and .ci/daemon.sh. A check runs at the repository's top, and ends with
# status 1 at the first thing that isn't as it should be.
# shellcheck shell=sh
set -eu
cd "$(dirname "$0")"
until [ -e crates.txt ]; do cd ..; done

# The name of this check.
check=$(basename "$0" .sh)

fail() {
    echo "$check: $1" >&2
    exit 1
}

# Says what isn't tried, and why.
skip() {
    echo "$check: $1, so $2 isn't tried"
}

has() {
    command -v "$1" >/dev/null
}

# Sets `program` to the program, or to that of TSP_PROGRAM, which has to serve.
serving_program() {
    program=${TSP_PROGRAM:-crates/tsp_cli/out/tsp_cli}
    [ -n "${TSP_PROGRAM:-}" ] || ./tsp show </dev/null || fail "the program isn't there"
    # (an address that isn't this machine's can't be bound)
    status=0
    "$program" serve 192.0.2.1:525 a s 1 >"$out/said" 2>"$out/told" || status=$?
    [ "$status" -eq 5 ] || fail "an address that isn't this machine's ends with status $status"
}

# Notes the last process that was begun, so that it ends with the check.
running=''
note_process() {
    running="$running $!"
}

# Ends the processes that were noted, and waits for them.
end_all() {
    for process in $running; do
        kill "$process" 2>/dev/null || :
        wait "$process" 2>/dev/null || :
    done
    running=''
}

# So many ports of this machine that nobody has.
free_ports() {
    python3 - "$1" <<'END'
import socket
import sys
sockets = [socket.socket(socket.AF_INET, socket.SOCK_DGRAM) for _ in range(int(sys.argv[1]))]
for each in sockets:
    each.bind(('127.0.0.1', 0))
print(*[each.getsockname()[1] for each in sockets])
END
}

# Interrupts a command after two seconds, and prints what it wrote and how it ended.
interrupted() {
    python3 - "$@" <<'END'
import signal
import subprocess
import sys
import time
# (a job in the background of a shell ignores interrupts, and so does what it starts)
run = subprocess.Popen(sys.argv[1:], stdin=subprocess.PIPE, stdout=subprocess.PIPE, stderr=subprocess.PIPE,
                       preexec_fn=lambda: signal.signal(signal.SIGINT, signal.SIG_DFL))
time.sleep(2)
run.send_signal(signal.SIGINT)
print(run.communicate(timeout=20), run.returncode)
END
}

out=$(mktemp -d)
trap 'end_all; rm -rf "$out"' EXIT
trap 'exit 130' INT
trap 'exit 143' TERM HUP

# (python3 may be a script that looks for one anew at each start)
mkdir "$out/bin"
ln -s "$(python3 -c 'import sys; print(sys.executable)')" "$out/bin/python3"
PATH=$out/bin:$PATH
