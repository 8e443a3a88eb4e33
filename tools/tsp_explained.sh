# What ./tsp at the top of the sources and the installed tsp have in common. `program` is the program, `tools` the folder of the tools.
# shellcheck shell=sh

# Runs the program, and explains the statuses 1 and 5. The system ends the program if this shell is killed.
run_explained() {
    status=0
    if [ -x /usr/bin/setpriv ]; then
        /usr/bin/setpriv --pdeathsig TERM "$program" "$@" || status=$?
    else
        "$program" "$@" || status=$?
    fi
    case $status in
    1 | 5) ! command -v python3 >/dev/null || python3 -I "$tools/tsp_daemon/explain.py" "$program" "$status" "$@" ;;
    esac
    exit "$status"
}

# Runs the program. Commands that have nothing to be explained take the place of this shell.
run() {
    case $#:${1:-} in
    1:-h | 1:help) exec "$program" --help ;;
    1:--help | 1:--version | 1:replay | 1:show | 1:pack | 1:icmp | 1:audit) exec "$program" "$@" ;;
    *) run_explained "$@" ;;
    esac
}
