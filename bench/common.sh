# What the benchmarks in shell have in common. It is read with the program as $1, if one is named; else the launcher builds it.
# shellcheck shell=sh disable=SC2034
set -eu
here=$(CDPATH='' cd -- "$(dirname -- "$0")/.." && pwd)
# A folder with inputs that others measure by, if there is one: each is packed by xz.
inputs=${BENCH_INPUTS:-$here/../shared/bench}
program=${1:-$("$here/tsp" --path)}
work=$(mktemp -d)
trap 'rm -rf "$work"' EXIT

fail() {
    echo "${0##*/}: $1" >&2
    exit 1
}

# Builds the plain program that does the same jobs.
build_plain() {
    command -v rustc >/dev/null || fail 'there is no rustc, which builds the plain program'
    rustc -O --edition 2024 -o "$work/plain" "$here/bench/plain/main.rs"
}

# The instructions of a command, which reads standard input; its output is left in this file.
count_to() {
    output=$1
    shift
    valgrind --tool=callgrind --callgrind-out-file=/dev/null "$@" >"$output" 2>"$work/counted" || fail "$*: $(tail -n 1 "$work/counted")"
    awk '/Collected :/ { print $NF }' "$work/counted"
}

# The peak of a command's memory, in KiB.
peak() {
    /usr/bin/time -f %M -o "$work/kib" "$@" >/dev/null
    cat "$work/kib"
}
