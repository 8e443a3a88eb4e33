#!/bin/sh
# Runs the program, and says in one line more on standard error which argument is wrong, or which address failed and why, where it ends with 1 or 5.
[ ! -h "$0" ] || exec "$(readlink -f -- "$0")" "$@"
case $0 in */*) here=${0%/*} ;; *) here=. ;; esac
# shellcheck disable=SC2034  # for what is read next
tools=$here/../share/tsp program=$here/../lib/tsp/tsp
# shellcheck source=tools/tsp_explained.sh
. "$tools/tsp_explained.sh"
# (the package is of one version: the program's own has fewer parts)
case $#:${1:-} in
1:--version)
    read -r version <"$tools/version"
    printf 'tsp %s\n' "$version" 2>/dev/null || exit 4
    exit
    ;;
esac
run "$@"
