#!/bin/sh
# The scripts are sound by shellcheck, and the tools are Python that 3.8 reads, and take of each other only what is there.
. "$(dirname "$0")/common.sh"

# The files outside of crates/ and bench/ that git has or would take, whose first line or name is as this pattern says.
written_in() {
    git ls-files --cached --others --exclude-standard -- ':!crates' ':!bench' | sort -u | while IFS= read -r file; do
        # shellcheck disable=SC2254  # a pattern
        case "$file:$(head -n 1 "$file" | tr -d '\0')" in $1) printf '%s\n' "$file" ;; esac
    done
}

has git || { skip 'there is no git' 'which scripts there are'; exit; }
written_in '*:#!/bin/sh' >"$out/shell"
{ written_in '*.py:*'; written_in '*:#!*python3'; } | sort -u >"$out/python"
if has shellcheck; then
    # (awk programs stand in single quotes; what common.sh sets, also -e, is not known elsewhere)
    xargs shellcheck --exclude=SC1091,SC2015,SC2016,SC2154,SC2164 <"$out/shell" || fail 'shellcheck finds something'
    shellcheck --shell=bash completions/tsp.bash || fail 'shellcheck finds something'
else
    skip 'there is no shellcheck' 'whether the scripts are sound'
fi
while IFS= read -r file; do
    python3 -c 'import ast, sys; ast.parse(open(sys.argv[1], encoding="utf-8").read(), feature_version=(3, 8))' "$file" || fail "$file isn't read"
done <"$out/python"
{ cat "$out/python"; git ls-files -- 'bench' | while IFS= read -r file; do case $(head -n 1 "$file" | tr -d '\0') in '#!'*python3) printf '%s\n' "$file" ;; esac; done; } >"$out/all"
# shellcheck disable=SC2046  # a file each
python3 -B tools/tests/names.py $(cat "$out/all") 2>"$out/told" || fail "$(cat "$out/told")"
echo 'from tsp_texts import schedule; schedule.no_such_name' >"$out/wrong.py"
! python3 -B tools/tests/names.py "$out/wrong.py" 2>"$out/told" || fail 'a name that is not there is not found'
# Only a check that waits in real time may be tried again: one that sleeps, runs a daemon or a command of dev/, or gives a time limit. The others may not.
grep -v '^#' .ci/real-time >"$out/again"
sort -u "$out/again" | cmp -s - "$out/again" || fail '.ci/real-time is not in order'
while IFS= read -r name; do
    [ -x "tools/tests/$name.sh" ] || fail ".ci/real-time names $name, which is no check"
    grep -qE 'sleep|serving_program|timeout|systemd' "tools/tests/$name.sh" || fail ".ci/real-time names $name, which doesn't wait"
done <"$out/again"
for name in audit bad_inputs commands completion deb documents first-master forecast gate gateway hostile icmp learning limits lint next-master pages plain plot premises replay round scripts sim unit wireshark; do
    ! grep -qx "$name" "$out/again" || fail ".ci/real-time names $name, which has nothing to wait for"
done
echo "$check: $(wc -l <"$out/shell") of shell and $(wc -l <"$out/python") of Python"
