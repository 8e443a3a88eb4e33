#!/bin/sh
# The page of the network's time: by tsp_clock.h and by tsp_clock.py, against replay, and while it is written. TSP_MOMENTS says how many
# moments are compared, and how often a page is read while it is written; 30000 if left out.
. "$(dirname "$0")/common.sh"
serving_program
flags='-O2 -Wall -Wextra -Wconversion -Werror -Itools'
has cc || { skip 'there is no cc' "the page of the network's time"; exit; }
# The header is one for both languages and both compilers.
tried=''
for compiler in 'gcc -std=c99' 'clang -std=c99' 'g++ -xc++ -std=c++11' 'clang++ -xc++ -std=c++11'; do
    has "${compiler%% *}" || { skip "there is no ${compiler%% *}" 'the header with it'; continue; }
    # shellcheck disable=SC2086  # words
    $compiler $flags -o "$out/reader" tools/tests/clock_reader.c || fail "$compiler warns"
    tried="$tried, ${compiler%% *}"
done
# shellcheck disable=SC2086
cc -std=c99 $flags -o "$out/reader" tools/tests/clock_reader.c
# What the README and the page show is a program as it stands.
sed -n '/^#include <tsp_clock.h>/,/^ *printf/p' README.md >"$out/shown"
{ printf '#include <stdio.h>\n'; sed -n 1p "$out/shown"; printf 'int main(void)\n{\n'; sed 1d "$out/shown"; printf 'return 0;\n}\n'; } >"$out/readme.c"
# (man's example escapes its backslashes)
sed -n '/^#define _POSIX_C_SOURCE/,/^}/p' man/tsp_clock.3 | sed 's/\\\\/\\/g' >"$out/page.c"
sed -n '/^#define _POSIX_C_SOURCE/,/^}/p' docs/PROGRAMS.md >"$out/programs.c"
for shown in readme page programs; do
    # shellcheck disable=SC2086
    cc -std=gnu99 $flags -o "$out/$shown" "$out/$shown.c" || fail "what $shown shows is no program"
done
# What the page shows to read the master's name by.
{
    printf '#define _POSIX_C_SOURCE 200809L\n#include <stdio.h>\n#include <tsp_clock.h>\nint main(void)\n{\ntsp_clock clock;\ntsp_time now;\n'
    printf 'if (tsp_clock_open(&clock, NULL) != 0 || tsp_clock_now(&clock, &now) != TSP_SYNCHRONISED)\nreturn 1;\n'
    sed -n '/^char master\[256\]/,/^\.EE/p' man/tsp_clock.3 | sed '$d'
    printf 'puts(master);\nreturn 0;\n}\n'
} >"$out/master.c"
# shellcheck disable=SC2086
cc -std=c99 $flags -o "$out/master" "$out/master.c" || fail "what the page shows doesn't read a master's name"
rm -f "$out/led"
python3 -B tools/tests/made_page.py "$out/led" -3500:3500 0
[ "$(TSP_CLOCK="$out/led" "$out/master")" = b ] || fail "the master's name is '$(TSP_CLOCK="$out/led" "$out/master")'"
# A host that leads, and whose look is still that of the time when it followed: no name in C, as in Python.
python3 -B -c "
import sys, time
sys.path[:0] = 'tools', 'tools/tests'
import made_page, tsp_clock
page = made_page.following(time.time_ns() // 1000)
made_page.write('$out/led', page._replace(daemon=page.daemon._replace(role=tsp_clock.LEADS)))"
[ -z "$(TSP_CLOCK="$out/led" "$out/master")" ] || fail "a host that leads has the former master's name, '$(TSP_CLOCK="$out/led" "$out/master")'"
[ -z "$(TSP_CLOCK="$out/led" python3 -B -c 'import sys; sys.path.insert(0, "tools"); import tsp_clock; print(tsp_clock.Clock().now().master)')" ] ||
    fail 'in Python a host that leads has the former master'
sed -n '/^import tsp_clock/,/^ *print/p' README.md >"$out/readme.py"
sed -n '/^import tsp_clock/,/^```/p' docs/PROGRAMS.md | sed '$d' >"$out/programs.py"
[ "$(wc -l <"$out/shown") $(wc -l <"$out/readme.py")" = '4 4' ] || fail 'the README shows no four lines'
# Writes a page, as tools/tests/made_page.py makes it.
made() {
    python3 -B -c "
import sys
sys.path[:0] = 'tools', 'tools/tests'
import made_page, tsp_clock
made_page.write('$out/led', $1)"
}
# At each status these print an interval or none; PROGRAMS's also take that of a master that is gone, and say which status has none.
for status in 2 1 3 0; do
    python3 -B tools/tests/made_page.py "$out/led" "$status" 0
    for command in "$out/readme" 'python3 -B '"$out/readme.py" "$out/page" "$out/programs" 'python3 -B '"$out/programs.py"; do
        TSP_CLOCK="$out/led" PYTHONPATH=tools $command >"$out/said" 2>"$out/told" || [ "$status" -lt 2 ] || fail "'$command' fails"
        case $status-$command in 2-* | 3-*programs* | 3-"$out/page") wanted=1 ;; *) wanted=0 ;; esac
        [ "$(grep -cE '^1[0-9]{15} to 1[0-9]{15}( us)?$' "$out/said")" -eq "$wanted" ] || fail "at status $status '$command' says $(cat "$out/said")"
        case $wanted-$command in 0-*programs*) grep -qx "no interval: status $status" "$out/said" "$out/told" || fail "at status $status '$command' says $(cat "$out/said" "$out/told")" ;; esac
    done
done
# The examples say how they are called, and what can't be opened, in one line; a store takes no line without a value.
says_one_line() {
    wanted=$1 line=$2 status=0
    shift 2
    PYTHONPATH=tools "$@" >"$out/said" 2>"$out/told" </dev/null || status=$?
    [ "$status" -eq "$wanted" ] && [ ! -s "$out/said" ] && [ "$(cat "$out/told")" = "$line" ] || fail "'$*': status $status, $(cat "$out/said" "$out/told")"
}
for words in '' 'a b'; do
    # shellcheck disable=SC2086  # words
    says_one_line 2 'usage: logger.py NAME' python3 -B examples/logger.py $words
    # shellcheck disable=SC2086
    says_one_line 2 'usage: store.py JOURNAL | --read FILE..' python3 -B examples/store.py $words
done
# A stamp in C: at status 2 alone, past the interval and 40 ms, with the master's name; and none if another clock counts meanwhile.
# shellcheck disable=SC2086
cc -std=c99 $flags -o "$out/stamp" examples/stamp.c || fail 'the example that stamps warns'
for status in 0 1 3; do
    python3 -B tools/tests/made_page.py "$out/led" "$status" 0
    says_one_line 1 "no stamp: status $status" env TSP_CLOCK="$out/led" "$out/stamp"
done
says_one_line 1 "there is no page of the network's time: No such file or directory" env TSP_CLOCK="$out/none" "$out/stamp"
python3 -B tools/tests/made_page.py "$out/led" -3500:3500 0
before=$(date +%s%6N)
TSP_CLOCK="$out/led" "$out/stamp" >"$out/said" || fail 'there is no stamp at status 2'
after=$(date +%s%6N) stamp=$(sed -n 's/^\([0-9]*\) us, by b$/\1/p' "$out/said")
[ "$stamp" -gt $((before + 3000)) ] && [ $((stamp + 36000)) -lt "$after" ] || fail "between $before and $after '$(cat "$out/said")' was printed"
python3 -B tools/tests/made_page.py "$out/led" -1000000:1000000 0
{ sleep 0.05 && python3 -B tools/tests/made_page.py "$out/led" 2 0 0 2; } &
says_one_line 1 "no stamp: another clock counts now, or its name isn't known yet" env TSP_CLOCK="$out/led" "$out/stamp"
wait
says_one_line 1 "logger.py: $out/none: No such file or directory" env TSP_CLOCK="$out/none" python3 -B examples/logger.py a
says_one_line 1 "store.py: $out/none: No such file or directory" env TSP_CLOCK="$out/none" python3 -B examples/store.py "$out/journal"
says_one_line 1 "store.py: $out/none: No such file or directory" python3 -B examples/store.py --read "$out/none"
python3 -B tools/tests/made_page.py "$out/led" 2 0
printf '%s\n' 'a 1' key 'b 2 3' | TSP_CLOCK="$out/led" PYTHONPATH=tools python3 -B examples/store.py "$out/journal" >"$out/said"
[ "$(paste -sd ' ' "$out/said")" = 'done refused done' ] || fail "a store answers $(cat "$out/said")"
[ "$(PYTHONPATH=tools python3 -B examples/store.py --read "$out/journal" 2>&1 | paste -sd ,)" = 'a 1,b 2 3' ] || fail "a store holds $(cat "$out/journal")"
# If another clock counts when the wait is over, a store takes no write.
python3 -B - >"$out/said" <<'END'
import io
import sys
sys.path.insert(0, 'tools')
from tsp_clock import FOLLOWS, HOLDING, SYNCHRONISED, Now
with open('examples/store.py', encoding='utf-8') as file:
    store = {}
    exec(file.read().partition('\ntry:\n')[0], store)
first = Now(10 ** 15, 10 ** 15, 10 ** 15 + 9, SYNCHRONISED, 0, 1, 0, FOLLOWS, 'a')
later = first._replace(earliest=2 * 10 ** 15, latest=2 * 10 ** 15)


class Given:
    def __init__(self, *given):
        self.given = list(given)

    def now(self):
        return self.given.pop(0)


for change in {}, {'status': HOLDING}, {'master': 'b'}, {'life': 2}, {'steps': 1}:
    journal = io.StringIO()
    print(store['write'](Given(first, later, later._replace(**change)), journal, 'a 1'), len(journal.getvalue().splitlines()))
END
[ "$(paste -sd , "$out/said")" = 'done 1,unsure 0,unsure 0,unsure 0,unsure 0' ] || fail "a store that finds another clock after its wait answers $(cat "$out/said")"
# A wait is as long as it is said: the longest ones overflow nothing, and the shortest ones don't wait. (the page's interval is 300 ms wide)
made 'made_page.following(10 ** 15, width=150000)'
for longest in 9223372036854775807:1 9223372036854775:1 9223372036854776:1 4611686018427387:1 10000000:1 0:0 -1:0 -9223372036854775808:0; do
    "$out/reader" after "$out/led" "${longest%:*}" >"$out/said" && [ "$(cat "$out/said")" = "${longest#*:}" ] || fail "a wait for ${longest%:*} us says $(cat "$out/said")"
done
# Where no daemon runs the status is 0, also on a machine that has been up for less than a page lasts.
made 'made_page.leading(10 ** 15)'
python3 -B - "$out/led" >"$out/said" <<'END'
import sys
import time
sys.path[:0] = 'tools', 'tools/tests'
import made_page
import tsp_clock
made_page.end(sys.argv[1])
time.clock_gettime_ns = lambda _: 5 * 10 ** 9
print(tsp_clock.Clock(sys.argv[1]).now().status)
END
[ "$(cat "$out/said")" = 0 ] || fail "a machine that has just come up, without a daemon, has the status $(cat "$out/said")"
# What was kept of a read is used only as long as nobody has written the page since.
made 'made_page.following(10 ** 15, rest=1000000)'
"$out/reader" kept "$out/led" 100000 >"$out/said" && [ "$(cat "$out/said")" = 100000 ] || fail "a read by what was kept: $(cat "$out/said")"
# If there is no room for a page there is none, and the system ends neither its writer nor its readers.
cat >"$out/roomless" <<'END'
import sys
sys.path.insert(0, 'tools')
import tsp_clock
from tsp_supervise.page import PageFile
for made in PageFile, tsp_clock.Clock:
    try:
        made(sys.argv[1])
        sys.exit('there is a page where there is no room for one')
    except OSError:
        pass
END
if unshare -rm true 2>/dev/null; then
    mkdir "$out/small"
    # shellcheck disable=SC2016  # for the shell that is begun
    unshare -rm sh -c 'mount -t tmpfs -o size=16k none "$1" && ! cp /dev/zero "$1/other" 2>/dev/null && exec python3 -B "$2" "$1/page"' sh "$out/small" "$out/roomless" ||
        fail 'a page without room ends its writer or a reader'
else
    skip 'there are no namespaces' 'a page without room'
fi
# The header tells what the proved functions tell, of a million pages. TSP_PAGES says of how many.
library=crates/tsp_page_c/out/libtsp_page_c.a
judged=''
[ -e "$library" ] || ! has rt || (cd crates/tsp_page_c && rt lib >"$out/made" 2>&1) || fail "there is no $library: $(tail -n 3 "$out/made")"
if [ -e "$library" ]; then
    # shellcheck disable=SC2086
    cc -std=c99 -O2 -Wall -Wextra -Werror -Itools -o "$out/judge" tools/tests/clock_judge.c "$library" || fail 'there is no judge of pages'
    "$out/judge" "${TSP_PAGES:-1000000}" "${TSP_SEED:-1}" >"$out/said" || fail "the header tells something else than the proved functions: $(cat "$out/said")"
    awk '{ for (i = 1; i < NF; i += 2) if ($i < 1000) exit 1 } END { exit NR != 1 }' "$out/said" || fail "there are too few pages of a status: $(cat "$out/said")"
    judged=", ${TSP_PAGES:-1000000} pages as the proved functions have them"
else
    skip 'there is no rt' 'the header beside the proved functions'
fi
mkdir "$out/pages"
python3 tools/tests/clock.py "$program" "$out/reader" "$out/pages" "${TSP_MOMENTS:-30000}" "${TSP_SEED:-1}" >"$out/told" || fail 'the page is another one'
# A short form of dev/read-cost; how much a read may cost is looked at on a machine that has nothing else to do.
dev/read-cost --reads 500 --most 5 >"$out/cost" 2>"$out/said" || fail "$(cat "$out/cost" "$out/said")"
grep -q '^slewing  python ' "$out/cost" || fail "$(cat "$out/cost")"
for words in '--reads 0' a '--most x'; do
    status=0
    # shellcheck disable=SC2086  # words
    dev/read-cost $words >"$out/text" 2>"$out/said" || status=$?
    [ "$status" -eq 2 ] && [ "$(wc -l <"$out/said")" -eq 1 ] && [ ! -s "$out/text" ] || fail "'$words': status $status, $(cat "$out/said")"
done
echo "$check: $(cat "$out/told")$judged$tried; a read in C takes $(sed -n 's/.*, *\([0-9.]*\) times as long/\1/p' "$out/cost" | head -n 1) times as long as clock_gettime"
