#!/bin/sh
# The manual pages are read without a warning, know each option, and their examples give what they show.
. "$(dirname "$0")/common.sh"
has man && has groff || { skip 'there is no man or no groff' 'what the pages look like'; exit; }

version=$(./tsp --version)
for page in man/*.[1-8]; do
    LC_ALL=C.UTF-8 MANROFFSEQ='' MANWIDTH=100 man --warnings -E UTF-8 -l -Tutf8 -Z "$page" 2>"$out/warnings" >/dev/null || fail "$page isn't read"
    [ ! -s "$out/warnings" ] || fail "$page: $(head -n 1 "$out/warnings")"
    grep -q "^\.TH .* \"$version\" " "$page" || fail "$page isn't of $version"
done

# A page's text, in wide lines.
text_of() {
    LC_ALL=C.UTF-8 MANWIDTH=240 man -P cat -l "$1" | sed 's/.\x08//g'
}

for tool in tsp-demo tsp-lint tsp-plot tsp-sim tsp-launch tsp-status tsp-elect tsp-watch tsp-now tsp-feed tsp-run tsp-witness; do
    page=$(echo "man/$tool".[1-8])
    "tools/$tool" --help | grep -o -e '--[a-z][a-z-]*' | sort -u >"$out/options"
    text_of "$page" | sed -n '/^OPTIONS/,/^EXIT STATUS/p' | grep -o -e '--[a-z][a-z-]*' | sort -u >"$out/told"
    sort -u "$out/options" | cmp -s - "$out/told" || fail "$page tells of other options than $tool --help"
done

# The page of all statuses has those of each tool's own page. (tsp-launch has those of the daemon too)
for tool in tsp-demo tsp-elect tsp-feed tsp-lint tsp-now tsp-plot tsp-sim tsp-status tsp-watch tsp-witness; do
    sed -n '/^\.SH EXIT STATUS/,/^\.\(SH [^E]\|PP\)/p' "$(echo "man/$tool".[18])" | awk '/^\.TP/ { getline; sub(/^\.B /, ""); print }' | grep -v -x -e 0 -e 130 >"$out/own"
    sed -n "s/^$tool  *\([0-9].*\)/\1/p" man/tsp-statuses.7 | tr ',' '\n' | awk '{ print $1 }' >"$out/table"
    cmp -s "$out/own" "$out/table" || fail "tsp-statuses has other statuses of $tool than its page: $(paste -sd ' ' "$out/table"), and not $(paste -sd ' ' "$out/own")"
done

# Each tool tells the version of the program, which its letters and statuses belong to: wrong arguments are 2, and a letter means one option in all.
for tool in tools/tsp-*; do
    [ -x "$tool" ] && [ -f "$tool" ] || continue
    name=${tool#tools/}
    [ "$("$tool" --version </dev/null)" = "$name ${version#tsp }" ] || fail "$tool --version says '$("$tool" --version </dev/null)'"
    status=0
    "$tool" --no-such-word >"$out/said" 2>"$out/told" </dev/null || status=$?
    [ "$status" -eq 2 ] && [ ! -s "$out/said" ] && [ "$(wc -l <"$out/told")" -eq 1 ] || fail "of wrong arguments $tool says '$(cat "$out/told")', status $status"
    "$tool" --help | sed -n 's/^ *-\([a-zA-Z]\)[A-Z ]*, \(--[a-z-]*\).*/\1 \2/p'
done | sort -u >"$out/letters"
[ "$(wc -l <"$out/letters")" -ge 10 ] || fail 'the letters of the tools are not read'
awk '{ print $1 }' "$out/letters" | uniq -d >"$out/twice"
[ ! -s "$out/twice" ] || fail "two options have the letter $(cat "$out/twice"): $(cat "$out/letters")"

# The examples: what stands behind `$` is run, and what follows up to the next `$` or empty line is what it gives.
mkdir "$out/try"
for tool in tools/tsp-*; do ln -s "$PWD/$tool" "$out/bin/${tool#tools/}"; done
ln -s "$PWD/tsp" "$out/bin/tsp"
cp examples/election.tsp daemon/hosts tools/tests/watch.trace "$out/try"
sed '6s/turn 0/turn a/' tools/tests/lint.tsp >"$out/try/broken.tsp"
count=0
for page in man/*.[18]; do
    text_of "$page" | sed -n '/^EXAMPLES/,/^SEE ALSO/p' | sed 's/^       //' >"$out/examples"
    awk -v out="$out/example" '
        /^\$ / { at++; file = out "-" at; print substr($0, 3) > (file ".sh"); printf "" > (file ".wanted"); next }
        /^$/ { file = "" }
        file != "" { print > (file ".wanted") }
    ' "$out/examples"
    for example in "$out"/example-*.sh; do
        [ -e "$example" ] || continue
        (cd "$out/try" && sh "$example") >"$out/given" || :
        cmp -s "$out/given" "${example%.sh}.wanted" || fail "$page: '$(cat "$example")' gives '$(cat "$out/given")'"
        count=$((count + 1))
    done
    rm -f "$out"/example-*
done
[ "$count" -ge 11 ] || fail "only $count examples were tried"
echo "$check: each page of man, and $count examples"
