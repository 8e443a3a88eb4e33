#!/bin/sh
# What the documents show behind `$` gives what they show below it, and what they point to is there.
. "$(dirname "$0")/common.sh"

count=0
for document in README.md docs/*.md examples/README.md; do
    awk -v out="$out/example" '
        /^```/ { inside = !inside; file = ""; next }
        inside && /^\$ / { file = out "-" ++at; print substr($0, 3) > (file ".sh"); printf "" > (file ".wanted"); next }
        inside && file != "" { print > (file ".wanted") }
    ' "$document"
    for example in "$out"/example-*.sh; do
        [ -e "$example" ] || continue
        sh "$example" >"$out/given" || fail "$document: '$(cat "$example")' ends with status $?"
        cmp -s "$out/given" "${example%.sh}.wanted" || fail "$document: '$(cat "$example")' gives '$(cat "$out/given")'"
        count=$((count + 1))
    done
    rm -f "$out"/example-*

    # Files that a link names, relative to the document.
    grep -o ']([^)#:]*)' "$document" | sed 's/^](//; s/)$//' >"$out/links" || :
    while IFS= read -r link; do
        [ -e "$(dirname "$document")/$link" ] || fail "$document points to $link, which isn't there"
    done <"$out/links"
done
# Places that a link names behind #, in this or another document.
python3 -B - README.md docs/*.md examples/README.md dev/README.md tools/README.md debian/README.md <<'END' || fail 'a link leads to no heading'
import os, re, sys
def text_of(path):
    with open(path, encoding='utf-8') as file:
        return re.sub('^```.*?^```', '', file.read(), flags=re.M | re.S)
def headings(path):
    return {re.sub('[^a-z0-9 _-]', '', found.lower()).replace(' ', '-') for found in re.findall('^#+ (.*)$', text_of(path), re.M)}
faults = []
for path in sys.argv[1:]:
    for file, place in re.findall(r'\]\(([^)#:]*)#([^)]*)\)', text_of(path)):
        target = os.path.join(os.path.dirname(path), file) if file else path
        if not os.path.exists(target) or place not in headings(target):
            faults.append(f'{path}: {file}#{place}')
print('\n'.join(faults), file=sys.stderr, end='\n' if faults else '')
sys.exit(bool(faults))
END
dev/headline --check || fail 'docs/HEADLINE.md, its annex or docs/NETWORK.md is out of date: dev/headline writes them'
python3 tools/tests/headline_names.py >"$out/names" || fail 'a name of docs/HEADLINE.md, its annex or docs/NETWORK.md stands for two things'
[ "$(wc -w <docs/HEADLINE.md)" -le 25000 ] || fail 'docs/HEADLINE.md is more than an evening takes'
dev/wrap --check || fail 'a line of a definition or a proof has more than 160 characters: dev/wrap breaks it'
dev/sizes --check || fail 'the sizes of crates in docs/ARCHITECTURE.md are others: dev/sizes writes them'
dev/layers --check || fail 'docs/layers.svg is out of date: dev/layers writes it'
dev/premises --check || fail 'docs/PROGRESS.md says something else of what laws ask for'
python3 tools/tests/proofs.py || fail 'docs/PROOFS.md names what is not there'
[ "$count" -ge 4 ] || fail "only $count examples were tried"
# The README is short, and no line of these pages is wide but in tables.
[ "$(wc -l <README.md)" -le 100 ] || fail 'README.md has more than 100 lines'
awk 'length > 120 { exit 1 }' README.md || fail 'a line of README.md has more than 120 columns'
for document in docs/FORMATS.md docs/DECISIONS.md docs/PROOFS.md docs/PROMISES.md docs/LINES.md docs/WIRESHARK.md examples/README.md; do
    awk 'length > 160 && !/^\|/ { exit 1 }' "$document" || fail "a line of $document has more than 160 columns"
done

# dev/accuracy writes docs/ACCURACY.md in the words that it has.
python3 -B - <<'END' || fail 'dev/accuracy writes other words than docs/ACCURACY.md has'
import re
import sys
sys.path.insert(0, 'dev')
from lab import page
with open('docs/ACCURACY.md', encoding='utf-8') as file:
    text = file.read()
case = {'hosts': 3, 'drift': 20, 'jitter': 100, 'faults': [], 'alike': 7}
faulty = {**case, 'faults': ['x']}
judged = re.compile(r'[0-9]+ acts are those of the rules(, and each history holds|; in (this case|these [a-z]+ cases) it named a fault: [0-9]+ hosts, )')
sys.exit(not (judged.search(text) and all(judged.match(page.judged(cases)) for cases in ([case], [case, faulty], [faulty] * 3))
              and all(part in text for part in page.TEXT.split('\n\n') if '{' not in part)))
END

# The kit is named by its logic alone, in the same words, and is the one that is here.
logic=$(grep -o 'logic [0-9a-f]*' README.md | sort -u)
[ "$(grep -o 'logic [0-9a-f]*' docs/PROOFS.md | sort -u)" = "$logic" ] || fail 'README.md and docs/PROOFS.md name two kits'
! grep -n 'rattle-kit-' README.md docs/*.md || fail 'a kit is named that only some machines have'
if has rt; then
    case $(rt version) in *" $logic") ;; *) fail "rt version says '$(rt version)', and README.md '$logic'" ;; esac
else
    skip 'there is no rt' 'whether README.md names its logic'
fi

# The first heading of CHANGELOG.md, which is the package's version, begins with the program's.
version=$(sed -n '/^## /{s/^## \([0-9.]*\)$/\1/p;q;}' CHANGELOG.md)
case "tsp $version" in
"$(./tsp --version)" | "$(./tsp --version)".[0-9]*) ;;
*) fail "the program says '$(./tsp --version)', and CHANGELOG.md begins with the version '$version'" ;;
esac

# The words of the grammar are those of --help, in the table of FORMATS and in the page.
./tsp --help | sed -n 's/^    tsp \([a-z-]*\) .*/\1/p' | sort >"$out/commands"
sed -n '/^## The program/,/^The status says/p; /^`--help` and/q' docs/FORMATS.md | sed -n 's/^| `\([a-z-]*\).*/\1/p' | sort -u >"$out/named"
cmp -s "$out/commands" "$out/named" || fail "docs/FORMATS.md has other commands than tsp --help: $(comm -3 "$out/commands" "$out/named")"
sed -n '/^\.SH SYNOPSIS/,/^\.SH DESCRIPTION/s/^\.B tsp \([a-z-]*\)$/\1/p' man/tsp.1 | sort >"$out/named"
cmp -s "$out/commands" "$out/named" || fail "man/tsp.1 has other commands than tsp --help: $(comm -3 "$out/commands" "$out/named")"

# The statuses, and the causes of a replay's refusals, are the same in FORMATS and in the page.
sed -n '/^| Status | Meaning/,/^$/s/^| \([0-9]\) .*/\1/p' docs/FORMATS.md >"$out/statuses"
sed -n '/^\.SH EXIT STATUS/,/^\.SH LIMITS/s/^\.B \([0-9]\)$/\1/p' man/tsp.1 | cmp -s - "$out/statuses" || fail 'man/tsp.1 has other statuses than docs/FORMATS.md'
[ "$(wc -l <"$out/statuses")" -eq 9 ] || fail 'docs/FORMATS.md lacks a status'
sed -n '/^| Cause of `replay`/,/^$/s/^| `\([a-z-]*\).*/\1/p' docs/FORMATS.md | sort >"$out/causes"
sed -n '/^\.SH REFUSALS/,/^\.SH EXIT/p' man/tsp.1 | sed -n 's/^\.BI* \([a-z-]*\)\(\\~.*\)*$/\1/p' | sort >"$out/named"
[ -s "$out/causes" ] && [ -z "$(comm -23 "$out/causes" "$out/named")" ] || fail "man/tsp.1 lacks a cause of docs/FORMATS.md: $(comm -23 "$out/causes" "$out/named")"

# As many examples as README says: one, and so many others.
others=$(($(find examples -name '*.tsp' | wc -l) - 1))
number=$(echo 'zero one two three four five six seven eight nine ten eleven twelve thirteen fourteen fifteen sixteen seventeen eighteen nineteen twenty' | cut -d ' ' -f $((others + 1)))
grep -q "in $number other schedules" README.md || fail "README.md doesn't say that there are $number other schedules"
for schedule in examples/*.tsp examples/schedules/*.tsp; do
    grep -q "\*\*\`${schedule#examples/}\`\*\*" examples/README.md || fail "examples/README.md doesn't tell of $schedule"
done
for tool in tools/tsp-*; do
    [ -e "man/${tool#tools/}.1" ] || [ -e "man/${tool#tools/}.8" ] || fail "$tool has no page"
done
echo "$check: $count examples, and what is pointed to"
