"""Wants each heading of docs/HEADLINE.md, of its annex and of docs/NETWORK.md to stand once, and each name that two files have to be told apart where it is defined.

The first two pages know only each other; docs/NETWORK.md, which is read after them, knows all three.
"""
import re
import sys

DEFINED = re.compile(r'^(?:abbrev |unfoldable )*(?:pub )?(?:record |data )?([^\s:(]+)(?= [:(])')
FIRST, LAST = ('docs/HEADLINE.md', 'docs/HEADLINE_ANNEX.md'), 'docs/NETWORK.md'


def read(path, headings, places):
    """Notes a page's headings, and where each name of each file is defined."""
    notes, inside, file = [], False, None
    with open(path, encoding='utf-8') as page:
        for number, line in enumerate(page, 1):
            inside ^= line.startswith('```')
            if line.startswith('#') and not inside:
                file = line.strip('# \n')
                if headings.setdefault((path, file), number) != number:
                    sys.exit(f'{path}:{number}: the heading {file} stands in line {headings[path, file]} already')
            found = DEFINED.match(line) if inside and not line.startswith('--') else None
            if found:
                places.setdefault(found.group(1), {}).setdefault(file, (path, number, notes))
            notes = notes + [line.strip()] if line.startswith('--') else []


def main():
    headings, places = {}, {}
    for path in (*FIRST, LAST):
        read(path, headings, places)
    doubles = {name: files for name, files in places.items() if len(files) > 1}
    for name, files in doubles.items():
        for file, (path, number, told) in files.items():
            others = sorted(other for other in files if other != file and (path == LAST or files[other][0] in FIRST))
            if others and f'-- (another {name}: {", ".join(others)})' not in told:
                sys.exit(f'{path}:{number}: {name} of {file} isn\'t told apart from that of {others}')
    if not doubles or len(headings) < 20:
        sys.exit(f'{len(headings)} headings and {len(doubles)} names of two files were found, which is too few')
    print(f'{len(headings)} headings, and {len(doubles)} names that two files have')


main()
