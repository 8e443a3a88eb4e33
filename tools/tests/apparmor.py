#!/usr/bin/env python3
"""Compares what a supervisor and its daemon did, as strace saw it, with what a profile of AppArmor lets them: `apparmor.py RULES CALLS FROM=TO..`.

RULES is what `apparmor_parser -p` makes of the profile. A path that begins with FROM stands for one that begins with TO. Prints how many files were compared.
"""
import re
import sys

# Calls that open a file, run one, or join a socket's path; and how a file is opened if it is written.
CALL = re.compile(r'^(open|openat|execve|connect|sendto|unlink|unlinkat|rename|mkdir|link|linkat)\((.*)\) += (-?[0-9]+)')
RIGHTS = {'execve': 'x', 'link': 'l', 'linkat': 'l'}
PATH, WRITES = re.compile(r'"(/[^"]*)"'), re.compile(r'O_(WRONLY|RDWR|CREAT|TRUNC)')
DEFINED = re.compile(r'^\s*(@\{\w+\})\s*\+?=\s*(.*)$')
RULE = re.compile(r'^\s*(?:owner\s+)?(/\S*|@\{\w+\}\S*|"[^"]*")\s+([a-zA-Z]+),')
# A start opens more files than that.
FEWEST = 40


def alternatives(text):
    """What stands between the braces of a text, and behind them."""
    depth, parts, last = 0, [], 1
    for place, sign in enumerate(text):
        depth += (sign == '{') - (sign == '}')
        if sign == ',' and depth == 1 or depth == 0:
            parts.append(text[last:place])
            last = place + 1
        if depth == 0:
            return parts, text[place + 1:]
    raise ValueError(text)


def pattern_of(glob):
    """The regular expression of a path in a profile."""
    text = ''
    while glob:
        if glob.startswith('**'):
            text, glob = text + '.*', glob[2:]
        elif glob[0] in '*?':
            text, glob = text + ('[^/]*' if glob[0] == '*' else '[^/]'), glob[1:]
        elif glob[0] == '[':
            end = glob.index(']') + 1
            text, glob = text + glob[:end], glob[end:]
        elif glob[0] == '{':
            parts, glob = alternatives(glob)
            text += f'(?:{"|".join(map(pattern_of, parts))})'
        else:
            sign = glob[1] if glob[0] == '\\' else glob[0]
            text, glob = text + re.escape(sign), glob[2 if glob[0] == '\\' else 1:]
    return text


def rules_of(path):
    """The rules of files: a pattern and its rights."""
    values, found = {}, []
    with open(path, encoding='utf-8') as file:
        for line in file:
            line = line.partition(' #')[0] if not line.lstrip().startswith('#') else ''
            named = DEFINED.match(line)
            rule = RULE.match(line)
            if named:
                values.setdefault(named[1], []).extend(word.strip('"') for word in named[2].split())
            elif rule:
                found.append((rule[1].strip('"'), rule[2]))
    return [(re.compile(pattern_of(with_values(glob, values))), rights) for glob, rights in found]


def with_values(glob, values):
    """A path with the values of its variables."""
    while '@{' in glob:
        name = re.search(r'@\{\w+\}', glob)[0]
        wanted = values.get(name, ['*'])
        # (two slashes are one)
        glob = glob.replace(name + '/', '{' + ','.join(value.rstrip('/') for value in wanted) + '}/').replace(name, '{' + ','.join(wanted) + '}')
    return glob


def asked(path, moved):
    """What the calls ask for: paths with the right that each needs, with their own places."""
    with open(path, encoding='utf-8', errors='replace') as file:
        for line in file:
            call = CALL.match(line)
            # (a file that isn't there is looked for in vain in any case)
            if not call or int(call[3]) < 0:
                continue
            right = RIGHTS.get(call[1]) or ('w' if call[1] not in ('open', 'openat') or WRITES.search(call[2]) else 'r')
            # (of a link the right is asked for its new name)
            for found in PATH.findall(call[2].partition('[')[0] if right == 'x' else call[2])[right == 'l':2]:
                # (a folder's path ends in a slash for AppArmor)
                found += '/' * ('O_DIRECTORY' in call[2] and not found.endswith('/'))
                for start, to in moved:
                    found = to + found[len(start):] if found.startswith(start) else found
                yield found, right


def main():
    rules = rules_of(sys.argv[1])
    moved = [word.split('=') for word in sys.argv[3:]]
    wanted = sorted(set(asked(sys.argv[2], moved)))
    beyond = [f'{right} {path}' for path, right in wanted if not any(pattern.fullmatch(path) and right in rights for pattern, rights in rules)]
    if beyond or len(wanted) < FEWEST:
        sys.exit(f'apparmor: of {len(wanted)} files the profile does not let through: {"; ".join(beyond)}')
    print(f'{len(wanted)} files of a supervisor and its daemon, by {len(rules)} rules')


main()
