"""Types lines into a shell on a terminal, and compares what each one is once the tabulator was struck behind it.

usage: completion_terminal.py COMPLETIONS < ROWS, with a row LINE|COMPLETED| for each. A file whose name begins with a low line is for zsh.
"""
import os
import pty
import select
import sys
import tempfile

SHOW = b'\x14'
PATIENCE = 20
BASH = ['bash', '--norc', '--noprofile', '-i'], 'bind -x \'"\\C-t": printf "[%s]\\n" "$READLINE_LINE"\'; . {file}; printf "%s\\n" "[""]"'
# (zsh keeps a list of completions in a file)
ZSH = ['zsh', '-f', '-i'], ('PROMPT=; setopt nobeep noautomenu noalwayslastprompt; fpath=({folder} $fpath); autoload -Uz compinit; compinit -u -d {kept}; '
                            'show() {{ print; print -r -- "[$BUFFER]" }}; zle -N show; bindkey "^T" show; bindkey "^U" kill-buffer; bindkey "^I" complete-word; '
                            'print -r -- "[""]"')


def begin(completions, kept):
    """A shell that shows its line where Control-T is struck, and has these completions."""
    words, setup = ZSH if os.path.basename(completions).startswith('_') else BASH
    process, terminal = pty.fork()
    if process == 0:
        os.environ.update(PS1='', TERM='dumb')
        os.execvp(words[0], words)
    folder = os.path.dirname(completions)
    os.write(terminal, os.fsencode(setup.format(file=completions, folder=folder, kept=os.path.join(kept, 'completions'))) + b'\n')
    shown(terminal)
    return terminal


def shown(terminal):
    """What the next line in brackets has."""
    found = b''
    while b']\r\n' not in found:
        if not select.select([terminal], [], [], PATIENCE)[0]:
            sys.exit(f'the shell writes {found!r}')
        found += os.read(terminal, 4096)
    line = next(line for line in found.split(b'\r\n') if line.endswith(b']'))
    return line[line.rindex(b'[') + 1:-1].decode()


def main():
    with tempfile.TemporaryDirectory() as kept:
        terminal, wrong = begin(sys.argv[1], kept), False
        for row in sys.stdin:
            line, wanted, _ = row.split('|')
            os.write(terminal, line.encode() + b'\t' + SHOW)
            found = shown(terminal)
            if found != wanted:
                print(f'{line!r} becomes {found!r}, not {wanted!r}', file=sys.stderr)
                wrong = True
            os.write(terminal, b'\x15')
        os.write(terminal, b'exit\n')
    sys.exit(wrong)


main()
