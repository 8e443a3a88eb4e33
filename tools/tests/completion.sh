#!/bin/sh
# The completions for bash, zsh and fish know the commands of the program and the options of each tool, and no others.
. "$(dirname "$0")/common.sh"
has bash || { skip 'there is no bash' 'its completion'; exit; }

# What completes the last of these words. (bash also ends words at colons, equals signs and redirections, as here)
complete_words() {
    bash -c '
        . completions/tsp.bash
        COMP_LINE="$*" COMP_POINT=${#COMP_LINE} COMPREPLY=()
        read -ra COMP_WORDS <<<"$(sed "s/[:=]/ & /g; s/[<>][<>]*/ & /g" <<<"$*")"
        case $COMP_LINE in *[[:space:]:=\<\>]) COMP_WORDS+=("") ;; esac
        COMP_CWORD=$((${#COMP_WORDS[@]} - 1))
        name=$(complete -p "$1" | sed "s/.*-F \([^ ]*\) .*/\1/")
        "$name" "$1" "${COMP_WORDS[COMP_CWORD]}" "${COMP_WORDS[COMP_CWORD - 1]}"
        printf "%s\n" "${COMPREPLY[@]}"
    ' bash "$@" | sort
}

wants() {
    wanted=$1
    shift
    found=$(complete_words "$@" | tr '\n' ' ')
    [ "$found" = "$wanted" ] || fail "'$*' is completed by '$found'"
}

wants 'replay ' tsp r
wants 'show ' tsp sh
wants 'serve ' tsp se
wants 'off on ' tsp trace 127.0.0.1:525 ''
wants 'm s x ' tsp serve 127.0.0.1:525 a ''
wants ' ' tsp replay ''
wants '--loss ' tsp-sim --lo
wants 'examples/first.tsp ' tsp-lint examples/first
wants 'examples/first.trace examples/first.tsp ' tsp-plot examples/first
wants 'examples/first.svg examples/first.trace examples/first.tsp ' tsp replay '<' examples/first
wants 'examples/first.tsp ' tsp replay '<examples/first.ts'
wants 'README.md ' tsp-sim '>' READ

# Hosts are those of the hosts file.
ln -s "$PWD/tools/tsp-launch" "$out/bin/tsp-launch"
export TSP_HOSTS="$PWD/daemon/hosts"
wants '192.0.2.40:5525 ' tsp clockdiff 192.0.2.4
wants '5525 ' tsp clockdiff 192.0.2.40:
wants '192.0.2.11:525 192.0.2.12:525 192.0.2.13:525 192.0.2.40:5525 ' tsp trace ''
wants 'off on ' tsp trace 192.0.2.11:525 ''
wants 'm s x ' tsp serve 192.0.2.11:525 alpha ''
wants ' ' tsp serve 192.0.2.11:525 alpha m ''
wants ' ' tsp trace 192.0.2.11:525 on ''
wants 'alpha ' tsp-launch -s al
wants 'daemon/hosts ' tsp-status --file daemon/h
wants '--within ' tsp-status --wi
wants 'daemon/hosts ' tsp-watch daemon/h
wants 'daemon/hosts ' tsp-watch --prometheus daemon/h
wants 'beta ' tsp-now b
wants 'now ' tsp-now --set ''
wants '--tracking ' tsp-now --tra
wants 'daemon/hosts ' tsp-now --tracking -o daemon/h
wants '--chronyd ' tsp-feed --ch
wants 'alpha= ' tsp-witness --check al
wants 'daemon/hosts ' tsp-witness alpha = daemon/h
wants 'daemon/hosts ' tsp-status --file=daemon/h
wants 'alpha ' tsp-launch --self=al
TSP_HOSTS=$out/none
wants ' ' tsp-launch -s ''

# The commands are those of the program's help.
"${TSP_PROGRAM:-./tsp}" --help | sed -n 's/^    tsp \([a-z-]*\) .*/\1/p' | sort >"$out/commands"
complete_words tsp '' | cmp -s - "$out/commands" || fail 'the commands are others than those of tsp --help'

# The options are those of each tool's help.
for tool in tsp-demo tsp-lint tsp-plot tsp-sim tsp-launch tsp-status tsp-elect tsp-watch tsp-now tsp-feed tsp-run tsp-witness; do
    # (nobody is to set a date by the tabulator)
    "tools/$tool" --help | grep -o -e '--[a-z][a-z-]*' | grep -v -x -e --set | sort -u >"$out/options"
    complete_words "$tool" -- >"$out/completed"
    cmp -s "$out/options" "$out/completed" || fail "the options are others than those of $tool --help"
done

# On a terminal: what a line is once the tabulator was struck behind it.
export TSP_HOSTS="$PWD/daemon/hosts"
python3 -B tools/tests/completion_terminal.py completions/tsp.bash <<'END' || fail 'a line on a terminal is completed in another way'
tsp rep|tsp replay |
tsp replay < examples/first.ts|tsp replay < examples/first.tsp |
tsp replay <examples/first.ts|tsp replay <examples/first.tsp |
tsp clockdiff 192.0.2.40|tsp clockdiff 192.0.2.40:5525 |
tsp clockdiff 192.0.2.40:|tsp clockdiff 192.0.2.40:5525 |
tsp clockdiff 192.0.2.40:55|tsp clockdiff 192.0.2.40:5525 |
tsp trace 192.0.2.11:525 of|tsp trace 192.0.2.11:525 off |
tsp-status --file=daemon/ho|tsp-status --file=daemon/hosts |
tsp-launch --self=al|tsp-launch --self=alpha |
tsp-plot -o exam|tsp-plot -o examples/|
tsp-now --s|tsp-now --s|
tsp-witness al|tsp-witness alpha=|
tsp-witness alpha=exam|tsp-witness alpha=examples/|
END

# Those for zsh and fish are what dev/completions makes of --help.
dev/completions --check || fail 'completions/ has other words for zsh or fish than --help: dev/completions writes them'
mkdir "$out/other"
cp -r completions dev tools "$out/other" && sed -i 's/--json  /--yaml  /' "$out/other/tools/tsp-status"
! TSP_PROGRAM=${TSP_PROGRAM:-$PWD/tsp} "$out/other/dev/completions" --check || fail 'an option that the completions lack is not missed'

tried='bash'
if has zsh; then
    zsh -n completions/_tsp || fail 'zsh does not read its completions'
    python3 -B tools/tests/completion_terminal.py completions/_tsp <<'END' || fail 'a line on a terminal of zsh is completed in another way'
tsp rep|tsp replay |
tsp --v|tsp --version |
tsp clockdiff 192.0.2.40|tsp clockdiff 192.0.2.40:5525 |
tsp clockdiff 192.0.2.40:55|tsp clockdiff 192.0.2.40:5525 |
tsp trace 192.0.2.11:525 of|tsp trace 192.0.2.11:525 off |
tsp trace 192.0.2.11:525 off o|tsp trace 192.0.2.11:525 off o|
tsp serve 192.0.2.11:525 alpha m 5 192.0.2.40|tsp serve 192.0.2.11:525 alpha m 5 192.0.2.40:5525 |
tsp-status --wi|tsp-status --within=|
tsp-status --file=daemon/ho|tsp-status --file=daemon/hosts |
tsp-status -f daemon/ho|tsp-status -f daemon/hosts |
tsp-launch --self=al|tsp-launch --self=alpha |
tsp-launch --firewall n|tsp-launch --firewall nft |
tsp-now be|tsp-now beta |
tsp-now --s|tsp-now --s|
tsp-elect pri|tsp-elect printer |
tsp-run tsp-lau|tsp-run tsp-launch |
tsp-lint README|tsp-lint README.md |
tsp-witness al|tsp-witness alpha=|
tsp-witness alpha=exam|tsp-witness alpha=examples/|
tsp-sim --lat|tsp-sim --latency |
END
    ! echo 'tsp rep|tsp other |' | python3 -B tools/tests/completion_terminal.py completions/_tsp 2>/dev/null || fail 'another line of zsh is taken for the right one'
    tried="$tried, zsh"
else
    skip 'there is no zsh' 'its completion'
fi

# What completes a line in fish.
complete_in_fish() {
    XDG_CONFIG_HOME=$out HOME=$out fish -c "source completions/${1%% *}.fish; complete -C '$1'" | cut -f 1 | sort -u
}
wants_in_fish() {
    found=$(complete_in_fish "$2" | tr '\n' ' ')
    [ "$found" = "$1" ] || fail "'$2' is completed by '$found' in fish"
}
if has fish; then
    for tool in tsp-demo tsp-lint tsp-plot tsp-sim tsp-launch tsp-status tsp-elect tsp-watch tsp-now tsp-feed tsp-run tsp-witness; do
        "tools/$tool" --help | grep -o -e '--[a-z][a-z-]*' | grep -v -x -e --set | sort -u >"$out/options"
        complete_in_fish "$tool --" >"$out/completed"
        cmp -s "$out/options" "$out/completed" || fail "the options in fish are others than those of $tool --help"
    done
    { complete_in_fish 'tsp '; complete_in_fish 'tsp -'; } | sort -u | cmp -s - "$out/commands" || fail 'the commands in fish are others than those of tsp --help'
    wants_in_fish 'replay ' 'tsp rep'
    wants_in_fish '192.0.2.40:5525 ' 'tsp clockdiff 192.0.2.4'
    wants_in_fish 'off on ' 'tsp trace 192.0.2.11:525 o'
    wants_in_fish '' 'tsp replay '
    wants_in_fish 'daemon/hosts ' 'tsp-status --file daemon/h'
    wants_in_fish 'nft systemd ' 'tsp-launch --firewall '
    wants_in_fish 'alpha ' 'tsp-launch --self al'
    wants_in_fish 'beta ' 'tsp-now b'
    wants_in_fish 'alpha= ' 'tsp-witness al'
    wants_in_fish 'alpha=daemon/hosts ' 'tsp-witness alpha=daemon/h'
    wants_in_fish 'tsp-launch ' 'tsp-run tsp-lau'
    wants_in_fish 'README.md ' 'tsp-lint README'
    tried="$tried, fish"
else
    skip 'there is no fish' 'its completion'
fi
echo "$check: commands, options and files, in $tried"
