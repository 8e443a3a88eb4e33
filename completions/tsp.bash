# Completion of bash for tsp and its tools.

# A column of the hosts file's list: 2 has names, 3 addresses. (tsp-launch stands in a folder that PATH may lack)
_tsp_hosts() {
    PATH=$PATH:/usr/sbin tsp-launch --list 2>/dev/null | cut -d ' ' -f "$1"
}

# Any files.
_tsp_any_file() {
    compopt -o filenames 2>/dev/null
    mapfile -t COMPREPLY < <(compgen -f -- "$1")
}

# The word before the one at the cursor. Behind `--option=` it is that option, and behind a redirection `<`. (bash also ends
# words at equals signs, colons and redirections)
_tsp_before() {
    local word=${COMP_LINE:0:COMP_POINT}
    word=${word##*[[:space:]]}
    case $word in
    *[\<\>]*) echo '<' ;;
    --*=*) echo "${word%%=*}" ;;
    *) case $1 in *[\<\>]*) echo '<' ;; *) echo "$1" ;; esac ;;
    esac
}

# Words of a list that begin as the word at the cursor does. Of an address bash only puts what stands behind its colon.
_tsp_offer() {
    local word=${COMP_LINE:0:COMP_POINT}
    word=${word##*[[:space:]]}
    mapfile -t COMPREPLY < <(compgen -W "$1" -- "$word")
    COMPREPLY=("${COMPREPLY[@]#"${word%"$2"}"}")
}

_tsp() {
    local line=${COMP_LINE:0:COMP_POINT} before
    line=${line%"${line##*[[:space:]]}"}
    read -ra before <<<"$line"
    [ "$(_tsp_before "$3")" != '<' ] || { _tsp_any_file "$2"; return; }
    case ${before[*]:1} in
    '') _tsp_offer 'replay show pack icmp audit serve msite clockdiff trace election date storm --help --version' "$2" ;;
    serve | msite | clockdiff | trace | election | date) _tsp_offer "$(_tsp_hosts 3)" "$2" ;;
    'trace '*' '*) ;;
    'trace '*) _tsp_offer 'on off' "$2" ;;
    'serve '*' '*' '*) ;;
    'serve '*' '*) _tsp_offer 'm s x' "$2" ;;
    esac
}

# The files of a word: schedules, traces and folders, or any where it begins another name.
_tsp_files() {
    mapfile -t COMPREPLY < <(compgen -f -X "!*.@($1)" -- "$2"; compgen -d -- "$2")
}

_tsp_lint() {
    case $(_tsp_before "$3") in
    --program | -p) mapfile -t COMPREPLY < <(compgen -c -- "$2"); return ;;
    esac
    case $2 in
    -*) mapfile -t COMPREPLY < <(compgen -W '--help --version --program --premises' -- "$2") ;;
    *) _tsp_files tsp "$2" ;;
    esac
}

_tsp_plot() {
    case $(_tsp_before "$3") in
    --program | -p) mapfile -t COMPREPLY < <(compgen -c -- "$2"); return ;;
    --output | -o) _tsp_files 'svg|html|png' "$2"; return ;;
    '<') _tsp_any_file "$2"; return ;;
    --title | --drift | -d) return ;;
    esac
    case $2 in
    -*) mapfile -t COMPREPLY < <(compgen -W '--help --version --output --linear --title --strangers --bounds --drift --program' -- "$2") ;;
    *) _tsp_files 'tsp|trace' "$2" ;;
    esac
}

_tsp_sim() {
    case $(_tsp_before "$3") in
    --program | -p) mapfile -t COMPREPLY < <(compgen -c -- "$2") ;;
    '<') _tsp_any_file "$2" ;;
    *) mapfile -t COMPREPLY < <(compgen -W '--help --version --nodes --slaves --drift --wall --latency --loss --twice --cut --reboot --net --follow --until --seed --program' -- "$2") ;;
    esac
}

_tsp_demo() {
    case $(_tsp_before "$3") in
    --program | -p) mapfile -t COMPREPLY < <(compgen -c -- "$2") ;;
    --speed) ;;
    *) mapfile -t COMPREPLY < <(compgen -W '--speed --lines --program --version --help' -- "$2") ;;
    esac
}

_tsp_launch() {
    case $(_tsp_before "$3") in
    --program | -p) mapfile -t COMPREPLY < <(compgen -c -- "$2") ;;
    --file | -f | --output | -o) mapfile -t COMPREPLY < <(compgen -f -- "$2") ;;
    --self | -s) mapfile -t COMPREPLY < <(compgen -W "$(_tsp_hosts 2)" -- "$2") ;;
    --firewall) mapfile -t COMPREPLY < <(compgen -W 'nft systemd' -- "$2") ;;
    --turns | --wait | -w | --spread) ;;
    --rate) mapfile -t COMPREPLY < <(compgen -W 'learn 0' -- "$2") ;;
    *)
        mapfile -t COMPREPLY < <(compgen -W '--print --lint --list --firewall --wireguard --file --self --turns --wait --spread --rate --trace --supervise --output --program --version --help' -- "$2")
        ;;
    esac
}

_tsp_status() {
    case $(_tsp_before "$3") in
    --program | -p) mapfile -t COMPREPLY < <(compgen -c -- "$2") ;;
    --file | -f | --output | -o | --trace) mapfile -t COMPREPLY < <(compgen -f -- "$2") ;;
    --tries | -t | --timeout | --within) ;;
    *)
        mapfile -t COMPREPLY < <(compgen -W '--file --within --check --csv --json --prometheus --output --trace --timeout --tries --program --version --help' -- "$2")
        ;;
    esac
}

_tsp_elect() {
    case $(_tsp_before "$3"):$2 in
    --program:* | -p:*) mapfile -t COMPREPLY < <(compgen -c -- "$2") ;;
    --file:* | -f:* | --trace:*) mapfile -t COMPREPLY < <(compgen -f -- "$2") ;;
    --tries:* | -t:* | --timeout:*) ;;
    *:-*) mapfile -t COMPREPLY < <(compgen -W '--file --handover --trace --timeout --tries --program --version --help' -- "$2") ;;
    *) mapfile -t COMPREPLY < <(compgen -W "$(_tsp_hosts 2)" -- "$2") ;;
    esac
}

_tsp_watch() {
    case $(_tsp_before "$3"):$2 in
    --prometheus:* | --learn:*) mapfile -t COMPREPLY < <(compgen -f -- "$2") ;;
    *:-*) mapfile -t COMPREPLY < <(compgen -W '--json --prometheus --learn --own --lines --progress --since --version --help' -- "$2") ;;
    *) mapfile -t COMPREPLY < <(compgen -f -- "$2") ;;
    esac
}

_tsp_now() {
    case $(_tsp_before "$3"):$2 in
    --program:* | -p:*) mapfile -t COMPREPLY < <(compgen -c -- "$2") ;;
    --file:* | -f:* | --output:* | -o:*) mapfile -t COMPREPLY < <(compgen -f -- "$2") ;;
    --tries:* | -t:* | --timeout:* | --wait:[0-9]*) ;;
    --set:*) mapfile -t COMPREPLY < <(compgen -W 'now' -- "$2") ;;
    *:-*) mapfile -t COMPREPLY < <(compgen -W '--utc --offset --interval --wait --after --tracking --json --prometheus --output --file --timeout --tries --program --version --help' -- "$2") ;;
    *) mapfile -t COMPREPLY < <(compgen -W "$(_tsp_hosts 2)" -- "$2") ;;
    esac
}

_tsp_feed() {
    case $(_tsp_before "$3") in
    --socket | --chronyd) mapfile -t COMPREPLY < <(compgen -f -- "$2") ;;
    *) mapfile -t COMPREPLY < <(compgen -W '--status --socket --chronyd --asked --version --help' -- "$2") ;;
    esac
}

_tsp_run() {
    case $COMP_CWORD:$2 in
    1:-*) mapfile -t COMPREPLY < <(compgen -W '--status --version --help' -- "$2") ;;
    1:*) mapfile -t COMPREPLY < <(compgen -c -- "$2") ;;
    *) _tsp_any_file "$2" ;;
    esac
}

# (bash makes words of NAME, = and TRACE)
_tsp_witness() {
    case $3 in
    --program | -p) mapfile -t COMPREPLY < <(compgen -c -- "$2"); return ;;
    --file | -f | --schedule | --claims | =) mapfile -t COMPREPLY < <(compgen -f -- "$2"); return ;;
    --drift | -d) return ;;
    esac
    case $2 in
    =) mapfile -t COMPREPLY < <(compgen -f) ;;
    -*) mapfile -t COMPREPLY < <(compgen -W '--since --ssh --check --audit --progress --file --drift --altered --schedule --claims --program --version --help' -- "$2") ;;
    *)
        compopt -o nospace +o filenames 2>/dev/null
        mapfile -t COMPREPLY < <(compgen -S = -W "$(_tsp_hosts 2)" -- "$2")
        ;;
    esac
}

shopt -s extglob
complete -F _tsp tsp
complete -F _tsp_demo tsp-demo
complete -o filenames -F _tsp_lint tsp-lint
complete -o filenames -F _tsp_plot tsp-plot
complete -F _tsp_sim tsp-sim
complete -o filenames -F _tsp_launch tsp-launch
complete -o filenames -F _tsp_status tsp-status
complete -o filenames -F _tsp_elect tsp-elect
complete -o filenames -F _tsp_watch tsp-watch
complete -o filenames -F _tsp_now tsp-now
complete -o filenames -F _tsp_feed tsp-feed
complete -o filenames -F _tsp_run tsp-run
complete -o filenames -F _tsp_witness tsp-witness
