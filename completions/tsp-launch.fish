# Completion of fish for tsp-launch. dev/completions writes this of what --help says.

function __tsp_column --description 'A column of the list of hosts: 2 has names, 3 addresses'
    PATH="$PATH:/usr/sbin" tsp-launch --list 2>/dev/null | cut -d ' ' -f $argv[1]
end

complete -c tsp-launch -s n -l print -d 'prints the arguments and starts nothing'
complete -c tsp-launch -l lint -d 'starts nothing, prints a digest of the file'
complete -c tsp-launch -s l -l list -d 'lists the hosts of the file'
complete -c tsp-launch -l firewall -x -a 'nft systemd' -d 'prints rules that let in what the daemon needs, and questions from ..'
complete -c tsp-launch -l wireguard -x -a 'keys netdev network nft wg-quick' -d 'prints this host'\''s part of a tunnel of WireGuard, whose addresses are ..'
complete -c tsp-launch -s f -l file -r -F -d 'the hosts file'
complete -c tsp-launch -s s -l self -x -a '(__tsp_column 2)' -d 'the name of this host'
complete -c tsp-launch -l turns -x -d 'how many turns the daemon takes'
complete -c tsp-launch -s w -l wait -x -d 'how long names without an address are looked up again'
complete -c tsp-launch -l spread -x -d 'starts at a random moment within this time'
complete -c tsp-launch -l rate -x -a 'learn 0' -d 'how much faster the daemon counts than the machine'
complete -c tsp-launch -l trace -d 'asks the daemon to trace when it answers'
complete -c tsp-launch -l supervise -d 'stays with the daemon'
complete -c tsp-launch -s o -l output -r -F -d 'the trace goes to this file, which SIGHUP opens anew'
complete -c tsp-launch -s p -l program -x -a '(__fish_complete_command)' -d 'the program'
complete -c tsp-launch -l version -d 'prints the version'
complete -c tsp-launch -s h -l help -d 'prints this text'
complete -c tsp-launch -f
