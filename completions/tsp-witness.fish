# Completion of fish for tsp-witness. dev/completions writes this of what --help says.

function __tsp_column --description 'A column of the list of hosts: 2 has names, 3 addresses'
    PATH="$PATH:/usr/sbin" tsp-launch --list 2>/dev/null | cut -d ' ' -f $argv[1]
end

complete -c tsp-witness -l since -x -d 'fetched are lines from the last start before TIME on'
complete -c tsp-witness -l ssh -x -a '(__fish_complete_command)' -d 'how another host is reached'
complete -c tsp-witness -l check -d 'judges'
complete -c tsp-witness -l audit -d 'judges, and has the history audited too, for a second opinion'
complete -c tsp-witness -l progress -d 'judges, and says how late alarms were looked at, how long datagrams ..'
complete -c tsp-witness -s f -l file -r -F -d 'the hosts file'
complete -c tsp-witness -s d -l drift -x -d 'how far a host'\''s counter may drift from true time'
complete -c tsp-witness -s a -l altered -d 'a datagram that differs from what was posted, or that nobody posted, ..'
complete -c tsp-witness -l schedule -r -F -d 'writes the schedule to this file'
complete -c tsp-witness -l claims -r -F -d 'writes the claims to this file'
complete -c tsp-witness -s p -l program -x -a '(__fish_complete_command)' -d 'the program'
complete -c tsp-witness -l version -d 'prints the version'
complete -c tsp-witness -s h -l help -d 'prints this text'
complete -c tsp-witness -a '(__tsp_column 2)='
