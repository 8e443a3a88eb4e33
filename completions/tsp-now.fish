# Completion of fish for tsp-now. dev/completions writes this of what --help says.

function __tsp_column --description 'A column of the list of hosts: 2 has names, 3 addresses'
    PATH="$PATH:/usr/sbin" tsp-launch --list 2>/dev/null | cut -d ' ' -f $argv[1]
end

complete -c tsp-now -s u -l utc -d 'prints the time in UTC'
complete -c tsp-now -l offset -d 'prints only by how many seconds the corrected time is ahead of this ..'
complete -c tsp-now -l interval -d 'prints the two times between which the master'\''s clock lies'
complete -c tsp-now -l wait -d 'waits until this machine is synchronised, and its time wrong by so ..'
complete -c tsp-now -l after -d 'prints a stamp, once each later stamp of the network is greater'
complete -c tsp-now -l tracking -d 'prints how this host is, by its page alone'
complete -c tsp-now -l json -d 'prints that as an object of JSON'
complete -c tsp-now -l prometheus -d 'prints the page'\''s metrics'
complete -c tsp-now -s o -l output -r -F -d 'writes --tracking or --prometheus to this file, by a rename'
complete -c tsp-now -s f -l file -r -F -d 'the hosts file'
complete -c tsp-now -l timeout -x -d 'how long an answer is waited for, over all tries'
complete -c tsp-now -s t -l tries -x -d 'how often a question is sent in that time'
complete -c tsp-now -s p -l program -x -a '(__fish_complete_command)' -d 'the program'
complete -c tsp-now -l version -d 'prints the version'
complete -c tsp-now -s h -l help -d 'prints this text'
complete -c tsp-now -f -a '(__tsp_column 2)'
