# Completion of fish for tsp-status. dev/completions writes this of what --help says.

complete -c tsp-status -s f -l file -r -F -d 'the hosts file'
complete -c tsp-status -l within -x -d 'how far two clocks may be apart, their errors included'
complete -c tsp-status -l check -d 'writes one line, and ends with the statuses of a monitoring plugin'
complete -c tsp-status -s c -l csv -d 'writes comma-separated values'
complete -c tsp-status -l json -d 'writes an object of JSON'
complete -c tsp-status -l prometheus -d 'writes text for the textfile collector of node_exporter'
complete -c tsp-status -s o -l output -r -F -d 'writes to this file, by a rename'
complete -c tsp-status -l trace -r -F -d 'the trace of the daemon that leads, of which rates and corrections ..'
complete -c tsp-status -l timeout -x -d 'how long an answer is waited for, over all tries'
complete -c tsp-status -s t -l tries -x -d 'how often a question is sent in that time'
complete -c tsp-status -s p -l program -x -a '(__fish_complete_command)' -d 'the program'
complete -c tsp-status -l version -d 'prints the version'
complete -c tsp-status -s h -l help -d 'prints this text'
complete -c tsp-status -f
