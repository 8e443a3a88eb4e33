# Completion of fish for tsp-elect. dev/completions writes this of what --help says.

function __tsp_column --description 'A column of the list of hosts: 2 has names, 3 addresses'
    PATH="$PATH:/usr/sbin" tsp-launch --list 2>/dev/null | cut -d ' ' -f $argv[1]
end

complete -c tsp-elect -s f -l file -r -F -d 'the hosts file'
complete -c tsp-elect -l handover -d 'first restarts the daemon that leads'
complete -c tsp-elect -l trace -r -F -d 'HOST'\''s trace, of which it is read why it doesn'\''t lead'
complete -c tsp-elect -l timeout -x -d 'how long an answer is waited for, over all tries'
complete -c tsp-elect -s t -l tries -x -d 'how often a question is sent in that time'
complete -c tsp-elect -s p -l program -x -a '(__fish_complete_command)' -d 'the program'
complete -c tsp-elect -l version -d 'prints the version'
complete -c tsp-elect -s h -l help -d 'prints this text'
complete -c tsp-elect -f -a '(__tsp_column 2)'
