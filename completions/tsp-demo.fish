# Completion of fish for tsp-demo. dev/completions writes this of what --help says.

complete -c tsp-demo -l speed -x -d 'how many times as fast time runs, 10 to 100'
complete -c tsp-demo -l lines -d 'writes a line for each thing that happens'
complete -c tsp-demo -s p -l program -x -a '(__fish_complete_command)' -d 'the program'
complete -c tsp-demo -l version -d 'prints the version'
complete -c tsp-demo -s h -l help -d 'prints this text'
complete -c tsp-demo -f
