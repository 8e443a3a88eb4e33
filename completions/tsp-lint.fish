# Completion of fish for tsp-lint. dev/completions writes this of what --help says.

complete -c tsp-lint -s h -l help -d 'show this help message and exit'
complete -c tsp-lint -l version -d 'prints the version'
complete -c tsp-lint -s p -l program -x -a '(__fish_complete_command)' -d 'the program that is run'
complete -c tsp-lint -l premises -d 'says which premises of the promises the schedule keeps'
