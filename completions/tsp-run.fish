# Completion of fish for tsp-run. dev/completions writes this of what --help says.

complete -c tsp-run -l status -d 'says which library and which page it would use, and by how many ..'
complete -c tsp-run -l version -d 'prints the version'
complete -c tsp-run -s h -l help -d 'prints this text'
complete -c tsp-run -x -a '(__fish_complete_subcommand)'
