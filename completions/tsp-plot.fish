# Completion of fish for tsp-plot. dev/completions writes this of what --help says.

complete -c tsp-plot -s h -l help -d 'show this help message and exit'
complete -c tsp-plot -l version -d 'prints the version'
complete -c tsp-plot -s o -l output -r -F -d 'where the picture goes'
complete -c tsp-plot -l linear -d 'draws times and values on linear scales'
complete -c tsp-plot -l title -x -d 'what stands above'
complete -c tsp-plot -l strangers -d 'draws what came from strangers too, such as questions'
complete -c tsp-plot -s b -l bounds -d 'draws what Agreed and Chained promise of clocks that rounds corrected'
complete -c tsp-plot -s d -l drift -x -d 'the drift by which bounds are drawn'
complete -c tsp-plot -s p -l program -x -a '(__fish_complete_command)' -d 'the program that makes the trace'
