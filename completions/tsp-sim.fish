# Completion of fish for tsp-sim. dev/completions writes this of what --help says.

complete -c tsp-sim -s h -l help -d 'show this help message and exit'
complete -c tsp-sim -l version -d 'prints the version'
complete -c tsp-sim -l nodes -x -d 'how many nodes there are'
complete -c tsp-sim -l slaves -x -d 'how many of them, the last ones, may not be master'
complete -c tsp-sim -l drift -x -d 'clock rates are drawn at random up to this'
complete -c tsp-sim -l wall -x -d 'wall clocks are drawn at random up to this far from true time'
complete -c tsp-sim -l latency -x -d 'a datagram is this long on its way'
complete -c tsp-sim -l loss -x -d 'this share of the datagrams is lost'
complete -c tsp-sim -l twice -x -d 'this share of those that arrive comes twice'
complete -c tsp-sim -l cut -x -d 'node N is off the network in that time'
complete -c tsp-sim -l reboot -x -d 'node N boots again then'
complete -c tsp-sim -l net -x -d 'a network joins these nodes'
complete -c tsp-sim -l follow -d 'nodes have supervisors'
complete -c tsp-sim -l until -x -d 'the last event comes no later'
complete -c tsp-sim -l seed -x -d 'one seed gives one schedule'
complete -c tsp-sim -s p -l program -x -a '(__fish_complete_command)' -d 'the program that the nodes run in'
complete -c tsp-sim -f
