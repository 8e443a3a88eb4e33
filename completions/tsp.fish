# Completion of fish for tsp. dev/completions writes this of what --help says.

function __tsp_column --description 'A column of the list of hosts: 2 has names, 3 addresses'
    PATH="$PATH:/usr/sbin" tsp-launch --list 2>/dev/null | cut -d ' ' -f $argv[1]
end

function __tsp_at --description 'Whether so many words stand before the cursor, the second one of which is this'
    set -l words (commandline -opc)
    test (count $words) -eq $argv[1]; and test "$words[2]" = "$argv[2]"
end

complete -c tsp -f
complete -c tsp -n 'test (count (commandline -opc)) -eq 1' -a 'replay' -d 'reads a schedule, writes every act of its run'
complete -c tsp -n 'test (count (commandline -opc)) -eq 1' -a 'show' -d 'reads lines of hexadecimal, writes each datagram as a message line'
complete -c tsp -n 'test (count (commandline -opc)) -eq 1' -a 'pack' -d 'reads message lines, writes each datagram as a line of hexadecimal'
complete -c tsp -n 'test (count (commandline -opc)) -eq 1' -a 'icmp' -d 'reads exchanges of ICMP Timestamp messages, writes offsets and ..'
complete -c tsp -n 'test (count (commandline -opc)) -eq 1' -a 'audit' -d 'reads a schedule and the trace that is claimed of it, writes whether ..'
complete -c tsp -n 'test (count (commandline -opc)) -eq 1' -a 'serve' -d 'runs a daemon at the address LOCAL for so many turns'
complete -c tsp -n 'test (count (commandline -opc)) -eq 1' -a 'msite' -d 'asks the daemon at an address who is master'
complete -c tsp -n 'test (count (commandline -opc)) -eq 1' -a 'clockdiff' -d 'asks how far its clock is from this machine'\''s'
complete -c tsp -n 'test (count (commandline -opc)) -eq 1' -a 'trace' -d 'begins its trace'
complete -c tsp -n 'test (count (commandline -opc)) -eq 1' -a 'election' -d 'asks whether it hears, and tells it to stand for election'
complete -c tsp -n 'test (count (commandline -opc)) -eq 1' -a 'date' -d 'sets the network'\''s date'
complete -c tsp -n 'test (count (commandline -opc)) -eq 1' -a 'storm' -d 'makes a schedule from a number, runs it, and counts what comes of it'
complete -c tsp -n 'test (count (commandline -opc)) -eq 1' -a '--help' -d 'prints this text'
complete -c tsp -n 'test (count (commandline -opc)) -eq 1' -a '--version' -d 'prints the program'\''s version'
complete -c tsp -n '__tsp_at 2 serve' -a '(__tsp_column 3)'
complete -c tsp -n '__tsp_at 4 serve' -a 'm s x'
complete -c tsp -n '__tsp_at 2 msite' -a '(__tsp_column 3)'
complete -c tsp -n '__tsp_at 2 clockdiff' -a '(__tsp_column 3)'
complete -c tsp -n '__tsp_at 2 trace' -a '(__tsp_column 3)'
complete -c tsp -n '__tsp_at 3 trace' -a 'off on'
complete -c tsp -n '__tsp_at 2 election' -a '(__tsp_column 3)'
complete -c tsp -n '__tsp_at 2 date' -a '(__tsp_column 3)'
