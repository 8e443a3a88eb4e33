# Completion of fish for tsp-watch. dev/completions writes this of what --help says.

complete -c tsp-watch -l json -d 'writes an object of JSON for each change'
complete -c tsp-watch -l prometheus -r -F -d 'writes nothing, but rewrites this file for node_exporter, by a ..'
complete -c tsp-watch -l learn -r -F -d 'keeps what it learns of the counter'\''s rate in this file'
complete -c tsp-watch -l own -d 'reads the trace of this machine'\''s unit as it comes'
complete -c tsp-watch -l lines -d 'writes the lines of that trace, for tsp-witness, and ends'
complete -c tsp-watch -l progress -d 'says how late the daemon looked at its alarms and sends, how soon its ..'
complete -c tsp-watch -l since -x -d 'from the last start of the daemon before TIME on'
complete -c tsp-watch -l version -d 'prints the version'
complete -c tsp-watch -s h -l help -d 'prints this text'
complete -c tsp-watch -f
