# Completion of fish for tsp-feed. dev/completions writes this of what --help says.

complete -c tsp-feed -l status -d 'says what it would do now, or why not, and ends'
complete -c tsp-feed -l socket -x -d 'chronyd'\''s socket for samples'
complete -c tsp-feed -l chronyd -x -d 'where chronyc asks chronyd'
complete -c tsp-feed -l asked -d 'doesn'\''t ask chronyd for its sources, since somebody has just done ..'
complete -c tsp-feed -l version -d 'prints the version'
complete -c tsp-feed -s h -l help -d 'prints this text'
complete -c tsp-feed -f
