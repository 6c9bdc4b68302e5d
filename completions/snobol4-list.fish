# Completion of snobol4-list in fish.
complete -c snobol4-list -F
complete -c snobol4-list -s h -l help -d 'tell the words'
complete -c snobol4-list -s V -l version -d 'tell the version'
complete -c snobol4-list -l statement -x -d 'list this statement alone'
complete -c snobol4-list -l error -x -d 'tell what this error is'
