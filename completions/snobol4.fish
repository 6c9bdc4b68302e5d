# Completion of snobol4 in fish.
complete -c snobol4 -f
complete -c snobol4 -n __fish_use_subcommand -a run -d 'run a program'
complete -c snobol4 -n __fish_use_subcommand -a check -d 'read a program and tell what is wrong with it'
complete -c snobol4 -n __fish_use_subcommand -a ways -d 'list every way in which a pattern matches a subject'
complete -c snobol4 -n __fish_use_subcommand -a help -d 'tell about a command'
complete -c snobol4 -s h -l help -d 'tell the words'
complete -c snobol4 -n __fish_use_subcommand -s V -l version -d 'tell the version'
complete -c snobol4 -n '__fish_seen_subcommand_from run check' -F
complete -c snobol4 -n '__fish_seen_subcommand_from run' -l statements -x -d 'begin at most so many statements'
complete -c snobol4 -n '__fish_seen_subcommand_from run' -l match-steps -x -d 'take at most so many steps in a match'
complete -c snobol4 -n '__fish_seen_subcommand_from ways' -l anchor -d 'start at the first byte alone'
complete -c snobol4 -n '__fish_seen_subcommand_from ways' -l steps -x -d 'take at most so many steps'
complete -c snobol4 -n '__fish_seen_subcommand_from help' -a 'run check ways'
