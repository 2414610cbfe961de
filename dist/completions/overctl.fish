# What overctl(1) takes behind its name, for fish.
set -l command '__fish_use_subcommand'

complete -c overctl -f
complete -c overctl -l help -d 'Print help'
complete -c overctl -n 'not __fish_seen_subcommand_from check book' -l timeout -x -d 'End with 8 after so many seconds of a wait'
complete -c overctl -n '__fish_seen_subcommand_from read key' -s o -l output -rF -d 'Put the result into a file'
complete -c overctl -n '__fish_seen_subcommand_from remove replace own' -l yes -d 'Ask nothing'
complete -c overctl -n $command -l version -d 'Print the version'
complete -c overctl -n $command -a enrol -d 'Add a user'
complete -c overctl -n $command -a create -d 'Store bytes as a file for the users of a list'
complete -c overctl -n $command -a grant -d "Put a user onto a file's list"
complete -c overctl -n $command -a revoke -d "Take a user off a file's list"
complete -c overctl -n $command -a remove -d 'Take a file away for good'
complete -c overctl -n $command -a replace -d 'Give a file new bytes and new keys'
complete -c overctl -n $command -a list -d "Print a file's list"
complete -c overctl -n $command -a key -d 'Print the key line with which a user reads'
complete -c overctl -n $command -a read -d "Print a file's bytes, by a user's key line"
complete -c overctl -n $command -a check -d "Print the base master's check value"
complete -c overctl -n $command -a epoch -d "Print the store's mode and epoch"
complete -c overctl -n $command -a users -d 'Print the users, one a line'
complete -c overctl -n $command -a files -d 'Print all lists, or the files that list a user'
complete -c overctl -n $command -a script -d 'Answer a script over one session'
complete -c overctl -n $command -a own -d "Send a command by the owner's book"
complete -c overctl -n $command -a book -d "Ask the owner's book, and no server"
complete -c overctl -n "not $command" -F
