# What overstore(1) takes behind its name, for fish.
set -l first 'test (count (commandline -opc)) -eq 1'
set -l command '__fish_use_subcommand'
set -l mode '__fish_seen_subcommand_from run load; and not __fish_seen_subcommand_from full delta'

complete -c overstore -f
complete -c overstore -n $first -l help -d 'Print a summary'
complete -c overstore -n $first -l version -d 'Print the version'
complete -c overstore -n $first -l quiet -d 'Show no count of replies'
complete -c overstore -n $command -a run -d 'Answer a script on standard input'
complete -c overstore -n $first -a load -d 'Answer the commands of a workload'
complete -c overstore -n $first -a audit -d 'Print what users could ever have read'
complete -c overstore -n $first -a tidy -d 'Write a shorter store beside the store'
set -l audit '__fish_seen_subcommand_from audit; and test (count (commandline -opc)) -eq 3'
complete -c overstore -n $audit -a server -d 'With the help of the server'
complete -c overstore -n $mode -a full -d 'Each file has a surface'
complete -c overstore -n $mode -a delta -d 'A file has one where more hold its key'
