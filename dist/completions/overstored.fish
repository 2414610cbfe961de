# What overstored(1) takes behind its name, for fish.
complete -c overstored -f -a '(__fish_complete_suffix .toml)' -d 'Settings'
complete -c overstored -n __fish_is_first_arg -l log -d 'Log updates and the ends of sessions'
complete -c overstored -n __fish_is_first_arg -l help -d 'Print a summary'
complete -c overstored -n __fish_is_first_arg -l version -d 'Print the version'
