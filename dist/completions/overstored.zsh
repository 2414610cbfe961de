#compdef overstored
# What overstored(1) takes behind its name, for zsh.

_arguments \
    '(- *)--help[print a summary]' \
    '(- *)--version[print the version]' \
    '--log[log updates and the ends of sessions on standard error]' \
    '1:settings:_files -g "*.toml"'
