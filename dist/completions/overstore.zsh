#compdef overstore
# What overstore(1) takes behind its name, for zsh.

local -a options numbers
local behind='2:mode:((full\:"each file has a surface" delta\:"a file has one where more hold its key"))'
local commands='1:command:((run\:"answer a script on standard input" load\:"answer the commands of a workload" audit\:"print what users could ever have read" tidy\:"write a shorter store beside the store"))'
if (( CURRENT == 2 )); then
    options=(
        '(- *)--help[print a summary]'
        '(- *)--version[print the version]'
        '--quiet[show no count of replies]'
    )
elif [[ ${words[2]} == --quiet ]]; then
    options=('--quiet[show no count of replies]')
    commands='1:command:((run\:"answer a script on standard input"))'
elif [[ ${words[2]} == audit ]]; then
    behind='2:names of users, with commas: '
    numbers=('3:help:((server\:"with the help of the server"))')
elif [[ ${words[2]} == load ]]; then
    numbers=('3:number of the workload: ' '4:count of commands: ')
fi
_arguments \
    $options \
    $commands \
    $behind \
    $numbers
