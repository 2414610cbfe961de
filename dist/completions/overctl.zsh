#compdef overctl
# What overctl(1) takes behind its name, for zsh.

local address='2:address, as HOST\:PORT: '
local keys='3:file of both masters:_files'
local -a places flags
flags=('--timeout[end with 8 after so many seconds of a wait]:seconds: ')
case ${words[2]} in
    read | key) flags+=('(-o --output)'{-o,--output}'[put the result into a file]:file:_files') ;;
    remove | replace | own) flags+=('--yes[ask nothing]') ;;
    check | book) flags=() ;;
esac
case ${words[2]} in
    enrol | key) places=($address $keys '4:user: ') ;;
    create) places=($address $keys '4:file in the store: ' '5:users, with commas between them: ' '6:bytes to be stored:_files') ;;
    grant | revoke) places=($address $keys '4:user: ' '5:file in the store: ') ;;
    remove | list) places=($address $keys '4:file in the store: ') ;;
    replace) places=($address $keys '4:file in the store: ' '5:bytes to be stored:_files') ;;
    read) places=($address '3:file of a user key line:_files' '4:file in the store: ') ;;
    check) places=('2:file of both masters:_files') ;;
    epoch | users) places=($address) ;;
    files) places=($address '3::user: ') ;;
    script) places=($address $keys) ;;
    own) places=($address $keys '4:path of the book, without an ending:_files' '5:mode:(full delta)'
        '6:command:(enrol create grant revoke remove replace resume)' '*:a word of the command:_files') ;;
    book) places=('2:file of both masters:_files' '3:path of the book, without an ending:_files' '4:mode:(full delta)'
        '5:question:(key list users files epoch pending)' '6::user or file: ') ;;
esac
_arguments \
    '(- *)--help[print help]' \
    '(- *)--version[print the version]' \
    $flags \
    '1:command:((enrol\:"add a user" create\:"store bytes as a file" grant\:"put a user onto a list" revoke\:"take a user off a list" remove\:"take a file away" replace\:"give a file new bytes" list\:"print a list" key\:"print a user key line" read\:"print the bytes of a file" check\:"print a check value" epoch\:"print mode and epoch" users\:"print the users" files\:"print all lists, or the files of a user" script\:"answer a script over one session" own\:"send a command by a book" book\:"ask the book of an owner"))' \
    $places
