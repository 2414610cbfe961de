# What overstore(1) takes behind its name, for bash. A script behind `<` is completed as a file.
_overstore() {
    local word=${COMP_WORDS[COMP_CWORD]} words=
    case $COMP_CWORD,${COMP_WORDS[1]} in
        1,*) words='run load audit tidy --quiet --help --version' ;;
        2,run | 2,load) words='full delta' ;;
        2,--quiet) words=run ;;
        3,audit) words=server ;;
        3,--quiet) words='full delta' ;;
    esac
    mapfile -t COMPREPLY < <(compgen -W "$words" -- "$word")
}
complete -o default -F _overstore overstore
