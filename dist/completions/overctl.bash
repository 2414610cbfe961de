# What overctl(1) takes behind its name, for bash. Behind a command words are completed as files.
_overctl() {
    local word=${COMP_WORDS[COMP_CWORD]} before=${COMP_WORDS[COMP_CWORD - 1]} words=
    case $before in
        # The word behind these is a path, or a number.
        -o | --output | --timeout) COMPREPLY=() && return ;;
    esac
    case $COMP_CWORD,$word in
        1,*) words='enrol create grant revoke remove replace list key read check epoch users files script own book --help --version' ;;
        *,-*)
            words='--help --timeout'
            case ${COMP_WORDS[1]} in
                read | key) words+=' --output' ;;
                remove | replace | own) words+=' --yes' ;;
                check | book) words=--help ;;
            esac
            ;;
        4,*) [ "${COMP_WORDS[1]}" != book ] || words='full delta' ;;
        5,*)
            case ${COMP_WORDS[1]} in
                own) words='full delta' ;;
                book) words='key list users files epoch pending' ;;
            esac
            ;;
        6,*) [ "${COMP_WORDS[1]}" != own ] || words='enrol create grant revoke remove replace resume' ;;
    esac
    mapfile -t COMPREPLY < <(compgen -W "$words" -- "$word")
}
complete -o default -F _overctl overctl
