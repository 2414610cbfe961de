# What overstored(1) takes behind its name, for bash: a settings file.
_overstored() {
    if [ "$COMP_CWORD" = 1 ] || [ "${COMP_WORDS[1]}" = --log ] && [ "$COMP_CWORD" = 2 ]; then
        mapfile -t COMPREPLY < <(compgen -W '--help --log --version' -- "${COMP_WORDS[COMP_CWORD]}"; compgen -f -X '!*.toml' -- "${COMP_WORDS[COMP_CWORD]}")
    fi
}
complete -o filenames -o default -F _overstored overstored
