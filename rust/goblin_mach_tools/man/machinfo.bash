_machinfo() {
    local word=${COMP_WORDS[COMP_CWORD]}
    case ${COMP_WORDS[COMP_CWORD - 1]} in --limit|--arch|--cputype|--at|--color) return ;; esac
    case $word in
    -*) mapfile -t COMPREPLY < <(compgen -W "--headings --explain --limit --raw --json --names -0 --arch --cputype --lossy --at --color -h --help --version" -- "$word") ;;
    *)
        if [ "$COMP_CWORD" = 1 ]; then
            mapfile -t COMPREPLY < <(compgen -W "at bytes commands starts slots indirect data options tools notes providers libraries id rebases weak segments sections uuid rpaths entrypoint header security relocations strings inits exports imports" -- "$word")
            return
        fi
        compopt -o filenames
        mapfile -t COMPREPLY < <(compgen -f -- "$word")
        ;;
    esac
}
complete -F _machinfo machinfo
