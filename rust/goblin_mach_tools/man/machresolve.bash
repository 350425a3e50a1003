_machresolve() {
    local word=${COMP_WORDS[COMP_CWORD]}
    case ${COMP_WORDS[COMP_CWORD - 1]} in --arch|--cputype|--limit|--color) return ;; esac
    case $word in
    -*) mapfile -t COMPREPLY < <(compgen -W "--arch --cputype --limit --color -h --help --version" -- "$word") ;;
    *)
        compopt -o filenames
        mapfile -t COMPREPLY < <(compgen -f -- "$word")
        ;;
    esac
}
complete -F _machresolve machresolve
