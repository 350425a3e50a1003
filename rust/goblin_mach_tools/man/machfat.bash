_machfat() {
    local word=${COMP_WORDS[COMP_CWORD]}
    case ${COMP_WORDS[COMP_CWORD - 1]} in --limit|--color) return ;; esac
    case $word in
    -*) mapfile -t COMPREPLY < <(compgen -W "--json --limit --names --fat64 -0 --color -h --help --version" -- "$word") ;;
    *)
        if [ "$COMP_CWORD" = 1 ]; then
            mapfile -t COMPREPLY < <(compgen -W "list extract thin members create replace remove verify" -- "$word")
            return
        fi
        compopt -o filenames
        mapfile -t COMPREPLY < <(compgen -f -- "$word")
        ;;
    esac
}
complete -F _machfat machfat
