_machsign() {
    local word=${COMP_WORDS[COMP_CWORD]}
    case ${COMP_WORDS[COMP_CWORD - 1]} in --limit|--arch|--cputype|--color) return ;; esac
    case $word in
    -*) mapfile -t COMPREPLY < <(compgen -W "--entitlements --limit --json --names -0 --arch --cputype --lossy --color -h --help --version" -- "$word") ;;
    *)
        compopt -o filenames
        mapfile -t COMPREPLY < <(compgen -f -- "$word")
        ;;
    esac
}
complete -F _machsign machsign
