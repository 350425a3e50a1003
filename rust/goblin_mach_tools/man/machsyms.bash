_machsyms() {
    local word=${COMP_WORDS[COMP_CWORD]}
    case ${COMP_WORDS[COMP_CWORD - 1]} in --limit|--at|--load-address|--arch|--cputype|--color) return ;; esac
    case $word in
    -*) mapfile -t COMPREPLY < <(compgen -W "-a --debug-syms -g --extern-only -u --undefined-only -U --defined-only -n --numeric-sort -r --reverse-sort -p --no-sort -j -m -x -A --print-file-name -o --raw --limit --at --load-address --json --names -0 --arch --cputype --lossy --color -h --help --version" -- "$word") ;;
    *)
        compopt -o filenames
        mapfile -t COMPREPLY < <(compgen -f -- "$word")
        ;;
    esac
}
complete -F _machsyms machsyms
