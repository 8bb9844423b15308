# Completion of ./osi for bash: the words, options and templates, and then files. Switch it on by `. tools/completion.bash`, for each shell by a line
# `. PLACE/tools/completion.bash` in ~/.bashrc.
_osi() {
    local words='run frames decode storm datagrams inactive relay help ladder annotate explain expect lossy sweep diff type of summary octets replay live together recovery'
    COMPREPLY=()
    if [ "$COMP_CWORD" = 1 ]; then
        mapfile -t COMPREPLY < <(compgen -W "$words --version --help" -- "$2")
    elif [ "${COMP_WORDS[1]}" = type ] && [ "$3" = --from ]; then
        mapfile -t COMPREPLY < <(compgen -W 'two-lans two-routers relay datagrams' -- "$2")
    elif [[ $2 == -* ]]; then
        case ${COMP_WORDS[1]} in
        ladder) words='--svg --ticks --of --help' ;;
        sweep) words='--csv --svg --on --help' ;;
        type) words='--from --step --help' ;;
        live) words='--fresh --tick --log --stay --skew --help' ;;
        recovery) words='--seeds --outages --outage --less --help' ;;
        *) words=--help ;;
        esac
        mapfile -t COMPREPLY < <(compgen -W "$words" -- "$2")
    fi
}
complete -o default -F _osi osi ./osi
