# Completions of bearoff for bash.
_bearoff() {
    local word=${COMP_WORDS[COMP_CWORD]} before=${COMP_WORDS[COMP_CWORD - 1]} words=
    case $before in --pips | --cache) return ;; esac
    if [ "$COMP_CWORD" -eq 1 ]; then
        words='build check query ask show about audit upgrade help --help --version'
    else
        case ${COMP_WORDS[1]} in
            build) words='--pips --board --help' ;;
            query) words='--cache --board --help' ;;
            check | audit) words='--board --help' ;;
            show) words='--json --help' ;;
            ask | about | upgrade) words='--help' ;;
            help) words='build check query ask show about audit upgrade' ;;
        esac
        case ${COMP_WORDS[1]}:$word in help:* | *:-*) ;; *) words= ;; esac
    fi
    mapfile -t COMPREPLY < <(compgen -W "$words" -- "$word")
}
complete -o default -F _bearoff bearoff
