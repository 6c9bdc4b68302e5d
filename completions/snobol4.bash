# Completion of snobol4 in bash.
_snobol4() {
    local word=${COMP_WORDS[COMP_CWORD]} before=${COMP_WORDS[COMP_CWORD - 1]}
    local command= words= at
    for ((at = 1; at < COMP_CWORD; at++)); do
        case ${COMP_WORDS[at]} in
        run | check | ways | help) command=${COMP_WORDS[at]} && break ;;
        esac
    done
    COMPREPLY=()
    case $before in
    --statements | --match-steps | --steps) return ;;
    esac
    case $command in
    '') words='run check ways help --help --version' ;;
    help) words='run check ways' ;;
    run) words='--statements --match-steps --help' ;;
    check) words='--help' ;;
    ways) words='--anchor --steps --help' ;;
    esac
    if [[ $command == @(run|check) && $word != -* ]]; then
        compopt -o filenames
        mapfile -t COMPREPLY < <(compgen -f -- "$word")
    elif [[ $command != ways || $word == -* ]]; then
        mapfile -t COMPREPLY < <(compgen -W "$words" -- "$word")
    fi
}
complete -F _snobol4 snobol4
