# Completion for bash: copy it to /usr/share/bash-completion/completions/eve_cached.
_eve_cached() {
    local word=${COMP_WORDS[COMP_CWORD]}
    case ${COMP_WORDS[COMP_CWORD - 1]} in
        --u) COMPREPLY=($(compgen -W "0 1 2 3" -- "$word")) ;;
        --dialect) COMPREPLY=($(compgen -W "memcached profile" -- "$word")) ;;
        --sync) COMPREPLY=($(compgen -W "turn none" -- "$word")) ;;
        --data) COMPREPLY=($(compgen -d -- "$word")) ;;
        --listen | --status | --connections | --idle | --max-bytes) COMPREPLY=() ;;
        *) COMPREPLY=($(compgen -W "--listen --u --connections --idle --max-bytes --dialect --data --new --sync --status --help --version" -- "$word")) ;;
    esac
}
complete -F _eve_cached eve_cached
