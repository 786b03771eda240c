# shellcheck shell=bash
# Completion of the programs' words in bash, for the package bash-completion: options by what --help says, and file names.
_giopdump() {
    # shellcheck disable=SC2034
    local cur prev words cword
    _init_completion || return
    case $prev in
        --signatures | --types) _filedir sig && return ;;
        --requests | --resume | --save) _filedir && return ;;
        --*[a-z]) [[ $("$1" --help) =~ (^|[^-a-z])"$prev"[\ =]+[A-Z\<] ]] && return ;;
    esac
    if [[ $cur == -* ]]; then
        mapfile -t COMPREPLY < <(compgen -W "$(_parse_help "$1")" -- "$cur")
    else
        _filedir
    fi
}
complete -F _giopdump giopdump giopcap giop-json giop-stat giop-chart giop-report giop-keys
