# Completes the words of gafkelam in bash: source this file, as in ~/.bashrc.
_gafkelam() {
    local word=${COMP_WORDS[COMP_CWORD]} command=${COMP_WORDS[1]}
    COMPREPLY=()
    if [ "$COMP_CWORD" -eq 1 ]; then
        mapfile -t COMPREPLY < <(compgen -W "route sweep global least bound core encode decode check verify judge gen trial picture help --help --version" -- "$word")
        return
    fi
    local options=--help
    case $command in
    route | sweep) options="--conflicts --seconds --keep --count --pin --symmetry --reach --members --seed --stats --help" ;;
    core) options="--conflicts --seconds --pin --symmetry --stats --help" ;;
    trial) options="--conflicts --seconds --keep --count --reach --stats --help" ;;
    encode) options="--pin --symmetry --reach --names --help" ;;
    decode) options="--pin --symmetry --reach --help" ;;
    global | least) options="--free --from --rounds --seconds --stats --help" ;;
    verify) options="--reach --all --help" ;;
    picture) options="--reach --html --help" ;;
    judge) options="--strict --help" ;;
    esac
    if [ "${word:0:1}" = - ]; then
        mapfile -t COMPREPLY < <(compgen -W "$options" -- "$word")
        return
    fi
    case $command:$COMP_CWORD in
    gen:[234] | trial:[2345] | global:[56] | least:[56] | decode:[68] | *:6) return ;;
    esac
    compopt -o filenames 2>/dev/null
    mapfile -t COMPREPLY < <(compgen -f -- "$word")
}
complete -F _gafkelam gafkelam ./gafkelam ../gafkelam
