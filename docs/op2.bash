# Made by tools/manual of the words of `op2 --help`: a completion for bash. `. docs/op2.bash` takes it.
# shellcheck shell=bash disable=SC2207
_op2() {
    local word=${COMP_WORDS[COMP_CWORD]} before=${COMP_WORDS[COMP_CWORD - 1]}
    case $before in
        --ranks) return ;;
        --parts) COMPREPLY=($(compgen -W 'block bisect: grow:' -- "$word")); compopt -o nospace; return ;;
        --partition) COMPREPLY=($(compgen -f -- "$word")); return ;;
        --renumber) return ;;
        --block) return ;;
        --plan) COMPREPLY=($(compgen -f -- "$word")); return ;;
        --schedule) COMPREPLY=($(compgen -f -- "$word")); return ;;
        --seed) return ;;
        --workers) return ;;
        --at) return ;;
        --from) COMPREPLY=($(compgen -f -- "$word")); return ;;
        --form) return ;;
    esac
    case $word in
        -*) COMPREPLY=($(compgen -W '--ranks --parts --partition --renumber --block --plan --schedule --seed --workers --at --from --chain --dump --form -h --help -V --version' -- "$word")) ;;
        *)
            if [ "$COMP_CWORD" -eq 1 ]; then
                COMPREPLY=($(compgen -W 'run sample state check plan schedule convert translate restore' -- "$word"))
            else
                COMPREPLY=($(compgen -f -- "$word"))
            fi
            ;;
    esac
}
complete -F _op2 op2
