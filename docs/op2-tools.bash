# Made by tools/manual of the words of `op2-tools --help`: a completion for bash. `. docs/op2-tools.bash` takes it.
# shellcheck shell=bash disable=SC2207
_op2_tools() {
    local word=${COMP_WORDS[COMP_CWORD]} before=${COMP_WORDS[COMP_CWORD - 1]}
    case $before in
        --coords) return ;;
        --cells) return ;;
        --halos) return ;;
        --colours) return ;;
        --output) COMPREPLY=($(compgen -f -- "$word")); return ;;
        --metis) COMPREPLY=($(compgen -f -- "$word")); return ;;
        --set) return ;;
        --ranks) return ;;
        --parts) COMPREPLY=($(compgen -W 'block bisect: grow:' -- "$word")); compopt -o nospace; return ;;
        --partition) COMPREPLY=($(compgen -f -- "$word")); return ;;
        --renumber) return ;;
        --block) return ;;
        --plan) COMPREPLY=($(compgen -f -- "$word")); return ;;
        --scale) return ;;
        --dim) return ;;
    esac
    case $word in
        -*) COMPREPLY=($(compgen -W '--coords --cells --halos --colours --output --metis --set --plain --ranks --parts --partition --renumber --block --plan --scale --dim --source -h --help -V --version' -- "$word")) ;;
        *)
            if [ "$COMP_CWORD" -eq 1 ]; then
                COMPREPLY=($(compgen -W 'pick graph owners stat draw vtk from-gmsh explain' -- "$word"))
            else
                COMPREPLY=($(compgen -f -- "$word"))
            fi
            ;;
    esac
}
complete -F _op2_tools op2-tools
