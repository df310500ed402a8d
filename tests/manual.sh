#!/bin/sh
# Compares the man pages and completions of docs/ with what tools/manual makes of the words of `op2 --help` and `op2-tools --help`, asks groff and the shells
# that are there (bash, zsh, fish) whether they can read them, runs the examples of the man pages, and tries some completions. Ends with the number of differences.
# Usage: tests/manual.sh [OP2 [TOOLS]]     (programs; else what OP2 and OP2_TOOLS name, else those of the repository)
here=$(CDPATH= cd -- "$(dirname -- "$0")/.." && pwd) || exit 70
op2=${1:-${OP2:-$here/op2}}
tools=${2:-${OP2_TOOLS:-$here/op2-tools}}
case $op2 in /*) ;; *) op2=$PWD/$op2 ;; esac
case $tools in /*) ;; *) tools=$PWD/$tools ;; esac
work=$(mktemp -d) || exit 70
trap 'rm -rf "$work"' EXIT
bad=0
differs() {
    echo "differs: $1" >&2
    bad=$((bad + 1))
}

command -v groff >"$work/found" || echo 'left out: man pages as groff reads them'
for shell in zsh fish; do
    command -v $shell >"$work/found" || echo "left out: completions as $shell reads them"
done
for program in "$op2" "$tools"; do
    "$program" --help >"$work/help" || differs "$program --help"
    "$here/tools/manual" "$work/help" "$work" || differs 'tools/manual'
done
for name in op2 op2-tools; do
    for file in $name.1 $name.bash $name.zsh $name.fish; do
        cmp "$here/docs/$file" "$work/$file" || differs "docs/$file; tools/manual makes it anew"
    done
    if command -v groff >/dev/null && [ -n "$(groff -man -Tutf8 -ww "$here/docs/$name.1" 2>&1 >/dev/null)" ]; then
        differs "groff complains about docs/$name.1"
    fi
    for shell in bash zsh fish; do
        if command -v $shell >/dev/null && ! $shell -n "$here/docs/$name.$shell"; then
            differs "$shell can't read docs/$name.$shell"
        fi
    done
done

# The examples of a man page, one after another, in a folder with a copy of examples/.
place=$work/place
mkdir "$place" "$work/bin"
cp -r "$here/examples" "$place/examples"
ln -s "$op2" "$work/bin/op2"
ln -s "$tools" "$work/bin/op2-tools"
for name in op2 op2-tools; do
    sed -n '/^\.SH EXAMPLES/,/^\.SH SEE/ { s/\\-/-/g; s/^\.B //p }' "$here/docs/$name.1" >"$work/commands"
    [ -s "$work/commands" ] || differs "docs/$name.1 has no examples"
    while read -r command; do
        (cd "$place" && PATH="$work/bin:$PATH" sh -c "$command" </dev/null >"$work/said" 2>&1) || differs "$command ends so: $(cat "$work/said")"
        [ -s "$work/said" ] || case $command in *'>'*) ;; *) differs "$command writes nothing" ;; esac
    done <"$work/commands"
done

# The words that are written, the last one being completed, and the completions.
completes() {
    # shellcheck disable=SC2016,SC2086
    found=$(cd "$work" && bash -c '
        compopt() { :; }
        . "$0/$1.bash"
        COMP_WORDS=("$@") COMP_CWORD=$(($# - 1))
        "_${1//-/_}"
        echo "${COMPREPLY[*]}"' "$here/docs" $1)
    [ "$found" = "$2" ] || differs "$1 is completed by $found and not by $2"
}
completes 'op2 sc' 'schedule'
completes 'op2 run --ra' '--ranks'
completes 'op2 run --parts b' 'block bisect:'
completes 'op2 run he' 'help'
completes 'op2 run --schedule he' 'help'
completes 'op2-tools fr' 'from-gmsh'
completes 'op2-tools draw s.c m.mesh --co' '--coords --colours'
completes 'op2-tools vtk --output he' 'help'

# The same by fish, which writes a word a line.
fish_completes() {
    # shellcheck disable=SC2016
    found=$(cd "$work" && HOME=$work fish -c 'source $argv[1]; complete -C $argv[2]' "$here/docs/${1%% *}.fish" "$1" | cut -f 1 | sort | tr '\n' ' ')
    [ "$found" = "$2 " ] || differs "$1 is completed by $found and not by $2, in fish"
}
if command -v fish >/dev/null; then
    fish_completes 'op2 sc' 'schedule'
    fish_completes 'op2 run --pa' '--partition --parts'
    fish_completes 'op2 run --parts b' 'bisect: block'
    fish_completes 'op2 convert --' '--form'
    fish_completes 'op2 run hel' 'help'
    fish_completes 'op2-tools fr' 'from-gmsh'
    fish_completes 'op2-tools draw --co' '--colours --coords'
fi
exit "$bad"
