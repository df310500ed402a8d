#!/bin/sh
# Makes a program of each example, of tests/compilers/*.c and of the sample by the compilers that are there (gcc, clang; g++, clang++), without
# and with optimization, by include/op2_seq.h, and compares what it prints with what op2 prints, byte for byte; no warning may name a line of
# the header. Shows then that entries of a mesh give way to the source's own names where tools/mesh_c isn't told the source, that 54 MB take
# it no more than 5 s, and that a sanitizer names the line at which a value wraps.
# Ends with the number of differences; with 70 where no C compiler is there.
# Usage: tests/compilers.sh [OP2]     (a program; else what OP2 names, else that of the repository)
here=$(CDPATH= cd -- "$(dirname -- "$0")/.." && pwd) || exit 70
op2=${1:-${OP2:-$here/op2}}
work=$(mktemp -d) || exit 70
trap 'rm -rf "$work"' EXIT
bad=0
tried=0

# The flags of docs/COMPILERS.md: values wrap, and locals start at 0. Older versions of clang want a second word for the latter.
wraps=-fwrapv
zeros_of() {
    case $1 in
        gcc | g++) echo '-ftrivial-auto-var-init=zero -fno-tree-loop-im' ;;
        *) cat "$work/zeros.$1" ;;
    esac
}
find_zeros() {
    zeros='-ftrivial-auto-var-init=zero -enable-trivial-auto-var-init-zero-knowing-it-will-be-removed-from-clang'
    echo 'int main(void) { return 0; }' >"$work/none.c"
    # shellcheck disable=SC2086
    "$1" $zeros -c "$work/none.c" -o "$work/none.o" 2>"$work/log" || zeros=-ftrivial-auto-var-init=zero
    echo "$zeros" >"$work/zeros.$1"
}

# What is told of a call that didn't go as it should.
differs() {
    echo "differs: $1" >&2
    bad=$((bad + 1))
}

# A program by a compiler with a level and the language's flags, and what it prints. The sources of tests/compilers include the header
# themselves, by both of its names.
prints() {
    case $4 in
        */tests/compilers/*) header= ;;
        *) header='-include op2_seq.h' ;;
    esac
    # shellcheck disable=SC2046,SC2086
    "$1" $3 $2 -Wall -Wextra -Wconversion $wraps $(zeros_of "$1") -I "$here/include" $header "$4" "$work/mesh.c" -o "$work/program" 2>"$work/log" &&
        "$work/program" >"$work/out"
}

# The source, its mesh, what is to be printed, and how the source is called here.
compare() {
    if ! "$here/tools/mesh_c" "$2" "$1" >"$work/mesh.c"; then
        differs "$4 has no mesh in C"
        return
    fi
    for compiler in $compilers; do
        case $compiler in
            *++)
                levels='-O0 -O2'
                language='-std=c++11 -x c++'
                ;;
            *)
                levels='-O0 -O1 -O2 -O3'
                language=-std=c11
                ;;
        esac
        for level in $levels; do
            tried=$((tried + 1))
            if ! prints "$compiler" "$level" "$language" "$1" || ! cmp -s "$work/out" "$3"; then
                differs "$4 by $compiler $level"
            fi
            if grep 'op2_seq\.h:[0-9:]* \(warning\|error\)' "$work/log" >&2; then
                differs "$4 by $compiler $level is warned of the header"
            fi
        done
    done
}

# The mesh of the sample on a grid, as docs/SAMPLE.md says.
write_grid() {
    awk -v n="$1" '
        function ints(name, count) { printf "ints %s %d\n", name, count }
        BEGIN {
            m = n + 1
            printf "op2mesh 1\nint nnode %d\nint ncell %d\nint nedge %d\nint nbedge %d\n", m * m, n * n, 2 * n * (n - 1), 4 * n
            ints("cell", 4 * n * n)
            for (j = 0; j < n; j++) for (i = 0; i < n; i++) print j * m + i, j * m + i + 1, (j + 1) * m + i + 1, (j + 1) * m + i
            ints("ecell", 4 * n * (n - 1))
            for (j = 0; j < n; j++) for (i = 0; i < n - 1; i++) print j * n + i, j * n + i + 1
            for (j = 0; j < n - 1; j++) for (i = 0; i < n; i++) print j * n + i, (j + 1) * n + i
            ints("bcell", 4 * n)
            for (i = 0; i < n; i++) print i
            for (i = 0; i < n; i++) print (n - 1) * n + i
            for (j = 0; j < n; j++) print j * n
            for (j = 0; j < n; j++) print j * n + n - 1
            ints("wall0", 4 * n)
            for (i = 0; i < 4 * n; i++) print (i < n) - (i >= n && i < 2 * n)
            ints("x0", 2 * m * m)
            for (j = 0; j < m; j++) for (i = 0; i < m; i++) print i, j
            ints("q0", n * n)
            for (j = 0; j < n; j++) for (i = 0; i < n; i++) print i + j
            ints("zero", n * n)
            for (i = 0; i < n * n; i++) print 0
            print "done"
        }'
}

compilers=
for compiler in gcc clang g++ clang++; do
    if command -v "$compiler" >/dev/null; then
        compilers="$compilers $compiler"
        find_zeros "$compiler"
    else
        echo "left out: programs by $compiler"
    fi
done
case $compilers in
    *' gcc'* | *' clang'*) ;;
    *) exit 70 ;;
esac

for source in "$here"/examples/*.c "$here"/tests/compilers/*.c; do
    name=${source%.c}
    if ! "$op2" run "$source" "$name.mesh" >"$work/wanted"; then
        differs "$name doesn't run"
        continue
    fi
    compare "$source" "$name.mesh" "$work/wanted" "$(basename "$name")"
done

for out in "$here"/examples/airfoil/*.out; do
    name=${out%.out}
    mesh=$name.mesh
    [ -f "$mesh" ] || mesh=$here/examples/airfoil/airfoil.mesh
    compare "$name.c" "$mesh" "$out" "airfoil/$(basename "$name")"
done

for side in 1 2 10; do
    "$op2" sample $side >"$work/wanted"
    write_grid $side >"$work/grid.mesh"
    compare "$here/examples/sample2.c" "$work/grid.mesh" "$work/wanted" "sample $side"
done

# Without the source all entries are there, and give way to its names.
source=$here/tests/compilers/names.c
"$op2" run "$source" "${source%.c}.mesh" >"$work/wanted"
"$here/tools/mesh_c" "${source%.c}.mesh" >"$work/mesh.c"
for compiler in $compilers; do
    tried=$((tried + 1))
    case $compiler in
        *++) language='-std=c++11 -x c++' ;;
        *) language=-std=c11 ;;
    esac
    if ! prints "$compiler" -O0 "$language" "$source" || ! cmp -s "$work/out" "$work/wanted"; then
        differs "names by $compiler, with all entries of its mesh"
    fi
done

# A mesh of 54 MB takes less than a second of a processor; some 10 s were needed once. Each line has three values, and each but the first has
# a comma before it.
{
    echo 'op2mesh 2 int other 5 ints large 10125000'
    yes '1234567 89 -512' | head -n 3375000
    echo done
} >"$work/large.mesh"
echo 'extern int large[];' >"$work/large.c"
if ! (ulimit -t 5 && "$here/tools/mesh_c" "$work/large.mesh" "$work/large.c" >"$work/mesh.c"); then
    differs 'a mesh of 54 MB takes 5 s or more'
elif [ "$(tr -cd , <"$work/mesh.c" | wc -c)" -ne 10124999 ] || grep -q other "$work/mesh.c"; then
    differs 'a mesh of 54 MB in C'
fi
rm -f "$work/large.mesh" "$work/mesh.c"

# Line 3 of examples/bump.c adds 1 to 2147483647.
"$here/tools/mesh_c" "$here/examples/bump.mesh" "$here/examples/bump.c" >"$work/mesh.c"
for compiler in gcc clang; do
    command -v "$compiler" >/dev/null || continue
    tried=$((tried + 1))
    # shellcheck disable=SC2046
    "$compiler" -std=c11 -w -g -fsanitize=signed-integer-overflow $(zeros_of "$compiler") -I "$here/include" -include op2_seq.h \
        "$here/examples/bump.c" "$work/mesh.c" -o "$work/program" && "$work/program" >"$work/out" 2>"$work/err"
    if ! cmp -s "$work/out" "$here/examples/bump.out" || ! grep -q 'bump.c:3:.*signed integer overflow: 2147483647 + 1 ' "$work/err"; then
        differs "the sanitizer of $compiler names no wrap in line 3 of bump.c"
    fi
done
echo "$tried programs by$compilers, $bad differences"
exit "$bad"
