#!/bin/sh
# Runs each example on one rank and on four, and compares what it prints with NAME.out, and the example `sample2` with the sample on a grid of 2 times 2 cells;
# writes the mesh of `sample2` again, the plan of `heat` on two ranks, its translation, and its state before item 12; runs `heat` by that plan, and by one
# with other blocks and colours, and in two halves, the second from that state on four ranks, and by chains. Each example is run once more as it is translated and restored,
# and as the C compilers that are there (gcc, clang) make it a program. Pictures and what plans cost are written again, as NAME.svg or NAME.vtk and NAME.stat,
# and meshes by the scripts that wrote them.
# Ends with the number of differences.
# Usage: examples/check.sh [OP2 [TOOLS]]     (programs; else what OP2 and OP2_TOOLS name, else those of the repository)
here=$(CDPATH= cd -- "$(dirname -- "$0")" && pwd) || exit 70
op2=${1:-${OP2:-$here/../op2}}
tools=${2:-${OP2_TOOLS:-$here/../op2-tools}}
work=$(mktemp -d) || exit 70
trap 'rm -rf "$work"' EXIT
bad=0
compilers=
for compiler in gcc clang; do
    if command -v "$compiler" >"$work/found"; then
        compilers="$compilers $compiler"
    else
        echo "left out: programs by $compiler"
    fi
done

# The source, its mesh and what is to be printed, by C compilers (docs/COMPILERS.md).
compiled() {
    "$here/../tools/mesh_c" "$2" "$1" >"$work/mesh.c"
    for compiler in $compilers; do
        if ! "$compiler" -std=c11 -w -O2 -fwrapv -include "$here/../include/op2_seq.h" "$1" "$work/mesh.c" -o "$work/program" ||
            ! "$work/program" | cmp -s - "$3"; then
            echo "differs: $(basename "$1") by $compiler" >&2
            bad=$((bad + 1))
        fi
    done
}

# The file that these words of op2-tools write.
written() {
    file=$1
    shift
    if ! "$tools" "$@" | cmp -s - "$here/$file"; then
        echo "differs: $file" >&2
        bad=$((bad + 1))
    fi
}

# The mesh that a script writes, with the words behind its name.
made() {
    file=$1
    shift
    if ! python3 "$@" | cmp -s - "$here/$file"; then
        echo "differs: $file" >&2
        bad=$((bad + 1))
    fi
}

# The picture of an example in the plane on four ranks, and what its plan costs: its name, mesh, map of cells, and rule of owners.
pictured() {
    written "$1.svg" draw "$here/$1.c" "$here/$2" --coords x --cells "$3" --ranks 4 --parts "$4"
    written "$1.stat" stat "$here/$1.c" "$here/$2" --ranks 4 --parts "$4"
}

for out in "$here"/*.out; do
    name=${out%.out}
    for ranks in 1 4; do
        if ! "$op2" run "$name.c" "$name.mesh" --ranks "$ranks" | cmp -s - "$out"; then
            echo "differs: $(basename "$name") on $ranks ranks" >&2
            bad=$((bad + 1))
        fi
    done
    compiled "$name.c" "$name.mesh" "$out"
    "$op2" translate "$name.c" >"$work/stubs" && "$op2" restore "$work/stubs" >"$work/back.c"
    if ! "$op2" run "$work/back.c" "$name.mesh" | cmp -s - "$out"; then
        echo "differs: $(basename "$name"), translated and restored" >&2
        bad=$((bad + 1))
    fi
done
# The steps of docs/TUTORIAL.md, and what has a mesh of its own, on one rank and on four.
for out in "$here"/airfoil/*.out; do
    mesh=${out%.out}.mesh
    [ -f "$mesh" ] || mesh=$here/airfoil/airfoil.mesh
    compiled "${out%.out}.c" "$mesh" "$out"
    for ranks in 1 4; do
        if ! "$op2" run "${out%.out}.c" "$mesh" --ranks "$ranks" | cmp -s - "$out"; then
            echo "differs: airfoil/$(basename "${out%.out}") on $ranks ranks" >&2
            bad=$((bad + 1))
        fi
    done
done
if ! "$op2" sample 2 | cmp -s - "$here/sample2.out"; then
    echo 'differs: sample 2' >&2
    bad=$((bad + 1))
fi
if ! "$op2" convert --form 1 "$here/sample2.mesh" | cmp -s - "$here/sample2.mesh"; then
    echo 'differs: the mesh of sample2, written again' >&2
    bad=$((bad + 1))
fi
if ! "$op2" plan "$here/heat.c" "$here/heat.mesh" --ranks 2 --block 2 --renumber joined | cmp -s - "$here/heat.plan"; then
    echo 'differs: the plan of heat on two ranks' >&2
    bad=$((bad + 1))
fi
for plan in heat.plan heat.colours; do
    if ! "$op2" run "$here/heat.c" "$here/heat.mesh" --ranks 2 --renumber joined --plan "$here/$plan" | cmp -s - "$here/heat.out"; then
        echo "differs: heat by $plan" >&2
        bad=$((bad + 1))
    fi
done
if ! "$op2" run "$here/airfoil/naca.c" "$here/airfoil/naca.mesh" --ranks 2 --parts bisect:x --chain | cmp -s - "$here/airfoil/naca.out"; then
    echo 'differs: airfoil/naca by chains on 2 ranks' >&2
    bad=$((bad + 1))
fi
for ranks in 1 3; do
    if ! "$op2" run "$here/heat.c" "$here/heat.mesh" --ranks "$ranks" --chain | cmp -s - "$here/heat.out"; then
        echo "differs: heat by chains on $ranks ranks" >&2
        bad=$((bad + 1))
    fi
done
if ! "$op2" state "$here/heat.c" "$here/heat.mesh" --at 12 --ranks 2 --seed 3 | cmp -s - "$here/heat.state"; then
    echo 'differs: the state of heat before item 12' >&2
    bad=$((bad + 1))
fi
# The first half's output ends before the empty line in front of the state.
sed '/^$/,$d' "$here/heat.state" >"$work/halves"
"$op2" run "$here/heat.c" "$here/heat.mesh" --from "$here/heat.state" --ranks 4 --workers 2 --seed 7 >>"$work/halves"
if ! cmp -s "$work/halves" "$here/heat.out"; then
    echo 'differs: heat in two halves' >&2
    bad=$((bad + 1))
fi
if ! "$op2" translate "$here/heat.c" | cmp -s - "$here/heat.stubs"; then
    echo 'differs: the translation of heat' >&2
    bad=$((bad + 1))
fi
made airfoil/airfoil.mesh "$here/airfoil/mesh.py"
made airfoil/naca.mesh "$here/airfoil/naca_mesh.py"
for name in jac jacobi paths; do
    made "$name.mesh" "$here/${name}_mesh.py"
done
made bar.msh "$here/bar_msh.py"
made cube.msh "$here/cube_mesh.py" 4.1
made cube22.msh "$here/cube_mesh.py" 2.2
# The pictures of examples/README.md, and what the plans cost.
pictured airfoil/step5 airfoil/airfoil.mesh pcell bisect:x
pictured jacobi jacobi.mesh pcell bisect:x
pictured paths paths.mesh pblock grow:pe
written bar.vtk vtk "$here/bar.c" "$here/bar.mesh" --coords coords --cells pcell --ranks 4 --parts bisect:coords --output "$here/bar.out"
written bar.stat stat "$here/bar.c" "$here/bar.mesh" --ranks 4 --parts bisect:coords
exit "$bad"
