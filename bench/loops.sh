#!/bin/sh
# Times each loop of the sample in a run on one rank, on a grid of N times N cells: nanoseconds of the processor an element, beside plain C by
# gcc -O2 where gcc is there, and machine instructions an element where valgrind is there, on a grid of 100 times 100.
# Usage: bench/loops.sh [N]     (500 where none is given; OP2 may name another program)
here=$(CDPATH= cd -- "$(dirname -- "$0")/.." && pwd) || exit 1
. "$here/bench/program.sh"
work=$(mktemp -d) || exit 1
trap 'rm -rf "$work"' EXIT
n=${1:-500}
for size in 100 "$n"; do
    python3 "$here/bench/grid.py" "$work" "$size" || exit 1
    mv "$work/airfoil.mesh" "$work/$size.mesh"
done
python3 "$here/bench/loops.py" "$op2" "$here/examples/sample2.c" "$work" 5 "$n" 100
