#!/bin/sh
# Times of each step that distributes a grid of cells over 64 ranks, at doubling sizes: up to 1000000 cells, with
# nearly twice as many edges.
# Usage: bench/halos.sh PROGRAM [SIDE ..]     (PROGRAM is the built crate `op2_bench`; a grid has SIDE * SIDE cells)
[ $# -gt 0 ] || { sed -n '2,4p' "$0" >&2; exit 2; }
program=$1
shift
[ $# -gt 0 ] || set -- 354 500 707 1000
for side in "$@"; do
    echo "$((side * side)) cells, $((2 * side * (side - 1))) edges"
    "$program" grid "$side" 64 | grep ' ms$' || exit 1
done
