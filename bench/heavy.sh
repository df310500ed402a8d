#!/bin/sh
# Times loops on chains of edges: kernels of many turns, with an `if`, in a loop that every third edge takes, and of fixed point; and on N edges a flux
# kernel, where edges lead from a node to itself, or have faults, so that their batches can't run at once. Prints nanoseconds of the processor an edge, of a run less its check and of a second
# loop in one run, beside plain C by gcc -O2 where gcc is there. After a fault the run stops, so there is no second loop.
# Usage: bench/heavy.sh [N]     (1000000 where none is given; OP2 may name another program)
here=$(CDPATH= cd -- "$(dirname -- "$0")/.." && pwd) || exit 1
. "$here/bench/program.sh"
work=$(mktemp -d) || exit 1
trap 'rm -rf "$work"' EXIT
python3 "$here/bench/heavy.py" "$op2" "$work" 5 "${1:-1000000}"
