#!/bin/sh
# Runs the gate, `rt ci`, from nothing on a fresh clone of what is committed here, and prints what it took: the processor and wall seconds of each
# crate's proof, tests and edits, the longest chain of proofs that wait for each other, and the sums. With --keep the seconds of the proofs go to
# bench/proof_seconds.txt, by which the script op2 says how long a build will take. The gate's own lines go to LOG, /tmp/op2-gate.log where none is given.
# Usage: bench/gate.sh [--keep] [LOG]
here=$(CDPATH= cd -- "$(dirname -- "$0")/.." && pwd) || exit 1
keep=
[ "$1" != --keep ] || { keep=$here/bench/proof_seconds.txt; shift; }
log=${1:-/tmp/op2-gate.log}
work=$(mktemp -d) || exit 1
trap 'rm -rf "$work"' EXIT
git clone -q "$here" "$work/op2" || exit 1
python3 "$here/bench/gate.py" "$work/op2" "$log" $keep
