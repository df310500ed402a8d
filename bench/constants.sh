#!/bin/sh
# Counts the machine instructions of an Ordered loop whose kernel reads constants, an element, with no cell of constants, 8,192 and 16,384:
# they are read once for a loop. Wants valgrind.
# Usage: bench/constants.sh [ELEMENTS]     (2000 where none is given; OP2 may name another program)
here=$(CDPATH= cd -- "$(dirname -- "$0")/.." && pwd) || exit 1
. "$here/bench/program.sh"
work=$(mktemp -d) || exit 1
trap 'rm -rf "$work"' EXIT
python3 "$here/bench/constants.py" "$op2" "$work" "${1:-2000}"
