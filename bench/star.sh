#!/bin/sh
# Times the plan of a loop over the edges of three graphs (examples/residual.c), in blocks of 1, 256 and 65536: a star, whose edges all have one node in common;
# a wheel, which has as many edges between its other nodes before those; and two hubs whose colours interleave: first edges between a third node and the one or
# the other hub in turn, each 32 of them between the same two, then as many between the two hubs. Prints seconds of the processor and peak memory.
# Usage: bench/star.sh [EDGES ..]     (1048576 4194303 where none is given; the hubs take 1048576 at most; OP2 may name another program)
here=$(CDPATH= cd -- "$(dirname -- "$0")/.." && pwd) || exit 1
. "$here/bench/program.sh"
work=$(mktemp -d) || exit 1
trap 'rm -rf "$work"' EXIT
[ $# -gt 0 ] || set -- 1048576 4194303
cat >"$work/graph.py" <<'P'
import sys
name, shape, n = sys.argv[1], sys.argv[2], int(sys.argv[3])
half = n // 2
if shape == "star":
    nodes, ends = n + 1, (v for i in range(n) for v in (0, i + 1))
elif shape == "wheel":
    rim = ((i + 1, (i + 1) % half + 1) for i in range(half))
    nodes, ends = half + 1, (v for e in (*rim, *((0, i + 1) for i in range(half))) for v in e)
    n = 2 * half
else:
    nodes, ends = 3, (v for i in range(n) for v in ((2, i // 32 % 2) if i < half else (0, 1)))
with open(name, "w") as f:
    f.write(f"op2mesh 2\nint nnode {nodes}\nint nedge {n}\nints edge {2 * n}\n" + " ".join(map(str, ends)))
    f.write(f"\nints x0 {nodes}\n{nodes}*0\nints r0 {nodes}\n{nodes}*0\ndone\n")
P
for shape in star wheel hubs; do
    for edges in "$@"; do
        [ $shape = hubs ] && [ "$edges" -gt 1048576 ] && continue
        python3 "$work/graph.py" "$work/$shape.mesh" $shape "$edges" || exit 1
        for size in 1 256 65536; do
            /usr/bin/time -f '%U %S %M' -o "$work/spent" "$op2" check "$here/examples/residual.c" "$work/$shape.mesh" --block $size >/dev/null || exit 1
            awk -v what="$shape, $edges edges, blocks of $size" '{ printf "%-40s %6.2f seconds, %5.0f MiB\n", what, $1 + $2, $3 / 1024 }' "$work/spent"
        done
    done
done
