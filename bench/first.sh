#!/bin/sh
# Times `op2 run examples/bump.c` on meshes of doubling size, and shows each run's peak memory.
# Usage: bench/first.sh [SIZE ..]     (elements; 500000 1000000 2000000 4000000 where none is given; OP2 may name another program)
here=$(CDPATH= cd -- "$(dirname -- "$0")/.." && pwd) || exit 1
. "$here/bench/program.sh"
work=$(mktemp -d) || exit 1
trap 'rm -rf "$work"' EXIT
[ $# -gt 0 ] || set -- 500000 1000000 2000000 4000000
for size in "$@"; do
    awk -v n="$size" 'BEGIN {
        print "op2mesh 1\nint n " n "\nints a0 " n
        for (i = 0; i < n; i++) print i % 1000003 - 500000
        print "done"
    }' >"$work/bump.mesh"
    python3 - "$op2" "$here/examples/bump.c" "$work/bump.mesh" "$size" <<'PY'
import resource, subprocess, sys, time
op2, source, mesh, size = sys.argv[1:]
begun = time.time()
status = subprocess.call([op2, "run", source, mesh], stdout=subprocess.DEVNULL)
peak = resource.getrusage(resource.RUSAGE_CHILDREN).ru_maxrss
print(f"{size} elements: status {status}, {time.time() - begun:.2f} s, {peak / 1024:.0f} MiB at the peak")
PY
done
