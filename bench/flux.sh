#!/bin/sh
# Times the flux kernel in runs of one loop and of two, on the edges of a grid of N times N nodes and on as many of a triangulation whose
# blocks take six colours and more: nanoseconds of the processor an edge, of a run, of that less its check and of the second loop, and machine
# instructions where there are at most 200,000 edges and valgrind is there, beside plain C by gcc -O2 where gcc is there. Then times
# compiled kernels alone: the flux kernel of the job `flux` of crates/op2_bench, for each of so many edges one after another in place on whole arrays.
# Usage: bench/flux.sh [N ..]     (300 1000 where none is given; OP2 may name another program)
here=$(CDPATH= cd -- "$(dirname -- "$0")/.." && pwd) || exit 1
. "$here/bench/program.sh"
work=$(mktemp -d) || exit 1
trap 'rm -rf "$work"' EXIT
[ $# -gt 0 ] || set -- 300 1000
python3 "$here/bench/flux.py" "$op2" "$work" 7 "$@" || exit 1
program=$here/crates/op2_bench/out/op2_bench
if [ ! -x "$program" ]; then
    echo 'building: each crate is proved first' >&2
    (cd "$here/crates/op2_bench" && rt run -- flux 1) >/dev/null 2>&1 </dev/null
fi
count() {
    valgrind --tool=callgrind --callgrind-out-file=/dev/null "$program" flux "$1" 2>&1 | sed -n 's/.*refs: *//p' | tr -d ,
}
if command -v valgrind >/dev/null; then
    none=$(count 0)
    some=$(count 100000)
    echo "$(((some - none) / 100000)) instructions an edge"
fi
for edges in 1000000 4000000; do
    python3 - "$program" "$edges" <<'PY'
import subprocess, sys, time
program, edges = sys.argv[1:]
begun = time.time()
subprocess.check_call([program, "flux", edges])
spent = time.time() - begun
print(f"{spent:.3f} s, {spent * 1e9 / max(int(edges), 1):.0f} ns an edge")
PY
done
