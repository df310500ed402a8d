#!/bin/sh
# Times whole jobs beside those of another program that takes the same words: seconds of the processor (user and system, the least of five calls, one
# program's after the other's) and peak memory. The jobs are a bump of 4,000,000 elements; a grid of SIDE times SIDE cells with the edges between them
# (examples/residual.c), checked on one rank and on 64, run, planned, put in order and converted; and the sample of 200 times 200 cells.
# Usage: bench/whole.sh PROGRAM [SIDE]     (PROGRAM is the other one; 1000 where no side is given, from 1025 on there are too many steps; OP2 may name another op2)
here=$(CDPATH= cd -- "$(dirname -- "$0")/.." && pwd) || exit 1
[ $# -gt 0 ] || { sed -n '2,5p' "$0" >&2; exit 2; }
work=$(mktemp -d) || exit 1
trap 'rm -rf "$work"' EXIT
. "$here/bench/program.sh"
python3 "$here/bench/grid.py" "$work" "${2:-1000}" || exit 1
awk 'BEGIN {
    print "op2mesh 1\nint n 4000000\nints a0 4000000"
    for (i = 0; i < 4000000; i++) print i % 1000003 - 500000
    print "done"
}' >"$work/bump.mesh"
python3 - "$op2" "$1" "$here/examples" "$work" <<'PY'
import os, subprocess, sys
mine, other, examples, work = sys.argv[1:]
residual = [f"{examples}/residual.c", f"{work}/residual.mesh"]
ranks = ["--ranks", "64"]
JOBS = [
    ("a bump of 4,000,000 elements", ["run", f"{examples}/bump.c", f"{work}/bump.mesh"]),
    ("check on one rank", ["check", *residual]),
    ("run on one rank", ["run", *residual]),
    ("check on 64 ranks by blocks", ["check", *residual, *ranks]),
    ("check on 64 ranks by growth", ["check", *residual, *ranks, "--parts", "grow:pe"]),
    ("check on 64 ranks by cuts", ["check", *residual, *ranks, "--parts", "bisect:x"]),
    ("check on one rank, renumbered", ["check", *residual, "--renumber", "pe"]),
    ("schedule on 64 ranks", ["schedule", *residual, *ranks]),
    ("convert", ["convert", residual[1]]),
    ("plan on 64 ranks", ["plan", *residual, *ranks]),
    ("sample 200", ["sample", "200"]),
    ("sample 200 on 64 ranks", ["sample", "200", *ranks]),
]


def once(words):
    """The status of a call, its seconds of the processor and its peak memory in MiB."""
    child = os.fork()
    if child == 0:
        out = os.open(os.devnull, os.O_WRONLY)
        os.dup2(out, 1)
        os.execv(words[0], words)
    _, status, used = os.wait4(child, 0)
    return os.waitstatus_to_exitcode(status), used.ru_utime + used.ru_stime, used.ru_maxrss / 1024


print("| Job | seconds | of the other | times | MiB | of the other | times |\n|---|---|---|---|---|---|---|")
for name, words in JOBS:
    found = {mine: [], other: []}
    for _ in range(5):
        for program in (mine, other):
            status, seconds, peak = once([program, *words])
            if status:
                sys.exit(f"{program} {' '.join(words)}: status {status}")
            found[program].append((seconds, peak))
    (s, m), (t, n) = ((min(it[0] for it in found[p]), min(it[1] for it in found[p])) for p in (mine, other))
    print(f"| {name} | {s:.2f} | {t:.2f} | {s / max(t, 0.001):.1f} | {m:.0f} | {n:.0f} | {m / n:.1f} |", flush=True)
PY
