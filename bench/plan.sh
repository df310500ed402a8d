#!/bin/sh
# Times planning and runs on ranks, on grids of N times N nodes with an edge between neighbours (examples/residual.c). Each job does one step more than the
# one before it: the mesh text is read and written again; the program is bound, distributed and planned without its text; the text of the plan is written;
# the steps are put in order and written; the written steps are read and judged. Then come runs, by the standard order, a drawn one and the written one,
# with groups on four workers, and renumbered by cuts with a dump. Last, a loop over 4,000,000 elements with four targets each is planned, and planned by
# its own plan's text, beside a C program that reads that text's numbers. Prints seconds of the processor, elapsed seconds and peak memory.
# Usage: bench/plan.sh [N ..]     (250 500 1000 where none is given; from 1025 on there are too many steps; OP2 may name another program)
here=$(CDPATH= cd -- "$(dirname -- "$0")/.." && pwd) || exit 1
. "$here/bench/program.sh"
work=$(mktemp -d) || exit 1
trap 'rm -rf "$work"' EXIT
[ $# -gt 0 ] || set -- 250 500 1000
cat >"$work/grid.py" <<'P'
import sys
name, n = sys.argv[1], int(sys.argv[2])
across = [(j * n + i, j * n + i + 1) for j in range(n) for i in range(n - 1)]
up = [(j * n + i, j * n + n + i) for j in range(n - 1) for i in range(n)]
ends = [v for e in across + up for v in e]
with open(name, "w") as f:
    f.write(f"op2mesh 2\nint nnode {n * n}\nint nedge {len(ends) // 2}\nints edge {len(ends)}\n")
    f.write(" ".join(map(str, ends)) + f"\nints x0 {n * n}\n" + " ".join(str(i % 1000) for i in range(n * n)))
    f.write(f"\nints r0 {n * n}\n{n * n}*0\ndone\n")
P
cat >"$work/timed.py" <<'P'
import resource, subprocess, sys, time
name, out, words = sys.argv[1], sys.argv[2], sys.argv[3:]
with open(out, "wb") as f:
    start = time.time()
    status = subprocess.run(words, stdout=f).returncode
    spent = time.time() - start
used = resource.getrusage(resource.RUSAGE_CHILDREN)
print(f"  {name:<52} {used.ru_utime + used.ru_stime:6.2f} s, {spent:6.2f} s elapsed, {used.ru_maxrss // 1024:5} MiB, status {status}")
P
timed() { name=$1 && shift && python3 "$work/timed.py" "$name" "$work/out" "$op2" "$@"; }

c=$here/examples/residual.c
m=$work/m.mesh
for n in "$@"; do
    python3 "$work/grid.py" "$m" "$n" || exit 1
    echo "$((n * n)) nodes, $((2 * n * (n - 1))) edges"
    timed 'read and written again' convert "$m"
    for ranks in 1 64; do
        timed "planned on $ranks" check "$c" "$m" --ranks "$ranks"
        timed "planned on $ranks, and the plan written" plan "$c" "$m" --ranks "$ranks"
        timed "planned on $ranks, and the schedule written" schedule "$c" "$m" --ranks "$ranks"
        mv "$work/out" "$work/t"
        timed "planned on $ranks, and that schedule judged" check "$c" "$m" --ranks "$ranks" --schedule "$work/t"
        timed "run on $ranks" run "$c" "$m" --ranks "$ranks"
        timed "run on $ranks by that schedule" run "$c" "$m" --ranks "$ranks" --schedule "$work/t"
        timed "run on $ranks by a drawn order" run "$c" "$m" --ranks "$ranks" --seed 1
        timed "run on $ranks by groups, 4 workers" run "$c" "$m" --ranks "$ranks" --workers 4
        timed "run on $ranks, by cuts, renumbered, dumped" run "$c" "$m" --ranks "$ranks" --parts bisect:x --renumber pe --dump
    done
done

cat >"$work/four.c" <<'P'
extern int nnode;
extern int nedge;
extern int edge[];
extern int x0[];
void add(int *a, int *b, int *c, int *d) { a[0] += 1; b[0] += 2; c[0] += 3; d[0] += 4; }
int main(int argc, char **argv) {
  op_set nodes = op_decl_set(nnode, "nodes");
  op_set edges = op_decl_set(nedge, "edges");
  op_map pe = op_decl_map(edges, nodes, 4, edge, "pe");
  op_dat x = op_decl_dat(nodes, 1, "int", x0, "x");
  op_par_loop(add, "add", edges, op_arg_dat(x, 0, pe, 1, "int", OP_INC), op_arg_dat(x, 1, pe, 1, "int", OP_INC),
              op_arg_dat(x, 2, pe, 1, "int", OP_INC), op_arg_dat(x, 3, pe, 1, "int", OP_INC));
  op_exit();
}
P
cat >"$work/numbers.c" <<'P'
#include <stdio.h>
#include <stdlib.h>
int main(int argc, char **argv) {
  FILE *f = fopen(argv[1], "rb");
  fseek(f, 0, SEEK_END);
  long n = ftell(f), count = 0;
  unsigned long sum = 0;
  unsigned char *b = malloc(n);
  rewind(f);
  if (fread(b, 1, n, f) != n) return 1;
  for (long i = 0; i < n; i++)
    if (b[i] >= '0' && b[i] <= '9') {
      unsigned long x = 0;
      for (; i < n && b[i] >= '0' && b[i] <= '9'; i++) x = x * 10 + b[i] - '0';
      sum += x;
      count++;
    }
  printf("%ld %lu\n", count, sum);
}
P
python3 - "$m" <<'P'
import sys
n = 4000000
with open(sys.argv[1], "w") as f:
    f.write(f"op2mesh 2\nint nnode {n}\nint nedge {n}\nints edge {4 * n}\n")
    for first in range(0, n, 100000):
        f.write(" ".join(f"{e} {(e + 1) % n} {(e + 2) % n} {(e + 3) % n}" for e in range(first, first + 100000)) + "\n")
    f.write(f"ints x0 {n}\n{n}*0\ndone\n")
P
echo '4000000 elements with four targets each'
timed 'planned' check "$work/four.c" "$m"
timed 'planned, and the plan written' plan "$work/four.c" "$m"
mv "$work/out" "$work/p"
timed 'planned by that text' check "$work/four.c" "$m" --plan "$work/p"
if cc -O2 -o "$work/numbers" "$work/numbers.c" 2>/dev/null; then
    python3 "$work/timed.py" "the text's numbers read by a C program" "$work/out" "$work/numbers" "$work/p"
fi
