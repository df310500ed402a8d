#!/bin/sh
# Times runs with one worker and with more of them: the sample of 200, on one rank and on four; kernels of 200 and of 1,800 turns on 90,000 nodes and the
# 179,400 edges between them, on one rank and on four; and a kernel of 20,000 and one of 180,000 turns on 1,000 elements. Prints seconds of the processor
# and elapsed seconds of the fastest of three runs, but for the sample less what `check` takes, and how long a run takes beside that with one worker.
# Usage: bench/workers.sh [WORKERS ..]     (2 4 where none is given; OP2 may name another program)
here=$(CDPATH= cd -- "$(dirname -- "$0")/.." && pwd) || exit 1
work=$(mktemp -d) || exit 1
trap 'rm -rf "$work"' EXIT
. "$here/bench/program.sh"
[ $# -gt 0 ] || set -- 2 4
python3 "$here/bench/grid.py" "$work" 300 || exit 1
edges() { sed "s/TURNS/$1/g" >"$work/edges$1.c" <<'C'
extern int nnode;
extern int nedge;
extern int edge[];
extern int x0[];
extern int r0[];
void node(int *x, int *sum) { int s = x[0]; for (int i = 0; i < TURNS; i++) { s = (s * 7 + i) % 1000; } x[0] = s; *sum += s; }
void flux(const int *a, const int *b, int *r, int *q) {
  int s = b[0] - a[0];
  for (int i = 0; i < TURNS; i++) { s = (s * 7 + i) % 1000; }
  r[0] += s;
  q[0] -= s;
}
int main(int argc, char **argv) {
  op_set nodes = op_decl_set(nnode, "nodes");
  op_set edges = op_decl_set(nedge, "edges");
  op_map pe = op_decl_map(edges, nodes, 2, edge, "pe");
  op_dat x = op_decl_dat(nodes, 1, "int", x0, "x");
  op_dat r = op_decl_dat(nodes, 1, "int", r0, "r");
  int sum = 0;
  op_par_loop(node, "node", nodes, op_arg_dat(x, -1, OP_ID, 1, "int", OP_RW), op_arg_gbl(&sum, 1, "int", OP_INC));
  op_par_loop(flux, "flux", edges, op_arg_dat(x, 0, pe, 1, "int", OP_READ), op_arg_dat(x, 1, pe, 1, "int", OP_READ),
    op_arg_dat(r, 0, pe, 1, "int", OP_INC), op_arg_dat(r, 1, pe, 1, "int", OP_INC));
  op_printf("%d\n", sum);
  op_exit();
}
C
}
edges 200
edges 1800
long() { sed "s/TURNS/$1/g" >"$work/long$1.c" <<'C'
extern int nnode;
extern int x0[];
void node(int *x, int *sum) { int s = x[0]; for (int i = 0; i < TURNS; i++) { s = (s * 7 + i) % 1000; } x[0] = s; *sum += s; }
int main(int argc, char **argv) {
  op_set nodes = op_decl_set(nnode, "nodes");
  op_dat x = op_decl_dat(nodes, 1, "int", x0, "x");
  int sum = 0;
  op_par_loop(node, "node", nodes, op_arg_dat(x, -1, OP_ID, 1, "int", OP_RW), op_arg_gbl(&sum, 1, "int", OP_INC));
  op_printf("%d\n", sum);
  op_exit();
}
C
}
long 20000
long 180000
{
    echo 'op2mesh 1'
    echo 'int nnode 1000'
    echo 'ints x0 1000'
    seq -s ' ' 1 1000
    echo 'done'
} >"$work/long.mesh"
python3 - "$op2" "$work" "$@" <<'P'
import resource, subprocess, sys, time
op2, work, counts = sys.argv[1], sys.argv[2], [int(n) for n in sys.argv[3:]]

def once(words):
    used = resource.getrusage(resource.RUSAGE_CHILDREN)
    start = time.time()
    ended = subprocess.run([op2, *words], stdout=subprocess.PIPE)
    spent, now = time.time() - start, resource.getrusage(resource.RUSAGE_CHILDREN)
    if ended.returncode:
        sys.exit(f"status {ended.returncode}: {' '.join(words)}")
    return spent, now.ru_utime + now.ru_stime - used.ru_utime - used.ru_stime, ended.stdout

def fastest(words):
    return min(once(words) for _ in range(3))

def row(name, words, options, less):
    base, alone, output = (0.0, 0.0), None, None
    if less:
        base = fastest(["check", *words, *options])
    for n in [1, *counts]:
        spent, used, out = fastest([*(["run"] if less else []), *words, *options, *(["--workers", str(n)] if n > 1 else [])])
        spent, used = max(spent - base[0], 0.001), used - base[1]
        alone, output = alone or spent, output or out
        same = "" if out == output else ", another output"
        print(f"{name:<46} {n:2} workers  {used:6.2f} s, {spent:6.2f} s elapsed, {spent / alone:5.2f} times{same}", flush=True)

for ranks in (1, 4):
    options = ["--ranks", str(ranks)] if ranks > 1 else []
    row(f"sample 200, ranks {ranks}", ["sample", "200"], options, False)
for turns in (200, 1800):
    for ranks in (1, 4):
        options = ["--ranks", str(ranks)] if ranks > 1 else []
        row(f"{turns:,} turns, 269,400 elements, ranks {ranks}", [f"{work}/edges{turns}.c", work + "/residual.mesh"], options, True)
for turns in (20000, 180000):
    row(f"{turns:,} turns, 1,000 elements", [f"{work}/long{turns}.c", work + "/long.mesh"], [], True)
P
