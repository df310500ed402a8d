# Kernels that work for long, and loops whose batches of elements can't run at once: run less check, beside plain C. See heavy.sh.
import sys
from beside import compiled, least, plain, write_mesh

op2, work, times, n = sys.argv[1], sys.argv[2], int(sys.argv[3]), int(sys.argv[4])

TURNS = """void k(const int *x, const int *y, int *p, int *q) {
  int s = x[0] + y[0];
  for (int i = 0; i < 20000; i++) {
    if (s & 1) s = s * 3 + i; else s = s / 2 - i;
  }
  p[0] += s;
  q[0] -= s;
}
"""
CHOSEN = """void k(const int *x, const int *y, int *p, int *q) {
  int s = x[0] + y[0];
  if (x[0] % 3 == 0)
    for (int i = 0; i < 2000; i++) s = s * 3 + i;
  p[0] += s;
  q[0] -= s;
}
"""
FIXED = """void k(const int *x, const int *y, int *p, int *q) {
  int s = x[0];
  for (int i = 0; i < 2000; i++) s = (s * 181 >> 7) + y[0];
  p[0] += s;
  q[0] -= s;
}
"""
FLUX = """void k(const int *x, const int *y, int *p, int *q) {
  int f = (x[0] - y[0]) / (x[0] + y[0]);
  p[0] -= f;
  q[0] += f;
}
"""

def source(kernel, loops):
    args = ", ".join(f'op_arg_dat({d}, {i}, pe, 1, "int", {a})' for d, i, a in [("x", 0, "OP_READ"), ("x", 1, "OP_READ"), ("r", 0, "OP_INC"), ("r", 1, "OP_INC")])
    return ("extern int nnode;\nextern int nedge;\nextern int edge[];\nextern int x0[];\nextern int r0[];\n" + kernel +
            'int main(int argc, char **argv) {\n  op_set nodes = op_decl_set(nnode, "nodes");\n  op_set edges = op_decl_set(nedge, "edges");\n'
            '  op_map pe = op_decl_map(edges, nodes, 2, edge, "pe");\n  op_dat x = op_decl_dat(nodes, 1, "int", x0, "x");\n'
            '  op_dat r = op_decl_dat(nodes, 1, "int", r0, "r");\n' + f'  op_par_loop(k, "k", edges, {args});\n' * loops + "  op_exit();\n}\n")

PLAIN = r"""
#include <stdio.h>
#include <stdlib.h>
#include <time.h>
static double now(void) { struct timespec t; clock_gettime(CLOCK_PROCESS_CPUTIME_ID, &t); return t.tv_sec * 1e9 + t.tv_nsec; }
KERNEL
__attribute__((noinline)) static void loop(int ne, const int *e, const int *x, int *r) {
  for (int i = 0; i < ne; i++) k(x + e[2 * i], x + e[2 * i + 1], r + e[2 * i], r + e[2 * i + 1]);
}
int main(int argc, char **argv) {
  int ne = atoi(argv[1]), nn = ne + 1, same = atoi(argv[2]);
  int *e = malloc(8 * (size_t)ne), *x = malloc(4 * (size_t)nn), *r = calloc(nn, 4);
  for (int i = 0; i < nn; i++) x[i] = i % 1000 + 1;
  for (int i = 0; i < ne; i++) { e[2 * i] = i; e[2 * i + 1] = same && i % same == 0 ? i : i + 1; }
  double from = now(); loop(ne, e, x, r); double spent = now() - from;
  long sum = 0; for (int i = 0; i < nn; i++) sum += r[i];
  if (sum == 12345) return 1;
  printf("%f\n", spent / ne);
  return 0;
}
"""

# name, kernel, edges, every how many an edge leads from a node to itself, every how many a node has the value 0, with the one before it
for name, kernel, edges, same, zero in [
        ("20,000 turns with an `if`", TURNS, 6400, 0, 0), ("2,000 turns that every third edge takes", CHOSEN, 64000, 0, 0),
        ("2,000 turns of fixed point", FIXED, 64000, 0, 0),
        ("20,000 turns with an `if`, of which every 50th edge is from a node to itself", TURNS, 6400, 50, 0),
        ("a chain of edges", FLUX, n, 0, 0), ("every 50th edge is from a node to itself", FLUX, n, 50, 0), ("all edges are", FLUX, n, 1, 0),
        ("every 50th edge has a fault", FLUX, n, 0, 50), ("all have", FLUX, n, 0, 1)]:
    ends = [v for i in range(edges) for v in (i, i if same and i % same == 0 else i + 1)]
    xs = [0 if zero and i % zero in (0, 1) else i % 1000 + 1 for i in range(edges + 1)]
    write_mesh(work + "/m", [("nnode", edges + 1), ("nedge", edges), ("edge", ends), ("x0", xs), ("r0", [0] * (edges + 1))])
    for loops in (1, 2):
        with open(f"{work}/s{loops}.c", "w") as f:
            f.write(source(kernel, loops))
    check, once, twice = least([[op2, "check", work + "/s1.c", work + "/m"], *([op2, "run", f"{work}/s{k}.c", work + "/m"] for k in (1, 2))], times)
    line = f"{name}, {edges} edges: run less check {(once - check) / edges * 1e9:.1f} ns an edge"
    if not zero:
        line += f", a second loop {(twice - once) / edges * 1e9:.1f} ns"
        c = compiled(work, "heavy", PLAIN.replace("KERNEL", "static " + kernel))
        if c:
            line += f"; plain C {plain([c, str(edges), str(same)]):.1f} ns"
    print(line, flush=True)
