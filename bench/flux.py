# The flux loop on the edges of a grid and of a triangulation: run less check, beside plain C. See flux.sh. Where COUNT is all in the environment, instructions
# are counted at any number of edges.
import array, os, sys
from beside import compiled, instructions, least, plain, write_mesh

op2, work, times = sys.argv[1], sys.argv[2], int(sys.argv[3])
sizes = [int(x) for x in sys.argv[4:]]

KERNEL = """void flux(const int *qa, const int *qb, const int *aa, const int *ab, int *ra, int *rb) {
  int f = (qa[0] - qb[0]) / (aa[0] + ab[0]);
  ra[0] -= f;
  rb[0] += f;
}
"""

def source(loops):
    args = ", ".join(f'op_arg_dat({d}, {i}, pe, 1, "int", {a})' for d, i, a in
                     [("q", 0, "OP_READ"), ("q", 1, "OP_READ"), ("adt", 0, "OP_READ"), ("adt", 1, "OP_READ"), ("res", 0, "OP_INC"), ("res", 1, "OP_INC")])
    return ("extern int nnode;\nextern int nedge;\nextern int edge[];\nextern int q0[];\nextern int a0[];\nextern int r0[];\n" + KERNEL +
            'int main(int argc, char **argv) {\n  op_set nodes = op_decl_set(nnode, "nodes");\n  op_set edges = op_decl_set(nedge, "edges");\n'
            '  op_map pe = op_decl_map(edges, nodes, 2, edge, "pe");\n  op_dat q = op_decl_dat(nodes, 1, "int", q0, "q");\n'
            '  op_dat adt = op_decl_dat(nodes, 1, "int", a0, "adt");\n  op_dat res = op_decl_dat(nodes, 1, "int", r0, "res");\n'
            + f'  op_par_loop(flux, "flux", edges, {args});\n' * loops + "  op_exit();\n}\n")

PLAIN = r"""
#include <stdio.h>
#include <stdlib.h>
#include <time.h>
static double now(void) { struct timespec t; clock_gettime(CLOCK_PROCESS_CPUTIME_ID, &t); return t.tv_sec * 1e9 + t.tv_nsec; }
__attribute__((noinline)) static void flux(int ne, const int *e, const int *q, const int *adt, int *res) {
  for (int i = 0; i < ne; i++) { int a = e[2 * i], b = e[2 * i + 1]; int f = (q[a] - q[b]) / (adt[a] + adt[b]); res[a] -= f; res[b] += f; }
}
int main(int argc, char **argv) {
  FILE *f = fopen(argv[1], "rb"); int head[2];
  if (argc < 2 || !f || fread(head, 4, 2, f) != 2) return 1;
  int nn = head[0], ne = head[1];
  int *e = malloc(8 * (size_t)ne), *q = malloc(4 * (size_t)nn), *adt = malloc(4 * (size_t)nn), *res = calloc(nn, 4);
  if (fread(e, 8, ne, f) != (size_t)ne) return 1;
  for (int i = 0; i < nn; i++) { q[i] = i % 1000; adt[i] = 1 + i % 7; }
  double from = now(); flux(ne, e, q, adt, res); double spent = now() - from;
  long sum = 0; for (int i = 0; i < nn; i++) sum += res[i];
  if (sum == 12345) return 1;
  printf("%f\n", spent / ne);
  return 0;
}
"""

def grid(n):
    across = [(j * n + i, j * n + i + 1) for j in range(n) for i in range(n - 1)]
    up = [(j * n + i, j * n + n + i) for j in range(n - 1) for i in range(n)]
    return n * n, across + up

def triangles(n):
    """As many edges of a triangulated grid, by tiles of nine nodes a side, so that blocks have nodes with all their six edges."""
    m = int(n * (2 / 3) ** .5)
    nodes = sorted(((i, j) for j in range(m) for i in range(m)), key=lambda c: (c[1] // 9, c[0] // 9, c[1], c[0]))
    number = {c: k for k, c in enumerate(nodes)}
    edges = []
    for i, j in nodes:
        for to in (i + 1, j), (i, j + 1), (i + 1, j + 1):
            if to in number:
                edges.append((number[i, j], number[to]))
    return m * m, edges

for n in sizes:
    for name, shape in ("grid", grid), ("triangulation", triangles):
        count, edges = shape(n)
        ends = [v for e in edges for v in e]
        write_mesh(work + "/m", [("nnode", count), ("nedge", len(edges)), ("edge", ends), ("q0", [i % 1000 for i in range(count)]),
                                 ("a0", [1 + i % 7 for i in range(count)]), ("r0", [0] * count)])
        with open(work + "/b", "wb") as f:
            array.array("i", [count, len(edges)] + ends).tofile(f)
        for loops in (1, 2):
            with open(f"{work}/s{loops}.c", "w") as f:
                f.write(source(loops))
        calls = [[op2, "check", work + "/s1.c", work + "/m"], *([op2, "run", f"{work}/s{k}.c", work + "/m"] for k in (1, 2))]
        check, once, twice = least(calls, times)
        each = 1e9 / len(edges)
        line = f"{name}, {len(edges)} edges: run {once * each:.1f} ns an edge, less check {(once - check) * each:.1f} ns, a second loop {(twice - once) * each:.1f} ns"
        c = compiled(work, "flux", PLAIN)
        if c:
            line += f"; plain C {plain([c, work + '/b']):.1f} ns"
        counts = [instructions(call) for call in calls] if len(edges) <= 200000 or os.environ.get("COUNT") == "all" else [None]
        if None not in counts:
            line += f"; {(counts[1] - counts[0]) // len(edges)} and {(counts[2] - counts[1]) // len(edges)} machine instructions, of the whole run {counts[1] // len(edges)}"
        print(line, flush=True)
