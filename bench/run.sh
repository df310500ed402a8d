#!/bin/sh
# Times `op2 run` on grids of doubling size: the residual on edges (examples/residual.c), and a program in the manner of OP2's airfoil, with nodes,
# cells, edges, boundary edges and ten turns of five loops. Prints time and peak memory, beside those of plain C loops where gcc is there.
# Usage: bench/run.sh [N ..]     (cells a side; 70 140 280 where none is given; a plan of 400 has too many steps; OP2 may name another program)
here=$(CDPATH= cd -- "$(dirname -- "$0")/.." && pwd) || exit 1
. "$here/bench/program.sh"
work=$(mktemp -d) || exit 1
trap 'rm -rf "$work"' EXIT
[ $# -gt 0 ] || set -- 70 140 280
cat >"$work/airfoil.c" <<'C'
extern int nnode; extern int ncell; extern int nedge; extern int nbedge;
extern int cell[]; extern int ecell[]; extern int bcell[]; extern int wall0[]; extern int x0[]; extern int q0[]; extern int zero[];
void save(const int *q, int *old) { old[0] = q[0]; }
void area(const int *a, const int *b, const int *d, int *adt) { adt[0] = ABS(b[0] - a[0]) + ABS(d[1] - a[1]) + 1; }
void flux(const int *qa, const int *qb, const int *aa, const int *ab, int *ra, int *rb) {
  int f = (qa[0] - qb[0]) / (aa[0] + ab[0]); ra[0] -= f; rb[0] += f;
}
void bound(const int *w, int *r) { r[0] += w[0]; }
void update(const int *old, int *q, int *r, int *change) { q[0] = old[0] + r[0]; *change += ABS(r[0]); r[0] = 0; }
int main(int argc, char **argv) {
  op_set nodes = op_decl_set(nnode, "nodes"); op_set cells = op_decl_set(ncell, "cells");
  op_set edges = op_decl_set(nedge, "edges"); op_set bedges = op_decl_set(nbedge, "bedges");
  op_map pcell = op_decl_map(cells, nodes, 4, cell, "pcell"); op_map pedge = op_decl_map(edges, cells, 2, ecell, "pedge");
  op_map pbedge = op_decl_map(bedges, cells, 1, bcell, "pbedge");
  op_dat x = op_decl_dat(nodes, 2, "int", x0, "x"); op_dat q = op_decl_dat(cells, 1, "int", q0, "q");
  op_dat old = op_decl_dat(cells, 1, "int", zero, "old"); op_dat adt = op_decl_dat(cells, 1, "int", zero, "adt");
  op_dat res = op_decl_dat(cells, 1, "int", zero, "res"); op_dat w = op_decl_dat(bedges, 1, "int", wall0, "w");
  int change = 0;
  for (int t = 0; t < 10; t++) {
    op_par_loop(save, "save", cells, op_arg_dat(q, -1, OP_ID, 1, "int", OP_READ), op_arg_dat(old, -1, OP_ID, 1, "int", OP_WRITE));
    op_par_loop(area, "area", cells, op_arg_dat(x, 0, pcell, 2, "int", OP_READ), op_arg_dat(x, 1, pcell, 2, "int", OP_READ),
      op_arg_dat(x, 3, pcell, 2, "int", OP_READ), op_arg_dat(adt, -1, OP_ID, 1, "int", OP_WRITE));
    op_par_loop(flux, "flux", edges, op_arg_dat(q, 0, pedge, 1, "int", OP_READ), op_arg_dat(q, 1, pedge, 1, "int", OP_READ),
      op_arg_dat(adt, 0, pedge, 1, "int", OP_READ), op_arg_dat(adt, 1, pedge, 1, "int", OP_READ),
      op_arg_dat(res, 0, pedge, 1, "int", OP_INC), op_arg_dat(res, 1, pedge, 1, "int", OP_INC));
    op_par_loop(bound, "bound", bedges, op_arg_dat(w, -1, OP_ID, 1, "int", OP_READ), op_arg_dat(res, 0, pbedge, 1, "int", OP_INC));
    op_par_loop(update, "update", cells, op_arg_dat(old, -1, OP_ID, 1, "int", OP_READ), op_arg_dat(q, -1, OP_ID, 1, "int", OP_WRITE),
      op_arg_dat(res, -1, OP_ID, 1, "int", OP_RW), op_arg_gbl(&change, 1, "int", OP_INC));
  }
  op_printf("change %d\n", change);
  op_exit();
}
C
cat >"$work/plain.c" <<'C'
#include <stdio.h>
#include <stdlib.h>
static int scan(FILE *f) { int v; if (fscanf(f, "%d", &v) != 1) exit(1); return v; }
static int *ints(FILE *f) { char s[64]; int n; if (fscanf(f, " ints %63s %d", s, &n) != 2) exit(1);
  int *v = malloc(4 * (size_t)(n ? n : 1)); for (int i = 0; i < n; i++) v[i] = scan(f); return v; }
static int one(FILE *f) { char s[64]; int n; if (fscanf(f, " int %63s %d", s, &n) != 2) exit(1); return n; }
int main(int argc, char **argv) {
  FILE *f = fopen(argv[1], "r"); if (!f || argc < 2) return 1;
  if (fscanf(f, "op2mesh 1")) return 1;
  int nn = one(f), nc = one(f), ne = one(f), nb = one(f); (void)nn;
  int *cell = ints(f), *ecell = ints(f), *bcell = ints(f), *w = ints(f), *x = ints(f), *q = ints(f), *res = ints(f);
  int *old = calloc(nc, 4), *adt = calloc(nc, 4); unsigned change = 0;
  for (int t = 0; t < 10; t++) {
    for (int i = 0; i < nc; i++) old[i] = q[i];
    for (int i = 0; i < nc; i++) { int *a = x + 2 * cell[4 * i], *b = x + 2 * cell[4 * i + 1], *d = x + 2 * cell[4 * i + 3];
      adt[i] = abs(b[0] - a[0]) + abs(d[1] - a[1]) + 1; }
    for (int i = 0; i < ne; i++) { int a = ecell[2 * i], b = ecell[2 * i + 1];
      int v = (q[a] - q[b]) / (adt[a] + adt[b]); res[a] -= v; res[b] += v; }
    for (int i = 0; i < nb; i++) res[bcell[i]] += w[i];
    for (int i = 0; i < nc; i++) { q[i] = old[i] + res[i]; change += abs(res[i]); res[i] = 0; }
  }
  printf("change %d\n", (int)change);
  return 0;
}
C
[ -n "$(command -v gcc)" ] && gcc -O2 -fwrapv -o "$work/plain" "$work/plain.c"
cat >"$work/timed.py" <<'PY'
import resource, subprocess, sys, time
begun = time.time()
status = subprocess.call(sys.argv[2:], stdout=subprocess.DEVNULL)
peak = resource.getrusage(resource.RUSAGE_CHILDREN).ru_maxrss
print(f"{sys.argv[1]}: status {status}, {time.time() - begun:.2f} s, {peak / 1024:.0f} MiB at the peak")
PY
for n in "$@"; do
    python3 "$here/bench/grid.py" "$work" "$n"
    python3 "$work/timed.py" "residual, $((2 * n * (n - 1))) edges" "$op2" run "$here/examples/residual.c" "$work/residual.mesh"
    python3 "$work/timed.py" "airfoil, $((n * n)) cells" "$op2" run "$work/airfoil.c" "$work/airfoil.mesh"
    [ ! -x "$work/plain" ] || python3 "$work/timed.py" "plain C, $((n * n)) cells" "$work/plain" "$work/airfoil.mesh"
done
