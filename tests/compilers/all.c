// What include/op2_seq.h has: kernels of each kind, accesses of each kind, direct and by maps, 16 arguments, variables, arrays and constants
// as arguments, names that differ from the texts, sets without elements, dats of several values, locals without initializers, and values that
// wrap.
#include "op2_seq.h"
extern int nnode;
extern int ncell;
extern int none;
extern int corner[];
extern int x0[];
extern int weight0[];
extern int nothing[];
extern int zero[];
const int shift = 3;
const int steps = 2;
int scale, power[3];
static inline void spread(const int *xa, const int *xb, const int *xc, const int *w, int *la, int *lb, int *lc, int *ha, int *hb, int *hc,
                          int *sa, int *sb, int *sc, const int *bound, int *hist, int *count) {
  int sum, part[3];
  for (int i = 0; i < 3; i++) {
    int seen;
    seen += xa[i] + xb[i] - xc[i];
    part[i] = (seen << shift) * scale + power[i] % 7;
    sum += part[i];
  }
  *la = MIN(*la, part[0]);
  lb[0] = MIN(sum, lb[0]);
  *lc = MIN(*lc, ABS(w[0]));
  ha[0] = MAX(ha[0], part[1] >> 1);
  *hb = MAX(*hb, -part[2]);
  *hc = MAX(*hc, ~sum);
  *sa += part[0];
  sb[0] -= part[1] / 3;
  sc[0] += w[1] > w[0] && !(w[0] == *bound) ? part[2] : w[0] ^ w[1];
  hist[0] += 1;
  hist[1] += (sum & 255) | (w[0] % 5);
  *count += *bound;
}
inline void relax(int *x, int *y) {
  x[1] ^= y[0];
  y[2] = x[0] - y[1];
  if (y[2] < 0) y[2] = -y[2]; else { x[2] += 5; x[2] <<= 1; }
}
static void set(int *low, int *high, int *sum) {
  low[0] = 2147483647;
  high[0] = -2147483647 - 1;
  sum[0] = 0;
}
void never(int *v) { v[0] /= 0; }
int main(int argc, char *argv[]) {
  op_init(argc, argv, 2);
  scale = 65537;
  power[0] = 1;
  power[1] = 1 << 20;
  power[2] = -power[1] * 3;
  op_decl_const(1, "int", &scale);
  op_decl_const(3, "int", power);
  op_set points = op_decl_set(nnode, "nodes");
  op_set cells = op_decl_set(ncell * 1, "the cells");
  op_set empty = op_decl_set(none, "empty");
  op_map of = op_decl_map(cells, points, 3, corner, "corners of a cell");
  op_dat where = op_decl_dat(points, 3, "int", x0, "x");
  op_dat low = op_decl_dat(points, 1, "int", zero, "low");
  op_dat high = op_decl_dat(points, 1, "int", zero, "high");
  op_dat sum = op_decl_dat(points, 1, "int", zero, "sum");
  op_dat w = op_decl_dat(cells, 2, "int", weight0, "w");
  op_dat v = op_decl_dat(empty, 1, "int", nothing, "v");
  int hist[2], count;
  const int bound = 4;
  for (int t = 0; t < steps; t++) {
    if (t < 1) op_par_loop(set, "set", points, op_arg_dat(low, -1, OP_ID, 1, "int", OP_WRITE), op_arg_dat(high, -1, OP_ID, 1, "int", OP_WRITE),
      op_arg_dat(sum, -1, OP_ID, 1, "int", OP_WRITE));
    else op_par_loop(relax, "relax", cells, op_arg_dat(where, 0, of, 3, "int", OP_RW), op_arg_dat(where, 2, of, 3, "int", OP_RW));
    op_par_loop(spread, "spread", cells, op_arg_dat(where, 0, of, 3, "int", OP_READ), op_arg_dat(where, 1, of, 3, "int", OP_READ),
      op_arg_dat(where, 2, of, 3, "int", OP_READ), op_arg_dat(w, -1, OP_ID, 2, "int", OP_READ), op_arg_dat(low, 0, of, 1, "int", OP_MIN),
      op_arg_dat(low, 1, of, 1, "int", OP_MIN), op_arg_dat(low, 2, of, 1, "int", OP_MIN), op_arg_dat(high, 0, of, 1, "int", OP_MAX),
      op_arg_dat(high, 1, of, 1, "int", OP_MAX), op_arg_dat(high, 2, of, 1, "int", OP_MAX), op_arg_dat(sum, 0, of, 1, "int", OP_INC),
      op_arg_dat(sum, 1, of, 1, "int", OP_INC), op_arg_dat(sum, 2, of, 1, "int", OP_INC), op_arg_gbl(&bound, 1, "int", OP_READ),
      op_arg_gbl(hist, 2, "int", OP_INC), op_arg_gbl(&count, 1, "int", OP_INC));
    op_par_loop(never, "never", empty, op_arg_dat(v, -1, OP_ID, 1, "int", OP_RW));
    op_printf("step %d: %d and %d\t100%% \"\\\n", t, hist[0], hist[1] + count);
  }
  op_print_dat_to_txtfile(where, "where it is");
  op_print_dat_to_txtfile(low, "low");
  op_print_dat_to_txtfile(high, "high");
  op_print_dat_to_txtfile(sum, "sum");
  op_print_dat_to_txtfile(v, "v");
  op_exit();
  return 0;
}
