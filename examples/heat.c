// Heat on cells that are joined by edges. In each step an edge moves a part of the difference between its two cells, and the
// cells take in what was moved; what moved in all and the hottest cell are reduced into variables.
extern int ncell;
extern int nedge;
extern int ends[];
extern int heat0[];
extern int none[];
const int steps = 3;
int part;
void flow(const int *a, const int *b, int *da, int *db, int *moved) {
  int f = (a[0] - b[0]) / part;
  da[0] -= f;
  db[0] += f;
  *moved += ABS(f);
}
void update(int *heat, int *delta, int *hottest) {
  heat[0] += delta[0];
  delta[0] = 0;
  *hottest = MAX(*hottest, heat[0]);
}
int main(int argc, char **argv) {
  op_init(argc, argv, 1);
  part = 2 << 1;
  op_decl_const(1, "int", &part);
  op_set cells = op_decl_set(ncell, "cells");
  op_set edges = op_decl_set(nedge, "edges");
  op_map joined = op_decl_map(edges, cells, 2, ends, "joined");
  op_dat heat = op_decl_dat(cells, 1, "int", heat0, "heat");
  op_dat delta = op_decl_dat(cells, 1, "int", none, "delta");
  for (int t = 0; t < steps; t++) {
    int moved = 0, hottest = 0;
    op_par_loop(flow, "flow", edges, op_arg_dat(heat, 0, joined, 1, "int", OP_READ),
      op_arg_dat(heat, 1, joined, 1, "int", OP_READ), op_arg_dat(delta, 0, joined, 1, "int", OP_INC),
      op_arg_dat(delta, 1, joined, 1, "int", OP_INC), op_arg_gbl(&moved, 1, "int", OP_INC));
    op_par_loop(update, "update", cells, op_arg_dat(heat, -1, OP_ID, 1, "int", OP_RW),
      op_arg_dat(delta, -1, OP_ID, 1, "int", OP_RW), op_arg_gbl(&hottest, 1, "int", OP_MAX));
    op_printf("step %d moved %d hottest %d\n", t, moved, hottest);
  }
  op_print_dat_to_txtfile(heat, "heat.txt");
  op_exit();
}
