// A loop over cells that reads what its four nodes have.
extern int nnode;
extern int ncell;
extern int cell[];
extern int x0[];
extern int q0[];
extern int none[];
const int one = 1024;
const int gam = 1434;   // 1.4
const int gm1 = 410;    // 0.4
const int cfl = 922;    // 0.9

// The local speed of information across a cell's faces, which bounds its time step.
void adt_calc(const int *x1, const int *x2, const int *x3, const int *x4, const int *q, int *adt) {
  int u = q[1] * one / q[0], v = q[2] * one / q[0];
  int dx[4], dy[4];
  dx[0] = x2[0] - x1[0]; dy[0] = x2[1] - x1[1];
  dx[1] = x3[0] - x2[0]; dy[1] = x3[1] - x2[1];
  dx[2] = x4[0] - x3[0]; dy[2] = x4[1] - x3[1];
  dx[3] = x1[0] - x4[0]; dy[3] = x1[1] - x4[1];
  int e = q[3] * one / q[0] - (u * u + v * v) / (2 * one);
  int c2 = gam * gm1 / one * e, c = one;  // the speed of sound is the root of c2
  for (int i = 0; i < 8; i++) c = MAX((c + c2 / c) / 2, 1);
  int sum = 0;
  for (int k = 0; k < 4; k++) {
    int d2 = dx[k] * dx[k] + dy[k] * dy[k], d = one;  // the length of the face is the root of d2
    for (int i = 0; i < 8; i++) d = MAX((d + d2 / d) / 2, 1);
    sum += ABS(u * dy[k] - v * dx[k]) / one + c * d / one;
  }
  adt[0] = sum * one / cfl;
}

int main(int argc, char **argv) {
  op_init(argc, argv, 2);
  op_set nodes = op_decl_set(nnode, "nodes");
  op_set cells = op_decl_set(ncell, "cells");
  op_map pcell = op_decl_map(cells, nodes, 4, cell, "pcell");
  op_dat x = op_decl_dat(nodes, 2, "int", x0, "x");
  op_dat q = op_decl_dat(cells, 4, "int", q0, "q");
  op_dat adt = op_decl_dat(cells, 1, "int", none, "adt");
  op_par_loop(adt_calc, "adt_calc", cells, op_arg_dat(x, 0, pcell, 2, "int", OP_READ), op_arg_dat(x, 1, pcell, 2, "int", OP_READ),
    op_arg_dat(x, 2, pcell, 2, "int", OP_READ), op_arg_dat(x, 3, pcell, 2, "int", OP_READ),
    op_arg_dat(q, -1, OP_ID, 4, "int", OP_READ), op_arg_dat(adt, -1, OP_ID, 1, "int", OP_WRITE));
  op_print_dat_to_txtfile(adt, "adt.txt");
  op_exit();
}
