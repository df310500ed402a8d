// Jacobi's method for the steady heat of a plate with a hole: at each turn a free node takes the mean of its neighbours. The left rim is held at 1000 degrees
// and the right one at none. Values are in thousandths of a degree, and the residual is how far the sum of a node's neighbours is from its own share.
extern int nnode;
extern int nedge;
extern int ncell;
extern int edge[];
extern int cell[];
extern int x0[];
extern int held0[];
extern int first[];
extern int zero[];

// What a node's neighbours have, and how many there are.
void neighbours(const int *ua, const int *ub, int *sa, int *sb) {
  sa[0] += *ub;
  sa[1] += 1;
  sb[0] += *ua;
  sb[1] += 1;
}
// The residual of a free node, and its next value.
void relax(const int *held, int *s, int *u, int *most, int *all) {
  int residual = *held ? 0 : s[0] - s[1] * *u;
  *most = MAX(*most, ABS(residual));
  *all += ABS(residual);
  if (!*held) *u = s[0] / s[1];
  s[0] = 0;
  s[1] = 0;
}
int main(int argc, char **argv) {
  op_init(argc, argv, 2);
  op_set nodes = op_decl_set(nnode, "nodes");
  op_set edges = op_decl_set(nedge, "edges");
  op_set cells = op_decl_set(ncell, "cells");
  op_map pedge = op_decl_map(edges, nodes, 2, edge, "pedge");
  op_map pcell = op_decl_map(cells, nodes, 4, cell, "pcell");
  op_dat x = op_decl_dat(nodes, 2, "int", x0, "x");
  op_dat held = op_decl_dat(nodes, 1, "int", held0, "held");
  op_dat u = op_decl_dat(nodes, 1, "int", first, "u");
  op_dat s = op_decl_dat(nodes, 2, "int", zero, "s");
  for (int turn = 1; turn < 301; turn++) {
    op_par_loop(neighbours, "neighbours", edges, op_arg_dat(u, 0, pedge, 1, "int", OP_READ), op_arg_dat(u, 1, pedge, 1, "int", OP_READ),
      op_arg_dat(s, 0, pedge, 2, "int", OP_INC), op_arg_dat(s, 1, pedge, 2, "int", OP_INC));
    int most = 0, all = 0;
    op_par_loop(relax, "relax", nodes, op_arg_dat(held, -1, OP_ID, 1, "int", OP_READ), op_arg_dat(s, -1, OP_ID, 2, "int", OP_RW),
      op_arg_dat(u, -1, OP_ID, 1, "int", OP_RW), op_arg_gbl(&most, 1, "int", OP_MAX), op_arg_gbl(&all, 1, "int", OP_INC));
    if (turn % 50 == 0) op_printf("turn %d: residual at most %d, in all %d\n", turn, most, all);
  }
  op_print_dat_to_txtfile(u, "u.txt");
  op_exit();
}
