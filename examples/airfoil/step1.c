// A mesh of quadrilaterals: its nodes, its cells, and where the nodes are.
extern int nnode;
extern int ncell;
extern int cell[];
extern int x0[];

int main(int argc, char **argv) {
  op_init(argc, argv, 2);
  op_set nodes = op_decl_set(nnode, "nodes");
  op_set cells = op_decl_set(ncell, "cells");
  op_map pcell = op_decl_map(cells, nodes, 4, cell, "pcell");
  op_dat x = op_decl_dat(nodes, 2, "int", x0, "x");
  op_print_dat_to_txtfile(x, "x.txt");
  op_exit();
}
