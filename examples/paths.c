// The lengths of the shortest paths from one node of a graph, as Bellman and Ford find them: each edge lowers what is known at its ends.
extern int nnode;
extern int nedge;
extern int ends[];
extern int length0[];
extern int dist0[];
extern int ncorner;
extern int block[];
extern int x0[];
void relax(const int *length, const int *da, const int *db, int *na, int *nb) {
  *na = MIN(*na, *db + *length);
  *nb = MIN(*nb, *da + *length);
}
void keep(const int *next, int *dist, int *lowered) {
  if (*next < *dist) *lowered += 1;
  *dist = *next;
}
int main(int argc, char **argv) {
  op_init(argc, argv, 2);
  op_set nodes = op_decl_set(nnode, "nodes");
  op_set edges = op_decl_set(nedge, "edges");
  op_map pe = op_decl_map(edges, nodes, 2, ends, "pe");
  op_dat length = op_decl_dat(edges, 1, "int", length0, "length");
  op_dat dist = op_decl_dat(nodes, 1, "int", dist0, "dist");
  op_dat next = op_decl_dat(nodes, 1, "int", dist0, "next");
  // For pictures alone: each crossing is the middle of a square.
  op_set corners = op_decl_set(ncorner, "corners");
  op_map pblock = op_decl_map(nodes, corners, 4, block, "pblock");
  op_dat x = op_decl_dat(corners, 2, "int", x0, "x");
  for (int turn = 0; turn < 12; turn++) {
    op_par_loop(relax, "relax", edges, op_arg_dat(length, -1, OP_ID, 1, "int", OP_READ), op_arg_dat(dist, 0, pe, 1, "int", OP_READ),
      op_arg_dat(dist, 1, pe, 1, "int", OP_READ), op_arg_dat(next, 0, pe, 1, "int", OP_MIN), op_arg_dat(next, 1, pe, 1, "int", OP_MIN));
    int lowered = 0;
    op_par_loop(keep, "keep", nodes, op_arg_dat(next, -1, OP_ID, 1, "int", OP_READ), op_arg_dat(dist, -1, OP_ID, 1, "int", OP_RW),
      op_arg_gbl(&lowered, 1, "int", OP_INC));
    op_printf("turn %d lowered %d\n", turn, lowered);
  }
  op_print_dat_to_txtfile(dist, "dist.txt");
  op_exit();
}
