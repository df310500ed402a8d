extern int nnode;
extern int nedge;
extern int edge[];
extern int x0[];
extern int r0[];
void res(const int *xa, const int *xb, int *ra, int *rb) {
  int f = xb[0] - xa[0];
  ra[0] += f;
  rb[0] -= f;
}
int main(int argc, char **argv) {
  op_init(argc, argv, 1);
  op_set nodes = op_decl_set(nnode, "nodes");
  op_set edges = op_decl_set(nedge, "edges");
  op_map pe = op_decl_map(edges, nodes, 2, edge, "pe");
  op_dat x = op_decl_dat(nodes, 1, "int", x0, "x");
  op_dat r = op_decl_dat(nodes, 1, "int", r0, "r");
  op_par_loop(res, "res", edges, op_arg_dat(x, 0, pe, 1, "int", OP_READ),
    op_arg_dat(x, 1, pe, 1, "int", OP_READ), op_arg_dat(r, 0, pe, 1, "int", OP_INC),
    op_arg_dat(r, 1, pe, 1, "int", OP_INC));
  op_print_dat_to_txtfile(r, "r.txt");
  op_exit();
}
