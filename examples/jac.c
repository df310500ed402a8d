// Two Jacobi iterations on a small grid, as OP2's example jac1 has them, with numbers in units of 1/1024.
extern int nnode;
extern int nedge;
extern int pp[];
extern int A0[];
extern int r0[];
extern int zero[];
const int one = 1024;
int alpha;
void res(const int *A, const int *u, int *du, const int *beta) { *du += *beta * *A / one * *u / one; }
void update(const int *r, int *du, int *u, int *u_sum, int *u_max) {
  *u += *du + alpha * *r / one;
  *du = 0;
  *u_sum += *u * *u / one;
  *u_max = MAX(*u_max, *u);
}
int main(int argc, char **argv) {
  op_init(argc, argv, 2);
  alpha = one;
  op_decl_const(1, "int", &alpha);
  op_set nodes = op_decl_set(nnode, "nodes");
  op_set edges = op_decl_set(nedge, "edges");
  op_map ppedge = op_decl_map(edges, nodes, 2, pp, "ppedge");
  op_dat p_A = op_decl_dat(edges, 1, "int", A0, "p_A");
  op_dat p_r = op_decl_dat(nodes, 1, "int", r0, "p_r");
  op_dat p_u = op_decl_dat(nodes, 1, "int", zero, "p_u");
  op_dat p_du = op_decl_dat(nodes, 1, "int", zero, "p_du");
  int beta = one;
  for (int iter = 0; iter < 2; iter++) {
    op_par_loop(res, "res", edges, op_arg_dat(p_A, -1, OP_ID, 1, "int", OP_READ), op_arg_dat(p_u, 1, ppedge, 1, "int", OP_READ),
      op_arg_dat(p_du, 0, ppedge, 1, "int", OP_INC), op_arg_gbl(&beta, 1, "int", OP_READ));
    int u_sum = 0, u_max = 0;
    op_par_loop(update, "update", nodes, op_arg_dat(p_r, -1, OP_ID, 1, "int", OP_READ), op_arg_dat(p_du, -1, OP_ID, 1, "int", OP_RW),
      op_arg_dat(p_u, -1, OP_ID, 1, "int", OP_RW), op_arg_gbl(&u_sum, 1, "int", OP_INC), op_arg_gbl(&u_max, 1, "int", OP_MAX));
    op_printf("u max %d, sum of squares %d, in units of 1/%d\n", u_max, u_sum, one);
  }
  op_print_dat_to_txtfile(p_u, "out_grid.dat");
  op_exit();
}
