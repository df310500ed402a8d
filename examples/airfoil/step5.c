// Flow over a bump in a channel, in the manner of OP2's airfoil, with numbers in units of 1/1024.
extern int nnode;
extern int ncell;
extern int nedge;
extern int nbedge;
extern int cell[];
extern int edge[];
extern int ecell[];
extern int bedge[];
extern int becell[];
extern int bound0[];
extern int x0[];
extern int q0[];
extern int none4[];
extern int none[];
const int one = 1024;
const int gam = 1434;   // 1.4
const int gm1 = 410;    // 0.4
const int cfl = 922;    // 0.9
const int eps = 51;     // 0.05
const int rinf = 1024;  // the free stream: density, momentum, energy
const int minf = 485;
const int einf = 2675;

void save_soln(const int *q, int *qold) {
  for (int n = 0; n < 4; n++) qold[n] = q[n];
}

// The local speed of information across a cell's faces, which bounds its time step.
void adt_calc(const int *x1, const int *x2, const int *x3, const int *x4, const int *q, int *adt) {
  int u = q[1] * one / q[0], v = q[2] * one / q[0];
  int dx[4], dy[4];
  dx[0] = x2[0] - x1[0]; dy[0] = x2[1] - x1[1];
  dx[1] = x3[0] - x2[0]; dy[1] = x3[1] - x2[1];
  dx[2] = x4[0] - x3[0]; dy[2] = x4[1] - x3[1];
  dx[3] = x1[0] - x4[0]; dy[3] = x1[1] - x4[1];
  int e = q[3] * one / q[0] - (u * u + v * v) / (2 * one);
  int c2 = gam * gm1 / one * e, c = one;  // the speed of sound is the root of c2
  for (int i = 0; i < 8; i++) c = MAX((c + c2 / c) / 2, 1);
  int sum = 0;
  for (int k = 0; k < 4; k++) {
    int d2 = dx[k] * dx[k] + dy[k] * dy[k], d = one;  // the length of the face is the root of d2
    for (int i = 0; i < 8; i++) d = MAX((d + d2 / d) / 2, 1);
    sum += ABS(u * dy[k] - v * dx[k]) / one + c * d / one;
  }
  adt[0] = sum * one / cfl;
}

// What flows through an edge from its first cell into its second.
void res_calc(const int *x1, const int *x2, const int *q1, const int *q2, const int *adt1, const int *adt2, int *res1, int *res2) {
  int dx = x1[0] - x2[0], dy = x1[1] - x2[1];
  int p1 = gm1 * (q1[3] - (q1[1] * q1[1] + q1[2] * q1[2]) / (2 * q1[0])) / one;
  int p2 = gm1 * (q2[3] - (q2[1] * q2[1] + q2[2] * q2[2]) / (2 * q2[0])) / one;
  int vol1 = (q1[1] * dy - q1[2] * dx) / q1[0];
  int vol2 = (q2[1] * dy - q2[2] * dx) / q2[0];
  int mu = (adt1[0] + adt2[0]) / 2 * eps / one;
  int f[4];
  f[0] = (vol1 * q1[0] + vol2 * q2[0]) / (2 * one);
  f[1] = (vol1 * q1[1] + p1 * dy + vol2 * q2[1] + p2 * dy) / (2 * one);
  f[2] = (vol1 * q1[2] - p1 * dx + vol2 * q2[2] - p2 * dx) / (2 * one);
  f[3] = (vol1 * (q1[3] + p1) + vol2 * (q2[3] + p2)) / (2 * one);
  for (int n = 0; n < 4; n++) {
    int g = f[n] + mu * (q1[n] - q2[n]) / one;
    res1[n] += g;
    res2[n] -= g;
  }
}

// What flows out of a cell through an edge of the rim: at a wall pressure alone, elsewhere against the free stream.
void bres_calc(const int *x1, const int *x2, const int *q1, const int *adt1, int *res1, const int *bound) {
  int dx = x1[0] - x2[0], dy = x1[1] - x2[1];
  int p1 = gm1 * (q1[3] - (q1[1] * q1[1] + q1[2] * q1[2]) / (2 * q1[0])) / one;
  if (bound[0] == 1) {
    res1[1] += p1 * dy / one;
    res1[2] -= p1 * dx / one;
  } else {
    int vol1 = (q1[1] * dy - q1[2] * dx) / q1[0];
    int p2 = gm1 * (einf - minf * minf / (2 * rinf)) / one;
    int vol2 = minf * dy / rinf;
    int mu = adt1[0] * eps / one;
    res1[0] += (vol1 * q1[0] + vol2 * rinf) / (2 * one) + mu * (q1[0] - rinf) / one;
    res1[1] += (vol1 * q1[1] + p1 * dy + vol2 * minf + p2 * dy) / (2 * one) + mu * (q1[1] - minf) / one;
    res1[2] += (vol1 * q1[2] - p1 * dx - p2 * dx) / (2 * one) + mu * q1[2] / one;
    res1[3] += (vol1 * (q1[3] + p1) + vol2 * (einf + p2)) / (2 * one) + mu * (q1[3] - einf) / one;
  }
}

void update(const int *qold, int *q, int *res, const int *adt, int *rms) {
  for (int n = 0; n < 4; n++) {
    int del = res[n] * one / adt[0];
    q[n] = qold[n] - del;
    res[n] = 0;
    *rms += del * del;
  }
}

int main(int argc, char **argv) {
  op_init(argc, argv, 2);
  op_set nodes = op_decl_set(nnode, "nodes");
  op_set cells = op_decl_set(ncell, "cells");
  op_set edges = op_decl_set(nedge, "edges");
  op_set bedges = op_decl_set(nbedge, "bedges");
  op_map pcell = op_decl_map(cells, nodes, 4, cell, "pcell");
  op_map pedge = op_decl_map(edges, nodes, 2, edge, "pedge");
  op_map pecell = op_decl_map(edges, cells, 2, ecell, "pecell");
  op_map pbedge = op_decl_map(bedges, nodes, 2, bedge, "pbedge");
  op_map pbecell = op_decl_map(bedges, cells, 1, becell, "pbecell");
  op_dat bound = op_decl_dat(bedges, 1, "int", bound0, "bound");
  op_dat x = op_decl_dat(nodes, 2, "int", x0, "x");
  op_dat q = op_decl_dat(cells, 4, "int", q0, "q");
  op_dat qold = op_decl_dat(cells, 4, "int", none4, "qold");
  op_dat adt = op_decl_dat(cells, 1, "int", none, "adt");
  op_dat res = op_decl_dat(cells, 4, "int", none4, "res");
  for (int iter = 1; iter < 101; iter++) {
    op_par_loop(save_soln, "save_soln", cells, op_arg_dat(q, -1, OP_ID, 4, "int", OP_READ), op_arg_dat(qold, -1, OP_ID, 4, "int", OP_WRITE));
    int rms = 0;
    for (int k = 0; k < 2; k++) {
      op_par_loop(adt_calc, "adt_calc", cells, op_arg_dat(x, 0, pcell, 2, "int", OP_READ), op_arg_dat(x, 1, pcell, 2, "int", OP_READ),
        op_arg_dat(x, 2, pcell, 2, "int", OP_READ), op_arg_dat(x, 3, pcell, 2, "int", OP_READ),
        op_arg_dat(q, -1, OP_ID, 4, "int", OP_READ), op_arg_dat(adt, -1, OP_ID, 1, "int", OP_WRITE));
      op_par_loop(res_calc, "res_calc", edges, op_arg_dat(x, 0, pedge, 2, "int", OP_READ), op_arg_dat(x, 1, pedge, 2, "int", OP_READ),
        op_arg_dat(q, 0, pecell, 4, "int", OP_READ), op_arg_dat(q, 1, pecell, 4, "int", OP_READ),
        op_arg_dat(adt, 0, pecell, 1, "int", OP_READ), op_arg_dat(adt, 1, pecell, 1, "int", OP_READ),
        op_arg_dat(res, 0, pecell, 4, "int", OP_INC), op_arg_dat(res, 1, pecell, 4, "int", OP_INC));
      op_par_loop(bres_calc, "bres_calc", bedges, op_arg_dat(x, 0, pbedge, 2, "int", OP_READ), op_arg_dat(x, 1, pbedge, 2, "int", OP_READ),
        op_arg_dat(q, 0, pbecell, 4, "int", OP_READ), op_arg_dat(adt, 0, pbecell, 1, "int", OP_READ),
        op_arg_dat(res, 0, pbecell, 4, "int", OP_INC), op_arg_dat(bound, -1, OP_ID, 1, "int", OP_READ));
      op_par_loop(update, "update", cells, op_arg_dat(qold, -1, OP_ID, 4, "int", OP_READ), op_arg_dat(q, -1, OP_ID, 4, "int", OP_WRITE),
        op_arg_dat(res, -1, OP_ID, 4, "int", OP_RW), op_arg_dat(adt, -1, OP_ID, 1, "int", OP_READ), op_arg_gbl(&rms, 1, "int", OP_INC));
    }
    if (iter % 20 == 0) op_printf("%d %d\n", iter, rms);
  }
  op_print_dat_to_txtfile(q, "q.txt");
  op_exit();
}
