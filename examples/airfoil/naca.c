// Flow around a NACA 0012 profile, after OP2's airfoil, with numbers in units of 1/65536 (docs/PORTING.md, "At 1/65536"). naca_double.c is the same
// in doubles. A kernel calls nothing: it puts what it multiplies into a[] and b[], and a loop makes the products p[].
extern int nnode;
extern int ncell;
extern int nedge;
extern int nbedge;
extern int niter;
extern int cell[];
extern int edge[];
extern int ecell[];
extern int bedge[];
extern int becell[];
extern int bound0[];
extern int x0[];
extern int none4[];
extern int none[];
const int one = 65536;
// The free stream, at 0.4 times the speed of sound and 3 degrees upwards: its momentum in both directions and its energy. Density and pressure are 1.
const int uinf = 30975;
const int vinf = 1623;
const int einf = 171180;

void start(int *q) {
  q[0] = one;
  q[1] = uinf;
  q[2] = vinf;
  q[3] = einf;
}

void save_soln(const int *q, int *qold) {
  for (int n = 0; n < 4; n++) qold[n] = q[n];
}

// The local speed of information across a cell's faces, which bounds its time step.
void adt_calc(const int *x1, const int *x2, const int *x3, const int *x4, const int *q, int *adt) {
  int dx[4], dy[4], a[18], b[18], p[18], s[5];
  dx[0] = x2[0] - x1[0]; dy[0] = x2[1] - x1[1];
  dx[1] = x3[0] - x2[0]; dy[1] = x3[1] - x2[1];
  dx[2] = x4[0] - x3[0]; dy[2] = x4[1] - x3[1];
  dx[3] = x1[0] - x4[0]; dy[3] = x1[1] - x4[1];
  // The velocity and the energy of a unit of mass, by 1 / density.
  int r = one % q[0] * 256;
  int ri = one / q[0] * one + r / q[0] * 256 + (r % q[0] * 256 + q[0] / 2) / q[0];
  for (int n = 0; n < 3; n++) {
    a[n] = ri;
    b[n] = q[n + 1];
  }
  for (int i = 0; i < 3; i++) {
    int u = a[i] & 65535, v = b[i] & 65535;
    p[i] = (a[i] >> 16) * b[i] + u * (b[i] >> 16) + ((u >> 8) * v + ((u & 255) * v >> 8) + 128 >> 8);
  }
  int velx = p[0], vely = p[1], energy = p[2];
  a[16] = velx; b[16] = velx;
  a[17] = vely; b[17] = vely;
  for (int k = 0; k < 4; k++) {
    a[4 * k] = velx; b[4 * k] = dy[k];
    a[4 * k + 1] = vely; b[4 * k + 1] = dx[k];
    a[4 * k + 2] = dx[k]; b[4 * k + 2] = dx[k];
    a[4 * k + 3] = dy[k]; b[4 * k + 3] = dy[k];
  }
  for (int i = 0; i < 18; i++) {
    int u = a[i] & 65535, v = b[i] & 65535;
    p[i] = (a[i] >> 16) * b[i] + u * (b[i] >> 16) + ((u >> 8) * v + ((u & 255) * v >> 8) + 128 >> 8);
  }
  // The lengths of the faces and the speed of sound: roots, the last of 1.4 * 0.4 = 14 / 25 times the inner energy.
  int across = 0;
  for (int k = 0; k < 4; k++) {
    across += ABS(p[4 * k] - p[4 * k + 1]);
    s[k] = p[4 * k + 2] + p[4 * k + 3];
  }
  s[4] = (energy - (p[16] + p[17] >> 1)) * 14 / 25;
  for (int k = 0; k < 5; k++) {
    int bits = s[k], rest = 0, root = 0;
    for (int i = 0; i < 24; i++) {
      rest = rest << 2 | bits >> 30 & 3;
      bits <<= 2;
      root <<= 1;
      if (rest > 2 * root) {
        rest -= 2 * root + 1;
        root += 1;
      }
    }
    s[k] = root + (rest > root);
  }
  int length = s[0] + s[1] + s[2] + s[3], sound = s[4];
  int u = sound & 65535, v = length & 65535;
  int along = (sound >> 16) * length + u * (length >> 16) + ((u >> 8) * v + ((u & 255) * v >> 8) + 128 >> 8);
  adt[0] = (across + along) * 10 / 9;  // over the CFL number, 0.9
}

// What flows through an edge from its first cell into its second.
void res_calc(const int *x1, const int *x2, const int *q1, const int *q2, const int *adt1, const int *adt2, int *res1, int *res2) {
  int dx = x1[0] - x2[0], dy = x1[1] - x2[1], mu = (adt1[0] + adt2[0]) / 40;  // 0.05 times the mean
  int q[8], a[14], b[14], p[14], ri[2], pr[2];
  for (int n = 0; n < 4; n++) {
    q[n] = q1[n];
    q[n + 4] = q2[n];
  }
  // On both sides: 1 / density, and of the momentum the squares and what crosses the edge.
  for (int s = 0; s < 2; s++) {
    int r = one % q[4 * s] * 256;
    ri[s] = one / q[4 * s] * one + r / q[4 * s] * 256 + (r % q[4 * s] * 256 + q[4 * s] / 2) / q[4 * s];
    a[4 * s] = q[4 * s + 1]; b[4 * s] = q[4 * s + 1];
    a[4 * s + 1] = q[4 * s + 2]; b[4 * s + 1] = q[4 * s + 2];
    a[4 * s + 2] = q[4 * s + 1]; b[4 * s + 2] = dy;
    a[4 * s + 3] = q[4 * s + 2]; b[4 * s + 3] = dx;
  }
  for (int i = 0; i < 8; i++) {
    int u = a[i] & 65535, v = b[i] & 65535;
    p[i] = (a[i] >> 16) * b[i] + u * (b[i] >> 16) + ((u >> 8) * v + ((u & 255) * v >> 8) + 128 >> 8);
  }
  // The energy of motion, and the volume that crosses.
  for (int s = 0; s < 2; s++) {
    a[2 * s] = ri[s]; b[2 * s] = p[4 * s] + p[4 * s + 1] >> 1;
    a[2 * s + 1] = ri[s]; b[2 * s + 1] = p[4 * s + 2] - p[4 * s + 3];
  }
  for (int i = 0; i < 4; i++) {
    int u = a[i] & 65535, v = b[i] & 65535;
    p[i] = (a[i] >> 16) * b[i] + u * (b[i] >> 16) + ((u >> 8) * v + ((u & 255) * v >> 8) + 128 >> 8);
  }
  // The pressure, 0.4 times the inner energy; then what the volume carries, what the pressures do, and the smoothing.
  for (int s = 0; s < 2; s++) {
    pr[s] = (q[4 * s + 3] - p[2 * s]) * 2 / 5;
    for (int n = 0; n < 4; n++) {
      a[4 * s + n] = p[2 * s + 1];
      b[4 * s + n] = q[4 * s + n];
    }
    b[4 * s + 3] += pr[s];
  }
  for (int n = 0; n < 4; n++) {
    a[n + 8] = mu;
    b[n + 8] = q1[n] - q2[n];
  }
  a[12] = pr[0] + pr[1]; b[12] = dy;
  a[13] = pr[0] + pr[1]; b[13] = -dx;
  for (int i = 0; i < 14; i++) {
    int u = a[i] & 65535, v = b[i] & 65535;
    p[i] = (a[i] >> 16) * b[i] + u * (b[i] >> 16) + ((u >> 8) * v + ((u & 255) * v >> 8) + 128 >> 8);
  }
  p[1] += p[12];
  p[2] += p[13];
  for (int n = 0; n < 4; n++) {
    int f = (p[n] + p[n + 4] >> 1) + p[n + 8];
    res1[n] += f;
    res2[n] -= f;
  }
}

// What flows out of a cell through an edge of the rim: at a wall pressure alone acts, as if it were on both sides; elsewhere the other side is the free
// stream.
void bres_calc(const int *x1, const int *x2, const int *q1, const int *adt1, int *res1, const int *bound) {
  int dx = x1[0] - x2[0], dy = x1[1] - x2[1], flows = bound[0] != 1;
  int qinf[4], a[14], b[14], p[14];
  qinf[0] = one; qinf[1] = uinf; qinf[2] = vinf; qinf[3] = einf;
  int r = one % q1[0] * 256;
  int ri = one / q1[0] * one + r / q1[0] * 256 + (r % q1[0] * 256 + q1[0] / 2) / q1[0];
  a[0] = q1[1]; b[0] = q1[1];
  a[1] = q1[2]; b[1] = q1[2];
  a[2] = q1[1]; b[2] = dy;
  a[3] = q1[2]; b[3] = dx;
  a[4] = uinf; b[4] = dy;
  a[5] = vinf; b[5] = dx;
  for (int i = 0; i < 6; i++) {
    int u = a[i] & 65535, v = b[i] & 65535;
    p[i] = (a[i] >> 16) * b[i] + u * (b[i] >> 16) + ((u >> 8) * v + ((u & 255) * v >> 8) + 128 >> 8);
  }
  int vol2 = (p[4] - p[5]) * flows;
  a[0] = ri; b[0] = p[0] + p[1] >> 1;
  a[1] = ri; b[1] = p[2] - p[3];
  for (int i = 0; i < 2; i++) {
    int u = a[i] & 65535, v = b[i] & 65535;
    p[i] = (a[i] >> 16) * b[i] + u * (b[i] >> 16) + ((u >> 8) * v + ((u & 255) * v >> 8) + 128 >> 8);
  }
  int vol1 = p[1] * flows, p1 = (q1[3] - p[0]) * 2 / 5, p2 = flows ? one : p1;
  for (int n = 0; n < 4; n++) {
    a[n] = vol1; b[n] = q1[n];
    a[n + 4] = vol2; b[n + 4] = qinf[n];
    a[n + 8] = adt1[0] / 20 * flows; b[n + 8] = q1[n] - qinf[n];
  }
  b[3] += p1;
  b[7] += p2;
  a[12] = p1 + p2; b[12] = dy;
  a[13] = p1 + p2; b[13] = -dx;
  for (int i = 0; i < 14; i++) {
    int u = a[i] & 65535, v = b[i] & 65535;
    p[i] = (a[i] >> 16) * b[i] + u * (b[i] >> 16) + ((u >> 8) * v + ((u & 255) * v >> 8) + 128 >> 8);
  }
  p[1] += p[12];
  p[2] += p[13];
  for (int n = 0; n < 4; n++) res1[n] += (p[n] + p[n + 4] >> 1) + p[n + 8];
}

// The state moves on by the residuals. Squares of what changed are summed in two halves, for they are in units of 2^-32.
void update(const int *qold, int *q, int *res, const int *adt, int *rms) {
  for (int n = 0; n < 4; n++) {
    int r = res[n] % adt[0] * 256;
    int del = res[n] / adt[0] * one + r / adt[0] * 256 + (r % adt[0] * 256 + (r < 0 ? -adt[0] : adt[0]) / 2) / adt[0];
    int square = del * del;
    q[n] = qold[n] - del;
    res[n] = 0;
    rms[0] += square >> 16;
    rms[1] += square & 65535;
  }
}

int main(int argc, char **argv) {
  op_init(argc, argv, 2);
  op_set nodes = op_decl_set(nnode, "nodes");
  op_set cells = op_decl_set(ncell, "cells");
  op_set edges = op_decl_set(nedge, "edges");
  op_set bedges = op_decl_set(nbedge, "bedges");
  op_map pcell = op_decl_map(cells, nodes, 4, cell, "pcell");
  op_map pedge = op_decl_map(edges, nodes, 2, edge, "pedge");
  op_map pecell = op_decl_map(edges, cells, 2, ecell, "pecell");
  op_map pbedge = op_decl_map(bedges, nodes, 2, bedge, "pbedge");
  op_map pbecell = op_decl_map(bedges, cells, 1, becell, "pbecell");
  op_dat bound = op_decl_dat(bedges, 1, "int", bound0, "bound");
  op_dat x = op_decl_dat(nodes, 2, "int", x0, "x");
  op_dat q = op_decl_dat(cells, 4, "int", none4, "q");
  op_dat qold = op_decl_dat(cells, 4, "int", none4, "qold");
  op_dat adt = op_decl_dat(cells, 1, "int", none, "adt");
  op_dat res = op_decl_dat(cells, 4, "int", none4, "res");
  op_par_loop(start, "start", cells, op_arg_dat(q, -1, OP_ID, 4, "int", OP_WRITE));
  for (int iter = 1; iter < niter + 1; iter++) {
    int rms[2];
    op_par_loop(save_soln, "save_soln", cells, op_arg_dat(q, -1, OP_ID, 4, "int", OP_READ), op_arg_dat(qold, -1, OP_ID, 4, "int", OP_WRITE));
    for (int k = 0; k < 2; k++) {
      op_par_loop(adt_calc, "adt_calc", cells, op_arg_dat(x, 0, pcell, 2, "int", OP_READ), op_arg_dat(x, 1, pcell, 2, "int", OP_READ),
        op_arg_dat(x, 2, pcell, 2, "int", OP_READ), op_arg_dat(x, 3, pcell, 2, "int", OP_READ),
        op_arg_dat(q, -1, OP_ID, 4, "int", OP_READ), op_arg_dat(adt, -1, OP_ID, 1, "int", OP_WRITE));
      op_par_loop(res_calc, "res_calc", edges, op_arg_dat(x, 0, pedge, 2, "int", OP_READ), op_arg_dat(x, 1, pedge, 2, "int", OP_READ),
        op_arg_dat(q, 0, pecell, 4, "int", OP_READ), op_arg_dat(q, 1, pecell, 4, "int", OP_READ),
        op_arg_dat(adt, 0, pecell, 1, "int", OP_READ), op_arg_dat(adt, 1, pecell, 1, "int", OP_READ),
        op_arg_dat(res, 0, pecell, 4, "int", OP_INC), op_arg_dat(res, 1, pecell, 4, "int", OP_INC));
      op_par_loop(bres_calc, "bres_calc", bedges, op_arg_dat(x, 0, pbedge, 2, "int", OP_READ), op_arg_dat(x, 1, pbedge, 2, "int", OP_READ),
        op_arg_dat(q, 0, pbecell, 4, "int", OP_READ), op_arg_dat(adt, 0, pbecell, 1, "int", OP_READ),
        op_arg_dat(res, 0, pbecell, 4, "int", OP_INC), op_arg_dat(bound, -1, OP_ID, 1, "int", OP_READ));
      rms[0] = 0;
      rms[1] = 0;
      op_par_loop(update, "update", cells, op_arg_dat(qold, -1, OP_ID, 4, "int", OP_READ), op_arg_dat(q, -1, OP_ID, 4, "int", OP_WRITE),
        op_arg_dat(res, -1, OP_ID, 4, "int", OP_RW), op_arg_dat(adt, -1, OP_ID, 1, "int", OP_READ), op_arg_gbl(rms, 2, "int", OP_INC));
    }
    // The sum of squares, times 2^32: the first number times 65536, and the second.
    if (iter % 100 == 0 || iter == niter) op_printf("%d %d %d\n", iter, rms[0] + (rms[1] >> 16), rms[1] & 65535);
  }
  op_print_dat_to_txtfile(q, "q.txt");
  op_exit();
}
