// The flow of naca.c in doubles, over the same mesh: plain C, with the loops of OP2's airfoil written out. compare.py builds it with the mesh as
// tools/mesh_c writes it, and compares.
#include <math.h>
#include <stdio.h>
#include <stdlib.h>

extern int nnode, ncell, nedge, nbedge, niter;
extern int cell[], edge[], ecell[], bedge[], becell[], bound0[], x0[];

static const double gam = 1.4, gm1 = 0.4, cfl = 0.9, eps = 0.05, mach = 0.4, degrees = 3.0;
static double qinf[4];

static void save_soln(const double *q, double *qold) {
  for (int n = 0; n < 4; n++) qold[n] = q[n];
}

static void adt_calc(const double *x1, const double *x2, const double *x3, const double *x4, const double *q, double *adt) {
  const double *x[5] = {x1, x2, x3, x4, x1};
  double ri = 1 / q[0], u = ri * q[1], v = ri * q[2];
  double c = sqrt(gam * gm1 * (ri * q[3] - 0.5 * (u * u + v * v)));
  double sum = 0;
  for (int k = 0; k < 4; k++) {
    double dx = x[k + 1][0] - x[k][0], dy = x[k + 1][1] - x[k][1];
    sum += fabs(u * dy - v * dx) + c * sqrt(dx * dx + dy * dy);
  }
  *adt = sum / cfl;
}

static double pressure(const double *q) {
  return gm1 * (q[3] - 0.5 / q[0] * (q[1] * q[1] + q[2] * q[2]));
}

static void flux(const double *x1, const double *x2, const double *q1, const double *q2, double mu, double *f) {
  double dx = x1[0] - x2[0], dy = x1[1] - x2[1];
  double p1 = pressure(q1), vol1 = (q1[1] * dy - q1[2] * dx) / q1[0];
  double p2 = pressure(q2), vol2 = (q2[1] * dy - q2[2] * dx) / q2[0];
  f[0] = 0.5 * (vol1 * q1[0] + vol2 * q2[0]) + mu * (q1[0] - q2[0]);
  f[1] = 0.5 * (vol1 * q1[1] + p1 * dy + vol2 * q2[1] + p2 * dy) + mu * (q1[1] - q2[1]);
  f[2] = 0.5 * (vol1 * q1[2] - p1 * dx + vol2 * q2[2] - p2 * dx) + mu * (q1[2] - q2[2]);
  f[3] = 0.5 * (vol1 * (q1[3] + p1) + vol2 * (q2[3] + p2)) + mu * (q1[3] - q2[3]);
}

static void res_calc(const double *x1, const double *x2, const double *q1, const double *q2, const double *adt1, const double *adt2, double *res1,
                     double *res2) {
  double f[4];
  flux(x1, x2, q1, q2, 0.5 * (*adt1 + *adt2) * eps, f);
  for (int n = 0; n < 4; n++) {
    res1[n] += f[n];
    res2[n] -= f[n];
  }
}

static void bres_calc(const double *x1, const double *x2, const double *q1, const double *adt1, double *res1, const int *bound) {
  double f[4] = {0};
  if (*bound == 1) {
    f[1] = pressure(q1) * (x1[1] - x2[1]);
    f[2] = -pressure(q1) * (x1[0] - x2[0]);
  } else {
    flux(x1, x2, q1, qinf, *adt1 * eps, f);
  }
  for (int n = 0; n < 4; n++) res1[n] += f[n];
}

static void update(const double *qold, double *q, double *res, const double *adt, double *rms) {
  for (int n = 0; n < 4; n++) {
    double del = res[n] / *adt;
    q[n] = qold[n] - del;
    res[n] = 0;
    *rms += del * del;
  }
}

int main(void) {
  double *x = calloc(2 * nnode, sizeof *x), *q = calloc(4 * ncell, sizeof *q), *qold = calloc(4 * ncell, sizeof *q);
  double *adt = calloc(ncell, sizeof *adt), *res = calloc(4 * ncell, sizeof *res);
  double angle = degrees * atan(1.0) / 45, speed = sqrt(gam) * mach;
  qinf[0] = 1;
  qinf[1] = speed * cos(angle);
  qinf[2] = speed * sin(angle);
  qinf[3] = 1 / gm1 + 0.5 * speed * speed;
  for (int i = 0; i < 2 * nnode; i++) x[i] = x0[i] / 65536.0;
  for (int i = 0; i < 4 * ncell; i++) q[i] = qinf[i % 4];
  for (int iter = 1; iter <= niter; iter++) {
    double rms;
    for (int i = 0; i < ncell; i++) save_soln(&q[4 * i], &qold[4 * i]);
    for (int k = 0; k < 2; k++) {
      rms = 0;
      for (int i = 0; i < ncell; i++) {
        const int *at = &cell[4 * i];
        adt_calc(&x[2 * at[0]], &x[2 * at[1]], &x[2 * at[2]], &x[2 * at[3]], &q[4 * i], &adt[i]);
      }
      for (int i = 0; i < nedge; i++) {
        const int *at = &edge[2 * i], *c = &ecell[2 * i];
        res_calc(&x[2 * at[0]], &x[2 * at[1]], &q[4 * c[0]], &q[4 * c[1]], &adt[c[0]], &adt[c[1]], &res[4 * c[0]], &res[4 * c[1]]);
      }
      for (int i = 0; i < nbedge; i++) {
        const int *at = &bedge[2 * i], c = becell[i];
        bres_calc(&x[2 * at[0]], &x[2 * at[1]], &q[4 * c], &adt[c], &res[4 * c], &bound0[i]);
      }
      for (int i = 0; i < ncell; i++) update(&qold[4 * i], &q[4 * i], &res[4 * i], &adt[i], &rms);
    }
    if (iter % 100 == 0 || iter == niter) printf("%d %.3e\n", iter, rms);
  }
  printf("q.txt: q cells %d 4\n", ncell);
  for (int i = 0; i < ncell; i++) printf("%.9f %.9f %.9f %.9f\n", q[4 * i], q[4 * i + 1], q[4 * i + 2], q[4 * i + 3]);
  return 0;
}
