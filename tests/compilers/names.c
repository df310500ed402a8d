// Names of the source's own that entries of the mesh have too, lines of #include before and behind the header, and kernels of each kind.
#include <stdlib.h>
#include "op_seq.h"
#include <stdio.h>
#include <math.h>
extern int n; // extern int total;
extern /* int */ int a0[]; /* extern int zero[]; */
int total = 3, zero[2];
const int scale = 2, low = MIN(-3, 4), high = ABS(-5);
void edge(const int *a, int *b) { b[0] = a[0] * scale; }
static void node(int *a) { a[0] += MAX(low, high); }
static inline void cell(int *a) { a[0] += 1; }
inline void face(int *b) { b[0] -= 1; }
int main(int argc, char **argv) {
  op_set s = op_decl_set(n, "s");
  op_dat a = op_decl_dat(s, 1, "int", a0, "a");
  op_dat b = op_decl_dat(s, 1, "int", a0, "b");
  int nodes = 4;
  total += nodes;
  op_par_loop(edge, "edge", s, op_arg_dat(a, -1, OP_ID, 1, "int", OP_READ), op_arg_dat(b, -1, OP_ID, 1, "int", OP_WRITE));
  op_par_loop(node, "node", s, op_arg_dat(a, -1, OP_ID, 1, "int", OP_RW));
  op_par_loop(cell, "cell", s, op_arg_dat(a, -1, OP_ID, 1, "int", OP_RW));
  op_par_loop(face, "face", s, op_arg_dat(b, -1, OP_ID, 1, "int", OP_RW));
  op_print_dat_to_txtfile(a, "a");
  op_print_dat_to_txtfile(b, "b");
  op_printf("%d %d %d extern int nodes;\n", total, scale, zero[0]);
  op_exit();
}
