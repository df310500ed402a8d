// ABS in comparisons that a compiler may take for tests of a range, over the least number, of which ABS is the number itself; and MIN, MAX and
// ABS of comparisons, in conditions and of locals without initializers, of which a compiler may warn.
#include "op_seq.h"
extern int n;
extern int x0[];
extern int zero[];
void near(const int *x, int *r) {
  int y = x[0], none;
  r[0] = (ABS(x[0]) <= 2) + 2 * (ABS(x[0]) < 3) + 4 * (ABS(x[0]) > 2) + 8 * (ABS(x[0]) >= 3) + 16 * (ABS(y) == 2) + 32 * (ABS(y) != 2)
    + 64 * (ABS(y) < 0) + 128 * (ABS(y) == y) + 256 * (ABS(y) >= 0) + 512 * (ABS(y - 1) <= 2) + 1024 * (ABS(y + 1) <= 2147483647)
    + 2048 * (ABS(-y) <= 2);
  r[1] = ABS(x[0]) % 4 + ABS(x[0]) / 2;
  r[2] = ABS(x[0]) * ABS(x[0]);
  r[3] = ABS(ABS(x[0])) - ABS(-x[0]);
  r[4] = MAX(ABS(x[0]), 0) ^ MIN(ABS(x[0]), 5);
  r[5] = -ABS(x[0]);
  r[6] = (ABS(x[0]) & 1) + (ABS(x[0]) >> 1);
  if (ABS(x[0]) <= 2) r[7] = 1; else r[7] = 2;
  if (!(ABS(y) > 2)) r[7] += 4;
  if (ABS(y) <= x[0]) r[7] += 8;
  if (ABS(x[0]) <= 1 << 30) r[7] += 16;
  if (0 < ABS(x[0]) && ABS(x[0]) < 7) r[7] += 32;
  r[8] = MIN(x[0] > 1, 2) + MAX(x[0] == y, 0) + ABS(x[0] < 2) + ABS(!y) + MAX(y && 1, y || 0);
  if (MIN(1, 2) && !MAX(0, x[0])) r[8] += ABS(3) ? MIN(3, 4) : 5;
  r[8] += MIN(none, 3) + MAX(4, none) + ABS(none);
}
int main(int argc, char **argv) {
  op_set s = op_decl_set(n, "s");
  op_dat x = op_decl_dat(s, 1, "int", x0, "x");
  op_dat r = op_decl_dat(s, 9, "int", zero, "r");
  op_par_loop(near, "near", s, op_arg_dat(x, -1, OP_ID, 1, "int", OP_READ), op_arg_dat(r, -1, OP_ID, 9, "int", OP_WRITE));
  op_print_dat_to_txtfile(r, "r");
  int least = -2147483647 - 1;
  op_printf("%d %d %d\n", ABS(least), ABS(least) <= 2, ABS(-2147483647 - 1) <= 2);
  op_exit();
}
