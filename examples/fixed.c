// Products, quotients and roots of numbers in units of 1/65536 (docs/PORTING.md, "At 1/65536").
extern int n;
extern int a0[];
extern int b0[];
extern int none[];

// The product to the nearest, a half upwards: of each factor the half before the point and the half behind it.
void product(const int *a, const int *b, int *p) {
  int u = a[0] & 65535, v = b[0] & 65535;
  p[0] = (a[0] >> 16) * b[0] + u * (b[0] >> 16) + ((u >> 8) * v + ((u & 255) * v >> 8) + 128 >> 8);
}

// The quotient, cut off towards zero: the whole part, and then of what is left twice eight bits.
void quotient(const int *a, const int *b, int *q) {
  int r = a[0] % b[0] * 256;
  q[0] = a[0] / b[0] * 65536 + r / b[0] * 256 + r % b[0] * 256 / b[0];
}

// The quotient to the nearest, a half away from zero.
void nearest(const int *a, const int *b, int *q) {
  int r = a[0] % b[0] * 256, half = ABS(b[0]) / 2;
  q[0] = a[0] / b[0] * 65536 + r / b[0] * 256 + (r % b[0] * 256 + (r < 0 ? -half : half)) / b[0];
}

// The root to the nearest, bit by bit: each turn takes two bits of the number, and then eight turns those behind it, which are 0.
void root(const int *a, int *s) {
  int bits = a[0], rest = 0, r = 0;
  for (int i = 0; i < 24; i++) {
    rest = rest << 2 | bits >> 30 & 3;
    bits <<= 2;
    r <<= 1;
    if (rest > 2 * r) {
      rest -= 2 * r + 1;
      r += 1;
    }
  }
  s[0] = r + (rest > r);
}

int main(int argc, char **argv) {
  op_set pairs = op_decl_set(n, "pairs");
  op_dat a = op_decl_dat(pairs, 1, "int", a0, "a");
  op_dat b = op_decl_dat(pairs, 1, "int", b0, "b");
  op_dat p = op_decl_dat(pairs, 1, "int", none, "p");
  op_dat q = op_decl_dat(pairs, 1, "int", none, "q");
  op_dat m = op_decl_dat(pairs, 1, "int", none, "m");
  op_dat s = op_decl_dat(pairs, 1, "int", none, "s");
  op_par_loop(product, "product", pairs, op_arg_dat(a, -1, OP_ID, 1, "int", OP_READ), op_arg_dat(b, -1, OP_ID, 1, "int", OP_READ),
    op_arg_dat(p, -1, OP_ID, 1, "int", OP_WRITE));
  op_par_loop(quotient, "quotient", pairs, op_arg_dat(a, -1, OP_ID, 1, "int", OP_READ), op_arg_dat(b, -1, OP_ID, 1, "int", OP_READ),
    op_arg_dat(q, -1, OP_ID, 1, "int", OP_WRITE));
  op_par_loop(nearest, "nearest", pairs, op_arg_dat(a, -1, OP_ID, 1, "int", OP_READ), op_arg_dat(b, -1, OP_ID, 1, "int", OP_READ),
    op_arg_dat(m, -1, OP_ID, 1, "int", OP_WRITE));
  op_par_loop(root, "root", pairs, op_arg_dat(a, -1, OP_ID, 1, "int", OP_READ), op_arg_dat(s, -1, OP_ID, 1, "int", OP_WRITE));
  op_print_dat_to_txtfile(p, "products");
  op_print_dat_to_txtfile(q, "quotients");
  op_print_dat_to_txtfile(m, "nearest");
  op_print_dat_to_txtfile(s, "roots");
  op_exit();
}
