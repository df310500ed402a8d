const int half = 4;
int rows[3], rest;

void scale(const int *a, int *b) {
  int x = a[0] / half, y[4];
  for (int i = 0; i < 4; i++) y[i] = x * i;
  *b = y[3] + rows[2];
}

int main(int argc, char **argv) {
  op_decl_const(3, "int", rows);
  rest = half;
  op_exit();
}
