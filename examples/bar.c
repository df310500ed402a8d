// Heat along a bar of tetrahedra, whose ends are held at 1000 degrees and at none; the sides let nothing through. Temperatures are in thousandths.
extern int nnode;
extern int ncell;
extern int nface;
extern int nbface;
extern int x[];
extern int cell[];
extern int fcell[];
extern int bcell[];
extern int btag[];
extern int cold[];
const int hot = 1000000;

// What flows through a face between two cells.
void conduct(const int *ta, const int *tb, int *qa, int *qb) {
  int q = *tb - *ta;
  *qa += q;
  *qb -= q;
}
// What flows through a face of the boundary: the physical group 1 is the hot end, 2 the cold one.
void hold(const int *tag, const int *t, int *q) {
  if (*tag == 1) *q += hot - *t;
  if (*tag == 2) *q -= *t;
}
// The temperature a step later, and the largest change.
void warm(int *t, int *q, int *most) {
  int change = *q / 8;
  *most = MAX(*most, ABS(change));
  *t += change;
  *q = 0;
}
int main(int argc, char **argv) {
  op_init(argc, argv, 2);
  op_set nodes = op_decl_set(nnode, "nodes");
  op_set cells = op_decl_set(ncell, "cells");
  op_set faces = op_decl_set(nface, "faces");
  op_set bfaces = op_decl_set(nbface, "bfaces");
  op_map pcell = op_decl_map(cells, nodes, 4, cell, "pcell");
  op_map pf = op_decl_map(faces, cells, 2, fcell, "pf");
  op_map pb = op_decl_map(bfaces, cells, 1, bcell, "pb");
  op_dat coords = op_decl_dat(nodes, 3, "int", x, "coords");
  op_dat group = op_decl_dat(bfaces, 1, "int", btag, "group");
  op_dat t = op_decl_dat(cells, 1, "int", cold, "t");
  op_dat q = op_decl_dat(cells, 1, "int", cold, "q");
  op_decl_const(1, "int", &hot);
  for (int step = 1; step < 401; step++) {
    op_par_loop(conduct, "conduct", faces, op_arg_dat(t, 0, pf, 1, "int", OP_READ), op_arg_dat(t, 1, pf, 1, "int", OP_READ),
      op_arg_dat(q, 0, pf, 1, "int", OP_INC), op_arg_dat(q, 1, pf, 1, "int", OP_INC));
    op_par_loop(hold, "hold", bfaces, op_arg_dat(group, -1, OP_ID, 1, "int", OP_READ), op_arg_dat(t, 0, pb, 1, "int", OP_READ),
      op_arg_dat(q, 0, pb, 1, "int", OP_INC));
    int most = 0;
    op_par_loop(warm, "warm", cells, op_arg_dat(t, -1, OP_ID, 1, "int", OP_RW), op_arg_dat(q, -1, OP_ID, 1, "int", OP_RW),
      op_arg_gbl(&most, 1, "int", OP_MAX));
    if (step % 100 == 0) op_printf("step %d changed by %d\n", step, most);
  }
  op_print_dat_to_txtfile(t, "t.txt");
  op_exit();
}
