// A mesh of Gmsh, `cube.msh`: the volume of its cells, which is also the flux of (x, y, z) out of its boundary, and that by physical group.
extern int nnode;
extern int ncell;
extern int nbface;
extern int x[];
extern int cell[];
extern int bface[];
extern int btag[];
void volume(const int *a, const int *b, const int *c, const int *d, int *all) {
  int bx = b[0] - a[0], by = b[1] - a[1], bz = b[2] - a[2];
  int cx = c[0] - a[0], cy = c[1] - a[1], cz = c[2] - a[2];
  int dx = d[0] - a[0], dy = d[1] - a[1], dz = d[2] - a[2];
  *all += bx * (cy * dz - cz * dy) + by * (cz * dx - cx * dz) + bz * (cx * dy - cy * dx);
}
void flux(const int *tag, const int *a, const int *b, const int *c, int *bottom, int *lid, int *walls) {
  int out = a[0] * (b[1] * c[2] - b[2] * c[1]) + a[1] * (b[2] * c[0] - b[0] * c[2]) + a[2] * (b[0] * c[1] - b[1] * c[0]);
  *bottom += *tag == 1 ? out : 0;
  *lid += *tag == 2 ? out : 0;
  *walls += *tag == 0 ? out : 0;
}
int main(int argc, char **argv) {
  op_init(argc, argv, 1);
  op_set nodes = op_decl_set(nnode, "nodes");
  op_set cells = op_decl_set(ncell, "cells");
  op_set bfaces = op_decl_set(nbface, "bfaces");
  op_map pcell = op_decl_map(cells, nodes, 4, cell, "pcell");
  op_map pbface = op_decl_map(bfaces, nodes, 3, bface, "pbface");
  op_dat coords = op_decl_dat(nodes, 3, "int", x, "coords");
  op_dat tags = op_decl_dat(bfaces, 1, "int", btag, "tags");
  int all = 0, bottom = 0, lid = 0, walls = 0;
  op_par_loop(volume, "volume", cells,
      op_arg_dat(coords, 0, pcell, 3, "int", OP_READ),
      op_arg_dat(coords, 1, pcell, 3, "int", OP_READ),
      op_arg_dat(coords, 2, pcell, 3, "int", OP_READ),
      op_arg_dat(coords, 3, pcell, 3, "int", OP_READ),
      op_arg_gbl(&all, 1, "int", OP_INC));
  op_par_loop(flux, "flux", bfaces,
      op_arg_dat(tags, -1, OP_ID, 1, "int", OP_READ),
      op_arg_dat(coords, 0, pbface, 3, "int", OP_READ),
      op_arg_dat(coords, 1, pbface, 3, "int", OP_READ),
      op_arg_dat(coords, 2, pbface, 3, "int", OP_READ),
      op_arg_gbl(&bottom, 1, "int", OP_INC),
      op_arg_gbl(&lid, 1, "int", OP_INC),
      op_arg_gbl(&walls, 1, "int", OP_INC));
  op_printf("six times the volume: %d\n", all);
  op_printf("flux: floor %d lid %d walls %d\n", bottom, lid, walls);
  op_exit();
}
