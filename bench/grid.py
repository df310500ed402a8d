# Writes meshes of a grid of N times N cells into a folder: residual.mesh, the cells as nodes with the edges between them, and airfoil.mesh, with
# nodes, cells, edges and boundary edges, as examples/sample2.c reads it.
# Usage: grid.py FOLDER N
import sys
work, n = sys.argv[1], int(sys.argv[2])

def write(name, entries):
    with open(name, "w") as f:
        f.write("op2mesh 1\n")
        for key, value in entries:
            if isinstance(value, int):
                f.write(f"int {key} {value}\n")
            else:
                f.write(f"ints {key} {len(value)}\n" + (" ".join(map(str, value)) + "\n" if value else ""))
        f.write("done\n")

node = lambda i, j: j * (n + 1) + i
cell = lambda i, j: j * n + i
cells = [(i, j) for j in range(n) for i in range(n)]
across = [(cell(i, j), cell(i + 1, j)) for j in range(n) for i in range(n - 1)]
up = [(cell(i, j), cell(i, j + 1)) for j in range(n - 1) for i in range(n)]
edges = [c for e in across + up for c in e]
rim = [cell(i, 0) for i in range(n)] + [cell(i, n - 1) for i in range(n)] + [cell(0, j) for j in range(n)] + [cell(n - 1, j) for j in range(n)]
write(work + "/residual.mesh", [("nnode", n * n), ("nedge", len(edges) // 2), ("edge", edges), ("x0", [i % 1000 for i in range(n * n)]), ("r0", [0] * (n * n))])
write(work + "/airfoil.mesh", [
    ("nnode", (n + 1) ** 2), ("ncell", n * n), ("nedge", len(edges) // 2), ("nbedge", 4 * n),
    ("cell", [v for i, j in cells for v in (node(i, j), node(i + 1, j), node(i + 1, j + 1), node(i, j + 1))]),
    ("ecell", edges), ("bcell", rim), ("wall0", [1] * n + [-1] * n + [0] * (2 * n)),
    ("x0", [v for j in range(n + 1) for i in range(n + 1) for v in (i, j)]), ("q0", [i + j for i, j in cells]), ("zero", [0] * (n * n))])
