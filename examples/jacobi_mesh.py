"""Writes the mesh of `jacobi.c`: a plate of 12 times 8 squares with a hole of 4 times 4 in the middle. Nodes of the left and the right rim are held.

Usage: jacobi_mesh.py >jacobi.mesh"""
NX, NY, HOT = 12, 8, 1000000
squares = [(i, j) for j in range(NY) for i in range(NX) if not (4 <= i < 8 and 2 <= j < 6)]
corners = lambda i, j: [(i, j), (i + 1, j), (i + 1, j + 1), (i, j + 1)]
spots = sorted({spot for square in squares for spot in corners(*square)}, key=lambda spot: (spot[1], spot[0]))
number = {spot: at for at, spot in enumerate(spots)}
cells = [[number[spot] for spot in corners(*square)] for square in squares]
edges = sorted({tuple(sorted(pair)) for c in cells for pair in zip(c, c[1:] + c[:1])})


def ints(name, values):
    values = [v for value in values for v in (value if isinstance(value, (list, tuple)) else [value])]
    print(f"ints {name} {len(values)}")
    for at in range(0, len(values), 24):
        print(*values[at:at + 24])


print("op2mesh 2")
for name, size in (("nnode", len(spots)), ("nedge", len(edges)), ("ncell", len(cells))):
    print("int", name, size)
ints("edge", edges)
ints("cell", cells)
ints("x0", spots)
ints("held0", [int(i in (0, NX)) for i, _ in spots])
ints("first", [HOT if i == 0 else 0 for i, _ in spots])
print(f"ints zero {2 * len(spots)} {2 * len(spots)}*0")
print("done")
