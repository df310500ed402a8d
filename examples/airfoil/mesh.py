"""Writes the mesh of a channel with a bump on its lower wall: 24 times 8 quadrilaterals, coordinates in units of 1/1024 of a cell's width.

Usage: mesh.py >airfoil.mesh"""
import math

NX, NY, ONE = 24, 8, 1024
node = lambda i, j: j * (NX + 1) + i
cell = lambda i, j: j * NX + i
floor = lambda i: math.sin(math.pi * (i - 8) / 8) ** 2 if 8 <= i <= 16 else 0.0
height = lambda i, j: floor(i) + (NY - floor(i)) * j / NY

cells = [(node(i, j), node(i + 1, j), node(i + 1, j + 1), node(i, j + 1)) for j in range(NY) for i in range(NX)]
# An edge's nodes, and the cells to whose sides it lies: the first cell lies to its left, seen from the second node to the first.
edges = [((node(i, j + 1), node(i, j)), (cell(i - 1, j), cell(i, j))) for j in range(NY) for i in range(1, NX)]
edges += [((node(i, j), node(i + 1, j)), (cell(i, j - 1), cell(i, j))) for j in range(1, NY) for i in range(NX)]
# 1 at a wall, 2 where the flow comes in or goes out.
rim = [((node(i + 1, 0), node(i, 0)), cell(i, 0), 1) for i in range(NX)]
rim += [((node(i, NY), node(i + 1, NY)), cell(i, NY - 1), 2) for i in range(NX)]
rim += [((node(0, j), node(0, j + 1)), cell(0, j), 2) for j in range(NY)]
rim += [((node(NX, j + 1), node(NX, j)), cell(NX - 1, j), 2) for j in range(NY)]


def ints(name, values):
    values = list(values)
    print(f"ints {name} {len(values)}")
    for first in range(0, len(values), 16):
        print(*values[first:first + 16])


print("op2mesh 1")
for name, size in (("nnode", (NX + 1) * (NY + 1)), ("ncell", len(cells)), ("nedge", len(edges)), ("nbedge", len(rim))):
    print("int", name, size)
ints("cell", (n for it in cells for n in it))
ints("edge", (n for it, _ in edges for n in it))
ints("ecell", (n for _, it in edges for n in it))
ints("bedge", (n for it, _, _ in rim for n in it))
ints("becell", (it for _, it, _ in rim))
ints("bound0", (it for _, _, it in rim))
ints("x0", (v for j in range(NY + 1) for i in range(NX + 1) for v in (ONE * i, round(ONE * height(i, j)))))
# Density, momentum in both directions and energy of the free stream, at 0.4 times the speed of sound.
ints("q0", (round(ONE * v) for _ in cells for v in (1.0, 0.4 * math.sqrt(1.4), 0.0, 2.5 + 0.5 * 0.16 * 1.4)))
ints("none4", (0 for _ in range(4 * len(cells))))
ints("none", (0 for _ in cells))
print("done")
