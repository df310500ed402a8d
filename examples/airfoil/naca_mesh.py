"""Writes a mesh around a NACA 0012 profile: rings of quadrilaterals between the profile and a circle, coordinates in units of 1/65536.

Usage: naca_mesh.py [ITERATIONS] >naca.mesh     (how many iterations naca.c makes; 10 where none are given)"""
import math
import sys

AROUND, RINGS = 48, 16      # cells around the profile, and from it to the circle
CHORD, RADIUS = 16.0, 6.0   # the profile's length, and the circle's radius in lengths
GROWTH = 1.25               # of the rings' heights
ONE = 65536


def thickness(x):
    """Half of the profile's thickness, closed at its end (Jacobs, Ward and Pinkerton 1933, with 0.1036 in place of 0.1015)."""
    return 0.6 * (0.2969 * math.sqrt(x) - 0.1260 * x - 0.3516 * x**2 + 0.2843 * x**3 - 0.1036 * x**4)


def point(i, j):
    """The node at a corner: i counts around the profile from its end over its upper side, j from the profile outwards."""
    angle = 2 * math.pi * i / AROUND
    along = (1 + math.cos(angle)) / 2
    inner = along, math.copysign(thickness(along), math.sin(angle))
    outer = 0.5 + RADIUS * math.cos(angle), RADIUS * math.sin(angle)
    out = (GROWTH**j - 1) / (GROWTH**RINGS - 1)
    return [round(ONE * CHORD * (a + out * (b - a))) for a, b in zip(inner, outer)]


def node(i, j):
    return j * AROUND + i % AROUND


def cell(i, j):
    return j * AROUND + i % AROUND


cells = [(node(i, j), node(i, j + 1), node(i + 1, j + 1), node(i + 1, j)) for j in range(RINGS) for i in range(AROUND)]
# An edge's nodes, and the cells to whose sides it lies: the first cell lies to its left, seen from the second node to the first.
edges = [((node(i, j), node(i, j + 1)), (cell(i - 1, j), cell(i, j))) for j in range(RINGS) for i in range(AROUND)]
edges += [((node(i + 1, j), node(i, j)), (cell(i, j - 1), cell(i, j))) for j in range(1, RINGS) for i in range(AROUND)]
# 1 at the profile, 2 at the circle.
rim = [((node(i, 0), node(i + 1, 0)), cell(i, 0), 1) for i in range(AROUND)]
rim += [((node(i + 1, RINGS), node(i, RINGS)), cell(i, RINGS - 1), 2) for i in range(AROUND)]


def ints(name, values):
    values = list(values)
    print(f"ints {name} {len(values)}")
    for first in range(0, len(values), 16):
        print(*values[first:first + 16])


print("op2mesh 2")
sizes = {"nnode": AROUND * (RINGS + 1), "ncell": len(cells), "nedge": len(edges), "nbedge": len(rim)}
for name, size in {**sizes, "niter": sys.argv[1] if len(sys.argv) > 1 else 10}.items():
    print("int", name, size)
ints("cell", (n for it in cells for n in it))
ints("edge", (n for it, _ in edges for n in it))
ints("ecell", (n for _, it in edges for n in it))
ints("bedge", (n for it, _, _ in rim for n in it))
ints("becell", (it for _, it, _ in rim))
ints("bound0", (it for _, _, it in rim))
ints("x0", (v for j in range(RINGS + 1) for i in range(AROUND) for v in point(i, j)))
for name, count in ("none4", 4 * len(cells)), ("none", len(cells)):
    print(f"ints {name} {count}\n{count}*0")
print("done")
