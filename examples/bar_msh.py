#!/usr/bin/env python3
"""Writes the mesh of a bar in Gmsh's format MSH 4.1: N x 1 x 1 cubes, each of six tetrahedra; the physical surface 1 is the bar's left end, 2 its right end.

    bar_msh.py [N] >bar.msh        (6 where N is missing)"""
import sys

N = int(sys.argv[1]) if len(sys.argv) > 1 else 6


def node(i, j, k):
    """The tag of a corner, from 1."""
    return 1 + i + (N + 1) * (j + 2 * k)


# A cube is cut along its diagonal from (0, 0, 0) to (1, 1, 1): a tetrahedron for each way to go there along three edges, turned to positive volume.
WAYS = [((1, 0, 0), (1, 1, 0)), ((0, 1, 0), (1, 1, 0)), ((1, 0, 0), (1, 0, 1)), ((0, 0, 1), (1, 0, 1)), ((0, 1, 0), (0, 1, 1)), ((0, 0, 1), (0, 1, 1))]


def volume(a, b):
    """Six times the volume of the tetrahedron (0, 0, 0), a, b, (1, 1, 1)."""
    c = (1, 1, 1)
    return (a[0] * (b[1] * c[2] - b[2] * c[1]) - a[1] * (b[0] * c[2] - b[2] * c[0]) + a[2] * (b[0] * c[1] - b[1] * c[0]))


tets = []
for i in range(N):
    for a, b in WAYS:
        if volume(a, b) < 0:
            a, b = b, a
        tets.append([node(i + d[0], d[1], d[2]) for d in ((0, 0, 0), a, b, (1, 1, 1))])

# The ends, each two triangles, as the tetrahedra there have them.
ends = {1: 0, 2: N}
triangles = {tag: [] for tag in ends}
for tag, i in ends.items():
    corners = {node(i, j, k) for j in range(2) for k in range(2)}
    for tet in tets:
        side = [n for n in tet if n in corners]
        if len(side) == 3:
            triangles[tag].append(side)

nodes = [(i, j, k) for k in range(2) for j in range(2) for i in range(N + 1)]
put = print
put("$MeshFormat\n4.1 0 8\n$EndMeshFormat")
put('$PhysicalNames\n3\n2 1 "left"\n2 2 "right"\n3 3 "bar"\n$EndPhysicalNames')
put("$Entities\n0 0 2 1")
for tag, i in ends.items():
    put(f"{tag} {i / N} 0 0 {i / N} {1 / N} {1 / N} 1 {tag} 0")
put(f"1 0 0 0 1 {1 / N} {1 / N} 1 3 2 1 2\n$EndEntities")
put(f"$Nodes\n1 {len(nodes)} 1 {len(nodes)}\n3 1 0 {len(nodes)}")
for tag in range(1, len(nodes) + 1):
    put(tag)
for place in nodes:
    put(*(repr(c / N) if c else "0" for c in place))
put("$EndNodes")
count = len(tets) + sum(map(len, triangles.values()))
put(f"$Elements\n3 {count} 1 {count}")
tag = 0
for surface, sides in triangles.items():
    put(f"2 {surface} 2 {len(sides)}")
    for side in sides:
        tag += 1
        put(tag, *side)
put(f"3 1 4 {len(tets)}")
for tet in tets:
    tag += 1
    put(tag, *tet)
put("$EndElements")
