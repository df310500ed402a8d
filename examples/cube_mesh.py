"""Writes the mesh of `cube.c` as Gmsh has it: a cube of side 1.5, cut into N times N times N cubes of 6 tetrahedra, with the physical groups 1 for the floor, 2 for
the lid and 10 for the inside. Elements in no group are left out, as Gmsh leaves them out. Nodes have the tags 101, 102 ..

Usage: cube_mesh.py 4.1 [N] >cube.msh; cube_mesh.py 2.2 [N] >cube22.msh     (2 where N is missing)"""
import sys

N, SIDE = int(sys.argv[2]) if len(sys.argv) > 2 else 2, 1.5
spots = [(i, j, k) for k in range(N + 1) for j in range(N + 1) for i in range(N + 1)]
tag = {spot: 101 + at for at, spot in enumerate(spots)}
points = [" ".join(f"{SIDE * v / N:.16g}" for v in spot) for spot in spots]
CORNERS = [(0, 0, 0), (1, 0, 0), (1, 1, 0), (0, 1, 0), (0, 0, 1), (1, 0, 1), (1, 1, 1), (0, 1, 1)]
CELLS = [(0, 1, 2, 6), (0, 2, 3, 6), (0, 3, 7, 6), (0, 7, 4, 6), (0, 4, 5, 6), (0, 5, 1, 6)]
cells = []
for i, j, k in ((i, j, k) for k in range(N) for j in range(N) for i in range(N)):
    corner = [tag[i + a, j + b, k + c] for a, b, c in CORNERS]
    cells += [[corner[at] for at in cell] for cell in CELLS]


def triangles(k):
    """The triangles of the floor or the lid: each square is cut from its lower left to its upper right."""
    found = []
    for i, j in ((i, j) for j in range(N) for i in range(N)):
        a, b, c, d = (tag[i + x, j + y, k] for x, y in ((0, 0), (1, 0), (1, 1), (0, 1)))
        found += [[a, b, c], [a, c, d]]
    return found


def rows(elements, head, first):
    return [f"{first + at}{head} " + " ".join(map(str, nodes)) for at, nodes in enumerate(elements)]


floor, lid = triangles(0), triangles(N)
version = sys.argv[1]
print(f"$MeshFormat\n{version} 0 8\n$EndMeshFormat")
print('$PhysicalNames\n3\n2 1 "floor"\n2 2 "lid"\n3 10 "inside"\n$EndPhysicalNames')
if version == "2.2":
    print("$Nodes", len(spots), *(f"{tag[spot]} {point}" for spot, point in zip(spots, points)), "$EndNodes", sep="\n")
    lines = rows(floor, " 2 2 1 1", 1) + rows(lid, " 2 2 2 2", 1 + len(floor)) + rows(cells, " 4 2 10 1", 1 + len(floor) + len(lid))
    print("$Elements", len(lines), *lines, "$EndElements", sep="\n")
else:
    box = f"0 0 0 {SIDE} {SIDE}"
    print("$Entities", "0 0 2 1", f"1 {box} 0 1 1 0", f"2 0 0 {SIDE} {SIDE} {SIDE} {SIDE} 1 2 0", f"1 {box} {SIDE} 1 10 2 1 2", "$EndEntities", sep="\n")
    print("$Nodes", f"1 {len(spots)} 101 {100 + len(spots)}", f"3 1 0 {len(spots)}", *(tag[spot] for spot in spots), *points, "$EndNodes", sep="\n")
    count = len(floor) + len(lid) + len(cells)
    print("$Elements", f"3 {count} 1 {count}", sep="\n")
    print(f"2 1 2 {len(floor)}", *rows(floor, "", 1), sep="\n")
    print(f"2 2 2 {len(lid)}", *rows(lid, "", 1 + len(floor)), sep="\n")
    print(f"3 1 4 {len(cells)}", *rows(cells, "", 1 + len(floor) + len(lid)), "$EndElements", sep="\n")
