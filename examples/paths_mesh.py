"""Writes the mesh of `paths.c`: a town of 6 times 6 crossings with a street between neighbours, whose lengths go from 1 to 9. The path begins at crossing 0.

Usage: paths_mesh.py >paths.mesh"""
N, FAR = 6, 1000000
streets = [(j * N + i, j * N + i + 1) for j in range(N) for i in range(N - 1)]
streets += [(j * N + i, j * N + i + N) for j in range(N - 1) for i in range(N)]
lengths = [(7 * a * a + 5 * b) % 9 + 1 for a, b in streets]
corner = lambda i, j: j * (N + 1) + i
blocks = [(corner(i, j), corner(i + 1, j), corner(i + 1, j + 1), corner(i, j + 1)) for j in range(N) for i in range(N)]
print("op2mesh 1")
print("int nnode", N * N)
print("int nedge", len(streets))
print("int ncorner", (N + 1) ** 2)
print("ints ends", 2 * len(streets))
for a, b in streets:
    print(a, b)
print("ints length0", len(lengths))
print(*lengths)
print("ints dist0", N * N)
print(*([0] + [FAR] * (N * N - 1)))
print("ints block", 4 * N * N)
for four in blocks:
    print(*four)
print("ints x0", 2 * (N + 1) ** 2)
print(*(v for j in range(N + 1) for i in range(N + 1) for v in (i, j)))
print("done")
