#!/usr/bin/env python3
"""Writes the mesh text of jac.c on a grid of (n - 1) times (n - 1) nodes, n = 4 where no word says more: what main of OP2's jac1 fills its arrays with."""
import sys

n = int(sys.argv[1]) if len(sys.argv) > 1 else 4
one = 1024


def number(i, j):
    return i - 1 + (j - 1) * (n - 1)


pp, A, r = [], [], [0.0] * (n - 1) ** 2
for i in range(1, n):
    for j in range(1, n):
        pp += [number(i, j), number(i, j)]
        A.append(-1.0)
        for i2, j2 in (i - 1, j), (i + 1, j), (i, j - 1), (i, j + 1):
            if i2 in (0, n) or j2 in (0, n):
                r[number(i, j)] += 0.25
            else:
                pp += [number(i, j), number(i2, j2)]
                A.append(0.25)


def ints(name, values):
    print("ints", name, len(values))
    print(*values)


print("op2mesh 2")
print("int nnode", len(r))
print("int nedge", len(A))
ints("pp", pp)
ints("A0", [round(one * x) for x in A])
ints("r0", [round(one * x) for x in r])
print("ints zero", len(r), f"{len(r)}*0")
print("done")
