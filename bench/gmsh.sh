#!/bin/sh
# Times `op2-tools from-gmsh` on cubes of tetrahedra, in versions 2.2 and 4.1 of Gmsh's format, for the mesh text and for a program that is judged over it. Prints seconds of the
# processor, peak memory, and memory for each cell.
# Usage: bench/gmsh.sh [CELLS ..]     (250000 1000000 where none is given; TOOLS may name another program)
here=$(CDPATH= cd -- "$(dirname -- "$0")/.." && pwd) || exit 1
tools=${TOOLS:-$here/op2-tools}
work=$(mktemp -d) || exit 1
trap 'rm -rf "$work"' EXIT
[ $# -gt 0 ] || set -- 250000 1000000
cat >"$work/cube.py" <<'P'
import sys
name, version, n = sys.argv[1], sys.argv[2], round((int(sys.argv[3]) / 6) ** (1 / 3))
m = n + 1
points = [f"{i / n:.16g} {j / n:.16g} {k / n:.16g}" for k in range(m) for j in range(m) for i in range(m)]
corners = [0, 1, m + 1, m, m * m, m * m + 1, m * m + m + 1, m * m + m]
shapes = [[corners[at] for at in cell] for cell in ((0, 1, 2, 6), (0, 2, 3, 6), (0, 3, 7, 6), (0, 7, 4, 6), (0, 4, 5, 6), (0, 5, 1, 6))]
lows = [k * m * m + j * m + i + 1 for k in range(n) for j in range(n) for i in range(n)]
cells = [" ".join(str(low + at) for at in shape) for low in lows for shape in shapes]
floor = [f"{low} {low + at} {low + m + 1}" if at == 1 else f"{low} {low + m + 1} {low + m}" for low in lows[:n * n] for at in (1, m)]
with open(name, "w") as f:
    f.write(f"$MeshFormat\n{version} 0 8\n$EndMeshFormat\n")
    if version == "2.2":
        f.write(f"$Nodes\n{len(points)}\n" + "\n".join(f"{at + 1} {point}" for at, point in enumerate(points)) + "\n$EndNodes\n")
        rows = [f"2 2 1 1 {nodes}" for nodes in floor] + [f"4 2 2 1 {nodes}" for nodes in cells]
        f.write(f"$Elements\n{len(rows)}\n" + "\n".join(f"{at + 1} {row}" for at, row in enumerate(rows)) + "\n$EndElements\n")
    else:
        f.write("$Entities\n0 0 1 1\n1 0 0 0 1 1 0 1 1 0\n1 0 0 0 1 1 1 1 2 0\n$EndEntities\n")
        f.write(f"$Nodes\n1 {len(points)} 1 {len(points)}\n3 1 0 {len(points)}\n" + "\n".join(str(at + 1) for at in range(len(points))) + "\n")
        f.write("\n".join(points) + f"\n$EndNodes\n$Elements\n2 {len(floor) + len(cells)} 1 {len(floor) + len(cells)}\n2 1 2 {len(floor)}\n")
        f.write("".join(f"{at + 1} {nodes}\n" for at, nodes in enumerate(floor)) + f"3 1 4 {len(cells)}\n")
        f.write("".join(f"{at + 1 + len(floor)} {nodes}\n" for at, nodes in enumerate(cells)) + "$EndElements\n")
print(len(cells))
P
for version in 2.2 4.1; do
    for asked in "$@"; do
        cells=$(python3 "$work/cube.py" "$work/cube.msh" "$version" "$asked") || exit 1
        for source in '' --source; do
            # shellcheck disable=SC2086
            /usr/bin/time -f '%U %S %M' -o "$work/spent" "$tools" from-gmsh "$work/cube.msh" --scale 1000 $source >/dev/null || exit 1
            awk -v what="version $version, $cells tetrahedra $source" -v cells="$cells" \
                '{ printf "%-43s %6.2f seconds, %5.0f MiB, %4.0f bytes a cell\n", what, $1 + $2, $3 / 1024, $3 * 1024 / cells }' "$work/spent"
        done
    done
done
