#!/usr/bin/env python3
"""Holds the pictures of `op2-tools draw` and the texts of `op2-tools vtk` against the mesh and the plan of `op2 plan`: reads them by an XML
parser and by a reader of VTK's legacy form of its own, and compares each polygon's and each cell's nodes, places and number, and each array
with what the run printed. Calls both on names, ranks and loops that are refused, on every front of a small mesh file and of an output, and on
copies of the output with one byte changed. Ends with the number of differences.
Usage: tests/pictures.py [OP2 [TOOLS]]     (programs; else what OP2 and OP2_TOOLS name, else those of the repository)
"""
import pathlib, re, subprocess, sys, tempfile
import xml.etree.ElementTree as xml
from programs import programs, top

op2, tools = programs(*sys.argv[1:])
SVG = "{http://www.w3.org/2000/svg}"
differences = 0

SPACE = """extern int nnode; extern int ncell; extern int cell[]; extern int x0[]; extern int q0[]; extern int p0[];
void tell(const int *x, int *q) { q[0] += x[2]; }
int main(int argc, char **argv) {
  op_set nodes = op_decl_set(nnode, "nodes");
  op_set cells = op_decl_set(ncell, "cells");
  op_map tets = op_decl_map(cells, nodes, 4, cell, "tets");
  op_dat x = op_decl_dat(nodes, 3, "int", x0, "x");
  op_dat q = op_decl_dat(cells, 1, "int", q0, "q");
  op_dat p = op_decl_dat(nodes, 2, "int", p0, "p");
  op_par_loop(tell, "tell", cells, op_arg_dat(x, 0, tets, 3, "int", OP_READ), op_arg_dat(q, -1, OP_ID, 1, "int", OP_INC));
  op_print_dat_to_txtfile(q, "q");
  op_print_dat_to_txtfile(p, "p");
  op_exit();
}
"""
SPACE_MESH = """op2mesh 1
int nnode 6
int ncell 3
ints cell 12
0 1 2 3 1 2 3 4 2 3 4 5
ints x0 18
0 0 0 4 0 0 0 4 0 0 0 4 4 4 4 -3 5 9
ints q0 3
7 8 9
ints p0 12
1 2 3 4 5 6 7 8 9 10 11 -12
done
"""


def grid_mesh(n):
    """A mesh for examples/sample2.c: n times n cells."""
    node = lambda x, y: y * (n + 1) + x
    cells = [(x, y) for y in range(n) for x in range(n)]
    inner = [(y * n + x, y * n + x + 1) for x, y in cells if x + 1 < n] + [(y * n + x, y * n + x + n) for x, y in cells if y + 1 < n]
    walls = [x for x in range(n)] + [(n - 1) * n + x for x in range(n)] + [y * n for y in range(n)] + [y * n + n - 1 for y in range(n)]
    arrays = {
        "cell": [k for x, y in cells for k in (node(x, y), node(x + 1, y), node(x + 1, y + 1), node(x, y + 1))],
        "ecell": [k for edge in inner for k in edge], "bcell": walls, "wall0": [1] * len(walls),
        "x0": [k for y in range(n + 1) for x in range(n + 1) for k in (3 * x - 7, 2 * y + x)],
        "q0": list(range(n * n)), "zero": [0] * (n * n),
    }
    sizes = {"nnode": (n + 1) ** 2, "ncell": n * n, "nedge": len(inner), "nbedge": len(walls)}
    lines = ["op2mesh 1"] + [f"int {name} {size}" for name, size in sizes.items()]
    for name, values in arrays.items():
        lines += [f"ints {name} {len(values)}", " ".join(map(str, values))]
    return "\n".join(lines + ["done", ""])


def called(program, *words):
    done = subprocess.run([program, *map(str, words)], capture_output=True, timeout=300)
    return done.returncode, done.stdout.decode(), done.stderr.decode()


def text_of(program, *words):
    status, out, err = called(program, *words)
    if status:
        sys.exit(f"{program} {' '.join(map(str, words))}: {status} {err}")
    return out


def differs(name, found, wanted):
    global differences
    if found != wanted:
        differences += 1
        print(f"{name}: {str(found)[:200]} in place of {str(wanted)[:200]}")


def entries_of(text):
    """The entries of a mesh text by name: a number, or a list of numbers."""
    words, entries = iter(text.split()[2:]), {}
    for kind in words:
        if kind == "done":
            return entries
        name, count = next(words), int(next(words))
        if kind == "int":
            entries[name] = count
            continue
        values = []
        while len(values) < count:
            run, _, value = next(words).rpartition("*")
            values += [int(value)] * int(run or 1)
        entries[name] = values


def shown_by(plan, cells, way, number):
    """By cell the number that is to be shown, from the text of a plan."""
    halos, sites, block = {}, {}, 1
    for line in plan.splitlines():
        words = line.split()
        if words[0] == "ranks":
            block = int(words[3])
        if words[:2] == ["halo", cells]:
            execute, other = words.index("exec"), words.index("nonexec")
            halos[int(words[2])] = [list(map(int, part)) for part in (words[4:execute], words[execute + 1:other], words[other + 1:])]
        if words[0] == "site" and words[1] == str(number):
            sites[int(words[3])] = list(map(int, words[words.index("blocks") + 1:words.index("inner")]))
    count = sum(len(owned) for owned, _, _ in halos.values())
    if way == "owners":
        return [next(r for r, (owned, _, _) in halos.items() if x in owned) for x in range(count)]
    if way == "--halos":
        return [next((k for k, part in enumerate(halos[number]) if x in part), 3) for x in range(count)]
    owner = [next(r for r, (owned, _, _) in halos.items() if x in owned) for x in range(count)]
    return [sites[owner[x]][halos[owner[x]][0].index(x) // block] for x in range(count)]


def rows(values, dim):
    return [values[at:at + dim] for at in range(0, len(values), dim)]


def check_picture(name, text, nodes, cells, numbers, way):
    """Each polygon has its cell's nodes where they lie, and cells have one colour where they have one number."""
    root = xml.fromstring(text)
    differs(f"{name}: root", root.tag, SVG + "svg")
    inner = root.find(SVG + "svg")
    polygons = inner.findall(SVG + "polygon")
    differs(f"{name}: polygons", len(polygons), len(cells))
    low, high = min(x for x, _ in nodes), max(y for _, y in nodes)
    for k, polygon in enumerate(polygons):
        places = [tuple(map(int, place.split(","))) for place in polygon.get("points").split()]
        differs(f"{name}: polygon {k}", places, [(50 * (nodes[n][0] - low), 50 * (high - nodes[n][1])) for n in cells[k]])
    left, top, width, height = map(int, inner.get("viewBox").split())
    inside = all(left < x < left + width and top < y < top + height
                 for p in polygons for x, y in (map(int, place.split(",")) for place in p.get("points").split()))
    differs(f"{name}: places within the view", inside, True)
    fills = [polygon.get("fill") for polygon in polygons]
    pairs = set(zip(fills, numbers))
    differs(f"{name}: one colour for each number", (len({f for f, _ in pairs}), len({n for _, n in pairs})), (len(pairs), len(pairs)))
    squares = [rect.get("fill") for rect in root.findall(SVG + "rect")]
    labels = [label.text for label in root.findall(SVG + "text")]
    legend = dict(zip(labels, squares))
    words = ["owned", "import execute", "import non-execute", "other"]
    for fill, number in pairs:
        label = f"rank {number}" if way == "owners" else words[number] if way == "--halos" else f"colour {number}"
        differs(f"{name}: the legend's {label}", legend.get(label), fill)


def read_vtk(text):
    """What a text of VTK's legacy form says: places of nodes, cells, their types, and arrays on cells and on nodes."""
    lines = text.split("\n")
    assert lines[0] == "# vtk DataFile Version 3.0" and len(lines[1]) <= 256 and lines[2] == "ASCII" and lines[-1] == "", lines[:3]
    assert lines[3] == "DATASET UNSTRUCTURED_GRID", lines[3]
    words = iter("\n".join(lines[4:]).split())
    grid = {"CELL_DATA": {}, "POINT_DATA": {}}
    for word in words:
        if word == "POINTS":
            count, kind = int(next(words)), next(words)
            grid["points"] = [[float(next(words)) for _ in range(3)] for _ in range(count)]
            assert kind == "double", kind
        elif word == "CELLS":
            count, size = int(next(words)), int(next(words))
            grid["cells"] = [[int(next(words)) for _ in range(int(next(words)))] for _ in range(count)]
            assert size == sum(1 + len(cell) for cell in grid["cells"]), size
        elif word == "CELL_TYPES":
            grid["types"] = [int(next(words)) for _ in range(int(next(words)))]
        elif word in ("CELL_DATA", "POINT_DATA"):
            count = int(next(words))
            assert count == len(grid["cells" if word == "CELL_DATA" else "points"]), count
            assert next(words) == "FIELD"
            next(words)
            for _ in range(int(next(words))):
                name, dim, size, kind = next(words), int(next(words)), int(next(words)), next(words)
                assert size == count and kind == "int", (name, size, kind)
                grid[word][name] = [[int(next(words)) for _ in range(dim)] for _ in range(size)]
        else:
            raise ValueError(word)
    return grid


def check_grid(name, text, nodes, cells, kind, numbers, way):
    grid = read_vtk(text)
    differs(f"{name}: nodes", grid["points"], [[*map(float, node), 0.0][:3] for node in nodes])
    differs(f"{name}: cells", grid["cells"], cells)
    differs(f"{name}: types", grid["types"], [kind] * len(cells))
    array = {"owners": "op2-owner", "--halos": "op2-halo", "--colours": "op2-colour"}[way]
    differs(f"{name}: {array}", grid["CELL_DATA"].get(array), [[number] for number in numbers])
    return grid


def check_mesh(source, mesh, names, kind, site):
    """All ways of one program over one mesh; `names` are the dat, its entry and dim, the map, its entry and dim, and the cells' set."""
    dat, places, dim, cell_map, targets, size, cell_set = names
    entries = entries_of(pathlib.Path(mesh).read_text())
    nodes, cells = rows(entries[places], dim), rows(entries[targets], size)
    asked = ("--coords", dat, "--cells", cell_map)
    for options in ((), ("--ranks", 3), ("--ranks", 4, "--parts", f"grow:{cell_map}", "--renumber", cell_map, "--block", 2)):
        plan = text_of(op2, "plan", source, mesh, *options)
        for way, number in (("owners", 0), ("--halos", 0), ("--colours", site)):
            words = () if way == "owners" else (way, number)
            numbers = shown_by(plan, cell_set, way, number)
            name = f"{pathlib.Path(source).name} {' '.join(map(str, options + words))}"
            if dim == 2:
                check_picture(name, text_of(tools, "draw", source, mesh, *options, *asked, *words), nodes, cells, numbers, way)
            check_grid(name, text_of(tools, "vtk", source, mesh, *options, *asked, *words), nodes, cells, kind, numbers, way)


def printed(output):
    """By dat the rows of its last print, of an output of which no other line looks like the first line of a dat."""
    lines, dats = iter(output.splitlines()), {}
    for line in lines:
        first = re.fullmatch(r"\S+: (\w+) \w+ (\d+) (\d+)", line)
        if first:
            dats[first[1]] = [list(map(int, next(lines).split())) for _ in range(int(first[2]))]
            assert all(len(row) == int(first[3]) for row in dats[first[1]]), line
    return dats


def check_output(name, words, output, on_cells, on_nodes):
    """Each printed dat on the cells or the nodes is an array, with the rows of its last print."""
    grid, dats = read_vtk(text_of(tools, "vtk", *words, "--output", output)), printed(output.read_text())
    for place, sets in (("CELL_DATA", on_cells), ("POINT_DATA", on_nodes)):
        found = {dat: rows for dat, rows in grid[place].items() if not dat.startswith("op2-")}
        differs(f"{name}: arrays of {place}", found, {dat: rows for dat, rows in dats.items() if dat in sets})


def check_damaged(name, words, changed, wanted):
    """A call on a damaged file is refused by one line and writes nothing, or writes a whole text."""
    status, out, err = called(tools, *words)
    if status:
        fits = out == "" and err.count("\n") == 1 and err.endswith("\n") and (wanted is None or err.startswith(wanted))
        differs(f"{name}: {changed}: refusal {status} {err!r}", fits, True)
        return
    differs(f"{name}: {changed}: line", err, "")
    read_vtk(out) if words[0] == "vtk" else xml.fromstring(out)


def check_refusals(source, mesh):
    """The refusals of names, sets, dims, ranks and loops of examples/sample2.c, in their order."""
    rows = (
        ("none", "pcell", (), "1 name none"), ("none", "none", (), "1 name none"), ("x", "none", (), "2 name none"),
        ("q", "pcell", (), "3 name pcell"), ("q", "pedge", (), "4 name pedge"), ("x", "pcell", ("--halos", 1), "6 rank 1"),
        ("x", "pcell", ("--halos", 4294967295), "6 rank 4294967295"), ("x", "pcell", ("--colours", 2), "8 loop 2"),
        ("x", "pcell", ("--colours", 99), "7 loop 99"), ("none", "none", ("--halos", 64), "1 name none"),
    )
    for job in ("draw", "vtk"):
        for dat, cell_map, options, said in rows:
            found = called(tools, job, source, mesh, "--coords", dat, "--cells", cell_map, *options)
            differs(f"{job} {dat} {cell_map} {options}", found, (20, "", f"op2-tools: {job} {said}\n"))


def check_words(source, mesh):
    """Words that are those of no job."""
    both, asked = (source, mesh), ("--coords", "x", "--cells", "pcell")
    for words in (("draw", *both), ("draw", *both, "--coords", "x"), ("draw", *both, "--cells", "pcell"), ("vtk", source, *asked),
                  ("draw", *both, *asked, "--halos", 0, "--colours", 0), ("draw", *both, *asked, "--halos", 4294967296), ("draw", *both, *asked, "more"),
                  ("vtk", *both, *asked, "--halos", "x"), ("draw", *both, *asked, "--output", "o"), ("owners", *both, *asked), ("graph", *both, "pcell", *asked),
                  ("vtk", *both, *asked, "--plain"), ("vtk", *both, *asked, "--schedule", "s"), ("vtk", *both, *asked, "--ranks", 65)):
        differs(" ".join(map(str, words)), called(tools, *words), (2, "", "op2-tools: usage\n"))


with tempfile.TemporaryDirectory() as folder:
    space, space_mesh = pathlib.Path(folder, "space.c"), pathlib.Path(folder, "space.mesh")
    space.write_text(SPACE)
    space_mesh.write_text(SPACE_MESH)
    check_mesh(space, space_mesh, ("x", "x0", 3, "tets", "cell", 4, "cells"), 10, 0)
    sample = top / "examples/sample2.c"
    names = ("x", "x0", 2, "pcell", "cell", 4, "cells")
    check_mesh(sample, top / "examples/sample2.mesh", names, 9, 0)
    grid = pathlib.Path(folder, "grid.mesh")
    grid.write_text(grid_mesh(12))
    check_mesh(sample, grid, names, 9, 0)
    check_refusals(sample, top / "examples/sample2.mesh")
    check_words(sample, top / "examples/sample2.mesh")
    differs("draw of space", called(tools, "draw", space, space_mesh, "--coords", "x", "--cells", "tets"), (20, "", "op2-tools: draw 5 name x\n"))
    out = pathlib.Path(folder, "space.out")
    out.write_text(text_of(op2, "run", space, space_mesh))
    asked = (space, space_mesh, "--coords", "x", "--cells", "tets")
    check_output("space", asked, out, {"q"}, {"x", "p"})
    air = top / "examples/airfoil"
    check_output("airfoil", (air / "step5.c", air / "airfoil.mesh", "--coords", "x", "--cells", "pcell"), air / "step5.out", {"q"}, set())
    text, cut = out.read_bytes(), pathlib.Path(folder, "cut")
    for k in range(len(text)):
        cut.write_bytes(text[:k])
        check_damaged("vtk --output", ("vtk", *asked, "--output", cut), f"{k} bytes", "op2-tools: vtk 1")
        cut.write_bytes(text[:k] + bytes([text[k] ^ 1]) + text[k + 1:])
        check_damaged("vtk --output", ("vtk", *asked, "--output", cut), f"byte {k}", "op2-tools: vtk 1")
        cut.write_bytes(text[:k] + b"q: q cells 3 1\n" + text[k:])
        check_damaged("vtk --output", ("vtk", *asked, "--output", cut), f"a first line at {k}", "op2-tools: vtk 1")
    text = SPACE_MESH.encode()
    for k in range(len(text)):
        cut.write_bytes(text[:k])
        check_damaged("vtk", ("vtk", space, cut, *asked[2:]), f"{k} bytes of the mesh", "op2: ")
print(f"{differences} differences")
sys.exit(min(differences, 255))
