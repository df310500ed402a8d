#!/usr/bin/env python3
"""Holds `op2-tools from-gmsh` against a second reading of its rules (docs/TOOLS.md): meshes of triangles, quadrangles, tetrahedra and hexahedra in versions
2.2 and 4.1 of Gmsh's format, texts that are refused, every prefix of a small file, and damaged copies. Each call must give the bytes that this script finds,
or its status and line. The source that `--source` writes is run over the mesh, and must print the sums that this script finds. With --million
a million tetrahedra are timed, and a mesh is tried that `op2` doesn't take. There are 1000 copies where no N is given.
Usage: tests/gmsh.py [OP2 [TOOLS]] [--copies N] [--seed N] [--million]     (programs; else what OP2 and OP2_TOOLS name, else those of the repository)
"""
import argparse, pathlib, random, re, subprocess, sys, tempfile, time
from fractions import Fraction
from programs import programs, top

CORNERS = {"triangle": [(0, 1), (1, 2), (2, 0)], "quadrangle": [(0, 1), (1, 2), (2, 3), (3, 0)],
           "tetrahedron": [(0, 2, 1), (0, 1, 3), (0, 3, 2), (3, 1, 2)],
           "hexahedron": [(0, 3, 2, 1), (0, 1, 5, 4), (0, 4, 7, 3), (1, 2, 6, 5), (2, 3, 7, 6), (4, 5, 6, 7)]}
NODES = {"point": 1, "line": 2, "triangle": 3, "quadrangle": 4, "tetrahedron": 4, "hexahedron": 8}
KINDS = {1: "line", 2: "triangle", 3: "quadrangle", 4: "tetrahedron", 5: "hexahedron", 15: "point"}
SIDES = {"triangle": "line", "quadrangle": "line", "tetrahedron": "triangle", "hexahedron": "quadrangle"}
VALUES, BYTES = 33554432, 268435456
EXAMPLES = top / "examples"


class Refused(Exception):
    def __init__(self, number, line=0, more=""):
        self.number, self.line, self.more = number, line, more

    def text(self):
        return f"op2-tools: from-gmsh {self.number}" + (f" line {self.line}" if self.line else "") + self.more + "\n"


def decimal_of(text):
    """The fraction that a decimal of C spells, or None."""
    m = re.fullmatch(rb"([-+]?)([0-9]*)(?:\.([0-9]*))?(?:[eE]([-+]?)([0-9]+))?", text)
    if not m or not (m[2] or m[3]):
        return None
    digits, down = int((m[2] + (m[3] or b"")) or b"0"), len(m[3] or b"")
    power = int(m[5] or b"0") * (-1 if m[4] == b"-" else 1) - down
    if digits and abs(power) > 5000:  # far outside, or nearly 0: as good as these
        power = 5000 if power > 0 else -5000
    value = Fraction(digits) * (Fraction(10) ** power if digits else 1)
    return -value if m[1] == b"-" else value


def nearest(value):
    """The integer nearest to a fraction, ties away from zero."""
    whole = (2 * abs(value.numerator) + value.denominator) // (2 * value.denominator)
    return -whole if value < 0 else whole


def fits(value, scale):
    return -2**31 <= nearest(value * scale) < 2**31


def largest(value):
    low, high = 0, 2**32 - 1
    while low < high:
        middle = low + (high - low + 1) // 2
        low, high = (middle, high) if fits(value, middle) else (low, middle - 1)
    return low


class Text:
    """The tokens of a text, read from the front."""

    def __init__(self, data):
        self.words, line = [], 1
        for part in re.findall(rb"\n|[^ \t\r\n]+", data):
            if part == b"\n":
                line += 1
            else:
                self.words.append((part, line))
        self.at, self.last = 0, 1

    def next(self):
        if self.at == len(self.words):
            raise Refused(4, self.last)
        word, self.last = self.words[self.at]
        self.at += 1
        return word

    def word(self, text, number=4):
        if self.next() != text:
            raise Refused(number, self.last)

    def number(self, end=2**32):
        word = self.next()
        if not re.fullmatch(rb"[0-9]+", word):
            raise Refused(4, self.last)
        if int(word) >= end:
            raise Refused(5, self.last)
        return int(word)

    def integer(self):
        word = self.next()
        if not re.fullmatch(rb"-?[0-9]+", word):
            raise Refused(4, self.last)
        if not -2**31 <= int(word) < 2**31:
            raise Refused(5, self.last)
        return int(word)

    def decimal(self):
        word = self.next()
        value = decimal_of(word)
        if value is None:
            raise Refused(4, self.last)
        return value, self.last

    def kind(self):
        word = self.next()
        if not re.fullmatch(rb"[0-9]+", word):
            raise Refused(4, self.last)
        if int(word) not in KINDS:
            raise Refused(6, self.last)
        return KINDS[int(word)]

    def section(self):
        while True:
            word = self.next()
            if word in (b"$Entities", b"$Nodes", b"$Elements"):
                return word


def group_of(tags):
    """None, a physical tag, or "several"."""
    group = None
    for tag in tags:
        group = "several" if group is not None else tag or None
    return group


def read_entity(t):
    tag = t.integer()
    for _ in range(6):
        t.decimal()
    group = group_of([t.integer() for _ in range(t.number())])
    for _ in range(t.number()):
        t.integer()
    return tag, group


def read_entities(t):
    counts = [t.number() for _ in range(4)]
    for _ in range(counts[0]):
        t.integer()
        for _ in range(3):
            t.decimal()
        for _ in range(t.number()):
            t.integer()
    kept = {1: {}, 2: {}}
    for dim in (1, 2):
        for _ in range(counts[dim]):
            tag, group = read_entity(t)
            if tag in kept[dim]:
                raise Refused(7, t.last)
            kept[dim][tag] = group
    for _ in range(counts[3]):
        read_entity(t)
    t.word(b"$EndEntities")
    return kept


def read_text(data):
    """The nodes, as (tag, line) and three decimals each, and the elements by type: the line, the group and the nodes' tags of each."""
    t = Text(data)
    t.word(b"$MeshFormat", 1)
    version = t.next()
    if version not in (b"2.2", b"4.1"):
        raise Refused(2, t.last)
    if (mark := t.next()) != b"0":
        raise Refused(3 if mark == b"1" else 4, t.last)
    t.number()
    t.word(b"$EndMeshFormat")
    kept, section = {}, t.section()
    if section == b"$Entities":
        kept, section = read_entities(t), t.section()
    if section != b"$Nodes":
        raise Refused(4, t.last)
    tags, points, elements = [], [], {kind: [] for kind in NODES}

    def tag():
        number = t.number()
        return number, t.last

    def corners(kind, line, group):
        elements[kind].append((line, group, [t.number() for _ in range(NODES[kind])]))

    if version == b"2.2":
        for _ in range(t.number()):
            tags.append(tag())
            points.append([t.decimal() for _ in range(3)])
    else:
        blocks = [t.number() for _ in range(4)][0]
        for _ in range(blocks):
            dim, _, parametric, count = t.number(4), t.integer(), t.number(2), t.number()
            for _ in range(count):
                tags.append(tag())
            for _ in range(count):
                points.append([t.decimal() for _ in range(3)])
                for _ in range(dim if parametric else 0):
                    t.decimal()
    t.word(b"$EndNodes")
    if t.section() != b"$Elements":
        raise Refused(4, t.last)
    if version == b"2.2":
        for _ in range(t.number()):
            (_, line), kind, count = tag(), t.kind(), t.number()
            group = None
            if count:
                group = group_of([t.integer()])
                for _ in range(count - 1):
                    t.integer()
            corners(kind, line, group)
    else:
        blocks = [t.number() for _ in range(4)][0]
        for _ in range(blocks):
            dim, entity, kind, count = t.number(4), t.integer(), t.kind(), t.number()
            for _ in range(count):
                line = tag()[1]
                corners(kind, line, kept.get(dim, {}).get(entity))
    t.word(b"$EndElements")
    return tags, points, elements


def first(refusals):
    """The one of the lowest line; of two on one line the one that stands first here."""
    if refusals := [r for r in refusals if r]:
        raise min(refusals, key=lambda r: r.line)


def doubled(tags):
    seen = set()
    for number, line in tags:
        if number in seen:
            return Refused(10, line)
        seen.add(number)


def placed(points, dim, scale):
    """The coordinates, or the first refusal of one."""
    values = []
    for x, y, z in points:
        for value, line in (x, y, z)[:dim]:
            if not fits(value, scale):
                return values, Refused(12, line, f" scale {largest(value)}")
            values.append(nearest(value * scale))
        if dim == 2 and not (fits(z[0], scale) and nearest(z[0] * scale) == 0):
            return values, Refused(13, z[1])
    return values, None


def unknown(rows, places):
    for line, _, nodes in rows:
        if any(node not in places for node in nodes):
            return Refused(11, line)


def mesh_of(data, scale, dim):
    """The entries, and the shape of the cells."""
    tags, points, elements = read_text(data)
    if not dim:
        dim = 3 if elements["tetrahedron"] or elements["hexahedron"] else 2
    pair = ("triangle", "quadrangle") if dim == 2 else ("tetrahedron", "hexahedron")
    there = sorted((kind for kind in pair if elements[kind]), key=lambda kind: elements[kind][0][0])
    if not there:
        raise Refused(8)
    shape = there[0]
    rows, likes = elements[shape], elements[SIDES[shape]]
    if (size := len(tags) * dim + len(rows) * NODES[shape] + len(likes) * NODES[SIDES[shape]]) > VALUES:
        raise Limit("mesh-values", size, VALUES)
    x, beyond = placed(points, dim, scale)
    first([doubled(tags), beyond])
    places = {number: at for at, (number, _) in enumerate(tags)}
    first([Refused(9, elements[there[1]][0][0]) if there[1:] else None, unknown(rows, places), unknown(likes, places)])
    cells = [[places[node] for node in nodes] for _, _, nodes in rows]
    sides = [(cell, [nodes[k] for k in corner]) for cell, nodes in enumerate(cells) for corner in CORNERS[shape]]
    by_nodes = {}
    for cell, nodes in sides:
        face = by_nodes.setdefault(tuple(sorted(nodes)), [])
        face.append((cell, nodes))
        if len(face) == 3:
            raise Refused(14, rows[cell][0])
    inner = [(face[0][1], face[0][0], face[1][0]) for face in by_nodes.values() if len(face) == 2]
    outer = [(face[0][1], face[0][0]) for face in by_nodes.values() if len(face) == 1]
    groups = {tuple(sorted(nodes)): None for nodes, _ in outer}
    for line, group, nodes in likes:
        key = tuple(sorted(places[node] for node in nodes))
        if key in groups and group is not None:
            if group == "several" or groups[key] not in (None, group):
                raise Refused(15, line)
            groups[key] = group
    entries = {"nnode": len(points), "ncell": len(cells), "nface": len(inner), "nbface": len(outer), "x": x,
               "cell": [n for nodes in cells for n in nodes], "face": [n for f in inner for n in f[0]],
               "fcell": [c for f in inner for c in f[1:]], "bface": [n for f in outer for n in f[0]],
               "bcell": [f[1] for f in outer], "btag": [groups[tuple(sorted(f[0]))] or 0 for f in outer]}
    if (size := sum(len(v) if isinstance(v, list) else 1 for v in entries.values())) > VALUES:
        raise Limit("mesh-values", size, VALUES)
    return entries, shape


class Limit(Exception):
    def __init__(self, name, size, most):
        self.name, self.size, self.most = name, size, most

    def text(self):
        return f"op2: limit {self.name} {self.most} {self.size}\n"


def mesh_text(entries):
    """The canonical text of version 2."""
    lines = ["op2mesh 2"]
    for name, value in entries.items():
        if not isinstance(value, list):
            lines.append(f"int {name} {value}")
            continue
        lines.append(f"ints {name} {len(value)}")
        pieces, at = [], 0
        while at < len(value):
            end = at
            while end < len(value) and value[end] == value[at]:
                end += 1
            pieces.append(f"{value[at]}" if end == at + 1 else f"{end - at}*{value[at]}")
            at = end
        if pieces:
            lines.append(" ".join(pieces))
    return ("\n".join(lines + ["done"]) + "\n").encode()


def wanted(data, scale, dim):
    """The status, what stands on standard output, and the line."""
    try:
        text = mesh_text(mesh_of(data, scale, dim)[0])
        if len(text) > BYTES:
            raise Limit("mesh-bytes", len(text), BYTES)
        return 0, text, b""
    except Refused as refused:
        return 20, b"", refused.text().encode()
    except Limit as limit:
        return 10, b"", limit.text().encode()


def grid(kind, n, draw):
    """A grid of n cells a side: points, cells, and the boundary's elements with the tag of their side, in a drawn order and with nodes turned."""
    plane = kind in ("triangle", "quadrangle")
    spots = [(i, j, k) for k in range(1 if plane else n + 1) for j in range(n + 1) for i in range(n + 1)]
    at = {spot: number for number, spot in enumerate(spots)}
    cells, corners = [], [(0, 0), (1, 0), (1, 1), (0, 1)]
    for i, j, k in ((i, j, k) for k in range(1 if plane else n) for j in range(n) for i in range(n)):
        low = [at[i + a, j + b, k] for a, b in corners]
        high = [] if plane else [at[i + a, j + b, k + 1] for a, b in corners]
        if kind == "triangle":
            cells += [[low[0], low[1], low[2]], [low[0], low[2], low[3]]]
        elif kind == "tetrahedron":
            v = low + high
            cells += [[v[p] for p in t] for t in ((0, 1, 2, 6), (0, 2, 3, 6), (0, 3, 7, 6), (0, 7, 4, 6), (0, 4, 5, 6), (0, 5, 1, 6))]
        else:
            cells.append(low + high)
    count = {}
    for cell in cells:
        for corner in CORNERS[kind]:
            nodes = [cell[k] for k in corner]
            count.setdefault(tuple(sorted(nodes)), []).append(nodes)
    outer = [nodes for same in count.values() if len(same) == 1 for nodes in same]
    likes = []
    for nodes in outer:
        side = [axis for axis in range(3) if len({spots[node][axis] for node in nodes}) == 1][0]
        draw.shuffle(nodes)
        likes.append((nodes, 2 * side + (spots[nodes[0]][side] > 0) + 1))
    draw.shuffle(likes)
    return spots, cells, likes


def spelled(draw, value):
    """A decimal that spells an eighth of a number, in one of several ways."""
    text = f"{value / 8}"
    return draw.choice([text, f"{value / 8:.16g}", f"{value / 8:e}", f"+{text}" if value >= 0 else text, f"{value * 125}E-3"])


def written(draw, kind, version, n, tagged):
    """The text of a grid, with tags in a drawn order, and physical groups where they are asked for."""
    spots, cells, likes = grid(kind, n, draw)
    tags = draw.sample(range(1, 3 * len(spots) + 1), len(spots))
    number = {name: code for code, name in KINDS.items()}
    points = [" ".join(spelled(draw, v * 4 - 3) if kind in ("tetrahedron", "hexahedron") or axis < 2 else "0" for axis, v in enumerate(spot))
              for spot in spots]
    low = {"line": 1, "triangle": 2, "quadrangle": 2}[SIDES[kind]]
    sides = sorted({side for _, side in likes})
    out = ["$MeshFormat", f"{version} 0 8", "$EndMeshFormat", "$PhysicalNames", "1", f'{low} 7 "wall"', "$EndPhysicalNames"]
    if version == "2.2":
        out += ["$Nodes", str(len(spots))] + [f"{tag} {point}" for tag, point in zip(tags, points)] + ["$EndNodes", "$Elements"]
        rows = [f"{number[SIDES[kind]]} 2 {10 + side if tagged and side % 2 else 0} {side} " + " ".join(str(tags[node]) for node in nodes)
                for nodes, side in likes]
        rows += [f"{number[kind]} 2 99 1 " + " ".join(str(tags[node]) for node in cell) for cell in cells]
        out += [str(len(rows))] + [f"{at + 1} {row}" for at, row in enumerate(rows)] + ["$EndElements"]
        return "\n".join(out + ["$NodeData", "1", "$EndNodeData"]).encode() + b"\n"
    entities = [f"{side} 0 0 0 1 1 1 {f'1 {10 + side}' if tagged and side % 2 else '0'} 2 1 -2" for side in sides]
    counts = {1: f"1 {len(sides)} 1 0", 2: f"1 0 {len(sides)} 1"}[low]
    out += ["$Entities", counts, "1 0 0 0 0"] + entities + ["1 0 0 0 1 1 1 1 99 0", "$EndEntities"]
    half = len(spots) // 2
    out += ["$Nodes", f"2 {len(spots)} 1 {3 * len(spots)}"]
    for dim, start, end in ((low, 0, half), (low + 1, half, len(spots))):
        parametric = int(dim == low)
        out += [f"{dim} 1 {parametric} {end - start}"] + [str(tag) for tag in tags[start:end]]
        out += [point + " 0.5" * (dim * parametric) for point in points[start:end]]
    out += ["$EndNodes", "$Elements", f"{len(sides) + 1} {len(likes) + len(cells)} 1 {len(likes) + len(cells)}"]
    at = 0
    for side in sides:
        mine = [nodes for nodes, other in likes if other == side]
        out.append(f"{low} {side} {number[SIDES[kind]]} {len(mine)}")
        for nodes in mine:
            at += 1
            out.append(f"{at} " + " ".join(str(tags[node]) for node in nodes))
    out.append(f"{low + 1} 1 {number[kind]} {len(cells)}")
    for cell in cells:
        at += 1
        out.append(f"{at} " + " ".join(str(tags[node]) for node in cell))
    return "\n".join(out + ["$EndElements"]).encode() + b"\n"


HEAD = b"$MeshFormat\n2.2 0 8\n$EndMeshFormat\n$Nodes\n"
SMALL = HEAD + b"""4
1 0 0 0
2 0.5 0 0
7 1.5 -1.5 0
9 2.5e0 1 0
$EndNodes
$Elements
4
1 1 2 5 1 1 2
2 1 2 0 1 7 1
3 2 2 3 1 1 2 7
4 2 2 3 1 7 2 9
$EndElements
"""
REFUSED = [  # a change of SMALL, the number of the refusal and its line
    ("$MeshFormat", "$Mesh", 1, 1), ("2.2", "2.1", 2, 2), ("2.2 0", "2.2 1", 3, 2), ("2.2 0", "2.2 2", 4, 2), ("2 0.5", "2 0,5", 4, 7),
    ("2 0.5", "4294967296 0.5", 5, 7), ("1 1 2 5", "1 8 2 5", 6, 13), ("3 2 2 3", "3 99999999999999999999 2 3", 6, 15),
    ("$EndElements", "", 4, 16), ("4 2 2 3 1 7 2 9", "4 3 2 3 1 1 7 2 9", 9, 16), ("7 1.5", "2 1.5", 10, 8), ("1 7 2 9", "1 7 2 8", 11, 16),
    ("5 1 1 2", "5 1 1 3", 11, 13), ("2.5e0", "1e300", 12, 9), ("2.5e0 1 0", "2.5e0 1 1", 13, 9), ("0.5 0 0", "0.5 0 1e99", 13, 7),
    ("1 1 2 5 1 1 2", "1 2 1 0 1 2 7", 14, 16), ("2 1 2 0 1 7 1", "2 1 2 6 1 2 1", 15, 14),
    ("2.5e0 1 0", "1e300 1 0\n2 0 0 0", 4, 10), ("2 0.5 0 0", "1 1e300 0 0", 10, 7), ("7 1.5 -1.5 0\n9 2.5e0", "7 1e99 1 0\n7 2.5e0", 12, 8),
]


def run(tools, folder, data, scale, dim, *more):
    (folder / "m.msh").write_bytes(data)
    words = [tools, "from-gmsh", "m.msh", "--scale", str(scale), *(["--dim", str(dim)] if dim else []), *more]
    return subprocess.run(words, cwd=folder, capture_output=True, timeout=600)


def held(tools, folder, data, scale, dim, name):
    """Whether the program gives what is wanted."""
    got, want = run(tools, folder, data, scale, dim), wanted(data, scale, dim)
    if (got.returncode, got.stdout, got.stderr) == want:
        return True
    (folder.parent / "gmsh-differs.msh").write_bytes(data)
    print(f"{name}, --scale {scale} --dim {dim}: {got.returncode} {got.stdout[:200]} {got.stderr}\n  wanted {want[0]} {want[1][:200]} {want[2]}")
    return False


def sums(entries, shape):
    """What the source that is written prints, by the mesh."""
    def wrapped(v):
        return (v + 2**31) % 2**32 - 2**31

    dim = 2 if shape in ("triangle", "quadrangle") else 3
    point = [entries["x"][at * dim:at * dim + dim] for at in range(entries["nnode"])]

    def line(name, nodes):
        return name + "".join(f" {wrapped(sum(point[node][axis] for node in nodes))}" for axis in range(dim)) + "\n"

    head = "{nnode} nodes, {ncell} cells, {nface} faces, {nbface} at the boundary\n".format(**entries)
    tagged = [tag for tag in entries["btag"] if tag]
    return (head + line("nodes", range(len(point))) + line("cells", entries["cell"]) + line("faces", entries["face"])
            + line("boundary", entries["bface"]) + f"{len(tagged)} in groups, of tags {wrapped(sum(tagged))}\n")


def damaged(draw, text):
    at, kind = draw.randrange(len(text)), draw.randrange(5)
    if kind == 0:
        return text[:at]
    if kind == 1:
        return text[:at] + bytes([draw.randrange(256)]) + text[at + 1:]
    words = re.split(rb"(?<=[ \n])", text)
    at = draw.randrange(len(words))
    if kind == 2:
        return b"".join(words[:at] + words[at + 1:])
    other = words[at] if kind == 3 else draw.choice(words)
    return b"".join(words[:at] + [other] + words[at + (kind == 4):])


def million(tools, folder):
    """A million tetrahedra, timed."""
    data = written(random.Random(3), "tetrahedron", "2.2", 55, True)
    (folder / "m.msh").write_bytes(data)
    start = time.time()
    got = subprocess.run(["/usr/bin/time", "-f", "%M", tools, "from-gmsh", "m.msh", "--scale", "1000"], cwd=folder, capture_output=True)
    print(f"{6 * 55**3} tetrahedra: {len(data)} bytes, {time.time() - start:.1f} s, {int(got.stderr) // 1024} MB, status {got.returncode}, {len(got.stdout)} bytes")
    return got.returncode == 0


def beyond(tools, folder):
    """One node more than `op2` takes in a set: a mesh text is written, and no program."""
    count = 2**22 + 1
    data = HEAD + f"{count}\n".encode() + b"".join(b"%d 0 0 0\n" % at for at in range(1, count + 1))
    data += b"$EndNodes\n$Elements\n1\n1 2 0 1 2 3\n$EndElements\n"
    mesh, source = run(tools, folder, data, 1, 2), run(tools, folder, data, 1, 2, "--source")
    line = f"op2-tools: from-gmsh 16 limit set-size {count - 1} {count}\n".encode()
    right = (mesh.returncode, mesh.stderr, source.returncode, source.stdout, source.stderr) == (0, b"", 20, b"", line)
    print(f"{count} nodes: {'right' if right else (mesh.returncode, mesh.stderr, source)}")
    return right


def main():
    words = argparse.ArgumentParser()
    words.add_argument("op2", nargs="?")
    words.add_argument("tools", nargs="?")
    words.add_argument("--copies", type=int, default=1000)
    words.add_argument("--seed", type=int, default=1)
    words.add_argument("--million", action="store_true")
    asked = words.parse_args()
    asked.op2, asked.tools = programs(asked.op2, asked.tools)
    draw, wrong, done = random.Random(asked.seed), 0, 0
    with tempfile.TemporaryDirectory() as name:
        folder = pathlib.Path(name)

        def check(data, scale, dim, name):
            nonlocal wrong, done
            done += 1
            wrong += not held(asked.tools, folder, data, scale, dim, name)

        texts = [(SMALL, "small")]
        for kind in CORNERS:
            for version in ("2.2", "4.1"):
                for n, tagged in ((1, True), (2, True), (3, False)):
                    texts.append((written(draw, kind, version, n, tagged), f"{kind} {version} {n}"))
        for file in ("cube.msh", "cube22.msh"):
            data = (EXAMPLES / file).read_bytes()
            texts.append((data, file))
            if wanted(data, 100, 0) != (0, (EXAMPLES / "cube.mesh").read_bytes(), b""):
                wrong += 1
                print(f"examples/{file}: not examples/cube.mesh")
            check(data, 100, 0, file)
        for data, name in texts:
            for scale, dim in ((1, 0), (7, 0), (1000, 2), (4294967295, 3)):
                check(data, scale, dim, name)
            entries, shape = mesh_of(data, 1000, 0)
            got = run(asked.tools, folder, data, 1000, 0, "--source")
            if got.returncode or got.stderr:
                wrong += 1
                print(f"{name} --source: {got}")
            else:
                (folder / "s.c").write_bytes(got.stdout)
                (folder / "m.mesh").write_bytes(mesh_text(entries))
                for ranks in ([], ["--ranks", "3"]):
                    printed = subprocess.run([asked.op2, "run", "s.c", "m.mesh", *ranks], cwd=folder, capture_output=True)
                    if (printed.returncode, printed.stdout.decode()) != (0, sums(entries, shape)):
                        wrong += 1
                        print(f"{name}, run: {printed}\n  wanted {sums(entries, shape)}")
        for old, new, number, line in REFUSED:
            data = SMALL.replace(old.encode(), new.encode(), 1)
            status, _, told = wanted(data, 1, 0)
            if not told.startswith(f"op2-tools: from-gmsh {number} line {line}".encode()):
                wrong += 1
                print(f"{new} for {old}: the script finds {told}")
            check(data, 1, 0, f"{new} for {old}")
        for end in range(len(SMALL)):
            check(SMALL[:end], 1, 0, f"the first {end} bytes")
        for _ in range(asked.copies):
            data, name = draw.choice(texts[:13])
            check(damaged(draw, data), draw.choice([1, 3, 1000]), draw.choice([0, 2, 3]), f"damaged {name}")
        if asked.million:
            wrong += not million(asked.tools, folder)
            wrong += not beyond(asked.tools, folder)
    print(f"{done} texts, {wrong} wrong")
    return wrong > 0


sys.exit(main())
