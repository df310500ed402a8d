#!/usr/bin/env python3
"""Runs each job of `op2-tools` over files that are cut or damaged: over every front of each file that it reads, and over copies with a byte changed, or with a word
left out, twice or moved. Each call must end with a status of docs/TOOLS.md, and with one line exactly where that isn't 0; then nothing stands on standard
output. A picture must be XML, a grid begin and end as VTK's do, and `explain` must begin with the line and the status of `op2`.
Ends with 1 where a call doesn't. There are 1000 copies for each job where no N is given.
Usage: tests/damaged_tools.py [OP2 [TOOLS]] [--copies N] [--seed N]     (programs; else what OP2 and OP2_TOOLS name, else those of the repository)
"""
import argparse, collections, concurrent.futures, pathlib, random, re, subprocess, sys, tempfile, threading
import xml.etree.ElementTree as xml
from programs import programs

SOURCE = b"""extern int nnode; extern int ncell; extern int cell[]; extern int x0[]; extern int q0[];
void add(const int *x, int *q) { *q += x[0]; }
int main(int argc, char **argv) {
  op_set n = op_decl_set(nnode, "n");
  op_set c = op_decl_set(ncell, "c");
  op_map m = op_decl_map(c, n, 3, cell, "m");
  op_dat x = op_decl_dat(n, 2, "int", x0, "x");
  op_dat q = op_decl_dat(c, 1, "int", q0, "q");
  op_par_loop(add, "add", c, op_arg_dat(x, 0, m, 2, "int", OP_READ), op_arg_dat(q, -1, OP_ID, 1, "int", OP_INC));
  op_print_dat_to_txtfile(q, "q.txt");
  op_exit();
}
"""
MESH = b"""op2mesh 2
int nnode 5
int ncell 4
ints cell 12 0 1 4 1 2 4
2 3 4 3 0 4
ints x0 10 0 0 8 0 8 8 0 8 4 4
ints q0 4 3*7 -5
done
"""
GMSH = b"""$MeshFormat
4.1 0 8
$EndMeshFormat
$Entities
0 1 1 0
3 0 0 0 1 0 0 1 7 0
1 0 0 0 1 1 0 0 1 3
$EndEntities
$Nodes
1 4 1 4
2 1 0 4
1
2
3
4
0 0 0
1 0 0
1 1 0
0 1e0 0
$EndNodes
$Elements
2 3 1 3
1 3 1 1
1 1 2
2 1 2 2
2 1 2 3
3 1 3 4
$EndElements
"""
BOTH = ["s.c", "m.mesh"]
PICTURE = ["--coords", "x", "--cells", "m"]
JOBS = [  # the words of a call, and the files that it reads
    (["pick", *BOTH, "out", "q.txt"], [*BOTH, "out"]),
    (["graph", *BOTH, "m"], BOTH),
    (["owners", *BOTH, "--ranks", "2", "--partition", "part"], [*BOTH, "part"]),
    (["owners", *BOTH, "--ranks", "2", "--metis", "numbers", "--set", "c"], [*BOTH, "numbers"]),
    (["stat", *BOTH, "--ranks", "2", "--plan", "plan"], [*BOTH, "plan"]),
    (["draw", *BOTH, *PICTURE, "--ranks", "2", "--partition", "part"], [*BOTH, "part"]),
    (["vtk", *BOTH, *PICTURE, "--output", "out"], [*BOTH, "out"]),
    (["from-gmsh", "m.msh", "--scale", "1000"], ["m.msh"]),
    (["from-gmsh", "m.msh", "--scale", "1000", "--source"], ["m.msh"]),
    (["explain", "run", *BOTH, "--ranks", "2", "--partition", "part"], [*BOTH, "part"]),
    (["explain", "check", *BOTH, "--ranks", "2", "--plan", "plan"], [*BOTH, "plan"]),
]
STATUSES = {0, 2, 3, 5, 6, 7, 10, 12, 20}


def run(program, folder, words):
    done = subprocess.run([program, *words], cwd=folder, capture_output=True, timeout=300)
    return done.returncode, done.stdout, done.stderr


def fits(job, out):
    """Whether an output is of the form that its job writes."""
    if job == "draw":
        try:
            return xml.fromstring(out.decode()).tag.endswith("svg")
        except (xml.ParseError, UnicodeDecodeError):
            return False
    if job == "vtk":
        return out.startswith(b"# vtk DataFile Version 3.0\n") and out.endswith(b"\n")
    return out != b"" and out.endswith(b"\n")


def wrong_in(asked, folder, words):
    """What is wrong with the end of a call, or nothing."""
    status, out, err = run(asked.tools, folder, words)
    if status not in STATUSES:
        return status, f"status {status}"
    if (err.count(b"\n"), err.endswith(b"\n")) != (status != 0, status != 0) or not re.match(rb"op2(-tools)?: |\Z", err):
        return status, f"status {status}, line {err!r}"
    if status:
        return status, f"status {status}, output {out[:80]!r}" if out else None
    if words[0] != "explain":
        return status, None if fits(words[0], out) else f"output {out[:80]!r}"
    ends, _, line = run(asked.op2, folder, words[1:])
    wanted = line + b"status %d\n" % ends if ends else b"op2 would end with status 0\n"
    return status, None if out.startswith(wanted) else f"output {out[:80]!r}, where op2 has {wanted!r}"


def damaged(draw, text):
    at, kind = draw.randrange(len(text)), draw.randrange(4)
    if kind == 0:
        return text[:at] + bytes([draw.randrange(256)]) + text[at + 1:]
    words = re.split(rb"(?<=[ \n])", text)
    at = draw.randrange(len(words))
    if kind == 1:
        return b"".join(words[:at] + words[at + 1:])
    return b"".join(words[:at] + [words[at] if kind == 2 else draw.choice(words)] + words[at:])


def texts_of(asked, folder):
    """The files, with what the programs write of them."""
    texts = {"s.c": SOURCE, "m.mesh": MESH, "m.msh": GMSH, "numbers": b"0\n1\n1\n0\n"}
    for name, text in texts.items():
        (folder / name).write_bytes(text)
    for name, program, words in (("out", asked.op2, ["run", *BOTH]), ("plan", asked.op2, ["plan", *BOTH, "--ranks", "2"]),
                                 ("part", asked.tools, ["owners", *BOTH, "--ranks", "2", "--parts", "bisect:x"])):
        status, texts[name], err = run(program, folder, words)
        if status:
            sys.exit(f"{words}: {status} {err}")
    return texts


def main():
    words = argparse.ArgumentParser()
    words.add_argument("op2", nargs="?")
    words.add_argument("tools", nargs="?")
    words.add_argument("--copies", type=int, default=1000)
    words.add_argument("--seed", type=int, default=1)
    asked = words.parse_args()
    asked.op2, asked.tools = programs(asked.op2, asked.tools)
    draw, here, bad = random.Random(asked.seed), threading.local(), 0
    with tempfile.TemporaryDirectory() as name:
        texts = texts_of(asked, pathlib.Path(name))

        def tried(call):
            """The end of a call over a file that is changed; the other files are whole."""
            words, file, text = call
            if not hasattr(here, "folder"):
                here.folder = pathlib.Path(tempfile.mkdtemp(dir=name))
                for other, whole in texts.items():
                    (here.folder / other).write_bytes(whole)
            (here.folder / file).write_bytes(text)
            found = wrong_in(asked, here.folder, words)
            (here.folder / file).write_bytes(texts[file])
            return found

        calls = [(words, file, texts[file][:end]) for words, files in JOBS for file in files for end in range(len(texts[file]) + 1)]
        for words, files in JOBS:
            for _ in range(asked.copies):
                file = draw.choice(files)
                calls.append((words, file, damaged(draw, texts[file])))
        statuses = collections.Counter()
        with concurrent.futures.ThreadPoolExecutor(4) as pool:
            for (words, file, text), (status, wrong) in zip(calls, pool.map(tried, calls)):
                statuses[status] += 1
                if wrong:
                    bad += 1
                    print(f"wrong: {' '.join(words)}: {wrong}, where {file} is {text[-120:]!r}")
    print(f"{len(calls)} calls, {bad} wrong; by status", ", ".join(f"{status}: {count}" for status, count in sorted(statuses.items())))
    return bad > 0


sys.exit(main())
