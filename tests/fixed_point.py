#!/usr/bin/env python3
"""Holds the kernels of docs/PORTING.md, "At 1/65536", against exact arithmetic. Runs those of examples/fixed.c over edges and some thousand drawn values, by op2
and as the program of a C compiler, and compares all that the page says of their ranges; a sanitizer looks whether a step wraps there, or in a thousand iterations
of examples/airfoil/naca.c. Looks whether examples/fixed.c has the page's text and naca.c the same formulas, and compares its flow with that in doubles
(examples/airfoil/compare.py). Ends with 1 where something differs.
Usage: tests/fixed_point.py [OP2]     (a program; else what OP2 names, else that of the repository)
"""
import math, pathlib, random, re, shutil, subprocess, sys, tempfile
from programs import programs, top

op2, _ = programs(*sys.argv[1:])
ONE, LEAST, MOST = 65536, -(2**31), 2**31 - 1
CUT, NEAREST = 2**23, 8372256  # the divisors that `quotient` and `nearest` take are at most so large
SANITIZER = ("-O1", "-g", "-fsanitize=signed-integer-overflow,integer-divide-by-zero")
PIECES = ("products", "quotients", "nearest", "roots")
faults = 0


def holds(what, is_so, told=""):
    global faults
    if not is_so:
        faults += 1
        print(f"differs: {what}: {told}")


def wrapped(value):
    return (value - LEAST) % 2**32 + LEAST


def cut(a, b):
    """The quotient of a * 2^16 and b, cut off towards zero."""
    return abs(a) * ONE // abs(b) * (1 if (a < 0) == (b < 0) else -1)


def nearest(a, b):
    """The same to the nearest, a half away from zero."""
    return (2 * abs(a) * ONE + abs(b)) // (2 * abs(b)) * (1 if (a < 0) == (b < 0) else -1)


def root(a):
    """The root of a * 2^16 to the nearest, where a is read as a number of 32 bits without a sign."""
    square = a % 2**32 * ONE
    low = math.isqrt(square)
    return low + (square > low * low + low)


def wanted(a, b):
    """What the pieces give of a and b, by their names; None where the page says nothing of it."""
    quotients = cut(a, b) if abs(b) <= CUT else None, nearest(a, b) if abs(b) <= NEAREST else None
    return [wrapped((a * b + ONE // 2) // ONE), *(None if it is None else wrapped(it) for it in quotients), root(a)]


def is_plain(a, b):
    """Whether the page says of all pieces that no step wraps."""
    product, quotient = abs(a * b) // ONE + abs(b) < 32767 * ONE, abs(b) <= NEAREST and abs(nearest(a, b)) < 32767 * ONE
    return product and quotient


def pairs(draw):
    """Edges with one another, and drawn values of all sizes; no division that C leaves undefined."""
    edges = {0, 1, 2, 3, 127, 128, 255, 256, 257, 32767, 32768, 32769, ONE - 1, ONE, ONE + 1, 46340, 46341, 2**22, CUT - 1, CUT, CUT + 1,
             NEAREST, NEAREST + 1, 2**24 - 1, 2**24, 2**30, MOST - 1, MOST}
    edges |= {-it for it in edges} | {LEAST, LEAST + 1}
    found = [(a, b) for a in sorted(edges) for b in sorted(edges)]
    drawn = lambda: wrapped(draw.getrandbits(32)) >> draw.randrange(32)
    found += [(drawn(), drawn()) for _ in range(6000)]
    found += [(draw.randint(-20 * ONE, 20 * ONE), draw.randint(-5 * ONE, 5 * ONE)) for _ in range(3000)]
    return [(a, b) for a, b in found if b and (a, b) != (LEAST, -1)]


def mesh_of(values):
    return "\n".join(["op2mesh 2", f"int n {len(values)}", f"ints a0 {len(values)}", *(str(a) for a, _ in values),
                      f"ints b0 {len(values)}", *(str(b) for _, b in values), f"ints none {len(values)}", f"{len(values)}*0", "done", ""])


def outcome(output):
    """The four printed dats, by the name of their piece."""
    parts = dict(re.findall(r"^(\w+): \w pairs \d+ 1\n((?:-?\d+\n)*)", output, re.M))
    return {name: list(map(int, parts[name].split())) for name in PIECES}


def call(words, **more):
    return subprocess.run(words, stdin=subprocess.DEVNULL, capture_output=True, text=True, timeout=300, check=False, **more)


def build(folder, name, *flags, source="fixed.c"):
    """Builds the program of an example over the mesh of a name; False where it can't be built so."""
    with open(folder / "mesh.c", "w") as mesh:
        subprocess.run([top / "tools/mesh_c", folder / f"{name}.mesh"], stdout=mesh, check=True)
    words = ["cc", "-std=c11", "-w", *flags, "-include", top / "include/op2_seq.h", top / "examples" / source, folder / "mesh.c", "-o", folder / name]
    return call(words).returncode == 0


def compare(by, output, values):
    found = outcome(output)
    for at, name in enumerate(PIECES):
        wrong = [(pair, got, wanted(*pair)[at]) for pair, got in zip(values, found[name]) if wanted(*pair)[at] not in (None, got)]
        holds(f"{name} by {by}", not wrong and len(found[name]) == len(values), wrong[:3])


def try_values(folder, values):
    (folder / "all.mesh").write_text(mesh_of(values))
    output = call([op2, "run", top / "examples/fixed.c", folder / "all.mesh"]).stdout
    compare("op2", output, values)
    if not shutil.which("cc"):
        print("left out: programs of a C compiler, without cc")
        return
    for level in ("-O0", "-O2"):
        holds(f"a program by cc {level}", build(folder, "all", level, "-fwrapv"))
        holds(f"what cc {level} prints", call([folder / "all"]).stdout == output)
    plain = [pair for pair in values if is_plain(*pair)]
    (folder / "plain.mesh").write_text(mesh_of(plain))
    if not build(folder, "plain", *SANITIZER):
        print("left out: the sanitizer, which cc hasn't here")
        return
    done = call([folder / "plain"])
    holds("no step wraps", not done.stderr, done.stderr[:300])
    compare("cc with a sanitizer", done.stdout, plain)
    (folder / "naca.mesh").write_text(call([sys.executable, top / "examples/airfoil/naca_mesh.py", "1000"]).stdout)
    holds("naca.c by the sanitizer", build(folder, "naca", *SANITIZER, source="airfoil/naca.c"))
    done = call([folder / "naca"])
    holds("no step of naca.c wraps", done.returncode == 0 and not done.stderr, done.stderr[:300])


def kernels(text):
    """The kernels of a source, by their names."""
    return dict(re.findall(r"^void (\w+)\([^)]*\) (\{\n.*?^\})$", text, re.M | re.S))


def try_texts():
    section = (top / "docs/PORTING.md").read_text().split("### At 1/65536\n")[1].split("\n## ")[0].split("\n### ")[0]
    shown = kernels("".join(re.findall(r"^```c\n(.*?)^```$", section, re.M | re.S)))
    source, naca = kernels((top / "examples/fixed.c").read_text()), kernels((top / "examples/airfoil/naca.c").read_text())
    holds("kernels of the page", shown == source, sorted(set(shown.items()) ^ set(source.items())))
    product = re.search(r"p\[0\] = (.*;)", source["product"])[1].replace("[0]", "[i]")
    made = [line for body in naca.values() for line in re.findall(r"p\[i\] = (.*;)", body)]
    holds("products of naca.c", made and set(made) == {product}, set(made))
    turn = re.sub(r"\s+", " ", re.search(r"for .*?\n  \}", source["root"], re.S)[0])
    holds("roots of naca.c", turn in re.sub(r"\s+", " ", naca["adt_calc"].replace("root", "r")))


def try_flow():
    if not shutil.which("cc"):
        return
    done = call([sys.executable, top / "examples/airfoil/compare.py"])
    holds("the flow beside that in doubles", done.returncode == 0, done.stdout + done.stderr)
    print(done.stdout, end="")


with tempfile.TemporaryDirectory() as place:
    cases = pairs(random.Random(16))
    try_values(pathlib.Path(place), cases)
try_texts()
try_flow()
print(f"{len(cases)} pairs, {faults} differences")
sys.exit(faults > 0)
