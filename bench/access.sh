#!/bin/sh
# Times the access check on kernels at the limit of work, each of some 524,000 turns, and on sources of 1 MiB full of loops over one kernel of 350,000:
# on a set of no elements `op2 run` reads the source, judges its kernel and runs nothing. Shows each call's status, its seconds and its peak memory.
# Usage: bench/access.sh     (OP2 may name another program)
here=$(CDPATH= cd -- "$(dirname -- "$0")/.." && pwd) || exit 1
. "$here/bench/program.sh"
work=$(mktemp -d) || exit 1
trap 'rm -rf "$work"' EXIT
python3 - "$op2" "$work" <<'PY'
import itertools, resource, subprocess, sys, time
op2, work = sys.argv[1:]
mesh = f"{work}/none.mesh"
with open(mesh, "w") as file:
    file.write("op2mesh 1\nint n 0\nints none 0\ndone\n")
loop = "for (int i = 0; i < 524287; i++) "
deep = "a[0]"
for level in range(30):
    deep = f"({deep}" + "".join(f" + {k}" for k in range(30)) + ")"
many = "for (int i = 0; i < 700; i++) for (int j = 0; j < 500; j++) a[i * 0 + j * 0] += 1;"
rw = ("OP_RW",)
full = 1 << 20


def loop_of(dim, accesses):
    args = "".join(f', op_arg_dat({dat}, -1, OP_ID, {dim}, "int", {access})' for dat, access in zip("abcdefgh", accesses))
    return f'  op_par_loop(kernel, "kernel", s{args});\n'


def source_of(dim, body, loops):
    """A source with a kernel and loops over it, each by the accesses of its arguments."""
    dats = "abcdefgh"[:len(loops[0]) if loops else 8]
    decls = "".join(f'  op_dat {dat} = op_decl_dat(s, {dim}, "int", none, "{dat}");\n' for dat in dats)
    return f"""extern int n;
extern int none[];
void kernel({", ".join("int *" + dat for dat in dats)}) {{ {body} }}
int main(int argc, char **argv) {{
  op_set s = op_decl_set(n, "s");
{decls}{"".join(loop_of(dim, accesses) for accesses in loops)}  op_exit();
}}
"""


def fill(accesses):
    """The loops with these accesses that a source of 1 MiB has room for."""
    room = full - len(source_of(1, many, []))
    taken = []
    for each in accesses:
        room -= len(loop_of(1, each))
        if room < 0:
            break
        taken.append(each)
    return taken


def accesses_of_all():
    """Eight accesses in all ways in which the kernel of many turns keeps to them."""
    unused = ("OP_READ", "OP_RW", "OP_INC", "OP_MIN", "OP_MAX")
    return ((first, *others) for first in ("OP_RW", "OP_INC") for others in itertools.product(unused, repeat=7))


rows = [
    ("one turn", 1, "a[0] += 1;", [rw]),
    ("turns that no index names", 1, loop + "a[0] += 1;", [rw]),
    ("turns that an index names", 1, loop + "a[0 * i] += 1;", [rw]),
    ("OP_WRITE, 64 components over and over", 64,
     "for (int t = 0; t < 8064; t++) for (int i = 0; i < 64; i++) a[i + 0 * t] = t;", [("OP_WRITE",)]),
    ("two branches", 2,
     "for (int i = 0; i < 262143; i++) if (i & 1) { a[0 * i] = i; a[1] = 1; } else { a[0] = 2; a[1 - 0 * i] = i; }",
     [("OP_WRITE",)]),
    ("turns of a long statement that no index names", 1, loop + f"a[0] = {deep};", [rw]),
    ("turns of a long statement that an index names", 1, loop + f"a[0 * i] = {deep};", [rw]),
    ("1 MiB of equal loops", 1, many, fill(itertools.repeat(rw))),
    ("1 MiB of loops, each with other accesses", 1, many, fill(accesses_of_all())),
]
for name, dim, body, loops in rows:
    source = f"{work}/kernel.c"
    with open(source, "w") as file:
        file.write(source_of(dim, body, loops))
    begun = time.time()
    status = subprocess.call([op2, "run", source, mesh], stdout=subprocess.DEVNULL)
    spent = time.time() - begun
    peak = resource.getrusage(resource.RUSAGE_CHILDREN).ru_maxrss
    print(f"{name:<48} {len(loops):6} loops, status {status} {spent:8.3f} s {peak / 1024:5.0f} MiB at the peak")
PY
