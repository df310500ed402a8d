#!/bin/sh
# Times `op2 run` where binding is most of it, and shows each run's peak memory. First sources of 1 MiB over a mesh of empty sets, with as many
# constants, variables, loops or arguments as there is room for; statements that are repeated as often as may be; then maps and dats of 1,048,576 values each, as many as a mesh may have cells, beside
# the same mesh with none of them. Nothing is computed but what `main` itself does.
# Usage: [OP2=PROGRAM] bench/bind.sh [BYTES]     (1048576 where none is given; ./op2 where no other program is named)
here=$(CDPATH= cd -- "$(dirname -- "$0")/.." && pwd) || exit 1
work=$(mktemp -d) || exit 1
trap 'rm -rf "$work"' EXIT
. "$here/bench/program.sh"
python3 - "$op2" "$work" "${1:-1048576}" <<'PY'
import os, subprocess, sys, time
op2, work, size = sys.argv[1], sys.argv[2], int(sys.argv[3])
SETS, DATS, ARGUMENTS, CELLS, VALUES = 64, 256, 16, 67108864, 1048576
SET = 'op_set s = op_decl_set(n, "s");\n'

def write(name, text, mode="w"):
    with open(work + "/" + name, mode) as file:
        file.write(text)

def spent(what, source, mesh):
    write("source.c", source)
    begun = time.time()
    child = subprocess.Popen([op2, "run", work + "/source.c", work + "/" + mesh], stdout=subprocess.DEVNULL, stderr=subprocess.DEVNULL)
    _, status, used = os.wait4(child.pid, 0)
    seconds = time.time() - begun
    child.returncode = os.waitstatus_to_exitcode(status)
    print(f"{len(source)} bytes, {what}: status {child.returncode}, {seconds:.2f} s, {used.ru_maxrss / 1024:.0f} MiB at the peak", flush=True)

# a source of at most the wanted bytes: its first lines, then a line of the file and one of `main` for each number
def source(tops="", declared="", top=lambda k: "", line=lambda k: "", most=65000):
    head, end = "int main(int argc, char **argv) {\n", "op_exit();\n}\n"
    file, main, length = [], [], len(tops + declared + head + end)
    while len(file) < most and length + len(top(len(file)) + line(len(file))) <= size:
        k = len(file)
        length += len(top(k) + line(k))
        file.append(top(k))
        main.append(line(k))
    return tops + "".join(file) + head + declared + "".join(main) + end, len(file)

def timed(what, **parts):
    text, count = source(**parts)
    spent(f"{count} {what}", text, "empty.mesh")

write("empty.mesh", "op2mesh 1\nint n 0\nints none 0\ndone\n")
externs = "extern int n; extern int none[];\n"
timed("const", top=lambda k: f"const int c{k} = {k};\n")
timed("op_decl_const", top=lambda k: f"int c{k} = {k};\n", line=lambda k: f'op_decl_const(1, "int", &c{k});\n')
timed("variables", line=lambda k: f"int v{k} = {k};\n")
timed("globals", tops=externs + "void add(const int *a, int *g) { *g += a[0]; }\n", top=lambda k: f"int g{k};\n",
      declared=SET + 'op_dat x = op_decl_dat(s, 1, "int", none, "x");\n',
      line=lambda k: f'op_par_loop(add, "add", s, op_arg_dat(x, -1, OP_ID, 1, "int", OP_READ), op_arg_gbl(&g{k}, 1, "int", OP_INC));\n')
timed("loops", tops=externs + "void bump(int *a) { a[0] = a[0] + 1; }\n", declared=SET + 'op_dat x = op_decl_dat(s, 1, "int", none, "x");\n',
      line=lambda k: 'op_par_loop(bump, "bump", s, op_arg_dat(x, -1, OP_ID, 1, "int", OP_RW));\n')

# as many turns as there may be of one statement
def total(count, term):
    return term if count == 1 else f"({total(count // 2, term)} + {total(count - count // 2, term)})"

turns = 32767
for what, term in ("", "1"), (" of its counter", "i"):
    line = f"for (int i = 0; i < {turns}; i++) x = {total(1000, term)};\n"
    spent(f"{turns} turns of a sum of 1000 terms{what}", source(declared="int x = 0;\n", most=1, line=lambda k: line)[0], "empty.mesh")

# all sets, maps and dats that there may be, and loops with all arguments that they may have
numbers = range(ARGUMENTS)
share = DATS // SETS
kernel = f"void all({', '.join(f'int *a{i}' for i in numbers)}) {{ {' '.join(f'a{i}[0] += 1;' for i in numbers)} }}\n"
declared = "".join(f'op_set s{k} = op_decl_set(n, "s{k}");\n' for k in range(SETS))
declared += "".join(f'op_map m{k} = op_decl_map(s{k}, s{(k + 1) % SETS}, 2, none, "m{k}");\n' for k in range(SETS))
declared += "".join(f'op_dat d{k} = op_decl_dat(s{k // share}, 1, "int", none, "d{k}");\n' for k in range(DATS))

def loop(k):
    dats = (k + 1) % SETS * share
    arguments = ", ".join(f'op_arg_dat(d{dats + i % share}, {i % 2}, m{k % SETS}, 1, "int", OP_INC)' for i in numbers)
    return f'op_par_loop(all, "all", s{k % SETS}, {arguments});\n'

timed(f"loops of {ARGUMENTS} arguments over {SETS} maps and {DATS} dats", tops=externs + kernel, declared=declared, line=loop)

write("full.mesh", f"op2mesh 1\nint n {VALUES}\nints e {VALUES}\n")
for begin in range(0, VALUES, 4096):
    write("full.mesh", "\n".join(map(str, range(begin, min(begin + 4096, VALUES)))) + "\n", "a")
write("full.mesh", "done\n", "a")
most = CELLS // VALUES - 1
externs = "extern int n; extern int e[];\n"
spent(f"a set of {VALUES}", source(tops=externs, declared=SET, most=0)[0], "full.mesh")
spent(f"{most} maps of {VALUES} targets", source(tops=externs, declared=SET, most=most,
      line=lambda k: f'op_map m{k} = op_decl_map(s, s, 1, e, "m{k}");\n')[0], "full.mesh")
spent(f"{most} dats of {VALUES} values", source(tops=externs, declared=SET, most=most,
      line=lambda k: f'op_dat d{k} = op_decl_dat(s, 1, "int", e, "d{k}");\n')[0], "full.mesh")
PY
