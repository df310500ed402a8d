#!/bin/sh
# Times runs by chains of loops (`--chain`) on four ranks beside plain ones: the sample; and a loop over the edges of a grid of N times N nodes, four times in
# a plain run and fifty times by chains, where a plain run would have too many steps. Prints seconds of the processor, elapsed seconds and peak memory, and of
# both runs of the grid, less what `check` takes, nanoseconds for each run of a kernel, repeated ones counted.
# Usage: bench/chains.sh [N]     (700 where none is given; OP2 may name another program)
here=$(CDPATH= cd -- "$(dirname -- "$0")/.." && pwd) || exit 1
. "$here/bench/program.sh"
work=$(mktemp -d) || exit 1
trap 'rm -rf "$work"' EXIT
python3 - "$op2" "$work" "${1:-700}" <<'P'
import resource, subprocess, sys, time
op2, work, n = sys.argv[1], sys.argv[2], int(sys.argv[3])

def timed(name, *words):
    used = resource.getrusage(resource.RUSAGE_CHILDREN)
    start = time.time()
    with open(work + "/out", "wb") as out:
        status = subprocess.run([op2, *words], stdout=out).returncode
    spent, now = time.time() - start, resource.getrusage(resource.RUSAGE_CHILDREN)
    cpu = now.ru_utime + now.ru_stime - used.ru_utime - used.ru_stime
    print(f"  {name:<52} {cpu:6.2f} s, {spent:6.2f} s elapsed, status {status}", flush=True)
    return cpu, open(work + "/out", "rb").read()

def source(times):
    return f"""extern int nnode;
extern int nedge;
extern int edge[];
extern int x0[];
extern int r0[];
void flux(const int *a, const int *b, int *r, int *s) {{ int d = b[0] - a[0]; r[0] += d; s[0] -= d; }}
int main(int argc, char **argv) {{
  op_set nodes = op_decl_set(nnode, "nodes");
  op_set edges = op_decl_set(nedge, "edges");
  op_map pe = op_decl_map(edges, nodes, 2, edge, "pe");
  op_dat x = op_decl_dat(nodes, 1, "int", x0, "x");
  op_dat r = op_decl_dat(nodes, 1, "int", r0, "r");
  for (int i = 0; i < {times}; i++) {{
    op_par_loop(flux, "flux", edges, op_arg_dat(x, 0, pe, 1, "int", OP_READ), op_arg_dat(x, 1, pe, 1, "int", OP_READ),
                op_arg_dat(r, 0, pe, 1, "int", OP_INC), op_arg_dat(r, 1, pe, 1, "int", OP_INC));
    op_printf(".");
  }}
  op_exit();
}}
"""

print("the sample of 200")
plain, wanted = timed("on four ranks", "sample", "200", "--ranks", "4")
chain, found = timed("on four ranks, by chains", "sample", "200", "--ranks", "4", "--chain")
assert wanted == found
print(f"  {chain / plain:.2f} times")

edges = []
for j in range(n):
    edges += [(j * n + i, j * n + i + 1) for i in range(n - 1)]
    edges += [(j * n + i, j * n + n + i) for i in range(n if j + 1 < n else 0)]
ends = [v for e in edges for v in e]
with open(work + "/m", "w") as f:
    f.write(f"op2mesh 2\nint nnode {n * n}\nint nedge {len(ends) // 2}\nints edge {len(ends)}\n")
    f.write(" ".join(map(str, ends)) + f"\nints x0 {n * n}\n" + " ".join(str(i % 1000) for i in range(n * n)))
    f.write(f"\nints r0 {n * n}\n{n * n}*0\ndone\n")
ranks = ["--ranks", "4"]
each = {}
print(f"{n * n} nodes, {len(ends) // 2} edges")
for times, words in (4, []), (50, ["--chain"]):
    with open(work + "/s.c", "w") as f:
        f.write(source(times))
    name = f"{times} loops" + (", by chains" if words else "")
    less, _ = timed(name + ": check", "check", work + "/s.c", work + "/m", *ranks, *words)
    cpu, _ = timed(name + ": run", "run", work + "/s.c", work + "/m", *ranks, *words)
    own = len(ends) // 2
    print(f"  {(cpu - less) / times / own * 1e9:.0f} ns for each edge of each loop")
P
