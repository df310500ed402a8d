# Each loop of the sample by itself, once and often in a run: nanoseconds and machine instructions of an element, beside plain C. See loops.sh.
import sys
from beside import compiled, instructions, least, plain

op2, sample, work, times, n, small = sys.argv[1], sys.argv[2], sys.argv[3], *(int(x) for x in sys.argv[4:7])
lines = open(sample).read().splitlines()
loops = {line.split('"')[1]: line for line in lines if line.startswith("op_par_loop")}
first = next(i for i, line in enumerate(lines) if line.startswith("for (int t"))
last = lines.index(loops["total"])

def source(name, turns, out):
    before = [loops["area"]] if name == "flux" else []  # without areas flux divides by zero
    body = before + [f"for (int t = 0; t < {turns}; t++) {{", loops[name], "}"]
    open(out, "w").write("\n".join(lines[:first] + body + lines[last + 1:]) + "\n")

BODIES = {
    "save": "for (int i = 0; i < nc; i++) old[i] = q[i];",
    "area": "for (int i = 0; i < nc; i++) { const int *c = cell + 4 * i, *a = x + 2 * c[0], *b = x + 2 * c[1], *d = x + 2 * c[3]; "
            "adt[i] = abs(b[0] - a[0]) + abs(d[1] - a[1]) + 1; }",
    "flux": "for (int i = 0; i < ne; i++) { int a = e[2 * i], b = e[2 * i + 1]; int f = (q[a] - q[b]) / (adt[a] + adt[b]); res[a] -= f; res[b] += f; }",
    "bound": "for (int i = 0; i < nb; i++) res[be[i]] += w[i];",
    "update": "for (int i = 0; i < nc; i++) { q[i] = old[i] + res[i]; kept += abs(res[i]); res[i] = 0; }",
    "total": "for (int i = 0; i < nc; i++) { kept += q[i]; if (q[i] < lo) lo = q[i]; if (q[i] > hi) hi = q[i]; }",
}

PLAIN = r"""
#include <stdio.h>
#include <stdlib.h>
#include <time.h>
static double now(void) { struct timespec t; clock_gettime(CLOCK_PROCESS_CPUTIME_ID, &t); return t.tv_sec * 1e9 + t.tv_nsec; }
static int nc, ne, nb, lo, hi; static unsigned kept; static int *cell, *e, *be, *w, *x, *q, *old, *adt, *res;
__attribute__((noinline)) static void loop(void) { BODY }
int main(int argc, char **argv) {
  int n = atoi(argv[1]), turns = atoi(argv[2]), k = 0; if (argc < 3) return 1;
  nc = n * n; ne = 2 * n * (n - 1); nb = 4 * n;
  cell = malloc(16 * (size_t)nc); e = malloc(8 * (size_t)ne); be = malloc(4 * (size_t)nb); w = malloc(4 * (size_t)nb); x = malloc(8 * (size_t)(n + 1) * (n + 1));
  q = malloc(4 * (size_t)nc); old = calloc(nc, 4); adt = calloc(nc, 4); res = calloc(nc, 4);
  for (int j = 0; j < n; j++) for (int i = 0; i < n; i++) { int *c = cell + 4 * (j * n + i); c[0] = j * (n + 1) + i; c[1] = c[0] + 1; c[2] = c[1] + n + 1; c[3] = c[0] + n + 1; }
  for (int j = 0; j <= n; j++) for (int i = 0; i <= n; i++) { x[2 * (j * (n + 1) + i)] = i; x[2 * (j * (n + 1) + i) + 1] = j; }
  for (int j = 0; j < n; j++) for (int i = 0; i + 1 < n; i++) { e[k++] = j * n + i; e[k++] = j * n + i + 1; }
  for (int j = 0; j + 1 < n; j++) for (int i = 0; i < n; i++) { e[k++] = j * n + i; e[k++] = j * n + n + i; }
  for (int i = 0; i < nc; i++) { q[i] = i % n + i / n; adt[i] = 3; }
  for (int i = 0; i < nb; i++) { be[i] = (int)((size_t)i * nc / nb); w[i] = i % 3 - 1; }
  double from = now(); for (int t = 0; t < turns; t++) loop(); double spent = now() - from;
  for (int i = 0; i < nc; i++) kept += old[i] + adt[i] + res[i];
  if (kept == 12345 && lo == hi) return 1;
  printf("%f\n", spent / turns / COUNT);
  return 0;
}
"""

for name in "save", "area", "flux", "bound", "update", "total":
    count = lambda m: 2 * m * (m - 1) if name == "flux" else 4 * m if name == "bound" else m * m
    turns = 1000 if name == "bound" else max(2, 3000000 // count(n))
    source(name, 1, work + "/once.c")
    source(name, turns + 1, work + "/often.c")
    once, often = least([[op2, "run", work + "/once.c", f"{work}/{n}.mesh"], [op2, "run", work + "/often.c", f"{work}/{n}.mesh"]], times)
    line = f"{name}: {(often - once) / turns / count(n) * 1e9:.1f} ns an element"
    size = {"flux": "ne", "bound": "nb"}.get(name, "nc")
    c = compiled(work, "plain", PLAIN.replace("BODY", BODIES[name]).replace("COUNT", size))
    if c:
        line += f"; plain C {plain([c, str(n), str(turns)]):.1f} ns"
    source(name, 5, work + "/often.c")
    counts = [instructions([op2, "run", f"{work}/{k}.c", f"{work}/{small}.mesh"]) for k in ("once", "often")]
    if None not in counts:
        line += f"; {(counts[1] - counts[0]) // (4 * count(small))} machine instructions"
    print(line, flush=True)
