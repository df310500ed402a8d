#!/bin/sh
# Times `op2 run` on sources of doubling size, and shows each run's peak memory. The sources have kernels with statements of
# every form, up to the 1 MiB that a source may have; their `main` does nothing.
# Then times reading a source of 1 MiB with 100,000 names, and resolving them (the job `names` of crates/op2_bench); and reading one of 1 MiB with 10,000 loops,
# and translating it (`op2 translate`).
# Usage: bench/source.sh [BYTES ..]     (131072 262144 524288 1048576 where none is given; OP2 may name another program)
here=$(CDPATH= cd -- "$(dirname -- "$0")/.." && pwd) || exit 1
. "$here/bench/program.sh"
work=$(mktemp -d) || exit 1
trap 'rm -rf "$work"' EXIT
[ $# -gt 0 ] || set -- 131072 262144 524288 1048576
for size in "$@"; do
    python3 - "$op2" "$work/source.c" "$here/examples/bump.mesh" "$size" <<'PY'
import resource, subprocess, sys, time
op2, source, mesh, size = sys.argv[1:]
end = "int main(int argc, char **argv) {\n  op_exit();\n}\n"
parts, length, count = [], len(end), 0
while True:
    part = f"""static inline void kernel_{count}(const int *a, int *b) {{
  // differences, wrapped
  int x = a[0] - {count} - (b[1] << 2), y[4];
  for (int i = 0; i < 4; i++) {{ y[i] = MAX(x, -1) * i; x += ABS(y[i]) % 7; }}
  if (x > 3 && y[0] != 2) *b = x ? y[1] : y[2]; else b[0] ^= x | 5; /* the last */
}}
"""
    if length + len(part) > int(size):
        break
    parts.append(part)
    length += len(part)
    count += 1
with open(source, "w") as file:
    file.write("".join(parts) + end)
begun = time.time()
status = subprocess.call([op2, "run", source, mesh], stdout=subprocess.DEVNULL, stderr=subprocess.DEVNULL)
peak = resource.getrusage(resource.RUSAGE_CHILDREN).ru_maxrss
print(f"{length} bytes, {count} kernels: status {status}, {time.time() - begun:.2f} s, {peak / 1024:.0f} MiB at the peak")
PY
done
program=$here/crates/op2_bench/out/op2_bench
if [ ! -x "$program" ]; then
    echo 'building: each crate is proved first' >&2
    (cd "$here/crates/op2_bench" && rt run -- names data/source.c 1) >/dev/null 2>&1 </dev/null
fi
python3 - "$program" "$work/names.c" <<'PY'
import subprocess, sys, time
program, source = sys.argv[1:]
names, length, parts = 100000, 0, []
for number in range(0, names, 10):
    parts.append("int " + ", ".join(f"n{k}" for k in range(number, number + 10)) + ";\n")
parts.append("int main(int argc, char **argv) {\n")
length = sum(map(len, parts))
uses, end = 0, "op_exit();\n}\n"
while length + 24 + len(end) < 1048576:
    part = f"n{uses * 7919 % names} = n{uses * 104729 % names};\n"
    parts.append(part)
    length += len(part)
    uses += 1
with open(source, "w") as file:
    file.write("".join(parts) + end)
def spent(times):
    begun = time.time()
    subprocess.check_call([program, "names", source, str(times)], stdout=subprocess.DEVNULL)
    return time.time() - begun
read = min(spent(0) for _ in range(3))
resolved = min(spent(4) for _ in range(3))
print(f"{length + len(end)} bytes, {names} names, {2 * uses} uses: read in {read:.3f} s, resolved in {(resolved - read) / 4:.3f} s")
PY
python3 - "$program" "$op2" "$work/loops.c" "$work/stubs.c" <<'PY'
import subprocess, sys, time
read, op2, source, stubs = sys.argv[1:]
loops, most = 10000, 1048576
head = 'extern int n;\nextern int a0[];\nvoid k(int *a) { a[0] += 1; }\nint main(int argc, char **argv) {\n'
head += 'op_set s = op_decl_set(n, "s");\nop_dat a = op_decl_dat(s, 1, "int", a0, "a");\n'
loop, end = 'op_par_loop(k, "", s, op_arg_dat(a, -1, OP_ID, 1, "int", OP_RW)); // %s\n', "op_exit();\n}\n"
room = (most - len(head) - len(end)) // loops - len(loop % "")
with open(source, "w") as file:
    file.write(head + loop % ("." * room) * loops + end if room > 0 else sys.exit("no room"))
def spent(*words):
    best = float("inf")
    for _ in range(5):
        with open(stubs, "wb") as out:
            begun = time.time()
            subprocess.check_call(words, stdout=out)
            best = min(best, time.time() - begun)
    return best
reading = spent(read, source, "0")
translating = spent(op2, "translate", source)
bytes_read, bytes_written = (len(open(name, "rb").read()) for name in (source, stubs))
print(f"{bytes_read} bytes, {loops} loops: read in {reading:.3f} s, translated in {translating:.3f} s to {bytes_written} bytes")
PY
