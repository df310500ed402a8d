#!/bin/sh
# Times states of N values of at most seven digits (`op2 state`, `op2 schedule --from`), beside what reads or writes as many: the program is bound and planned
# without a state; the mesh text is read and written again. The program has no loop. Prints seconds of the processor, elapsed seconds and peak memory.
# Usage: bench/state.sh [N]     (30000000 where none is given; N is a multiple of 1000; OP2 may name another program)
here=$(CDPATH= cd -- "$(dirname -- "$0")/.." && pwd) || exit 1
. "$here/bench/program.sh"
work=$(mktemp -d) || exit 1
trap 'rm -rf "$work"' EXIT
cat >"$work/s.c" <<'P'
extern int n;
extern int a0[];
int main(int argc, char **argv) {
  op_set s = op_decl_set(n, "s");
  op_dat a = op_decl_dat(s, 10, "int", a0, "a");
  op_exit();
}
P
python3 - "$work/m" "${1:-30000000}" <<'P' || exit 1
import random, sys
name, count = sys.argv[1], int(sys.argv[2])
random.seed(1)
with open(name, "w") as f:
    f.write(f"op2mesh 2\nint n {count // 10}\nints a0 {count}\n")
    for _ in range(count // 1000):
        f.write(" ".join(str(random.randrange(-999999, 9999999)) for _ in range(1000)) + "\n")
    f.write("done\n")
P
cat >"$work/timed.py" <<'P'
import resource, subprocess, sys, time
name, out, words = sys.argv[1], sys.argv[2], sys.argv[3:]
with open(out, "wb") as f:
    start = time.time()
    status = subprocess.run(words, stdout=f).returncode
    spent = time.time() - start
used = resource.getrusage(resource.RUSAGE_CHILDREN)
print(f"  {name:<52} {used.ru_utime + used.ru_stime:6.2f} s, {spent:6.2f} s elapsed, {used.ru_maxrss // 1024:5} MiB, status {status}")
P
timed() { name=$1 && shift && python3 "$work/timed.py" "$name" "$work/out" "$op2" "$@"; }
c=$work/s.c
m=$work/m
echo "${1:-30000000} values"
timed 'the mesh text read and written again' convert "$m"
timed 'bound and planned' check "$c" "$m"
timed 'the same, and the state written' state "$c" "$m" --at 0
mv "$work/out" "$work/state"
timed 'bound and planned, and the schedule written' schedule "$c" "$m"
timed 'the same from that state, which is read' schedule "$c" "$m" --from "$work/state"
