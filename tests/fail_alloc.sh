#!/bin/sh
# Makes each allocation of some calls fail in turn, by a shim in front of the C library's malloc (needs cc). Each such run must end with status 1, the line
# `op2: out of memory` and nothing on standard output, or as if nothing had failed, where what failed can be done without. Prints for each call how many
# allocations were tried. Ends with 1 where a run ends otherwise.
# Usage: tests/fail_alloc.sh [OP2 [TOOLS]]     (programs and no scripts; else what OP2 and OP2_TOOLS name, else those of the repository)
here=$(CDPATH= cd -- "$(dirname -- "$0")/.." && pwd) || exit 70
work=$(mktemp -d) || exit 70
trap 'rm -rf "$work"' EXIT
cat >"$work/shim.c" <<'C'
#define _GNU_SOURCE
#include <dlfcn.h>
#include <errno.h>
#include <fcntl.h>
#include <stdlib.h>
#include <sys/mman.h>
#include <unistd.h>
static long here, at, *count = &here;
// The count is in a file, so that it is there however the program ends.
__attribute__((constructor)) static void begin(void) {
  const char *name = getenv("COUNT_TO"), *number = getenv("FAIL_AT");
  int f = name ? open(name, O_RDWR | O_CREAT, 0600) : -1;
  if (f >= 0 && !ftruncate(f, sizeof here)) count = mmap(0, sizeof here, PROT_READ | PROT_WRITE, MAP_SHARED, f, 0);
  at = number ? atol(number) : 0;
}
static int fails(void) { return __atomic_add_fetch(count, 1, __ATOMIC_SEQ_CST) == at; }
void *malloc(size_t n) {
  static void *(*real)(size_t);
  if (!real) real = dlsym(RTLD_NEXT, "malloc");
  if (fails()) { errno = ENOMEM; return 0; }
  return real(n);
}
void *realloc(void *p, size_t n) {
  static void *(*real)(void *, size_t);
  if (!real) real = dlsym(RTLD_NEXT, "realloc");
  if (fails()) { errno = ENOMEM; return 0; }
  return real(p, n);
}
void *aligned_alloc(size_t a, size_t n) {
  static void *(*real)(size_t, size_t);
  if (!real) real = dlsym(RTLD_NEXT, "aligned_alloc");
  if (fails()) { errno = ENOMEM; return 0; }
  return real(a, n);
}
int posix_memalign(void **p, size_t a, size_t n) {
  static int (*real)(void **, size_t, size_t);
  if (!real) real = dlsym(RTLD_NEXT, "posix_memalign");
  if (fails()) return ENOMEM;
  return real(p, a, n);
}
C
cc -shared -fPIC -O1 -o "$work/shim.so" "$work/shim.c" -ldl || exit 70
op2=${1:-$OP2} tools=${2:-$OP2_TOOLS}
if [ -z "$op2" ]; then
    "$here/op2" --version >/dev/null || exit 70
    op2=$here/crates/op2_cli/out/op2_cli
fi
if [ -z "$tools" ]; then
    "$here/op2-tools" --version >/dev/null || exit 70
    tools=$here/crates/op2_tools/out/op2_tools
fi
op2=$(realpath "$op2") tools=$(realpath "$tools")
bad=0

# Whether that is the one line on standard error; no process is made for it, since thousands of calls end so.
is_out_of_memory() {
    { read -r line && ! read -r _; } <"$work/err" && [ "$line" = 'op2: out of memory' ]
}

# The words of a call of a program.
try_of() {
    program=$1
    shift
    rm -f "$work/count"
    COUNT_TO=$work/count LD_PRELOAD=$work/shim.so "$program" "$@" >"$work/whole" 2>"$work/line"
    status=$?
    all=$(od -An -td8 "$work/count" | tr -d ' ')
    at=1
    spared=0
    while [ "$at" -le "$all" ]; do
        FAIL_AT=$at LD_PRELOAD=$work/shim.so "$program" "$@" >"$work/out" 2>"$work/err"
        ended=$?
        if [ "$ended" -eq 1 ] && [ ! -s "$work/out" ] && is_out_of_memory; then
            :
        elif [ "$ended" -eq "$status" ] && cmp -s "$work/out" "$work/whole" && cmp -s "$work/err" "$work/line"; then
            spared=$((spared + 1))
        else
            echo "wrong: allocation $at of $*: status $ended, $(cat "$work/err")" >&2
            bad=1
        fi
        at=$((at + 1))
    done
    echo "$all allocations, $spared of them not missed: $(basename "$program") $*"
}
try() { try_of "$op2" "$@"; }
try_tools() { try_of "$tools" "$@"; }

cd "$here/examples" || exit 70
try run heat.c heat.mesh
try run heat.c heat.mesh --ranks 2 --parts grow:joined --renumber joined --seed 3 --dump
try plan residual.c residual.mesh --ranks 2 --parts bisect:x
try schedule heat.c heat.mesh --ranks 2 --workers 3
try check heat.c heat.mesh --ranks 2 --renumber joined --plan heat.colours
try state heat.c heat.mesh --at 12 --ranks 2
try run heat.c heat.mesh --from heat.state --ranks 2 --parts bisect:heat
try run heat.c heat.mesh --ranks 2 --parts grow:joined --chain --dump
try check residual.c residual.mesh --ranks 2 --chain
try convert heat.mesh
try translate heat.c
try restore heat.stubs
try sample 2 --workers 2
try sample 2 --ranks 2 --chain
printf '0\n1\n0\n' >"$work/ranks"
try_tools pick residual.c residual.mesh residual.out r.txt
try_tools graph residual.c residual.mesh pe
try_tools owners residual.c residual.mesh --ranks 2 --parts grow:pe
try_tools owners residual.c residual.mesh --ranks 2 --metis "$work/ranks" --set nodes
try_tools stat residual.c residual.mesh --ranks 2
try_tools draw sample2.c sample2.mesh --coords x --cells pcell --ranks 2
try_tools vtk paths.c paths.mesh --coords x --cells pblock --ranks 2 --output paths.out
try_tools from-gmsh cube.msh --scale 100
try_tools from-gmsh cube.msh --scale 100 --source
try_tools explain run residual.c cube.mesh --ranks 2
exit "$bad"
