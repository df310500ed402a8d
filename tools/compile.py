#!/usr/bin/env python3
"""Compiles a program of this repository without any proof.

    compile.py CRATE FILE [TOP]     the program of a crate, as op2_cli, into FILE; TOP is another checkout

`rt try` compiles a program that nobody has proved: it has the kit's clang make object code of one module in LLVM's form.
Here it runs over a view of the kit, in which a script stands in for that clang: the script keeps the module of the program,
which clang then compiles for speed. The checks of indices, overflow and the like, which proofs make needless, stay in it.
"""
import os
import shlex
import signal
import subprocess
import sys
import tempfile
import time

sys.dont_write_bytecode = True
from repository import TOP, clock, kit_folder, tell

# The kit's own words for a proved program, but for the level.
CLANG = """--target=x86_64-unknown-linux-gnu -march=x86-64-v2 -mllvm -no-trap-after-noreturn -ffunction-sections -fdata-sections
    -mllvm -trap-unreachable -mllvm -no-x86-call-frame-opt --no-default-config -no-canonical-prefixes -fintegrated-cc1
    -fno-crash-diagnostics -fPIE""".split()

# The level of optimisation; the kit compiles what is proved at -O3.
LEVEL = "-O2"

# `rt try` compiles the program with checks of addresses, and another module, of their settings, without.
STAND_IN = """#!/bin/sh
for word in "$@"; do
    case $word in
        *.bc) module=$word ;;
        -fsanitize=address) is_program=yes ;;
    esac
done
[ -n "$is_program" ] || exec {clang} "$@"
cp "$module" {kept}
exit 1
"""


class NotCompiled(Exception):
    """Why a program could not be compiled."""


def link_all(source, target, but=()):
    """Links what stands in a folder into another, all but some names."""
    os.makedirs(target)
    for name in os.listdir(source):
        if name not in but:
            os.symlink(os.path.realpath(f"{source}/{name}"), f"{target}/{name}")


def view_of(kit, view, kept):
    """Makes a view of the kit, in which clang keeps the module of a program in a file, and fails."""
    link_all(kit, view, ("bin", "toolchain"))
    link_all(f"{kit}/bin", f"{view}/bin", ("rt", "rtlib.py"))
    link_all(f"{kit}/toolchain", f"{view}/toolchain", ("bin",))
    link_all(f"{kit}/toolchain/bin", f"{view}/toolchain/bin", ("clang",))
    for name in ("rt", "rtlib.py"):  # they look for the kit where they stand themselves
        with open(f"{kit}/bin/{name}", "rb") as it, open(f"{view}/bin/{name}", "wb") as to:
            to.write(it.read())
    clang = f"{view}/toolchain/bin/clang"
    with open(clang, "w", encoding="utf-8") as to:
        to.write(STAND_IN.format(clang=shlex.quote(f"{kit}/toolchain/bin/clang"), kept=shlex.quote(kept)))
    os.chmod(clang, 0o755)
    os.chmod(f"{view}/bin/rt", 0o755)


def call(words, folder, environment=None):
    """Runs a command to its end, and gives its status and what it said; ends it where this call is ended."""
    with subprocess.Popen(
        words,
        cwd=folder,
        env=environment,
        stdin=subprocess.DEVNULL,
        stdout=subprocess.PIPE,
        stderr=subprocess.STDOUT,
        text=True,
        errors="replace",
        start_new_session=True,
    ) as process:
        try:
            said = process.communicate()[0]
        except BaseException:
            os.killpg(process.pid, signal.SIGTERM)
            raise
    return process.returncode, said


def last_lines(said):
    return "; ".join(said.strip().splitlines()[-3:])


def read_module(kit, crate, top, work):
    """Has the kit read the program and all that it stands on, and gives the file of its module."""
    module = f"{work}/program.bc"
    try:
        view_of(kit, f"{work}/kit", module)
    except OSError as error:
        raise NotCompiled(f"this kit is laid out otherwise: {error}") from error
    os.mkdir(f"{work}/tmp")
    words = [f"{work}/kit/bin/rt", "try", "--steps", "1", "--seconds", "1", "--", "--version"]
    said = call(words, f"{top}/crates/{crate}", {**os.environ, "TMPDIR": f"{work}/tmp"})[1]
    if not os.path.isfile(module):
        raise NotCompiled(f"rt try handed no program to clang: {last_lines(said)}")
    return module


def link(kit, module, work, level):
    """Compiles and links the module, and gives the file of the program."""
    made, program = f"{work}/program.o", f"{work}/program"
    clang = [f"{kit}/toolchain/bin/clang", f"--sysroot={kit}/toolchain", *CLANG, level]
    status, said = call([*clang, "-c", "-x", "ir", module, "-o", made], work)
    if status:
        raise NotCompiled(f"clang ended with {status}: {last_lines(said)}")
    linker = [f"{kit}/bin/rattle-link", "--target", "x86_64-unknown-linux-gnu", "--toolchain", f"{kit}/toolchain"]
    libraries = [f"{kit}/c/libos_c.a", f"{kit}/c/liblibc_c.a"]
    status, said = call([*linker, "-o", program, made, *libraries], work)
    if status:
        raise NotCompiled(f"rattle-link ended with {status}: {last_lines(said)}")
    return program


def compile_program(crate, target, top=TOP, say=lambda step: None, level=LEVEL):
    """Compiles the program of a crate into a file, at that level of optimisation. It says each step as it begins, or raises NotCompiled."""
    kit = kit_folder()
    if not kit:
        raise NotCompiled("the command rt is missing, or names no kit")
    with tempfile.TemporaryDirectory(prefix="op2-compile-", dir=os.path.dirname(os.path.abspath(target))) as work:
        say("reading the crates")
        module = read_module(kit, crate, top, work)
        say("compiling")
        os.replace(link(kit, module, work, level), target)


def main():
    if len(sys.argv) not in (3, 4):
        tell(__doc__.strip())
        return 2
    began = time.time()
    try:
        compile_program(*sys.argv[1:], say=lambda step: tell(f"{clock(time.time() - began)} {step}"))
    except NotCompiled as error:
        tell(f"compile.py: {error}")
        return 1
    tell(f"{clock(time.time() - began)} done")
    return 0


if __name__ == "__main__":
    signal.signal(signal.SIGTERM, lambda number, _: sys.exit(128 + number))
    sys.exit(main())
