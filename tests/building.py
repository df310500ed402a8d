#!/usr/bin/env python3
"""Tries the scripts op2, op2-tools and prove in a tree of five small crates, over a kit that only looks like one: its compiler takes any text, and its linker makes
a program that tells what it was made of. Ends with 1 where something differs.
Usage: tests/building.py
"""
import os, pathlib, shutil, signal, subprocess, sys, tempfile, time

top = pathlib.Path(__file__).resolve().parent.parent
CRATES = {"low": "", "mid": "low", "side": "low", "op2_cli": "mid side", "op2_tools": "mid"}
RT = """#!/bin/sh
kit=$(dirname -- "$(dirname -- "$(readlink -f -- "$0")")")
case $1 in
    doc) echo "$kit/START-HERE.md" ;;
    version) cat "$kit/KIT-ID" ;;
    try)
        crate=${PWD##*/}
        [ ! -e "$kit/no-modules" ] || { echo this kit tries otherwise; exit 2; }
        cd "$TMPDIR" || exit
        echo settings >module.bc && "$kit/toolchain/bin/clang" -c -x ir module.bc -o module.o || exit
        echo "compiled $crate" >module.bc && "$kit/toolchain/bin/clang" -fsanitize=address -c -x ir module.bc -o module.o
        exit 2 ;;
esac
"""
COPY = """#!/bin/sh
while [ $# -gt 0 ]; do
    case $1 in -o) to=$2 ;; *.bc) from=$1 ;; esac
    shift
done
cp "$from" "$to"
"""
PROVER = """#!/bin/sh
while [ $# -gt 0 ]; do
    case $1 in -o) to=$2 ;; --crate-name) crate=$2 ;; esac
    shift
done
echo "begins $crate" >>"$KIT_LOG"
sleep 0.4
! grep -q broken src/* || { echo "ends $crate" >>"$KIT_LOG"; echo "not proved: $crate"; exit 1; }
echo "ends $crate" >>"$KIT_LOG"
case $to in *.rlib) mkdir -p "$to" ;; *) echo "proved $crate" >"$to" ;; esac
"""
LINKER = """#!/bin/sh
while [ $# -gt 0 ]; do
    case $1 in -o) to=$2 ;; *.o) from=$1 ;; esac
    shift
done
printf '#!/bin/sh\\necho "%s" "$@"\\n' "$(cat "$from")" >"$to"
chmod +x "$to"
"""
faults = 0


def holds(what, is_so, told=""):
    global faults
    if not is_so:
        faults += 1
        print(f"{what}: {told}")


def write(path, text, mode=0o644):
    path.parent.mkdir(parents=True, exist_ok=True)
    path.write_text(text)
    path.chmod(mode)


class Place:
    """A tree with its kit, in a folder whose path has a space."""

    def __init__(self, folder):
        self.tree, self.kit, self.log = folder / "a tree", folder / "a kit", folder / "log"
        for name, text in {"bin/rt": RT, "bin/rtlib.py": "", "bin/rattle": PROVER, "bin/rattle-link": LINKER, "toolchain/bin/clang": COPY}.items():
            write(self.kit / name, text, 0o755)
        for name in ("KIT-ID", "START-HERE.md", "c/libos_c.a", "c/liblibc_c.a", "rlibs/none", "toolchain/lib/none"):
            write(self.kit / name, "a kit\n")
        for name in ("op2", "op2-tools", "prove", "tools/run", "tools/build", "tools/compile.py", "tools/repository.py"):
            write(self.tree / name, (top / name).read_text(), 0o755)
        write(self.tree / "crates.txt", "".join(f"{crate}: {uses}\n" for crate, uses in CRATES.items()))
        write(self.tree / "bench/proof_seconds.txt", "# seconds\nlow 1\n")
        for crate in CRATES:
            for name in (f"src/{'main' if crate.startswith('op2') else 'lib'}.rt", "specs/Lib.antt", "proofs/Lib.antt"):
                write(self.tree / "crates" / crate / name, f"{crate}\n")
        self.path = f"{self.kit}/bin:{os.path.dirname(sys.executable)}:/usr/bin:/bin"

    def words(self, **more):
        return {"PATH": self.path, "KIT_LOG": str(self.log), "HOME": str(self.tree), **more}

    def call(self, words, **more):
        """Status, output and error of a command of the tree."""
        done = subprocess.run([self.tree / words[0], *words[1:]], env=self.words(**more), capture_output=True, text=True, cwd="/", timeout=60)
        return done.returncode, done.stdout, done.stderr

    def begin_proof(self, **more):
        return subprocess.Popen([self.tree / "prove"], env=self.words(**more), stdout=subprocess.PIPE, stderr=subprocess.PIPE, text=True)

    def proofs(self):
        """What the prover did since it was asked last."""
        lines = self.log.read_text().split("\n")[:-1] if self.log.exists() else []
        self.log.write_text("")
        return lines

    def change(self, name):
        with open(self.tree / "crates" / name, "a", encoding="utf-8") as it:
            it.write("more\n")


def try_compiling(place):
    status, out, err = place.call(["op2", "a", "b c"])
    holds("a first call compiles, and says so", (status, out) == (0, "compiled op2_cli a b c\n") and "not been proved" in err and "./prove" in err, err)
    holds("a second call is silent", place.call(["op2"]) == (0, "compiled op2_cli\n", ""))
    holds("the tools are compiled by their own script", place.call(["op2-tools"])[:2] == (0, "compiled op2_tools\n"))
    os.utime(place.tree / "crates/mid/src/lib.rt")
    holds("a text that is as it was compiles nothing", place.call(["op2"]) == (0, "compiled op2_cli\n", ""))
    place.change("mid/proofs/Lib.antt")
    holds("nor does a proof", place.call(["op2"])[2] == "")
    place.change("mid/src/lib.rt")
    holds("code does", "compiling" in place.call(["op2"])[2])
    link = place.tree.parent / "link"
    link.symlink_to(place.tree / "op2")
    done = subprocess.run([link], env=place.words(), capture_output=True, text=True, check=False)
    holds("by a link from another folder", (done.stdout, done.stderr) == ("compiled op2_cli\n", ""), done)


def try_choosing(place):
    holds("a choice that there isn't", place.call(["op2"], OP2_BUILD="fast")[0] == 70)
    bare = place.tree.parent / "bare"
    bare.mkdir()
    for command in ("sh", "env", "readlink", "find", "dirname"):
        (bare / command).symlink_to(shutil.which(command))
    holds("a program that is there needs no kit", place.call(["op2"], PATH=str(bare))[:2] == (0, "compiled op2_cli\n"))
    status, _, err = place.call(["op2"], PATH=str(bare), OP2_BUILD="proved")
    holds("no python3", status == 69 and "python3" in err, err)
    (bare / "python3").symlink_to(sys.executable)
    for command, choice in (("op2", "proved"), ("prove", "")):
        status, _, err = place.call([command], PATH=str(bare), OP2_BUILD=choice)
        holds(f"{command} without a kit", status == 69 and "install a kit" in err, err)


def try_proving(place):
    status, out, err = place.call(["op2"], OP2_BUILD="proved", OP2_LANES="2")
    lines = place.proofs()
    holds("what is insisted on is proved", (status, out) == (0, "proved op2_cli\n"), err)
    holds("each crate once, what it uses before it", sorted(lines) == sorted(f"{word} {it}" for it in CRATES for word in ("begins", "ends"))
          and lines.index("ends low") < min(lines.index("begins mid"), lines.index("begins side")), lines)
    holds("two side by side", max(lines.index("begins mid"), lines.index("begins side")) < min(lines.index("ends mid"), lines.index("ends side")), lines)
    holds("with how far it is", "5 of 5" in err and "minutes" in err, err)
    holds("the proved program is taken from then on", place.call(["op2-tools", "x"]) == (0, "proved op2_tools x\n", ""))
    holds("the other one where it is insisted on", place.call(["op2"], OP2_BUILD="compiled")[:2] == (0, "compiled op2_cli\n"))
    place.change("side/proofs/Lib.antt")
    holds("a proof that changed leaves the program", place.call(["op2"])[:2] == (0, "proved op2_cli\n"))
    status, _, err = place.call(["prove"], OP2_LANES="1")
    lines = place.proofs()
    holds("it is proved again, with what stands on it", status == 0 and lines == ["begins side", "ends side", "begins op2_cli", "ends op2_cli"], lines)
    place.change("mid/specs/Lib.antt")
    holds("a definition that changed does not", place.call(["op2"])[:2] == (0, "compiled op2_cli\n"))
    holds("lanes that are no number", place.call(["prove"], OP2_LANES="0")[0] == 2)


def try_failing(place):
    source = place.tree / "crates/side/src/lib.rt"
    text = source.read_text()
    source.write_text("broken\n")
    status, _, err = place.call(["prove"], OP2_LANES="1")
    holds("a crate that isn't proved", status == 1 and "side is not proved" in err and "logs/side.log" in err, err)
    holds("its log", "not proved: side" in (place.tree / "build/logs/side.log").read_text())
    holds("there is still a program", place.call(["op2"])[:2] == (0, "compiled op2_cli\n"))
    source.write_text(text)
    place.call(["prove"])
    place.proofs()


def try_ending(place):
    place.change("low/src/lib.rt")
    first = place.begin_proof(OP2_LANES="1")
    while "begins mid" not in place.log.read_text():
        time.sleep(0.05)
    first.send_signal(signal.SIGINT)
    _, err = first.communicate(timeout=20)
    holds("an interrupt ends it, and says that the rest stays", first.returncode == 130 and "goes on from there" in err, err)
    time.sleep(1)
    holds("and its proofs", "ends mid" not in place.proofs())
    both = [place.begin_proof(OP2_LANES="1") for _ in range(2)]
    told = [it.communicate(timeout=60)[1] for it in both]
    lines = place.proofs()
    holds("two calls at once, of which one waits", [it.returncode for it in both] == [0, 0] and sum("waiting" in it for it in told) == 1, told)
    holds("what was proved isn't again", "begins low" not in lines and all(lines.count(it) == 1 for it in lines), lines)


def try_other_kits(place):
    (place.kit / "no-modules").write_text("")
    place.change("mid/src/lib.rt")
    status, out, err = place.call(["op2"])
    holds("where nothing can be compiled it is proved", (status, out) == (0, "proved op2_cli\n") and "this kit tries otherwise" in err, err)
    (place.kit / "no-modules").unlink()
    (place.kit / "KIT-ID").write_text("another kit\n")
    holds("another kit makes its own", place.call(["op2"])[:2] == (0, "compiled op2_cli\n"))
    for folder, folders, files in os.walk(place.tree):
        os.chmod(folder, 0o555)
    holds("a tree that can't be written", place.call(["op2"]) == (0, "compiled op2_cli\n", ""))
    for folder, folders, files in os.walk(place.tree):
        os.chmod(folder, 0o755)


def main():
    with tempfile.TemporaryDirectory(prefix="op2-building-") as folder:
        place = Place(pathlib.Path(folder))
        for part in (try_compiling, try_choosing, try_proving, try_failing, try_ending, try_other_kits):
            part(place)
    print(f"{faults} differ")
    return 1 if faults else 0


sys.exit(main())
