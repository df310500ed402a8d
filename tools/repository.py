"""The crates of this repository as crates.txt names them, the sums of their texts, and the kit: what ./prove and the
scripts of tools/ build by.

Called by itself it prints how many proofs can run side by side here."""
import functools
import hashlib
import os
import shutil
import subprocess
import sys

TOP = os.path.dirname(os.path.dirname(os.path.realpath(__file__)))
BUILD = f"{TOP}/build"

# The programs by the names that users give them.
PROGRAMS = {"op2": "op2_cli", "op2-tools": "op2_tools"}

# The memory that a proof may want.
LANE_BYTES = 5_000_000_000

# The folders of a crate whose texts make a program what it is: its code, and what has been proved of that. A proof that was
# found stays one, whatever becomes of its text.
PARTS = {"compiled": ("src",), "proved": ("src", "specs")}


def read_crates(top=TOP):
    """For each crate the libraries that its line in crates.txt names, the kit's too."""
    crates = {}
    with open(f"{top}/crates.txt", encoding="utf-8") as lines:
        for line in lines:
            head, colon, rest = line.partition("#")[0].partition(":")
            if colon:
                crates[head.split()[0]] = rest.split()
    return crates


def below(crates, tops):
    """The crates that some stand on and these themselves, each after those that it uses."""
    found = []

    def visit(crate):
        if crate in crates and crate not in found:
            for used in crates[crate]:
                visit(used)
            found.append(crate)

    for crate in tops:
        visit(crate)
    return found


def text_sum(top, crate, parts):
    """A sum of the crate's files in these of its folders."""
    total = hashlib.sha256()
    for part in parts:
        for at, folders, files in os.walk(f"{top}/crates/{crate}/{part}"):
            folders.sort()
            for name in sorted(files):
                with open(f"{at}/{name}", "rb") as it:
                    text = it.read()
                total.update(f"{os.path.relpath(at, top)}/{name} {len(text)}\n".encode())
                total.update(text)
    return total.hexdigest()


def sums(crates, tops, parts, top=TOP):
    """By crate, a sum of its texts in these folders, its line, and those of the crates that it stands on."""
    found = {}
    for crate in below(crates, tops):
        uses = [f"{used} {found.get(used, '')}" for used in crates[crate]]
        texts = [text_sum(top, crate, parts), *uses]
        found[crate] = hashlib.sha256("\n".join(texts).encode()).hexdigest()
    return found


def count_lanes():
    """How many proofs can run side by side: one a processor, as far as free memory has room for them."""
    with open("/proc/meminfo", encoding="utf-8") as lines:
        free = next(int(line.split()[1]) * 1024 for line in lines if line.startswith("MemAvailable:"))
    return max(1, min(len(os.sched_getaffinity(0)), free // LANE_BYTES))


def kit_folder():
    """The kit's folder, which holds the page that `rt doc` names; None where there is no kit."""
    if not shutil.which("rt"):
        return None
    said = subprocess.run(["rt", "doc"], stdin=subprocess.DEVNULL, capture_output=True, text=True, check=False)
    return os.path.dirname(said.stdout.strip()) if said.returncode == 0 else None


@functools.lru_cache(maxsize=None)
def kit_line():
    """The line by which the kit names itself; None where there is no kit."""
    if not shutil.which("rt"):
        return None
    said = subprocess.run(["rt", "version"], stdin=subprocess.DEVNULL, capture_output=True, text=True, check=False)
    return said.stdout.strip()


def clock(seconds):
    """So many seconds as minutes and seconds."""
    return f"{int(seconds) // 60}:{int(seconds) % 60:02d}"


def tell(line):
    print(line, file=sys.stderr, flush=True)


class Stamp:
    """What something was made of: a file beside it with the kit's line and the sum of the texts, as old as the reading of these, so that
    a text that is newer is one that may have changed."""

    def __init__(self, made, ending="stamp"):
        self.made, self.file = made, f"{made}.{ending}"

    def holds(self, total):
        """Whether it is there, and was made of texts with this sum by this kit, or by any where there is none."""
        try:
            with open(self.file, encoding="utf-8") as it:
                kit, found = it.read().splitlines()
        except (OSError, ValueError):
            return False
        return os.path.exists(self.made) and found == total and kit_line() in (kit, None)

    def write(self, total, began):
        """Notes the sum of the texts, which were read at that time."""
        with open(f"{self.file}.new", "w", encoding="utf-8") as it:
            it.write(f"{kit_line()}\n{total}\n")
        os.utime(f"{self.file}.new", (began, began))
        os.replace(f"{self.file}.new", self.file)

    def refresh(self, began):
        """Notes that the texts are still the same."""
        try:
            os.utime(self.file, (began, began))
        except OSError:
            pass  # a tree that can't be written: the next call compares the sums again


def program_stamp(name, kind):
    """That of a program, 'proved' or 'compiled', by the name that users give it."""
    return Stamp(f"{BUILD}/{kind}/{name}")


if __name__ == "__main__":
    print(count_lanes())
