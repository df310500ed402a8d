"""Runs `rt ci` in a clone and looks each second at the processes that prove: what a crate's proof, tests and edits take.

    gate.py CLONE LOG [KEPT]

A process that ends between two looks is counted up to the last of them, so sums are a little low."""
import os
import subprocess
import sys
import time

clone, log = sys.argv[1:3]
TICK = os.sysconf("SC_CLK_TCK")
KINDS = ("proof", "tests", "edits")


def uses():
    """The libraries of the repository that each crate names in crates.txt."""
    named = {}
    with open(f"{clone}/crates.txt") as lines:
        for line in lines:
            head, colon, rest = line.partition("#")[0].partition(":")
            if colon:
                named[head.split()[0]] = rest.split()
    return {crate: [it for it in rest if it in named] for crate, rest in named.items()}


def look(found, now):
    """Notes each process of the prover by its number: the crate, what it is for, its seconds so far, and when it was seen."""
    for pid in filter(str.isdigit, os.listdir("/proc")):
        try:
            with open(f"/proc/{pid}/cmdline", "rb") as it:
                words = it.read().decode(errors="replace").split("\0")
            if not words[0].endswith("rattle") or "--crate-name" not in words:
                continue
            at = os.readlink(f"/proc/{pid}/cwd")
            with open(f"/proc/{pid}/stat") as it:
                stat = it.read().rpartition(")")[2].split()
        except OSError:
            continue
        is_edit = os.path.basename(at).startswith("rt-edit-")
        if not is_edit and not at.startswith(clone):
            continue
        kind = "edits" if is_edit else "tests" if "--test" in words else "proof"
        crate = words[words.index("--crate-name") + 1]
        first = found[pid][3] if pid in found else now
        found[pid] = (crate, kind, (int(stat[11]) + int(stat[12])) / TICK, first, now)


def run():
    """Runs the gate; gives its last line, its wall seconds, and the processes that were seen."""
    found, began = {}, time.time()
    with open(log, "w") as out:
        lanes = subprocess.run([sys.executable, "tools/repository.py"], cwd=clone, capture_output=True, text=True, check=True).stdout.strip()
        environment = {**os.environ, "RT_JOBS": lanes}
        gate = subprocess.Popen(["rt", "ci"], cwd=clone, env=environment, stdout=out, stderr=out, stdin=subprocess.DEVNULL)
        while gate.poll() is None:
            look(found, time.time() - began)
            time.sleep(1)
    with open(log) as lines:
        last = lines.readlines()[-1:]
    return "".join(last).strip(), time.time() - began, found


def chain(named, seconds):
    """The longest chain of proofs that wait for each other: its seconds, and its crates, lowest first."""
    longest = {}

    def of(crate):
        if crate not in longest:
            below = max((of(it) for it in named[crate]), default=(0, []))
            longest[crate] = (below[0] + seconds.get(crate, 0), below[1] + [crate])
        return longest[crate]

    return max(of(crate) for crate in named)


last, wall, found = run()
spent, seen = {}, {}
for crate, kind, seconds, first, now in found.values():
    spent[crate, kind] = spent.get((crate, kind), 0) + seconds
    begun, ended = seen.get((crate, kind), (first, now))
    seen[crate, kind] = (min(begun, first), max(ended, now))
crates = sorted({crate for crate, _ in spent}, key=lambda it: -sum(spent.get((it, kind), 0) for kind in KINDS))
print("| Crate | proof | tests | edits | all | proved after, minutes |\n|---|---|---|---|---|---|")
for crate in crates:
    parts = [spent.get((crate, kind), 0) for kind in KINDS]
    cells = " | ".join(f"{it:.0f}" if it else "" for it in [*parts, sum(parts)])
    print(f"| {crate} | {cells} | {seen.get((crate, 'proof'), (0, 0))[1] / 60:.1f} |")
sums = [sum(it for (_, other), it in spent.items() if other == kind) / 60 for kind in KINDS]
print(f"| all, minutes | {' | '.join(f'{it:.0f}' for it in [*sums, sum(sums)])} | |\n")
proofs = {crate: it for (crate, kind), it in spent.items() if kind == "proof"}
length, path = chain(uses(), proofs)
print(f"longest chain: {length / 60:.1f} minutes of a processor: {', '.join(path)}")
print(f"wall time: {wall / 60:.1f} minutes on {len(os.sched_getaffinity(0))} processors; {last}")
if len(sys.argv) > 3:
    with open(sys.argv[3], "w") as out:
        out.write("# seconds of a processor that the proof of each crate took in the gate, as bench/gate.sh --keep wrote them\n")
        out.writelines(f"{crate} {seconds:.0f}\n" for crate, seconds in sorted(proofs.items()))
