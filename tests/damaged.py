#!/usr/bin/env python3
"""Runs the program over damaged copies of an example's source, its translation, its mesh, a state text, a partition text, a plan text and a schedule text: cut
at a place, with a byte changed, or with a word left out or twice. Each run must end with a status from 0 to 10 or 12 to 14 and at most one line on
standard error, and with nothing on standard output where its status is none of 0, 4 and 9. Ends with 1 where a run doesn't.
Usage: tests/damaged.py [OP2] [--copies N] [--seed N]     (a program; else what OP2 names, else that of the repository; N copies of each file, else 100)
"""
import argparse, collections, pathlib, random, re, subprocess, sys, tempfile
from programs import programs, top

WAYS = {  # the calls that read a file
    "s.c": [["run", "s.c", "m.mesh"], ["run", "s.c", "m.mesh", "--ranks=3", "--seed=2", "--workers=2", "--dump"],
            ["run", "s.c", "m.mesh", "--ranks=3", "--chain", "--dump"], ["translate", "s.c"], ["state", "s.c", "m.mesh", "--at=12"]],
    "m.mesh": [["run", "s.c", "m.mesh"], ["plan", "s.c", "m.mesh", "--ranks=2"], ["check", "s.c", "m.mesh", "--ranks=2", "--chain"], ["convert", "m.mesh"]],
    "t": [["run", "s.c", "m.mesh", "--ranks=2", "--schedule=t"], ["check", "s.c", "m.mesh", "--ranks=2", "--schedule=t"]],
    "f": [[job, "s.c", "m.mesh", "--from=f", "--ranks=2"] for job in ("run", "schedule")],
    "c": [[job, "s.c", "m.mesh", "--ranks=2", "--renumber=joined", "--plan=c"] for job in ("run", "schedule")],
    "u.c": [["restore", "u.c"]],
    "p": [["run", "s.c", "m.mesh", "--ranks=2", "--partition=p"], ["run", "s.c", "m.mesh", "--ranks=2", "--partition=p", "--chain"]],
}


def run(op2, folder, *words):
    return subprocess.run([op2, *words], cwd=folder, capture_output=True, timeout=120)


def written(op2, folder, *words):
    done = run(op2, folder, *words)
    if done.returncode:
        sys.exit(f"{' '.join(words)}: {done}")
    return done.stdout


def partition_of(source, mesh, draw):
    """A text of owners on two ranks, drawn for each element of each set."""
    words, lines = mesh.split(), [b"op2part 1"]
    for entry, name in re.findall(rb'op_decl_set\((\w+), "(\w+)"\)', source):
        size = int(words[words.index(entry) + 1])
        lines.append(b"set %s %d " % (name, size) + b" ".join(b"%d" % draw.randrange(2) for _ in range(size)))
    return b"\n".join([*lines, b"done\n"])


def texts_of(op2, folder, draw):
    """The files by name."""
    texts = {"s.c": (top / "examples/heat.c").read_bytes(), "m.mesh": (top / "examples/heat.mesh").read_bytes()}
    for file, text in texts.items():
        (folder / file).write_bytes(text)
    texts["t"] = written(op2, folder, "schedule", "s.c", "m.mesh", "--ranks", "2", "--seed", "5", "--workers", "3")
    texts["f"] = (top / "examples/heat.state").read_bytes()
    texts["c"] = (top / "examples/heat.colours").read_bytes()
    texts["u.c"] = written(op2, folder, "translate", "s.c")
    texts["p"] = partition_of(texts["s.c"], texts["m.mesh"], draw)
    for file, text in texts.items():
        (folder / file).write_bytes(text)
    return texts


def damaged(draw, text):
    at, kind = draw.randrange(len(text)), draw.randrange(4)
    if kind == 0:
        return text[:at]
    if kind == 1:
        return text[:at] + bytes([draw.randrange(256)]) + text[at + 1:]
    words = text.split(b" ")
    at = draw.randrange(len(words))
    return b" ".join(words[:at] + (words[at:at + 1] * 2 if kind == 3 else []) + words[at + 1:])


def is_right(done):
    status, lines = done.returncode, done.stderr.count(b"\n")
    return status in (*range(11), 12, 13, 14) and lines == (status != 0) and (status in (0, 4, 9) or not done.stdout)


def main():
    words = argparse.ArgumentParser()
    words.add_argument("op2", nargs="?")
    words.add_argument("--copies", type=int, default=100)
    words.add_argument("--seed", type=int, default=1)
    asked = words.parse_args()
    (op2, _), draw = programs(asked.op2), random.Random(asked.seed)
    bad, statuses = 0, collections.Counter()
    with tempfile.TemporaryDirectory() as name:
        folder = pathlib.Path(name)
        for file, text in texts_of(op2, folder, draw).items():
            for _ in range(asked.copies):
                copy = damaged(draw, text)
                (folder / file).write_bytes(copy)
                for words in WAYS[file]:
                    done = run(op2, folder, *words)
                    statuses[done.returncode] += 1
                    if not is_right(done):
                        bad += 1
                        print("wrong:", words, file, done.returncode, done.stderr[:200], copy[:200])
            (folder / file).write_bytes(text)
    print("runs by status:", ", ".join(f"{status}: {count}" for status, count in sorted(statuses.items())))
    return bad > 0


sys.exit(main())
