#!/usr/bin/env python3
"""Compares docs/STATEMENT.md with the repository: the clause of `op2` as it stands in the code, the lines of each definition's file, that each definition is
there, and how large all that it cites is. Ends with 1 where one differs.
Usage: tests/statement.py [--write]     (--write: writes the numbers of lines into the page)
"""
import pathlib, re, subprocess, sys

top = pathlib.Path(__file__).resolve().parent.parent
page = (top / "docs/STATEMENT.md").read_text()
counted = subprocess.run([top / "tools/cited", "-v"], capture_output=True, text=True, check=True).stdout
files, crates = {}, {}
for lines, crate, name in re.findall(r"^ *(\d+) crates/(\w+)/specs/(\w+)\.antt$", counted, re.M):
    files[crate, name] = int(lines)
    crates[crate] = crates.get(crate, 0) + int(lines)
bad = 0


def differs(what):
    global bad
    bad += 1
    print("differs:", what)


clause = page.split("```")[1].strip("\n")
if clause not in (top / "crates/op2_command/src/top.rt").read_text():
    differs("the clause of op2")
writes, said = sys.argv[1:] == ["--write"], page
total = counted.splitlines()[-1].strip()
said = re.sub(r"^\d+ +\d+ +\d+  of \d+ crates; of the kit: .*$", total, said, flags=re.M)
if total not in page and not writes:
    differs("what it cites: " + total)
rows = [line.split(" | ") for line in page.splitlines() if line.startswith("| ") and line.count(" | ") == 4 and "| Lines |" not in line]
for _, definitions, place, lines, _ in rows:
    parts = re.findall(r"[\w]+", place.replace(" and ", " "))
    wanted, read = [], []
    for at, part in enumerate(parts):
        if part[0].isupper():
            crate = next(p for p in reversed(parts[:at]) if p[0].islower())
            wanted.append(files.get((crate, part)))
            read.append((crate, part))
        elif at + 1 == len(parts) or parts[at + 1][0].islower():
            wanted.append(crates.get(part))
            read.append((part, None))
    found = [int(n) for n in re.findall(r"\d+", lines)]
    if found != wanted and writes and None not in wanted:
        left = iter(wanted)
        said = said.replace(f"| {place} | {lines} |", f"| {place} | " + re.sub(r"\d+", lambda _: str(next(left)), lines) + " |")
    elif found != wanted:
        differs(f"{place}: {found} and not {wanted}")
    text = "".join(
        path.read_text() for crate, name in read for path in (top / "crates" / crate / "specs").glob(f"{name or '*'}.antt"))
    for name in re.findall(r"`(\w+)`", definitions):
        if not re.search(rf"pub (record |data )?{name}\b", text):
            differs(f"{place} has no {name}")
if writes:
    (top / "docs/STATEMENT.md").write_text(said)
print(f"{len(rows)} rows, {bad} differences")
sys.exit(bad > 0)
