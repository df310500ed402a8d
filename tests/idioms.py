#!/usr/bin/env python3
"""Tries what OP2 codes have and op2 hasn't: runs each idiom of tests/idioms.toml, compares the line that op2 writes, and runs what the page says
to write instead, which must run. Then looks whether docs/PORTING.md has the tables that these idioms make. Ends with 1 where one differs.
Usage: tests/idioms.py [OP2]     (a program; else what OP2 names, else that of the repository)
       tests/idioms.py --tables  (prints the tables, and runs nothing)
"""
import pathlib, subprocess, sys, tempfile, tomllib
from programs import programs, top

data = tomllib.loads((top / "tests/idioms.toml").read_text())
page = (top / "docs/PORTING.md").read_text()


def edited(edits):
    """The base program with each text replaced, where it stands first, by the one behind it."""
    text = data["base"]
    for old, new in zip(edits[::2], edits[1::2]):
        assert old in text, old
        text = text.replace(old, new, 1)
    return text


def code(text):
    return "`` " + text.strip() + " ``" if "`" in text else "`" + text.strip().replace("|", "\\|") + "`"


def row(idiom):
    shown = code(idiom.get("shows") or idiom["edits"][-1])
    if "line" not in idiom:
        return f"| {idiom['name']} | {shown} | runs | as it is |"
    write = idiom.get("write") or code(idiom["instead"][-1])
    return f"| {idiom['name']} | {shown} | `{idiom['line'].removeprefix('op2: source ')}` | {write} |"


def tables():
    groups = dict.fromkeys(idiom["group"] for idiom in data["idiom"])
    for group in groups:
        rows = [row(idiom) for idiom in data["idiom"] if idiom["group"] == group]
        yield "\n".join([f"### {group}", "", "| Idiom | For example | Its line | Write |", "|---|---|---|---|", *rows, ""])


def run(op2, folder, source, mesh):
    (folder / "s.c").write_bytes(source.encode())
    (folder / "m.mesh").write_text(mesh)
    done = subprocess.run([op2, "run", "s.c", "m.mesh"], cwd=folder, capture_output=True, timeout=120)
    return done.returncode, done.stdout.decode(), done.stderr.decode()


def main():
    if sys.argv[1:] == ["--tables"]:
        print("\n".join(tables()))
        return 0
    op2, _ = programs(*sys.argv[1:])
    bad = 0
    with tempfile.TemporaryDirectory() as name:
        folder = pathlib.Path(name)
        for idiom in data["idiom"]:
            mesh = idiom.get("mesh", data["mesh"])
            line = idiom.get("line")
            wanted = (5, "", line + "\n") if line else (0, idiom["out"], "")
            found = run(op2, folder, edited(idiom["edits"]), mesh)
            if found != wanted:
                bad += 1
                print(f"differs: {idiom['name']}: {found} and not {wanted}")
            if "instead" in idiom:
                found = run(op2, folder, edited(idiom["instead"]), mesh)
                if found[0] != 0:
                    bad += 1
                    print(f"differs: {idiom['name']}, as it is to be written: {found}")
    for table in tables():
        if table not in page:
            bad += 1
            print(f"differs: docs/PORTING.md hasn't the table\n{table}")
    print(f"{len(data['idiom'])} idioms, {bad} differences")
    return bad > 0


if __name__ == "__main__":
    sys.exit(main())
