#!/usr/bin/env python3
"""Runs the commands that stand in the pages, in a copy of what they name: each block of shell, whose output is compared with the block that follows it at
once, and each session, in which commands begin with `$`. Ends with 1 where one differs, or fails where the page doesn't say so. A session of
`tools/graph_parts` is left out where Python has no networkx.
Usage: tests/sessions.py [OP2 [TOOLS]]     (programs; else what OP2 and OP2_TOOLS name, else those of the repository)
"""
import importlib.util, os, pathlib, re, shlex, shutil, subprocess, sys, tempfile
from programs import programs, top

op2, tools = programs(*sys.argv[1:])
pages = ["README.md", "examples/README.md"]
pages += [f"docs/{page}.md" for page in ("CHAINS", "COMPILERS", "GMSH", "OUTPUT", "PORTING", "STATEMENT", "TOOLS", "TUTORIAL")]
bad = tried = 0


def run(folder, command):
    found = {**os.environ, "PATH": f"{folder}:{os.environ['PATH']}"}
    done = subprocess.run(["bash", "-c", command], cwd=folder, env=found, stdout=subprocess.PIPE, stderr=subprocess.STDOUT, text=True, timeout=600)
    return done.returncode, done.stdout


def compare(page, command, found, wanted):
    global bad, tried
    tried += 1
    if sorted(map(str.strip, found.splitlines())) != sorted(map(str.strip, wanted.splitlines())):
        bad += 1
        print(f"differs: {page}: {command!r} writes {found!r} and not {wanted!r}")


with tempfile.TemporaryDirectory() as name:
    folder = pathlib.Path(name)
    for part in ("examples", "include", "tools"):
        shutil.copytree(top / part, folder / part)
    (folder / "crates").symlink_to(top / "crates")
    for name, program in (("op2", op2), ("op2-tools", tools)):
        (folder / name).write_text(f'#!/bin/sh\nexec {shlex.quote(str(program))} "$@"\n')
        (folder / name).chmod(0o755)
    for page in pages:
        parts = re.split(r"^```(\w*)\n(.*?)^```\n", (top / page).read_text(), flags=re.M | re.S)
        for at in range(1, len(parts), 3):
            kind, block, behind = parts[at : at + 3]
            if kind == "sh":
                block = re.sub(r"^tools/check.*\n", "", block, flags=re.M)  # which calls this script
                status, found = run(folder, block)
                if not behind.strip() and at + 3 < len(parts) and not parts[at + 3]:
                    compare(page, block, found, parts[at + 4])
                elif says := re.search(r"ends with status (\d+) and [^`]*`([^`]*)`", behind[:120]):
                    compare(page, block, f"{status} {found}", f"{says[1]} {says[2]}")
                else:
                    compare(page, block, f"{status}", "0")
            elif "tools/graph_parts" in block and not importlib.util.find_spec("networkx"):
                print(f"left out: {page}: a session that needs networkx")
            elif not kind and block.startswith("$ "):
                for command, wanted in re.findall(r"^\$ (.*)\n((?:(?!\$ ).*\n)*)", block, re.M):
                    compare(page, command, run(folder, command)[1], wanted)
print(f"{tried} commands, {bad} differences")
sys.exit(bad > 0)
