#!/usr/bin/env python3
"""Calls tools/check with programs that are none, and compares its lines and its status: of a name that there isn't, of checks that pass, fail and lack a tool,
of a program that can't be called, of a program whose path has a space, and of an interrupt, behind which nothing runs on. Ends with 1 where one differs.
Usage: tests/check_itself.py
"""
import os, pathlib, re, signal, subprocess, sys, tempfile, time
from programs import top

bad = 0


def differs(what, found, wanted):
    global bad
    if found != wanted:
        bad += 1
        print(f"differs: {what}: {found!r} and not {wanted!r}")


def environment(folder, **more):
    """That of a call: its temporary files are in the folder, and no program is named."""
    return {name: text for name, text in os.environ.items() if name not in ("OP2", "OP2_TOOLS")} | {"TMPDIR": str(folder)} | more


def call(folder, *words, **more):
    """The status of a call of tools/check, and its lines without seconds and logs."""
    done = subprocess.run([sys.executable, top / "tools/check", *words], env=environment(folder, **more), capture_output=True, text=True, timeout=600)
    return done.returncode, [re.sub(r" \d+ s\b", " N s", re.sub(r"log .*", "log L", line)) for line in done.stdout.splitlines()]


def program(folder, name, body):
    """A program that tells its version, and else does what the body says."""
    path = folder / name
    path.write_text(f'#!/bin/sh\n[ "$1" = --version ] && exit 0\n{body}\n')
    path.chmod(0o755)
    return str(path)


def runs(number):
    """Whether a process runs: it may have ended where nobody has taken its status yet."""
    try:
        return pathlib.Path(f"/proc/{number}/stat").read_text().rpartition(")")[2].split()[0] != "Z"
    except FileNotFoundError:
        return False


def try_interrupt(folder):
    """The check that runs is ended, and its files are gone."""
    slow = program(folder, "slow", f'echo $$ >"{folder}/number.new"; mv "{folder}/number.new" "{folder}/number"; exec sleep 600')
    own = folder / "own"
    own.mkdir()
    words = [sys.executable, top / "tools/check", "--op2", slow, "idioms"]
    asked = subprocess.Popen(words, env=environment(own), stdout=subprocess.PIPE, stderr=subprocess.PIPE)
    while asked.poll() is None and not (folder / "number").exists():
        time.sleep(0.05)
    asked.send_signal(signal.SIGINT)
    out, err = asked.communicate(timeout=60)
    differs("an interrupt", (asked.returncode, out, err), (130, b"", b"tools/check: interrupted\n"))
    differs("what an interrupted check started", runs(int((folder / "number").read_text())), False)
    differs("files behind an interrupt", list(own.iterdir()), [])


def main():
    with tempfile.TemporaryDirectory(suffix=" with a space") as name:
        folder = pathlib.Path(name)
        logs, none = folder / "logs", folder / "none"
        logs.mkdir()
        none.mkdir()
        silent = program(folder, "a silent program", "exit 0")
        differs("a name that there isn't", call(logs, "lent", "nonsense"), (2, []))
        differs("a check that passes", call(logs, "error_texts"), (0, ["ok error_texts N s", "1 passed, 0 failed, 0 skipped"]))
        differs("files behind what passes", list(logs.iterdir()), [])
        wanted = ["skipped compilers: needs gcc or clang", "0 passed, 0 failed, 1 skipped"]
        differs("a missing tool", call(logs, "--op2", silent, "compilers", PATH=str(none)), (0, wanted))
        differs("a check that fails", call(logs, "--op2", silent, "idioms"), (1, ["FAILED idioms N s, log L", "0 passed, 1 failed, 0 skipped"]))
        differs("the log of what fails", [path.name for path in logs.glob("*/*.log")], ["idioms.log"])
        wanted = ["FAILED op2 N s, its lines stand above", "skipped idioms: needs op2", "0 passed, 1 failed, 1 skipped"]
        differs("no program", call(logs, "--op2", str(folder / "nothing"), "idioms"), (1, wanted))
        differs("a program that ends with 1", call(logs, "--op2", "/bin/false", "idioms"), (1, wanted))
        try_interrupt(folder)
    print(f"{bad} differences")
    return bad > 0


sys.exit(main())
