#!/usr/bin/env python3
"""Measures what a new user waits for: the first answer, ./prove, and the gate, each from a fresh clone of what is committed here, in a
new home, with a kit beside which nothing is kept. Prints a table.

    build.py [--on 0,1] [--log FILE] [--leave DIR] [answer] [prove] [gate]      (all three where none is named; --on: these processors alone)

Run it with nothing else running: it says how busy the machine was at the start of each. With --leave, each clone stays in DIR, and the
gate's proofs are kept beside the machine's own kit, as a first `rt ci` leaves them: for a new machine, on which nothing is kept."""
import argparse
import datetime
import os
import resource
import shutil
import subprocess
import sys
import tempfile
import time

TOP = os.path.dirname(os.path.dirname(os.path.realpath(__file__)))
COMMANDS = {
    "answer": ("first answer: ./op2 sample 20", ["./op2", "sample", "20"]),
    "prove": ("both programs proved: ./prove", ["./prove"]),
    "gate": ("the gate: rt ci --anew", ["sh", "-c", "RT_JOBS=$(python3 tools/repository.py) rt ci --anew"]),
}


def link_or_copy(source, target):
    try:
        os.link(source, target)
    except OSError:
        shutil.copyfile(source, target)
        shutil.copymode(source, target)


def measure(name, work, log, leave):
    """Runs one of the three in a clone and home of its own, with a kit of its own but where it is to `leave` what it makes; gives its
    status, the seconds that passed and those of processors."""
    room = f"{work}/{name}"
    os.makedirs(f"{room}/home")
    environment = {**os.environ, "HOME": f"{room}/home"}
    if not leave:
        kit = os.path.dirname(subprocess.run(["rt", "doc"], capture_output=True, text=True, check=True).stdout.strip())
        shutil.copytree(kit, f"{room}/opt/kit", symlinks=True, copy_function=link_or_copy)
        environment["PATH"] = f"{room}/opt/kit/bin:{os.environ['PATH']}"
    subprocess.run(["git", "clone", "-q", TOP, f"{room}/op2"], check=True)
    for name_of_choice in ("OP2_BUILD", "OP2_LANES", "RT_JOBS"):
        environment.pop(name_of_choice, None)
    print(f"{name}: begins at {datetime.datetime.now():%H:%M:%S}, load {os.getloadavg()[0]:.1f}", file=sys.stderr, flush=True)
    began, before = time.time(), resource.getrusage(resource.RUSAGE_CHILDREN)
    done = subprocess.run(COMMANDS[name][1], cwd=f"{room}/op2", env=environment, stdin=subprocess.DEVNULL, stdout=log, stderr=log, check=False)
    took, after = time.time() - began, resource.getrusage(resource.RUSAGE_CHILDREN)
    if not leave:
        shutil.rmtree(room, ignore_errors=True)
    return done.returncode, took, after.ru_utime + after.ru_stime - before.ru_utime - before.ru_stime


def main():
    parser = argparse.ArgumentParser(description=__doc__, formatter_class=argparse.RawDescriptionHelpFormatter)
    parser.add_argument("names", nargs="*", choices=[*COMMANDS, []], metavar="answer, prove, gate")
    parser.add_argument("--on", help="processors, as 0,1")
    parser.add_argument("--log", default=f"{tempfile.gettempdir()}/op2-build.log")
    parser.add_argument("--leave", metavar="DIR", help="a new folder in which the clones stay")
    given = parser.parse_args()
    if given.on:
        os.sched_setaffinity(0, {int(number) for number in given.on.split(",")})
    state = subprocess.run(["git", "-C", TOP, "rev-parse", "--short", "HEAD"], capture_output=True, text=True, check=True).stdout.strip()
    kit = subprocess.run(["rt", "version"], capture_output=True, text=True, check=True).stdout.split()[0]
    processors = len(os.sched_getaffinity(0))
    print(f"| {state}, {kit}, {datetime.date.today()}, {processors} processors | minutes | of a processor | status |\n|---|---|---|---|", flush=True)
    if given.leave:
        os.makedirs(given.leave)
    with tempfile.TemporaryDirectory(prefix="op2-build-", dir=os.environ.get("TMPDIR", "/var/tmp")) as work, open(given.log, "w") as log:
        for name in given.names or COMMANDS:
            status, seconds, spent = measure(name, os.path.abspath(given.leave) if given.leave else work, log, bool(given.leave))
            print(f"| {COMMANDS[name][0]} | {seconds / 60:.1f} | {spent / 60:.1f} | {status} |", flush=True)


main()
