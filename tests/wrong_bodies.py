#!/usr/bin/env python3
"""Tries the wrong bodies of tests/wrong_bodies.toml: puts each into a copy of the code, compiles the program that it is of without any proof (tools/compile.py),
and calls that as the rows say, or runs the script, that must then end in another way; or runs the tests of a crate of tests, of which those that are named must
fail. A line for each body tells what refused it; the last line counts.
Ends with the number of those that nothing refused, that didn't compile or that can't be put in, at most 100; with 101 where a name is that of none.
Usage: tests/wrong_bodies.py [--list | --data | --unchanged] [--jobs N] [--level=-ON] [--op2 FILE] [--tools FILE] [NAME ..]
"""
import argparse, multiprocessing, os, pathlib, re, shutil, signal, subprocess, sys, tempfile, tomllib
from types import SimpleNamespace

sys.dont_write_bytecode = True
from programs import programs, top
import rows

sys.path.append(str(top / "tools"))
from compile import NotCompiled, compile_program
from repository import PROGRAMS

FIELDS = {"name", "what", "crate", "program", "edits", "refused_by"}
# The crate of each program. That of rows calls both others over files in memory: it alone has rows in which a read fails.
CRATES = {**PROGRAMS, "op2_rows": "op2_rows"}
# What runs tests of its own in place of a program that is called.
TESTS = "op2_tests"
SECONDS = 600  # for a script; those that stand here take 20
rows.SECONDS = 60  # A wrong body may not end; a row that stands here ends in a second.


class Unfit(Exception):
    """Why a body can't be tried."""


def read_bodies():
    return tomllib.loads((top / "tests/wrong_bodies.toml").read_text())["body"]


def program_of(body):
    return body.get("program", "op2")


def is_script(by):
    return by.startswith("tests/")


def is_test(by):
    return by.startswith(f"{TESTS}: ")


def tables_of(bodies):
    """The tables whose rows refuse some of the bodies, by their names."""
    named = [by for body in bodies for by in body["refused_by"] if not is_script(by) and not is_test(by)]
    paths = {name: rows.table_of(name) for name in {by.split(": ")[0] for by in named}}
    return {name: rows.read_table(path) for name, path in paths.items() if path.is_file()}


def row_of(tables, by):
    """The texts of a row's table, and the row."""
    table, name = by.split(": ", 1)
    texts, of_table = tables.get(table, ({}, []))
    found = [row for row in of_table if row["name"] == name]
    if len(found) != 1:
        raise Unfit(f"{len(found)} rows {by!r}")
    return texts, found[0]


def edited(text, edit):
    count = text.count(edit["old"])
    if count != 1:
        raise Unfit(f"{count} times in {edit['file']}: {edit['old']!r}")
    return text.replace(edit["old"], edit["new"])


def edited_files(body):
    """The text of each file that the body is in, by its path below the top."""
    texts = {}
    for edit in body["edits"]:
        path = pathlib.Path("crates", body["crate"], edit["file"])
        texts[path] = edited(texts.get(path) or (top / path).read_text(), edit)
    return texts


def look(body, tables):
    """Looks whether a body can be put in, and whether there is what must refuse it."""
    if body.keys() ^ FIELDS not in (set(), {"program"}) or program_of(body) not in {*CRATES, TESTS} or not body["edits"] or not body["refused_by"]:
        raise Unfit("a field is missing, or isn't one")
    edited_files(body)
    for by in body["refused_by"]:
        if is_test(by) or program_of(body) == TESTS:
            if program_of(body) != TESTS or by.removeprefix(f"{TESTS}: ") not in tests_there():
                raise Unfit(f"no test {by!r}")
        elif is_script(by):
            if not (top / by.split()[0]).is_file():
                raise Unfit(f"no script {by!r}")
        elif rows.is_left_out(row_of(tables, by)[1]) and program_of(body) != "op2_rows":
            raise Unfit(f"only op2_rows can call the row {by!r}")


def tests_there():
    """The names of the tests of the crate of tests."""
    return {name for path in (top / "crates" / TESTS / "src").glob("*.rt") for name in re.findall(r"#\[test\]\nfn (\w+)", path.read_text())}


def ends_well(words, asked, seconds, folder):
    """Whether a script does, with the programs in the environment."""
    environment = {**os.environ, "OP2": str(asked.op2), "OP2_TOOLS": str(asked.tools), "PYTHONDONTWRITEBYTECODE": "1", "TMPDIR": folder}
    try:
        return subprocess.run(words, cwd=folder, env=environment, stdin=subprocess.DEVNULL, capture_output=True, timeout=seconds).returncode == 0
    except subprocess.TimeoutExpired:
        return False


def told_by_rows(program, by):
    """Whether the program of rows tells of a row that it ends in another way, or doesn't come to the end of its table."""
    table, name = by.split(": ", 1)
    done = subprocess.run([program, f"data/{table}.toml"], cwd=top / "crates/op2_rows", stdin=subprocess.DEVNULL, capture_output=True, timeout=SECONDS)
    return done.returncode not in (0, 1) or f"data/{table}.toml: {name}\n".encode() in done.stdout


def refuses(tables, asked, by):
    """Whether a row or a script ends in another way than it should."""
    if is_script(by):
        script, *words = by.split()
        with tempfile.TemporaryDirectory() as folder:
            call = [*([sys.executable] if script.endswith(".py") else []), top / script, *words]
            return not ends_well(call, asked, SECONDS, folder)
    if asked.rows:
        return told_by_rows(asked.rows, by)
    return bool(rows.differences(asked, *row_of(tables, by)))


def copied(body, folder):
    """Makes a copy of the code with the body in it."""
    shutil.copytree(top / "crates", folder / "crates", ignore=shutil.ignore_patterns("out"))
    for name in ("crates.txt", "HANDLES"):
        shutil.copy(top / name, folder / name)
    for path, text in edited_files(body).items():
        (folder / path).write_text(text)


def failing(body, folder):
    """The tests that fail with the body in the code, of those that must refuse it."""
    copied(body, folder)
    done = subprocess.run(["rt", "try", "--test"], cwd=folder / "crates" / TESTS, stdin=subprocess.DEVNULL, capture_output=True, text=True, timeout=SECONDS)
    ends = dict(re.findall(r"^test (?:\w+::)*(\w+) \.\.\. (\w+)$", done.stdout, re.M))
    if not ends:
        raise NotCompiled(done.stdout[-300:] + done.stderr[-300:])
    return [by for by in body["refused_by"] if ends.get(by.removeprefix(f"{TESTS}: ")) == "FAILED"]


def compiled(body, level, folder):
    """The program of a copy of the code with the body in it."""
    copied(body, folder)
    program = folder / "program"
    compile_program(CRATES[program_of(body)], str(program), str(folder), level=level)
    return program


def try_body(body, tables, asked):
    """The word that tells how it went, and what stands behind the body's name."""
    with tempfile.TemporaryDirectory(prefix="op2-wrong-") as name:
        try:
            look(body, tables)
            if program_of(body) == TESTS:
                refused_by = failing(body, pathlib.Path(name))
                return ("refused", f" by {', '.join(refused_by)}") if refused_by else ("NOT REFUSED", "")
            program = compiled(body, asked.level, pathlib.Path(name))
        except Unfit as unfit:
            return "unfit", f": {unfit}"
        except (NotCompiled, OSError, subprocess.TimeoutExpired) as error:
            return "not compiled", f": {error}"
        field = {"op2": "op2", "op2-tools": "tools", "op2_rows": "rows"}[program_of(body)]
        wrong = SimpleNamespace(**{"op2": asked.op2, "tools": asked.tools, "rows": None} | {field: program})
        refused_by = [by for by in body["refused_by"] if refuses(tables, wrong, by)]
    return ("refused", f" by {', '.join(refused_by)}") if refused_by else ("NOT REFUSED", "")


def begin_worker():
    """A worker that is ended ends what it started."""
    signal.signal(signal.SIGINT, signal.SIG_IGN)
    signal.signal(signal.SIGTERM, lambda number, _: sys.exit(128 + number))


def try_one(words):
    return words[0]["name"], *try_body(*words)


def try_all(bodies, asked):
    """Tries bodies, so many side by side, and gives the number of those that weren't refused."""
    tables, ends = tables_of(bodies), []
    with multiprocessing.Pool(asked.jobs, begin_worker) as pool:
        for name, word, more in pool.imap_unordered(try_one, [(body, tables, asked) for body in bodies]):
            print(f"{word} {name}{more}", flush=True)
            ends.append(word)
    counts = [f"{ends.count(word)} {word.lower()}" for word in dict.fromkeys(["refused", "NOT REFUSED", *ends])]
    print(f"{len(ends)} bodies: {', '.join(counts)}")
    return len(ends) - ends.count("refused")


def look_at_all(bodies):
    """Tells of each body that can't be tried."""
    tables, names, unfit = tables_of(bodies), [body["name"] for body in bodies], 0
    for body in bodies:
        try:
            look(body, tables)
            if names.count(body["name"]) != 1:
                raise Unfit("another one has this name")
        except (Unfit, OSError) as why:
            unfit += 1
            print(f"unfit {body['name']}: {why}")
    print(f"{len(bodies)} bodies, {unfit} unfit")
    return unfit


def call_unchanged(bodies, asked):
    """Tells of each row and script that refuses the programs as they stand."""
    tables, differing = tables_of(bodies), 0
    named = dict.fromkeys(by for body in bodies for by in body["refused_by"] if not is_test(by))
    for by in named:
        if refuses(tables, SimpleNamespace(op2=asked.op2, tools=asked.tools, rows=None), by):
            differing += 1
            print(f"differs: {by}", flush=True)
    print(f"{len(named)} rows and scripts, {differing} differ")
    return differing


def read_words():
    words = argparse.ArgumentParser(description="Tries the wrong bodies of tests/wrong_bodies.toml.")
    how = words.add_mutually_exclusive_group()
    how.add_argument("--list", action="store_true", help="tells the bodies, and what refuses each")
    how.add_argument("--data", action="store_true", help="only looks whether each can be put in, and whether there is what must refuse it")
    how.add_argument("--unchanged", action="store_true", help="calls the programs as they stand, which nothing must refuse")
    words.add_argument("--jobs", metavar="N", type=int, default=1, help="bodies side by side (else one at a time)")
    words.add_argument("--level", default="-O0", help="how far the programs are optimised (else --level=-O0)")
    words.add_argument("--op2", metavar="FILE", help="the program as it stands, for scripts (else OP2, else what ./op2 has or makes)")
    words.add_argument("--tools", metavar="FILE", help="the program of tools as it stands (else OP2_TOOLS, else what ./op2-tools has or makes)")
    words.add_argument("names", metavar="NAME", nargs="*", help="bodies, else all")
    return words.parse_args()


def main():
    asked, bodies = read_words(), read_bodies()
    asked.op2, asked.tools = programs(asked.op2, asked.tools)
    if unknown := set(asked.names) - {body["name"] for body in bodies}:
        print(f"tests/wrong_bodies.py: no body {', '.join(sorted(unknown))}", file=sys.stderr)
        return 101
    bodies = [body for body in bodies if not asked.names or body["name"] in asked.names]
    if asked.list:
        for body in bodies:
            print(f"{body['name']} ({body['crate']}): {body['what']} Refused by {', '.join(body['refused_by'])}")
        return 0
    if asked.data:
        return min(look_at_all(bodies), 100)
    return min((call_unchanged if asked.unchanged else try_all)(bodies, asked), 100)


if __name__ == "__main__":
    signal.signal(signal.SIGTERM, lambda number, _: sys.exit(128 + number))
    sys.exit(main())
