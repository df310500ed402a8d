#!/usr/bin/env python3
"""Calls the programs as the rows of crates/op2_rows/data say, over real files, and prints each row whose call ends in another way, with what differs; then how
many rows each table has and how many differ, and the sums. crates/op2_rows/README.md has the fields of a row. What fails by its number is made of what a
system has: a first write that fails by /dev/full, an output with little room by a limit on the size of its file. A read that fails can't be had so: such rows
are left out. An output that isn't limited has all room. Ends with 1 where a row differs.
Usage: tests/rows.py [OP2 [TOOLS [TABLE ..]]]     (programs; TABLE a file, or the name of one in crates/op2_rows/data: all of these where none is given)
"""
import argparse, concurrent.futures, os, pathlib, subprocess, sys, tempfile, tomllib
from programs import programs, top

DATA = top / "crates/op2_rows/data"
FIELDS = {"name", "tools", "words", "files", "edits", "bytes", "padded", "status", "out", "out_text", "has", "err", "read_fails", "write_fails",
          "report_fails", "room", "cuts"}
SECONDS = 600
# Calls a program whose files may have so many bytes; a write beyond that is an error and no signal, since Python ignores the signal.
LIMITED = "import os, resource, sys; resource.setrlimit(resource.RLIMIT_FSIZE, (int(sys.argv[1]),) * 2); os.execv(sys.argv[2], sys.argv[2:])"


class Fault(Exception):
    """Why a row can't be called."""


def text_of(texts, name):
    if name not in texts:
        raise Fault(f"no text {name!r}")
    return texts[name]


def files_of(texts, row):
    """The bytes of each file that a call of the row finds."""
    named = row.get("files", {})
    for file, _, _ in row.get("edits", []):
        if file not in named:
            raise Fault(f"no file {file!r}")
    files = {}
    for name, text in named.items():
        whole = text_of(texts, text)
        for file, old, new in row.get("edits", []):
            if file == name:
                if old not in whole:
                    raise Fault(f"{old!r} is not in its file")
                whole = whole.replace(old, new, 1)
        files[name] = whole.encode().ljust(row.get("padded", {}).get(name, 0))
    return files | {name: bytes.fromhex(digits) for name, digits in row.get("bytes", {}).items()}


def called(asked, row, folder):
    """The status of the row's call in a folder, its output and its line."""
    words = [str(asked.tools if row.get("tools") else asked.op2), *row["words"]]
    if "room" in row:
        words = [sys.executable, "-c", LIMITED, str(row["room"]), *words]
    with open("/dev/full", "wb") as full, tempfile.TemporaryFile() as file:
        out = full if "write_fails" in row else file
        err = full if "report_fails" in row else subprocess.PIPE
        done = subprocess.run(words, cwd=folder, stdin=subprocess.DEVNULL, stdout=out, stderr=err, timeout=SECONDS)
        file.seek(0)
        return done.returncode, file.read(), done.stderr or b""


def unlike(texts, row, ended):
    """A line for each part of an end that isn't the one wanted."""
    (status, out, err), lines = ended, []
    if status != row.get("status", 0):
        lines.append(f"  status {status}, wanted {row.get('status', 0)}")
    whole = row["out"] if "out" in row else text_of(texts, row["out_text"]) if "out_text" in row else None
    if whole is None and "has" in row:
        if row["has"].encode() not in out:
            lines.append(f"  output {out!r}, wanted in it {row['has']!r}")
    elif out != (whole or "").encode():
        lines.append(f"  output {out!r}, wanted {whole or ''!r}")
    line = row["err"] + "\n" if "err" in row else ""
    if err != line.encode():
        lines.append(f"  line {err!r}, wanted {line!r}")
    return lines


def accepted(asked, row, files, folder):
    """A line for each proper prefix of the file that is cut, less the one that lacks its last byte alone, which isn't refused as the row says."""
    name, lines = row["cuts"], []
    if name not in files:
        raise Fault(f"no file {name!r}")
    for length in range(len(files[name]) - 1):
        (folder / name).write_bytes(files[name][:length])
        status, out, err = called(asked, row, folder)
        one = err.startswith(b"op2: ") and err.endswith(b"\n") and err.count(b"\n") == 1
        if status != row.get("status", 0) or out or not one:
            lines.append(f"  {length} bytes of {name}: status {status}, wanted {row.get('status', 0)}; line {err!r}")
    return lines


def is_left_out(row):
    """Whether a row can't be called over real files."""
    return bool("read_fails" in row or row.get("write_fails") or row.get("report_fails"))


def differences(asked, texts, row):
    """The lines that say in what the calls of a row differ from it, by the programs that `asked.op2` and `asked.tools` are; nothing where it is left out."""
    if is_left_out(row):
        return None
    try:
        if row.keys() - FIELDS:
            raise Fault(f"no field {min(row.keys() - FIELDS)!r}")
        files = files_of(texts, row)
        with tempfile.TemporaryDirectory() as name:
            folder = pathlib.Path(name)
            for file, content in files.items():
                (folder / file).write_bytes(content)
            if "cuts" in row:
                return accepted(asked, row, files, folder)
            return unlike(texts, row, called(asked, row, folder))
    except Fault as fault:
        return [f"  {fault}"]
    except subprocess.TimeoutExpired:
        return [f"  no end after {SECONDS} seconds"]


def table_of(name):
    path = pathlib.Path(name)
    return path if path.is_file() else DATA / (name if name.endswith(".toml") else name + ".toml")


def read_table(path):
    """The texts of a table, by their names, and its rows."""
    table = tomllib.loads(path.read_text())
    return table.get("texts", {}), table.get("row", [])


def main():
    words = argparse.ArgumentParser()
    words.add_argument("op2", nargs="?")
    words.add_argument("tools", nargs="?")
    words.add_argument("tables", nargs="*", type=table_of)
    asked = words.parse_args()
    asked.op2, asked.tools = programs(asked.op2, asked.tools)
    rows = differing = left_out = 0
    with concurrent.futures.ThreadPoolExecutor(len(os.sched_getaffinity(0))) as pool:
        calls = []
        for path in asked.tables or sorted(DATA.glob("*.toml")):
            texts, table = read_table(path)
            calls.append((path.name, [(row["name"], pool.submit(differences, asked, texts, row)) for row in table]))
        for name, ends in calls:
            unlike_rows = 0
            for row, end in ends:
                lines = end.result()
                left_out += lines is None
                if lines:
                    unlike_rows += 1
                    print(f"{name}: {row}", *lines, sep="\n")
            print(f"{name}: {len(ends)} rows, {unlike_rows} differ", flush=True)
            rows, differing = rows + len(ends), differing + unlike_rows
    if left_out:
        print(f"left out: {left_out} rows in which a read fails")
    print(f"{rows} rows, {differing} differ")
    return differing > 0


if __name__ == "__main__":
    sys.exit(main())
