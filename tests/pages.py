#!/usr/bin/env python3
"""Runs the examples in the tables of docs/ERRORS.md and docs/ACCESSES.md, and compares each line that op2 writes with the one that stands there.
Ends with 1 where one differs.
Usage: tests/pages.py [OP2]     (a program; else what OP2 names, else that of the repository)
"""
import pathlib, re, subprocess, sys, tempfile
from programs import programs, top

op2, _ = programs(*sys.argv[1:])
bad = tried = 0


def answer(folder, files, words):
    """The status, and the line or nothing."""
    for name, text in files.items():
        (folder / name).write_text(text)
    done = subprocess.run([op2, *words], cwd=folder, capture_output=True, timeout=120)
    return done.returncode, done.stderr.decode().rstrip("\n")


def compare(what, found, wanted):
    global bad, tried
    tried += 1
    if found != wanted:
        bad += 1
        print(f"differs: {what}: {found} and not {wanted}")


def cells(line):
    return [cell.strip().replace("\\|", "|") for cell in re.split(r"(?<!\\)\|", line)[1:-1]]


def edited(text, example):
    """The text with the changes that the example names."""
    if pairs := re.fullmatch(r"(\d+) pairs of parentheses around `([^`]*)`", example):
        return text.replace(pairs[2], "(" * int(pairs[1]) + pairs[2] + ")" * int(pairs[1]), 1)
    if out := re.fullmatch(r"`([^`]*)` left out", example):
        assert out[1] in text, example
        return text.replace(out[1], "", 1)
    changes = re.findall(r"`([^`]*)` for `([^`]*)`", example)
    assert changes and re.fullmatch(r"`[^`]*` for `[^`]*`(, and `[^`]*` for `[^`]*`)*", example), example
    for new, old in changes:
        assert old in text, old
        text = text.replace(old, new, 1)
    return text


def try_errors(folder):
    """Each row with an example is a change of one of the files at the top of the page."""
    page = (top / "docs/ERRORS.md").read_text()
    source, mesh, part, steps, two = re.findall(r"```c?\n(.*?)```", page, re.S)[:5]
    state = re.search(r"```\n(\nop2state 1\n.*?)```", page, re.S)[1]
    residual = {"s.c": (top / "examples/residual.c").read_text(), "m.mesh": (top / "examples/residual.mesh").read_text()}
    residual["u"] = re.search(r"```\n(op2plan 1\n.*?)```", (top / "docs/TEXTS.md").read_text(), re.S)[1]
    for section in re.split(r"^## ", page, flags=re.M)[1:]:
        title = section.split("\n")[0]
        changed = {"Mesh": "m.mesh", "Rank": "p", "Sche": "t"}.get(title[:4], "s.c")
        for line in section.splitlines():
            row = cells(line)
            if len(row) != 5 or not row[3].startswith("`op2: "):
                continue
            if title.startswith("States"):
                files = {"s.c": source, "m.mesh": mesh, "f": state}
                words = ["state", *row[2].strip("`").split()] if row[0] == "item" else ["run", "--from", "f"]
                if row[0] != "item":
                    files["f"] = edited(state, row[2])
                compare(f"{title}, {row[0]}", answer(folder, files, [*words, "s.c", "m.mesh"]), (13, row[3].strip("`")))
                continue
            if title.startswith("Plans"):
                files = {**residual, "u": edited(residual["u"], row[2])}
                compare(f"{title}, {row[0]}", answer(folder, files, ["check", "s.c", "m.mesh", "--plan", "u"]), (12, row[3].strip("`")))
                continue
            files = {"s.c": source, "m.mesh": two if changed == "t" else mesh, "p": part, "t": steps}
            inside = re.fullmatch(r"in `([^`]*)`: (.*)", row[2])
            name, example = (inside[1], inside[2]) if inside else (changed, row[2])
            if not title.startswith("Stubs") or row[0] == "1":
                files[name] = edited(files[name], example)
            words = {"p": ["--ranks", "2", "--partition", "p"], "t": ["--schedule", "t"]}.get(changed, [])
            if title.startswith("Stubs"):
                job = "translate" if row[0] == "1" else "restore"
                if job == "restore":
                    (folder / "s.c").write_text(source)
                    files["s.c"] = edited(subprocess.run([op2, "translate", "s.c"], cwd=folder, capture_output=True, text=True).stdout, example)
                compare(f"{title}, {row[0]}", answer(folder, files, [job, "s.c"]), (14, row[3].strip("`")))
                continue
            status = int(re.search(r"status (\d+)", title)[1])
            compare(f"{title}, {row[0]}", answer(folder, files, ["run", "s.c", "m.mesh", *words]), (status, row[3].strip("`")))
    says = re.search(r"^With (`[^`]*` for `[^`]*`) the example ends with status 9 and `([^`]*)`", page, re.M)
    files = {"s.c": edited(source, says[1]), "m.mesh": mesh}
    compare("a fault", answer(folder, files, ["run", "s.c", "m.mesh"]), (9, says[2]))
    unchanged = {"s.c": source, "m.mesh": two, "t": steps}
    compare("the files of ERRORS", answer(folder, unchanged, ["run", "s.c", "m.mesh", "--schedule", "t"]), (0, ""))
    unchanged = {"s.c": source, "m.mesh": mesh, "p": part}
    compare("the files of ERRORS", answer(folder, unchanged, ["run", "s.c", "m.mesh", "--ranks", "2", "--partition", "p"]), (0, ""))
    (folder / "s.c").write_text(source)
    (folder / "m.mesh").write_text(mesh)
    written = subprocess.run([op2, "state", "s.c", "m.mesh", "--at", "1"], cwd=folder, capture_output=True, text=True).stdout
    compare("the state of ERRORS", written, state)
    compare("the state of ERRORS, read", answer(folder, {"f": state}, ["run", "s.c", "m.mesh", "--from", "f"]), (0, ""))
    compare("the plan of TEXTS", answer(folder, residual, ["run", "s.c", "m.mesh", "--plan", "u"]), (0, ""))


def try_accesses(folder):
    """Each row with a kernel is a source in whose third line it stands."""
    for line in (top / "docs/ACCESSES.md").read_text().splitlines():
        row = cells(line)
        if len(row) != 3 or not row[0].startswith("`void k("):
            continue
        access, dim = row[1].split(", ")
        source = f"""extern int n;
extern int a0[];
{row[0].strip("`")}
int main(int argc, char **argv) {{
  op_set s = op_decl_set(n, "s");
  op_dat a = op_decl_dat(s, {dim}, "int", a0, "a");
  op_par_loop(k, "k", s, op_arg_dat(a, -1, OP_ID, {dim}, "int", {access}));
  op_exit();
}}
"""
        mesh = f"op2mesh 2\nint n 3\nints a0 {3 * int(dim)}\n{3 * int(dim)}*4\ndone\n"
        says = row[2].strip("`")
        wanted = (0, "") if says == "runs" else (9, f"op2: {says}") if says.startswith("fault") else (5, f"op2: source {says}")
        compare(f"ACCESSES, {row[0]}", answer(folder, {"s.c": source, "m.mesh": mesh}, ["run", "s.c", "m.mesh"]), wanted)


with tempfile.TemporaryDirectory() as name:
    try_errors(pathlib.Path(name))
    try_accesses(pathlib.Path(name))
print(f"{tried} examples, {bad} differences")
sys.exit(bad > 0)
