#!/usr/bin/env python3
"""Compares the texts of crates/explanations with the tables of docs/ERRORS.md, kind, number, cause and what to do of each row, and with that
of the statuses in docs/COMMANDS.md; and sees that each line which docs/ERRORS.md has begins as those of its text do.
Ends with 1 where one differs.
Usage: tests/error_texts.py
"""
import pathlib, re, sys

top = pathlib.Path(__file__).resolve().parent.parent
KINDS = {
    "Tokens": "lex", "Names and types": "type", "Binding": "bind", "Accesses": "access", "Mesh texts": "mesh", "Ranks": "partition", "Limits": "limit",
    "Plans": "plan", "States": "state", "Stubs": "translate", "Grammar and depth": "", "Schedules": "",
}
TABLES = ("sources", "bindings", "files", "limits", "program", "statuses")


def cells(line):
    return [cell.strip().replace("\\|", "|") for cell in re.split(r"(?<!\\)\|", line)[1:-1]]


def names(section, first):
    """The names of the texts of a row."""
    numbers = re.findall(r"`([^`]*)`", first) if section == "Limits" else [first]
    return [f"{KINDS[section]} {number}".strip() for number in numbers]


def of_errors():
    """The name, the cause and the advice of each row, with its line, or none."""
    for part in (top / "docs/ERRORS.md").read_text().split("\n## ")[1:]:
        head, body = part.split("\n", 1)
        section = head.split(" (")[0]
        seen = set()
        for line in body.split("\n"):
            row = cells(line) if line.startswith("| ") else []
            if section in KINDS and len(row) == 5 and row[0] not in ("", "N", "NAME"):
                for name in names(section, row[0]):
                    yield name, row[1], row[4], row[3].strip("`") or None
            if section == "The program" and len(row) == 4 and row[0] in ("1", "2", "3", "4", "9") and row[0] not in seen:
                seen.add(row[0])
                text = row[1].strip("`").removeprefix("op2: ")
                yield text.split(" NAME")[0] if row[0] != "9" else "fault", row[2], row[3], row[1].strip("`")


def of_statuses():
    """The same of the statuses, whose lines are what to do."""
    rows = []
    for line in (top / "docs/COMMANDS.md").read_text().split("\n## Statuses\n")[1].split("\n## ")[0].split("\n"):
        row = cells(line) if line.startswith("| ") else []
        if len(row) == 3 and row[0] != "Status":
            rows.append(row) if row[0] else rows[-1].extend(row)
    for row in rows:
        meaning, line = "; ".join(row[1::3]), ", ".join(row[2::3])
        yield f"status {row[0]}", meaning, "it has no line" if line == "none" else f"its line: {line}", None


def of_crate():
    """The texts in order: name, front, cause, advice."""
    texts = []
    for table in TABLES:
        source = (top / f"crates/explanations/src/meanings/{table}.rt").read_text()
        literal = re.search(r'&str = "\\\n(.*)";', source, re.S)[1]
        plain = re.sub(r"\\\n *", "", literal).strip()
        plain = re.sub(r"\\(.)", lambda m: {"n": "\n", "t": "\t"}.get(m[1], m[1]), plain)
        texts += [tuple(line.split("\t")) for line in plain.split("\n")]
    return texts


page, crate = [*of_errors(), *of_statuses()], of_crate()
bad = 0
for row in sorted({row[:3] for row in page} ^ {(name, cause, advice) for name, _, cause, advice in crate}):
    print("differs:", row)
    bad += 1
for name, _, _, line in page:
    found = line and next((text[0] for text in crate if (line + "\n").startswith(text[1])), "no text")
    if line and found != name:
        print(f"differs: {line} has the text of {found} and not of {name}")
        bad += 1
if len({text[0] for text in crate}) != len(crate):
    print("differs: two texts have one name")
    bad += 1
print(f"{len(page)} rows")
sys.exit(bad > 0 or not page)
