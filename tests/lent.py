#!/usr/bin/env python3
"""Holds that a crate's proofs use of another crate's what its `proofs/Public.antt` passes on, and nothing else, `lemmas` apart.

Usage: python3 tests/lent.py"""
import pathlib, re, sys

top = pathlib.Path(__file__).resolve().parent.parent
crates = {p.name for p in (top / "crates").iterdir()}
wrong = 0
for path in sorted((top / "crates").glob("*/**/*")):
    if path.suffix not in (".antt", ".rt"):
        continue
    own = path.relative_to(top / "crates").parts[0]
    for number, line in enumerate(path.read_text().split("\n"), 1):
        for other, module in re.findall(r"\b(?:Rattle\.)?(\w+)(?:\.|::)proofs(?:\.|::)([\w.:]+)", line):
            # `TheLaws` is made by the kit for each type
            if other in crates - {own, "lemmas"} and not module.startswith("Public") and "TheLaws" not in module:
                print(f"{path.relative_to(top)}:{number}: {other}, {module}")
                wrong += 1
print(f"{wrong} other uses")
sys.exit(wrong > 0)
