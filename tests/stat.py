#!/usr/bin/env python3
"""Compares `op2-tools stat` with counts that are taken here from the plan that `op2 plan` writes, over the examples on 1 to 5 ranks.
Ends with 1 where one differs.
Usage: tests/stat.py [OP2 [TOOLS]]     (programs; else what OP2 and OP2_TOOLS name, else those of the repository)
"""
import pathlib, re, subprocess, sys, tempfile
from programs import programs, top

op2, tools = programs(*sys.argv[1:])
tried = bad = 0


def told(program, *words):
    return subprocess.run([program, *words], capture_output=True, text=True, timeout=600, check=True).stdout


def shapes(source):
    """By dat, the name of its set and its dim."""
    sets = dict(re.findall(r'(\w+)\s*=\s*op_decl_set\([^,]*,\s*"(\w+)"', source))
    return {name: (sets[var], int(dim)) for var, dim, name in re.findall(r'op_decl_dat\((\w+),\s*(\d+),[^"]*"int",[^"]*"(\w+)"', source)}


def counts(source, plan, loops):
    """By loop, the counts of a plan's lines: runs, exchanges, messages, cells, repeated, imbalance, blocks, and both numbers of colours."""
    dats, own, copies, places, items = shapes(source), {}, {}, {}, []
    for line in plan.splitlines():
        word = line.split()
        if word[0] == "halo":
            execute, rest = word.index("exec"), word.index("nonexec")
            own[word[1], int(word[2])] = set(word[4:execute])
            copies[word[1], int(word[2])] = set(word[execute + 1 : rest] + word[rest + 1 :])
        elif word[0] == "site":
            blocks, inner = word.index("blocks"), word.index("inner")
            places.setdefault(int(word[1]), []).append((int(word[5]), list(map(int, word[blocks + 1 : inner])), list(map(int, word[inner + 1 :]))))
        elif word[0] == "item" and word[2] in ("free", "ordered"):
            items.append((int(word[3]), word[5:]))
    ranks = range(1 + max(rank for _, rank in own))
    found = []
    for loop in range(loops):
        runs = [names for site, names in items if site == loop]
        sent = [[sum(dats[d][1] * len(copies[dats[d][0], r] & own[dats[d][0], s]) for d in names) for s in ranks for r in ranks] for names in runs]
        rows = places.get(loop, [])
        sizes = [size for size, _, _ in rows]
        most = lambda lists: max((max(colours, default=-1) + 1 for colours in lists), default=0)
        hundredths = max(sizes) * len(sizes) * 100 // sum(sizes) if sum(sizes) else 100
        found.append([len(runs), sum(names != [] for names in runs), sum(cells > 0 for row in sent for cells in row), sum(map(sum, sent)),
                      sum(sizes), f"{hundredths // 100}.{hundredths % 100:02}", sum(len(b) for _, b, _ in rows),
                      most(b for _, b, _ in rows), most(i for _, _, i in rows)])
    return found


with tempfile.TemporaryDirectory() as name:
    ordered = pathlib.Path(name) / "ordered.c"
    ordered.write_text((top / "examples/residual.c").read_text().replace("OP_INC", "OP_RW"))
    rows = [(top / f"examples/{example}.c", top / f"examples/{example}.mesh") for example in ("residual", "heat", "jac", "jacobi", "paths", "bump", "sample2")]
    for source, mesh in [*rows, (ordered, top / "examples/residual.mesh")]:
        for ranks in range(1, 6):
            for options in (["--block", "256"], ["--block", "2"]):
                words = [source, mesh, "--ranks", str(ranks), *options]
                lines = [line.split() for line in told(tools, "stat", *words, "--plain").splitlines()]
                wanted = counts(source.read_text(), told(op2, "plan", *words), len(lines) - 1)
                for line, (runs, exchanges, messages, cells, size, imbalance, blocks, colours, inner) in zip(lines, wanted):
                    tried += 1
                    owned = int(line[9])
                    if line[5:] != list(map(str, [runs, exchanges, messages, cells, owned, max(size - owned, 0), imbalance, blocks, colours, inner])):
                        bad += 1
                        print("differs:", source.name, ranks, options, line, wanted)
                sums = [sum(int(line[k]) for line in lines[:-1]) for k in (5, 6, 7, 8, 9, 10, 12)]
                if lines[-1] != ["total", "-", "-", "-", "-", *map(str, sums[:6]), "-", str(sums[6]), "-", "-"]:
                    bad += 1
                    print("differs:", source.name, ranks, options, lines[-1])
print(f"{tried} loops, {bad} differ")
sys.exit(1 if bad else 0)
