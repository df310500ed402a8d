#!/usr/bin/env python3
"""Holds the grammar of docs/LANGUAGE.md against the rows of crates/op2_rows/data: reads the rules from the page, and each source of a row by them. A row
whose line is a syntax refusal must have a source that the rules don't derive, or that breaks what the page says besides; one whose answer comes after
reading must have one that they derive. Ends with 1 where a row differs.
Usage: tests/grammar.py
"""
import pathlib, re, sys, tomllib

top = pathlib.Path(__file__).resolve().parent.parent
page = (top / "docs/LANGUAGE.md").read_text()
block = page.split("```")[1]
words = re.search(r"^\| reserved word \| `([^`]*)`", page, re.M)[1].split()
signs = re.search(r"^\| sign \| `([^`]*)`", page, re.M)[1].replace("\\|", "|").split()


def rules():
    """By the name of a rule its alternatives, each a list of parts; `{ }` , `[ ]` and `( )` become rules of their own."""
    found, text = {}, "\n".join(line for line in block.splitlines() if re.match(r"[a-z]+ +=|  +(\||\"\{\")", line))
    text = re.sub(r" {6,}(the weakest|all binary|the strongest).*", "", text)
    tokens = re.findall(r'^[a-z]+ +=|"[^"]*"|[A-Za-z]+|[{}\[\]()|]', text, re.M)
    at = 0

    def alternatives(ends):
        nonlocal at
        choices = [[]]
        while at < len(tokens) and tokens[at] not in ends and not tokens[at].endswith(" ="):
            part, at = tokens[at], at + 1
            if part == "|":
                choices.append([])
            elif part in "{[(":
                inner = alternatives({"}": "}", "{": "}", "[": "]", "(": ")"}[part])
                at += 1
                name = f"part {len(found)}"
                found[name] = {"{": [c + [name] for c in inner] + [[]], "[": inner + [[]], "(": inner}[part]
                choices[-1].append(name)
            else:
                choices[-1].append(part)
        return choices

    while at < len(tokens):
        name, at = tokens[at].split()[0], at + 1
        found[name] = alternatives("")
    return found


def tokens_of(source):
    """The tokens, or None where there are none."""
    found, at = [], 0
    longest = sorted(signs, key=len, reverse=True)
    while at < len(source):
        fresh = not source[source.rfind("\n", 0, at) + 1 : at].strip(" \t")
        rest = source[at:]
        if passed := re.match(r"[ \t\r\n]+|//[^\n]*|/\*.*?\*/", rest, re.S) or fresh and re.match(r"#include[^\n]*", rest):
            at += passed.end()
        elif name := re.match(r"[A-Za-z_]\w*", rest, re.A):
            found.append(f'"{name[0]}"' if name[0] in words else ("NAME", name[0]))
            at += name.end()
        elif number := re.match(r"0|[1-9][0-9]*", rest):
            if int(number[0]) > 2147483647 or re.match(r"\w", rest[number.end() :], re.A):
                return None
            found.append(("NUMBER", number[0]))
            at += number.end()
        elif text := re.match(r'"([^\x00-\x1f\x7f"\\]|\\[nt\\"])*"', rest):
            found.append(("TEXT", text[0]))
            at += text.end()
        elif rest.startswith("/*") or not (sign := next((s for s in longest if rest.startswith(s)), None)):
            return None
        else:
            found.append(f'"{sign}"')
            at += len(sign)
    return found


def derives(grammar, tokens):
    """Whether the tokens are those of a program (Earley, 1970)."""
    kinds = [t if isinstance(t, str) else t[0] for t in tokens]
    empty = set()
    while more := {n for n, cs in grammar.items() if n not in empty and any(all(p in empty for p in c) for c in cs)}:
        empty |= more
    columns = [{("program", tuple(c), 0, 0) for c in grammar["program"]}]
    for at in range(len(kinds) + 1):
        todo, column, after = list(columns[at]), columns[at], set()
        waiting = {}
        while todo:
            item = todo.pop()
            name, parts, dot, start = item
            new = []
            if dot == len(parts):
                source = waiting.get(name, []) if start == at else [i for i in columns[start] if i[2] < len(i[1]) and i[1][i[2]] == name]
                new = [(n, p, d + 1, s) for n, p, d, s in source]
            elif parts[dot] in grammar:
                waiting.setdefault(parts[dot], []).append(item)
                new = [(parts[dot], tuple(c), 0, at) for c in grammar[parts[dot]]]
                if parts[dot] in empty:
                    new.append((name, parts, dot + 1, start))
            elif at < len(kinds) and parts[dot] == kinds[at]:
                after.add((name, parts, dot + 1, start))
            for n in new:
                if n not in column:
                    column.add(n)
                    todo.append(n)
        if at < len(kinds):
            if not after:
                return False
            columns.append(after)
    return any(n == "program" and d == len(p) and s == 0 for n, p, d, s in columns[-1])


def breaks_more(tokens):
    """Whether a derived source breaks what the page says besides: equal names in the head of a `for`, and values of `const` names and no bare declarations."""
    kinds = [t if isinstance(t, str) else t[0] for t in tokens]
    for at, kind in enumerate(kinds):
        if kind == '"for"':
            names, i = [tokens[at + 3]], at + 4
            depth = 1
            while depth:
                depth += (kinds[i] == '"("') - (kinds[i] == '")"')
                if depth == 1 and kinds[i] == '";"':
                    names.append(tokens[i + 1])
                i += 1
            if len(set(names)) > 1:
                return True
            if kinds[i] in ('"int"', '"const"'):
                return True
        if kind == '"if"':
            i, depth = at + 2, 1
            while depth:
                depth += (kinds[i] == '"("') - (kinds[i] == '")"')
                i += 1
            if kinds[i] in ('"int"', '"const"'):
                return True
        if kind == '"else"' and kinds[at + 1] in ('"int"', '"const"'):
            return True
        if kind == '"const"' and kinds[at + 1] == '"int"' and kinds[at + 2] == "NAME":
            i, depth, begins = at + 2, 0, True
            while not (depth == 0 and kinds[i] == '";"'):
                if begins and kinds[i + 1] != '"="':
                    return True
                depth += (kinds[i] in ('"("', '"["')) - (kinds[i] in ('")"', '"]"'))
                begins = depth == 0 and kinds[i] == '","'
                i += 1
    return False


def main():
    grammar, rows, syntax, bad = rules(), 0, 0, 0
    seen = {}
    for file in sorted((top / "crates/op2_rows/data").glob("*.toml")):
        table = tomllib.loads(file.read_text())
        for row in table["row"]:
            line = row.get("err", "")
            if row.get("tools") or len(row["words"]) < 2 or row["words"][1] not in row.get("files", {}) or row.get("cuts"):
                continue
            if row["words"][0] in ("convert", "restore") or row["words"][0].startswith("-"):
                continue
            if "read_fails" in row or "report_fails" in row or row.get("status", 0) in (1, 2, 3) or "source-bytes" in line or "source lex" in line or "depth" in line:
                continue
            source = table.get("texts", {})[row["files"][row["words"][1]]]
            for file_name, old, new in row.get("edits", []):
                if file_name == row["words"][1]:
                    source = source.replace(old, new, 1)
            if len(source) > 20000:
                continue
            refused = line.startswith("op2: source syntax")
            if source not in seen:
                tokens = tokens_of(source)
                seen[source] = tokens is not None and derives(grammar, tokens) and not breaks_more(tokens)
            rows += 1
            syntax += refused
            if seen[source] == refused:
                bad += 1
                print(f"differs: {file.name}, {row['name']}: {line or 'read'}")
    print(f"{rows} rows, {syntax} of them refused for their syntax, {len(seen)} sources, {bad} differences")
    return bad > 0


if __name__ == "__main__":
    sys.exit(main())
