#!/usr/bin/env python3
"""Turns this repository's own definitions, lemmas, fields and local names to today's spelling.

usage: python3 tools/respell.py [--dry]      at the top, once, right after the kit's port.py (later it would turn the
                                             old names that docs/PORT.md quotes)

The names stand in tools/respell-names.txt: words of specs/ and fields in snake case, facts and records in
CamelCase, lemmas with a dash kept behind the name of a word (at_most-counts) and an underscore elsewhere.
It turns specs/, proofs/, and of src/ the ghost lines, the clauses and what comments quote; in README.md and
docs/ what is quoted. Code, strings, outputs and must-fail edits stay. It goes by text: rt check decides.
It says which new names two old ones share or a definition, struct, enum or trait has already, and, when it has
written, which old name still stands below crates/.
"""
import os
import re
import sys

TOKEN = re.compile(r"(?<![\w'-])[^\W\d][\w'-]*(?![\w'-])")
CLAUSE = re.compile(r"(ghost|requires\*?|ensures\*?|where ghost)\b")


def read(path):
    with open(path, encoding="utf-8") as file:
        return file.read()


def names():
    """Old name to new, the fields among the old, and what port.py turned in the sources already."""
    table, fields, pages = {}, set(), {}
    here = os.path.dirname(os.path.abspath(__file__))
    for line in read(os.path.join(here, "respell-names.txt")).splitlines():
        if line.startswith("#"):
            continue
        kind, old, new = line.split()
        (pages if kind == "page" else table)[old] = new
        if kind == "field":
            fields.add(old)
    return table, fields, pages


def sources():
    for folder, folders, files in os.walk("crates"):
        folders[:] = sorted(f for f in folders if f not in ("out", "must-fail"))
        for file in sorted(files):
            if file.endswith((".antt", ".rt")):
                yield os.path.join(folder, file)


def pages():
    yield "README.md"
    for file in sorted(os.listdir("docs")):
        if file.endswith(".md"):
            yield os.path.join("docs", file)


def turn(text, table, fields):
    """Every name of the table, but behind a dot only a field or an item of a module."""

    def one(found):
        old = found.group(0)
        before = re.search(r"([\w'+-]+)?\.$", text[: found.start()])
        if old not in table:
            return old
        if before and old not in fields and not (before.group(1) or "")[:1].isupper():
            return old
        return table[old]

    return TOKEN.sub(one, text)


def turn_quoted(text, table, fields):
    return re.sub(r"`[^`\n]*`", lambda quoted: turn(quoted.group(0), table, fields), text)


def turn_code(text, table, fields):
    """Of Rust only ghost lines and clauses, to the brace that ends them, and what comments quote."""
    out, depth = [], 0
    for line in text.split("\n"):
        bare = line.strip()
        if depth > 0 or CLAUSE.match(bare):
            out.append(turn(line, table, fields))
            depth = max(0, depth + line.count("{") - line.count("}"))
        elif bare.startswith("//"):
            out.append(turn_quoted(line, table, fields))
        else:
            out.append(line)
    return "\n".join(out)


def fallen_together(table):
    """New names that two old ones have, or that some definition has already."""
    said, by_new = [], {}
    for old, new in table.items():
        by_new.setdefault(new, []).append(old)
    for new, olds in sorted(by_new.items()):
        if len(olds) > 1:
            said.append(f"{new}: made of {', '.join(olds)}")
    defined = re.compile(r"^\s*(?:(?:abbrev|unfoldable|pub|record|data|ruleset) )*([^\W\d][\w'-]*)(?:\s[^=]*)? : ")
    for path in sources():
        for line in read(path).split("\n"):
            found = defined.match(line) if path.endswith(".antt") else re.match(r"\s*(?:pub )?(?:struct|enum|trait) (\w+)", line)
            if found and found.group(1) in by_new:
                said.append(f"{found.group(1)}: stands in {path} already")
    return said


def main():
    dry = "--dry" in sys.argv
    table, fields, by_port = names()
    for line in fallen_together(table):
        print("falls together: " + line)
    changed = 0
    for path in [*sources(), *pages()]:
        old = read(path)
        if path.endswith(".antt"):
            new = turn(old, table, fields)
        elif path.endswith(".rt"):
            new = turn_code(old, table, fields)
        else:
            new = turn_quoted(old, table | by_port, fields)
        if new != old:
            changed += 1
            if not dry:
                with open(path, "w", encoding="utf-8") as file:
                    file.write(new)
    for path in [] if dry else sources():
        for old in sorted({t for t in TOKEN.findall(read(path)) if t in table}):
            print(f"left: {old} stands still in {path}")
    print(f"respell: {len(table)} names, {changed} files")


main()
