#!/usr/bin/env python3
"""Spells the repository's own definitions and lemmas as today's Rattle does: words in snake case.

usage: python3 tools/respell.py [FOLDER]

Run it once, right after port.py. FOLDER (this repository by default) is the checkout to be turned. The table
respell.tsv has the old name, the new one and, where it holds for one file alone, that file.
"""

import collections
import os
import re
import sys

HERE = os.path.dirname(os.path.realpath(__file__))
TOKEN = re.compile(r"[^\s(){}\[\],;.]+")
CLAUSE = re.compile(r"^\s*(pub )?(ghost|requires|ensures|invariant|also_owns)\b")


def table():
    every, one = {}, collections.defaultdict(dict)
    with open(os.path.join(HERE, "respell.tsv"), encoding="utf-8") as f:
        for line in f:
            old, new, *file = line.rstrip("\n").split("\t")
            (one[file[0]] if file else every)[old] = new
    return every, one


def turned(text, names):
    return TOKEN.sub(lambda it: names.get(it[0], it[0]), text)


def source(text, names):
    """Only the clauses and imports of ghost names of a source file."""
    out, depth = [], 0
    for line in text.split("\n"):
        if depth or CLAUSE.match(line):
            depth = max(0, depth + line.count("{") - line.count("}"))
            line = turned(line, names)
        out.append(line)
    return "\n".join(out)


def main():
    top = sys.argv[1] if len(sys.argv) > 1 else os.path.dirname(HERE)
    every, one = table()
    count = 0
    for folder, dirs, files in os.walk(os.path.join(top, "crates")):
        dirs[:] = sorted(d for d in dirs if d != "out")
        for name in sorted(files):
            if not name.endswith((".rt", ".antt")):
                continue
            path = os.path.join(folder, name)
            with open(path, encoding="utf-8") as f:
                text = f.read()
            names = every | one.get(os.path.relpath(path, top), {})
            new = source(text, names) if name.endswith(".rt") else turned(text, names)
            if new != text:
                count += 1
                with open(path, "w", encoding="utf-8") as f:
                    f.write(new)
    print(f"respell: {count} files")


main()
