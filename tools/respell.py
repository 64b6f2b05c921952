#!/usr/bin/env python3
"""Respells this repository's own definitions and lemmas by tools/respell.tsv, and turns the must-fail edits by tools/respell-edits.json.

usage: tools/respell.py [FOLDER]      once, right after the kit's port.py, at the top of the repository (or of another copy of it)

A row of respell.tsv is an old name, a tab, and the new one: a definition in snake case (firstFailed becomes first_failed), a dash of a lemma's
name where it joins two names, and an underscore before a plain word (sumBelow-zero becomes sum_below-zero, walked-drawn becomes walked_drawn).
A lemma that would get its definition's name ends in _lem. Whole words turn: in .antt files and in the clauses, ghost items and comments of .rt
files; a name with a dash only in code, in ghost items and between backquotes. Functions of src/, strings, inputs and outputs stay.
respell-edits.json has, for each edit whose text no longer stands, the lines old: and new: as they read now.
"""

import json
import os
import re
import sys

HERE = os.path.dirname(os.path.realpath(__file__))
WORD = re.compile(r'[^\s(){}.;,@"«»`|]+')
QUOTED = re.compile(r'"(?:[^"\\\n]|\\.)*"')
TICKED = re.compile(r"`[^`\n]*`")
GHOST_USE = re.compile(r"ghost use [^;]*;")


def rows(path):
    with open(path, encoding="utf-8") as f:
        return dict(line.rstrip("\n").split("\t") for line in f if line.strip())


def words(text, table, dashes=True):
    """The text with each whole word of the table turned; with dashes=False, those without a dash alone, and no bare underscore name."""

    def one(m):
        new = table.get(m[0])
        if new is None or not (dashes or re.search("[A-Z]", m[0]) and "-" not in m[0]):
            return m[0]
        return new

    return WORD.sub(one, text)


def comment(text, table):
    text = TICKED.sub(lambda m: words(m[0], table), text)
    return words(text, table, dashes=False)


def antt(text, table):
    out = []
    for line in text.split("\n"):
        at = re.search(r"(^|(?<=[\s(){}.;,]))--(?=\s|-|$)", line)
        code, rest = (line[: at.start()], line[at.start() :]) if at else (line, "")
        parts, last = [], 0
        for m in QUOTED.finditer(code):
            parts += [words(code[last : m.start()], table), m[0]]
            last = m.end()
        out.append("".join(parts) + words(code[last:], table) + comment(rest, table))
    return "\n".join(out)


def rattle(text, table):
    held = []

    def hold(m):
        held.append(m[0])
        return f"\0{len(held) - 1}\0"

    text = GHOST_USE.sub(lambda m: words(m[0], table), text)
    text = QUOTED.sub(hold, text)
    text = "\n".join(comment(line, table) for line in text.split("\n"))
    return re.sub("\0(\\d+)\0", lambda m: held[int(m[1])], text)


def files(root):
    for folder, dirs, names in os.walk(os.path.join(root, "crates")):
        dirs[:] = sorted(d for d in dirs if d not in ("out", "must-fail"))
        for name in sorted(names):
            if name.endswith((".antt", ".rt")):
                yield os.path.join(folder, name)


def main(root):
    table = rows(os.path.join(HERE, "respell.tsv"))
    for path in files(root):
        with open(path, encoding="utf-8") as f:
            old = f.read()
        new = antt(old, table) if path.endswith(".antt") else rattle(old, table)
        if new != old:
            with open(path, "w", encoding="utf-8") as f:
                f.write(new)
    with open(os.path.join(HERE, "respell-edits.json"), encoding="utf-8") as f:
        edits = json.load(f)
    for path, lines in edits.items():
        path = os.path.join(root, path)
        if os.path.exists(path):
            with open(path, encoding="utf-8") as f:
                head = f.read().split("file: ", 1)[0]
            with open(path, "w", encoding="utf-8") as f:
                f.write(comment(head, table) + "\n".join(lines) + "\n")


if __name__ == "__main__":
    main(sys.argv[1] if len(sys.argv) > 1 else ".")
