#!/usr/bin/env python3
"""Brings the names of definitions and lemmas to today's spelling: words in snake case.

usage: tools/respell.py TOP

It reads tools/respell.tsv beside it, a line for each name: old, new, and the part of a path to which the line is bound, if any. Every word of an
.antt file and of the clauses and ghost uses of a .rt file that is an old name becomes the new one. Comments keep their words where no old name
stands in backticks, strings and the Rust of a .rt file have none of these names. Run a second time it changes nothing.
"""

import os
import re
import sys

HERE = os.path.dirname(os.path.realpath(__file__))
WORD = re.compile(r"[^\s(){}\[\].;,@\"«»`]+")
COMMENT = re.compile(r"(^|\s)--(\s.*)?$")
BACKTICKS = re.compile(r"`[^`]*`")


def table():
    everywhere, bound = {}, []
    with open(os.path.join(HERE, "respell.tsv"), encoding="utf-8") as f:
        for line in f:
            old, new, *part = line.rstrip("\n").split("\t")
            if part:
                bound.append((part[0], old, new))
            else:
                everywhere[old] = new
    return everywhere, bound


def words(text, names):
    return WORD.sub(lambda m: names.get(m.group(0), m.group(0)), text)


def antt(text, names):
    lines = []
    for line in text.split("\n"):
        m = COMMENT.search(line)
        code, comment = (line[: m.start()], line[m.start() :]) if m else (line, "")
        lines.append(words(code, names) + BACKTICKS.sub(lambda b: words(b.group(0), names), comment))
    return "\n".join(lines)


def rust(text, names):
    """The names have a dash or a capital in them, as no Rust name here that is not a type has; a word of Rust is never in the table."""
    lines = []
    for line in text.split("\n"):
        lines.append(BACKTICKS.sub(lambda b: words(b.group(0), names), line) if line.lstrip().startswith("//") else words(line, names))
    return "\n".join(lines)


def main():
    top = sys.argv[1]
    everywhere, bound = table()
    for folder, dirs, files in os.walk(os.path.join(top, "crates")):
        dirs[:] = sorted(d for d in dirs if d != "out")
        for name in sorted(files):
            if not name.endswith((".antt", ".rt")):
                continue
            path = os.path.join(folder, name)
            names = everywhere | {old: new for part, old, new in bound if part in path}
            with open(path, encoding="utf-8") as f:
                text = f.read()
            later = (antt if name.endswith(".antt") else rust)(text, names)
            if later != text:
                with open(path, "w", encoding="utf-8") as f:
                    f.write(later)


main()
