#!/usr/bin/env python3
"""Brings this repository's own definitions and lemmas to the spelling of today's Rattle: words in snake case, a dash only
between the names of two definitions. Run once at the top of the repository, after the kit's port.py: python3 tools/respell.py

The names are those of tools/respell.txt, old and new on each line. Functions of src/, exported names and strings keep theirs:
none of the old names is one of those, and what stands in quotation marks of a .rt file is passed over.
"""

import os
import re
import sys

HERE = os.path.dirname(os.path.realpath(__file__))
# a step of a function's proof is named after the call that it stands for, and keeps that name
STEPS = {"read-unit", "write-unit"}


def names():
    with open(os.path.join(HERE, "respell.txt"), encoding="utf-8") as f:
        return dict(line.split() for line in f if line.strip())


def respelled(text, table, pattern, quoted):
    def turn(m):
        if quoted and m[0].startswith('"'):
            return m[0]
        if m[0] in STEPS and text[max(0, m.start() - 2):m.start()] == "c.":
            return m[0]
        return table[m[0]]

    return pattern.sub(turn, text)


def main():
    table = names()
    turned = set(table.values())
    if len(turned) != len(table):
        sys.exit("respell: two names fall together")
    words = "|".join(sorted(map(re.escape, table), key=len, reverse=True))
    edge = r"\w'\-≡≢∷≤◌"
    word = rf"(?<![{edge}])(?:{words})(?![{edge}])"
    plain = re.compile(word)
    with_strings = re.compile(r'"(?:[^"\\\n]|\\.)*"|' + word)
    changed = 0
    for folder, dirs, files in os.walk("crates"):
        dirs[:] = sorted(d for d in dirs if d != "out")
        for name in sorted(files):
            if not name.endswith((".rt", ".antt", ".edit")):
                continue
            path = os.path.join(folder, name)
            with open(path, encoding="utf-8") as f:
                text = f.read()
            source = not name.endswith(".antt")
            new = respelled(text, table, with_strings if source else plain, source)
            if new != text:
                with open(path, "w", encoding="utf-8") as f:
                    f.write(new)
                changed += 1
    print(f"respell: {len(table)} names, {changed} files changed")


if __name__ == "__main__":
    main()
