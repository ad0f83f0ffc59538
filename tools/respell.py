#!/usr/bin/env python3
"""Spells the repository's own definitions and lemmas as the library does: words in snake case, types in camel case.

usage: respell.py [FOLDER]     FOLDER holds crates/ (default: here); run once, after the kit's port.py

The names are the rows of respell.tsv, old and new. Strings and comments of Rust stay, and a comment of antt
turns inside backticks alone. A second run changes nothing.
"""
import os
import re
import sys

HERE = os.path.dirname(os.path.realpath(__file__))
NAME = r"[A-Za-z_][A-Za-z0-9_']*(?:-[A-Za-z0-9_']+)*"
RUST = re.compile(r'//[^\n]*|b?"(?:\\.|[^"\\])*"|' + NAME)
ANTT = re.compile(r'--[^\n]*|"(?:\\.|[^"\\\n])*"|' + NAME)
SPAN = re.compile(r"`[^`\n]+`")


def table():
    with open(os.path.join(HERE, "respell.tsv"), encoding="utf-8") as f:
        return dict(line.rstrip("\n").split("\t") for line in f)


def turned(text, pattern, names):
    def word(m):
        w = m.group()
        if w.startswith("--"):
            return SPAN.sub(lambda s: re.sub(NAME, lambda n: names.get(n.group(), n.group()), s.group()), w)
        # a step of the code that is named for a variable, as in `w.total-is`, is the check's own name
        if w.endswith("-is") and m.start() and text[m.start() - 1] == ".":
            return w
        return names.get(w, w)

    return pattern.sub(word, text)


def main():
    root = os.path.join(sys.argv[1] if len(sys.argv) > 1 else ".", "crates")
    names = table()
    for folder, dirs, files in os.walk(root):
        dirs[:] = [d for d in dirs if d != "out"]
        for name in sorted(files):
            if not name.endswith((".rt", ".antt")):
                continue
            path = os.path.join(folder, name)
            with open(path, encoding="utf-8") as f:
                old = f.read()
            new = turned(old, RUST if name.endswith(".rt") else ANTT, names)
            if new != old:
                with open(path, "w", encoding="utf-8") as f:
                    f.write(new)


main()
