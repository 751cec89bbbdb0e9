#!/usr/bin/env python3
"""Spells this repository's own definitions and lemmas in snake case, by names.tsv beside this file: old, a tab, new.

usage: python3 tools/respell/respell.py FOLDER..    after the kit's port.py, once; each FOLDER is a repository

In crates/ it turns specs, proofs and the clauses of src, with the kit's own script for names, and the lines 'old:' and 'new:' of the must-fail edits;
in README.md and docs/ the code spans. Functions of src, exported names, strings, inputs and outputs are not touched.
"""

import glob
import os
import re
import subprocess
import sys

HERE = os.path.dirname(os.path.realpath(__file__))
TABLE = os.path.join(HERE, "names.tsv")
WORD = re.compile(r'[^\s(){}.;,@"«»]+')


def kit():
    page = subprocess.run(["rt", "doc"], capture_output=True, text=True, check=True).stdout.strip()
    return os.path.join(os.path.dirname(page), "port", "notes", "2026-11-18-names-are-in-snake-case", "snake.py")


def turn(kinds, paths):
    if paths:
        subprocess.run([sys.executable, kit(), "--table", TABLE, "--only", kinds, *paths], check=True)


def turn_edits(root):
    with open(TABLE, encoding="utf-8") as f:
        names = dict(line.rstrip("\n").split("\t") for line in f)
    for path in glob.glob(os.path.join(root, "crates", "*", "must-fail", "*.edit")):
        with open(path, encoding="utf-8") as f:
            lines = f.read().split("\n")
        for i, line in enumerate(lines):
            if line.startswith(("old: ", "new: ")):
                lines[i] = line[:5] + WORD.sub(lambda m: names.get(m[0], m[0]), line[5:])
        with open(path, "w", encoding="utf-8") as f:
            f.write("\n".join(lines))


def main():
    for root in sys.argv[1:]:
        turn("antt,rt", [os.path.join(root, "crates")])
        pages = [os.path.join(root, "README.md"), *sorted(glob.glob(os.path.join(root, "docs", "*.md")))]
        turn("md", [p for p in pages if os.path.exists(p)])
        turn_edits(root)


if __name__ == "__main__":
    main()
