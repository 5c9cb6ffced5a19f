#!/usr/bin/env python3
"""Spells this repository's own definitions and lemmas as the Rattle of today does: words in snake case. respell.tsv, beside this file, has
a row for each name: the old one, a tab, the new one.

usage: python3 tools/respell.py [FOLDER]    in FOLDER, or in the repository of this file: once, after port.py

Whole words turn: in crates/*/{src,specs,proofs} and in must-fail edits all, in pages and in .ci/ what stands between backticks. A lemma whose
name would fall together with that of a definition gets _lem. A second run would take such a definition for its lemma, and is refused.
"""

import os
import re
import sys

HERE = os.path.dirname(os.path.realpath(__file__))
WORD = re.compile(r"[^\s(){}\[\].;,@\"«»`|:]+")
DONE = "crates/residue/specs/Rules.antt"
SPAN = re.compile(r"`[^`\n]+`")


def table():
    with open(os.path.join(HERE, "respell.tsv"), encoding="utf-8") as rows:
        return dict(row.rstrip("\n").split("\t") for row in rows)


def kind(path):
    """What turns in a file: 'all', 'spans' or nothing."""
    parts = path.split(os.sep)
    if parts[0] == "crates" and path.endswith((".antt", ".rt", ".edit")):
        return "all"
    if parts[:2] == [".ci", "canaries"]:
        return "all"
    if path.endswith(".md"):
        return "spans"
    return None


def main():
    root = os.path.abspath(sys.argv[1] if len(sys.argv) > 1 else os.path.join(HERE, ".."))
    names = table()

    def turned(text):
        return WORD.sub(lambda m: names.get(m.group(0), m.group(0)), text)

    if os.path.exists(os.path.join(root, DONE)) and "least_residue" in open(os.path.join(root, DONE), encoding="utf-8").read():
        raise SystemExit("respell: the names are spelled anew already")
    changed = 0
    for folder, folders, files in os.walk(root):
        folders[:] = [f for f in folders if f not in ("out", ".git", "target", "dist", "host")]
        for name in files:
            path = os.path.join(folder, name)
            how = kind(os.path.relpath(path, root))
            if how is None:
                continue
            with open(path, encoding="utf-8") as file:
                old = file.read()
            new = turned(old) if how == "all" else SPAN.sub(lambda m: turned(m.group(0)), old)
            if new != old:
                changed += 1
                with open(path, "w", encoding="utf-8") as file:
                    file.write(new)
    print(f"respell: {changed} files changed")


main()
