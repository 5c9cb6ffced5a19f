#!/usr/bin/env python3
"""Moves the theorems of every crate from specs/ to proofs/: a must-fail edit of a definition, or of a theorem, is tried only where what rests on it stands
in proofs/. What contracts cite stays in specs/Laws, and so do the definitions that these are made of; the rest of specs/Laws and the
worked examples with what they need go to proofs/ under the same names. No statement and no definition is changed.

usage: python3 tools/part_laws.py [FOLDER]    in FOLDER, or in the repository of this file: once, after port.py and respell.py
"""

import collections
import glob
import os
import re
import sys

WORD = re.compile(r"[^\s(){}\[\].;,@\"«»`|:]+")
USE = re.compile(r"^(ghost )?use Rattle\.(\w+)\.specs\.(Laws\.\w+|Examples)\.\{(.*)\}(;?)$")
KINDS = ("pub", "abbrev", "unfoldable", "record", "data")


def name_of(line):
    """The name that a line at the margin declares, and the words before it."""
    words = line.split()
    k = 0
    while k < len(words) and words[k] in KINDS:
        k += 1
    if k == len(words):
        return None, []
    if k or (len(words) > 1 and words[1] == ":"):
        return words[k].rstrip(":"), words[:k]
    return None, []


class Block:
    def __init__(self, lines):
        self.lines = lines
        self.names = []
        self.kinds = []
        body = [l for l in lines if not l.startswith("--")]
        self.module = bool(body) and body[0].startswith("module ")
        for l in body:
            deep = len(l) - len(l.lstrip())
            if not deep or self.module and (deep == 2 or l.lstrip().startswith("pub ")):
                n, k = name_of(l.strip())
                if n and not l.startswith("module "):
                    self.names.append(n)
                    self.kinds.append(k)
        # a name behind a dot is a field
        self.tokens = {m.group(0) for m in WORD.finditer("\n".join(body)) if m.string[m.start() - 1 : m.start()] != "."}

    def only_comment(self):
        return all(l.startswith("--") for l in self.lines)


def read(path):
    """The head's comment, its use lines, and the blocks of a file."""
    with open(path, encoding="utf-8") as f:
        lines = f.read().rstrip("\n").split("\n")
    k = 0
    while k < len(lines) and lines[k].startswith("--"):
        k += 1
    head, uses = lines[:k], []
    while k < len(lines) and (lines[k].startswith("use ") or not lines[k].strip()):
        if lines[k].strip():
            uses.append(lines[k])
        k += 1
    blocks, now = [], []
    for l in lines[k:] + ["", "-- end"]:
        if l and not l.startswith(" ") and now and not now[-1]:
            words = l.split()
            last = Block([x for x in now if x])
            if not last.names or words[0] not in last.names or l.startswith("--"):
                blocks.append(Block(strip(now)))
                now = []
        now.append(l)
    return head, uses, [b for b in blocks if b.lines]


def strip(lines):
    while lines and not lines[-1]:
        lines = lines[:-1]
    return lines


def table_rows(head):
    """The rows of the table in a head, each with the lines that go on with it; what stands around them."""
    before, rows, after = [], [], []
    for l in head:
        if re.match(r"^--   \S", l):
            rows.append([l])
        elif rows and re.match(r"^--    +\S", l) and not after:
            rows[-1].append(l)
        elif rows:
            after.append(l)
        else:
            before.append(l)
    return before, rows, after


def row_names(row):
    text = row[0][5:]
    left = re.split(r"   +", text)[0]
    return [part.split()[0] for part in left.split(",") if part.split()]


def main():
    root = os.path.abspath(sys.argv[1] if len(sys.argv) > 1 else os.path.join(os.path.dirname(os.path.realpath(__file__)), ".."))
    os.chdir(root)
    files = {}
    for path in sorted(glob.glob("crates/*/specs/Laws/*.antt")):
        crate, module = path.split("/")[1], os.path.basename(path)[:-5]
        files[crate, module] = read(path)
    if not files:
        raise SystemExit("part_laws: there is nothing in specs/Laws")
    home = {}
    for key, (head, uses, blocks) in files.items():
        for b in blocks:
            for n in b.names:
                home[key + (n,)] = b
    need, todo = collections.defaultdict(set), []

    def want(crate, module, name):
        if (crate, module, name) in home and name not in need[crate, module]:
            b = home[crate, module, name]
            if b.module or not set(sum(b.kinds, [])) & set(KINDS[1:]):
                return  # what contracts cite stands in no module and is marked as a definition: a variable has that name
            need[crate, module].update(b.names)
            todo.append((crate, module, b))

    for path in sorted(glob.glob("crates/*/src/*.rt")) + sorted(glob.glob("crates/*/specs/Rules.antt")):
        with open(path, encoding="utf-8") as f:
            for l in f:
                m = USE.match(l.strip())
                if m and m.group(3).startswith("Laws."):
                    for n in m.group(4).split(","):
                        want(m.group(2), m.group(3)[5:], n.strip())
    while todo:
        crate, module, b = todo.pop()
        uses = files[crate, module][1]
        for k in list(home):
            if k[:2] == (crate, module) and k[2] in b.tokens:
                want(*k)
        for u in uses:
            m = USE.match(u)
            if m and m.group(3).startswith("Laws."):
                for n in m.group(4).split(","):
                    if n.strip() in b.tokens:
                        want(m.group(2), m.group(3)[5:], n.strip())

    def parted(line, also=None):
        """A use line of laws or examples, as one or two that name where things stand now."""
        m = USE.match(line)
        if not m:
            return [line]
        ghost, crate, module, names, end = m.groups()
        names = [n.strip() for n in names.split(",")]
        stay = need[crate, module[5:]] if module.startswith("Laws.") else set()
        out = []
        for place, these in (("specs", [n for n in names if n in stay]), ("proofs", [n for n in names if n not in stay])):
            if these:
                out.append(f"{ghost or ''}use Rattle.{crate}.{place}.{module}.{{{', '.join(these)}}}{end}")
        return out

    def named(line, tokens):
        """A use line of a file of specs/ without the theorems, tactics' rules and laws that it does not name."""
        m = re.match(r"^use ([^{]*[.])\{(.*)\}$", line)
        if not m or ".specs." in m.group(1):
            return line
        names = [n.strip() for n in m.group(2).split(",") if n.strip().strip("◌") in tokens]
        return f"use {m.group(1)}{{{', '.join(names)}}}" if names else None

    for (crate, module), (head, uses, blocks) in files.items():
        stay = need[crate, module]
        before, rows, after = table_rows(head)
        os.makedirs(f"crates/{crate}/proofs/Laws", exist_ok=True)
        here = [b for b in blocks if stay & set(b.names)]
        there = [b for b in blocks if b not in here]
        os.remove(f"crates/{crate}/specs/Laws/{module}.antt")
        for place, these in (("specs", here), ("proofs", there)):
            if not these or all(b.only_comment() for b in these):
                continue
            own = [r for r in rows if (set(row_names(r)) <= stay) == (place == "specs")] if here else rows
            text = before + [l for r in own for l in r] + after
            lines = [v for u in uses for v in parted(u)]
            if place == "specs":
                lines = [v for v in (named(l, {t for b in these for t in b.tokens}) for l in lines) if v]
            if place == "proofs" and here:
                lines.append(f"use Rattle.{crate}.specs.Laws.{module}.{{{', '.join(n for b in here for n in b.names)}}}")
            with open(f"crates/{crate}/{place}/Laws/{module}.antt", "w", encoding="utf-8") as f:
                f.write("\n".join(text + lines) + "\n" + "".join("\n" + "\n".join(b.lines) + "\n" for b in these))
    for path in glob.glob("crates/*/specs/Examples.antt"):
        os.makedirs(path.split("/specs/")[0] + "/proofs", exist_ok=True)
        os.rename(path, path.replace("/specs/", "/proofs/"))
    for crate in sorted({c for c, _ in files}):
        kept = [m for c, m in files if c == crate and os.path.exists(f"crates/{crate}/specs/Laws/{m}.antt")]
        gone = [m for c, m in files if c == crate and os.path.exists(f"crates/{crate}/proofs/Laws/{m}.antt")]
        with open(f"crates/{crate}/specs/Laws.antt", encoding="utf-8") as f:
            page = f.read().rstrip("\n").split("\n")
        os.remove(f"crates/{crate}/specs/Laws.antt")
        comment = [l for l in page if l.startswith("--")]
        mods = [l for l in page if not l.startswith("--") and l.strip()]
        for place, these in (("specs", kept), ("proofs", gone)):
            if these:
                lines = [l for l in comment if not re.match(r"^--   [A-Z]", l) or l.split()[1] in these]
                lines += [l for l in mods if l.split()[-1] in these]
                with open(f"crates/{crate}/{place}/Laws.antt", "w", encoding="utf-8") as f:
                    f.write("\n".join(lines) + "\n")
    for crate in sorted(os.listdir("crates")):
        if os.path.exists(f"crates/{crate}/specs/Lib.antt"):
            with open(f"crates/{crate}/specs/Lib.antt", encoding="utf-8") as f:
                page = f.read().rstrip("\n").split("\n")
            specs = [l for l in page if l.startswith("--")]
            proofs = list(specs)
            for l in page:
                m = re.match(r"^(pub )?mod (\w+)$", l)
                if not m:
                    continue
                file = m.group(2) + ".antt"
                if os.path.exists(f"crates/{crate}/specs/{file}"):
                    specs.append(l)
                if os.path.exists(f"crates/{crate}/proofs/{file}"):
                    proofs.append(l)
            if any("mod " in l for l in proofs if not l.startswith("--")):
                with open(f"crates/{crate}/proofs/Lib.antt", "w", encoding="utf-8") as f:
                    f.write("\n".join(proofs) + "\n")
            with open(f"crates/{crate}/specs/Lib.antt", "w", encoding="utf-8") as f:
                f.write("\n".join(specs) + "\n")
    moved = {(c, m) for c, m in files}
    for path in glob.glob("crates/**/*.antt", recursive=True) + glob.glob("crates/**/*.rt", recursive=True):
        if "/out/" in path or re.match(r"crates/\w+/(specs|proofs)/Laws/", path):
            continue
        with open(path, encoding="utf-8") as f:
            old = f.read()
        new = "\n".join(v for l in old.split("\n") for v in parted(l))
        if new != old:
            with open(path, "w", encoding="utf-8") as f:
                f.write(new)


main()
