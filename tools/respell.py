#!/usr/bin/env python3
"""Spells the definitions and lemmas of this repository as today's Rattle spells its own: words in snake case.

usage: python3 tools/respell.py [--report] [ROOT]    (run once, right after the kit's port.py)

A definition, lemma, field or variable that specs/ or proofs/ declares in camel case (`isGone`) or with dashes
(`child-readable`) becomes `is_gone`, `child_readable`, at each place where it stands: in specs/, proofs/, the ghost parts of
src/, in must-fail edits, and in backticks in docs/ and README. Types, facts and modules keep their capitals; goals and
whatever else the check names keep the check's spelling; so do names that std declares too. Where a lemma would have the name
of a definition, `_lem` stands behind it.
"""
import collections
import glob
import os
import re
import sys

# A lemma that would have the name of a definition, or of another lemma, gets this after its own.
LEMMA = "_lem"

# (where, old name, new name): names that were in snake case already and that a name turned here would meet.
MET = [
    ("crates/store/proofs/", "line_word", "line_word_lem"),
    ("crates/model/proofs/Raise.antt", "root_live", "root_live_lem"),
    ("crates/model/proofs/Sweep.antt", "root_live", "root_live_lem"),
    ("crates/order/proofs/Shelf.antt", "not_after", "no_later"),
]

DECLARED = re.compile(r"(?m)^[ ]*(?:(?:abbrev|unfoldable|opaque|pub)[ ]+)*([^\s:(){}=λ|,.;]+)[ ]+:(?=[ ]|$)[ ]*(.*)$")
TOKEN = re.compile(r"[^\s(){}\[\],;.«»⌜⌝\"`@]+")


def files(root, *patterns):
    return sorted(f for p in patterns for f in glob.glob(os.path.join(root, p), recursive=True) if "/out/" not in f)


def read(path):
    with open(path, encoding="utf-8") as f:
        return f.read()


def uncommented(text, mark):
    return "\n".join(line.split(mark)[0] for line in text.split("\n"))


def declared(root):
    """Own names with the files that declare them, and the names that come from elsewhere."""
    own, foreign = collections.defaultdict(set), set()
    for path in files(root, "crates/*/specs/**/*.antt", "crates/*/proofs/**/*.antt"):
        text = uncommented(read(path), "--")
        for name, kind in DECLARED.findall(text):
            if kind.startswith("goal.") or name.startswith(("invariant-", "decreases-")):
                continue
            own[name].add(path)
        for line in re.findall(r"(?m)^use (\S+)\.\{([^}]*)\}", text):
            if line[0].startswith(("Rattle.std.", "borrow.", "denote.", "Prim.", "mathlib.", "lib.", "native.", "logic.")):
                foreign |= {n.strip().split(" as ")[0] for n in line[1].split(",")}
    return own, foreign


def plain(name):
    if not re.match(r"[a-zκ]", name) or not re.search(r"[A-Z-]", name):
        return name
    parts = []
    for part in name.split("-"):
        if not part[:1].isupper():
            part = re.sub(r"(?<=[a-z0-9])([A-Z])", lambda m: "_" + m.group(1).lower(), part)
        parts.append(part)
    return "_".join(parts)


def renaming(root):
    own, foreign = declared(root)
    table = {}
    taken = {name for name in own if plain(name) == name}
    # definitions first, so that they have the plain names
    for name in sorted(own, key=lambda n: (all("/proofs/" in p for p in own[n]), "-" in n, n)):
        new = plain(name)
        if name in foreign or new == name:
            continue
        if new in taken and "-" in name:
            new += LEMMA
        taken.add(new)
        table[name] = new
    return own, foreign, table


def report(root, own, foreign, table):
    by_new = collections.defaultdict(set)
    for name in own:
        by_new[table.get(name, name)].add(name)
    for new, olds in sorted(by_new.items()):
        if len(olds) > 1:
            print("together:", new, "<-", {o: sorted(os.path.relpath(p, root) for p in own[o]) for o in olds})
    for new, olds in sorted(by_new.items()):
        if new in foreign and new not in olds:
            print("foreign:", new, "<-", olds)
    uses = {}
    for path in files(root, "crates/*/specs/**/*.antt", "crates/*/proofs/**/*.antt"):
        uses[path] = set(TOKEN.findall(uncommented(read(path), "--")))
    for old, new in sorted(table.items()):
        both = [os.path.relpath(p, root) for p, words in uses.items() if old in words and new in words]
        if both:
            print("beside:", old, "->", new, both[:6])


def turned(text, table, mark):
    """The text with the table's names in code, and in backticks in its comments."""
    def one(m):
        return table.get(m.group(0), m.group(0))
    lines = []
    for line in text.split("\n"):
        at = line.find(mark) if mark else 0
        code, comment = (line, "") if at < 0 else (line[:at], line[at:])
        comment = re.sub(r"`[^`]*`", lambda m: TOKEN.sub(one, m.group(0)), comment)
        lines.append(TOKEN.sub(one, code) + comment)
    return "\n".join(lines)


def main(argv):
    root = next((a for a in argv if not a.startswith("--")), ".")
    own, foreign, table = renaming(root)
    if "--report" in argv:
        report(root, own, foreign, table)
        print(len(table), "names")
        return 0
    marks = [("crates/*/specs/**/*.antt", "--"), ("crates/*/proofs/**/*.antt", "--"), ("crates/*/src/**/*.rt", "//"), ("crates/*/must-fail/*.edit", "#"), ("docs/*.md", ""), ("README.md", "")]
    for pattern, mark in marks:
        for path in files(root, pattern):
            old = read(path)
            met = {a: b for where, a, b in MET if os.path.relpath(path, root).startswith(where)}
            new = turned(turned(old, met, mark) if met else old, table, mark)
            if new != old:
                with open(path, "w", encoding="utf-8") as f:
                    f.write(new)
    print(f"respell: {len(table)} names")
    return 0


if __name__ == "__main__":
    raise SystemExit(main(sys.argv[1:]))
