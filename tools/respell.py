#!/usr/bin/env python3
"""Brings the names of definitions and lemmas to today's spelling.

usage: python3 tools/respell.py        at the top of the repository, once, after the toolchain's own script

A definition, a record's field and a lemma are in snake case; a constructor is in camel case, as a type is.
A lemma that is named after its left side has a dash after the outer call, as `sum_by-perm`.
It rewrites .antt files, the clauses of .rt files, and the names that README.md and docs/ put between backticks.
Functions of src/, strings, inputs, outputs and must-fail edits have no name of this kind and stay as they are.
"""

import os
import re
import sys

NAME = re.compile(r"(?<![\w'\-])[A-Za-z_][\w']*(?:-[\w']+)*")
HUMP = re.compile(r"(?<=[a-z0-9])[A-Z]")
DECLARED = re.compile(r"^(\s*)(?:abbrev\s+|unfoldable\s+)?(?:pub\s+)?(?:abbrev\s+|unfoldable\s+)?(?:pub\s+)?([a-zA-Z_][\w'\-]*)\s*:(?!:)(?! goal\.)", re.M)
DEFINED = re.compile(r"^\s*(?:abbrev|unfoldable)\s+(?:pub\s+)?([a-zA-Z_][\w'\-]*)\s*:", re.M)

# Names that would fall together with a ghost field, a lemma or a constant, and constructors.
SPECIAL = {
    "wellMade": "is_well_made",
    "well-made": "standing_is_well_made",
    "inOrder": "comes_in_order",
    "sameSpot": "is_same_spot",
    "setPeriod": "SetPeriod",
    "addSegment": "AddSegment",
    "addMeter": "AddMeter",
    "addCarried": "AddCarried",
    "getD-zeros": "get_or-zeros",
    "all-pass-getD": "all_pass-get_or",
    "by-segment": "by_segment-each",
    "marked-below": "marked_below-is",
    "may-end": "may_end_parts",
    "meter-within": "meter_is_within",
    "number-at": "number_at-is",
    "words-read": "words_are_read",
    "bit-or": "bit_of_or",
    "period-fits": "period_is_fitting",
    "terms-fit": "terms_are_fitting",
}

# Functions after which a lemma is named.
HEADS = set("all_pass decoded encoded gave get_or given joined joined_all left_over length lines map numbered over rank sum sum_by weight".split())


def files():
    for folder, dirs, names in os.walk("crates"):
        dirs[:] = sorted(d for d in dirs if d != "out")
        for n in sorted(names):
            if n.endswith((".antt", ".rt")):
                yield os.path.join(folder, n)


def snake(name):
    return HUMP.sub(lambda m: "_" + m.group(0).lower(), name)


def is_camel(name):
    return bool(re.match(r"[a-z]", name)) and bool(HUMP.search(name)) and not re.match(r"x[0-9A-F]+", name)


def read(path):
    with open(path, encoding="utf-8") as f:
        return f.read()


def table():
    """Old name to new name, and the old names that are a record's fields."""
    declared, defined, words, fields = set(), set(), set(), set()
    for p in files():
        if not p.endswith(".antt"):
            continue
        text = read(p)
        for m in DECLARED.finditer(text):
            declared.add(m.group(2))
        defined |= {m.group(1) for m in DEFINED.finditer(text)}
        for block in re.finditer(r"^ *(?:pub )?record .*? where\n((?: +.*\n)+)", text, re.M):
            fields |= {m.group(2) for m in DECLARED.finditer(block.group(1))}
        words |= set(NAME.findall(text))
    new = {}
    for w in words | declared:
        if w in SPECIAL:
            new[w] = SPECIAL[w]
        elif "-" in w and w in declared:
            whole = snake(w).replace("-", "_")
            head = max((h for h in HEADS if whole.startswith(h + "_")), key=len, default=None)
            if head is None or w in defined or w in fields:
                new[w] = whole
            else:
                new[w] = head + "-" + whole[len(head) + 1:]
        elif "-" not in w and is_camel(w):
            new[w] = snake(w)
    return {a: b for a, b in new.items() if a != b}, fields, words | declared


def respelled(text, new, fields):
    def one(m):
        w = m.group(0)
        behind_dot = m.start() > 0 and text[m.start() - 1] == "."
        if w in new and (not behind_dot or w in fields or "-" not in w):
            return new[w]
        return w
    return NAME.sub(one, text)


def clauses_only(text, new, fields):
    """In source text names of this kind stand in clauses alone; strings stay."""
    parts = re.split(r'("(?:[^"\\\n]|\\.)*")', text)
    return "".join(p if i % 2 else respelled(p, new, fields) for i, p in enumerate(parts))


def main():
    new, fields, words = table()
    clash = {}
    for a, b in sorted(new.items()):
        clash.setdefault(b, []).append(a)
    together = [(b, olds) for b, olds in clash.items() if len(olds) > 1]
    together += [(b, olds) for b, olds in clash.items() if b in words]
    for b, olds in sorted(together):
        print(f"look: {', '.join(olds)} -> {b}" + (", which stands already" if b in words else ""))
    if "--look" in sys.argv:
        for a, b in sorted(new.items()):
            print(f"{a} -> {b}")
        return
    for p in files():
        text = read(p)
        t = respelled(text, new, fields) if p.endswith(".antt") else clauses_only(text, new, fields)
        if t != text:
            with open(p, "w", encoding="utf-8") as f:
                f.write(t)
    pages = ["README.md"] + sorted(os.path.join("docs", n) for n in os.listdir("docs") if n.endswith(".md"))
    for p in pages:
        text = read(p)
        t = re.sub(r"`[^`\n]+`", lambda m: NAME.sub(lambda w: SPECIAL.get(w.group(0), snake(w.group(0))) if is_camel(w.group(0)) else w.group(0), m.group(0)), text)
        if t != text:
            with open(p, "w", encoding="utf-8") as f:
                f.write(t)


main()
