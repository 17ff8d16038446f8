#!/usr/bin/env python3
"""Spells the definitions and lemmas of this repository as the library's style page asks, in every crate below crates/.

usage: python3 tools/respell.py        at the top of a repository that port.py has turned

Definitions, lemmas, fields and constructors come out in snake case; types, facts and modules keep their capitals. A dash stays
where a lemma joins a definition of this repository and a function on lists, as `tabulate-length`. Names that Rattle makes and
functions of src/ keep their spelling. What falls together with another name gets the spelling of OWN below.
"""

import collections
import glob
import os
import re
import sys

# Names that would fall together with another one: the old name and the new one.
OWN = {
    "all-larger": "all_larger_lem",
    "component-at": "component_at_lem",
    "first-height": "first_height_lem",
    "flat-height": "flat_height_lem",
    "fold-height": "fold_height_lem",
    "gap-behind": "gap_behind_lem",
    "gap_at": "gap_at_lem",
    "group-of": "group_of_lem",
    "header_of": "header_of_lem",
    "last-gap": "last_gap_lem",
    "least-width": "least_width_lem",
    "left-clear": "left_is_clear",
    "left-first": "left_comes_first",
    "left-side": "left_side_lem",
    "mark-at": "mark_at_lem",
    "on-left": "on_the_left",
    "on-right": "on_the_right",
    "right-clear": "right_is_clear",
    "right_side": "right_side_lem",
    "same-side": "same_side_lem",
}

LISTS = {"length", "map", "take", "drop", "append", "reverse", "set", "get_or"}
WORD = r"[A-Za-z0-9_'-]"
DECLARED = re.compile(r"^(\s*)((?:(?:pub|abbrev|unfoldable)\s+)*)([A-Za-z0-9_'-]+)\s*:\s*(.*)$")
HEAD = re.compile(r"^\s*(?:pub\s+)?(record|data)\s+([A-Za-z0-9_'-]+)")
MADE = re.compile(r"(tie|goal)\.|.*\bstatement\b")


def texts(kind):
    found = glob.glob(f"crates/**/*.{kind}", recursive=True)
    return sorted(p for p in found if "/out/" not in p)


def declared(path):
    """Yields (name, whether it is a field or a constructor, its type) for each name that an antt file declares."""
    inside = None
    with open(path, encoding="utf-8") as f:
        lines = f.read().split("\n")
    for line in lines:
        if line.strip().startswith("--"):
            continue
        head = HEAD.match(line)
        if head:
            inside = len(line) - len(line.lstrip())
            yield head.group(2), False, "Type"
            continue
        m = DECLARED.match(line)
        if not m or m.group(3) in ("let", "in", "elim", "module", "use"):
            if line.strip() and inside is not None and len(line) - len(line.lstrip()) <= inside:
                inside = None
            continue
        deep = len(m.group(1))
        if inside is not None and deep <= inside:
            inside = None
        yield m.group(3), inside is not None, m.group(4)


def snake(name):
    if name[:1].isupper() and "-" not in name:
        return name
    parts = []
    for part in name.split("-"):
        if part[:1].islower():
            part = re.sub(r"(?<=[a-z0-9])([A-Z])", lambda m: "_" + m.group(1).lower(), part)
        parts.append(part)
    return "_".join(parts)


def spelled(name, plain, words):
    if plain or "-" not in name:
        return snake(name)
    left, _, right = name.rpartition("-")
    if right in LISTS and left in words or left in LISTS and right in words:
        return f"{snake(left)}-{snake(right)}"
    return snake(name)


def table():
    plain, others, words = set(), set(), set()
    for path in texts("antt"):
        for name, field, what in declared(path):
            if "/proofs/" in path and os.path.dirname(path).split("/proofs", 1)[1] and MADE.match(what):
                continue
            (plain if field else others).add(name)
    words = {n for n in others if "-" not in n} | LISTS
    new = {}
    for name in sorted(plain | others):
        to = OWN.get(name) or spelled(name, name in plain, words)
        if to != name:
            new[name] = to
    return new, plain | others


def clauses(text):
    """The places of a .rt file that antt reads: each `ghost use` and each clause."""
    for m in re.finditer(r"\bghost use [^;]*;", text):
        yield m.span()
    for m in re.finditer(r"\b(?:requires|ensures|ghost)\*?(?: \w+:?)? \{", text):
        depth, i = 1, m.end()
        while depth and i < len(text):
            depth += {"{": 1, "}": -1}.get(text[i], 0)
            i += 1
        yield m.start(), i


def main():
    new, names = table()
    by = collections.defaultdict(list)
    for name in names:
        by[new.get(name, name)].append(name)
    for to, olds in sorted(by.items()):
        if len(olds) > 1:
            print("fall together:", to, sorted(olds))
    fns = collections.defaultdict(set)
    for path in texts("rt"):
        with open(path, encoding="utf-8") as f:
            for m in re.finditer(r"\bfn (\w+)", f.read()):
                fns[path.split("/")[1]].add(m.group(1))
    every = set().union(*fns.values())
    for name, to in sorted(new.items()):
        if to in every:
            print("a function is called so:", name, to, sorted(c for c in fns if to in fns[c]))
    token = re.compile(rf"(?<!{WORD})(?:{'|'.join(re.escape(n) for n in sorted(new, key=len, reverse=True))})(?!{WORD})")
    camel = {n: t for n, t in new.items() if "-" not in n}
    short = re.compile(rf"(?<!{WORD})(?:{'|'.join(re.escape(n) for n in sorted(camel, key=len, reverse=True))})(?!{WORD})")
    if "--dry" in sys.argv:
        return
    turn = lambda s: token.sub(lambda m: new[m.group(0)], s)
    turn_camel = lambda s: short.sub(lambda m: camel[m.group(0)], s)
    for path in texts("antt"):
        rewrite(path, turn)
    for path in texts("rt"):
        def both(text):
            out, at = [], 0
            for a, b in sorted(clauses(text)):
                if a < at:
                    continue
                out += [turn_camel(text[at:a]), turn(text[a:b])]
                at = b
            return "".join(out) + turn_camel(text[at:])
        rewrite(path, both)
    for path in texts("edit"):
        rewrite(path, turn if ".antt" in open(path, encoding="utf-8").read() else turn_camel)
    for path in ["README.md"] + sorted(glob.glob("docs/**/*.md", recursive=True)):
        rewrite(path, lambda text: re.sub(r"`[^`\n]+`", lambda m: turn(m.group(0)), text))


def rewrite(path, turn):
    with open(path, encoding="utf-8") as f:
        text = f.read()
    to = turn(text)
    if to != text:
        with open(path, "w", encoding="utf-8") as f:
            f.write(to)


if __name__ == "__main__":
    main()
