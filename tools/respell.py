#!/usr/bin/env python3
"""Brings the repository's own names in specs/ and proofs/ to today's spelling, once, after port.py.

usage: python3 tools/respell.py [--dry]

A definition, a lemma and a field are in snake case: `dueIn` becomes `due_in`, and `refusal-keeps` `refusal_keeps`. A dash stays where it joins
two names, a definition of the repository or of the library on each side, as in `length-remove_at`. Types and modules keep their
capitals. The names are those declared in crates/*/specs and in the lemma files of crates/*/proofs; they are put in place in every .antt file and in the
clauses and `ghost use` lines of every .rt file. Names of functions of src/ stay. A name that falls together with another one is said, and refused.
"""

import collections
import glob
import re
import sys

DECLARED = re.compile(r"^\s*(?:(?:abbrev|unfoldable|pub|module|record|data)\s+)*([^\s:(){}]+)\s*(?:[({].*)?:(?:\s|$)")
RECORD = re.compile(r"^\s*(?:pub\s+)?record\s")
DEFINED = re.compile(r"^\s*(?:abbrev|unfoldable)\s+(?:pub\s+)?([^\s:(){}]+)\s*(?:[({].*)?:(?:\s|$)")
NAME = re.compile(r"[A-Za-z_][\w'?]*(?:-[\w'?]+)*(?![\w'?]|-\w)")
PLAIN = re.compile(r"^[a-z][A-Za-z0-9_'?]*(?:-[A-Za-z0-9_'?]+)*$")
# Words of the library that a lemma's name begins with, or takes in.
LIBRARY = {"length", "map", "set", "get_or", "take", "drop", "append", "sum", "replicate", "max", "min"}
# Locals of modules, where blocks and binders that are in the older case too.
LOCAL = re.compile(r"(?<![\w'.?-])([a-z][a-z0-9]*(?:[A-Z][a-z0-9]*)+)(?![\w'?-])")
# The older library's words that the port has left inside names of ours.
OLDER = {"getD": "get_or", "eqb": "eqb", "leb": "leb"}
# What would fall together with another name, and what it is called instead.
OTHER = {"bit-or": "bit_or_lem"}
# Names that the library has in its Prelude, which none of ours may take.
LIBRARYS_OWN = {"bit_or", "bit_and", "get_or", "slice_index", "slice_get", "nat_eq", "nat_lt", "nat_le", "list_all", "append_assoc"}


def snake(word):
    """`removeAt` as `remove_at`; a part with a capital first is a type's name and stays."""
    if word in OLDER:
        return OLDER[word]
    if not word or not word[0].islower():
        return word
    return re.sub(r"(?<=[a-z0-9])([A-Z])", lambda m: "_" + m.group(1).lower(), word)


def imported():
    """The names that some file takes from the library, which stay as the library spells them."""
    ours, out = {path.split("/")[1] for path in glob.glob("crates/*/")}, set()
    for path in all_files():
        for module, list_of in re.findall(r"use ([^\s{}]+)\.\{([^}]*)\}", open(path, encoding="utf-8").read()):
            parts = module.split(".")
            if parts[0] != "Rattle" or parts[1] not in ours:
                out.update(name.strip() for name in list_of.split(","))
    return out


def lemma_files():
    return sorted(glob.glob("crates/*/specs/**/*.antt", recursive=True) + glob.glob("crates/*/proofs/*.antt"))


def all_files():
    return sorted(glob.glob("crates/*/specs/**/*.antt", recursive=True) + glob.glob("crates/*/proofs/**/*.antt", recursive=True)
                  + glob.glob("crates/*/src/**/*.rt", recursive=True))


def declared():
    """The names that are declared, those of them that are defined and no lemma, and those that are lemmas or definitions somewhere and not only fields."""
    names, defined, free = {}, set(LIBRARY), set()
    for path in lemma_files():
        record = -1
        for n, line in enumerate(open(path, encoding="utf-8"), 1):
            if line.lstrip().startswith("--") or not line.strip():
                continue
            deep = len(line) - len(line.lstrip())
            if deep <= record:
                record = -1
            if RECORD.match(line):
                record = deep
            m = DECLARED.match(line)
            if m and PLAIN.match(m.group(1)):
                names.setdefault(m.group(1), (path, n))
                if record < 0:
                    free.add(m.group(1))
            m = DEFINED.match(line)
            if m and "-" not in m.group(1):
                defined.add(m.group(1))
    return names, defined, free


def renamed(name, defined):
    """A dash stays between two names, and between a type and what is said of it."""
    if name in OTHER:
        return OTHER[name]
    parts = name.split("-")
    out = snake(parts[0])
    for before, part in zip(parts, parts[1:]):
        joins = (before in defined or before in OLDER or before[0].isupper()) and (part in defined or part in OLDER or part[0].isupper())
        out += ("-" if joins else "_") + snake(part)
    return out


def tokens(text):
    return NAME.findall(text)


def main():
    names, defined, free = declared()
    for name in imported():
        names.pop(name, None)
    used = collections.Counter()
    for path in all_files():
        used.update(set(tokens(open(path, encoding="utf-8").read())))
    turn = {}
    for name in sorted(names):
        new = renamed(name, defined)
        if new != name:
            turn[name] = new
    for path in lemma_files():
        for word in LOCAL.findall(open(path, encoding="utf-8").read()):
            if word not in names and word not in turn:
                turn[word] = renamed(word, defined)
    # Of two that fall together the lemma gives way, but a field stays as it is; a function of src/ may have the name of the definition that its contract cites.
    back = collections.defaultdict(list)
    for old, new in turn.items():
        back[new].append(old)
    bad = []
    for new, olds in sorted(back.items()):
        if new in names and new not in turn:
            olds = olds + [new]
        if len(olds) == 1:
            continue
        olds = [old for old in olds if old in free or old in defined]
        if len(olds) <= 1:
            continue
        keeps = [old for old in olds if old in defined] or [old for old in olds if "-" not in old][:1] or olds[:1]
        for old in olds:
            if old != keeps[0] and old in free:
                turn[old] = new + "_lem"
        if len(keeps) > 1 or len(olds) > 2 or used[new + "_lem"]:
            bad.append(new)
            print(f"falls together: {new}: {', '.join(olds)}", file=sys.stderr)
    for old in LIBRARYS_OWN & set(turn.values()):
        bad.append(old)
        print(f"falls together with the library: {old}", file=sys.stderr)
    print(f"{len(names)} names, {len(turn)} of them respelled, {len(bad)} fall together")
    if "--dry" in sys.argv[1:]:
        for old, new in sorted(turn.items()):
            print(old, new)
        return 1 if bad else 0
    if bad:
        return 1
    changed = 0
    for path in all_files():
        text = open(path, encoding="utf-8").read()
        new = NAME.sub(lambda m: turn.get(m.group(0), m.group(0)), text)
        if new != text:
            open(path, "w", encoding="utf-8").write(new)
            changed += 1
    print(f"{changed} files changed")
    return 0


if __name__ == "__main__":
    sys.exit(main())
