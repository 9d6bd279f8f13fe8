#!/usr/bin/env python3
"""Spells the repository's own definitions and lemmas as Rattle does: functions, lemmas, fields and constructors in
snake case, facts and types in camel case.

usage: tools/respell.py [--list]      at the top of the repository, after the kit's port.py, once

A name is the repository's own if a file of specs/ or proofs/ defines it. Names that Rattle makes (goals, measures,
invariants) and names of the kit's library keep their dashes. It changes the .antt files and, in .rt files, the lines
of ghost items and clauses. It stops where two names would fall together.
"""
import collections
import glob
import os
import re
import sys

WORD = re.compile(r"[^\s(){}\[\].,;«»\"`]+")
HEAD = re.compile(r"^\s*(?:pub |abbrev |unfoldable |record |data |mutual )*([^\s:(){}]+(?: [^\s:(){}]+)*) :(?=\s|$)")
RECORD = re.compile(r"^\s*(?:pub )?(?:record|data) ([^\s:(){}]+)")
ANSWERS = ("Answers.antt", "Invariants.antt", "Choices.antt", "Proof.antt")
# A Rust field has the plain spelling of these already.
OTHERWISE = {"own-pairs": "site_pairs", "in-union": "inside_union"}
KEYWORDS = {"pub", "abbrev", "unfoldable", "record", "data", "module", "where"}


def antt_files():
    return sorted(glob.glob("crates/*/specs/**/*.antt", recursive=True) + glob.glob("crates/*/proofs/**/*.antt", recursive=True))


def lines(path):
    with open(path, encoding="utf-8") as file:
        return file.read().split("\n")


def defined():
    """Each own name with the places that define it; names of goals are left out."""
    names = collections.defaultdict(list)
    for path in antt_files():
        for at, line in enumerate(lines(path), 1):
            if line.lstrip().startswith("--"):
                continue
            found = HEAD.match(line)
            heads = found.group(1).split() if found else []
            record = RECORD.match(line)
            if record:
                heads.append(record.group(1))
            if os.path.basename(path) in ANSWERS and re.search(r": goal\.", line):
                continue
            if os.path.basename(path) in ANSWERS and found and len(heads) > 1:
                continue
            for name in heads:
                if name not in KEYWORDS:
                    names[name].append((path, at))
    return names


def spelling(name):
    if name in OTHERWISE:
        return OTHERWISE[name]
    if "-" not in name:
        return name
    parts = name.split("-")
    if name[0].isupper():
        return "".join(part[:1].upper() + part[1:] for part in parts)
    return "_".join(parts)


def foreign():
    """Names that some file takes from elsewhere than the repository's crates."""
    own = {os.path.basename(os.path.dirname(it)) for it in glob.glob("crates/*/")}
    names = set()
    for path in antt_files() + glob.glob("crates/*/src/**/*.rt", recursive=True):
        for line in lines(path):
            found = re.match(r"^\s*(?:ghost )?use ([\w.·◌-]+)\.\{(.*)\}", line)
            if not found:
                continue
            steps = found.group(1).split(".")
            if len(steps) > 1 and steps[0] == "Rattle" and steps[1] in own:
                continue
            names.update(it.strip().split(" as ")[0] for it in found.group(2).split(","))
    return names


def turned(line, table):
    return WORD.sub(lambda it: table.get(it.group(0), it.group(0)), line)


def is_ghost(line):
    return re.match(r"^\s*(?:pub )?(?:ghost|requires|ensures)\b", line) is not None


def main():
    names = defined()
    table = {it: spelling(it) for it in names if spelling(it) != it}
    outside = foreign()
    bad = sorted(it for it in table if it in outside)
    together = collections.defaultdict(set)
    for it in list(names) + list(table):
        together[table.get(it, it)].add(it)
    clashes = [f"of a library too: {', '.join(bad)}"] if bad else []
    for new, olds in sorted(together.items()):
        if len(olds) > 1:
            clashes.append(f"fall together: {new} from {', '.join(sorted(olds))}")
        elif olds != {new} and new in outside:
            clashes.append(f"falls on a library's name: {new} {names[next(iter(olds))]}")
    if clashes:
        print("\n".join(clashes))
        return 1
    if "--list" in sys.argv:
        for old in sorted(table):
            print(old, "->", table[old], names[old][0])
        return 0
    count = 0
    for path in antt_files() + sorted(glob.glob("crates/*/src/**/*.rt", recursive=True)):
        before = lines(path)
        if path.endswith(".rt"):
            after = [turned(it, table) if is_ghost(it) else it for it in before]
        else:
            after = [it if it.lstrip().startswith("--") else turned(it, table) for it in before]
        if after != before:
            count += 1
            with open(path, "w", encoding="utf-8") as file:
                file.write("\n".join(after))
    print(len(table), "names respelled in", count, "files")
    return 0


if __name__ == "__main__":
    sys.exit(main())
