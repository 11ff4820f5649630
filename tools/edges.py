#!/usr/bin/env python3
"""edges.py [--check | --write]: which crates each crate uses, by its sources, beside what crates.txt lists.

With no words it prints crates.txt with those alone that the files of src/, specs/ and proofs/ name; --write writes it so. rt asks for no more: what stands below a
crate that is named it finds itself. --check writes nothing, and fails where a crate that is named is not listed, where one is listed that is neither named nor below
one that is, or where a crate stands before one that it uses. Below are, to it, all that named crates name, and so on."""

import os
import re
import sys

ROOT = os.path.dirname(os.path.dirname(os.path.realpath(__file__)))
LIST = f"{ROOT}/crates.txt"
IN_CLAUSES = re.compile(r"\bRattle\.(\w+)\.")
IN_CODE = re.compile(r"(?<![\w:.])([a-z]\w*)::")
MODULE = re.compile(r"(?m)^\s*(?:pub(?:\([a-z]+\))? )?mod (\w+);")


def listed():
    """The lines of crates.txt, and of each crate the crates that stand in its line."""
    with open(LIST, encoding="utf-8") as it:
        lines = it.read().splitlines()
    rows = {}
    for line in lines:
        name, colon, uses = line.partition("#")[0].partition(":")
        if colon:
            rows[name.split()[0]] = uses.split()
    return lines, rows


def sources(crate):
    """The texts of a crate's files, without comments, each with whether it is code."""
    for part in ("src", "specs", "proofs"):
        for at, _, files in os.walk(f"{ROOT}/crates/{crate}/{part}"):
            for file in files:
                with open(f"{at}/{file}", encoding="utf-8") as it:
                    text = it.read()
                yield re.sub(r"(?m)^\s*(?://|--).*$", "", text), file.endswith(".rt")


def named_in(crate, names):
    """Those of the names that the crate's sources name."""
    found, modules = set(), set()
    for text, is_code in sources(crate):
        found |= set(IN_CLAUSES.findall(text))
        if is_code:
            modules |= set(MODULE.findall(text))
            found |= {name for name in IN_CODE.findall(text) if name not in modules}
    local = {name for name in found & modules if not any(f"Rattle.{name}." in text for text, _ in sources(crate))}
    return (found & names) - local - {crate}


def below(crate, named):
    """All that the crate uses, and what these use."""
    found, todo = set(), [crate]
    while todo:
        for name in named.get(todo.pop(), ()):
            if name not in found:
                found.add(name)
                todo.append(name)
    return found


def wrong(rows, named):
    places = {crate: place for place, crate in enumerate(rows)}
    for crate, uses in rows.items():
        for name in sorted(named[crate] - set(uses)):
            yield f"{crate} names {name}, which its line lacks"
        for name in sorted(set(uses) - below(crate, named)):
            yield f"{crate} lists {name}, which it does not use"
        for name in uses:
            if places.get(name, -1) > places[crate]:
                yield f"{crate} stands before {name}, which it uses"


def direct(lines, rows, named):
    """The lines of crates.txt with the crates alone that the sources name."""
    made = []
    for line in lines:
        head, colon, _ = line.partition(":")
        crate = head.split()[0] if head.split() else ""
        if not colon or line.startswith("#"):
            made.append(line)
        else:
            lacking = named[crate] - set(rows[crate])
            uses = [name for name in rows[crate] if name in named[crate]] + [name for name in rows if name in lacking] + sorted(lacking - set(rows))
            made.append(" ".join([f"{head}:", *uses]))
    return "\n".join(made) + "\n"


def main():
    if sys.argv[1:] not in ([], ["--check"], ["--write"]):
        sys.exit(__doc__)
    lines, rows = listed()
    names = {*rows, *(name for uses in rows.values() for name in uses)}
    named = {crate: named_in(crate, names) for crate in rows}
    if sys.argv[1:] == ["--check"]:
        faults = list(wrong(rows, named))
        print("\n".join(faults), end="\n" if faults else "")
        sys.exit(1 if faults else 0)
    made = direct(lines, rows, named)
    if sys.argv[1:]:
        with open(LIST, "w", encoding="utf-8") as it:
            it.write(made)
    else:
        print(made, end="")


if __name__ == "__main__":
    main()
