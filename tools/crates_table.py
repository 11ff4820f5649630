#!/usr/bin/env python3
"""crates_table.py [--check]: the tables of crates in docs/ARCHITECTURE.md, a group each, in the order of crates.txt.

With no words it writes them anew; with --check it writes nothing, and fails where the page has others, or where docs/PROMISES.md or docs/DEFINITIONS.md tells of a
crate under another heading than its group, or in another order. What a crate is says the first sentence of the comment at the head of its src/lib.rt or src/main.rt;
which crates it names itself is what tools/edges.py finds. A group is a comment line of crates.txt: its name, and behind a colon what it has."""

import os
import re
import sys

import edges

PAGE = "docs/ARCHITECTURE.md"
GROUPED = ("docs/PROMISES.md", "docs/DEFINITIONS.md")
BEGIN, END = "<!-- crates_table.py -->", "<!-- end -->"
HEAD = re.compile(r"//!? ?(.*)")
SENTENCE = re.compile(r"(.*?)[.](?: |$)")
TOLD = re.compile(r"(?m)^(?:## (.*)|(?:- )?(\*\*`.*))$")

def first_sentence(crate):
    """The first sentence of the comment at the head of a crate, without its full stop."""
    folder = f"{edges.ROOT}/crates/{crate}/src"
    name = next(it for it in ("lib.rt", "main.rt") if os.path.isfile(f"{folder}/{it}"))
    lines = []
    with open(f"{folder}/{name}", encoding="utf-8") as it:
        for line in it:
            found = HEAD.match(line)
            if not found or not found[1].strip():
                break
            lines.append(found[1].strip())
    found = SENTENCE.match(" ".join(lines))
    if not found:
        sys.exit(f"crates/{crate}/src/{name} does not begin with a comment of a sentence")
    return found[1]


def groups(lines):
    """The groups of crates.txt: of each its name, what it has, and its crates."""
    found = []
    for line in lines[lines.index("") :]:
        name, colon, rest = line.partition(":")
        if line.startswith("# "):
            found.append((name[2:], rest.strip(), []))
        elif colon:
            found[-1][2].append(name.split()[0])
    return found


def tables():
    lines, rows = edges.listed()
    names = {*rows, *(name for uses in rows.values() for name in uses)}
    order = [*rows, *sorted(names - set(rows))]
    made = []
    for group, has, crates in groups(lines):
        made += [f"### {group.capitalize()}", *([has[0].upper() + has[1:] + ".", ""] if has else []), "| Crate | What | Names itself |", "|---|---|---|"]
        for crate in crates:
            named = edges.named_in(crate, names)
            made.append(f"| `{crate}` | {first_sentence(crate)} | {', '.join(f'`{it}`' for it in order if it in named)} |")
        made.append("")
    return "\n".join(made).rstrip("\n")


def told_in(path, headings):
    """The crates that a page tells of under these headings, each with its heading, in order."""
    with open(f"{edges.ROOT}/{path}", encoding="utf-8") as it:
        text = it.read()
    heading, found = None, []
    for line in TOLD.finditer(text):
        heading = line[1] or heading
        if heading in headings and line[2]:
            bold = " ".join(re.findall(r"\*\*(.*?)\*\*", line[2]))
            found += [(heading, crate) for crate in re.findall(r"`(\w+)`", bold)]
    return found


def misplaced():
    """What GROUPED tell of in another place than crates.txt has it."""
    lines, _ = edges.listed()
    order = [(group.capitalize(), crate) for group, _, crates in groups(lines) for crate in crates]
    for path in GROUPED:
        told = told_in(path, {heading for heading, _ in order})
        for it in told:
            if it not in order:
                yield f"{path} tells of {it[1]} under {it[0]}, and crates.txt does not"
        places = [order.index(it) for it in told if it in order]
        for before, place in zip(places, places[1:]):
            if place < before:
                yield f"{path} tells of {order[place][1]} behind {order[before][1]}, and crates.txt before it"


def page():
    with open(f"{edges.ROOT}/{PAGE}", encoding="utf-8") as it:
        text = it.read()
    front, _, rest = text.partition(BEGIN)
    _, end, back = rest.partition(END)
    if not end:
        sys.exit(f"{PAGE} has no place between {BEGIN} and {END}")
    return text, f"{front}{BEGIN}\n{tables()}\n{END}{back}"


def main():
    if sys.argv[1:] not in ([], ["--check"]):
        sys.exit(__doc__)
    text, made = page()
    if sys.argv[1:]:
        faults = [f"the tables of {PAGE} are older ones: run tools/crates_table.py"] if text != made else []
        faults += misplaced()
        print("\n".join(faults), end="\n" if faults else "")
        sys.exit(1 if faults else 0)
    if text != made:
        with open(f"{edges.ROOT}/{PAGE}", "w", encoding="utf-8") as it:
            it.write(made)


if __name__ == "__main__":
    main()
