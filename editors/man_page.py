#!/usr/bin/env python3
"""man_page.py [--check]: writes c0far.1 beside it, from the pages of help in crates/help_pages/src/pages.rt and the newest number of CHANGELOG.md.
With --check it writes nothing, and fails where c0far.1 is not what they make."""

import os
import re
import sys

HERE = os.path.dirname(os.path.realpath(__file__))
ROOT = os.path.dirname(HERE)
COMMANDS = ("build", "check", "list", "mean", "run", "replay")
TOPICS = (("stops", "Last lines"), ("faults", "Faults"), ("images", "Images"))


def text_of(path):
    with open(path, encoding="utf-8") as it:
        return it.read()


def pages():
    """The pages of help by their commands, that of all commands under the empty name."""
    source = text_of(f"{ROOT}/crates/help_pages/src/pages.rt")
    found = re.findall(r'pub const (?:([A-Z]+)_)?PAGE: &str =\s*"((?:[^"\\]|\\.)*)";', source)
    return {name.lower(): re.sub(r"\\(.)", r"\1", text) for name, text in found}


def roff(text):
    """The text as roff has it, in which what stands between backquotes is bold."""
    text = text.replace("\\", "\\e").replace("-", "\\-")
    text = re.sub(r"`([^`]*)`", r"\\fB\1\\fR", text)
    return re.sub(r"(?m)^([.'])", r"\\&\1", text)


def paragraph(lines):
    return [".PP", roff(" ".join(it.strip() for it in lines))]


def usage(lines):
    """The lines of a usage, as they stand."""
    lines = [lines[0].removeprefix("usage: "), *(it.strip() for it in lines[1:])]
    return [".nf", *(f"\\fB{roff(it)}\\fR" for it in lines), ".fi"]


def entries(lines):
    """Options or commands, each with what it does: a line with a further indentation goes on with the one before it."""
    made = []
    for line in lines:
        begins = re.match(r"  (\S.*?)  +(\S.*)", line)
        if begins:
            made += [".TP", f"\\fB{roff(begins[1])}\\fR", roff(begins[2])]
        else:
            made.append(roff(line.strip()))
    return made


def statuses(lines):
    """What each status says, an entry for each."""
    text = " ".join(it.strip() for it in lines).removeprefix("status: ")
    return [line for it in re.split(r"; (?=\d )", text) for line in (".TP", f"\\fB{it[0]}\\fR", roff(it[2:]))]


def block(lines, under):
    """A block between two empty lines, under headings of this kind."""
    if lines[0].startswith("usage:"):
        return usage(lines)
    if lines[0].startswith(("options", "commands:")):
        return [f".{under} {roff(lines[0].strip(':').capitalize())}", *entries(lines[1:])]
    if lines[0].startswith("status:"):
        return [f".{under} Exit status", *statuses(lines)]
    return paragraph(lines)


def blocks(page):
    return [it.split("\n") for it in page.split("\n\n")]


def man_page():
    found = pages()
    number = re.search(r"(?m)^## (\S+)", text_of(f"{ROOT}/CHANGELOG.md"))[1]
    made = ['.\\" Made by editors/man_page.py: change crates/help_pages/src/pages.rt, and run it again.', f'.TH C0FAR 1 "" "c0far {number}" "User Commands"']
    made += [".SH NAME", "c0far \\- compiles programs of C0, and runs them over a heap that may be larger than local memory"]
    made += [".SH SYNOPSIS"]
    first, *others = blocks(found[""])
    made += block(first, "SH") + [".SH DESCRIPTION"]
    for it in others:
        made += block(it, "SS")
    for name in COMMANDS:
        made.append(f".SH C0FAR {name.upper()}")
        for it in blocks(found[name]):
            made += block(it, "SS")
    for name, title in TOPICS:
        made += [f".SH {title.upper()}", ".nf", roff(found[name]), ".fi"]
    return "\n".join(made) + "\n"


def main():
    to, made = f"{HERE}/c0far.1", man_page()
    if "--check" not in sys.argv[1:]:
        with open(to, "w", encoding="utf-8") as it:
            it.write(made)
        return 0
    if not os.path.isfile(to) or text_of(to) != made:
        print(f"{to} is not what the help makes: run {sys.argv[0]}", file=sys.stderr)
        return 1
    return 0


if __name__ == "__main__":
    sys.exit(main())
