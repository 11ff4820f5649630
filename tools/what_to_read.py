#!/usr/bin/env python3
"""what_to_read.py [--check | CRATE FILE NAME]: what has to be read to know what a definition says, by following the names in the files of specs/.

With no words it writes the table at the head of docs/DEFINITIONS.md anew; with --check it writes nothing, and fails where that table is another one. With the
crate, the file and the name of a definition, as `c0_image Correct Behaves`, it lists for this one the files with their names.

A definition is its lines with the comment above it. A name leads to the definition that its file has or takes by `use`, so a variable of the same name does,
too. What std and the kit's other libraries define is left aside, and of a type of the code it is told that there is one."""

import os
import re
import sys
from collections import defaultdict

ROOT = os.path.dirname(os.path.dirname(os.path.realpath(__file__)))
PAGE = "docs/DEFINITIONS.md"
BEGIN, END = "<!-- what_to_read.py -->", "<!-- end -->"

# what is read, where its definition stands, and what it says
READ = (
    ("c0_front", "Texts", "IsTypedAs", "which texts are accepted, with the typed tree of each"),
    ("c0_front", "Texts", "IsRefusedText", "why a text is refused, and where the cause stands"),
    ("c0_typed", "Meaning", "mean", "what a typed tree means within a bound, as the plain run gives it"),
    ("c0_image", "Correct", "Behaves", "that an image does what a typed tree means"),
    ("code_verification", "Verified", "IsVerified", "which images are verified"),
    ("c0_image", "Compiled", "IsCompiled", "which image a text is compiled to, pass by pass"),
    ("object_lock", "EachStep", "EachStep", "that each step of the lock keeps its rule"),
    ("executor", "Ends", "AreEnds", "the ends that `run_all` answers"),
    ("c0far_headline", "Headline", "Headline", "the promise over every list of events"),
    ("c0far_headline", "Ran", "RunHeadline", "the promise of the ends that `run_all` answers, by what texts mean"),
    ("c0far_headline", "Tables", "HeadlineOfTables", "the promise over every interleaving of threads, of a table with all its seats"),
    ("c0far_headline", "Threads", "HeadlineOfThreads", "the same of what `run_all` answers"),
    ("c0far_headline", "Threads", "HeadlineOfRunsTogether", "the same of what the command `run` shows"),
)

USE = re.compile(r"(pub )?use Rattle\.(\w+)\.specs\.([\w.]+?)(?:\.\{(.*)\})?(?: as (\w+))?$")
KEYWORD = re.compile(r"(?:abbrev|unfoldable|pub|record|data)\s+")
HEADER = re.compile(r"(?:module\b|(?:\w+ )?mutual$)")
GENERATED = ("TheVariants", "TheConstants", "TheViews")


class Part:
    """A definition: its file, how many lines it has, the words in it, and the heads of the modules that it stands in."""

    def __init__(self, file, lines, heads):
        self.file, self.lines, self.heads = file, len(lines), heads
        code = " ".join(line.split("-- ")[0] for line in lines)
        self.words = set(re.findall(r"[^\s()\[\]{};,]+", code))


def indent(line):
    return len(line) - len(line.lstrip())


def chunks(lines):
    """Runs of lines with no empty one between them; the head of a module is a run of its own."""
    run, in_head = [], False
    for line in [*lines, ""]:
        text = line.strip()
        if not text:
            if run:
                yield run
            run = []
            continue
        run.append(line)
        in_head = in_head or bool(HEADER.match(text))
        if in_head and text.endswith(("where", "mutual")):
            yield run
            run, in_head = [], False


def names_in(run):
    """The names that a run of lines defines: those of signatures, and the constructors of a data type."""
    code = [line for line in run if not line.strip().startswith("--")]
    if not code:
        return []
    base = indent(code[0])
    found = []
    for line in code:
        text = line.strip()
        bare = KEYWORD.sub("", text) if indent(line) == base else text
        if indent(line) == base and (bare != text or re.match(r"\S+ : ", text)):
            found.append(bare.split()[0])
        elif indent(line) == base + 2 and re.match(r"\s*(?:pub )?data ", code[0]) and re.match(r"\S+ : ", text):
            found.append(text.split()[0])
    return found or [name for name in (code[0].split()[0],) if re.match(r"\w", name)]


class File:
    """A file of specs/: what it defines, and what it takes from others."""

    def __init__(self, crate, name):
        self.key = (crate, name)
        self.defined, self.taken, self.given, self.aliases = defaultdict(list), {}, {}, {}
        with open(f"{ROOT}/crates/{crate}/specs/{name}.antt", encoding="utf-8") as it:
            lines = it.read().splitlines()
        uses = [line for line in lines if re.match(r"(pub )?use [A-Za-z]+\.", line)]
        for line in uses:
            self.take(line)
        self.define([line for line in lines if line not in set(uses)])

    def take(self, line):
        found = USE.match(line)
        if not found or not os.path.isdir(f"{ROOT}/crates/{found[2]}"):
            return
        given, crate, path, names, alias = found.groups()
        source = (crate, path)
        if alias:
            self.aliases[alias] = source
        for each in filter(None, (names or "").split(", ")):
            name, _, other = each.partition(" as ")
            self.taken[other or name] = (source, name)
            if given:
                self.given[other or name] = (source, name)

    def define(self, lines):
        heads = []
        for run in chunks(lines):
            code = [line for line in run if not line.strip().startswith("--")]
            if not code:
                continue
            while heads and heads[-1][0] >= indent(code[0]):
                heads.pop()
            part = Part(self.key, run, [head for _, head in heads])
            if HEADER.match(code[0].strip()):
                heads.append((indent(code[0]), part))
                continue
            for name in names_in(run):
                self.defined[name].append(part)


class Reader:
    """Follows names through files."""

    def __init__(self):
        self.files = {}

    def file(self, crate, name):
        if (crate, name) not in self.files:
            self.files[crate, name] = File(crate, name)
        return self.files[crate, name]

    def found(self, source, name):
        """The definitions of this name there; of a type of the code its crate and its path."""
        crate, path = source
        if path.startswith("declared."):
            return [(crate, ".".join(it for it in path.split(".") if it not in GENERATED))]
        file = self.file(crate, path)
        if name in file.defined:
            return file.defined[name]
        return self.found(*file.given[name]) if name in file.given else []

    def behind(self, part):
        """The definitions and types that the words of this one lead to."""
        file = self.file(*part.file)
        for word in part.words:
            head, _, rest = word.partition(".")
            if rest and head in file.aliases:
                yield from self.found(file.aliases[head], rest.split(".")[0])
            for name in {word, head}:
                yield from file.defined.get(name) or (self.found(*file.taken[name]) if name in file.taken else ())
        for name in [*file.defined, *file.taken]:
            if "◌" in name and set(name.replace("◌", " ").split()) <= part.words:
                yield from file.defined.get(name) or self.found(*file.taken[name])

    def read(self, crate, name, definition):
        """All that is read of a definition: its parts, and types of the code."""
        if not os.path.isfile(f"{ROOT}/crates/{crate}/specs/{name}.antt"):
            sys.exit(f"there is no crates/{crate}/specs/{name}.antt")
        todo = list(self.file(crate, name).defined[definition])
        if not todo:
            sys.exit(f"crates/{crate}/specs/{name}.antt defines no {definition}")
        seen, types = set(), set()
        while todo:
            part = todo.pop()
            if not isinstance(part, Part):
                types.add(part)
            elif part not in seen:
                seen.add(part)
                todo += [*part.heads, *self.behind(part)]
        return seen, types


def lines_of(parts):
    return sum(part.lines for part in parts)


def table():
    reader, before = Reader(), set()
    rows = ["| Definition | What it says | Files | Lines | More than the rows above | Types of the code |", "|---|---|---|---|---|---|"]
    for crate, name, definition, says in READ:
        parts, types = reader.read(crate, name, definition)
        files = len({part.file for part in parts})
        rows.append(f"| `{definition}` (`crates/{crate}/specs/{name}.antt`) | {says} | {files} | {lines_of(parts):,} | {lines_of(parts - before):,} | {len(types)} |")
        before |= parts
    return "\n".join(rows)


def page():
    with open(f"{ROOT}/{PAGE}", encoding="utf-8") as it:
        text = it.read()
    front, _, rest = text.partition(BEGIN)
    _, end, back = rest.partition(END)
    if not end:
        sys.exit(f"{PAGE} has no place between {BEGIN} and {END}")
    return text, f"{front}{BEGIN}\n{table()}\n{END}{back}"


def main():
    if len(sys.argv) == 4:
        reader = Reader()
        parts, types = reader.read(*sys.argv[1:])
        by_file = defaultdict(list)
        for part in parts:
            by_file[part.file].append(part)
        for (crate, name), those in sorted(by_file.items()):
            names = [it for it, found in reader.file(crate, name).defined.items() if set(found) & set(those)]
            print(f"crates/{crate}/specs/{name}.antt, {lines_of(those)} lines: {', '.join(names)}")
        for crate, path in sorted(types):
            print(f"crates/{crate}, a type of the code: {path.removeprefix('declared.')}")
    elif sys.argv[1:] in ([], ["--check"]):
        text, made = page()
        if sys.argv[1:] and text != made:
            sys.exit(f"the table of {PAGE} is an older one: run tools/what_to_read.py")
        if text != made:
            with open(f"{ROOT}/{PAGE}", "w", encoding="utf-8") as it:
                it.write(made)
    else:
        sys.exit(__doc__)


if __name__ == "__main__":
    main()
