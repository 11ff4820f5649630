#!/usr/bin/env python3
"""Tries the edits of crates/NAME/further-edits, which the prover must refuse as it must those of must-fail.

The tests try the edits of must-fail alone, since each costs up to a minute and a crate with some is proved once more.

usage, from the root: bench/further_edits.py [--all] [--since REV] [NAME..]
With names those of these crates; with --since those of the crates that changed since that commit, and of the crates whose
files name one of these; with --all the edits of must-fail too; with nothing every crate that has such edits. It works on a copy, over the
libraries that `rt check` and `rt lib` left in out/ where they still fit. Its status is 1 where an edit is not refused."""

import argparse
import os
import re
import shutil
import subprocess
import sys
import tempfile


def changed_since(revision):
    """The crates whose files have changed since a commit, and those whose files name one of these."""
    told = subprocess.run(["git", "diff", "--name-only", revision, "--", "crates"], capture_output=True, text=True, check=True)
    changed = {it.split("/")[1] for it in told.stdout.splitlines()}
    word = re.compile(r"\b(?:Rattle\.)?(" + "|".join(map(re.escape, sorted(changed))) + r")(?:\.|::)") if changed else None
    named = set(changed)
    for name in os.listdir("crates"):
        if word and name not in changed and any(word.search(text) for text in texts_of(f"crates/{name}")):
            named.add(name)
    return named


def texts_of(folder):
    """The texts of a crate's code, definitions and proofs."""
    for part in ("src", "specs", "proofs"):
        for at, _, files in os.walk(f"{folder}/{part}"):
            for file in files:
                with open(f"{at}/{file}", encoding="utf-8") as it:
                    yield it.read()


def edits_in(folder):
    """The names of a folder's edits."""
    return sorted(it for it in os.listdir(folder) if it.endswith(".edit")) if os.path.isdir(folder) else []


def gathered(crate, with_all):
    """Has the copy of a crate try its further edits, with those of must-fail where they are wanted. Answers how many there are."""
    own, further = edits_in(f"{crate}/must-fail"), edits_in(f"{crate}/further-edits")
    if not with_all:
        for name in own:
            os.remove(f"{crate}/must-fail/{name}")
        own = []
    os.makedirs(f"{crate}/must-fail", exist_ok=True)
    for name in further:
        shutil.move(f"{crate}/further-edits/{name}", f"{crate}/must-fail/{name}")
    return len(own) + len(further)


def main():
    words = argparse.ArgumentParser(description=__doc__.split("\n")[0])
    words.add_argument("names", nargs="*", help="crates")
    words.add_argument("--since", help="a commit")
    words.add_argument("--all", action="store_true", help="the edits of must-fail too")
    asked = words.parse_args()
    named = set(asked.names) | (changed_since(asked.since) if asked.since else set())
    if not named and not asked.since:
        named = set(os.listdir("crates"))
    with tempfile.TemporaryDirectory() as room:
        shutil.copytree("crates", f"{room}/crates", ignore=shutil.ignore_patterns("incremental"))
        for name in ("crates.txt", "HANDLES"):
            shutil.copy(name, room)
        tried = [it for it in sorted(named) if gathered(f"{room}/crates/{it}", asked.all)]
        if not tried:
            print("no edits to try")
            return 0
        print("edits of:", " ".join(tried), flush=True)
        return subprocess.run(["rt", "must-fail", *tried], cwd=room).returncode


if __name__ == "__main__":
    sys.exit(main())
