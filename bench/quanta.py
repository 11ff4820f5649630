#!/usr/bin/env python3
"""Runs four hundred programs by turns of 1, 2, 3, 7, 1,000 and 1,000,000 instructions: quanta.py PROGRAM [OTHER]

What a program prints, how it ends and how many instructions it completes must not hang on where its turns end: by turns of one instruction each is done alone,
by longer ones several are done at once. With an OTHER program, as one that was built before a change, both must tell the same.
The programs: the texts of `c0_texts_tests`, the examples, those of `run_speed.py`, and drawn ones to make four hundred: loops over arrays, lists, structs in
arrays, strings, calls and recursion, some of which end by a fault in the middle. Each runs with all its objects in frames, with few frames, and with few objects, so
that some want memory. One worker and no mover. Its status is 1 where something differs; it takes some minutes.
"""
import concurrent.futures
import itertools
import os
import re
import sys
import tempfile

import run_speed

ROOT = os.path.dirname(os.path.dirname(os.path.abspath(__file__)))
sys.path.append(f"{ROOT}/tests")

from process import Process
from turn_lengths import QUANTA, ROOMS, Text, told

PROGRAMS = 400
# In the name or the text of one that does not end.
ENDLESS = ("endless", "while (true)")


def is_accepted(program, text):
    with tempfile.TemporaryDirectory() as folder:
        it = Process(program, folder)
        it.write("a.c0", text)
        return it.run("check", "a.c0")[0] == 0


def texts(program):
    """Four hundred programs, each with a name. Those that are not drawn are accepted by this program, and end."""
    found = []
    for folder in ("crates/c0_texts_tests/data", "examples"):
        for path in sorted(f"{at}/{file}" for at, _, files in os.walk(f"{ROOT}/{folder}") for file in files if file.endswith(".c0")):
            with open(path, encoding="utf-8", errors="replace") as file:
                found.append((os.path.relpath(path, ROOT), file.read()))
    found = [(name, text) for name, text in found if not any(it in name or it in text for it in ENDLESS) and is_accepted(program, text)]
    found += [(name, re.sub(r"\b(fib\(27|\d{3,})\b", lambda it: "fib(15" if it[0] == "fib(27" else "60", text)) for name, _, text, _ in run_speed.PROGRAMS]
    return found + [(f"drawn {number}", Text(number).whole()) for number in range(PROGRAMS - len(found))]


def differences(programs, name, text):
    """Where the runs of a text do not tell the same, or it is not run; and the statuses that it ended with."""
    lines, ends = [], set()
    with tempfile.TemporaryDirectory() as folder:
        runs = [Process(program, folder) for program in programs]
        runs[0].write("a.c0", text)
        for room in ROOMS:
            first = told(runs[0], QUANTA[0], room)
            ends.add(first[0])
            if first[3] is None:
                lines.append(f"{name}: is not run, {first}")
            for it, quantum in itertools.product(runs, QUANTA):
                now = told(it, quantum, room)
                if now != first:
                    lines.append(f"{name}, {room}, by turns of {quantum}: {it.program} tells {now}, and by turns of 1 it is {first}")
    return lines, ends


def main():
    if len(sys.argv) < 2:
        sys.exit(__doc__)
    programs = [os.path.abspath(it) for it in sys.argv[1:]]
    wrong, faulted = 0, 0
    with concurrent.futures.ThreadPoolExecutor(os.cpu_count()) as pool:
        for lines, ends in pool.map(lambda it: differences(programs, *it), texts(programs[0])):
            wrong += bool(lines)
            faulted += ends != {0}
            for line in lines:
                print(line)
    print(f"{PROGRAMS} programs, {faulted} of which end by a fault or want of memory in some room; {wrong} differ")
    return wrong > 0


if __name__ == "__main__":
    sys.exit(main())
