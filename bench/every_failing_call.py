#!/usr/bin/env python3
"""Has each call of a store fail or lie in turn, where the tests take every 50th: a list of 1,000 nodes over six frames, alone and twice, with movers and without,
over a store in memory and over files in a folder in memory.

usage: bench/every_failing_call.py PROGRAM [WORD..]
PROGRAM is that of `crates/store_tests`, which `rt ci` leaves in its `out/`; its head tells what a row is. With words the rows that have each of them, as `memory` or `at`. Of each row
it prints what came of it and how long it took: in every run just the programs end that met the call, and all others as without it. Its status is 1 where a row came to something else.
All rows together take some twenty minutes of a processor.
"""
import itertools
import os
import shutil
import subprocess
import sys
import tempfile
import time

ROOT = os.path.dirname(os.path.dirname(os.path.abspath(__file__)))
IMAGE = "nodes.c0i"
# The sum of 0 to 999, which the list's program ends with.
RESULT = "result: 499500"
# What goes wrong wherever it is planned.
SURE = ("at", "from", "short")


def rows():
    """A row of each store, number of programs, number of movers of each sort, and plan, for every call."""
    for store, programs, movers, plan in itertools.product(("memory", "folder"), (1, 2), (0, 1), ("at", "from", "older", "other", "short")):
        # (with movers each call may be one of theirs, and not every read can be lied to)
        least = 1 if movers == 0 and plan in SURE else 0
        yield f"{IMAGE} {store} {programs} {movers} {plan} 1 {least}"


def main():
    if len(sys.argv) < 2:
        sys.exit(__doc__)
    program, words, wrong = os.path.abspath(sys.argv[1]), sys.argv[2:], 0
    with tempfile.TemporaryDirectory() as room:
        shutil.copy(f"{ROOT}/crates/store_tests/data/{IMAGE}", room)
        for row in rows():
            if not set(words) <= set(row.split()):
                continue
            with open(f"{room}/rows", "w", encoding="utf-8") as file:
                file.write(row + "\n")
            begun = time.monotonic()
            ran = subprocess.run([program, "rows"], cwd=room, stdout=subprocess.PIPE, text=True, check=False)
            said = ran.stdout.strip()
            wrong += said != f"{row}: {RESULT}"
            print(f"{said} ({time.monotonic() - begun:.0f} s)", flush=True)
    return wrong > 0


if __name__ == "__main__":
    sys.exit(main())
