#!/usr/bin/env python3
"""Runs the built program as a process: run.py PROGRAM. Prints each test that fails, and last 'N passed, M failed'.

For what no contract sees: files, folders, the machine's stack, how long a run takes, and want of memory; and whether what scripts make of the sources is current
(`pages`, which starts no program). Each test has an empty folder. Nothing is needed but `rt`, whose clang makes a library for the refusals of memory.
"""

import os
import subprocess
import sys
import tempfile

import commands
import depths
import drawn
import files
import pages
import refusals
import schedules
import sizes
import stores
import turn_lengths
import words
from process import Failure, Process


def main():
    if len(sys.argv) != 2:
        sys.exit(__doc__)
    program = os.path.abspath(sys.argv[1])
    passed = failed = 0
    for script in (pages, files, commands, words, stores, depths, sizes, drawn, turn_lengths, schedules, refusals):
        for test in script.TESTS:
            with tempfile.TemporaryDirectory() as folder:
                try:
                    test(Process(program, folder))
                    passed += 1
                except (Failure, OSError, subprocess.TimeoutExpired) as why:
                    failed += 1
                    print(f"{script.__name__}, {test.__name__}: {why}")
    print(f"{passed} passed, {failed} failed")
    sys.exit(1 if failed else 0)


main()
