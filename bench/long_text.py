#!/usr/bin/env python3
"""How long c0far takes over a text of nearly 1 MiB, the most that is read, and how much memory: prints seconds and KiB.

usage: bench/long_text.py PROGRAM [BYTES]
PROGRAM is the c0far that was built; BYTES the size of the text, 1048576 if it is not given.

Each stage is measured by a text of the same size that the next one refuses at its end: what it takes more than the one before it is the
stage's own time. The least of five runs counts.
"""
import os
import resource
import subprocess
import sys
import tempfile
import time

MOST = 1_048_576
RUNS = 5
# what is measured, the text's end, the status, and what is printed
STAGES = [
    ("start, reading the file and its bytes", b"return \xff; }\n", 2, "fault 10 BadByte"),
    ("tokens", b"return #; }\n", 2, "fault 11 BadToken"),
    ("tree", b"return +; }\n", 2, "fault 20 Syntax"),
    ("names", b"return *q; }\n", 2, "fault 30 UnknownName"),
    ("image and run", b"return *p; }\n", 0, "result: 7\n"),
]


def text_of(size, end):
    """A program of at most this many bytes, that writes 7 again and again, and ends so."""
    begin, write = b"int main() {\nint* p = alloc(int);\n", b"*p = 7;\n"
    return begin + write * ((size - len(begin) - len(end)) // len(write)) + end


def seconds_of(program, text, status, told):
    """The least time of the program over this text, which has to end with this status and tell this."""
    with tempfile.TemporaryDirectory() as folder:
        with open(f"{folder}/long.c0", "wb") as file:
            file.write(text)
        least = None
        for _ in range(RUNS):
            begun = time.monotonic()
            ran = subprocess.run([program, "run", "long.c0"], cwd=folder, capture_output=True, text=True)
            seconds = time.monotonic() - begun
            if ran.returncode != status or told not in ran.stdout + ran.stderr:
                sys.exit(f"status {ran.returncode}, {ran.stdout!r}, {ran.stderr!r}")
            least = seconds if least is None else min(least, seconds)
    return least


def main():
    program, size = os.path.abspath(sys.argv[1]), int(sys.argv[2]) if len(sys.argv) > 2 else MOST
    before = 0.0
    for name, end, status, told in STAGES:
        seconds = seconds_of(program, text_of(size, end), status, told)
        print(f"{name}: {max(seconds - before, 0.0):.3f} s")
        before = max(seconds, before)
    most = resource.getrusage(resource.RUSAGE_CHILDREN).ru_maxrss
    print(f"{size} bytes: {before:.3f} s in all, at most {most} KiB")


main()
