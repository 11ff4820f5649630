#!/usr/bin/env python3
"""How many calls of its store a run makes, and how long it takes: a list of 20,000 nodes, walked 10 times, and 100,000 ints, scanned 10 times, each with a sixteenth
of its objects in frames, over a store in files of a folder and over one in memory.

usage: bench/store_calls.py PROGRAM..
A put writes the 536 bytes of a file, and a get reads them, so the bytes that a run wrote and read tell the calls; those of a run that does nothing are taken
off. They are told for runs without movers, where they are the same each time, and beside one evacuator and one fetcher. Times are of the store in memory, the
least of five runs, less that of a run that does nothing. Several programs are told side by side.
"""
import os
import subprocess
import sys
import tempfile
import time

RUNS = 5
ROW_BYTES = 536
NOTHING = "int main() { return 0; }"
PROGRAMS = [
    (
        "a list of 20,000 nodes, walked 10 times",
        20_000,
        "struct node { int v; struct node* next; };\n"
        "int main() { struct node* l = NULL; for (int i = 0; i < 20000; i++) { struct node* n = alloc(struct node); n->v = i; n->next = l; l = n; }"
        " int s = 0; for (int k = 0; k < 10; k++) { struct node* p = l; while (p != NULL) { s += p->v; p = p->next; } } return s; }",
    ),
    (
        "100,000 ints, scanned 10 times",
        1_563,
        "int main() { int[] a = alloc_array(int, 100000); for (int i = 0; i < 100000; i++) { a[i] = i % 100; }"
        " int s = 0; for (int k = 0; k < 10; k++) { for (int i = 0; i < 100000; i++) { s += a[i]; } } return s; }",
    ),
]


def moved_bytes():
    """The bytes that this process and all children that it waited for have read and written by calls so far."""
    with open("/proc/self/io") as it:
        told = dict(line.split(": ") for line in it.read().splitlines())
    return int(told["rchar"]), int(told["wchar"])


def run(program, text, options):
    """The seconds of a run, the bytes that it read and wrote, and its last line."""
    with tempfile.TemporaryDirectory() as folder:
        with open(f"{folder}/text.c0", "w") as file:
            file.write(text)
        if "--store" in options:
            os.mkdir(f"{folder}/far")
        before, begun = moved_bytes(), time.monotonic()
        ran = subprocess.run([program, "run", *options, "text.c0"], cwd=folder, stdout=subprocess.PIPE, stderr=subprocess.STDOUT, check=False)
        seconds, after = time.monotonic() - begun, moved_bytes()
        printed = len(ran.stdout)
    return seconds, after[0] - before[0] - printed, after[1] - before[1], ran.stdout.decode().splitlines()[-1]


def sizes(pieces, movers):
    return ["--frames", str(pieces // 16), "--objects", str(pieces + 8), "--evacuators", str(movers), "--fetchers", str(movers)]


def calls(program, text, pieces, movers):
    """How many puts and gets a run makes, and its last line."""
    options = [*sizes(pieces, movers), "--store", "far"]
    _, read, written, line = run(program, text, options)
    _, no_read, no_written, _ = run(program, NOTHING, options)
    return (written - no_written) // ROW_BYTES, (read - no_read) // ROW_BYTES, line


def seconds(program, text, pieces, movers):
    options = sizes(pieces, movers)
    least = min(run(program, text, options)[0] for _ in range(RUNS))
    return least - min(run(program, NOTHING, options)[0] for _ in range(RUNS))


def main():
    if len(sys.argv) < 2:
        sys.exit(__doc__)
    for name, pieces, text in PROGRAMS:
        print(f"{name}, of {pieces} objects, {pieces // 16} frames:")
        for program in sys.argv[1:]:
            for movers, beside in ((0, "without movers"), (1, "beside one evacuator and one fetcher")):
                puts, gets, line = calls(program, text, pieces, movers)
                print(f"  {program}, {beside}: {line}; {puts} puts, {gets} gets; {seconds(program, text, pieces, movers):.3f} s over a store in memory")


main()
