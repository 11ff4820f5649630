#!/usr/bin/env python3
"""What the size of pieces costs and gives: pieces.py PROGRAM [FOLDER]

A list of 20,000 nodes that is walked ten times, each node an object of its own, and an array of 100,000 ints that is scanned ten times, with pieces of 16, 32,
64, 128 and 256 cells. Each runs with all its objects in frames, and in a local memory of 25,600 cells (200 KiB), whatever their size: 1,600 frames of 16 cells
down to 100 of 256; with no mover, and with one evacuator and one fetcher; and where FOLDER is told, over a store in files there. Prints the processor seconds of
each, the least of five runs, start-up included, and how many objects it has. All have to print the same number.
"""
import os
import resource
import shutil
import subprocess
import sys
import tempfile

RUNS = 5
SIZES = [16, 32, 64, 128, 256]
LOCAL = 25_600
LIST = (
    "struct node { int v; struct node* next; };\n"
    "int main() { struct node* l = NULL; for (int i = 0; i < 20000; i++) { struct node* n = alloc(struct node); n->v = i; n->next = l; l = n; }"
    " int s = 0; for (int k = 0; k < 10; k++) { struct node* p = l; while (p != NULL) { s += p->v; p = p->next; } } return s; }"
)
SCAN = (
    "int main() { int[] a = alloc_array(int, 100000); for (int i = 0; i < 100000; i++) { a[i] = i % 100; }"
    " int s = 0; for (int k = 0; k < 10; k++) { for (int i = 0; i < 100000; i++) { s += a[i]; } } return s; }"
)
PROGRAMS = [("list", LIST, lambda cells: 20_000), ("scan", SCAN, lambda cells: -(-100_000 // cells))]


def seconds(words):
    """The processor seconds of a command, and what it prints."""
    before = resource.getrusage(resource.RUSAGE_CHILDREN)
    done = subprocess.run(words, capture_output=True, text=True)
    after = resource.getrusage(resource.RUSAGE_CHILDREN)
    return after.ru_utime + after.ru_stime - before.ru_utime - before.ru_stime, done.stdout + done.stderr


def least(words, folder):
    """The least of some runs, each with an empty folder where there is one."""
    times = []
    for _ in range(RUNS):
        if folder:
            shutil.rmtree(folder, ignore_errors=True)
            os.mkdir(folder)
        times.append(seconds(words))
    return min(taken for taken, _ in times), {told for _, told in times}


def main():
    program = sys.argv[1]
    store = os.path.join(sys.argv[2], "pieces_store") if len(sys.argv) > 2 else None
    ways = [("all in frames", None, 0, None), ("200 KiB", LOCAL, 0, None), ("200 KiB, movers", LOCAL, 1, None)]
    if store:
        ways.append(("200 KiB, in files", LOCAL, 0, store))
    told = {}
    with tempfile.TemporaryDirectory() as room:
        print("program  cells  objects  " + "  ".join(f"{name:>17}" for name, *_ in ways))
        for name, text, objects in PROGRAMS:
            file = os.path.join(room, name + ".c0")
            with open(file, "w", encoding="ascii") as out:
                out.write(text)
            for cells in SIZES:
                count = objects(cells)
                row = []
                for _, local, movers, folder in ways:
                    frames = count + 8 if local is None else local // cells
                    words = [program, "run", "--piece", str(cells), "--frames", str(frames), "--objects", str(count)]
                    words += ["--evacuators", str(movers), "--fetchers", str(movers), "--workers", "1"]
                    words += ["--store", folder] if folder else []
                    taken, answers = least(words + [file], folder)
                    told.setdefault(name, set()).update(answers)
                    row.append(f"{taken:>17.3f}")
                print(f"{name:7}  {cells:5}  {count:7}  " + "  ".join(row), flush=True)
    if store:
        shutil.rmtree(store, ignore_errors=True)
    for name, answers in told.items():
        if len(answers) != 1:
            sys.exit(f"{name}: told otherwise: {sorted(answers)}")


if __name__ == "__main__":
    main()
