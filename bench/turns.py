#!/usr/bin/env python3
"""What sharing threads costs: many programs on four workers, beside the same programs one after the other; and the change from one program to the next.

usage: bench/turns.py PROGRAM [PROGRAMS]
PROGRAMS is 256 where it is left out. Each time is the least of three runs. The change of a turn is what turns of few instructions take more than turns of
many, on one worker with no mover, over the number of turns; how many instructions the loop has is read from the program's listing.
"""
import os
import subprocess
import sys
import tempfile
import time

RUNS = 3
ROUNDS = 300_000
LOOP = f"int main() {{ int s = 0; for (int i = 0; i < {ROUNDS}; i++) {{ s += i; }} return s; }}\n"
SHORT = "int fib(int n) { if (n < 2) return n; return fib(n - 1) + fib(n - 2); } int main() { return fib(20); }\n"
LIST = (
    "struct node { int v; struct node* next; };\n"
    "int main() { struct node* l = NULL; for (int i = 0; i < 200; i++) { struct node* n = alloc(struct node); n->v = i; n->next = l; l = n; }"
    " int s = 0; for (int k = 0; k < 20; k++) { struct node* p = l; while (p != NULL) { s += p->v; p = p->next; } } return s; }\n"
)


def timed(words):
    """The least time of these words, in seconds."""
    best = None
    for _ in range(RUNS):
        begun = time.monotonic()
        subprocess.run(words, check=True, stdout=subprocess.DEVNULL)
        passed = time.monotonic() - begun
        best = passed if best is None else min(best, passed)
    return best


def one_after_another(program, options, file, count):
    """The least time of so many runs, one after the other, in seconds."""
    best = None
    for _ in range(RUNS):
        begun = time.monotonic()
        for _ in range(count):
            subprocess.run([program, "run", *options, file], check=True, stdout=subprocess.DEVNULL)
        passed = time.monotonic() - begun
        best = passed if best is None else min(best, passed)
    return best


def instructions_of_a_round(program, file):
    """How many instructions one round of the text's only loop has: those of the block that branches, and of the block that jumps back to it."""
    blocks = {}
    listing = subprocess.run([program, "list", file], check=True, stdout=subprocess.PIPE).stdout.decode().splitlines()
    for line in listing:
        place, instruction = line.split(": ", 1)
        blocks.setdefault(place.split()[1], []).append(instruction)
    head = next(name for name, block in blocks.items() if block[-1].startswith("branch"))
    body = next(name for name, block in blocks.items() if block[-1] == f"jump {head}" and name != "b0")
    return len(blocks[head]) + len(blocks[body])


def side_by_side(program, name, text, count, options, folder):
    """So many programs on four workers, on one worker, and one after the other."""
    file = f"{folder}/{name}.c0"
    with open(file, "w") as out:
        out.write(text)
    shared = [program, "run", *options(count)]
    four = timed([*shared, "--workers", "4", *[file] * count])
    one = timed([*shared, "--workers", "1", *[file] * count])
    alone = one_after_another(program, options(1), file, count)
    print(f"{count} times {name}: on four workers {four:.2f} s, on one {one:.2f} s, one after the other {alone:.2f} s: {alone / four:.1f} times as long as on four")


def change(program, folder):
    """What the change of a turn takes."""
    file = f"{folder}/loop.c0"
    with open(file, "w") as out:
        out.write(LOOP)
    done = ROUNDS * instructions_of_a_round(program, file)
    words = [program, "run", "--workers", "1", "--evacuators", "0", "--fetchers", "0"]
    whole = timed([*words, "--quantum", "1000000", file])
    for quantum in (1, 10, 100, 1000):
        cut = timed([*words, "--quantum", str(quantum), file])
        print(f"turns of {quantum} instructions: {cut:.3f} s for {done} instructions, {whole:.3f} s in turns of 1,000,000: {(cut - whole) * 1e9 / (done / quantum):.0f} ns a turn")


def main():
    if len(sys.argv) not in (2, 3):
        sys.exit(__doc__)
    program = os.path.abspath(sys.argv[1])
    count = int(sys.argv[2]) if len(sys.argv) == 3 else 256
    with tempfile.TemporaryDirectory() as folder:
        side_by_side(program, "fib", SHORT, count, lambda n: ["--frames", "64"], folder)
        side_by_side(program, "list", LIST, count, lambda n: ["--frames", str(6 * n), "--objects", str(250 * n)], folder)
        change(program, folder)


main()
