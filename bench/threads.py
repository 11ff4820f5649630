#!/usr/bin/env python3
"""What threads cost and give: programs with all of their objects in frames, and with a sixteenth of them beside one evacuator and one fetcher; two programs
at once beside one alone; an idle region; the memory of a region, by objects and by frames; and runs for which no thread, or only a few, can be made.

usage: bench/threads.py PROGRAM
Each time is the least of three runs, in seconds, less that of a program that does nothing in a region of the same numbers.
"""
import os
import shutil
import subprocess
import sys
import tempfile
import time

RUNS = 3
# A user of whom nothing else runs.
NOBODY = 65_534
NOTHING = "int main() { return 0; }"
SCAN = (
    "int main() { int[] a = alloc_array(int, 100000); for (int i = 0; i < 100000; i++) { a[i] = i % 100; }"
    " int s = 0; for (int k = 0; k < 10; k++) { for (int i = 0; i < 100000; i++) { s += a[i]; } } return s; }"
)
LIST = (
    "struct node { int v; struct node* next; };\n"
    "int main() { struct node* l = NULL; for (int i = 0; i < 20000; i++) { struct node* n = alloc(struct node); n->v = i; n->next = l; l = n; }"
    " int s = 0; for (int k = 0; k < 10; k++) { struct node* p = l; while (p != NULL) { s += p->v; p = p->next; } } return s; }"
)
FIB = "int fib(int n) { if (n < 2) return n; return fib(n - 1) + fib(n - 2); } int main() { return fib(31); }"
# Deep calls at the outset, and then a long time without a touch of the heap: its movers have nothing to do.
LONG = "int fib(int n) { if (n < 2) return n; return fib(n - 1) + fib(n - 2); } int main() { int s = 0; for (int i = 0; i < 3; i++) { s += fib(32); } return s; }"


def run(program, options, texts):
    """The least time of a run, its processor seconds, its greatest memory in KiB, and its last line."""
    with tempfile.TemporaryDirectory() as folder:
        names = []
        for number, text in enumerate(texts):
            names.append(f"{folder}/{number}.c0")
            with open(names[-1], "w") as file:
                file.write(text)
        best = None
        for _ in range(RUNS):
            begun = time.monotonic()
            process = subprocess.Popen([program, "run", *options, *names], stdout=subprocess.PIPE, stderr=subprocess.STDOUT)
            said = process.stdout.read().decode().splitlines()
            _, _, usage = os.wait4(process.pid, 0)
            passed = time.monotonic() - begun
            told = (passed, usage.ru_utime + usage.ru_stime, usage.ru_maxrss, said[-1] if said else "")
            best = told if best is None or told[0] < best[0] else best
    return best


def sizes(frames, objects, movers=0):
    return ["--frames", str(frames), "--objects", str(objects), "--evacuators", str(movers), "--fetchers", str(movers)]


def local_and_far(program, name, text, pieces):
    """A program with all its pieces in frames, and with a sixteenth of them."""
    objects = pieces + 8
    start = run(program, sizes(objects, objects), [NOTHING])[0]
    local = run(program, sizes(objects, objects), [text])
    start_far = run(program, sizes(pieces // 16, objects, 1), [NOTHING])[0]
    far = run(program, sizes(pieces // 16, objects, 1), [text])
    alone = run(program, sizes(pieces // 16, objects), [text])
    here, there, without = local[0] - start, far[0] - start_far, alone[0] - start_far
    print(f"{name}: {local[3]}; all local {here:.3f} s; a sixteenth {there:.3f} s, {there / here:.1f} times (processor {far[1]:.3f}); without movers {without:.3f} s, {without / here:.1f} times")


def two_at_once(program):
    """Two programs at once, beside one alone."""
    alone = run(program, sizes(64, 1000), [FIB])[0]
    both = run(program, sizes(64, 1000), [FIB, FIB])[0]
    print(f"fib(31): alone {alone:.3f} s; two at once {both:.3f} s, {both / alone:.2f} times")


def idle(program):
    """A program that leaves its movers nothing to do."""
    without = run(program, sizes(64, 1000), [LONG])
    beside = run(program, sizes(64, 1000, 1), [LONG])
    print(f"movers with nothing to do: {without[1]:.3f} processor seconds without them, {beside[1]:.3f} with two, in {beside[0]:.3f} s")


def memory(program):
    """What an object and a frame take, by two runs each, which are larger than this process: a child counts as large as its parent was."""
    objects = [run(program, sizes(64, many), [NOTHING])[2] for many in (500_000, 1_000_000)]
    frames = [run(program, sizes(many, 1000), [NOTHING])[2] for many in (500_000, 1_000_000)]
    print(f"an object takes {(objects[1] - objects[0]) * 1024 / 500_000:.0f} bytes, a frame {(frames[1] - frames[0]) * 1024 / 500_000:.0f}")


def few_threads(program):
    """Three programs beside movers, where no more than so many threads can be made: by a user who may have only so many, which wants root."""
    if os.geteuid():
        print("few threads: left out, which wants root")
        return
    with tempfile.TemporaryDirectory() as folder:
        os.chmod(folder, 0o755)
        copy = shutil.copy(program, f"{folder}/c0far")
        with open(f"{folder}/list.c0", "w") as file:
            file.write(LIST)
        for most in (1, 2, 3, 1000):
            limit = ["setpriv", "--reuid", str(NOBODY), "--clear-groups", "prlimit", f"--nproc={most}"]
            words = [*limit, copy, "run", *sizes(4_000, 70_000, 2), *[f"{folder}/list.c0"] * 3]
            ran = subprocess.run(words, stdout=subprocess.PIPE, stderr=subprocess.STDOUT, check=False)
            said = ran.stdout.decode().splitlines()
            print(f"at most {most} threads: {said.count('result: 1999900000')} of 3 programs right, status {ran.returncode}")


def main():
    if len(sys.argv) != 2:
        sys.exit(__doc__)
    program = os.path.abspath(sys.argv[1])
    local_and_far(program, "100,000 ints, scanned 10 times", SCAN, 1563)
    local_and_far(program, "a list of 20,000 nodes, walked 10 times", LIST, 20_000)
    two_at_once(program)
    idle(program)
    memory(program)
    few_threads(program)


main()
