#!/usr/bin/env python3
"""Runs programs over a store in files of a folder: beside the store in memory, on a disk that is full, and with the folder taken away while
the program runs. It prints what each run said last, its status, its processor seconds and its peak memory.

usage: bench/folder_trials.py PROGRAM [--large]
With --large it runs a program whose heap is 2 GiB of cells over 64 MiB of frames alone, which takes 4,194,304 files and some 17 GB of the disk.
The full disk is a small one in memory, whose mount wants root; without that it is left out.
"""
import os
import subprocess
import sys
import tempfile
import time

# An array of so many ints, filled and then scanned so many times.
SCAN = """int main() {
    int n = %d;
    int[] a = alloc_array(int, n);
    for (int i = 0; i < n; i++) { a[i] = i %% 100; }
    int s = 0;
    for (int k = 0; k < %d; k++) { for (int i = 0; i < n; i++) { s += a[i]; } }
    return s;
}
"""


# An array of 2 GiB of cells, one cell of each piece of which is written, and some of which are read.
LARGE = """int main() {
    int n = 268435456;
    int[] a = alloc_array(int, n);
    for (int i = 0; i < n; i += 64) { a[i] = i / 64; }
    int s = 0;
    for (int i = 0; i < n; i += 64000) { s += a[i] %% 7; }
    return s;
}
"""
LARGE_OBJECTS = 4_194_304
LARGE_FRAMES = 131_072


class Run:
    """A run of a text, over a store in memory or in this folder."""

    def __init__(self, program, text, folder=None, options=()):
        self.file = tempfile.NamedTemporaryFile("w", suffix=".c0")
        self.file.write(text)
        self.file.flush()
        words = ["--store", folder] if folder else []
        self.started = time.monotonic()
        self.process = subprocess.Popen([program, "run", *words, *options, self.file.name], stdout=subprocess.PIPE, stderr=subprocess.STDOUT)

    def tell(self, name):
        """Waits for the end, and prints what the run came to."""
        said = self.process.stdout.read().decode().splitlines()
        _, status, usage = os.wait4(self.process.pid, 0)
        spent = usage.ru_utime + usage.ru_stime
        passed = time.monotonic() - self.started
        print(f"{name}: {said[-1] if said else ''}, status {os.waitstatus_to_exitcode(status)}, {passed:.2f} s, {spent:.2f} of the processor, {usage.ru_maxrss / 1024:.0f} MiB at most")


def beside_memory(program):
    """The same program over both stores, one after the other."""
    text = SCAN % (100_000, 10)
    Run(program, text).tell("100,000 ints scanned 10 times, in memory")
    with tempfile.TemporaryDirectory() as folder:
        Run(program, text, folder).tell("the same, in a folder")
        files = [os.path.getsize(f"{folder}/{it}") for it in os.listdir(folder)]
        print(f"  {len(files)} files, of {min(files)} to {max(files)} bytes")


def full_disk(program):
    """A program whose folder is on a disk of 1 MiB, and one beside it in another folder."""
    with tempfile.TemporaryDirectory() as small, tempfile.TemporaryDirectory() as large:
        mounted = subprocess.run(["mount", "-t", "tmpfs", "-o", "size=1m", "none", small], capture_output=True, check=False)
        if mounted.returncode:
            print("full disk: left out, nothing could be mounted")
            return
        try:
            runs = [Run(program, SCAN % (100_000, 3), small), Run(program, SCAN % (100_000, 3), large)]
            runs[0].tell("a full disk")
            runs[1].tell("beside it, on another disk")
        finally:
            subprocess.run(["umount", small], check=True)


def taken_away(program):
    """A program whose folder gets another name while it runs, and one beside it."""
    with tempfile.TemporaryDirectory() as whole:
        os.mkdir(f"{whole}/far")
        os.mkdir(f"{whole}/other")
        runs = [Run(program, SCAN % (100_000, 10), f"{whole}/far"), Run(program, SCAN % (100_000, 10), f"{whole}/other")]
        time.sleep(0.3)
        os.rename(f"{whole}/far", f"{whole}/away")
        runs[0].tell("a folder taken away after 0.3 s")
        runs[1].tell("beside it, in another folder")


def large(program):
    """A heap of 2 GiB over 64 MiB of frames."""
    cells, words = 8 * 64 * LARGE_FRAMES, 8 * (LARGE_OBJECTS + LARGE_FRAMES)
    with tempfile.TemporaryDirectory(dir=".") as folder:
        options = ["--frames", str(LARGE_FRAMES), "--objects", str(LARGE_OBJECTS)]
        Run(program, LARGE % (), folder, options).tell(f"a heap of 2 GiB; frames and words are {(cells + words) / 2**20:.0f} MiB")
        print(f"  {len(os.listdir(folder))} files; the sum is {sum(i % 7 for i in range(0, LARGE_OBJECTS, 1000))}")


def main():
    program = os.path.abspath(sys.argv[1])
    if sys.argv[2:] == ["--large"]:
        large(program)
        return
    beside_memory(program)
    full_disk(program)
    taken_away(program)


if __name__ == "__main__":
    if len(sys.argv) not in (2, 3):
        sys.exit(__doc__)
    main()
