#!/usr/bin/env python3
"""How long the parser takes over a text of nearly 1 MiB, a replay over a schedule of 1,000,000 lines, and the calls that take images over one of 16 MiB:
prints seconds and KiB.

usage: bench/libraries.py [FOLDER]
Copies the repository to FOLDER, or to one that is made for it, with the libraries that were built, adds the three programs beside this file to it, and
builds them there. The least of five runs counts. Of verifying, encoding and listing, the time of decoding is taken off.
"""
import os
import resource
import shutil
import struct
import subprocess
import sys
import tempfile
import time

ROOT = os.path.dirname(os.path.dirname(os.path.abspath(__file__)))
RUNS = 5
MOST = 1_048_576
LINES = 1_000_000
IMAGE = 16 * MOST
# runs the words behind it, and prints what they took at most
MEASURED = "import resource, subprocess, sys; subprocess.run(sys.argv[1:], stdout=-3); print(resource.getrusage(resource.RUSAGE_CHILDREN).ru_maxrss)"
USES = {
    "parse": "c0_source c0_lexer c0_syntax c0_grammar_laws c0_parser",
    "replay": "cells code_form remote_store world",
    "images": "code_form code_verification instruction_table image_bytes image_reader image_listing scope_verifier_laws scope_verifier thiserror",
}


def built(folder, name):
    """The path of the program of this name, built in the folder."""
    crate = f"{folder}/crates/{name}_bench"
    os.makedirs(f"{crate}/src", exist_ok=True)
    shutil.copy(f"{ROOT}/bench/{name}.rt.in", f"{crate}/src/main.rt")
    with open(f"{folder}/crates.txt", "a") as crates:
        crates.write(f"{name}_bench: {USES[name]}\n")
    ran = subprocess.run(["rt", "run", "--", "nothing"], cwd=crate, capture_output=True, text=True)
    program = f"{crate}/out/{name}_bench"
    if not os.path.exists(program):
        sys.exit(ran.stdout + ran.stderr)
    return program


def least(program, content, *words):
    """The least time of the program over a file of this content, whose name stands behind these words, and what it prints."""
    with tempfile.NamedTemporaryFile() as file:
        file.write(content)
        file.flush()
        times = []
        for _ in range(RUNS):
            begun = time.monotonic()
            ran = subprocess.run([program, *words, file.name], capture_output=True, text=True)
            times.append(time.monotonic() - begun)
            if ran.returncode != 0:
                sys.exit(f"status {ran.returncode}, {ran.stdout!r}, {ran.stderr!r}")
        return min(times), ran.stdout.strip()


def most_memory(program, content, *words):
    """How many KiB a run of the program takes at most."""
    with tempfile.NamedTemporaryFile() as file:
        file.write(content)
        file.flush()
        ran = subprocess.run([sys.executable, "-c", MEASURED, program, *words, file.name], capture_output=True, text=True)
        return int(ran.stdout.split()[-1])


def text_of(size):
    """A text of functions, at most this long."""
    one = b"int f%d(int x, int[] A) { int s = 0; for (int i = 0; i < x; i++) { s += A[i] * (x - i); } return s; }\n"
    text, k = b"", 0
    while len(text) + len(one) + 8 < size and k < 4000:
        text += one % k
        k += 1
    filler = b"struct s%d { int first; struct s%d* next; };\n"
    while len(text) + len(filler) + 16 < size:
        text += filler % (k, k)
        k += 1
    return text


def words_of(*numbers):
    """Numbers of 32 bits."""
    return struct.pack(f"<{len(numbers)}I", *numbers)


def image_of(size):
    """An image of functions that write into a struct and read it, block by block, of at most this many bytes."""
    fact, none = b"\x04\x00", 0xFFFFFFFF
    aim = b"\x33\x00" + words_of(0, none, 0)
    access = b"\x30" + words_of(0) + aim + b"\x35\x00" + words_of(1) + b"\x36\x00" + aim + b"\x34" + words_of(1) + b"\x00" + b"\x36\x00"
    blocks = b""
    for k in range(50):
        end = b"\x60" + words_of(k + 1) if k < 49 else b"\x62" + words_of(1)
        blocks += words_of(1) + fact + words_of(9) + access + b"\x01" + words_of(1, k) + end
    function = b"\x01" + words_of(0) + words_of(2) + b"\x05" + words_of(0) + b"\x01" + b"\x01" + words_of(50) + blocks
    count = (size - 64) // len(function)
    return b"C0FI\x01\x00" + words_of(0) + words_of(1) + words_of(1) + b"\x01" + words_of(count) + function * count


def measure_images(program):
    """The times and the memory of the calls that take images."""
    for size in (IMAGE // 4, IMAGE // 2, IMAGE):
        content = image_of(size)
        decoded, _ = least(program, content, "decode")
        print(f"decode {len(content)} bytes: {decoded:.3f} s, {most_memory(program, content, 'decode') * 1024 / len(content):.1f} times the bytes")
        for word in ("verify", "encode", "list"):
            seconds, told = least(program, content, word)
            times = most_memory(program, content, word) * 1024 / len(content)
            print(f"{word}: {seconds - decoded:.3f} s ({told}), {times:.1f} times the bytes with what is decoded")


def main():
    folder = sys.argv[1] if len(sys.argv) > 1 else tempfile.mkdtemp()
    shutil.copytree(ROOT, folder, dirs_exist_ok=True)
    parser, player, imager = built(folder, "parse"), built(folder, "replay"), built(folder, "images")
    for size in (MOST // 4, MOST // 2, MOST):
        seconds, told = least(parser, text_of(size))
        print(f"parse {size} bytes: {seconds:.3f} s ({told})")
    print(f"at most {resource.getrusage(resource.RUSAGE_CHILDREN).ru_maxrss} KiB, also for building")
    begun = b"p0\n" * 5 + b"p0 claim 0\n" + b"p0\n" * 68
    for lines in (LINES // 4, LINES // 2, LINES):
        seconds, told = least(player, begun + b"e0 look 0\ne0 mark 0 1\n" * ((lines - 74) // 2))
        print(f"replay {lines} lines: {seconds:.3f} s ({told})")
    measure_images(imager)


main()
