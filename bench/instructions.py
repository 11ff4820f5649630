#!/usr/bin/env python3
"""How many machine instructions `c0far run` takes over the nine programs of run_speed.py, or the ten of other_programs.py: instructions.py [--others] PROGRAM..

One worker and no mover, with all objects in frames, and where 64 frames are too few, with 64 too. Counted by valgrind's callgrind, start-up included, so that
nothing else on the machine matters. With several programs, what each takes beside the first, in per cent. Takes some minutes for each. Where `lua5.4` is
installed: what it takes for the same program, and how many times that the first program takes, each less what it takes for nothing, with as many objects.
"""
import concurrent.futures
import os
import re
import shutil
import subprocess
import sys
import tempfile

import other_programs
import run_speed


def counted(command, text, room):
    """The instructions of a command over the file of this text, which stands last, and its last line."""
    with tempfile.TemporaryDirectory(dir=room) as folder:
        with open(f"{folder}/text.c0", "w") as file:
            file.write(text)
        command = ["valgrind", "--tool=callgrind", f"--callgrind-out-file={folder}/out", *command, "text.c0"]
        ran = subprocess.run(command, cwd=folder, capture_output=True, text=True, check=False)
    found = re.search(r"Collected : (\d+)", ran.stderr)
    return int(found[1]) if found else 0, (ran.stdout.splitlines() or ["nothing"])[-1]


def run_by(program, words):
    """The command that runs a text, by one worker and no mover."""
    return [program, "run", "--workers", "1", "--evacuators", "0", "--fetchers", "0", *words]


def rows(chosen):
    """What is run: a name, the options, the text, and the same in Lua. Before those of one number of objects stands a program that does nothing."""
    found, last = [], None
    for name, pieces, text, in_lua in chosen:
        for words, where in [(run_speed.local(pieces), "")] + ([([], ", in 64 frames")] if pieces >= 64 else []):
            if words != last:
                found.append((f"nothing{', with ' + words[-1] + ' objects' if words else ''}", words, *run_speed.NOTHING))
                last = words
            found.append((name + where, words, text, in_lua))
    return found


def main():
    others = "--others" in sys.argv
    programs = [os.path.abspath(it) for it in sys.argv[1:] if it != "--others"]
    if not programs:
        sys.exit(__doc__)
    peer = shutil.which("lua5.4")
    with tempfile.TemporaryDirectory() as room, concurrent.futures.ThreadPoolExecutor(2) as pool:
        runs = []
        for name, words, text, in_lua in rows(other_programs.OTHERS if others else run_speed.PROGRAMS):
            beside = [pool.submit(counted, [peer], in_lua, room)] if peer else []
            runs.append((name, [pool.submit(counted, run_by(it, words), text, room) for it in programs], beside))
        nothing = None
        for name, row, beside in runs:
            told = [it.result() for it in row]
            first = told[0][0]
            parts = [f"{count:,}" + (f" ({100 * (count - first) / first:+.2f} %)" if place and first else "") for place, (count, _) in enumerate(told)]
            lines = {line for _, line in told}
            for count, line in [it.result() for it in beside]:
                if name.startswith("nothing"):
                    nothing = first, count
                lines.add(line)
                own = count - nothing[1]
                parts.append(f"lua5.4 {count:,}" + (f", {(first - nothing[0]) / own:.1f} times" if own else ""))
            print(f"{name}: " + ", ".join(parts) + ("" if len(lines) == 1 else f", but they print {sorted(lines)}"), flush=True)


main()
