#!/usr/bin/env python3
"""Runs twenty of the programs of `examples/` at once, again and again, over a sixteenth of the frames that their objects would fill, beside other
numbers of evacuators and fetchers each time, and compares what each one prints with what it prints alone. It ends with status 1 at the first difference.

usage: bench/soak.py PROGRAM [MINUTES] [SEED]
"""
import os
import random
import re
import subprocess
import sys
import time

ROOT = os.path.dirname(os.path.dirname(os.path.abspath(__file__)))
AT_ONCE = 20
OBJECTS = 1_024
LONGEST = 120


def run(program, options, files):
    """What a run prints, and its status."""
    ran = subprocess.run([program, "run", *options, *files], stdout=subprocess.PIPE, stderr=subprocess.STDOUT, timeout=LONGEST, check=False)
    return ran.stdout.decode(), ran.returncode


def by_programs(said):
    """What each of several programs printed."""
    return re.split(r"(?m)^program \d+:\n", said)[1:]


def sizes(choose):
    """Numbers of frames, objects and movers: enough frames for four scopes of each program and for the movers."""
    evacuators, fetchers = choose.randint(0, 4), choose.randint(0, 4)
    frames = max(4 * AT_ONCE + evacuators + fetchers, OBJECTS * AT_ONCE // 16 // choose.choice((1, 2, 4, 8, 16)))
    return ["--frames", str(frames), "--objects", str(OBJECTS * AT_ONCE), "--evacuators", str(evacuators), "--fetchers", str(fetchers)]


def main():
    program = os.path.abspath(sys.argv[1])
    minutes = float(sys.argv[2]) if len(sys.argv) > 2 else 1
    choose = random.Random(int(sys.argv[3]) if len(sys.argv) > 3 else 1)
    folder = f"{ROOT}/crates/c0_texts_tests/data/examples"
    texts = [f"{folder}/{it}" for it in sorted(os.listdir(folder)) if it.endswith(".c0")]
    alone = {it: run(program, [], [it]) for it in texts}
    texts = [it for it in texts if alone[it][1] == 0]
    begun, rounds = time.monotonic(), 0
    while time.monotonic() - begun < 60 * minutes:
        files, options = [choose.choice(texts) for _ in range(AT_ONCE)], sizes(choose)
        said, status = run(program, options, files)
        told = by_programs(said)
        if status or told != [alone[it][0] for it in files]:
            print(f"round {rounds}, {' '.join(options)}, {' '.join(files)}: status {status}\n{said}")
            return 1
        rounds += 1
    print(f"{rounds} rounds of {AT_ONCE} programs at once, each as alone, in {time.monotonic() - begun:.0f} s")
    return 0


if __name__ == "__main__":
    if len(sys.argv) < 2:
        sys.exit(__doc__)
    sys.exit(main())
