#!/usr/bin/env python3
"""What the tests cost: clones the repository, runs `rt ci` on the clone from nothing, and prints for each crate the processor
seconds of its proof, its tests and its edits, as rows of a table, with the totals, the longest chain of proofs and the time in all.

usage: bench/gate.py [--of FOLDER] [--log FILE]
--of measures a run of `rt ci` that goes on in FOLDER already, from now to its end, in place of one of its own.
Every quarter of a second it reads what each prover has used, so of each prover up to that much is missing. Nothing else
should run beside it. Its status is that of `rt ci`, and 0 of a run that was only watched."""

import argparse
import os
import re
import signal
import subprocess
import sys
import tempfile
import time

ROOT = os.path.dirname(os.path.dirname(os.path.abspath(__file__)))
TICK = os.sysconf("SC_CLK_TCK")
PAUSE = 0.25
KINDS = ("proof", "tests", "edits", "programs")


def read(path):
    """The text of a file of /proc, or none where its process has ended."""
    try:
        with open(path, "rb") as it:
            return it.read().decode(errors="replace")
    except OSError:
        return ""


def seconds_of(pid):
    """The processor seconds that a process has used, and its parent."""
    fields = read(f"/proc/{pid}/stat").rpartition(")")[2].split()
    if len(fields) < 13:
        return None
    return (int(fields[11]) + int(fields[12])) / TICK, int(fields[1])


class Watch:
    """What the provers of one run have used so far."""

    def __init__(self, folder):
        self.folder = os.path.realpath(folder)
        self.used = {}
        self.what = {}

    def task(self, pid):
        """The crate and the kind of work of a prover of this run, or none."""
        words = read(f"/proc/{pid}/cmdline").split("\0")
        if not words or os.path.basename(words[0]) != "rattle" or "--crate-name" not in words:
            return None
        try:
            at = os.path.realpath(os.readlink(f"/proc/{pid}/cwd"))
        except OSError:
            return None
        # an edit is tried on a copy of its crate, in a folder that is made for it
        if "rt-edit" not in at and not at.startswith(self.folder + os.sep):
            return None
        kind = "edits" if "rt-edit" in at else "tests" if "--test" in words else "programs" if "--crate-checked" in words else "proof"
        return words[words.index("--crate-name") + 1], kind

    def look(self):
        """Reads what each prover has used. Answers whether there is one."""
        found = False
        for name in os.listdir("/proc"):
            if not name.isdigit():
                continue
            pid = int(name)
            if pid not in self.what:
                # a process that is not a prover yet may become one
                task = self.task(pid)
                if task is None:
                    continue
                self.what[pid] = task
            told = seconds_of(pid)
            if told is not None:
                self.used[pid] = max(told[0], self.used.get(pid, 0))
                found = True
        return found

    def table(self):
        """Processor seconds by crate and kind."""
        rows = {}
        for pid, seconds in self.used.items():
            crate, kind = self.what[pid]
            row = rows.setdefault(crate, dict.fromkeys(KINDS, 0.0))
            row[kind] += seconds
        return rows


def stands_on(folder):
    """The crates of the repository that each crate stands on."""
    found = {}
    with open(f"{folder}/crates.txt") as it:
        for line in it:
            name, colon, below = line.split("#")[0].partition(":")
            if colon:
                found[name.split()[0]] = below.split()
    return {name: [it for it in below if it in found] for name, below in found.items()}


def longest(folder, rows):
    """The chain of crates, one on another, whose proofs take longest."""
    below, known = stands_on(folder), {}

    def chain(name):
        if name not in known:
            best = max((chain(it) for it in below[name]), default=(0.0, []))
            own = rows.get(name, {}).get("proof", 0.0)
            known[name] = best[0] + own, [*best[1], name]
        return known[name]

    return max((chain(it) for it in below), default=(0.0, []))


def show(folder, rows, wall):
    print("| Crate | Proof | Tests | Edits | All |")
    print("|---|---|---|---|---|")
    total = dict.fromkeys(KINDS, 0.0)
    for name, row in sorted(rows.items(), key=lambda it: -sum(it[1].values())):
        row = {**row, "proof": row["proof"] + row["programs"], "programs": 0.0}
        for kind in KINDS:
            total[kind] += row[kind]
        cells = " | ".join(f"{row[kind]:.0f}" for kind in KINDS[:3])
        print(f"| `{name}` | {cells} | {sum(row.values()):.0f} |")
    cells = " | ".join(f"{total[kind]:.0f}" for kind in KINDS[:3])
    print(f"| all | {cells} | {sum(total.values()):.0f} |")
    seconds, names = longest(folder, rows)
    print(f"\nlongest chain of proofs: {seconds:.0f} processor seconds: {' '.join(names)}")
    print(f"in all: {wall:.0f} seconds on {len(os.sched_getaffinity(0))} processors")


def run_of_its_own(log):
    """Runs `rt ci` on a clone, watched. Answers the folder, what was used, the time and the status."""
    folder = tempfile.mkdtemp(prefix="gate-")
    subprocess.run(["git", "clone", "-q", ROOT, folder], check=True)
    said = subprocess.run(["rt", "help"], capture_output=True, text=True)
    anew = ["--anew"] if "--anew" in said.stdout + said.stderr else []
    watch, begun = Watch(folder), time.monotonic()
    with open(log, "w") as out:
        ran = subprocess.Popen(["rt", "ci", *anew], cwd=folder, stdin=subprocess.DEVNULL, stdout=out, stderr=subprocess.STDOUT)
        while ran.poll() is None:
            watch.look()
            time.sleep(PAUSE)
    return folder, watch, time.monotonic() - begun, ran.returncode


def run_of_another(folder):
    """Watches what runs in a folder, which begins within five minutes, until no prover has run there for half a minute, or this is interrupted."""
    watch, begun, last = Watch(folder), time.monotonic(), time.monotonic()
    signal.signal(signal.SIGTERM, signal.default_int_handler)
    try:
        while time.monotonic() - last < (30 if watch.used else 300):
            if watch.look():
                last = time.monotonic()
            time.sleep(PAUSE)
    except KeyboardInterrupt:
        pass
    return folder, watch, last - begun, 0


def main():
    words = argparse.ArgumentParser(description=__doc__.split("\n")[0])
    words.add_argument("--of", help="a folder in which rt ci runs already")
    words.add_argument("--log", default="gate.log", help="where what rt ci says is written (gate.log)")
    asked = words.parse_args()
    folder, watch, wall, status = run_of_another(asked.of) if asked.of else run_of_its_own(asked.log)
    show(folder, watch.table(), wall)
    if not asked.of:
        with open(asked.log) as it:
            lines = it.read().splitlines()
        print(re.sub(r"\s+", " ", lines[-1]) if lines else "rt ci said nothing")
    return status


if __name__ == "__main__":
    sys.exit(main())
