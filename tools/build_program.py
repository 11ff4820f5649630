#!/usr/bin/env python3
"""build_program.py ROOT FOLDER [WORD..]: proves and builds the program c0far of the checkout ROOT, where FOLDER has none of these sources, and starts it with the words; --install DIR puts it into DIR.

The script c0far at the root calls it. In FOLDER stay the program, its log, a lock and a stamp. The stamp has three lines: the place of the sources, those that are watched, and their sum;
its time is that of the last change among them, which the script compares. What rt has proved it keeps itself, beside the toolchain, where its kit does, so that a copy of the sources and what is built of them go when it ends."""

import contextlib
import ctypes
import fcntl
import hashlib
import os
import re
import shutil
import signal
import subprocess
import sys
import time

PROGRAM = "c0far_program"
# Where a crate's code and contracts stand. Other proofs of the same leave the program as it is, and proved.
SOURCES = ("src", "specs")
LEFT_OUT = shutil.ignore_patterns("out", "must-fail", "further-edits")
FIRST = "the first time takes 40 minutes on four slow processors, half that on fast ones, and 6.3 GB of disk; a kit of rt that keeps proofs proves nothing twice"
KEPT = "a kit of rt that keeps proofs, and may write beside the toolchain, goes on from what is proved so far"
LIBC = ctypes.CDLL(None)
PR_SET_PDEATHSIG = 1


class Interrupted(Exception):
    """A signal asks the process to end."""


def say(text):
    # (the terminal may be gone)
    with contextlib.suppress(OSError):
        print(f"c0far: {text}", file=sys.stderr, flush=True)


def needed(root):
    """The lines of crates.txt of the crates that the program stands on, with its own, by their names."""
    lines = {}
    with open(f"{root}/crates.txt") as it:
        for line in it:
            name, colon, below = line.split("#")[0].partition(":")
            if colon:
                lines[name.split()[0]] = (line, below.split())
    found, left = {}, [PROGRAM]
    while left:
        name = left.pop()
        if name in lines and name not in found:
            found[name] = lines[name][0]
            left += lines[name][1]
    return found


def watched(root, crates):
    """The paths below ROOT where a change may change the program or what is proved of it."""
    parts = [f"crates/{name}/{part}" for name in sorted(crates) for part in SOURCES]
    return [it for it in parts if os.path.isdir(f"{root}/{it}")] + ["crates.txt", "HANDLES"]


def last_change(root, paths):
    """The time at which one of these files or folders was changed last."""
    times = []
    for path in paths:
        times.append(os.stat(f"{root}/{path}").st_ctime_ns)
        for at, folders, files in os.walk(f"{root}/{path}"):
            times += [os.lstat(f"{at}/{it}").st_ctime_ns for it in (*folders, *files)]
    return max(times)


def sum_of(root, crates, paths):
    """What changes where the watched sources do; of crates.txt the lines of these crates count alone."""
    made = hashlib.sha256(repr(sorted(crates.items())).encode())
    for path in paths:
        files = [] if path == "crates.txt" else [path]
        for at, _, names in os.walk(f"{root}/{path}"):
            files += [os.path.relpath(f"{at}/{it}", root) for it in names]
        for file in sorted(it for it in files if os.path.isfile(f"{root}/{it}")):
            with open(f"{root}/{file}", "rb") as it:
                made.update(repr((file, it.read())).encode())
    return made.hexdigest()


def is_built(folder, sum):
    """Whether the program there was built from sources of this sum."""
    try:
        with open(f"{folder}/stamp") as it:
            return it.read().splitlines()[2:] == [sum] and os.path.isfile(f"{folder}/{PROGRAM}")
    except OSError:
        return False


def put_stamp(root, folder, paths, sum, changed):
    at = os.stat(f"{root}/crates")
    with open(f"{folder}/stamp.new", "w") as it:
        it.write(f"{at.st_dev}:{at.st_ino}\n{' '.join(paths)}\n{sum}\n")
    os.utime(f"{folder}/stamp.new", ns=(changed, changed))
    os.replace(f"{folder}/stamp.new", f"{folder}/stamp")


def cleared(folder):
    """Leaves of the copy and of what was built in it nothing: rt reads none of it again, and what it proved it keeps elsewhere, if at all."""
    for it in (".git", "crates"):
        shutil.rmtree(f"{folder}/{it}", ignore_errors=True)
    for it in ("crates.txt", "HANDLES"):
        if os.path.exists(f"{folder}/{it}"):
            os.remove(f"{folder}/{it}")


def copied(root, folder, crates):
    """Makes the folder a repository of these crates alone, without their edits and without crates of tests."""
    cleared(folder)
    os.makedirs(f"{folder}/.git")
    shutil.copy(f"{root}/HANDLES", folder)
    with open(f"{folder}/crates.txt", "w") as it:
        it.writelines(crates.values())
    for name in crates:
        shutil.copytree(f"{root}/crates/{name}", f"{folder}/crates/{name}", ignore=LEFT_OUT)


def size_of(folder):
    """How many bytes the proved libraries have that stand there."""
    found = 0
    for at, _, files in os.walk(folder):
        if "/out/rlib" in at:
            found += sum(os.lstat(f"{at}/{it}").st_size for it in files)
    return found


class Progress:
    """Tells of each crate when rt is done with it, and of what rt does not keep."""

    def __init__(self, crates):
        self.left, self.whole, self.begun, self.keeps = set(crates), len(crates), time.monotonic(), False

    def seconds(self):
        return f"{time.monotonic() - self.begun:.0f} s"

    def read(self, line):
        found = re.match(r"rt: (\w+) (proved$|is kept: |NOT PROVED)", line)
        if found and found[1] in self.left:
            self.left.remove(found[1])
            self.keeps |= found[2].startswith("is kept")
            how = {"p": "", "i": " was proved before", "N": " is NOT PROVED"}[found[2][0]]
            say(f"{self.whole - len(self.left)} of {self.whole} crates after {self.seconds()}: {found[1]}{how}")
        elif re.match(r"rt: note: .*(nothing is kept|the disk)", line):
            self.keeps = False
            say(line[len("rt: ") :].rstrip())


def ends_with_its_parent():
    """Has the system end this process where the one that started it ends, however that comes."""
    LIBC.prctl(PR_SET_PDEATHSIG, signal.SIGTERM)


def proved(folder, lock, progress):
    """Proves the crates there, tells how far that is, and builds the program. Answers whether all are proved."""
    how = {"cwd": folder, "stdin": subprocess.DEVNULL, "stdout": subprocess.PIPE, "stderr": subprocess.STDOUT, "text": True, "errors": "replace"}
    with open(f"{folder}/log", "w") as log:
        # (it holds the lock too, so that nobody takes its folder away while it runs)
        ran = subprocess.Popen(["rt", "ci"], preexec_fn=ends_with_its_parent, pass_fds=[lock.fileno()], **how)
        try:
            for line in ran.stdout:
                log.write(line)
                progress.read(line)
            return ran.wait() == 0
        finally:
            # (at an interrupt it would first wait for the proofs that it has begun)
            ran.terminate()
            ran.wait()


def build(root, folder, lock, crates):
    """Proves and builds the program, and answers whether it is there."""
    if not shutil.which("rt"):
        say("the command rt is not on the path: it is the toolchain that proves and builds this program")
        return False
    say(f"proving and building {len(crates)} crates in {folder}: {FIRST}")
    progress, made = Progress(crates), f"{folder}/crates/{PROGRAM}/out/{PROGRAM}"
    try:
        copied(root, folder, crates)
        if not proved(folder, lock, progress):
            say(f"not proved: {folder}/log tells why")
        elif not os.path.isfile(made):
            say(f"the program was not built: {folder}/log tells why")
        else:
            kept = f"rt keeps {size_of(folder) / 1e9:.1f} GB of proved libraries beside the toolchain, for a later change; " if progress.keeps else ""
            os.replace(made, f"{folder}/{PROGRAM}")
            say(f"built after {progress.seconds()}; {kept}{folder} has the program alone, {os.path.getsize(f'{folder}/{PROGRAM}') / 1e6:.1f} MB")
            return True
        return False
    finally:
        signal.pthread_sigmask(signal.SIG_BLOCK, (signal.SIGINT, signal.SIGTERM, signal.SIGHUP))
        cleared(folder)
        signal.pthread_sigmask(signal.SIG_UNBLOCK, (signal.SIGINT, signal.SIGTERM, signal.SIGHUP))


def made_current(root, folder):
    """Has the program of these sources in the folder, and answers whether it is there. Another start that builds there is waited for."""
    os.makedirs(folder, exist_ok=True)
    with open(f"{folder}/lock", "w") as lock:
        try:
            fcntl.flock(lock, fcntl.LOCK_EX | fcntl.LOCK_NB)
        except BlockingIOError:
            say(f"another start is building in {folder}: waiting for it")
            fcntl.flock(lock, fcntl.LOCK_EX)
        crates = needed(root)
        paths = watched(root, crates)
        changed = last_change(root, paths)
        sum = sum_of(root, crates, paths)
        if not is_built(folder, sum) and not build(root, folder, lock, crates):
            return False
        put_stamp(root, folder, paths, sum, changed)
    return True


def installed(root, program, words):
    """Puts the program into the folder that the one word names. Answers the exit status."""
    to = f"{words[0]}/c0far"
    part = f"{words[0]}/.c0far.{os.getpid()}"
    try:
        shutil.copyfile(program, part)
        os.chmod(part, 0o755)
        # (where a link to the script stood, the link goes, and the script stays)
        os.replace(part, to)
    except OSError as error:
        say(f"{to} cannot be written: {error.strerror}")
        return 2
    say(f"{to} is there")
    return 0


def is_refused(root, words):
    """Tells what is wrong with the words behind --install, and answers whether anything is."""
    if len(words) != 1 or not os.path.isdir(words[0]):
        say("usage: c0far --install DIR, where DIR is a folder that is there")
    elif os.path.realpath(words[0]) == root:
        say(f"the script {root}/c0far would be written over: name another folder")
    else:
        return False
    return True


def interrupt(number, _):
    raise Interrupted(number)


def main(root, folder, *words):
    is_install = words[:1] == ("--install",)
    if is_install and is_refused(root, words[1:]):
        return 2
    for it in (signal.SIGINT, signal.SIGTERM, signal.SIGHUP):
        if it != signal.SIGHUP or signal.getsignal(it) != signal.SIG_IGN:
            signal.signal(it, interrupt)
    try:
        if not made_current(root, folder):
            return 2
    except Interrupted as it:
        say(f"stopped; {KEPT}")
        return 128 + it.args[0]
    except OSError as error:
        say(f"{error.filename or folder}: {error.strerror}")
        return 2
    program = f"{folder}/{PROGRAM}"
    if is_install:
        return installed(root, program, words[1:])
    # (Python ignores it, and the program would inherit that)
    signal.signal(signal.SIGPIPE, signal.SIG_DFL)
    os.execv(program, [program, *words])


if __name__ == "__main__":
    sys.exit(main(*sys.argv[1:]))
