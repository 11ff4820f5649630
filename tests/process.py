"""The built program as a process, in a folder of its own and within limits."""

import os
import resource
import subprocess

MEBIBYTE = 1 << 20


class Failure(Exception):
    """What a test expected did not come."""


def lower(what, limit):
    """Limits a resource, where no lower limit is set already."""
    _, most = resource.getrlimit(what)
    least = limit if most == resource.RLIM_INFINITY else min(limit, most)
    resource.setrlimit(what, (least, least))


class Process:
    """A program in a folder. `run` gives what it did; `check` compares that."""

    def __init__(self, program, folder):
        self.program = program
        self.folder = folder

    def path(self, name):
        return os.path.join(self.folder, name)

    def write(self, name, text):
        with open(self.path(name), "wb") as file:
            file.write(text if isinstance(text, bytes) else text.encode())

    def read(self, name):
        with open(self.path(name), "rb") as file:
            return file.read()

    def run(self, *words, stack=8 * MEBIBYTE, memory=None, processor=None, seconds=60):
        """Its status, or minus the signal that ended it, and what it wrote; no more than so many bytes of stack and of memory, and so many seconds, also of a processor."""

        def limit():
            lower(resource.RLIMIT_STACK, stack)
            if memory is not None:
                lower(resource.RLIMIT_AS, memory)
            if processor is not None:
                lower(resource.RLIMIT_CPU, processor)

        try:
            ran = subprocess.run([self.program, *words], cwd=self.folder, capture_output=True, stdin=subprocess.DEVNULL, timeout=seconds, preexec_fn=limit, check=False)
        except subprocess.TimeoutExpired:
            raise Failure(f"{shown(words)} took more than {seconds} s") from None
        return ran.returncode, ran.stdout, ran.stderr

    def check(self, *words, status=0, out="", err="", **limits):
        """That it ends with this status and writes just this to its two streams."""
        told = self.run(*words, **limits)
        wanted = (status, out.encode(), err.encode())
        if told != wanted:
            raise Failure(f"{shown(words)} gave {shortened(told)}, and {shortened(wanted)} is wanted")


def shown(words):
    """The words of a command, the first of many."""
    return " ".join(words[:8]) + (f" .. ({len(words)} words)" if len(words) > 8 else "")


def shortened(told):
    return tuple(it if isinstance(it, int) or len(it) < 200 else it[:200] + b".." for it in told)


def want(so, told):
    if not so:
        raise Failure(told)
