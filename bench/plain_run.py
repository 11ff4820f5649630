#!/usr/bin/env python3
"""The time and the memory of `c0far mean`: plain_run.py PROGRAM

Loops of 1,000,000 and 10,000,000 turns over ints, whose memory should be the same; a list of nodes, whose memory grows with
the list; and calls that nest. Each line tells the last line of what is printed, the seconds, and the memory in MiB.
"""
import os
import resource
import subprocess
import sys
import tempfile

LOOP = "int main() { int s = 0; for (int i = 0; i < %d; i++) { s += i; } return s; }"
NODES = (
    "struct node { int v; struct node* next; };\n"
    "int main() { struct node* l = NULL; for (int i = 0; i < %d; i++) { struct node* n = alloc(struct node); n->v = i; n->next = l; l = n; }"
    " int s = 0; while (l != NULL) { s += l->v; l = l->next; } return s; }"
)
CALLS = "int f(int n) { return n == 0 ? 0 : 1 + f(n - 1); } int main() { return f(%d); }"
SIEVE = (
    "int main() { int n = %d; bool[] out = alloc_array(bool, n + 1); int primes = 0; for (int i = 2; i <= n; i++) {"
    " if (!out[i]) { primes++; for (int j = 2 * i; j <= n; j += i) { out[j] = true; } } } return primes; }"
)


def measured(program, text, turns):
    """The last line, the seconds and the MiB of a plain run of the text."""
    with tempfile.NamedTemporaryFile("w", suffix=".c0") as file:
        file.write(text)
        file.flush()
        read, write = os.pipe()
        child = os.fork()
        if child == 0:
            os.close(read)
            done = subprocess.run([program, "mean", "--turns", str(turns), file.name], capture_output=True, text=True)
            used = resource.getrusage(resource.RUSAGE_CHILDREN)
            lines = (done.stdout + done.stderr).splitlines() or [f"status {done.returncode}"]
            os.write(write, f"{used.ru_utime + used.ru_stime}\t{used.ru_maxrss / 1024}\t{lines[-1]}".encode())
            os._exit(0)
        os.close(write)
        with os.fdopen(read) as answer:
            seconds, memory, line = answer.read().split("\t")
        os.waitpid(child, 0)
    return line, float(seconds), float(memory)


def main():
    program = sys.argv[1]
    for name, text, turns in [
        ("loop of 1,000,000", LOOP % 1_000_000, 20_000_000),
        ("loop of 10,000,000", LOOP % 10_000_000, 20_000_000),
        ("list of 20,000", NODES % 20_000, 20_000_000),
        ("list of 200,000", NODES % 200_000, 20_000_000),
        ("sieve to 200,000", SIEVE % 200_000, 20_000_000),
        ("calls 100,000 deep", CALLS % 100_000, 200_000),
        ("calls 1,000,000 deep", CALLS % 1_000_000, 2_000_000),
    ]:
        line, seconds, memory = measured(program, text, turns)
        print(f"{name}: {line}, {seconds:.2f} s, {memory:.0f} MiB")


if __name__ == "__main__":
    main()
