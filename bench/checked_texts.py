#!/usr/bin/env python3
"""How long `c0far check` takes over texts of a quarter, a half and the whole of 1 MiB, the most that is read: prints seconds, MiB a second and KiB.

usage: bench/checked_texts.py PROGRAM
PROGRAM is the c0far that was built. The least of five runs counts.
"""
import itertools
import os
import resource
import subprocess
import sys
import tempfile
import time

MOST = 1_048_576
RUNS = 5


def functions(size):
    """At most 4,096 functions that call one another, and a comment up to the size."""
    text = ["int f0(int x) { return x; }\n"]
    length = len(text[0])
    for k in range(1, 4095):
        one = f"int f{k}(int x) {{ int s = 0; for (int i = 0; i < x; i++) {{ s += f{k - 1}(x - i) * (x - i); }} int t = s * 2; while (t > x) {{ t = t / 2 - x % 7; }} " \
              f"if (t > 0) {{ return f{k // 2}(t); }} else {{ return s > 0 ? s + t : s - t; }} }}\n"
        if length + len(one) + 64 > size:
            break
        text.append(one)
        length += len(one)
    end = "int main() { return f1(2); }\n"
    return "".join(text) + "/" + "*" + " " * max(0, size - length - len(end) - 5) + "*" + "/\n" + end


def repeated(size, one_of):
    """As many functions of one sort as the size holds, each made from its number, and a `main`."""
    end = "int main() { return 0; }\n"
    text, length = [], 0
    for k in itertools.count():
        one = one_of(k)
        if length + len(one) + len(end) > size:
            return "".join(text) + end
        text.append(one)
        length += len(one)


def scopes(size):
    """Functions with scopes in scopes, 60 deep, and a local in each."""
    deep = "".join(f"if (y{i} > {i}) {{ int y{i + 1} = y{i} * {i} + y{i // 2}; " for i in range(60))
    return repeated(size, lambda k: f"int g{k}(int x) {{ int y0 = x; {deep}y0 = y0 + 1; {'}' * 60} return y0; }}\n")


def locals_of(size):
    """Functions of 1,000 locals, each assigned in one branch or the other."""
    branches = "".join(f"int z{i}; if (x > {i}) {{ z{i} = {i}; }} else {{ z{i} = x; }} " for i in range(1000))
    sums = "".join(f"s += z{i}; " for i in range(1000))
    return repeated(size, lambda k: f"int h{k}(int x) {{ {branches}int s = 0; {sums} return s; }}\n")


def unassigned(size, statement):
    """A function of 1,000 locals that are declared without values, and behind them one statement as often as the size holds it."""
    head = "int main() { bool c = true; " + "".join(f"int x{i}; " for i in range(1000))
    end = "return 0; }\n"
    return head + statement * ((size - len(head) - len(end)) // len(statement)) + end


def empty_blocks(size):
    """Empty blocks, where 1,000 locals are not assigned."""
    return unassigned(size, "{}")


def joins(size):
    """Choices of two ways that assign one local, where 999 others are not assigned."""
    return unassigned(size, "if (c) x1 = 1; else x1 = 1; ")


def expressions(size):
    """Functions over structs, arrays and texts, with much in each expression."""
    head = "#use <conio>\nstruct s { int a; struct s* next; int[] b; };\n"
    end = "int main() { return 0; }\n"
    text, length, k = [head], len(head), 0
    while k < 4000:
        one = f"int e{k}(struct s* p, int[] A, int n) {{ print(\"text {k}\"); p->b = A; while (p != NULL && p->a < n) {{ A[p->a % n] += p->b[n / 2] * (p->a & 0xff) - (n << 2); p = p->next; }} return A[0] == n ? p->a : -n; }}\n"
        if length + len(one) + len(end) > size:
            break
        text.append(one)
        length += len(one)
        k += 1
    return "".join(text) + end


def least(program, text):
    """The least time of the program over this text, which it has to accept."""
    with tempfile.TemporaryDirectory() as folder:
        with open(f"{folder}/long.c0", "w") as file:
            file.write(text)
        times = []
        for _ in range(RUNS):
            begun = time.monotonic()
            ran = subprocess.run([program, "check", "long.c0"], cwd=folder, capture_output=True, text=True)
            times.append(time.monotonic() - begun)
            if ran.returncode != 0 or ran.stdout != "ok\n":
                sys.exit(f"status {ran.returncode}, {ran.stdout!r}, {ran.stderr!r}")
        return min(times)


def main():
    program = os.path.abspath(sys.argv[1])
    for name, made in [("functions", functions), ("scopes", scopes), ("locals", locals_of), ("expressions", expressions), ("empty blocks", empty_blocks), ("joins", joins)]:
        for size in (MOST // 4, MOST // 2, MOST):
            text = made(size)
            seconds = least(program, text)
            print(f"{name}: {len(text)} bytes in {seconds:.3f} s, {len(text) / MOST / seconds:.1f} MiB a second")
    print(f"at most {resource.getrusage(resource.RUSAGE_CHILDREN).ru_maxrss} KiB")


if __name__ == "__main__":
    main()
