#!/usr/bin/env python3
"""How long `c0far run` takes over nine programs, beside the same programs in Lua 5.4 and LuaJIT: run_speed.py PROGRAM

fib(27); a list that is walked, an array that is scanned and a sieve, each once small and once large: a list of 50 and of 20,000 nodes, 3,000 and 100,000 ints,
a sieve to 4,000 and to 200,000; a product of two matrices of 100 x 100 ints; a bubble sort of 1,000 ints. Each runs with all its objects in frames: 64 frames
where they are enough, else as many as it has objects; those for which 64 are too few run with 64 too, so that objects move all the time.
Prints for each the seconds of all, start-up included, the least of five runs, and how many times Lua's time that is, with start-up and without. What is not
installed of `lua5.4` and `luajit` is left out. All have to print the same number.
"""
import os
import shutil
import subprocess
import sys
import tempfile
import time

RUNS = 5
NOTHING = ("int main() { return 0; }", "print('result: 0')")
PROGRAMS = [
    (
        "fib(27)",
        0,
        "int fib(int n) { if (n < 2) return n; return fib(n - 1) + fib(n - 2); } int main() { return fib(27); }",
        "local function fib(n) if n < 2 then return n end return fib(n - 1) + fib(n - 2) end\nprint('result: ' .. fib(27))",
    ),
    (
        "list of 50 nodes, walked 4,000 times",
        50,
        "struct node { int v; struct node* next; };\n"
        "int main() { struct node* l = NULL; for (int i = 0; i < 50; i++) { struct node* n = alloc(struct node); n->v = i; n->next = l; l = n; }"
        " int s = 0; for (int k = 0; k < 4000; k++) { struct node* p = l; while (p != NULL) { s += p->v; p = p->next; } } return s; }",
        "local l = nil\nfor i = 0, 49 do l = {v = i, next = l} end\nlocal s = 0\n"
        "for k = 1, 4000 do local p = l while p ~= nil do s = s + p.v; p = p.next end end\nprint('result: ' .. s)",
    ),
    (
        "3,000 ints, scanned 333 times",
        47,
        "int main() { int[] a = alloc_array(int, 3000); for (int i = 0; i < 3000; i++) { a[i] = i % 100; }"
        " int s = 0; for (int k = 0; k < 333; k++) { for (int i = 0; i < 3000; i++) { s += a[i]; } } return s; }",
        "local a = {}\nfor i = 0, 2999 do a[i] = i % 100 end\nlocal s = 0\n"
        "for k = 1, 333 do for i = 0, 2999 do s = s + a[i] end end\nprint('result: ' .. s)",
    ),
    (
        "a sieve to 4,000, 60 times",
        63,
        "int main() { int n = 4000; int primes = 0; bool[] out = alloc_array(bool, n + 1); for (int k = 0; k < 60; k++) {"
        " for (int i = 0; i <= n; i++) { out[i] = false; } primes = 0; for (int i = 2; i <= n; i++) {"
        " if (!out[i]) { primes++; for (int j = 2 * i; j <= n; j += i) { out[j] = true; } } } } return primes; }",
        "local n = 4000\nlocal out = {}\nlocal primes = 0\nfor k = 1, 60 do for i = 0, n do out[i] = false end primes = 0\n"
        "for i = 2, n do if not out[i] then primes = primes + 1 for j = 2 * i, n, i do out[j] = true end end end end\nprint('result: ' .. primes)",
    ),
    (
        "list of 20,000 nodes, walked 10 times",
        20_000,
        "struct node { int v; struct node* next; };\n"
        "int main() { struct node* l = NULL; for (int i = 0; i < 20000; i++) { struct node* n = alloc(struct node); n->v = i; n->next = l; l = n; }"
        " int s = 0; for (int k = 0; k < 10; k++) { struct node* p = l; while (p != NULL) { s += p->v; p = p->next; } } return s; }",
        "local l = nil\nfor i = 0, 19999 do l = {v = i, next = l} end\nlocal s = 0\n"
        "for k = 1, 10 do local p = l while p ~= nil do s = s + p.v; p = p.next end end\nprint('result: ' .. s)",
    ),
    (
        "100,000 ints, scanned 10 times",
        1_563,
        "int main() { int[] a = alloc_array(int, 100000); for (int i = 0; i < 100000; i++) { a[i] = i % 100; }"
        " int s = 0; for (int k = 0; k < 10; k++) { for (int i = 0; i < 100000; i++) { s += a[i]; } } return s; }",
        "local a = {}\nfor i = 0, 99999 do a[i] = i % 100 end\nlocal s = 0\n"
        "for k = 1, 10 do for i = 0, 99999 do s = s + a[i] end end\nprint('result: ' .. s)",
    ),
    (
        "sieve to 200,000",
        3_126,
        "int main() { int n = 200000; bool[] out = alloc_array(bool, n + 1); int primes = 0; for (int i = 2; i <= n; i++) {"
        " if (!out[i]) { primes++; for (int j = 2 * i; j <= n; j += i) { out[j] = true; } } } return primes; }",
        "local n = 200000\nlocal out = {}\nfor i = 0, n do out[i] = false end\nlocal primes = 0\n"
        "for i = 2, n do if not out[i] then primes = primes + 1 for j = 2 * i, n, i do out[j] = true end end end\nprint('result: ' .. primes)",
    ),
    (
        "a product of 100 x 100 ints",
        404,
        "int main() { int n = 100; int[][] a = alloc_array(int[], n); int[][] b = alloc_array(int[], n);"
        " for (int i = 0; i < n; i++) { a[i] = alloc_array(int, n); b[i] = alloc_array(int, n);"
        " for (int j = 0; j < n; j++) { a[i][j] = i + j; b[i][j] = i - j; } }"
        " int s = 0; for (int i = 0; i < n; i++) { for (int j = 0; j < n; j++) { int c = 0; for (int k = 0; k < n; k++) { c += a[i][k] * b[k][j]; } s += c; } } return s; }",
        "local n = 100\nlocal a, b = {}, {}\nfor i = 0, n - 1 do a[i], b[i] = {}, {} for j = 0, n - 1 do a[i][j] = i + j; b[i][j] = i - j end end\n"
        "local s = 0\nfor i = 0, n - 1 do for j = 0, n - 1 do local c = 0 for k = 0, n - 1 do c = c + a[i][k] * b[k][j] end s = s + c end end\nprint('result: ' .. s)",
    ),
    (
        "a bubble sort of 1,000 ints",
        16,
        "int main() { int n = 1000; int[] a = alloc_array(int, n); for (int i = 0; i < n; i++) { a[i] = i * 7919 % 1009; }"
        " for (int k = n - 1; k > 0; k--) { for (int i = 0; i < k; i++) { if (a[i] > a[i + 1]) { int t = a[i]; a[i] = a[i + 1]; a[i + 1] = t; } } }"
        " return a[10]; }",
        "local n = 1000\nlocal a = {}\nfor i = 0, n - 1 do a[i] = i * 7919 % 1009 end\n"
        "for k = n - 1, 1, -1 do for i = 0, k - 1 do if a[i] > a[i + 1] then a[i], a[i + 1] = a[i + 1], a[i] end end end\nprint('result: ' .. a[10])",
    ),
]


def least_seconds(words, text, suffix):
    """The least time of a command over a text, and its last line."""
    with tempfile.TemporaryDirectory() as folder:
        with open(f"{folder}/text{suffix}", "w") as file:
            file.write(text)
        least, line = None, ""
        for _ in range(RUNS):
            begun = time.monotonic()
            ran = subprocess.run([*words, f"text{suffix}"], cwd=folder, capture_output=True, text=True, check=False)
            seconds = time.monotonic() - begun
            line = ((ran.stdout + ran.stderr).splitlines() or [f"status {ran.returncode}"])[-1]
            least = seconds if least is None else min(least, seconds)
    return least, line


def beside(name, told, others):
    """A line of one program: its seconds, and beside each other what it took and how many times that is, with start-up and without."""
    (seconds, line), start = told
    parts = [f"{name}: {line}, {seconds:.3f} s"]
    for other, ((taken, answer), other_start) in others.items():
        without = (seconds - start) / max(taken - other_start, 0.0005)
        parts.append(f"{other} {taken:.3f} s, {seconds / taken:.1f} times ({without:.1f} without start-up)" + ("" if answer == line else f", but it prints {answer}"))
    print("; ".join(parts))


def local(pieces):
    """The options of a run that has a frame for each of so many objects, with some to spare."""
    return [] if pieces < 64 else ["--frames", str(pieces + 8), "--objects", str(pieces + 8)]


def main():
    if len(sys.argv) != 2:
        sys.exit(__doc__)
    program = os.path.abspath(sys.argv[1])
    others = {name: shutil.which(name) for name in ("lua5.4", "luajit") if shutil.which(name)}
    starts = {name: least_seconds([path], NOTHING[1], ".lua")[0] for name, path in others.items()}
    print("nothing: " + ", ".join([f"{least_seconds([program, 'run'], NOTHING[0], '.c0')[0]:.3f} s", *[f"{name} {it:.3f} s" for name, it in starts.items()]]))
    for name, pieces, text, other in PROGRAMS:
        took = {it: (least_seconds([path], other, ".lua"), starts[it]) for it, path in others.items()}
        for words, where in ((local(pieces), ""), ([], " in 64 frames")):
            if where and pieces < 64:
                continue
            start = least_seconds([program, "run", *words], NOTHING[0], ".c0")[0]
            beside(name + where, (least_seconds([program, "run", *words], text, ".c0"), start), took)


if __name__ == "__main__":
    main()
