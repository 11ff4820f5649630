#!/usr/bin/env python3
"""What far memory costs: processor time against the part of the heap that is local: local_memory.py PROGRAM FOLDER [RUNS]

Six programs, each with all of its objects in frames, and then with three quarters, a half, a quarter and so on down to 3 in 100: without movers and with one
evacuator and one fetcher, over the store in memory and over files of a folder below FOLDER. Each time is the least of RUNS runs (5), less that of a
program that does nothing, and stands beside that with all objects in frames and no mover, and beside what `--stats` counts in the fastest run. Into FOLDER go
`local_memory.csv`, with all of this, `local_memory.svg`, the picture: the store in memory, with movers, and `local_memory.md`, the table of `README.md` here. Each run has
to print the answer that is computed here. It takes eight to fifteen minutes.
"""
import csv
import math
import os
import re
import resource
import subprocess
import sys
import tempfile
import time

PARTS = (100, 75, 50, 25, 12.5, 6.25, 3)
WAYS = (("memory", 0), ("memory", 1), ("folder", 0), ("folder", 1))
NOTHING = "int main() { return 0; }"
ROOM = 12
# what is counted, and whose line tells it
COUNTS = (("brought", "program 0"), ("written", "program 0"), ("left", "program 0"), ("calls", "program 0"), ("left", "evacuator 0"), ("brought", "fetcher 0"))
HEADINGS = ("brought by the program", "written by it", "left clean for it", "its calls of the store", "left by the evacuator", "brought by the fetcher")


def walked_list(nodes=6_000, walks=60):
    return walks * sum(range(nodes)), nodes, (
        f"struct node {{ int v; struct node* next; }};\nint main() {{ struct node* l = NULL; for (int i = 0; i < {nodes}; i++) {{ struct node* n = alloc(struct node);"
        f" n->v = i; n->next = l; l = n; }} int s = 0; for (int k = 0; k < {walks}; k++) {{ struct node* p = l; while (p != NULL) {{ s += p->v; p = p->next; }} }} return s; }}")


def scanned_array(ints=256_000, scans=4):
    return scans * sum(i % 100 for i in range(ints)), ints // 64, (
        f"int main() {{ int[] a = alloc_array(int, {ints}); for (int i = 0; i < {ints}; i++) {{ a[i] = i % 100; }} int s = 0;"
        f" for (int k = 0; k < {scans}; k++) {{ for (int i = 0; i < {ints}; i++) {{ s += a[i]; }} }} return s; }}")


def sieve(most=128_000):
    out = bytearray(most)
    for i in range(2, most):
        if not out[i]:
            out[2 * i :: i] = b"\1" * len(range(2 * i, most, i))
    return out[2:].count(0), most // 64, (
        f"int main() {{ int n = {most}; bool[] out = alloc_array(bool, n); int primes = 0; for (int i = 2; i < n; i++) {{"
        " if (!out[i]) { primes++; for (int j = 2 * i; j < n; j += i) { out[j] = true; } } } return primes; }")


def product():
    n = 96
    total = sum((i + k) * (k - j) for i in range(n) for j in range(n) for k in range(n))
    return total, 4 + 4 * n, (
        f"int main() {{ int n = {n}; int[][] a = alloc_array(int[], n); int[][] b = alloc_array(int[], n); for (int i = 0; i < n; i++) {{ a[i] = alloc_array(int, n);"
        " b[i] = alloc_array(int, n); for (int j = 0; j < n; j++) { a[i][j] = i + j; b[i][j] = i - j; } } int s = 0; for (int i = 0; i < n; i++) { for (int j = 0; j < n; j++) {"
        " int c = 0; for (int k = 0; k < n; k++) { c += a[i][k] * b[k][j]; } s += c; } } return s; }")


def hash_table(keys=4_000, buckets=4_096, rounds=8):
    found = rounds * keys
    return found, keys + buckets // 64, (
        f"struct entry {{ int key; struct entry* next; }};\nint main() {{ struct entry*[] t = alloc_array(struct entry*, {buckets}); for (int i = 0; i < {keys}; i++) {{"
        f" int key = i * 14; struct entry* e = alloc(struct entry); e->key = key; e->next = t[key % {buckets}]; t[key % {buckets}] = e; }} int found = 0;"
        f" for (int k = 0; k < {2 * keys * rounds}; k++) {{ int key = k % {2 * keys} * 7; struct entry* e = t[key % {buckets}]; while (e != NULL) {{ if (e->key == key) {{ found++; }} e = e->next; }} }}"
        " return found; }")


def search_tree(nodes=4_001, step=1_009, looks=12_000):
    present = {i * step % nodes * 2 for i in range(nodes)}
    found = sum(1 for k in range(looks) if k * 37 % (2 * nodes) in present)
    return found, nodes + 1, (
        "struct node { int key; struct node* left; struct node* right; };\nint main() { struct node* root = NULL;"
        f" for (int i = 0; i < {nodes}; i++) {{ int key = i * {step} % {nodes} * 2; struct node* n = alloc(struct node); n->key = key; if (root == NULL) {{ root = n; }} else {{"
        " struct node* p = root; bool put = false; while (!put) { if (key < p->key) { if (p->left == NULL) { p->left = n; put = true; } else { p = p->left; } }"
        " else { if (p->right == NULL) { p->right = n; put = true; } else { p = p->right; } } } } } int found = 0;"
        f" for (int k = 0; k < {looks}; k++) {{ int key = k * 37 % {2 * nodes}; struct node* p = root; bool stop = false; while (p != NULL && !stop) {{"
        " if (p->key == key) { found++; stop = true; } else { if (key < p->key) { p = p->left; } else { p = p->right; } } } } return found; }")


PROGRAMS = {"list": walked_list, "scan": scanned_array, "sieve": sieve, "product": product, "hash table": hash_table, "tree": search_tree}


def seconds(program, folder, words, answer):
    """Processor seconds and seconds of one run, whose answer has to be this, and what was counted."""
    before, begun = resource.getrusage(resource.RUSAGE_CHILDREN), time.monotonic()
    ran = subprocess.run([program, "run", "--stats", "--workers", "1", *words, "a.c0"], cwd=folder, capture_output=True, text=True, check=False)
    took, after = time.monotonic() - begun, resource.getrusage(resource.RUSAGE_CHILDREN)
    if ran.stdout != f"result: {(answer + 2**31) % 2**32 - 2**31}\n":
        sys.exit(f"{' '.join(words)}: {ran.stdout}{ran.stderr}")
    return after.ru_utime + after.ru_stime - before.ru_utime - before.ru_stime, took, counted(ran.stderr)


def counted(table):
    """The numbers of the table of `--stats` that stand in a row; 0 of a mover that there is not."""
    lines = dict(line.split(": ", 1) for line in table.splitlines())
    return [int(re.search(rf"\b{name} (\d+)", lines[of])[1]) if of in lines else 0 for name, of in COUNTS]


def least(program, text, answer, words, runs, store, below):
    """The least processor seconds, and the least seconds, of so many runs, and what the first of these counted; files lie in a folder below this one."""
    with tempfile.TemporaryDirectory(dir=below) as folder:
        with open(f"{folder}/a.c0", "w") as file:
            file.write(text)
        if store == "folder":
            os.mkdir(f"{folder}/store")
            words = [*words, "--store", "store"]
        took = [seconds(program, folder, words, answer) for _ in range(runs)]
    fastest = min(took, key=lambda it: it[0])
    return fastest[0], min(it[1] for it in took), fastest[2]


def options(objects, part, movers):
    frames = max(ROOM, round(objects * part / 100) + (ROOM if part == 100 else 0))
    return ["--frames", str(frames), "--objects", str(objects + ROOM), "--evacuators", str(movers), "--fetchers", str(movers)]


def measured(program, runs, below):
    """A row for each program, way and part: its seconds, and how many times those of all local they are."""
    rows = []
    for name, made in PROGRAMS.items():
        answer, objects, text = made()
        start = least(program, NOTHING, 0, options(objects, 100, 0), runs, "memory", below)[0]
        base = None
        for store, movers in WAYS:
            for part in PARTS:
                took, wall, counts = least(program, text, answer, options(objects, part, movers), runs, store, below)
                base = base or took - start
                rows.append((name, store, movers, part, f"{took - start:.4f}", f"{wall:.4f}", f"{(took - start) / base:.2f}", *counts))
                print(*rows[-1], flush=True)
    return rows


def table(rows):
    """How many times those of all local the processor seconds are, as a table of a page."""
    times = {tuple(row[:4]): row[6] for row in rows}
    out = ["| | all local | " + " | ".join(f"{part:g} %" for part in PARTS[1:]) + " | 25 % in files | 12.5 % in files |", "|---" * (len(PARTS) + 3) + "|"]
    for name in PROGRAMS:
        for movers, told in ((0, "no mover"), (1, "one of each")):
            shown = [times[name, "memory", movers, part] for part in PARTS] + [times[name, "folder", movers, part] for part in (25, 12.5)]
            out.append(f"| {name}, {told} | " + " | ".join(shown) + " |")
    return "\n".join([*out, ""])


COLOURS = ("#1b6ca8", "#d1495b", "#2e8b57", "#8e5ea2", "#c98a00", "#555555")


def picture(rows):
    """Lines of times all local against the part that is local, both in powers of two."""
    left, top, width, height = 60, 20, 520, 280
    most = max(8, *(float(row[6]) for row in rows))
    doublings = math.ceil(math.log2(most))

    def x(part):
        return left + width * PARTS.index(part) / (len(PARTS) - 1)

    def y(times):
        return top + height * (1 - math.log2(max(times, 1)) / doublings)

    out = [f'<svg xmlns="http://www.w3.org/2000/svg" viewBox="0 0 {left + width + 110} {top + height + 60}" font-family="sans-serif" font-size="13">', '<rect width="100%" height="100%" fill="white"/>']
    for power in range(doublings + 1):
        out.append(f'<line x1="{left}" y1="{y(2**power):.1f}" x2="{left + width}" y2="{y(2**power):.1f}" stroke="#ddd"/><text x="{left - 8}" y="{y(2**power) + 4:.1f}" text-anchor="end">{2**power}</text>')
    for part in PARTS:
        out.append(f'<text x="{x(part):.1f}" y="{top + height + 20}" text-anchor="middle">{part:g} %</text>')
    out.append(f'<text x="{left + width / 2}" y="{top + height + 45}" text-anchor="middle">part of the heap that is local</text>')
    out.append(f'<text x="16" y="{top + height / 2}" text-anchor="middle" transform="rotate(-90 16 {top + height / 2})">times as long as all local</text>')
    names = list(dict.fromkeys(row[0] for row in rows))
    ends = sorted((y(float([row[6] for row in rows if row[0] == name][-1])), name) for name in names)
    label = {}
    for at, name in ends:
        label[name] = max(at, max(label.values(), default=0) + 15)
    for name, colour in zip(names, COLOURS):
        points = " ".join(f"{x(row[3]):.1f},{y(float(row[6])):.1f}" for row in rows if row[0] == name)
        out.append(f'<polyline points="{points}" fill="none" stroke="{colour}" stroke-width="2"/><text x="{left + width + 8}" y="{label[name] + 4:.1f}" fill="{colour}">{name}</text>')
    return "\n".join([*out, "</svg>", ""])


def main():
    if len(sys.argv) not in (3, 4) or not os.path.isdir(sys.argv[2]) or not (len(sys.argv) == 3 or (sys.argv[3].isdigit() and int(sys.argv[3]) > 0)):
        sys.exit(__doc__)
    rows = measured(os.path.abspath(sys.argv[1]), int(sys.argv[3]) if len(sys.argv) == 4 else 5, sys.argv[2])
    with open(f"{sys.argv[2]}/local_memory.csv", "w", newline="") as file:
        writer = csv.writer(file)
        writer.writerow(("program", "store", "movers of each sort", "part local", "processor seconds", "seconds", "times all local", *HEADINGS))
        writer.writerows(rows)
    with open(f"{sys.argv[2]}/local_memory.md", "w") as file:
        file.write(table(rows))
    with open(f"{sys.argv[2]}/local_memory.svg", "w") as file:
        file.write(picture([row for row in rows if row[1] == "memory" and row[2] == 1]))


if __name__ == "__main__":
    main()
