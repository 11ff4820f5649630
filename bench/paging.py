#!/usr/bin/env python3
"""What far memory costs beside the system's own paging: paging.py PROGRAM FOLDER [WAY..]

The six programs of `local_memory.py`, with heaps of 8 to 31 MiB, in C0 and in C. The C programs are written here from the same numbers and print the same answers.
Each piece of 64 cells of 8 bytes, the row that the runtime moves, is 512 bytes of theirs, one piece behind the other: so both heaps have as many bytes, and what
differs is the unit that moves, a piece or a page. A C program's memory is limited by a control group to what it takes without a heap, and a part of its heap;
where the system can free none of that, it ends the program (`out of memory`).
    paging          C; the swap file is on the disk of FOLDER
    paging-memory   C; the swap file is in memory: a loop device over a file of a ramfs
    files           C0, over files in FOLDER, without a mover; `files-movers` is beside one evacuator and one fetcher
    files-limited   the same as `files-movers`, in a control group too: it has what a run that does nothing takes, and 4 MiB for the files that the system keeps
    memory-movers   C0, over the store in memory, beside one evacuator and one fetcher
All of these, or each WAY that is named. The product is one of 2 rows by 512 by 4,096, since one of square matrices that large would take hours. A run is ended
after 60 seconds of the processor, or 300 in all. It prints each run, and leaves `paging.csv` in FOLDER. Control groups (version 1, or 2) and swap want root. Swap files,
groups and mounts are taken down at the end, also after an interrupt.
"""
import contextlib
import csv
import os
import shutil
import signal
import subprocess
import sys
import tempfile
import time

from local_memory import hash_table, options, scanned_array, search_tree, sieve, walked_list

PARTS = (100, 50, 12.5)
WAYS = ("paging", "paging-memory", "files", "files-movers", "files-limited", "memory-movers")
MOST_SECONDS, MOST_SPENT = 300, 60
SWAP_BYTES = 256 << 20
KEPT_BYTES = 4 << 20
PIECE_BYTES = 512
NOTHING = "int main() { return 0; }"

NODES, WALKS = 60_000, 6
INTS, SCANS = 4_096_000, 2
MOST = 1_024_000
ROWS, INNER, COLUMNS = 2, 512, 4_096
KEYS, BUCKETS, ROUNDS = 60_000, 65_536, 1
TREE_NODES, TREE_STEP, LOOKS = 60_013, 22_922, 20_000

# What stands before each C program. Its pieces lie one behind the other in one mapping.
C_HEAD = """
#include <stdio.h>
#include <sys/mman.h>
typedef long cell;
static char *next_piece;
static void *pieces(long cells) { char *it = next_piece; next_piece += (cells + 63) / 64 * %d; return it; }
static int run(void);
int main(void) {
    next_piece = mmap(0, %d, PROT_READ | PROT_WRITE, MAP_PRIVATE | MAP_ANONYMOUS, -1, 0);
    if (next_piece == MAP_FAILED) return 1;
    printf("result: %%d\\n", run());
    return 0;
}
"""

C_LIST = """
struct node { cell v; struct node *next; };
static int run(void) {
    struct node *l = 0;
    for (int i = 0; i < %d; i++) { struct node *n = pieces(2); n->v = i; n->next = l; l = n; }
    unsigned s = 0;
    for (int k = 0; k < %d; k++) for (struct node *p = l; p; p = p->next) s += p->v;
    return s;
}
"""

C_SCAN = """
static int run(void) {
    cell *a = pieces(%d);
    for (int i = 0; i < %d; i++) a[i] = i %% 100;
    unsigned s = 0;
    for (int k = 0; k < %d; k++) for (int i = 0; i < %d; i++) s += a[i];
    return s;
}
"""

C_SIEVE = """
static int run(void) {
    int n = %d, primes = 0;
    cell *out = pieces(n);
    for (int i = 2; i < n; i++) if (!out[i]) { primes++; for (int j = 2 * i; j < n; j += i) out[j] = 1; }
    return primes;
}
"""

C_PRODUCT = """
enum { ROWS = %d, INNER = %d, COLUMNS = %d };
static int run(void) {
    cell **a = pieces(ROWS), **b = pieces(INNER);
    for (int i = 0; i < ROWS; i++) { a[i] = pieces(INNER); for (int j = 0; j < INNER; j++) a[i][j] = i + j; }
    for (int i = 0; i < INNER; i++) { b[i] = pieces(COLUMNS); for (int j = 0; j < COLUMNS; j++) b[i][j] = i - j; }
    unsigned s = 0;
    for (int i = 0; i < ROWS; i++) for (int j = 0; j < COLUMNS; j++) { unsigned c = 0; for (int k = 0; k < INNER; k++) c += (unsigned)a[i][k] * (unsigned)b[k][j]; s += c; }
    return s;
}
"""

C_HASH = """
enum { KEYS = %d, BUCKETS = %d, ROUNDS = %d };
struct entry { cell key; struct entry *next; };
static int run(void) {
    struct entry **t = pieces(BUCKETS);
    for (int i = 0; i < KEYS; i++) { int key = i * 14; struct entry *e = pieces(2); e->key = key; e->next = t[key %% BUCKETS]; t[key %% BUCKETS] = e; }
    int found = 0;
    for (int k = 0; k < 2 * KEYS * ROUNDS; k++) { int key = k %% (2 * KEYS) * 7; for (struct entry *e = t[key %% BUCKETS]; e; e = e->next) if (e->key == key) found++; }
    return found;
}
"""

C_TREE = """
enum { NODES = %d, STEP = %d, LOOKS = %d };
struct node { cell key; struct node *left, *right; };
static int run(void) {
    struct node *root = 0;
    for (int i = 0; i < NODES; i++) {
        int key = i * STEP %% NODES * 2;
        struct node *n = pieces(3), **at = &root;
        n->key = key;
        while (*at) at = key < (*at)->key ? &(*at)->left : &(*at)->right;
        *at = n;
    }
    int found = 0;
    for (int k = 0; k < LOOKS; k++) {
        int key = k * 37 %% (2 * NODES);
        struct node *p = root;
        while (p && p->key != key) p = key < p->key ? p->left : p->right;
        if (p) found++;
    }
    return found;
}
"""


def product_of(rows, inner, columns):
    """The answer, the objects and the C0 text of a product of two matrices of these sizes."""
    total = sum((i + k) * (k - j) for i in range(rows) for j in range(columns) for k in range(inner))
    objects = -(-rows // 64) - (-inner // 64) - rows * (-inner // 64) - inner * (-columns // 64)
    return total, objects, (
        f"int main() {{ int[][] a = alloc_array(int[], {rows}); int[][] b = alloc_array(int[], {inner});"
        f" for (int i = 0; i < {rows}; i++) {{ a[i] = alloc_array(int, {inner}); for (int j = 0; j < {inner}; j++) {{ a[i][j] = i + j; }} }}"
        f" for (int i = 0; i < {inner}; i++) {{ b[i] = alloc_array(int, {columns}); for (int j = 0; j < {columns}; j++) {{ b[i][j] = i - j; }} }}"
        f" int s = 0; for (int i = 0; i < {rows}; i++) {{ for (int j = 0; j < {columns}; j++) {{ int c = 0; for (int k = 0; k < {inner}; k++) {{ c += a[i][k] * b[k][j]; }} s += c; }} }} return s; }}")


PROGRAMS = {
    "list": (walked_list(NODES, WALKS), C_LIST % (NODES, WALKS)),
    "scan": (scanned_array(INTS, SCANS), C_SCAN % (INTS, INTS, SCANS, INTS)),
    "sieve": (sieve(MOST), C_SIEVE % MOST),
    "product": (product_of(ROWS, INNER, COLUMNS), C_PRODUCT % (ROWS, INNER, COLUMNS)),
    "hash table": (hash_table(KEYS, BUCKETS, ROUNDS), C_HASH % (KEYS, BUCKETS, ROUNDS)),
    "tree": (search_tree(TREE_NODES, TREE_STEP, LOOKS), C_TREE % (TREE_NODES, TREE_STEP, LOOKS)),
}


class Ran:
    """What a run came to: its last line, its seconds, those of the processor, and how many pages were read for it."""

    def __init__(self, words, folder, group=None):
        command = ["sh", "-c", f'ulimit -t {MOST_SPENT} && echo $$ > "$0" && exec "$@"', group.processes if group else "/dev/null", *words]
        begun = time.monotonic()
        process = subprocess.Popen(command, cwd=folder, stdout=subprocess.PIPE, stderr=subprocess.STDOUT)
        watch = signal.setitimer(signal.ITIMER_REAL, MOST_SECONDS)
        try:
            said = process.stdout.read().decode().splitlines()
            self.ended = True
        except TimeoutError:
            said, self.ended = [], False
        except BaseException:
            process.kill()
            process.wait()
            raise
        finally:
            signal.setitimer(signal.ITIMER_REAL, *watch)
        if not self.ended:
            process.kill()
        _, self.status, usage = os.wait4(process.pid, 0)
        process.stdout.close()
        self.seconds, self.spent, self.faults = time.monotonic() - begun, usage.ru_utime + usage.ru_stime, usage.ru_majflt
        self.said = said[-1] if said else ""


def too_long(*_):
    raise TimeoutError


def mount_of(kind, option):
    """Where a file system of this kind is mounted, with this option where one is told."""
    with open("/proc/mounts", encoding="utf-8") as file:
        rows = [line.split() for line in file]
    return next((row[1] for row in rows if row[2] == kind and (not option or option in row[3].split(","))), None)


class Group:
    """A control group of this limit of memory in bytes, or of none. Swap has no limit."""

    def __init__(self, limit):
        first, second = mount_of("cgroup", "memory"), mount_of("cgroup2", None)
        if not first and not second:
            sys.exit("there is no control group of memory here")
        self.path = f"{first or second}/c0far_paging_{os.getpid()}"
        if not first:
            write(f"{second}/cgroup.subtree_control", "+memory")
        os.mkdir(self.path)
        self.processes = f"{self.path}/cgroup.procs"
        self.peak = f"{self.path}/{'memory.max_usage_in_bytes' if first else 'memory.peak'}"
        if limit:
            write(f"{self.path}/{'memory.limit_in_bytes' if first else 'memory.max'}", str(limit))

    def __enter__(self):
        return self

    def __exit__(self, *_):
        for _ in range(100):
            with contextlib.suppress(OSError):
                os.rmdir(self.path)
                return
            time.sleep(0.05)
        print(f"{self.path} could not be removed", file=sys.stderr)

    def most(self):
        """The most bytes that it had at once."""
        with open(self.peak, encoding="ascii") as file:
            return int(file.read())


def write(path, text):
    with open(path, "w", encoding="ascii") as file:
        file.write(text)


def call(*words):
    return subprocess.run(words, check=True, capture_output=True, text=True).stdout.strip()


@contextlib.contextmanager
def swap_on(path):
    """The file or device of this path as the place to which memory is paged."""
    call("mkswap", path)
    call("swapon", path)
    try:
        yield
    finally:
        call("swapoff", path)


def swap_file(folder):
    path = f"{folder}/swap"
    with open(path, "wb") as file:
        os.posix_fallocate(file.fileno(), 0, SWAP_BYTES)
    os.chmod(path, 0o600)
    return path


@contextlib.contextmanager
def swap_in_memory(folder):
    """A loop device over a file of a ramfs, whose memory is itself never paged out."""
    place = f"{folder}/ramfs"
    os.mkdir(place)
    call("mount", "-t", "ramfs", "none", place)
    try:
        with open(f"{place}/swap", "wb") as file:
            for _ in range(SWAP_BYTES >> 20):
                file.write(bytes(1 << 20))
        device = call("losetup", "--find", "--show", f"{place}/swap")
        try:
            yield device
        finally:
            call("losetup", "--detach", device)
    finally:
        call("umount", place)


@contextlib.contextmanager
def swap_of(way, folder):
    """The swap that this way of running wants, if any."""
    with contextlib.ExitStack() as down:
        if way == "paging":
            down.enter_context(swap_on(swap_file(folder)))
        if way == "paging-memory":
            down.enter_context(swap_on(down.enter_context(swap_in_memory(folder))))
        yield


def compiled(folder, text, heap):
    """The C program, with a mapping of so many bytes."""
    with open(f"{folder}/a.c", "w", encoding="ascii") as file:
        file.write(C_HEAD % (PIECE_BYTES, heap) + text)
    call("cc", "-O2", "-w", "-o", f"{folder}/a.out", f"{folder}/a.c")
    return [f"{folder}/a.out"]


def by_paging(folder, name, part):
    """A run of a program in C, of which so many hundredths of the heap fit into its memory."""
    (_, objects, _), text = PROGRAMS[name]
    heap = objects * PIECE_BYTES
    with Group(None) as group:
        Ran(compiled(folder, "static int run(void) { return 0; }", heap), folder, group)
        base = group.most()
    words = compiled(folder, text, heap)
    with Group(None if part == 100 else base + int(heap * part / 100)) as group:
        return Ran(words, folder, group)


def by_store(program, folder, name, part, way):
    """A run of a program in C0, of which so many hundredths of the objects are in frames."""
    (_, objects, text), _ = PROGRAMS[name]
    write(f"{folder}/a.c0", text)
    write(f"{folder}/nothing.c0", NOTHING)
    words = [program, "run", "--workers", "1", *options(objects, part, 0 if way == "files" else 1)]
    if not way.startswith("memory"):
        os.mkdir(f"{folder}/store")
        words += ["--store", "store"]
    if way != "files-limited" or part == 100:
        return Ran([*words, "a.c0"], folder)
    with Group(None) as group:
        Ran([*words, "nothing.c0"], folder, group)
        base = group.most()
    with Group(base + KEPT_BYTES) as group:
        return Ran([*words, "a.c0"], folder, group)


def told(ran, answer):
    """The seconds of a run that told the right answer, or what became of it."""
    if not ran.ended or ran.status == signal.SIGXCPU:
        return f"more than {ran.seconds:.0f}"
    if ran.said == f"result: {(answer + 2**31) % 2**32 - 2**31}":
        return f"{ran.seconds:.3f}"
    return "out of memory" if ran.status == signal.SIGKILL else f"{ran.said}, status {os.waitstatus_to_exitcode(ran.status)}"


def measured(program, folder, ways):
    """A row for each way, program and part."""
    for way in ways:
        with tempfile.TemporaryDirectory(dir=folder) as room, swap_of(way, room):
            for name, ((answer, _, _), _) in PROGRAMS.items():
                for part in PARTS:
                    with tempfile.TemporaryDirectory(dir=room) as inner:
                        ran = by_paging(inner, name, part) if way.startswith("paging") else by_store(program, inner, name, part, way)
                    yield name, way, part, told(ran, answer), f"{ran.spent:.3f}", ran.faults


def main():
    if len(sys.argv) < 3 or not os.path.isdir(sys.argv[2]) or not set(sys.argv[3:]) <= set(WAYS):
        sys.exit(__doc__)
    if os.geteuid() != 0 or not shutil.which("cc"):
        sys.exit("it wants root, for control groups and swap, and a C compiler")
    signal.signal(signal.SIGTERM, lambda *_: sys.exit(1))
    signal.signal(signal.SIGALRM, too_long)
    folder = os.path.realpath(sys.argv[2])
    with open(f"{folder}/paging.csv", "w", newline="", encoding="ascii") as file:
        writer = csv.writer(file)
        writer.writerow(("program", "way", "part local", "seconds", "processor seconds", "pages read"))
        for row in measured(os.path.abspath(sys.argv[1]), folder, sys.argv[3:] or WAYS):
            writer.writerow(row)
            file.flush()
            print(*row, flush=True)


if __name__ == "__main__":
    main()
