"""A program whose memory is refused: a library that stands between it and the C library forks it once for each run, before its `main`.

So a run costs no start of a process: a sweep over each allocation of a command is some thousand runs. The library is made by the clang of Rattle's kit,
which the tests of the program cannot do without, and from a text that needs no header.
"""

import os
import struct
import subprocess
from dataclasses import dataclass

BETWEEN = r"""
typedef unsigned long size;
typedef struct { long first, last, first_thread, last_thread, space, alone; } Order;
typedef struct { long calls, refused, threads, threads_refused, kept; } Counts;
typedef struct { long status, out, err; Counts counts; } Answer;
typedef struct { unsigned long now, most; } Limit;
enum { SECONDS = 20, NOBODY = 61234, UNLIMITED = 99 };
enum { NO_MEMORY = 12, AGAIN = 11, ADDRESS_SPACE = 9, PROCESSES = 6, CORE = 4, SHARED = 1, NOBODYS = 32, READ_WRITE = 3, LAST = 2 };

extern void *__libc_malloc(size), *__libc_calloc(size, size), *__libc_realloc(void *, size), *__libc_memalign(size, size);
extern void __libc_free(void *);
extern void *dlsym(void *, const char *), *mmap(void *, size, int, int, int, long);
extern char *getenv(const char *);
extern long read(int, void *, size), write(int, const void *, size), lseek(int, long, int), pread(int, void *, size, long);
extern int *__errno_location(void), atoi(const char *), fork(void), waitpid(int, int *, int), dup2(int, int), open(const char *, int, ...), close(int),
    memfd_create(const char *, unsigned), ftruncate(int, long), setrlimit(int, const Limit *), geteuid(void), setuid(unsigned);
extern unsigned alarm(unsigned);
extern void _exit(int);

static Counts *counts;
static Order order;

static int is_refused(long *number, long *refused, long first, long last) {
    long it = __atomic_add_fetch(number, 1, __ATOMIC_SEQ_CST);
    if (it < first || it > last) return 0;
    __atomic_add_fetch(refused, 1, __ATOMIC_SEQ_CST);
    return 1;
}

static int no_memory(void) {
    if (!counts || !is_refused(&counts->calls, &counts->refused, order.first, order.last)) return 0;
    *__errno_location() = NO_MEMORY;
    return 1;
}

static void *given(void *block) {
    if (counts && block) __atomic_add_fetch(&counts->kept, 1, __ATOMIC_SEQ_CST);
    return block;
}

void *malloc(size many) { return no_memory() ? 0 : given(__libc_malloc(many)); }
void *calloc(size many, size each) { return no_memory() ? 0 : given(__libc_calloc(many, each)); }
void *realloc(void *old, size many) {
    if (no_memory()) return 0;
    return old ? __libc_realloc(old, many) : given(__libc_realloc(old, many));
}
void *aligned_alloc(size align, size many) { return no_memory() ? 0 : given(__libc_memalign(align, many)); }
void *memalign(size align, size many) { return aligned_alloc(align, many); }
int posix_memalign(void **place, size align, size many) {
    *place = aligned_alloc(align, many);
    return *place ? 0 : NO_MEMORY;
}
void free(void *block) {
    if (counts && block) __atomic_sub_fetch(&counts->kept, 1, __ATOMIC_SEQ_CST);
    __libc_free(block);
}

int pthread_create(void *thread, const void *how, void *(*body)(void *), void *given) {
    int (*next)(void *, const void *, void *(*)(void *), void *) = dlsym((void *)-1L, "pthread_create");
    if (counts && is_refused(&counts->threads, &counts->threads_refused, order.first_thread, order.last_thread)) return AGAIN;
    int refused = next(thread, how, body, given);
    if (counts && refused) __atomic_add_fetch(&counts->threads_refused, 1, __ATOMIC_SEQ_CST);
    return refused;
}

static void all(long (*call)(int, void *, size), int file, void *bytes, long many) {
    for (long done = 0; done < many;) {
        long moved = call(file, (char *)bytes + done, many - done);
        if (moved <= 0) _exit(moved < 0);
        done += moved;
    }
}

static long write_out(int file, void *bytes, size many) { return write(file, bytes, many); }

static void begin(int out, int err) {
    Limit none = {0, 0}, one = {1, 1}, space = {order.space, order.space};
    dup2(open("/dev/null", 0), 0), dup2(out, 1), dup2(err, 2);
    int failed = setrlimit(CORE, &none);
    if (order.space) failed |= setrlimit(ADDRESS_SPACE, &space);
    if (order.alone) failed |= setrlimit(PROCESSES, &one);
    if (order.alone && geteuid() == 0) failed |= setuid(NOBODY);
    if (failed) _exit(UNLIMITED);
    alarm(SECONDS);
}

static void hand_over(int answers, int file, long many) {
    char bytes[4096];
    for (long at = 0, got; at < many && (got = pread(file, bytes, sizeof bytes, at)) > 0; at += got) all(write_out, answers, bytes, got);
}

/* Each order is one run: the child goes on to `main`. */
__attribute__((constructor)) static void serve(void) {
    const char *names = getenv("REFUSING");
    if (!names) return;
    int orders = atoi(names), answers = atoi(getenv("ANSWERING")), out = memfd_create("out", 0), err = memfd_create("err", 0), status;
    Counts *shared = mmap(0, sizeof *shared, READ_WRITE, SHARED | NOBODYS, -1, 0);
    for (;;) {
        all(read, orders, &order, sizeof order);
        *shared = (Counts){0, 0, 0, 0, 0};
        ftruncate(out, 0), ftruncate(err, 0), lseek(out, 0, 0), lseek(err, 0, 0);
        int child = fork();
        if (child == 0) {
            close(orders), close(answers), begin(out, err);
            counts = shared;
            return;
        }
        if (child < 0 || waitpid(child, &status, 0) != child) _exit(1);
        Answer answer = {status, lseek(out, 0, LAST), lseek(err, 0, LAST), *shared};
        all(write_out, answers, &answer, sizeof answer);
        hand_over(answers, out, answer.out), hand_over(answers, err, answer.err);
    }
}
"""

ANSWER = struct.Struct("8l")
NONE = (-1, -1)


def make_library(folder):
    """The library, in this folder."""
    source, library = os.path.join(folder, "between.c"), os.path.join(folder, "between.so")
    kit = os.path.dirname(subprocess.run(["rt", "doc"], capture_output=True, text=True, check=True).stdout.strip())
    with open(source, "w", encoding="utf-8") as file:
        file.write(BETWEEN)
    tools = os.path.join(kit, "toolchain", "bin")
    flags = ["--target=x86_64-unknown-linux-gnu", "-O1", "-w", "-fPIC", "-ffreestanding", "-shared", "-nostdlib", f"-fuse-ld={tools}/ld.lld"]
    subprocess.run([f"{tools}/clang", *flags, "-o", library, source], check=True)
    return library


@dataclass(frozen=True)
class Told:
    """What a run did: its status, or minus the signal that ended it, what it wrote, how many allocations and threads it asked for and was refused, and how
    many blocks it was given and has not given back."""

    status: int
    out: bytes
    err: bytes
    calls: int
    refused: int
    threads: int
    threads_refused: int
    kept: int

    def answer(self):
        return self.status, self.out, self.err


def only(number):
    return number, number


def from_on(number):
    return number, 1 << 60


class Refusing:
    """A command, each run of which may be refused memory."""

    def __init__(self, library, program, folder, words):
        orders, self.orders = os.pipe()
        self.answers, answers = os.pipe()
        shared = {**os.environ, "LD_PRELOAD": library, "REFUSING": str(orders), "ANSWERING": str(answers)}
        self.process = subprocess.Popen([program, *words], cwd=folder, env=shared, pass_fds=(orders, answers))
        os.close(orders)
        os.close(answers)

    def __enter__(self):
        return self

    def __exit__(self, *_):
        os.close(self.orders)
        os.close(self.answers)
        self.process.wait()

    def space(self):
        """How many bytes of address space it has before its `main`."""
        with open(f"/proc/{self.process.pid}/statm", encoding="ascii") as file:
            return int(file.read().split()[0]) * os.sysconf("SC_PAGESIZE")

    def run(self, allocations=NONE, threads=NONE, space=0, alone=False):
        """One run: the first and the last of its allocations and of its threads that are refused; how many bytes of address space it has, 0 for any number;
        and whether a limit of processes keeps it from making a thread, for which it is run by nobody, since root has no such limit."""
        os.write(self.orders, struct.pack("6l", *allocations, *threads, space, alone))
        status, out, err, *counts = ANSWER.unpack(self._read(ANSWER.size))
        return Told(os.waitstatus_to_exitcode(status), self._read(out), self._read(err), *counts)

    def _read(self, many):
        read = b""
        while len(read) < many:
            more = os.read(self.answers, many - len(read))
            if not more:
                raise OSError("the library between the program and its memory ended")
            read += more
        return read
