"""Each allocation of a command refused in turn, all from one on, memory that is limited, and threads that cannot be made.

Each answer is the one that the command gives with ample memory, or its want: `out of memory` and status 3, where of each program's output there is a
beginning that ends between two instructions. No run ends by a signal or takes 20 seconds, what it leaves in its folder is whole, and of its memory it keeps
nothing, but for a block of the C library for each thread that it made.
"""

import itertools
import os
import shutil
import subprocess
from concurrent.futures import ThreadPoolExecutor
from contextlib import suppress
from dataclasses import dataclass

from process import Failure
from refusing import Refusing, from_on, make_library, only

WANT = b"out of memory\n"
FAILED = b"store failed\n"
WANTED = 3
BUILT = "out.c0i"
MOST = 5


@dataclass(frozen=True)
class Program:
    """A text, what its instructions print in turn, and its last line, without contracts and with them."""

    text: str
    prints: tuple
    plain: str
    checked: str

    def last(self, checks):
        return (self.checked if checks else self.plain).encode()

    def status(self, checks):
        return 0 if self.last(checks).startswith(b"result: ") else 1

    def beginnings(self):
        return ["".join(self.prints[:count]).encode() for count in range(len(self.prints) + 1)]


def printing(text, *prints, plain, checked=None):
    return Program(text, prints, plain, checked or plain)


def body(statements, before=""):
    return f"{before}int main() {{ {statements} }}\n"


NODE = "struct node { int v; struct node* next; }; "
CONIO = "#use <conio>\n"
PROGRAMS = {
    "bounds": printing(body("int[] A = alloc_array(int, 1); A[1] = 1/0; return 0;"), plain="bounds fault"),
    "list": printing(
        body(
            "struct node* l = NULL; for (int i = 0; i < 1000; i++) { struct node* n = alloc(struct node); n->v = i; n->next = l; l = n; } "
            "int s = 0; while (l != NULL) { s += l->v; l = l->next; } return s;",
            NODE,
        ),
        plain="result: 499500",
    ),
    "prints": printing(body('println("a"); assert(false); println("b"); return 0;', CONIO), "a\n", plain="assertion failed"),
    "contracts": printing(
        "int f(int n) /*@requires n > 0;@*/ /*@ensures \\result > n;@*/ { return n + 1; } int main() { return f(0); }\n", plain="result: 1", checked="assertion failed"
    ),
    "lines": printing(body('for (int i = 0; i < 40; i++) { print("0123456789"); } println("!"); return 0;', CONIO), *["0123456789"] * 40, "!\n", plain="result: 0"),
    "says": printing(body('print("ab"); error("a text that is longer than a word"); return 0;', CONIO), "ab", plain="error: a text that is longer than a word"),
    "calls": printing(body("return f(40);", "int f(int n) { if (n == 0) { return 0; } return 1 + f(n - 1); } "), plain="result: 40"),
    "endless": printing(body('while (true) { print("0123456789"); } return 0;', CONIO), plain="running"),
    "moved": printing(
        body("int* p = alloc(int); *p = 5; int* q = alloc(int); *q = 6; int s = 0; for (int i = 0; i < 2; i++) { s += *p + *q; } return s;"), plain="result: 22"
    ),
    "shown": printing(body('print("ab"); int* p = alloc(int); *p = 7; printint(*p); println("!"); return *p;', CONIO), "ab", "7", "!\n", plain="result: 7"),
}
ROWS = ("bounds", "list", "prints", "contracts")
OTHERS = ("lines", "says", "calls")
# How many lines of a schedule each takes to its end, without contracts and with them.
LINES = {"bounds": (5, 5), "prints": (4, 4), "contracts": (8, 5)}
# Two programs, an evacuator that moves an object out and sees another refused, and a fetcher that brings the object in again.
MOVED = """6 p0; p0 claim 0; 5 p0; 8 p1; p1 claim 1; 3 p1; 21 p0; p0 claim 2; 8 p0; 12 p1; e0 look 1; e0 mark 0 0; 9 e0; 3 p1; 10 e0; f0 begin 0; f0 claim 4; 18 f0;
20 p0; e0 leave 0 4; 30 p0; 13 p1; e0 mark 2 1; 19 e0; f0 begin 2; f0 claim 0; 4 f0"""


def lines_of(told):
    """The lines of a schedule, where a number before one says how often it comes."""
    lines = []
    for item in told.replace("\n", " ").split("; "):
        many, _, rest = item.partition(" ")
        lines += [rest] * int(many) if many.isdigit() else [item]
    return "".join(f"{line}\n" for line in lines)


@dataclass(frozen=True)
class Row:
    """A command: its words, the programs of its files, whether it shows their ends, and what it says if not, where the sweep knows it."""

    name: str
    words: tuple
    programs: tuple
    checks: bool = False
    shows: bool = False
    says: bytes | None = None
    wants: tuple = (WANT,)
    schedule: str = ""
    before: bytes | None = None

    def ends(self):
        """What the command shows of each program: its whole end, or any of its wants."""
        told = []
        for name in self.programs:
            program = PROGRAMS[name]
            begun = program.beginnings()
            told.append((ended(begun[-1], program.last(self.checks) + b"\n"), {ended(it, want) for it in begun for want in self.wants}))
        return told

    def status(self):
        return max(PROGRAMS[name].status(self.checks) for name in self.programs)

    def shown(self):
        """Each text that the command may show, with how many programs are in want."""
        shown = {}
        for choice in itertools.product(*[[(whole, 0), *[(it, 1) for it in wanted]] for whole, wanted in self.ends()]):
            headed = len(choice) > 1
            text = b"".join((b"program %d:\n" % number if headed else b"") + it for number, (it, _) in enumerate(choice))
            shown[text] = sum(wants for _, wants in choice)
        return shown


def ended(output, last):
    return output + (b"\n" if output and not output.endswith(b"\n") else b"") + last


class Folder:
    """The files of a row, in a folder of its own: texts, their images, a schedule, and a folder for a store. Others may use it."""

    def __init__(self, program, place, row):
        self.place = place
        self.row = row
        os.mkdir(place)
        os.chmod(place, 0o777)
        for name in row.programs:
            self.write(f"{name}.c0", PROGRAMS[name].text.encode())
            flag = ("-d",) if row.checks else ()
            subprocess.run([program, "build", *flag, "-o", f"{name}.c0i", f"{name}.c0"], cwd=place, check=True)
        self.write("turns.schedule", row.schedule.encode())
        os.mkdir(os.path.join(place, "store"))
        os.chmod(os.path.join(place, "store"), 0o777)
        self.names = self.left()

    def path(self, name):
        return os.path.join(self.place, name)

    def write(self, name, what):
        with open(self.path(name), "wb") as file:
            file.write(what)

    def built(self):
        """What the command has built, None where there is no such file."""
        if not os.path.exists(self.path(BUILT)):
            return None
        with open(self.path(BUILT), "rb") as file:
            return file.read()

    def reset(self):
        """The file that the command is to build is not there, or is what it was before."""
        if self.row.before is not None:
            self.write(BUILT, self.row.before)
        elif os.path.exists(self.path(BUILT)):
            os.remove(self.path(BUILT))

    def empty_store(self):
        for name in os.listdir(self.path("store")):
            os.remove(self.path(os.path.join("store", name)))

    def left(self):
        return sorted(name for name in os.listdir(self.place) if name != BUILT)


class Enough(Exception):
    """So many answers of a row were wrong that no more are looked at."""


class Swept:
    """A row and what it does with ample memory, which is what the row wants."""

    def __init__(self, command, folder, row):
        self.command = command
        self.folder = folder
        self.row = row
        self.shown = row.shown() if row.shows else {}
        self.complaints = []
        folder.reset()
        self.whole = command.run()
        self.built = folder.built()
        if not self.is_wanted():
            self.complain("with ample memory", self.whole)

    def is_wanted(self):
        """Whether ample memory gives what the row wants."""
        status, out, err = self.whole.answer()
        if self.row.shows:
            return (status, self.shown.get(out), err) == (self.row.status(), 0, b"")
        return (status, err) == (0, b"") and self.row.says in (None, out)

    def complain(self, how, told):
        self.complaints.append(f"{self.row.name}, {how}: {told.status} {told.out[:120]!r} {told.err[:120]!r}")
        if len(self.complaints) == MOST:
            raise Enough

    def is_answer(self, told, wants):
        """Whether this is the whole answer, or want of memory, for which at most so many programs may have it."""
        if told.answer() == self.whole.answer():
            return True
        if told.status != WANTED or wants == 0:
            return False
        if told.err == WANT:
            return not told.out
        return not told.err and 0 < self.shown.get(told.out, 0) <= wants

    def is_left_whole(self, told):
        """Whether what is built is whole where the answer is, else whole or as it was; and nothing else is left."""
        built = [self.built] if told.answer() == self.whole.answer() else [self.built, self.row.before]
        return self.folder.built() in built and self.folder.left() == self.folder.names

    def run(self, how, wants, **limits):
        """One run with these limits, judged."""
        if self.built is not None:
            self.folder.reset()
        told = self.command.run(**limits)
        if ("allocations" in limits and not told.refused) or ("threads" in limits and not told.threads_refused):
            wants = 0
        if not self.is_answer(told, wants):
            self.complain(how, told)
        elif told.kept > told.threads:
            self.complain(f"{how}, {told.kept} blocks kept", told)
        elif not self.is_left_whole(told):
            self.complain(f"{how}, left {self.folder.left()} and {len(self.folder.built() or b'')} bytes built", told)
        return told


def numbers_of(calls, many):
    """Each number from 1 on; where there are many calls, a thousand of them at equal steps, the last 500, and those behind."""
    if calls <= many:
        return itertools.count(1)
    return itertools.chain(range(1, calls - 500, calls // 1000), itertools.count(calls - 499))


def once(swept):
    for number in numbers_of(swept.whole.calls, 6000):
        if not swept.run(f"allocation {number} refused", 1, allocations=only(number)).refused:
            return


def for_good(swept):
    for number in numbers_of(swept.whole.calls, 5000):
        if not swept.run(f"all from allocation {number} on refused", len(swept.row.programs), allocations=from_on(number)).refused:
            return


def readable(swept):
    """Behind each run of which an allocation was refused, one with ample memory over the same files."""
    for number in itertools.count(1):
        if not swept.run(f"allocation {number} refused", 1, allocations=only(number)).refused:
            return
        again = swept.command.run()
        if again.answer() != swept.whole.answer():
            swept.complain(f"behind allocation {number} refused", again)


def in_spaces(swept):
    """Forty limits of the address space, from next to nothing above what there is at the beginning to what is ample."""
    before = swept.command.space()
    for step in range(40):
        space = before + int(16384 * 1.4**step)
        told = swept.run(f"an address space of {space} bytes", len(swept.row.programs), space=space)
    if told.answer() != swept.whole.answer():
        swept.complain("the largest address space", told)


def without_threads(swept):
    """Each thread refused in turn, all from one on, and all by a limit of processes. None is wanted."""
    for how, refused in (("thread {} refused", only), ("all from thread {} on refused", from_on)):
        for number in itertools.count(1):
            if not swept.run(how.format(number), 0, threads=refused(number)).threads_refused:
                break
    swept.folder.empty_store()
    told = swept.run("a limit of processes", 0, alone=True)
    if told.threads == 0 or told.threads_refused < told.threads:
        swept.complain(f"a limit of processes, {told.threads_refused} of {told.threads} threads refused", told)


def flags(checks):
    return ("-d",) if checks else ()


def room(name):
    """So many objects that no command makes more than a few thousand allocations."""
    return ("--objects", "1000", "--frames", "6") if name == "list" else ("--objects", "4")


def meanings(name, checks):
    """Checked, a long run is cut, since it is the same run as the other."""
    turns = "300" if checks and name == "list" else "5000"
    words = ("mean", *flags(checks), "--turns", turns, f"{name}.c0")
    return Row(f"mean {name}", words, (name,), checks, shows=turns == "5000", says=b"cut\n")


def builds(file, name, checks=False):
    words = ("build", *flags(checks), "-o", BUILT, file)
    return [Row(f"build {file}", words, (name,), checks, says=b"", before=before) for before in (None, b"what was there")]


def looks(file, name):
    return [Row(f"{command} {file}", (command, file), (name,), says=says) for command, says in (("check", b"ok\n"), ("list", None))]


def running(file, name, checks=False):
    return Row(f"run {file}", ("run", *flags(checks), *room(name), file), (name,), checks, shows=True)


def lived(file, name):
    return Row(f"run --live {file}", ("run", "--live", *room(name), file), (name,), shows=True)


def replayed(file, name, checks=False):
    """Some lines, enough for the end of all but the list."""
    lines = "13 p0; p0 claim 0; 83 p0; p0 claim 1; 65 p0" if name == "list" else f"{LINES[name][checks]} p0"
    words = ("replay", *flags(checks), *room(name), "--schedule", "turns.schedule", file)
    return Row(f"replay {file}", words, (name,), checks, shows=name != "list", says=b"running\n", schedule=lines_of(lines))


def compiled():
    """The commands that compile a text and run nothing."""
    both = [row for name in ROWS for checks in (False, True) for row in [*builds(f"{name}.c0", name, checks), meanings(name, checks)]]
    return both + [row for name in ROWS for row in looks(f"{name}.c0", name)]


def run():
    """The commands that run compiled texts."""
    both = [row(f"{name}.c0", name, checks) for name in ROWS for checks in (False, True) for row in (running, replayed)]
    return both + [running(f"{name}.c0", name) for name in OTHERS] + [lived(f"{name}.c0", name) for name in (*ROWS, *OTHERS)]


def images():
    """The commands over images in place of texts."""
    return [row for name in ROWS for file in (f"{name}.c0i",) for row in [*builds(file, name), *looks(file, name), running(file, name), replayed(file, name)]]


def side_by_side():
    words = ("run", "--objects", "2000", "--frames", "12", "list.c0", "list.c0")
    return Row("run list twice", words, ("list", "list"), shows=True)


def in_files():
    """Most objects stay in their frames, since each store call opens a file."""
    words = ("run", "--objects", "1000", "--frames", "960", "--store", "store", "list.c0")
    return Row("run list over files", words, ("list",), shows=True, wants=(WANT, FAILED))


def by_default():
    return Row("run list by default", ("run", "list.c0"), ("list",), shows=True)


def with_movers():
    words = ("replay", "--piece", "16", "--frames", "6", "--objects", "4", "--schedule", "turns.schedule", "moved.c0", "shown.c0")
    return Row("replay of two programs with movers", words, ("moved", "shown"), shows=True, schedule=lines_of(MOVED))


def growing():
    """A replay that grows on and on: each turn of its loop is five instructions, of which one prints."""
    words = ("replay", "--objects", "4", "--schedule", "turns.schedule", "endless.c0")
    said = ended(b"0123456789" * 12_000, b"running\n")
    return Row("replay of endless.c0", words, ("endless",), says=said, schedule="p0\n" * 60_000)


def sweep(it, how, rows):
    """Each of these rows swept so, side by side."""
    library = make_library(it.folder)

    def one(numbered):
        number, row = numbered
        folder = Folder(it.program, it.path(str(number)), row)
        with Refusing(library, it.program, folder.place, row.words) as command, suppress(Enough):
            swept = Swept(command, folder, row)
            how(swept)
        shutil.rmtree(folder.place)
        return swept.complaints

    with ThreadPoolExecutor(os.cpu_count()) as pool:
        complaints = [it for told in pool.map(one, enumerate(rows)) for it in told]
    if complaints:
        raise Failure(f"{len(complaints)} answers are wrong, the first of them:\n" + "\n".join(complaints[:20]))


def in_memory():
    return [*compiled(), *run(), *images(), side_by_side(), with_movers()]


def everything():
    return [*in_memory(), in_files()]


def allocations_refused_in_turn(it):
    """The longest first, so that the others are swept beside it."""
    sweep(it, once, [by_default(), *in_memory()])


def a_store_in_files_refused_in_turn(it):
    sweep(it, readable, [in_files()])


def memory_refused_for_good(it):
    sweep(it, for_good, everything())


def little_address_space(it):
    sweep(it, in_spaces, [*everything(), growing()])


def threads_refused(it):
    sweep(it, without_threads, [row for row in everything() if row.words[0] in ("mean", "run")])


TESTS = [
    allocations_refused_in_turn,
    a_store_in_files_refused_in_turn,
    memory_refused_for_good,
    little_address_space,
    threads_refused,
]
