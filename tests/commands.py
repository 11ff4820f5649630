"""Command lines over a real folder: what stands in it before and after, what each writes to its two streams, and its status.

A scene is a folder with some files, and command lines that follow one another in it. Behind each the folder holds just the files that it held before and those that
the line says.
"""

import os
import re
import resource
import shutil
import signal
import struct
import subprocess
import threading

from process import MEBIBYTE, want

SCRIPT = os.path.join(os.path.dirname(os.path.dirname(os.path.realpath(__file__))), "c0far")

SEVEN = "int main() { return 7; }\n"
UNKNOWN = "int main() { return x; }\n"
PRINTS = '#use <conio>\nint main() { print("one"); println(" two"); printint(-3); printchar(\'\\n\'); printbool(true); println(""); return 0; }\n'
PRINTED = "one two\n-3\ntrue\n"
ENDLESS = '#use <conio>\nint main() { int i = 0; while (true) { printint(i); println(""); i = i + 1; } return 0; }\n'
SILENT = '#use <conio>\nint main() { println("begun"); while (true) { } return 0; }\n'
CONTRACT = "int f(int x) //@requires x > 0;\n{ return x; }\nint main() { return f(0); }\n"
LEVEL_ONE = "int main() { int i = 0; while (true) { i = i + 1; if (i == 5) { break; } } return i; }\n"
CALLS = "int f(int n) { return f(n + 1) + 1; }\nint main() { return f(0); }\n"
LINES = '#use <conio>\nint main() { while (true) { println("one line more, and then one more, and so on"); } return 0; }\n'
CELLS = "struct cell { struct cell* next; }; int main() { struct cell* list = NULL; while (true) { struct cell* one = alloc(struct cell); one->next = list; list = one; } return 0; }\n"
ARRAY = "int main() { int[] a = alloc_array(int, 2000000000); return 7; }\n"
# ten objects are read and one is written in turn, which is held in the second frame, or in the first one
HELD_BEHIND = "int main() { int[] a = alloc_array(int, 640); int[] b = alloc_array(int, 1); for (int i = 0; i < 640; i++) { a[i] = i; } for (int i = 0; i < 640; i++) { b[0] = b[0] + a[i]; } return b[0]; }\n"
HELD_BEFORE = HELD_BEHIND.replace("b[0] + a[i]", "a[i] + b[0]")
STOPS = (
    ("null", "int main() { int* p = NULL; return *p; }\n", "null fault"),
    ("bounds", "int main() { int[] a = alloc_array(int, 3); return a[3]; }\n", "bounds fault"),
    ("length", "int main() { int[] a = alloc_array(int, 0 - 1); return 0; }\n", "length fault"),
    ("arithmetic", "int main() { int z = 0; return 1 / z; }\n", "arithmetic fault"),
    ("assertion", "int main() { assert(false); return 0; }\n", "assertion failed"),
    ("error", 'int main() { error("no more"); return 0; }\n', "error: no more"),
)
# the column of what stops each, and the numbers that are told of it
PLACES = {"null": (36, ""), "bounds": (52, " (index 3, length 3)"), "length": (41, " (length -1)"), "arithmetic": (32, ""), "assertion": (21, ""), "error": (20, "")}
# two pieces in one frame: the first is put, and is read again when more has been printed than a pipe holds
FILLED = 40 * "-"
READ_AGAIN = f'#use <conio>\nint main() {{ int[] a = alloc_array(int, 65); a[0] = 1; a[64] = 2; println("put"); for (int i = 0; i < 4000; i++) {{ println("{FILLED}"); }} return a[0]; }}\n'
# what is counted, by whose it is
PROGRAM = ("instructions", "turns", "objects", "frames", "opened", "brought", "written", "left", "calls", "failed", "hints", "dropped")
COUNTED = {"program": PROGRAM, "evacuator": ("rounds", "left", "aborted", "failed"), "fetcher": ("brought", "dropped", "failed")}
# of SEVEN: the number, its move to the result, and the return
SCHEDULE = "p0\np0\np0\n"

# the name of a scene, its files, and its lines: words, status, output, errors, and the files that it leaves new
SCENES = (
    ("texts are checked", {"a.c0": SEVEN, "b.c0": UNKNOWN, "e.c0": "", "l.c0": LEVEL_ONE}, (
        ("check a.c0", 0, "ok\n", "", ()),
        ("check b.c0", 2, "", "b.c0:1:21: fault 30 UnknownName\n", ()),
        ("check e.c0", 2, "", "e.c0:1:1: fault 41 BadMain\n", ()),
        ("check l.c0", 2, "", "l.c0:1:65: fault 20 Syntax\n", ()),
        ("check --level 1 l.c0", 0, "ok\n", "", ()),
        ("check ./a.c0", 0, "ok\n", "", ()),
        ("check folder/../a.c0", 2, "", "folder/../a.c0: cannot be read\n", ()),
    )),
    ("files that are not there", {"d/a.c0": SEVEN}, (
        ("check a.c0", 2, "", "a.c0: cannot be read\n", ()),
        ("run a.c0", 2, "", "a.c0: cannot be read\n", ()),
        ("run a.c0i", 2, "", "a.c0i: cannot be read\n", ()),
        ("list a.c0", 2, "", "a.c0: cannot be read\n", ()),
        ("mean --turns 9 a.c0", 2, "", "a.c0: cannot be read\n", ()),
        ("build -o o.c0i a.c0", 2, "", "a.c0: cannot be read\n", ()),
        ("check d", 2, "", "d: cannot be read\n", ()),
        ("replay --schedule none d/a.c0", 2, "", "none: cannot be read\n", ()),
        ("run d/a.c0 d/b.c0", 2, "", "d/b.c0: cannot be read\n", ()),
        ("run d/a.c0", 0, "result: 7\n", "", ()),
    )),
    ("plain runs", {"a.c0": SEVEN, "p.c0": PRINTS, "c.c0": CONTRACT, "l.c0": LEVEL_ONE}, (
        ("mean --turns 1 a.c0", 0, "result: 7\n", "", ()),
        ("mean --turns 0 a.c0", 0, "cut\n", "", ()),
        ("mean --turns 1 p.c0", 0, PRINTED + "result: 0\n", "", ()),
        ("mean --turns 2 c.c0", 0, "result: 0\n", "", ()),
        ("mean -d --turns 2 c.c0", 1, "assertion failed\n", "", ()),
        ("mean --level 1 --turns 5 l.c0", 0, "cut\n", "", ()),
        ("mean --level 1 --turns 6 l.c0", 0, "result: 5\n", "", ()),
    )),
    ("runs", {"a.c0": SEVEN, "p.c0": PRINTS, "c.c0": CONTRACT, "l.c0": LEVEL_ONE}, (
        ("run a.c0", 0, "result: 7\n", "", ()),
        ("run p.c0", 0, PRINTED + "result: 0\n", "", ()),
        ("run c.c0", 0, "result: 0\n", "", ()),
        ("run -d c.c0", 1, "assertion failed\n", "", ()),
        ("run --level 1 l.c0", 0, "result: 5\n", "", ()),
        ("run a.c0 p.c0", 0, "program 0:\nresult: 7\nprogram 1:\n" + PRINTED + "result: 0\n", "", ()),
        ("run --workers 1 --quantum 1 --evacuators 0 --fetchers 0 a.c0 a.c0", 0, "program 0:\nresult: 7\nprogram 1:\nresult: 7\n", "", ()),
        ("run --frames 1 a.c0", 2, "", "too small: need 2 have 1\n", ()),
        ("run --evacuators 65 a.c0", 2, "", "too many\n", ()),
    )),
    ("runs whose output comes as it is printed", {"a.c0": SEVEN, "p.c0": PRINTS, "c.c0": CONTRACT, "s/file": "kept"}, (
        ("run --live a.c0", 0, "result: 7\n", "", ()),
        ("run --live p.c0", 0, PRINTED + "result: 0\n", "", ()),
        ("run --live --quantum 1 p.c0", 0, PRINTED + "result: 0\n", "", ()),
        ("run --live -d c.c0", 1, "assertion failed\n", "", ()),
        ("run --live --frames 1 a.c0", 2, "", "too small: need 2 have 1\n", ()),
        ("build -o p.c0i p.c0", 0, "", "", ("p.c0i",)),
        ("run --live --store s p.c0i", 0, PRINTED + "result: 0\n", "", ()),
    )),
    ("an object is held while others come and go in the one other frame", {"a.c0": HELD_BEHIND, "b.c0": HELD_BEFORE}, (
        ("run --frames 2 --evacuators 0 --fetchers 0 a.c0", 0, "result: 204480\n", "", ()),
        ("run --frames 2 --evacuators 0 --fetchers 0 b.c0", 0, "result: 204480\n", "", ()),
    )),
    ("how programs stop", {f"{name}.c0": text for name, text, _ in STOPS}, tuple(
        (f"{command} {name}.c0", 1, f"{line}\n", "", ()) for name, _, line in STOPS for command in ("run", "mean --turns 9"))),
    ("where programs stop", {f"{name}.c0": text for name, text, _ in STOPS}, tuple(
        (f"{command} --where {name}.c0", 1, f"{line}\n", f"{name}.c0:1:{PLACES[name][0]}: {line}{PLACES[name][1]}\n", ())
        for name, _, line in STOPS
        for command in ("run", "run --live", "mean --turns 9"))),
    ("where images and results stop", {"a.c0": SEVEN, "bounds.c0": STOPS[1][1]}, (
        ("run --where a.c0", 0, "result: 7\n", "", ()),
        ("mean --where --turns 1 a.c0", 0, "result: 7\n", "", ()),
        ("mean --where --turns 0 a.c0", 0, "cut\n", "", ()),
        ("build -o bounds.c0i bounds.c0", 0, "", "", ("bounds.c0i",)),
        ("run --where bounds.c0i", 1, "bounds fault\n", "", ()),
    )),
    ("a limit of memory", {"calls.c0": CALLS, "output.c0": LINES, "heap.c0": CELLS, "array.c0": ARRAY, "a.c0": SEVEN}, (
        ("run --memory 64 calls.c0", 3, "out of memory\n", "program 0: calls took more than 64 MiB\n", ()),
        ("run --where --memory 64 calls.c0", 3, "out of memory\n", "calls.c0:1:5: the last call was of f\nprogram 0: calls took more than 64 MiB\n", ()),
        ("run --live --memory 64 a.c0", 0, "result: 7\n", "", ()),
        ("mean --where --memory 64 --turns 100000000 calls.c0", 3, "", "out of memory\nprogram 0: calls took more than 64 MiB\ncalls.c0:1:5: the last call was of f\n", ()),
        ("mean --memory 4 --turns 100000000 output.c0", 3, "", "out of memory\nprogram 0: output took more than 4 MiB\n", ()),
        ("mean --memory 64 --turns 100000000 heap.c0", 3, "", "out of memory\nprogram 0: heap took more than 64 MiB\n", ()),
        ("mean --memory 64 --turns 9 array.c0", 3, "", "out of memory\nprogram 0: heap took more than 64 MiB\n", ()),
        ("mean --memory 64 --turns 9 a.c0", 0, "result: 7\n", "", ()),
        ("build -o calls.c0i calls.c0", 0, "", "", ("calls.c0i",)),
        ("run --where --memory 64 a.c0 calls.c0i", 3, "program 0:\nresult: 7\nprogram 1:\nout of memory\n", "program 1: calls took more than 64 MiB\n", ()),
    )),
    ("an image is built, and used", {"p.c0": PRINTS, "c.c0": CONTRACT}, (
        ("build -o p.c0i p.c0", 0, "", "", ("p.c0i",)),
        ("check p.c0i", 0, "ok\n", "", ()),
        ("run p.c0i", 0, PRINTED + "result: 0\n", "", ()),
        ("run p.c0i p.c0", 0, f"program 0:\n{PRINTED}result: 0\nprogram 1:\n{PRINTED}result: 0\n", "", ()),
        ("build -d -o c.c0i c.c0", 0, "", "", ("c.c0i",)),
        ("run c.c0i", 1, "assertion failed\n", "", ()),
        ("build -o again.c0i p.c0i", 0, "", "", ("again.c0i",)),
        ("run again.c0i", 0, PRINTED + "result: 0\n", "", ()),
        ("build --piece 16 -o s.c0i p.c0", 0, "", "", ("s.c0i",)),
        ("run s.c0i", 0, PRINTED + "result: 0\n", "", ()),
        ("run p.c0i s.c0i", 2, "", "piece differs: program 1\n", ()),
        ("mean --turns 9 p.c0i", 2, "", "p.c0i:1:5: fault 11 BadToken\n", ()),
    )),
    ("images that are none", {"short.c0i": b"C0FI", "other.c0i": b"C1FI", "empty.c0i": b"", "new.c0i": b"C0FI\x09\x00"}, (
        ("check short.c0i", 2, "", "short.c0i: image fault 1\n", ()),
        ("run other.c0i", 2, "", "other.c0i: image fault 2\n", ()),
        ("list empty.c0i", 2, "", "empty.c0i: image fault 1\n", ()),
        ("check new.c0i", 2, "", "new.c0i: image fault 3\n", ()),
        ("build -o out.c0i short.c0i", 2, "", "short.c0i: image fault 1\n", ()),
    )),
    ("what cannot be written", {"a.c0": SEVEN, "d/file": "kept"}, (
        ("build -o none/a.c0i a.c0", 2, "", "none/a.c0i: cannot be written\n", ()),
        ("build -o d a.c0", 2, "", "d: cannot be written\n", ()),
        ("build -o d/file/a.c0i a.c0", 2, "", "d/file/a.c0i: cannot be written\n", ()),
        ("build -o d/a.c0i a.c0", 0, "", "", ("d/a.c0i",)),
        ("run d/a.c0i", 0, "result: 7\n", "", ()),
    )),
    ("schedules", {"a.c0": SEVEN, "all": SCHEDULE, "more": SCHEDULE + "p0\n", "none": "", "wrong": "p0\nq0\n", "open": "p0\np0", "far": "p1\n"}, (
        ("replay --schedule all a.c0", 0, "result: 7\n", "", ()),
        ("replay --schedule none a.c0", 0, "running\n", "", ()),
        ("replay --schedule more a.c0", 2, "", "refused line 4\n", ()),
        ("replay --schedule wrong a.c0", 2, "", "refused line 2\n", ()),
        ("replay --schedule open a.c0", 2, "", "refused line 2\n", ()),
        ("replay --schedule far a.c0", 2, "", "refused line 1\n", ()),
        ("replay --schedule far a.c0 a.c0", 0, "program 0:\nrunning\nprogram 1:\nrunning\n", "", ()),
    )),
)


def names_in(folder):
    """Each file below the folder, with what it holds."""
    found = {}
    for at, _, files in os.walk(folder):
        for name in files:
            with open(os.path.join(at, name), "rb") as file:
                found[os.path.relpath(os.path.join(at, name), folder)] = file.read()
    return found


def play(it, scene):
    name, files, lines = scene
    for file, text in files.items():
        os.makedirs(os.path.dirname(it.path(file)), exist_ok=True)
        it.write(file, text)
    held = names_in(it.folder)
    for words, status, out, err, new in lines:
        it.check(*words.split(), status=status, out=out, err=err)
        holds = names_in(it.folder)
        want(set(holds) == set(held) | set(new), f"{name}: {words} left {sorted(holds)}")
        want(all(holds[file] == held[file] for file in held), f"{name}: {words} changed a file")
        held = holds


def played(scene):
    def test(it):
        play(it, scene)

    test.__name__ = scene[0].replace(" ", "_")
    return test


def counted(objects):
    """A text that writes its number into each of so many structs, and reads nothing again."""
    return f"int main() {{ for (int i = 0; i < {objects}; i++) {{ int* p = alloc(int); *p = i; }} return 7; }}\n"


def scan(pieces):
    """A text that writes an array of so many pieces, and reads it."""
    return (f"int main() {{ int[] a = alloc_array(int, {64 * pieces}); for (int i = 0; i < {64 * pieces}; i++) {{ a[i] = i; }}\n"
            f"int s = 0; for (int i = 0; i < {64 * pieces}; i++) {{ s += a[i]; }} return s; }}\n")


def each_call_fails_in_turn(it):
    """Of 16 objects 12 are put to make room in four frames; from call K on, no call succeeds."""
    it.write("a.c0", counted(16))
    for first in range(14):
        store = f"store{first}"
        os.mkdir(it.path(store))
        fails = 1 <= first <= 12
        words = f"run --frames 4 --evacuators 0 --fetchers 0 --store {store} --fail-from {first} a.c0"
        it.check(*words.split(), status=3 if fails else 0, out="store failed\n" if fails else "result: 7\n")
        files = os.listdir(it.path(store))
        puts = first - 1 if fails else 12
        want(len(files) == puts, f"{words} left {len(files)} files")


def an_array_in_files(it):
    """Elements i of 1,100 pieces of 64: where file K is there it holds a header of three words and the cells of one piece, each piece in one file."""
    it.write("a.c0", "int main() { int[] a = alloc_array(int, 70400); for (int i = 0; i < 70400; i++) { a[i] = i; } int s = 0; for (int i = 0; i < 70400; i += 64) { s += a[i]; } return s; }\n")
    os.mkdir(it.path("store"))
    it.check(*"run --frames 8 --evacuators 0 --fetchers 0 --store store a.c0".split(), out=f"result: {sum(range(0, 70400, 64))}\n")
    want(sorted(os.listdir(it.folder)) == ["a.c0", "store"], "a file stands beside the folder")
    pieces = set()
    for file, held in names_in(it.path("store")).items():
        want(file.isdigit() and len(held) == 8 * 67, f"{file} has {len(held)} bytes")
        owner, _, count, first, *rest = struct.unpack("<67Q", held)
        want(count == 64 and first % 64 == 0 and rest == list(range(first + 1, first + 64)), f"{file} does not hold a piece")
        want(owner == first // 64, f"{file} is of object {owner}, and holds piece {first // 64}")
        pieces.add(owner)
    want(len(pieces) == len(os.listdir(it.path("store"))) >= 1092, f"{len(pieces)} pieces are there")


def table_of(told):
    """What `--stats` told, line by line: of each program and mover the numbers by their names."""
    table = {}
    *lines, last = told.decode().splitlines()
    want(re.fullmatch(r"time: \d+ ms", last) is not None, f"the last line is {last}")
    for line in lines:
        of, numbers = line.split(": ")
        named = dict(number.split(" ") for number in numbers.split(", "))
        want(tuple(named) == COUNTED[of.split(" ")[0]], f"the line of {of} has {numbers}")
        table[of] = {name: int(number) for name, number in named.items()}
    return table


def told_beside(it, words, out, status=0):
    """The table of a run, which writes and gives what it does without one."""
    it.check(*words.split(), status=status, out=out)
    told = it.run(*words.split(), "--stats")
    want(told[:2] == (status, out.encode()), f"{words} --stats gave {told[:2]}")
    return table_of(told[2])


def what_is_counted(it):
    """Of 16 objects that are written in turn 12 are put to make room in four frames, and four are in them at last. Two pieces that are written and read again in one frame are both put, come back, and
    the first of them leaves clean. Hints of which no fetcher takes any stay in a queue of 256."""
    it.write("a.c0", counted(16))
    alone = "--frames 4 --evacuators 0 --fetchers 0 --workers 1"
    found = told_beside(it, f"run {alone} a.c0", "result: 7\n")
    want(list(found) == ["program 0"], f"the table has {list(found)}")
    whole = found["program 0"]
    want({name: whole[name] for name in PROGRAM[2:]} == dict(zip(PROGRAM[2:], (16, 4, 16, 16, 12, 0, 12, 0, 0, 0))), f"of 16 objects {whole} is told")
    want(told_beside(it, f"run --live {alone} a.c0", "result: 7\n") == found, "run --live tells another table")
    for first in range(1, 13):
        failed = told_beside(it, f"run {alone} --fail-from {first} a.c0", "store failed\n", status=3)["program 0"]
        want((failed["written"], failed["calls"], failed["failed"]) == (first - 1, first, 1), f"where call {first} fails {failed} is told")
    it.write("b.c0", scan(2))
    twice = told_beside(it, "run --frames 1 --evacuators 0 --fetchers 0 --workers 1 b.c0", f"result: {sum(range(128))}\n")["program 0"]
    want(tuple(twice[name] for name in PROGRAM[2:10]) == (2, 1, 4, 4, 2, 1, 4, 0), f"of two pieces {twice} is told")
    it.write("c.c0", scan(400))
    many = told_beside(it, "run --frames 8 --evacuators 0 --fetchers 0 c.c0", f"result: {sum(range(25600))}\n")["program 0"]
    want(many["hints"] > 256 and many["dropped"] == many["hints"] - 256, f"of 400 pieces {many} is told")


def what_is_counted_beside_movers(it):
    """Each object that was brought in and did not leave is in one of the frames; and what a program does itself is the same."""
    it.write("c.c0", scan(400))
    out = "".join(f"program {number}:\nresult: {sum(range(25600))}\n" for number in (0, 1))
    alone = told_beside(it, "run --frames 8 --evacuators 0 --fetchers 0 c.c0 c.c0", out)
    found = told_beside(it, "run --frames 16 --evacuators 2 --fetchers 2 c.c0 c.c0", out)
    want(list(found) == [f"{kind} {number}" for kind in COUNTED for number in (0, 1)], f"the table has {list(found)}")
    brought = sum(numbers.get("brought", 0) for numbers in found.values())
    left = sum(numbers.get("written", 0) + numbers.get("left", 0) for numbers in found.values())
    want(0 <= brought - left <= 16, f"{brought} objects were brought in and {left} left: {found}")
    for program in ("program 0", "program 1"):
        want(0 < found[program]["frames"] <= 16, f"{program} was in {found[program]['frames']} of 16 frames")
        for name in ("instructions", "turns", "objects", "failed"):
            want(found[program][name] == alone[program][name], f"{program} tells {found[program]}, and alone {alone[program]}")


def no_rounds_while_frames_are_free(it):
    """A program that has one object in 64 frames, and goes on for some thirty million instructions."""
    turns = 3_000_000
    it.write("a.c0", f"int main() {{ int[] a = alloc_array(int, 1); for (int i = 0; i < {turns}; i++) {{ a[0] = a[0] + i % 7; }} return a[0]; }}\n")
    found = told_beside(it, "run --evacuators 2 a.c0", f"result: {sum(i % 7 for i in range(turns))}\n")
    for evacuator in ("evacuator 0", "evacuator 1"):
        want(found[evacuator]["rounds"] == 0, f"{evacuator} tells {found[evacuator]}")


def many_programs(it):
    for number in range(256):
        it.write(f"{number}.c0", f"int main() {{ return {number}; }}\n")
    files = [f"{number}.c0" for number in range(256)]
    told = "".join(f"program {number}:\nresult: {number}\n" for number in range(256))
    for words in ("--workers 1", "--workers 4 --evacuators 0", "--workers 64 --quantum 1"):
        it.check("run", "--frames", "1024", *words.split(), *files, out=told)
    it.check("run", "--frames", "1024", *files, "0.c0", status=2, err="too many\n")


def many_instructions(it):
    """Some thirty millions of them, and each program gets its turns."""
    turns = 3_000_000
    it.write("a.c0", f"int main() {{ int s = 0; for (int i = 0; i < {turns}; i++) {{ s = s + i % 7; }} return s; }}\n")
    it.check("run", "--workers", "1", "a.c0", "a.c0", out="".join(f"program {k}:\nresult: {sum(i % 7 for i in range(turns))}\n" for k in (0, 1)))


def calls_that_nest(it):
    depth = 200_000
    it.write("a.c0", f"int down(int n) {{ if (n == 0) {{ return 0; }} return 1 + down(n - 1); }}\nint main() {{ return down({depth}); }}\n")
    it.check("mean", "--turns", str(depth + 2), "a.c0", out=f"result: {depth}\n")
    it.check("run", "a.c0", out=f"result: {depth}\n")


def what_a_limit_keeps(it):
    """Under a limit of 64 MiB an endless recursion takes that and what lists set aside to grow, and no gigabytes."""
    it.write("calls.c0", CALLS)
    room = 1200 * MEBIBYTE
    for words in ("run --memory 64 calls.c0", "mean --memory 64 --turns 100000000 calls.c0"):
        status, _, err = it.run(*words.split(), memory=room)
        want((status, err.splitlines()[-1]) == (3, b"program 0: calls took more than 64 MiB"), f"{words} within {room} bytes gave {status}, {err}")


def movers(it):
    """Whatever their number, the result is the same; where there is an evacuator, and a program leaves it time, objects leave though no frame is wanted."""
    for evacuators in range(4):
        for fetchers in range(4):
            left = 0
            for number in range(8):
                pause = 100_000 << number
                it.write("a.c0", f"int main() {{ int[] a = alloc_array(int, 3776); for (int i = 0; i < 3776; i++) {{ a[i] = i; }} int s = 0;\n"
                         f"for (int k = 0; k < {pause}; k++) {{ s = s + 1; }} for (int i = 0; i < 3776; i++) {{ s += a[i]; }} return s; }}\n")
                store = f"store{evacuators}{fetchers}{number}"
                os.mkdir(it.path(store))
                told = f"result: {pause + sum(range(3776))}\n"
                it.check(*f"run --evacuators {evacuators} --fetchers {fetchers} --store {store} a.c0".split(), out=told)
                left = len(os.listdir(it.path(store)))
                if left or not evacuators:
                    break
            want((left > 0) == (evacuators > 0), f"{evacuators} evacuators and {fetchers} fetchers left {left} files")


def started_by_the_script(it, words, most):
    """What `./c0far` gives where files have a limit of so many bytes: it keeps the signal from the program, which stands where it would have built it."""

    def limit():
        resource.setrlimit(resource.RLIMIT_FSIZE, (most, most))

    started = {**os.environ, "C0FAR_BUILD": it.path("built")}
    ran = subprocess.run([SCRIPT, *words.split()], cwd=it.path("work"), env=started, capture_output=True, stdin=subprocess.DEVNULL, timeout=60, preexec_fn=limit, check=False)
    return ran.returncode, ran.stdout, ran.stderr


def as_if_built(it):
    """The program and its stamp: the place of the sources, and what is watched."""
    os.mkdir(it.path("built"))
    os.symlink(it.program, it.path("built/c0far_program"))
    root = os.path.dirname(SCRIPT)
    at = os.stat(os.path.join(root, "crates"))
    it.write("built/stamp", f"{at.st_dev}:{at.st_ino}\nHANDLES\n")


def large_pages(it):
    """The script asks the C library for large pages, and what the user asks of it stands behind. The program runs so, too."""
    as_if_built(it)
    os.mkdir(it.path("work"))
    it.write("work/a.c0", SEVEN)
    told = started_by_the_script(it, "run a.c0", resource.RLIM_INFINITY)
    want(told == (0, b"result: 7\n", b""), f"run gave {told}")
    os.remove(it.path("built/c0far_program"))
    it.write("built/c0far_program", '#!/bin/sh\necho "$GLIBC_TUNABLES" "$@"\n')
    os.chmod(it.path("built/c0far_program"), 0o755)
    asked = "glibc.malloc.arena_max=1:glibc.malloc.hugetlb=1"
    for own, told in (("", asked), ("glibc.malloc.perturb=3", f"{asked}:glibc.malloc.perturb=3")):
        started = {**os.environ, "C0FAR_BUILD": it.path("built"), "GLIBC_TUNABLES": own}
        ran = subprocess.run([SCRIPT, "run", "a b"], env=started, capture_output=True, stdin=subprocess.DEVNULL, timeout=60, check=False)
        want((ran.returncode, ran.stdout) == (0, f"{told} run a b\n".encode()), f"with {own!r} it gave {ran.returncode}, {ran.stdout}")


def a_limit_of_the_size_of_files(it):
    """An image that is cut is no image: what was there stays, and nothing is left beside it. A file of the store that is cut is a failure of the store."""
    as_if_built(it)
    os.makedirs(it.path("work/store"))
    it.write("work/a.c0", SEVEN)
    for image in (None, "what was there"):
        if image is not None:
            it.write("work/a.c0i", image)
        held = names_in(it.path("work"))
        told = started_by_the_script(it, "build -o a.c0i a.c0", 20)
        want(told == (2, b"", b"a.c0i: cannot be written\n"), f"build gave {told}")
        want(names_in(it.path("work")) == held, f"build left {sorted(names_in(it.path('work')))}")
    it.write("work/b.c0", counted(16))
    told = started_by_the_script(it, "run --frames 4 --evacuators 0 --fetchers 0 --store store b.c0", 100)
    want(told == (3, b"store failed\n", b""), f"run gave {told}")
    shutil.rmtree(it.path("work/store"))
    os.makedirs(it.path("work/store"))
    told = started_by_the_script(it, "run --where --frames 4 --evacuators 0 --fetchers 0 --store store b.c0", 100)
    want(told == (3, b"store failed\n", b"program 0: store: cannot write object 0: no room is left\n"), f"run --where gave {told}")


def what_cannot_be_written_to_a_store(it):
    """Of sixteen objects that are written in turn the first makes room, and then the one that came in its place. What another program has under its number is neither
    followed nor replaced."""
    it.write("b.c0", counted(16))
    run = "run --where --frames 4 --evacuators 0 --fetchers 0 --store"
    it.check(*f"{run} none b.c0".split(), status=3, out="store failed\n", err="program 0: store: cannot write object 0: no such file or folder\n")
    it.check(*f"{run} b.c0 b.c0".split(), status=3, out="store failed\n", err="program 0: store: cannot write object 0: no such file or folder\n")
    os.makedirs(it.path("folder/0"))
    os.mkdir(it.path("pipe"))
    os.mkfifo(it.path("pipe/0"))
    os.mkdir(it.path("link"))
    os.symlink("../b.c0", it.path("link/0"))
    for store in ("folder", "pipe", "link"):
        it.check(*f"{run} {store} b.c0".split(), status=3, out="store failed\n", err="program 0: store: cannot write object 0: not a regular file\n")
    os.makedirs(it.path("third/4"))
    it.check(*f"{run} third b.c0".split(), status=3, out="store failed\n", err="program 0: store: cannot write object 4: not a regular file\n")


def changed_while_it_runs(it, change):
    """What a program gives of whose store the file 0 is changed, while it waits for its output to be read."""
    store = it.path("store")
    shutil.rmtree(store, ignore_errors=True)
    os.mkdir(store)
    words = "run --live --where --frames 1 --evacuators 0 --fetchers 0 --store store r.c0"
    ran = subprocess.Popen([it.program, *words.split()], cwd=it.folder, stdout=subprocess.PIPE, stderr=subprocess.PIPE, stdin=subprocess.DEVNULL, bufsize=0)
    with ran:
        watch = threading.Timer(60, ran.kill)
        watch.start()
        try:
            want(ran.stdout.readline() == b"put\n", "the program did not put")
            change(os.path.join(store, "0"))
            rest, err = ran.communicate()
        finally:
            watch.cancel()
            ran.kill()
    lines = rest.decode().splitlines()
    want(lines[:-1] == 4000 * [FILLED], f"{len(lines)} lines were printed")
    return ran.returncode, lines[-1], err.decode()


def what_cannot_be_read_from_a_store(it):
    """A file that is as it was is read; one that was cut, removed or overwritten is told."""
    it.write("r.c0", READ_AGAIN)

    def overwrite(path):
        with open(path, "r+b") as file:
            file.write(struct.pack("<Q", 5))

    failures = (
        (lambda path: os.truncate(path, 100), "cannot read object 0: not as long as it was written"),
        (os.remove, "cannot read object 0: no such file or folder"),
        (overwrite, "object 0 is not as it was written"),
    )
    told = changed_while_it_runs(it, os.stat)
    want(told == (0, "result: 1", ""), f"a file that stays gave {told}")
    for change, line in failures:
        told = changed_while_it_runs(it, change)
        want(told == (3, "store failed", f"program 0: store: {line}\n"), f"{told} is told, and not {line}")


def a_full_disk(it):
    """A small disk in memory, where one can be had."""
    if shutil.which("mount") is None:
        return
    os.mkdir(it.path("disk"))
    mounted = subprocess.run(["mount", "-t", "tmpfs", "-o", "size=16k", "none", it.path("disk")], capture_output=True, check=False).returncode == 0
    if not mounted:
        return
    try:
        it.write("a.c0", SEVEN)
        it.write("b.c0", counted(64))
        it.check("build", "-o", "disk/a.c0i", "a.c0")
        status, out, err = it.run(*"run --where --frames 4 --evacuators 0 --fetchers 0 --store disk b.c0".split())
        want((status, out) == (3, b"store failed\n") and err.startswith(b"program 0: store: cannot write object ") and err.endswith(b": no room is left\n"), f"run --where gave {out}, {err}")
        with open(it.path("disk/rest"), "wb", buffering=0) as file:
            try:
                while True:
                    file.write(b"x" * 512)
            except OSError:
                pass
        held = it.read("disk/a.c0i")
        files = set(os.listdir(it.path("disk")))
        it.check("build", "-o", "disk/a.c0i", "a.c0", status=2, err="disk/a.c0i: cannot be written\n")
        want(it.read("disk/a.c0i") == held and set(os.listdir(it.path("disk"))) == files, "a full disk was left otherwise")
        it.check("run", "disk/a.c0i", out="result: 7\n")
    finally:
        subprocess.run(["umount", "--lazy", it.path("disk")], check=False)


def output_that_nobody_takes(it):
    it.write("p.c0", PRINTS)
    it.write("endless.c0", ENDLESS)
    for words in ("run p.c0", "run --stats p.c0", "run --live p.c0", "run --live endless.c0", "mean --turns 9 p.c0", "check p.c0", "list p.c0"):
        with open("/dev/full", "wb") as full:
            ran = subprocess.run([it.program, *words.split()], cwd=it.folder, stdout=full, stderr=subprocess.PIPE, stdin=subprocess.DEVNULL, timeout=60, check=False)
        want(ran.returncode == 2, f"{words} gave {ran.returncode}, {ran.stderr}")


def may_be_interrupted():
    """A shell has the programs that it starts in the background ignore interrupts, and so would those that they start."""
    signal.signal(signal.SIGINT, signal.SIG_DFL)


def read_while_it_runs(it, words, lines):
    """Reads these lines of a program that never ends, and not a byte more, and interrupts it then; what it wrote besides."""
    ran = subprocess.Popen([it.program, *words.split()], cwd=it.folder, stdout=subprocess.PIPE, stderr=subprocess.PIPE, stdin=subprocess.DEVNULL, bufsize=0, preexec_fn=may_be_interrupted)
    with ran:
        watch = threading.Timer(60, ran.kill)
        watch.start()
        try:
            read = [ran.stdout.readline() for _ in lines]
            want(read == lines, f"{words} wrote {read[:3]} ..")
            want(ran.poll() is None, f"{words} has ended")
            ran.send_signal(signal.SIGINT)
            rest, err = ran.communicate()
        finally:
            watch.cancel()
            ran.kill()
    want((ran.returncode, err) == (-signal.SIGINT, b""), f"{words} gave {ran.returncode}, {err}")
    return rest


def lines_of_a_program_without_an_end(it):
    """They are there while it runs, and an interrupt leaves them."""
    it.write("silent.c0", SILENT)
    it.write("endless.c0", ENDLESS)
    want(read_while_it_runs(it, "run --live silent.c0", [b"begun\n"]) == b"", "silent.c0 wrote more")
    for words in ("run --live endless.c0", "run --live --quantum 1 endless.c0"):
        rest = read_while_it_runs(it, words, [f"{number}\n".encode() for number in range(100)])
        whole = "".join(f"{number}\n" for number in range(100, 100 + len(rest))).encode()
        want(whole.startswith(rest), f"{words} wrote {rest[:40]} ..")


TESTS = [
    *map(played, SCENES),
    each_call_fails_in_turn,
    an_array_in_files,
    what_is_counted,
    what_is_counted_beside_movers,
    no_rounds_while_frames_are_free,
    many_programs,
    many_instructions,
    calls_that_nest,
    what_a_limit_keeps,
    movers,
    large_pages,
    a_limit_of_the_size_of_files,
    what_cannot_be_written_to_a_store,
    what_cannot_be_read_from_a_store,
    a_full_disk,
    output_that_nobody_takes,
    lines_of_a_program_without_an_end,
]
