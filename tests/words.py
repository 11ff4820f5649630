"""What is told of words: the version, help, and mistakes, each by a sentence of its own; and of files that are too long for a text."""

import os
import re

from process import MEBIBYTE, want

HERE = os.path.dirname(os.path.realpath(__file__))
TEXT = "int main() { return 7; }\n"
LONG = 1048577
SHORT_NUMBER = "a number below 4,294,967,296"
LONG_NUMBER = "a number below 18,446,744,073,709,551,616"

FAULTS = (*range(10, 13), *range(20, 23), *range(30, 49), 50)

# words, and what is told of them in front of the page of help
MISTAKES = (
    ("run --frames -5 a.c0", f"--frames wants {SHORT_NUMBER}, not -5"),
    ("run --frames 4294967296 a.c0", f"--frames wants {SHORT_NUMBER}, not 4294967296"),
    ("run --frames=8x a.c0", f"--frames wants {SHORT_NUMBER}, not 8x"),
    ("run --frames= a.c0", f"--frames wants {SHORT_NUMBER}"),
    ("run a.c0 --quantum", f"--quantum wants {SHORT_NUMBER}"),
    ("run --fail-from x a.c0", f"--fail-from wants {LONG_NUMBER}, not x"),
    ("run --level 2 a.c0", "--level wants 0 or 1, not 2"),
    ("run --piece 17 a.c0", "--piece wants 16, 32, 64, 128 or 256, not 17"),
    ("run --store -d a.c0", "--store wants a folder, not -d"),
    ("run --live a.c0 b.c0", "--live takes one FILE"),
    ("run --live=1 a.c0", "--live wants no value, not 1"),
    ("replay --live --schedule s a.c0", "there is no option --live"),
    ("run --stats a.c0 --stats", "--stats is given twice"),
    ("run --stats=1 a.c0", "--stats wants no value, not 1"),
    ("replay --stats --schedule s a.c0", "there is no option --stats"),
    ("run --where a.c0 --where", "--where is given twice"),
    ("run --where=1 a.c0", "--where wants no value, not 1"),
    ("replay --where --schedule s a.c0", "there is no option --where"),
    ("list --where a.c0", "there is no option --where"),
    ("mean --where=1 --turns 1 a.c0", "--where wants no value, not 1"),
    ("mean --where --turns 1 --where a.c0", "--where is given twice"),
    ("run --memory x a.c0", f"--memory wants {SHORT_NUMBER}, not x"),
    ("mean --turns 1 a.c0 --memory", f"--memory wants {SHORT_NUMBER}"),
    ("replay --memory 1 --schedule s a.c0", "there is no option --memory"),
    ("run --", "run wants a FILE"),
    ("run", "run wants a FILE"),
    ("run -d -d a.c0", "-d is given twice"),
    ("run --frames 8 a.c0 --frames=9", "--frames is given twice"),
    ("run a.c0 --turns 5", "there is no option --turns"),
    ("run -dx a.c0", "there is no option -dx"),
    ("check a b", "check takes one FILE, and b is one more"),
    ("check a -- -b", "check takes one FILE, and -b is one more"),
    ("check -- a --level", "check takes one FILE, and --level is one more"),
    ("check -d a.c0", "there is no option -d"),
    ("mean a.c0", f"mean wants --turns with {LONG_NUMBER}"),
    ("mean --turns +1 a.c0", f"--turns wants {LONG_NUMBER}, not +1"),
    ("build a.c0", "build wants -o with a file"),
    ("build -oa.c0i", "build wants a FILE"),
    ("build -do", "-o wants a file"),
    ("replay a.c0", "replay wants --schedule with a file"),
    ("walk a.c0", "there is no command walk"),
    ("", "a command is wanted"),
    ("help bogus", "there is no help on bogus; there is on a command, a fault's number or name, `faults`, `images` and `stops`"),
)


def version_is_that_of_the_changes(it):
    with open(os.path.join(HERE, os.pardir, "CHANGELOG.md"), encoding="utf-8") as file:
        number = re.search(r"(?m)^## (\S+)", file.read())[1]
    it.check("--version", out=f"c0far {number}\n")


def each_mistake_is_named(it):
    for words, told in MISTAKES:
        status, out, err = it.run(*words.split())
        first = err.decode().split("\n")[0]
        want((status, out, first) == (2, b"", f"c0far: {told}"), f"{words}: {first}")


def options_stand_anywhere(it):
    it.write("a.c0", TEXT)
    for words in ("run a.c0 -d --frames 8", "run --frames=8 -d a.c0", "run -d -- a.c0", "mean a.c0 --turns 9"):
        it.check(*words.split(), out="result: 7\n")
    for words in ("build -do a.c0i a.c0", "build -oa.c0i a.c0 -d", "build -o=a.c0i -- a.c0"):
        it.check(*words.split())


def help_has_each_fault(it):
    """A fault's page, by its number and by its name, with a text that has it where the page says."""
    for number in FAULTS:
        status, out, page = it.run("help", str(number))
        want((status, out) == (2, b"") and page.startswith(f"fault {number} ".encode()), f"help {number}")
        name = page.decode().split("\n")[0].split()[2]
        want(it.run("help", name) == (status, out, page), f"help {name} is not help {number}")
        text = re.search(r"A text that has it, at (\S+):\n  (.*)\n", page.decode())
        if text:
            it.write("a.c0", text[2] + "\n")
            level = ("--level", "1") if number == 48 else ()
            it.check("check", *level, "a.c0", status=2, err=f"a.c0:{text[1]}: fault {number} {name}\n")


def help_lists_the_faults_and_stops(it):
    _, _, page = it.run("help", "faults")
    listed = re.findall(r"(?m)^(\d+) (\w+)", page.decode())
    want(len(listed) == len(FAULTS), f"{len(listed)} faults are listed")
    for number, name in listed:
        want(it.run("help", number)[2].startswith(f"fault {number} {name}\n".encode()), f"help {number}")
    _, _, page = it.run("help", "stops")
    for line in ("result: N", "null fault", "no objects", "store failed", "cut", "running", "--objects N"):
        want(line in page.decode(), f"help stops has no {line}")


def help_is_within_80_columns(it):
    for topic in ("", "build", "check", "list", "mean", "replay", "run", "faults", "images", "stops", *map(str, FAULTS)):
        for line in it.run("help", *topic.split())[2].decode().split("\n"):
            want(len(line) <= 80, f"help {topic} has a line of {len(line)} columns: {line}")


def a_file_is_read_up_to_the_limit_of_texts(it):
    """One of 3 GiB that takes no room on the disk, and a device that never ends."""
    with open(it.path("long.c0"), "wb") as file:
        file.truncate(3 << 30)
    os.symlink("/dev/zero", it.path("zero.c0"))
    for name in ("long.c0", "zero.c0"):
        for words in (("check",), ("run",), ("list",), ("mean", "--turns", "9"), ("build", "-o", "a.c0i")):
            it.check(*words, name, status=2, err=f"{name}:1:{LONG}: fault 22 TooLarge\n", memory=256 * MEBIBYTE, seconds=10)


def a_text_may_have_as_many_bytes_as_the_limit(it):
    it.write("a.c0", TEXT + " " * (LONG - 1 - len(TEXT)))
    it.check("run", "a.c0", out="result: 7\n")
    it.write("a.c0", TEXT + " " * (LONG - len(TEXT)))
    it.check("run", "a.c0", status=2, err=f"a.c0:2:{LONG - len(TEXT)}: fault 22 TooLarge\n")
    it.write("a.c0", TEXT.encode() + b" " * (LONG - len(TEXT) - 1) + b"\x80")
    it.check("run", "a.c0", status=2, err=f"a.c0:2:{LONG - len(TEXT)}: fault 10 BadByte\n")


TESTS = (
    version_is_that_of_the_changes,
    each_mistake_is_named,
    options_stand_anywhere,
    help_has_each_fault,
    help_lists_the_faults_and_stops,
    help_is_within_80_columns,
    a_file_is_read_up_to_the_limit_of_texts,
    a_text_may_have_as_many_bytes_as_the_limit,
)
