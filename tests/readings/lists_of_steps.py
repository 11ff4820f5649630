#!/usr/bin/env python3
"""Writes the rows of walks of `crates/run_tests`: usage: tests/readings/lists_of_steps.py > crates/run_tests/data/walks.rows

small_world.py, which calls no program of ours, tells how many walks, states and refused events there are."""

from itertools import product
from multiprocessing import Pool

from forged_images import NAMES, READ, STRUCT, TWICE
from small_world import World


# walks, those to the end, states, and events that are not enabled
NOTHING = (0, 0, 0, 0)


def added(one, other):
    return tuple(a + b for a, b in zip(one, other))


def tried(world, line):
    return (0, 0, 1, 0) if world.step(line) else (0, 0, 0, 1)


def taken_often(world, lines):
    """What is counted where each of these lines is tried so often."""
    counts = NOTHING
    for line, count in lines:
        for _ in range(count):
            counts = added(counts, tried(world, line))
    return counts


def letter_taken(world, lines):
    """The world where the first of these lines that is enabled was taken, if one is, and what is counted."""
    other = world.copy()
    for refused, line in enumerate(lines):
        if other.step(line):
            return other, (0, 0, 1, refused)
    return None, (0, 0, 0, len(lines))


def finish(world, rest):
    other, counts = world.copy(), NOTHING
    while True:
        round = NOTHING
        for line in rest:
            round = added(round, tried(other, line))
        counts = added(counts, round)
        if round[2] == 0:
            return added(counts, (1, int(other.running() == 0), 0, 0))


class Walks:
    """All lists of letters from a world on. What is counted from a world on is kept, since the same world is met by many lists."""

    def __init__(self, letters, rest):
        self.letters, self.rest, self.kept, self.worlds = letters, rest, {}, set()

    def count(self, world, length):
        key = (length, world.key())
        self.worlds.add(key[1])
        if key not in self.kept:
            self.kept[key] = self.count_anew(world, length)
        return self.kept[key]

    def count_anew(self, world, length):
        counts, others = NOTHING, []
        for lines in self.letters if length else []:
            other, more = letter_taken(world, lines)
            counts = added(counts, more)
            others += [other] if other else []
        for other in others:
            counts = added(counts, self.count(other, length - 1))
        return counts if others else added(counts, finish(world, self.rest))


def counted(row, code, cells, numbers):
    """The counts of these numbers of the lines before all others, and the worlds that the lists lead to."""
    sizes = [row.get(name, least) for name, least in (("programs", 1), ("frames", 1), ("objects", 1), ("evacuators", 0), ("fetchers", 0))]
    world, walks = World(code, cells, *sizes), Walks(row.get("letters", []), row.get("rest", []))
    counts = taken_often(world, [(line, count) for (_, line), count in zip(row["before"], numbers)])
    return added(counts, walks.count(world, row.get("lists", 0))), walks.worlds


def bounds(often):
    least, _, most = str(often).partition("..")
    return range(int(least), int(most or least) + 1)


def code_and_cells(image):
    return image["functions"][0]["blocks"][0][1], image.get("size", 64)


def tell(pool, row, image):
    numbers = list(product(*[bounds(often) for often, _ in row["before"]]))
    found = pool.starmap(counted, [(row, *code_and_cells(image), one) for one in numbers])
    walks, ended, states, refused = (sum(one) for one in zip(*(counts for counts, _ in found)))
    title = row["title"] + (f": {len(set().union(*(worlds for _, worlds in found)))} worlds" if "lists" in row else "")
    lines = [f"image {NAMES[id(image)]}"] * row.get("programs", 1) + [f"{name} {row[name]}" for name in ("frames", "objects", "evacuators", "fetchers", "lists", "result") if name in row]
    lines += [f"stored {one}" for one in row["stored"]] + [f"{often} {line}" for often, line in row["before"]]
    lines += [f"letter {number} {line}" for number, letter in enumerate(row.get("letters", [])) for line in letter] + [f"rest {line}" for line in row.get("rest", [])]
    print("\n".join([f"== {title}", *lines, "--", f"{walks} walks, {ended} to the end", f"{states} states, 0 wrong; {refused} events not enabled"]), flush=True)


WRITTEN = [(5, "p0"), (1, "p0 claim 0"), (68, "p0")]
AWAY = [*WRITTEN, (1, "e0 mark 0 0"), (67, "e0")]
FIVE = {"result": 5, "stored": ["0 5 0 0 5"]}
STRUCT_ROWS = [
    FIVE | {"title": "an evacuator does k lines behind its mark, and then the program goes on", "frames": 2, "evacuators": 1,
            "before": [*WRITTEN, (1, "e0 mark 0 0"), ("0..67", "e0")], "rest": ["p0", "p0 claim 1"]},
    FIVE | {"title": "the same, where the program does some lines before the evacuator ends", "frames": 2, "evacuators": 1,
            "before": [*WRITTEN, (1, "e0 mark 0 0"), ("0..67", "e0"), ("0..4", "p0"), (67, "e0")], "rest": ["p0", "p0 claim 0", "p0 claim 1"]},
    FIVE | {"title": "an evacuator tries to have a clean object leave, at each line of the program", "frames": 2, "evacuators": 1, "frames": 2, "evacuators": 1,
            "before": [*AWAY, (2, "p0"), (1, "p0 claim 1"), ("0..68", "p0"), ("0..1", "e0 leave 0 1"), ("0..1", "e0")], "rest": ["p0", "p0 claim 0"]},
    FIVE | {"title": "a fetcher does k lines, the program opens, and then both go on", "frames": 3, "evacuators": 1, "fetchers": 1,
            "before": [*AWAY, ("0..1", "f0 begin 0"), ("0..1", "f0 claim 1"), ("0..67", "f0"), ("0..2", "p0")], "rest": ["p0", "p0 claim 2", "f0"]},
    FIVE | {"title": "the program does k lines from its open on, and then a fetcher tries", "frames": 3, "evacuators": 1, "fetchers": 1,
            "before": [*AWAY, ("0..2", "p0"), ("0..1", "p0 claim 1"), ("0..67", "p0"), (1, "f0 begin 0"), (1, "f0 claim 2"), (1, "f0")],
            "rest": ["p0", "p0 claim 1", "f0"]},
    FIVE | {"title": "two evacuators race for one object", "frames": 2, "evacuators": 2,
            "before": [*WRITTEN, ("0..1", "e0 mark 0 0"), ("0..67", "e0"), (1, "e1 mark 0 0"), ("0..67", "e1")], "rest": ["p0", "p0 claim 0", "p0 claim 1", "e0", "e1"]},
]

SIX = {"result": 6, "stored": ["0 5 0 0 5", "0 9 0 0 6", "0 11 0 1 6"], "frames": 2}
FIRST = [(5, "p0"), (1, "p0 claim 0"), (21, "p0")]
MOVED = [*FIRST, (1, "e0 mark 0 0"), (19, "e0")]
BACK = [*MOVED, (2, "p0"), (1, "p0 claim 0"), ("17..18", "p0")]
PROGRAM = [["p0", "p0 claim 0"], ["p0 claim 1"]]
EVACUATOR = ["e0", "e0 mark 0 0"]
TWICE_ROWS = [
    SIX | {"title": "mark and commit against open and begin_write", "evacuators": 1, "lists": 12, "before": [*FIRST, (1, "e0 mark 0 0"), ("12..18", "e0")],
           "letters": [*PROGRAM, EVACUATOR], "rest": ["p0", "p0 claim 0", "p0 claim 1"]},
    SIX | {"title": "the same with two evacuators", "evacuators": 2, "lists": 12, "before": [*FIRST, (1, "e0 mark 0 0"), (15, "e0")],
           "letters": [*PROGRAM, EVACUATOR, ["e1", "e1 mark 0 0"]]},
    SIX | {"title": "begin of a fetcher against begin of the owner", "evacuators": 1, "fetchers": 1, "lists": 12, "before": MOVED,
           "letters": [*PROGRAM, ["f0", "f0 begin 0"], ["f0 claim 0"], ["f0 claim 1"]]},
    SIX | {"title": "begin_write against leave", "evacuators": 1, "lists": 10, "before": BACK, "letters": [*PROGRAM, EVACUATOR, ["e0 leave 0 0"]]},
]

ONCE = [(5, "p0"), (1, "p0 claim 0"), (20, "p0"), (1, "e0 mark 0 0"), (19, "e0"), (2, "p0"), (1, "p0 claim 0"), ("18..20", "p0")]
READ_ROWS = [
    FIVE | {"title": "leave against open", "frames": 2, "evacuators": 1, "lists": 12, "before": ONCE, "letters": [*PROGRAM, ["e0", "e0 leave 0 0"]]},
    FIVE | {"title": "leave, and a fetcher, against open", "frames": 2, "evacuators": 1, "fetchers": 1, "lists": 12, "before": [*ONCE[:-1], (19, "p0")],
            "letters": [["p0", "p0 claim 0"], ["e0", "e0 leave 0 0"], ["f0 claim 1", "f0", "f0 begin 0"]]},
]


def main():
    print("Steps of the programs of images, and how many walks and states there are: written by tests/readings/lists_of_steps.py.")
    with Pool() as pool:
        for image, rows in ((STRUCT, STRUCT_ROWS), (TWICE, TWICE_ROWS), (READ, READ_ROWS)):
            for row in rows:
                tell(pool, row, image)


main()
