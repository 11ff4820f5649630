#!/usr/bin/env python3
"""Writes the rows of forged images of `crates/run_tests`: usage: tests/readings/forged.py > crates/run_tests/data/forged.rows

The images are forged here as they are there, and image_reading.py, which calls no program of ours, tells what becomes of each. It takes some minutes."""

from collections import Counter
from multiprocessing import Pool

from forged_images import ALL, NAMES, STRUCT, image_bytes
from image_reading import Reader, outcome

PARTS = 5


def beginnings(data, _):
    return [(0, data[0], [(0, end)]) for end in range(len(data))]


def exchanges(data, places):
    pairs = [(one, other) for at, one in enumerate(places) for other in places[at + 1 :]]
    return [(0, data[0], [(0, b), (d, e), (c, d), (b, c), (e, len(data))]) for (_, b, c), (_, d, e) in pairs]


def drops(data, places):
    return [(count, data[count] - 1, [(0, start), (end, len(data))]) for count, start, end in places]


def doubles(data, places):
    return [(count, data[count] + 1, [(0, end), (start, len(data))]) for count, start, end in places]


def joined(data, forgery):
    at, value, parts = forgery
    held = data[:at] + bytes([value]) + data[at + 1 :]
    return b"".join(held[start:end] for start, end in parts)


def changed(data):
    return [data[:at] + bytes([value]) + data[at + 1 :] for at in range(len(data)) for value in range(256) if value != data[at]]


def written(forgery):
    at, value, parts = forgery
    return " ".join(map(str, ["forged", at, value, *[number for part in [*parts, *[(0, 0)] * (PARTS - len(parts))] for number in part]]))


def row(pool, title, image, objects, forged, lines):
    found = pool.starmap(outcome, [(one, objects) for one in forged], chunksize=500)
    counts = Counter(end for end, _, _ in found)
    print("\n".join([f"== {title}: {len(forged)} images", f"image {NAMES[id(image)]}", "frames 4", f"objects {objects}", *lines, "--"]))
    print("\n".join(f"{end}: {count}" for end, count in counts.items()))
    print(f"results come to {sum(result for _, result, _ in found)}, {sum(completed for _, _, completed in found)} completed")


def rows(pool, image, objects):
    data = image_bytes(image)
    reader = Reader(data)
    reader.image()
    row(pool, "each byte is changed to each other value", image, objects, changed(data), [])
    for title, forge in (("its beginnings", beginnings), ("two instructions are exchanged", exchanges), ("an instruction is dropped", drops), ("an instruction is doubled", doubles)):
        forgeries = forge(data, reader.places)
        row(pool, title, image, objects, [joined(data, one) for one in forgeries], [written(one) for one in forgeries])


def main():
    print("What becomes of images that are forged of another: written by tests/readings/forged.py.")
    with Pool() as pool:
        rows(pool, STRUCT, 1)
        rows(pool, ALL, 2)


if __name__ == "__main__":
    main()
