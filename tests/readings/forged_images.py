#!/usr/bin/env python3
"""Images by hand, and the bytes of each as docs/IMAGES.md has them: usage: tests/readings/forged_images.py > crates/run_tests/data/swept_images.rows"""

from image_reading import AIMED, ARR, BOOL, CHAR, FACTS, INSIDE, INT, NONE, NONNULL, OFF, OPERANDS, PTR, SHUT, TEXT
from listing import listing

# allocates an int, stores 5 in it, loads it and returns it
STRUCT = {"version": 1, "texts": [], "layouts": [[(INT,)]], "functions": [
    {"result": (INT,), "parameters": 0, "kinds": [(PTR, 0), (INT,)], "scopes": 1, "blocks": [([(SHUT, 0)], [
        (0x40, 0, 0), (0x01, 1, 5), (0x30, 0), (0x33, 0, 0, None, 0), (0x35, 0, 1), (0x36, 0), (0x33, 0, 0, None, 0), (0x34, 1, 0), (0x36, 0), (0x62, 1)])]}]}

# writes 5 and then, in another hold, 6 to the first cell of a struct, and 6 to the second, and returns the first
TWICE = {"version": 2, "size": 16, "texts": [], "layouts": [[(INT,), (INT,)]], "functions": [
    {"result": (INT,), "parameters": 0, "kinds": [(PTR, 0), (INT,)], "scopes": 1, "blocks": [([(SHUT, 0)], [
        (0x40, 0, 0), (0x01, 1, 5), (0x30, 0), (0x33, 0, 0, None, 0), (0x35, 0, 1), (0x36, 0),
        (0x01, 1, 6), (0x33, 0, 0, None, 0), (0x35, 0, 1), (0x33, 0, 0, None, 1), (0x35, 0, 1), (0x36, 0),
        (0x33, 0, 0, None, 0), (0x34, 1, 0), (0x36, 0), (0x62, 1)])]}]}

# writes 5 to a struct, and reads it in three holds
READ = {"version": 2, "size": 16, "texts": [], "layouts": [[(INT,)]], "functions": [
    {"result": (INT,), "parameters": 0, "kinds": [(PTR, 0), (INT,)], "scopes": 1, "blocks": [([(SHUT, 0)], [
        (0x40, 0, 0), (0x01, 1, 5), (0x30, 0), (0x33, 0, 0, None, 0), (0x35, 0, 1), (0x36, 0),
        *[(0x33, 0, 0, None, 0), (0x34, 1, 0), (0x36, 0)] * 3, (0x62, 1)])]}]}

# each instruction, each kind, three functions, each sort of an entry fact: numbers in r0 and r1, a struct in r5 and an array in r6, at which scopes are aimed
ALL = {"version": 2, "size": 16, "texts": [b"a"], "layouts": [[(INT,), (BOOL,)], [(CHAR,), (TEXT,), (PTR, 0), (ARR, 1)]], "functions": [
    {"result": (INT,), "parameters": 0, "scopes": 2, "kinds": [(INT,), (INT,), (BOOL,), (CHAR,), (TEXT,), (PTR, 0), (ARR, 0), (OFF, 0)], "blocks": [
        ([(SHUT, 0), (SHUT, 1)], [
            (0x01, 0, 7), (0x02, 4, 1), (0x03, 2, 1), (0x04, 3, 97), (0x05, 5), (0x40, 5, 0), (0x41, 6, 0, 0),
            (0x10, 1, 0, 0), (0x11, 1, 1, 0), (0x12, 1, 1, 0), (0x13, 1, 1, 0), (0x14, 1, 1, 0), (0x15, 1, 1, 0), (0x16, 1, 1, 0), (0x17, 1, 1, 0),
            (0x18, 1, 0, 1), (0x19, 1, 1, 0), (0x1A, 1, 1), (0x1B, 1, 1), (0x1C, 2, 2),
            (0x20, 2, 0, 1), (0x21, 2, 0, 1), (0x22, 2, 0, 1), (0x23, 2, 0, 1), (0x24, 2, 0, 1), (0x25, 2, 0, 1),
            (0x30, 5), (0x33, 0, 5, None, 1), (0x35, 0, 2), (0x01, 1, 3), (0x31, 7, 6, 1, 2), (0x33, 1, 6, 7, 0), (0x37, 6, 7, 1), (0x61, 2, 1, 2)]),
        ([(NONNULL, 5), (INSIDE, 7, 6), (AIMED, 0, 5, None, 1), (AIMED, 1, 6, 7, 0)], [(0x35, 1, 0), (0x34, 1, 1), (0x34, 2, 0), (0x36, 0), (0x36, 1), (0x60, 3)]),
        ([], [(0x64, 4)]),
        ([(SHUT, 0), (SHUT, 1)], [
            (0x32, 1, 6), (0x06, 0, 1), (0x50, 1, 1, [0, 3]), (0x50, None, 2, []), (0x51, 4), (0x52, 4), (0x53, 1), (0x54, 2), (0x55, 3), (0x56,), (0x57, 2),
            (0x62, 1)])]},
    {"result": (INT,), "parameters": 2, "scopes": 0, "kinds": [(INT,), (CHAR,), (PTR, 1)], "blocks": [([], [(0x62, 0)])]},
    {"result": None, "parameters": 0, "scopes": 0, "kinds": [], "blocks": [([], [(0x63,)])]}]}

# under which each stands in the files of rows
NAMES = {
    id(STRUCT): "a struct is written and read",
    id(TWICE): "a struct is written twice and read, in pieces of 16 cells",
    id(READ): "a struct is written, and read three times, in pieces of 16 cells",
    id(ALL): "each instruction, each kind, three functions, and each sort of an entry fact",
}


def number(value, count=4):
    return (NONE if value is None else value).to_bytes(count, "little")


def items(written):
    return number(len(written)) + b"".join(written)


def kind_bytes(kind):
    return number(kind[0], 1) + b"".join(number(layout) for layout in kind[1:])


def operand(sort, value):
    return items([number(one) for one in value]) if sort == "R" else number(value, 1 if sort in "stc" else 4)


def part(code, sorts, values):
    return number(code, 1) + b"".join(operand(sort, value) for sort, value in zip(sorts, values, strict=True))


def block_bytes(block):
    facts, code = block
    return items([part(fact[0], FACTS[fact[0]], fact[1:]) for fact in facts]) + items([part(one[0], OPERANDS[one[0]], one[1:]) for one in code])


def function_bytes(function):
    result = b"\0" if function["result"] is None else kind_bytes(function["result"])
    kinds, blocks = items([kind_bytes(kind) for kind in function["kinds"]]), items([block_bytes(block) for block in function["blocks"]])
    return result + number(function["parameters"]) + kinds + number(function["scopes"], 1) + blocks


def image_bytes(image):
    size = number(image["size"], 2) if image["version"] == 2 else b""
    texts = items([items([number(byte, 1) for byte in text]) for text in image["texts"]])
    layouts = items([items([kind_bytes(kind) for kind in cells]) for cells in image["layouts"]])
    return b"C0FI" + number(image["version"], 2) + size + texts + layouts + items([function_bytes(function) for function in image["functions"]])


def rows():
    """The rows of these images but the first, which stands among others: the bytes of each, and its listing."""
    print("Images that are forged and walked through: written by tests/readings/forged_images.py.")
    for image in (TWICE, READ, ALL):
        digits = image_bytes(image).hex()
        print("\n".join([f"== {NAMES[id(image)]}", *[digits[at : at + 120] for at in range(0, len(digits), 120)], "--", *listing(image)]))


if __name__ == "__main__":
    rows()
