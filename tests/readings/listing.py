"""A second reading of the listing of docs/IMAGES.md: a line for each instruction of an image."""

from image_reading import OPERANDS

NAMES = {
    **dict(zip(range(0x01, 0x07), "const text bool char null move".split())),
    **dict(zip(range(0x10, 0x1D), "add sub mul div mod and or xor shl shr neg not lnot".split())),
    **dict(zip(range(0x20, 0x26), "eq ne lt le gt ge".split())),
    **dict(zip(range(0x30, 0x38), "chk_null chk_index len aim ld st leave prefetch".split())),
    **dict(zip(range(0x40, 0x42), "alloc alloc_array".split())),
    **dict(zip(range(0x50, 0x58), "call print println printint printbool printchar flush assert".split())),
    **dict(zip(range(0x60, 0x65), "jump branch ret retv error".split())),
}
LETTERS = {"d": "r", "r": "r", "D": "r", "o": "r", "s": "s", "b": "b", "f": "f"}


def operand(sort, value):
    if value is None:
        return ["-"]
    if sort == "R":
        return [f"r{one}" for one in value]
    return [f"{LETTERS.get(sort, '')}{value}"]


def line(instruction):
    code, *values = instruction
    operands = [word for sort, value in zip(OPERANDS[code], values, strict=True) for word in operand(sort, value)]
    return f"{NAMES[code]} {', '.join(operands)}".rstrip()


def listing(image):
    return [f"f{f} b{b} {k}: {line(one)}" for f, function in enumerate(image["functions"]) for b, (_, code) in enumerate(function["blocks"]) for k, one in enumerate(code)]
