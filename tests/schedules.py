"""A schedule of a million lines, of as many programs and movers as there may be: its lines are done in little time, in memory that grows with the text and no faster."""

from process import MEBIBYTE

PROGRAMS, MOVERS, FRAMES = 256, 64, 384
LINES = 1_000_000
SECONDS = 2

# allocates an int, stores 5 in it, loads it and returns it
IMAGE = bytes.fromhex(
    "433046490100000000000100000001000000010100000001000000000200000005000000000101010000000100000004000a00000040000000000000"
    "00000101000000050000003000000000330000000000ffffffff000000003500010000003600330000000000ffffffff000000003401000000003600"
    "6201000000"
)


def all_do(actor, often=1):
    """Each of these movers, or each program, does what is next, and so on so often."""
    return [f"{actor}{number}" for _ in range(often) for number in range(PROGRAMS if actor == "p" else MOVERS)]


def fetched(frame):
    """Fetchers bring the objects from `frame` on into the frames of these numbers, a line of each in turn."""
    numbers = range(MOVERS)
    begun = [f"f{number} begin {frame + number}" for number in numbers]
    return begun + [f"f{number} claim {frame + number}" for number in numbers] + all_do("f", 66)


def moved_out(frame):
    """Evacuators move these objects out, a line of each in turn, and fetchers bring them in."""
    return [f"e{number} mark {frame + number} {frame + number}" for number in range(MOVERS)] + all_do("e", 67) + fetched(frame)


def left(frame):
    """These objects are clean and leave, and fetchers bring them in."""
    return [f"e{number} leave {frame + number} {frame + number}" for number in range(MOVERS)] + all_do("e") + fetched(frame)


def schedule(count):
    """So many lines: each program stores its number, all objects are moved out and in, leave and are brought in again and again, and the programs end."""
    firsts = range(0, PROGRAMS, MOVERS)
    lines = all_do("p", 5) + [f"p{number} claim {number}" for number in range(PROGRAMS)] + all_do("p", 68)
    lines += [line for first in firsts for line in moved_out(first)]
    again = [line for first in firsts for line in left(first)]
    last = all_do("p", 4)
    turns, idle = divmod(count - len(lines) - len(last), len(again))
    return lines + again * turns + [f"e0 look {number % FRAMES}" for number in range(idle)] + last


def told():
    return "".join(f"program {number}:\nresult: 5\n" for number in range(PROGRAMS))


def replayed(it, lines, **wanted):
    text = "\n".join(lines) + "\n"
    it.write("v.c0i", IMAGE)
    it.write("long.s", text)
    numbers = ["--frames", str(FRAMES), "--objects", str(PROGRAMS), "--evacuators", str(MOVERS), "--fetchers", str(MOVERS)]
    it.check("replay", *numbers, "--schedule", "long.s", *["v.c0i"] * PROGRAMS, memory=16 * MEBIBYTE + 2 * len(text), processor=SECONDS, **wanted)


def a_million_lines(it):
    replayed(it, schedule(LINES), out=told())


def a_quarter_of_them(it):
    replayed(it, schedule(LINES // 4), out=told())


def a_refused_line_in_the_middle(it):
    lines = schedule(LINES)
    lines[LINES // 2 - 1] = f"p{PROGRAMS}"
    replayed(it, lines, status=2, err=f"refused line {LINES // 2}\n")


TESTS = [a_million_lines, a_quarter_of_them, a_refused_line_in_the_middle]
