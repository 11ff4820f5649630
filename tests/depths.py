"""Inputs that are long or deep in one way: no recursion on the machine's stack follows them."""

from process import MEBIBYTE, want

TEXT = "int main() { return 7; }\n"


def many_words(it):
    """As a `*` in a large folder gives them."""
    it.write("a.c0", TEXT)
    for words, complaint in (
        (["check"], "check takes one FILE, and a.c0 is one more"),
        (["list"], "list takes one FILE, and a.c0 is one more"),
        (["mean"], "mean takes one FILE, and a.c0 is one more"),
        (["x"], "there is no command x"),
    ):
        status, out, err = it.run(*words, *["a.c0"] * 120_000)
        want((status, out) == (2, b"") and err.startswith(f"c0far: {complaint}\n".encode()), f"{words[0]} with many words gave {status} {err[:80]}")


def a_number_of_many_digits(it):
    it.write("a.c0", TEXT)
    for line in ("p" + "0" * 200_000, "p" + "9" * 200_000, "p0 look " + "0" * 200_000):
        it.write("turns.schedule", line + "\n")
        it.check("replay", "--schedule", "turns.schedule", "a.c0", status=2, err="refused line 1\n")


def a_schedule_of_many_lines(it):
    it.write("a.c0", "int main() { while (true) { } return 7; }\n")
    it.write("turns.schedule", "p0\n" * 300_000)
    it.check("replay", "--schedule", "turns.schedule", "a.c0", out="running\n")
    it.write("turns.schedule", "p0\n" * 300_000 + "p1\n")
    it.check("replay", "--schedule", "turns.schedule", "a.c0", status=2, err="refused line 300001\n")


def a_name_of_many_letters(it):
    name = "x" * 500_000
    it.write("a.c0", f"int main() {{ int {name} = 7; return {name}; }}\n")
    it.check("mean", "--turns", "1", "a.c0", out="result: 7\n")


def operators_beyond_the_limit(it):
    """The function is the first of 200 nodes and the statement the second, so the 199th of these is the first that is too deep."""
    before = "int main() { return "
    for operator, behind in (("(", ")"), ("!", ""), ("~", ""), ("- ", "")):
        it.write("a.c0", f"{before}{operator * 100_000}7{behind * 100_000}; }}\n")
        column = len(before) + 1 + 198 * len(operator)
        it.check("check", "a.c0", status=2, err=f"a.c0:1:{column}: fault 21 TooDeep\n")


def statements_in_a_row(it):
    it.write("a.c0", "int main() { int x = 0; " + "x += 1; " * 2_000 + "return x; }\n")
    it.check("run", "a.c0", out="result: 2000\n", memory=2_048 * MEBIBYTE)


def typedefs(count, stars):
    """Each name stands for what the one before it stands for, with so many pointers more."""
    names = ["int"] + [f"t{number}" for number in range(count)]
    return "".join(f"typedef {names[number]}{'*' * stars} {names[number + 1]};\n" for number in range(count))


def types_of_many_levels(it):
    """A type has as many levels as its text has stars: 47,500 here, and 190,000 where it is used, too."""
    it.write("a.c0", typedefs(250, 190) + TEXT)
    for stack in (8 * MEBIBYTE, MEBIBYTE * 3 // 4):
        it.check("check", "a.c0", out="ok\n", stack=stack)
        it.check("run", "a.c0", out="result: 7\n", stack=stack)
        it.check("mean", "--turns", "1", "a.c0", out="result: 7\n", stack=stack)
        it.check("build", "-o", "a.c0i", "a.c0", stack=stack)
    it.write("a.c0", typedefs(1_000, 190) + "int main() { t999 x = NULL; if (x == NULL) { return 7; } return 8; }\n")
    it.check("check", "a.c0", out="ok\n")
    it.check("mean", "--turns", "1", "a.c0", out="result: 7\n")


def a_type_of_many_levels_that_is_used(it):
    """Each level is looked at once, and gives a layout of its own."""
    it.write("a.c0", typedefs(20, 190) + "int main() { t19* p = alloc(t19); if (*p == NULL) { return 7; } return 8; }\n")
    it.check("run", "a.c0", out="result: 7\n", seconds=20)
    it.check("build", "-o", "a.c0i", "a.c0", seconds=20)
    it.check("check", "a.c0i", out="ok\n", seconds=20)


def a_type_of_many_levels_that_is_used_often(it):
    """Each place has its type by one step, whatever its levels are: 19,000 here, at 1,000 places."""
    before = typedefs(100, 190) + "int main() { t99 p = NULL; t99 q = NULL; t99[] a = alloc_array(t99, 1);\n"
    for part in ("if (p == q) p = q;\n", "p = a[0];\n", "p = p == NULL ? q : *alloc(t99);\n"):
        it.write("a.c0", before + part * 1_000 + "return 7; }\n")
        for words in (["check"], ["mean", "--turns", "1"], ["build", "-o", "a.c0i"]):
            status, out, err = it.run(*words, "a.c0", memory=800 * MEBIBYTE, seconds=20)
            want((status, err) == (0, b""), f"{words[0]} of {part} gave {status} {out[:80]} {err[:80]}")


def typedefs_of_typedefs(it):
    """What a name stands for is kept once."""
    it.write("a.c0", typedefs(40_000, 1) + TEXT)
    it.check("check", "a.c0", out="ok\n", memory=512 * MEBIBYTE, seconds=20)


def structs(longest):
    """As many as fit into a text of so many bytes, each of which holds the one before, and the name of the last."""
    rows, length = ["struct s0{int v;};\n"], 300
    while length < longest:
        rows.append(f"struct s{len(rows)}{{struct s{len(rows) - 1} v;}};\n")
        length += len(rows[-1])
    return "".join(rows), f"struct s{len(rows) - 1}"


def structs_in_structs(it):
    """The value of a struct is made where it is allocated, and of no other struct than those that it holds."""
    for longest in (4_000 * 32, MEBIBYTE):
        declared, last = structs(longest)
        used = f"int main() {{ {last}* p = alloc({last}); {last}[] a = alloc_array({last}, 2); if (p == NULL) {{ return 8; }} return 7; }}\n"
        for text in (TEXT, used):
            it.write("a.c0", declared + text)
            it.check("mean", "--turns", "1", "a.c0", out="result: 7\n", memory=1_024 * MEBIBYTE, seconds=20)
            it.check("run", "a.c0", out="result: 7\n", seconds=20)


def nests_on_a_small_stack(it):
    it.write("a.c0", "int main() { int x = 7; " + "if (x == 7) { " * 95 + "x = x + 1; " + "}" * 95 + " return x; }\n")
    for command in (["check"], ["run"], ["mean", "--turns", "1"]):
        status, out, err = it.run(*command, "a.c0", stack=MEBIBYTE // 2)
        want((status, err) == (0, b"") and out in (b"ok\n", b"result: 8\n"), f"{command[0]} gave {status} {out[:80]} {err[:80]}")


TESTS = [
    many_words,
    a_number_of_many_digits,
    a_schedule_of_many_lines,
    a_name_of_many_letters,
    operators_beyond_the_limit,
    statements_in_a_row,
    types_of_many_levels,
    a_type_of_many_levels_that_is_used,
    a_type_of_many_levels_that_is_used_often,
    typedefs_of_typedefs,
    structs_in_structs,
    nests_on_a_small_stack,
]
