"""Two hundred texts drawn by number: long, deep, of many names, or broken somewhere. Each is accepted or refused, in time and memory that its length pays for."""

import random

from process import MEBIBYTE, want

TEXTS = 200
SECONDS = 10
MEMORY = 1_024 * MEBIBYTE


class Text:
    """A text of some 10 to 60 KB, which is well typed. What it is made of is drawn by its number."""

    def __init__(self, number):
        self.random = random.Random(number)
        self.most = self.random.randrange(10_000, 60_000)
        self.lines = ["#use <conio>"] * self.random.choice((1, 1, 1, 400))
        self.types = ["int", "bool", "char", "string"]
        self.functions = []

    def one_of(self, *choices):
        return self.random.choice(choices)

    def declare_types(self):
        """Typedefs of typedefs, and structs that hold and name others."""
        for number in range(self.one_of(0, 3, 50, 400)):
            suffix = self.one_of("*", "[]", "*[]", "*" * 100, "")
            self.lines.append(f"typedef {self.random.choice(self.types[:1] + self.types[-3:])}{suffix} t{number};")
            self.types.append(f"t{number}")
        self.lines.append("struct s0 { int value; struct s0* next; };")
        count = self.one_of(1, 4, 100, 300)
        for number in range(1, count):
            held = f"struct s{number - 1}{self.one_of('', '*', '[]')} held; " + "".join(f"int f{field}; " for field in range(self.one_of(0, 1, 20)))
            self.lines.append(f"struct s{number} {{ {held}}};")
        self.struct = f"struct s{count - 1}"

    def number(self, depth):
        """An expression of type int, whose tree has at most so many levels."""
        kind = self.random.randrange(9) if depth > 0 else 8
        if kind == 0:
            return "(" * depth + "x" + ")" * depth
        if kind == 1:
            return "~" * depth + "y"
        if kind == 2:
            return " + ".join(["x", "y", "2", "a[i]"] * (depth // 4 + 1))
        if kind == 3:
            return f"(x < y ? {self.number(depth - 8)} : {self.number(depth - 8)})"
        if kind == 4:
            return "p" + "->next" * depth + "->value"
        if kind == 5 and self.functions:
            return f"{self.random.choice(self.functions)}({self.number(depth // 2 - 4)}, y)"
        if kind == 6:
            return "a[" * (depth // 2) + "i" + "]" * (depth // 2)
        if kind == 7:
            return f"({self.number(depth // 2 - 2)} * {self.number(depth // 2 - 2)})"
        return self.one_of("x", "y", "i", "7", "a[i]", "p->value")

    def truth(self, depth):
        return self.one_of("x < y", "x == 7 && y != 3", "!" * depth + "(x < y)", " || ".join(["x < y"] * (depth // 2 + 1)), "p == NULL", f"{self.number(depth // 2 - 2)} <= 2")

    def statement(self, *depths):
        """One whose expressions have at most so many levels, one of these; the bodies of loops and choices are drawn by `nest`."""
        depth = self.one_of(*depths)
        return self.one_of(
            f"x = {self.number(depth)};",
            f"a[{self.number(depth // 2)}] = {self.number(depth // 2)};",
            f"p->value = {self.number(depth)};",
            "p = p->next;",
            f"x += {self.number(depth)};",
            "y++;",
            f"assert({self.truth(depth)});",
            f'print("{"x" * self.one_of(1, 200)}\\n");',
            f"printint({self.number(depth)});",
            f"p = alloc(struct s0); a = alloc_array(int, {self.number(depth // 2)});",
            "// " + "a" * self.one_of(0, 500) + "\n",
            "/* " + "* " * self.one_of(0, 300) + "*/",
        )

    def nest(self, depth):
        """Loops and choices in one another, each with some statements."""
        heads, tails = [], []
        for level in range(depth):
            inner = " ".join(self.statement(0, 4, 20) for _ in range(self.one_of(0, 1, 3)))
            head = self.one_of(f"if ({self.truth(4)}) {{", f"while ({self.truth(4)}) //@loop_invariant x <= x;\n{{", f"for (int k{level} = 0; k{level} < 3; k{level}++) {{", "{")
            heads.append(f"{head} {inner}")
            tails.append("}")
        return " ".join(heads) + " x = 3; " + " ".join(tails)

    def body(self, most):
        lines = []
        while sum(map(len, lines)) < most:
            lines.append(self.nest(self.one_of(1, 5, 50)) if self.random.random() < 0.1 else self.statement(0, 4, 40, 120))
        return lines

    def define_functions(self):
        count = self.one_of(1, 5, 60)
        for number in range(count):
            locals_ = " ".join(f"int l{local} = {local};" for local in range(self.one_of(0, 3, 200)))
            self.lines.append(f"int g{number}(int x, int y)")
            self.lines += ["//@requires x <= x;"] * self.one_of(0, 1, 20)
            self.lines.append(f"{{ {locals_} struct s0* p = alloc(struct s0); int[] a = alloc_array(int, 10); int i = 0; {self.struct}* q = NULL;")
            self.lines += self.body(self.most // count)
            self.lines.append("return x; }")
            self.functions.append(f"g{number}")
        self.lines.append("int main() { return 7; }")

    def whole(self):
        self.declare_types()
        self.define_functions()
        return "\n".join(self.lines) + "\n"

    def broken(self, text):
        """With something taken out, put in twice, or exchanged somewhere."""
        at = self.random.randrange(len(text))
        size = self.one_of(1, 1, 2, 500)
        return self.one_of(text[:at] + text[at + size :], text[:at] + text[at : at + size] * 2 + text[at + size :], text[:at] + self.one_of("(", "}", ";", '"', "/*", "\\", "é") + text[at:])


def drawn(number):
    text = Text(number)
    whole = text.whole()
    return (whole, True) if number % 2 == 0 else (text.broken(whole), False)


def texts_by_number(it):
    for number in range(TEXTS):
        text, is_whole = drawn(number)
        it.write("a.c0", text)
        for words in (["check", "a.c0"], ["build", "-o", "a.c0i", "a.c0"], ["mean", "--turns", "100", "a.c0"]):
            status, out, err = it.run(*words, memory=MEMORY, seconds=SECONDS)
            accepted = status == 0 and err == b""
            refused = status == 2 and out == b"" and err.startswith(b"a.c0:") and err.count(b"\n") == 1
            want(accepted or (refused and not is_whole), f"text {number}: {words[0]} gave {status} {out[:80]} {err[:80]}")


TESTS = [texts_by_number]
