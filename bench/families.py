#!/usr/bin/env python3
"""What texts cost that are long in one way: families.py PROGRAM [COMMAND]

Each family at 100, 250, 500 and 1,000 KB: the processor seconds and the most memory of a command (`check`, `mean`, which stops at its first turn, or `build`, where
none is named), at most 30 seconds and 4 GiB. A signal or a time that ran out is told. Time that grows with the text is 10 times as much at 1,000 KB as at 100.
"""
import os
import resource
import sys
import tempfile

SIZES = [100, 250, 500, 1_000]
SECONDS = 30
MEMORY = 4 << 30
NODE = "struct node { int v; struct node* next; };\n"
MAIN = "int main() { struct node* p = alloc(struct node); p->next = p; int x = 0; int y = 3;\n"


def repeated(before, part, behind):
    """A text of so many bytes, of one part again and again, which may have its number in it."""

    def text(size):
        rows, length, number = [before], len(before) + len(behind), 0
        while length < size:
            row = part.replace("#", str(number))
            rows.append(row)
            length += len(row)
            number += 1
        return "".join(rows) + behind

    return text


def loops(inner, depth=90):
    """Loops in loops, with one part again and again in each."""

    def text(size):
        each = inner * max(1, (size // depth - 30) // len(inner))
        return NODE + MAIN + f"while (y > 0) {{\n{each}" * depth + "y = y - 1; }\n" * depth + "return x; }\n"

    return text


def typedefs(stars):
    """Each names a type that the one before names, with so many stars."""

    def text(size):
        rows, length, number = [f"typedef int{'*' * stars} t0;\n"], 0, 1
        while length < size:
            rows.append(f"typedef t{number - 1}{'*' * stars} t{number};\n")
            length += len(rows[-1])
            number += 1
        return "".join(rows) + "int main() { return 7; }\n"

    return text


def functions(size):
    """As many as a text may have, of which each calls those behind it."""
    count = min(4_096, size // 250)
    heads = [f"int f{number}(int x);\n" for number in range(count)]
    rows = []
    for number in range(count):
        row = f"int f{number}(int x) {{ if (x < 1) return 0; return x"
        step = 0
        while len(heads[number]) + len(row) + 20 < size // count:
            step += 1
            row += f" + f{(number + step) % count}(x - {step})"
        rows.append(row + "; }\n")
    return "".join(heads + rows) + "int main() { return f0(1); }\n"


def locals_of(size):
    """Functions of 1,000 locals each, of which each is made of the one before."""
    rows, length, number = [], 0, 0
    while length < size:
        body = "".join(f"int v{at} = {f'v{at - 1} + 1' if at else 'x'};\n" for at in range(1_000))
        rows.append(f"int f{number}(int x) {{\n{body}return v999;\n}}\n")
        length += len(rows[-1])
        number += 1
    return "".join(rows) + "int main() { return f0(1); }\n"


def pointers(part):
    """A part again and again, with two locals of a type of 2,000 levels."""

    def text(size):
        before = "".join(f"typedef {f't{number - 1}' if number else 'int'}{'*' * 190} t{number};\n" for number in range(11))
        return repeated(before + "int main() { t10 p = NULL; t10 q = NULL;\n", part, "return 7; }\n")(size)

    return text


def structs(are_used):
    """Each has the one before in it; the last is allocated, or none is."""

    def text(size):
        rows, length, number = ["struct s0 { int v; };\n"], 0, 1
        while length < size:
            rows.append(f"struct s{number} {{ struct s{number - 1} v; }};\n")
            length += len(rows[-1])
            number += 1
        last = f"struct s{number - 1}"
        return "".join(rows) + "int main() { " + (f"{last}* p = alloc({last}); {last}[] a = alloc_array({last}, 2); " if are_used else "") + "return 7; }\n"

    return text


FAMILIES = {
    "assignments in a loop": repeated(NODE + MAIN + "while (y > 0) {\n", "x = x + 1;\n", "y = y - 1; }\nreturn x; }\n"),
    "assignments in 90 loops": loops("x = x + 1;\n"),
    "elements in a loop": repeated("int main() { int[] a = alloc_array(int, 9); int x = 0; for (int i = 0; i < 9; i++) {\n", "x += a[i];\n", "} return x; }\n"),
    "pointers followed in a loop": repeated(NODE + MAIN + "while (y > 0) {\n", "p = p->next->next;\n", "y = y - 1; }\nreturn x; }\n"),
    "pointers followed in 90 loops": loops("p = p->next->next;\n"),
    "choices in a loop": repeated(NODE + MAIN + "while (y > 0) {\n", "if (y > 1) p = p->next->next;\n", "y = y - 1; }\nreturn x; }\n"),
    "loops in a row": repeated(NODE + MAIN, "while (y > 3) { p = p->next; y = y - p->v; }\n", "return x; }\n"),
    "long conditions": repeated(NODE + MAIN, "if (x > 0 && y > 0 || x < y) x = x + 1; else y = y - 1;\n", "return x; }\n"),
    "deep expressions": repeated(NODE + MAIN, "x = " + "(" * 60 + "x" + " + 1)" * 60 + ";\n", "return x; }\n"),
    "assertions": repeated(NODE + MAIN, "assert(x < 5); //@assert x < 7;\n", "return x; }\n"),
    "texts": repeated("#use <conio>\nint main() {\n", 'print("text #");\n', "return 7; }\n"),
    "names of types": repeated("", "typedef int name#;\n", "int main() { return 7; }\n"),
    "typedefs of typedefs": typedefs(1),
    "typedefs of 190 stars": typedefs(190),
    "pointers of 2,000 levels": pointers("if (p == q) q = p;\n"),
    "functions that call one another": functions,
    "functions of 1,000 locals": locals_of,
    "structs in structs": structs(False),
    "structs in structs that are used": structs(True),
}


def limit():
    resource.setrlimit(resource.RLIMIT_AS, (MEMORY, MEMORY))
    resource.setrlimit(resource.RLIMIT_CPU, (SECONDS, SECONDS + 1))


def taken(words, folder):
    """The seconds and the MiB of a command, or how it ended where that is not by itself."""
    begun = os.fork()
    if begun == 0:
        os.chdir(folder)
        limit()
        nowhere = os.open(os.devnull, os.O_WRONLY)
        os.dup2(nowhere, 1)
        os.dup2(nowhere, 2)
        os.execv(words[0], words)
    _, ended, used = os.wait4(begun, 0)
    if os.WIFSIGNALED(ended):
        return "time" if used.ru_utime + used.ru_stime >= SECONDS - 1 else f"signal {os.WTERMSIG(ended)}"
    told = "" if os.WEXITSTATUS(ended) == 0 else f" status {os.WEXITSTATUS(ended)}"
    return f"{used.ru_utime + used.ru_stime:.2f} s {used.ru_maxrss // 1024} MiB{told}"


def main():
    if len(sys.argv) not in (2, 3):
        sys.exit(__doc__)
    program = os.path.abspath(sys.argv[1])
    command = sys.argv[2] if len(sys.argv) == 3 else "build"
    words = {"check": ["check"], "mean": ["mean", "--turns", "1"], "build": ["build", "-o", "a.c0i"]}[command]
    print(f"{command}: " + ", ".join(f"{size} KB" for size in SIZES))
    for name, text in FAMILIES.items():
        with tempfile.TemporaryDirectory() as folder:
            row = []
            for size in SIZES:
                with open(f"{folder}/a.c0", "w") as file:
                    file.write(text(size * 1000))
                row.append(taken([program, *words, "a.c0"], folder))
        print(f"{name}: " + ", ".join(row), flush=True)


main()
