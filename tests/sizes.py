"""Texts that are long in one way: a command takes time that grows with the text, and not with its square."""

SECONDS = 20


def compiled(it, text):
    it.write("a.c0", text)
    it.check("build", "-o", "a.c0i", "a.c0", seconds=SECONDS)
    it.check("check", "a.c0i", out="ok\n", seconds=SECONDS)


def a_loop_of_many_assignments(it):
    compiled(it, "int main() { int x = 0; for (int i = 0; i < 2; i++) { " + "x = x + 1; " * 40_000 + "} return x; }\n")


def loops_in_loops(it):
    depth = 95
    heads = "".join(f"while (x < {level}) {{ " + "x = x + 1; " * 40 for level in range(1, depth + 1))
    compiled(it, "int main() { int x = 0; " + heads + "}" * depth + " return x; }\n")


def a_chain_of_pointers(it):
    node = "struct node { struct node* next; }; int main() { struct node* p = alloc(struct node); p->next = p; "
    compiled(it, node + "for (int i = 0; i < 2; i++) { " + "p = p->next; " * 20_000 + "} return 7; }\n")
    compiled(it, node + "p = p->next; " * 20_000 + "return 7; }\n")


def many_locals_in_a_loop(it):
    numbers = range(1_000)
    declared = "".join(f"int v{number} = {number}; " for number in numbers)
    raised = "".join(f"v{number} = v{number} + {number}; " for number in numbers)
    compiled(it, "int main() { " + declared + "for (int i = 0; i < 2; i++) { " + raised * 10 + "} return v0; }\n")


def many_elements(it):
    compiled(it, "int main() { int[] a = alloc_array(int, 100); int s = 0; for (int i = 0; i < 100; i++) { " + "s += a[i]; " * 20_000 + "} return s; }\n")


def many_functions(it):
    functions = "".join(f"int f{number}(int x) {{ return f{number - 1}(x); }}\n" for number in range(1, 4_000))
    compiled(it, "int f0(int x) { return x; }\n" + functions + "int main() { return f3999(7); }\n")


def many_texts(it):
    compiled(it, "#use <conio>\nint main() { " + "".join(f'print("{number}"); ' for number in range(20_000)) + "return 7; }\n")


TESTS = [
    a_loop_of_many_assignments,
    loops_in_loops,
    a_chain_of_pointers,
    many_locals_in_a_loop,
    many_elements,
    many_functions,
    many_texts,
]
