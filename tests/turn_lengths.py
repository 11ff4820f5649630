"""Where a turn ends changes nothing: what a program prints, how it ends, and how many instructions it completes. By turns of one instruction each is done alone, by
longer ones several are done at once."""

import random
import re

from process import want

QUANTA = (1, 2, 3, 7, 1_000, 1_000_000)
# frames and objects: all are in frames, few are, and memory may be wanted
ROOMS = ((300, 300), (12, 300), (12, 13))
TEXTS = 12


class Text:
    """A program that runs, drawn by its number: some statements over a few variables, in a loop and in functions."""

    def __init__(self, number):
        self.random = random.Random(number)
        self.loops = 0
        self.counters = ["i"]

    def one_of(self, *choices):
        return self.random.choice(choices)

    def number(self, depth=2):
        if depth == 0:
            return self.one_of("x", "y", "i", "3", "7", "n", "1")
        return self.one_of(
            self.number(0),
            f"({self.number(depth - 1)} {self.one_of('+', '-', '*', '&', '|', '^')} {self.number(depth - 1)})",
            f"a[{self.index()}]",
            "s->count",
            "p->value",
            f"r[{self.index()}].low",
            f"({self.truth(depth - 1)} ? {self.number(depth - 1)} : {self.number(depth - 1)})",
            f"({self.number(depth - 1)} / {self.one_of('3', '7', '(x % 5)', '(i + 1)')})",
            f"({self.number(depth - 1)} << {self.one_of('1', '3', '(y & 7)')})",
            f"f({self.number(depth - 1)} % 9)",
            f"(-{self.number(depth - 1)})",
        )

    def index(self):
        counter = self.random.choice(self.counters)
        return self.one_of(counter, counter, counter, f"n - 1 - {counter}", f"{counter} / 2", "(x & 7)", "(y & 15)", f"{counter} + 1")

    def truth(self, depth=1):
        relation = self.one_of("<", "<=", "==", "!=", ">", ">=")
        if depth == 0:
            return f"{self.number(0)} {relation} {self.number(0)}"
        return self.one_of(f"{self.number(depth)} {relation} {self.number(depth)}", f"b[{self.index()}]", f"!b[{self.index()}]", "p != NULL", f"({self.truth(0)} && {self.truth(0)})", f"c[{self.index()}] == 'k'")

    def statement(self, depth):
        loop = self.loops
        self.loops += 1
        simple = (
            f"{self.one_of('x', 'y')} = {self.number()};",
            f"{self.one_of('x', 'y')} += {self.number()};",
            "x++;",
            f"a[{self.index()}] = {self.number()};",
            f"a[{self.index()}] += {self.number(1)};",
            f"b[{self.index()}] = {self.truth()};",
            f"c[{self.index()}] = {self.one_of(chr(39) + 'k' + chr(39), 'c[i]')};",
            f"r[{self.index()}].low = {self.number()};",
            f"r[{self.index()}].next = p;",
            f"s->count += {self.number(1)};",
            "{ struct node* q = alloc(struct node); q->value = x; q->next = p; p = q; }",
            "if (p != NULL) { p = p->next; }",
            f"{{ struct node* q = p; while (q != NULL) {{ {self.one_of('x', 'y')} += q->value; q = q->next; }} }}",
            f"printint({self.number(1)});",
            f"assert({self.one_of('x == x', 'n > i', 'y != 12')});",
        )
        if depth == 0:
            return self.random.choice(simple)
        return self.one_of(
            *simple,
            f"if ({self.truth()}) {{ {self.block(depth - 1)} }} else {{ {self.block(depth - 1)} }}",
            f"for (int k{loop} = 0; k{loop} < {self.one_of('3', 'n')}; k{loop}++) {{ {self.block(depth - 1, f'k{loop}')} }}",
            f"{{ int j{loop} = 0; while (j{loop} < n) {{ {self.block(depth - 1, f'j{loop}')} j{loop} += {self.one_of('1', '1', '3')}; }} }}",
        )

    def block(self, depth, *counters):
        """A few statements, where these count a loop, too."""
        self.counters += counters
        lines = [self.statement(depth) for _ in range(self.random.randrange(1, 4))]
        del self.counters[len(self.counters) - len(counters) :]
        return " ".join(lines)

    def whole(self):
        size = self.one_of(5, 20, 20, 100, 200)
        return f"""#use <conio>
struct node {{ int value; struct node* next; }};
struct pair {{ int low; struct node* next; bool is_there; }};
struct some {{ int count; int[] held; }};
int f(int n) {{ if (n < 2) return n; return f(n - 1) + f(n - 2); }}
int main() {{
  int n = {size}; int x = {self.one_of(0, 1, 40)}; int y = {self.one_of(0, 3)};
  int[] a = alloc_array(int, n); bool[] b = alloc_array(bool, n); char[] c = alloc_array(char, n); struct pair[] r = alloc_array(struct pair, n);
  struct some* s = alloc(struct some); struct node* p = NULL;
  s->held = a;
  for (int i = 0; i < {self.one_of('n', 'n', 'n', 'n - 1')}; i++) {{
    {self.block(2)}
    {self.block(2)}
  }}
  for (int i = 0; i < n; i++) {{ x += a[i]; if (b[i]) {{ y++; }} }}
  printint(y); println("");
  return x;
}}
"""


def told(it, quantum, room, path="a.c0"):
    """What a run by one worker and no mover comes to: its status, what it prints and what is told of its end, and the instructions that it completes."""
    frames, objects = room
    sizes = ("--frames", str(frames), "--objects", str(objects))
    status, out, err = it.run("run", "--workers", "1", "--evacuators", "0", "--fetchers", "0", "--quantum", str(quantum), "--stats", *sizes, path)
    completed = re.search(rb"instructions (\d+)", err)
    end = [line for line in err.splitlines() if not line.startswith((b"program ", b"time: "))]
    return status, out, end, completed and int(completed[1])


def turns_of_any_length(it):
    for number in range(TEXTS):
        it.write("a.c0", Text(number).whole())
        for room in ROOMS:
            first, *others = [told(it, quantum, room) for quantum in QUANTA]
            want(first[3] is not None, f"text {number} is not run: {first}")
            for quantum, other in zip(QUANTA[1:], others):
                want(other == first, f"text {number}, {room}, by turns of {quantum}: {other}, and by turns of 1: {first}")


TESTS = [turns_of_any_length]
