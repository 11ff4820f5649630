#!/usr/bin/env python3
"""What the compiler made of the loop that runs programs: inner_loop.py PROGRAM

Of each function that the loop is written into, one for each sort of stores: how many machine instructions it has, and of these how many conditional jumps, how many
selects (`cmov`), how many jumps by a table, and how many calls. `objdump` reads them. It passes no verdict: where a compiler makes selects of branches, there
are more of these and fewer jumps; where it no longer writes a function into the loop that asks for it, there are some hundred instructions fewer, and a call more.
"""
import collections
import re
import subprocess
import sys

LOOP = "ProgramRun::turn"
COLUMNS = ("instructions", "conditional jumps", "selects", "jumps by a table", "calls")


def kinds_of(instruction):
    """What an instruction counts as, beside an instruction."""
    name, _, operand = instruction.partition(" ")
    if name.startswith("cmov"):
        return ["selects"]
    if name == "call":
        return ["calls"]
    if name == "jmp":
        return ["jumps by a table"] if re.match(r"\s*(r\w+|QWORD)", operand) else []
    return ["conditional jumps"] if name.startswith("j") else []


def functions_of(program):
    """What is counted of each function that the loop is written into, in the order of the program."""
    listed = subprocess.run(["objdump", "-d", "--no-show-raw-insn", "-M", "intel", program], capture_output=True, text=True, check=True).stdout
    found, counted = [], None
    for line in listed.splitlines():
        if begins := re.match(r"[0-9a-f]+ <(.*)>:$", line):
            counted = collections.Counter() if LOOP in begins[1] else None
            if counted is not None:
                found.append(counted)
        elif counted is not None and (row := re.match(r"\s*[0-9a-f]+:\t(.*)", line)):
            counted.update(["instructions", *kinds_of(row[1])])
    return found


def main():
    if len(sys.argv) != 2:
        sys.exit(__doc__)
    print("| " + " | ".join(COLUMNS) + " |\n" + "|---" * len(COLUMNS) + "|")
    for counted in functions_of(sys.argv[1]):
        print("| " + " | ".join(f"{counted[it]:,}" for it in COLUMNS) + " |")


main()
