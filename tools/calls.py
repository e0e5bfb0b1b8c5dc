#!/usr/bin/env python3
"""Counts which of the project's functions a command calls, and how deep its calls go.

    python3 tools/unproved.py --no-inlining --out PROGRAM
    python3 tools/calls.py PROGRAM

PROGRAM runs under gdb, with a breakpoint at each function of the crates of `crates.txt`. Prints a line for each command
of COMMANDS: the number of functions that it calls, the number of their crates, and the maximum number of calls that are
active at once. Counting starts at `World::call`. A generic function counts once, a closure as the function around it.
"""

import os
import re
import subprocess
import sys
import tempfile

import build

TOP = os.path.dirname(os.path.dirname(os.path.abspath(__file__)))
# Each command, after those that prepare for it.
COMMANDS = {
    "insert": [b"text .t -undo 1", b".t insert end {a b c}", b".t insert 1.2 x"],
    "tag add": [b"text .t", b".t insert end {a b c}", b".t tag add t 1.0 1.2"],
    "edit undo": [b"text .t -undo 1", b".t insert end {a b c}", b".t edit undo"],
}
ENTRY = "peers::world::World::call"
SYMBOL = re.compile(r"^([0-9a-f]+) [tT] (\w+::.*)$")
TYPES = re.compile(r"::<.*>$")
# The name of a closure follows that of its function, and may end in that of a trait's function.
CLOSURE = re.compile(r"::fn::(.*)::\w+(\+.*)?$")
# The script that gdb runs. At each breakpoint it records the function, and how many calls are active: those whose
# return address is still where it was, above the new one on the stack.
TRACE = """
import gdb

def word_at(address):
    return int.from_bytes(gdb.selected_inferior().read_memory(address, 8).tobytes(), "little")

class Return(gdb.Breakpoint):
    def stop(self):
        Entry.counted = -1
        return False

class Entry(gdb.Breakpoint):
    counted, seen, frames, deepest = 0, set(), [], 0

    def __init__(self, address, name):
        super().__init__(f"*{{address:#x}}", internal=True)
        self.function = name

    def stop(self):
        top = int(gdb.parse_and_eval("$rsp"))
        if self.function == {entry!r}:
            Entry.counted += 1
            if Entry.counted == {number}:
                Return(f"*{{word_at(top)}}", internal=True)
        if Entry.counted == {number}:
            active = [(frame, back) for frame, back in Entry.frames if frame > top and word_at(frame) == back]
            Entry.frames = active + [(top, word_at(top))]
            Entry.seen.add(self.function)
            Entry.deepest = max(Entry.deepest, len(Entry.frames))
        return False

gdb.execute("set breakpoint always-inserted on")
gdb.execute("starti < {script} > /dev/null", to_string=True)
mappings = gdb.execute("info proc mappings", to_string=True).splitlines()
base = next(int(line.split()[0], 16) for line in mappings if line.endswith({program!r}))
for address, name in {functions!r}:
    Entry(base + address, name)
gdb.execute("continue", to_string=True)
print("CALLS", Entry.deepest, *sorted(Entry.seen))
"""


def functions_of(program):
    """Returns the addresses and names of the project's functions in a program."""
    crates = build.read_crates(os.path.join(TOP, "crates.txt"))
    symbols = subprocess.run(["nm", program], capture_output=True, text=True, check=True).stdout.splitlines()
    found = [(int(match[1], 16), TYPES.sub("", match[2])) for match in map(SYMBOL.match, symbols) if match]
    return [(address, CLOSURE.sub(r"::\1", name)) for address, name in found if name.split("::")[0] in crates]


def calls_of(program, functions, commands, folder):
    """Returns how deep the calls of the last of some commands go, and the functions that it calls."""
    script, trace = os.path.join(folder, "script"), os.path.join(folder, "trace.py")
    with open(script, "wb") as file:
        file.write(b"\n".join(commands) + b"\n")
    with open(trace, "w", encoding="utf-8") as file:
        file.write(TRACE.format(
            entry=ENTRY, number=len(commands), script=script, program=program, functions=functions
        ))
    words = ["gdb", "-nx", "-batch", "-x", trace, program]
    done = subprocess.run(words, capture_output=True, text=True, check=False)
    found = next((line for line in done.stdout.splitlines() if line.startswith("CALLS ")), None)
    if found is None:
        sys.exit(f"gdb traced nothing: {done.stderr[-2000:]}")
    _, deepest, *names = found.split(" ")
    return int(deepest), names


def main():
    if len(sys.argv) != 2:
        sys.exit(__doc__)
    program = os.path.realpath(sys.argv[1])
    functions = functions_of(program)
    with tempfile.TemporaryDirectory() as folder:
        for name, commands in COMMANDS.items():
            deepest, called = calls_of(program, functions, commands, folder)
            crates = {function.split("::")[0] for function in called}
            print(f"{name}: {len(called)} functions of {len(crates)} crates, {deepest} deep")
    return 0


if __name__ == "__main__":
    sys.exit(main())
