#!/usr/bin/env python3
"""Counts the instructions of a command on texts of 5,000 and of 100,000 lines.

    python3 tools/bench_counts.py --program PATH --out FILE [--sizes 5000,100000] [--only WORD]

Needs valgrind, whose callgrind counts instructions, which don't swing with the machine. Each kind is run twice for each
size: once the text with the first of some commands behind it, and once with all of them; what the second run takes more
is shared out among the others. The first may clean up after the text was made: the C library's allocator gathers then
what was freed. So it has a bound of its own, by the text's size. The table is written to FILE, and below it each first
command that takes ten times what another does, or more than its bound. The exit status is 1 if a kind grows by more than
a third from one size to the next, or a first command takes more than its bound.
"""

import argparse
import os
import re
import subprocess
import sys
import tempfile
from concurrent.futures import ThreadPoolExecutor
from typing import NamedTuple

COMMANDS = 400
GROWTH_GOAL = 4 / 3
FIRST_FACTOR = 10
# So many instructions for each line of the text the first command may take more than another.
FIRST_PER_LINE = 20
LINE = "a lazy dog, and\n"
MARKS = 1_000
VIEW_LINES = 10
COLLECTED = re.compile(r"Collected : (\d+)")


class Kind(NamedTuple):
    """What is counted: its name, what stands before it on a text of so many lines, and the commands."""

    name: str
    before: callable
    commands: callable


def spread(size):
    """Numbers of lines all over a text of so many lines, not in order."""
    return [1 + number * 7_919 % size for number in range(COMMANDS)]


def nothing(size):
    """Nothing beside the text."""
    return []


def each_line(*forms):
    """These commands for lines all over the text."""
    return lambda size: [form.format(line=line) for line in spread(size) for form in forms]


def marks(size):
    """Marks all over the text."""
    return [f".t mark set m{number} {1 + number * size // MARKS}.3" for number in range(MARKS)]


def of_marks(*forms):
    """These commands for marks all over the text."""
    return lambda size: [form.format(mark=f"m{number * 7 % MARKS}") for number in range(COMMANDS) for form in forms]


def tags(size):
    """A tag on a word of each tenth line."""
    words = " ".join(f"{line}.2 {line}.6" for line in range(1, size, 10))
    return [f".t tag add x {words}"]


def undoing(size):
    """Edits are kept."""
    return [".t configure -undo 1"]


def peer(size):
    """A second widget that shows the whole text."""
    return [".t peer create .p"]


def view(size):
    """A widget that shows a few lines in the text's middle, with a mark and a tag in them."""
    middle = size // 2
    return [
        f".t peer create .p -startline {middle} -endline {middle + VIEW_LINES}",
        f".t mark set m {middle + 3}.3",
        f".t tag add x {middle + 2}.2 {middle + 2}.6",
    ]


def in_view(*forms):
    """These commands by the widget with the small view, at lines all over it."""
    return lambda size: [form.format(line=1 + number % VIEW_LINES) for number in range(COMMANDS) for form in forms]


KINDS = [
    Kind("append a word", nothing, lambda size: [".t insert end x"] * COMMANDS),
    Kind("append a line", nothing, lambda size: [".t insert end {another line\n}"] * COMMANDS),
    Kind("insert in the middle", nothing, each_line(".t insert {line}.3 x")),
    Kind("insert a line in the middle", nothing, each_line(".t insert {line}.3 {{x\ny}}")),
    Kind("delete in the middle", nothing, each_line(".t delete {line}.3")),
    Kind("join two lines", nothing, each_line(".t delete {line}.end")),
    Kind("replace in the middle", nothing, each_line(".t replace {line}.3 {line}.5 xyz")),
    Kind("insert, undo and redo", undoing, each_line(".t insert {line}.3 x", ".t edit undo", ".t edit redo")),
    Kind("index by line", nothing, each_line(".t index {line}.end")),
    Kind("index by position", nothing, each_line('.t index "1.0 + {line}0 chars"')),
    Kind("index from the end", nothing, each_line('.t index "end - {line}0 chars"')),
    Kind("get one character", nothing, each_line(".t get {line}.3")),
    Kind("set a mark", nothing, each_line(".t mark set m {line}.3")),
    Kind("insert before 1,000 marks", marks, lambda size: [".t insert 1.0 x"] * COMMANDS),
    Kind("look up a mark", marks, of_marks(".t index {mark}")),
    Kind("next and previous mark", marks, of_marks(".t mark next {mark}", ".t mark previous {mark}")),
    Kind("tag a word", nothing, each_line(".t tag add y {line}.2 {line}.6")),
    Kind("tag and take it off", tags, each_line(".t tag add y {line}.0 {line}.6", ".t tag remove y {line}.0 {line}.6")),
    Kind("next and previous range", tags, each_line(".t tag nextrange x {line}.0", ".t tag prevrange x {line}.0")),
    Kind("tags of a character", tags, each_line(".t tag names {line}.3")),
    Kind("insert by a peer", peer, each_line(".p insert {line}.3 x")),
    Kind("small view: index", view, in_view(".p index {line}.end", '.p index "end - {line} chars"')),
    Kind("small view: get", view, in_view(".p get {line}.0 {line}.end")),
    Kind("small view: edit", view, in_view(".p insert {line}.3 x", ".p delete {line}.3")),
    Kind("small view: marks", view, in_view(".p mark next {line}.0", ".p mark previous {line}.0")),
    Kind("small view: ranges", view, in_view(".p tag nextrange x {line}.0", ".p tag ranges x")),
    Kind("small view: search", view, in_view(".p search haystack {line}.0")),
    Kind("small view: dump", view, in_view(".p dump {line}.0 {line}.end")),
    Kind("small view: select", view, in_view(".p tag add sel {line}.0 {line}.5", ".p tag remove sel 1.0 end")),
]


def script(size, kind, commands):
    """A text of so many lines, what stands before the commands, and these."""
    text = ["text .t", ".t insert end {" + LINE * (size - 1) + "}"]
    return "".join(command + "\n" for command in text + kind.before(size) + commands)


def count(program, text, folder):
    """The instructions of one run of a script."""
    handle, path = tempfile.mkstemp(dir=folder)
    with open(handle, "w", encoding="utf-8") as file:
        file.write(text)
    valgrind = ["valgrind", "--tool=callgrind", "--callgrind-out-file=/dev/null", program]
    with open(path, "rb") as file:
        run = subprocess.run(valgrind, stdin=file, stdout=subprocess.DEVNULL, stderr=subprocess.PIPE, check=False)
    found = COLLECTED.search(run.stderr.decode("utf-8", "replace"))
    if run.returncode != 0 or not found:
        sys.exit(f"status {run.returncode} for\n{text[-300:]}")
    return int(found.group(1))


class Cost(NamedTuple):
    """The instructions of the first of some commands, and of each other."""

    first: float
    each: float


def cost(program, size, kind, folder):
    """What the commands of a kind take on a text of so many lines."""
    commands = kind.commands(size)
    none, one, all_of_them = (count(program, script(size, kind, commands[:some]), folder) for some in (0, 1, len(commands)))
    return Cost(one - none, (all_of_them - one) / (len(commands) - 1))


def row(name, costs):
    """One row of the table: a count for each size, and how it grows."""
    growth = costs[-1].each / costs[0].each
    verdict = "met" if growth <= GROWTH_GOAL else "MISSED"
    return f"{name:<28}" + "".join(f"{cost.each:>12.0f}" for cost in costs) + f"{growth:>9.2f}  {verdict}"


def firsts(costs_by_name, sizes):
    """A line for each kind whose first command takes ten times what another does, or more than its bound, by size."""
    lines = []
    for name, costs in costs_by_name.items():
        for size, cost in zip(sizes, costs):
            bound = cost.each + FIRST_PER_LINE * size
            verdict = "met" if cost.first <= bound else "MISSED"
            if verdict != "met" or cost.first > FIRST_FACTOR * cost.each:
                lines.append(f"{name}, the first on a text of {size:,} lines: {cost.first:,.0f}, at most {bound:,.0f}  {verdict}")
    return lines


def measure(program, sizes, kinds):
    """The table's lines."""
    lines = [
        "Instructions of a command (callgrind) on texts of so many lines of 16 characters, with its answer and the",
        "reading of its words, but for the first one; and how they grow from one size to the other (goal: by at most a",
        f"third). The first one may take {FIRST_PER_LINE} instructions more for each line of the text.",
        "",
        f"{'command':<28}" + "".join(f"{size:>12,}" for size in sizes) + f"{'growth':>9}",
    ]
    print("\n".join(lines), flush=True)
    costs_by_name = {}
    # Instructions don't swing with what else runs, so each core takes a kind.
    with tempfile.TemporaryDirectory() as folder, ThreadPoolExecutor(len(os.sched_getaffinity(0))) as cores:
        all_costs = cores.map(lambda kind: [cost(program, size, kind, folder) for size in sizes], kinds)
        for kind, costs in zip(kinds, all_costs):
            costs_by_name[kind.name] = costs
            lines.append(row(kind.name, costs))
            print(lines[-1], flush=True)
    below = firsts(costs_by_name, sizes)
    return lines + ([""] + below if below else [])


def main():
    parser = argparse.ArgumentParser(description="counts the instructions of commands on texts of two sizes")
    parser.add_argument("--program", required=True)
    parser.add_argument("--out", required=True)
    parser.add_argument("--sizes", type=lambda text: [int(size) for size in text.split(",")], default=[5_000, 100_000])
    parser.add_argument("--only", default="")
    options = parser.parse_args()
    lines = measure(options.program, options.sizes, [kind for kind in KINDS if options.only in kind.name])
    with open(options.out, "w", encoding="utf-8") as file:
        file.write("".join(line.rstrip() + "\n" for line in lines))
    return 1 if any(line.endswith("MISSED") for line in lines) else 0


if __name__ == "__main__":
    sys.exit(main())
