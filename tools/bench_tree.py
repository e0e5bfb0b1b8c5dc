#!/usr/bin/env python3
"""Times lines that are put into the tree of lines, taken out, and found, and weighs them.

    python3 tools/bench_tree.py --program PATH --shim PATH --out FILE [--repeat 3]

PATH is the program `tree_bench` and the allocator of `tools/weigh.c`. Prints a table and writes it to FILE. Each time
is the processor's, the least of several runs, less that of a run that does the same without what is timed. Beside them
stand the instructions by callgrind, where valgrind is installed, and what the machine takes for lines in a plain array
(`tools/floor.c`), which is the least that a line at a random place can cost. A weight is the most bytes at once, the
allocator's own among them. The exit status is 1 if an aim is missed, if the tree isn't as a plain list says after
random edits, or if it can't be dropped on a small stack.
"""

import argparse
import os
import re
import resource
import shutil
import subprocess
import sys
import tempfile

COUNTS = (10_000, 100_000, 1_000_000)
LENGTH = 40
MOST_SECONDS = 2.0
MOST_GROWTH = 1.5
MOST_BYTES = 200
SPLICES = 100_000
STACK = 64 * 1024

# What is timed, the run that it is part of, the run that is taken off, and how often the work is done in a run.
WORKS = (
    ("put in, in one call", "fill", "lines", 1),
    ("put in one by one, anywhere", "insert", "lines", 1),
    ("taken out one by one, anywhere", "remove", "fill", 1),
    ("found by number, one after the other", "walk", "fill", 10),
)

# What a line in a plain array costs at least.
FLOORS = (("a plain array: a look at a line, anywhere", "look"), ("a plain array: a line freed, anywhere", "free"))
FLOOR = os.path.join(os.path.dirname(os.path.abspath(__file__)), "floor.c")
COLLECTED = re.compile(r"Collected : (\d+)")

# Which lines stand in memory at most.
WEIGHTS = (
    ("the tree, put in a thousand in a call", "load", True),
    ("the tree, put in one by one, anywhere", "insert", True),
    ("the tree and the lines of the one call", "fill", False),
)


# Why what is missed is missed, beside what is measured above.
REASONS = """
What is done at a random place of a million lines waits for memory, and for the table of pages: hardly one of the
nodes on the way is in a cache. That a line at a random place costs no more than half as much again among a million as
among 10,000 can't be had on such a machine by anything that keeps each line in memory of its own: the last table says
that already a look at a line of a plain array, or to give its two blocks back, grows by several times as much. The
instructions, which don't wait, grow as the tree gets higher. With pages of 2 MB
(GLIBC_TUNABLES=glibc.malloc.hugetlb=1, which a program can't ask for itself) a removal took 63 to 82 percent of its
time. At each level some children are asked for their lines, each in a node of its own. One place in memory a level
would do if a node kept beside each link how many lines that child has; the map of records, which is all that is known
of the nodes, has each number at the child alone. Two nodes with 12 children in all share them rather than be one node,
so that edits of one line don't split and merge it by turns.

A full node shares with a neighbour before it splits, and the left one is filled where lines come in order: so lines
that are put in a thousand in a call leave 12 in a node, and lines put in anywhere 9.4 (7 and 8.4 where nodes split
alone, with 197 and 185 bytes a line). Of the bytes a line that is put in with a thousand others 4 are in spare nodes
and rooms for the next thousand, whatever would split (as many of each for a line as such a tree can have levels, and
two), 26 in one inner node for every twelve lines and in those above, and 144 in the line's own node and text.
"""


def small_stack():
    """Lets what runs next have a stack of 64 KiB."""
    resource.setrlimit(resource.RLIMIT_STACK, (STACK, STACK))


def run_once(program, work, count, before=None):
    """The seconds of processor and the bytes that one run takes, and what it prints: two numbers."""
    words = [program, work, str(count), str(LENGTH)]
    process = subprocess.Popen(words, stdout=subprocess.PIPE, env={}, preexec_fn=before)
    output = process.stdout.read()
    _, status, usage = os.wait4(process.pid, 0)
    process.returncode = os.waitstatus_to_exitcode(status)
    if process.returncode != 0:
        sys.exit(f"{work} of {count} lines ends with status {process.returncode}")
    lines, done = map(int, output.split())
    return usage.ru_utime + usage.ru_stime, usage.ru_maxrss * 1024, lines, done


def seconds(options, work, count):
    """The least seconds of several runs, which have to leave as many lines as they should."""
    runs = [run_once(options.program, work, count) for _ in range(options.repeat)]
    left = {"lines": count, "remove": 1}.get(work, count + 1)
    if any(run[2] != left for run in runs):
        sys.exit(f"{work} of {count} lines leaves {runs[0][2]}: this isn't timed")
    return min(run[0] for run in runs)


def times(options):
    """The table of times, and whether each aim is met."""
    works = ("lines", "fill", "insert", "remove", "walk")
    least = {(work, count): seconds(options, work, count) for work in works for count in COUNTS}
    head = "".join(f"{count:>12,}" for count in COUNTS)
    lines = [f"{'nanoseconds a line, of so many':<42}{head}{'growth':>10}{'seconds':>10}"]
    aims = []
    for name, work, idle, times_done in WORKS:
        each = [(least[work, count] - least[idle, count]) / times_done / count * 1e9 for count in COUNTS]
        if min(each) <= 0:
            sys.exit(f"{name}: less than nothing, so the machine isn't quiet enough")
        growth = each[-1] / each[0]
        total = each[-1] * COUNTS[-1] / 1e9
        lines.append(f"{name:<42}" + "".join(f"{took:>12.0f}" for took in each) + f"{growth:>10.2f}{total:>10.2f}")
        aims.append((growth <= MOST_GROWTH, f"{name}: a growth of at most {MOST_GROWTH}"))
        aims.append((total <= MOST_SECONDS, f"{name}: at most {MOST_SECONDS:.0f} s for the most lines"))
    return lines, aims


def instructions(options, work, count):
    """The instructions of one run."""
    words = [options.program, work, str(count), str(LENGTH)]
    run = subprocess.run(
        ["valgrind", "--tool=callgrind", f"--callgrind-out-file={os.devnull}", *words],
        capture_output=True, text=True, check=True,
    )
    return int(COLLECTED.search(run.stderr).group(1))


def counts(options):
    """The table of instructions, which the caches of a machine don't change."""
    if not shutil.which("valgrind"):
        return ["(no valgrind: instructions aren't counted)"]
    works = ("lines", "fill", "insert", "remove", "walk")
    taken = {(work, count): instructions(options, work, count) for work in works for count in COUNTS}
    head = "".join(f"{count:>12,}" for count in COUNTS)
    lines = [f"{'instructions a line, of so many':<42}{head}{'growth':>10}"]
    for name, work, idle, times_done in WORKS:
        each = [(taken[work, count] - taken[idle, count]) / times_done / count for count in COUNTS]
        lines.append(f"{name:<42}" + "".join(f"{took:>12.0f}" for took in each) + f"{each[-1] / each[0]:>10.2f}")
    return lines


def floors():
    """The table of what lines in a plain array cost."""
    head = "".join(f"{count:>12,}" for count in COUNTS)
    lines = [f"{'nanoseconds a line, of so many':<42}{head}{'growth':>10}"]
    with tempfile.TemporaryDirectory() as folder:
        program = os.path.join(folder, "floor")
        subprocess.run(["cc", "-O2", "-o", program, FLOOR], check=True)
        for name, work in FLOORS:
            each = [
                float(subprocess.run([program, work, str(count)], capture_output=True, text=True, check=True).stdout)
                for count in COUNTS
            ]
            lines.append(f"{name:<42}" + "".join(f"{took:>12.0f}" for took in each) + f"{each[-1] / each[0]:>10.2f}")
    return lines


def weigh(options, work, count):
    """The most bytes that one run holds at once."""
    with tempfile.TemporaryDirectory() as folder:
        report = os.path.join(folder, "weight.txt")
        shim = {"LD_PRELOAD": os.path.abspath(options.shim), "WEIGHT_REPORT": report}
        subprocess.run([options.program, work, str(count), str(LENGTH)], env=shim, capture_output=True, check=True)
        with open(report, encoding="ascii") as file:
            return int(file.read().split()[2])


def weights(options):
    """The table of memory, and whether each aim is met."""
    count = COUNTS[-1]
    lines = [f"{f'bytes a line, of {count:,} of {LENGTH} characters':<52}{'bytes':>10}"]
    aims = []
    for name, work, is_aim in WEIGHTS:
        each = (weigh(options, work, count) - weigh(options, work, 0)) / count
        lines.append(f"{name:<52}{each:>10.1f}")
        if is_aim:
            aims.append((each <= MOST_BYTES, f"{name}: at most {MOST_BYTES} bytes a line"))
    return lines, aims


def checks(options):
    """What is looked at besides."""
    differences = run_once(options.program, "mixed", SPLICES)[3]
    _, _, left, _ = run_once(options.program, "fill", COUNTS[-1], small_stack)
    return [
        (differences == 0, f"{SPLICES:,} random splices, with {differences} differences from a plain list"),
        (left == COUNTS[-1] + 1, f"{left:,} lines are dropped on a stack of {STACK // 1024} KiB"),
    ]


def main():
    parser = argparse.ArgumentParser(description="times and weighs the tree of lines")
    parser.add_argument("--program", required=True)
    parser.add_argument("--shim", required=True)
    parser.add_argument("--out", required=True)
    parser.add_argument("--repeat", type=int, default=3)
    options = parser.parse_args()
    took, time_aims = times(options)
    weigh, weight_aims = weights(options)
    aims = time_aims + weight_aims + checks(options)
    lines = [f"What is done with lines of {LENGTH} characters in the tree of lines.", ""] + took + [""]
    lines += counts(options) + [""] + floors() + [""] + weigh + [""]
    lines += [("met     " if is_met else "MISSED  ") + words for is_met, words in aims]
    text = "".join(line + "\n" for line in lines) + REASONS
    print(text, end="")
    with open(options.out, "w", encoding="utf-8") as file:
        file.write(text)
    return 0 if all(is_met for is_met, _ in aims) else 1


if __name__ == "__main__":
    sys.exit(main())
