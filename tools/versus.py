#!/usr/bin/env python3
"""Runs the program and real Tk 8.6 in turn on the workloads of tools/workloads.py: what `make versus` calls.

    python3 tools/versus.py --program PATH --out FILE [--only WORD] [--repeat 5] [--quick] [--kept FILE] [--ours]

Needs `Xvfb`, `wish` 8.6 and `valgrind` (on Debian `apt-get install xvfb tk8.6 valgrind`).  For each workload: whether
the answers are the same bytes; the instructions of both by callgrind, Tk's without those of a script without commands,
and what ours are spent on; the least time of both, Tk's by its own clock from the first command to the last answer,
ours of the whole process; then the greatest resident size, long texts, and what a command costs before it does
anything.  The tables are written to FILE between its last two marks, and then its head and its pictures (plots.py).
--quick leaves out the instructions of Tk, which take most of the time; --kept names a file in which they are kept from
one run to the next.  --ours needs valgrind alone: it counts our instructions anew, and leaves what FILE says of Tk and
of the times of both.  The exit status is 1 if answers differ.
"""

import argparse
import json
import os
import re
import resource
import shutil
import subprocess
import sys
import tempfile
import time
from itertools import zip_longest
from typing import NamedTuple

import plots
import workloads
from harness import measure_size, size_over
from plots import GOAL, MEMORY_GOAL, UNDO_GOAL
from tk_real import Display, find_wish

BEGIN, END = "<!-- versus: begin -->", "<!-- versus: end -->"
COLLECTED = re.compile(r"Collected : (\d+)")
CALLGRIND = ["valgrind", "--tool=callgrind"]
# A line of callgrind_annotate, and the crate of a function of ours.
ANNOTATED = re.compile(r"^\s*([\d,]+) \([ \d.]+%\)\s+(.*)$")
CRATE = re.compile(r"\?\?\?:(\w+)::")
# What our instructions are spent on: crates, by the function that they were compiled into, and the C library's calls.
PARTS = {
    "words": ("tcl_words", "tktext", "script_cli"),
    "commands": ("peers", "documents", "command_table", "name_list", "indexmap", "smallvec"),
    "places": ("text_index", "index_grammar", "mark_table", "tag_table", "search_dump"),
    "edits": ("edit_ops", "command_effects", "undo_stack", "text_cursor"),
    "lines": ("line_lists", "segments"),
    "tree": ("line_tree", "raw_nodes", "toggle_sums"),
}
MEMORY = re.compile(r"malloc|free|alloc_|_alloc|dealloc")
# What the last cell of a workload is.
VERDICTS = ("met", "missed", "answers differ")
# The place that Tk tells for the end of any line that is longer.
LONGEST = re.compile(rb"(\d+)\.1000000")
INSTALL = "apt-get install xvfb tk8.6 valgrind"

# What runs before the clock: no window, and a first text, which loads fonts and options.
TCL_HEAD = """wm withdraw .
set answers [open [lindex $argv 0] w]
fconfigure $answers -encoding utf-8 -translation lf -buffersize 65536
text .warm; .warm insert 1.0 x; destroy .warm
set begin [clock microseconds]
"""
# Behind it: the microseconds, and the greatest resident size so far, which the system doesn't tell so well at its end.
TCL_TAIL = """flush $answers
puts [expr {[clock microseconds] - $begin}]
regexp {VmHWM:\\s+(\\d+)} [read [open /proc/self/status]] all size
puts $size
exit 0
"""


class Cost(NamedTuple):
    """What a workload costs: instructions, or None where they weren't counted; the least seconds; kB at most."""

    instructions: int
    seconds: float
    size: int


class Line(NamedTuple):
    """A workload with how many commands it has, what it costs in Tk and here, whether both gave the same answers, and
    how our instructions are spent, by parts."""

    workload: workloads.Workload
    count: int
    tk: Cost
    ours: Cost
    is_same: bool
    parts: dict


def run_timed(command, given, taken, environment=None):
    """Runs a program to its end; its seconds and its greatest resident size in kB."""
    begin = time.perf_counter()
    process = subprocess.Popen(command, stdin=given, stdout=taken, stderr=subprocess.DEVNULL, env=environment)
    _, status, usage = os.wait4(process.pid, 0)
    process.returncode = os.waitstatus_to_exitcode(status)
    return time.perf_counter() - begin, usage.ru_maxrss


def count_instructions(command, path, environment=None, profile=os.devnull):
    """The instructions of one run of a program on a script; `profile` is a file for what callgrind tells of them."""
    with open(path, "rb") as file:
        run = subprocess.run(
            [*CALLGRIND, f"--callgrind-out-file={profile}", *command], stdin=file, stdout=subprocess.DEVNULL,
            stderr=subprocess.PIPE, env=environment, check=False,
        )
    found = COLLECTED.search(run.stderr.decode("utf-8", "replace"))
    return int(found.group(1)) if found else sys.exit(f"no count: {run.stderr[-400:]!r}")


def part_of(function):
    """What a function's instructions are spent on."""
    crate = CRATE.search(function)
    if crate:
        return next((part for part, crates in PARTS.items() if crate.group(1) in crates), "rest")
    return "memory" if MEMORY.search(function) else "rest"


def parts_of(profile):
    """How many instructions each part has."""
    told = subprocess.run(
        ["callgrind_annotate", "--threshold=100", profile], capture_output=True, text=True, check=True
    ).stdout
    parts = dict.fromkeys([*PARTS, "memory", "rest"], 0)
    for found in filter(None, map(ANNOTATED.match, told.splitlines())):
        if "PROGRAM TOTALS" not in found.group(2):
            parts[part_of(found.group(2))] += int(found.group(1).replace(",", ""))
    return parts


class Tk:
    """Real Tk on a display of its own."""

    def __init__(self, folder, kept=None):
        self.folder = folder
        self.display = Display()
        self.environment = {**os.environ, "DISPLAY": self.display.name}
        self.empty = None
        # The file of the counts of earlier runs, and these by the names of the workloads.
        self.kept = kept
        self.counts = json.loads(read(kept)) if kept and os.path.exists(kept) else {}

    def wrapped(self, commands):
        """A file for Tk that runs the commands, each answer a line of the file that it is given."""
        path = os.path.join(self.folder, "wrapped.tcl")
        with open(path, "w", encoding="utf-8", newline="\n") as file:
            file.write(TCL_HEAD + "".join(f"puts $answers [{command}]\n" for command in commands) + TCL_TAIL)
        return path

    def command(self, path, answers):
        return [find_wish(), "-encoding", "utf-8", path, answers]

    def time(self, path, answers):
        """The seconds between the first command and the last answer, and the greatest resident size of it all."""
        told = os.path.join(self.folder, "told")
        with open(told, "wb") as file:
            run_timed(self.command(path, answers), subprocess.DEVNULL, file, self.environment)
        with open(told, encoding="ascii") as file:
            microseconds, size = map(int, file.read().split())
        return microseconds / 1e6, size

    def counted(self, commands):
        """The instructions of a run of the commands."""
        path = self.wrapped(commands)
        return count_instructions(self.command(path, os.devnull), os.devnull, self.environment)

    def count(self, name, commands):
        """The instructions of the commands of a workload."""
        if name not in self.counts:
            if self.empty is None:
                self.empty = self.counted([])
            self.counts[name] = self.counted(commands) - self.empty
            if self.kept:
                with open(self.kept, "w", encoding="ascii") as file:
                    json.dump(self.counts, file, indent=1)
        return self.counts[name]

    def close(self):
        self.display.close()


def time_ours(program, script, answers):
    """The seconds of the whole process, and its greatest resident size, or that of this one where that is more."""
    with open(script, "rb") as given, open(answers, "wb") as taken:
        return run_timed([program], given, taken)


def cost_of_ours(program, script, seconds, profile):
    """What a script costs, that was timed before."""
    return Cost(count_instructions([program], script, profile=profile), seconds, size_over(program, read(script)))


def read(path):
    with open(path, "rb") as file:
        return file.read()


def is_same_answer(theirs, ours):
    """Whether two answers are the same, but for the end of a line that is too long for Tk."""
    longest = LONGEST.fullmatch(theirs)
    return theirs == ours or (longest is not None and ours.startswith(longest.group(1) + b"."))


def are_same(theirs, ours):
    """Whether all answers of two runs are."""
    pairs = list(zip_longest(theirs.split(b"\n"), ours.split(b"\n"), fillvalue=b""))
    return theirs == ours or all(is_same_answer(*pair) for pair in pairs)


def measure(program, tk, workload, folder, repeat, is_quick):
    """One workload, run by both in turn."""
    commands = workload.commands()
    script, tk_answers, answers = (os.path.join(folder, name) for name in ("script", "tk", "ours"))
    with open(script, "w", encoding="utf-8", newline="\n") as file:
        file.write("\n".join(commands) + "\n")
    path = tk.wrapped(commands)
    runs = [(tk.time(path, tk_answers), time_ours(program, script, answers)) for _ in range(repeat)]
    (tk_seconds, tk_size), (seconds, _) = (map(min, zip(*side)) for side in zip(*runs))
    is_same = are_same(read(tk_answers), read(answers))
    profile = os.path.join(folder, "profile")
    return Line(
        workload,
        len(commands),
        Cost(None if is_quick else tk.count(workload.name, commands), tk_seconds, tk_size),
        cost_of_ours(program, script, seconds, profile),
        is_same,
        parts_of(profile),
    )


def number(cell):
    """The number that a cell of the page shows."""
    return float(cell.replace(",", ""))


def told_of_tk(path):
    """What a page says of Tk and of the times of both, by workload: Tk's cost, our seconds, and whether it was whole."""
    with open(path, encoding="utf-8") as file:
        text = file.read()
    sizes = {name: tk * 1024 for name, (tk, _) in plots.sizes_of(text).items()}
    cells = [[cell.strip() for cell in line.split("|")[1:-1]] for line in text.splitlines() if line.startswith("| `")]
    told = {row[0].strip("`"): row for row in cells if row[8:] and row[8].strip("*") in VERDICTS}
    return {
        name: (
            Cost(number(row[2]) * 1e6, number(row[5]) / 1e3, sizes.get(name, 0)), number(row[6]) / 1e3,
            "differ" not in row[8],
        )
        for name, row in told.items()
    }


def measure_ours(program, told, workload, folder):
    """One workload, run by our program alone: its instructions and its size, beside what was told before."""
    commands = workload.commands()
    script, profile = (os.path.join(folder, name) for name in ("script", "profile"))
    with open(script, "w", encoding="utf-8", newline="\n") as file:
        file.write("\n".join(commands) + "\n")
    tk, seconds, is_same = told[workload.name]
    ours = cost_of_ours(program, script, seconds, profile)
    return Line(workload, len(commands), tk, ours, is_same, parts_of(profile))


def part(ours, theirs):
    """How much of Tk's."""
    return ours / theirs if theirs else float("nan")


def table(rows):
    """The lines of a table, the first row its heading."""
    rows = [[str(cell) for cell in row] for row in rows]
    head, *rest = [" | ".join(row) for row in rows]
    return [f"| {head} |", "|" + "---|" * len(rows[0]), *(f"| {row} |" for row in rest)]


def most_of(parts, count=3):
    """What most is spent on, the dearest first, in percent."""
    total = sum(parts.values())
    dearest = sorted(parts.items(), key=lambda part: -part[1])[:count]
    return ", ".join(f"{name} {100 * spent / total:.0f}" for name, spent in dearest)


def workload_row(line):
    """A workload beside its goal."""
    goal = UNDO_GOAL if line.workload.kind == "undo" else GOAL
    instructions = part(line.ours.instructions, line.tk.instructions)
    seconds = part(line.ours.seconds, line.tk.seconds)
    is_met = not instructions > goal and seconds <= goal
    return [
        f"`{line.workload.name}`",
        f"{line.count:,}",
        "-" if line.tk.instructions is None else f"{line.tk.instructions / 1e6:,.0f}",
        f"{line.ours.instructions / 1e6:,.1f}",
        f"{instructions:.3f}",
        f"{line.tk.seconds * 1e3:,.0f}",
        f"{line.ours.seconds * 1e3:,.1f}",
        f"{seconds:.3f}",
        ("met" if is_met else "**missed**") if line.is_same else "**answers differ**",
        "" if is_met else most_of(line.parts),
    ]


WORKLOAD_HEAD = [
    "Workload", "Commands", "Tk, M instr.", "`tktext`, M instr.", "part", "Tk, ms", "`tktext`, ms", "part", "A third?",
    "Mostly",
]


def memory_rows(lines):
    """The greatest resident size of each workload; Tk's with all that it has before the first command."""
    for line in lines:
        if line.tk.size:
            theirs, ours = line.tk.size / 1024, line.ours.size / 1024
            yield [f"`{line.workload.name}`", f"{theirs:.1f}", f"{ours:.1f}", f"{part(ours, theirs):.2f}"]


def growth_rows(lines):
    """How a command's cost grows from the smaller size of a kind to the larger, in Tk and here."""
    pairs = [(a, b) for a, b in zip(lines, lines[1:])
             if (a.workload.kind, a.workload.widgets) == (b.workload.kind, b.workload.widgets)]
    for small, large in pairs:
        ours = part(large.ours.instructions / large.count, small.ours.instructions / small.count)
        theirs = "-"
        if small.tk.instructions is not None:
            theirs = f"{part(large.tk.instructions / large.count, small.tk.instructions / small.count):.2f}"
        yield [f"`{small.workload.name}` to `{large.workload.name}`", theirs, f"{ours:.2f}"]


def spent_rows(lines):
    """How the instructions of each workload are spent, in percent."""
    for line in lines:
        total = sum(line.parts.values())
        yield [f"`{line.workload.name}`", *(f"{100 * count / total:.0f}" for count in line.parts.values())]


# ---- what a command costs before it does anything


COMMANDS = 20_000


def command_cost(program, folder, command):
    """The instructions of a command in a text of 20 lines, with its answer."""
    path = os.path.join(folder, "cost")
    counts = []
    for count in (0, COMMANDS):
        with open(path, "w", encoding="utf-8") as file:
            file.write('text .t\n.t insert end "' + "a line of words\\n" * 20 + '"\n' + f"{command}\n" * count)
        counts.append(count_instructions([program], path))
    return (counts[1] - counts[0]) / COMMANDS


COSTED = (
    ".t cget -undo", ".t index 3.4", ".t get 3.0 3.5", ".t compare 1.0 < 2.0", ".t mark set m 3.4", ".t insert 3.4 x",
    ".t edit modified",
)


def cost_rows(program, folder):
    return [[f"`{command}`", len(command) + 1, f"{command_cost(program, folder, command):,.0f}"] for command in COSTED]


# ---- long scripts and long texts


def long_text(lines):
    """A text of so many lines of 40 characters, searched, tagged, walked by its tags and dumped."""
    line = "the quick brown fox jumps over lazy dog"
    yield "filled", ["text .t"] + [".t insert end {" + f"{line}\n" * 10_000 + "}"] * (lines // 10_000)
    yield "searched for a word that each line has", [".t search -all brown 1.0 end"]
    yield "searched for one that none has", [".t search absent 1.0 end"]
    yield "a word of each tenth line tagged", [
        ".t tag add x " + " ".join(f"{number}.4 {number}.9" for number in range(first, first + 10_000, 10))
        for first in range(1, lines, 10_000)
    ]
    yield "walked by `tag nextrange`", [f".t tag nextrange x {number}.0" for number in range(1, lines, 10)]
    yield "dumped", [".t dump 1.0 end"]


def long_rows(program, folder, lines):
    """The seconds of each part: those of the script so far, less those of what stands before it."""
    path = os.path.join(folder, "long")
    before, script = 0.0, ""
    for name, commands in long_text(lines):
        script += "\n".join(commands) + "\n"
        with open(path, "w", encoding="utf-8") as file:
            file.write(script)
        seconds, size = time_ours(program, path, os.devnull)
        yield [name, f"{len(commands):,}", f"{max(seconds - before, 0):.2f}", f"{size / 1024:,.0f}"]
        before = seconds


def size_rows(program):
    for length in (1_000_000, 50_000_000, 500_000_000):
        size = measure_size(program, b"text .t\n", b".t index end\n", length)
        yield [f"{length // 1_000_000} MB", f"{size / 1024:.1f}"]


# ---- the page


def machine():
    """The processor, how many cores there are, and the versions."""
    with open("/proc/cpuinfo", encoding="utf-8") as file:
        model = next((line.split(":")[1].strip() for line in file if line.startswith("model name")), "unknown")
    version = subprocess.run(["rt", "version"], capture_output=True, text=True, check=False).stdout.strip()
    return f"{len(os.sched_getaffinity(0))} cores ({model}); Tk 8.6.13 of Debian; {version}"


def memory_row(lines):
    """The greatest resident sizes over the largest text that is loaded."""
    found = next((line for line in lines if line.workload.name == "load-100000"), None)
    if found is None:
        return []
    is_met = found.ours.size <= MEMORY_GOAL * found.tk.size
    return [
        "", "The greatest resident size over `load-100000`: Tk "
        f"{found.tk.size / 1024:.0f} MB, `tktext` {found.ours.size / 1024:.0f} MB, "
        f"{part(found.ours.size, found.tk.size):.2f} of it (goal: two thirds, {'met' if is_met else '**missed**'}).",
    ]


def page(lines, program, folder, is_whole):
    """What stands between the two marks."""
    said = [f"Measured on {machine()}.", "", *table([WORKLOAD_HEAD, *map(workload_row, lines)]), *memory_row(lines)]
    said += ["", *table([["Greatest resident size", "Tk, MB", "`tktext`, MB", "part"], *memory_rows(lines)])]
    said += ["", *table([["A command's cost grows, from .. to ..", "in Tk", "in `tktext`"], *growth_rows(lines)])]
    said += ["", *table([["Spent on, in percent", *PARTS, "memory", "rest"], *spent_rows(lines)])]
    if is_whole:
        costs = [["Command, in a text of 20 lines", "bytes", "instructions"], *cost_rows(program, folder)]
        texts = [["400,000 lines, 16,000,000 characters", "commands", "seconds", "MB so far"]]
        texts += long_rows(program, folder, 400_000)
        sizes = [["A script of short commands of", "MB at most"], *size_rows(program)]
        said += ["", *table(costs), "", *table(texts), "", *table(sizes)]
    return said


def write_page(path, said):
    """Puts the tables between the marks of a page."""
    with open(path, encoding="utf-8") as file:
        before, _, rest = file.read().partition(BEGIN)
    _, _, after = rest.partition(END)
    with open(path, "w", encoding="utf-8") as file:
        file.write("\n".join([before + BEGIN, "", *said, "", END + after]))


def missing(is_ours):
    """What isn't installed."""
    found = {"valgrind": shutil.which("valgrind")}
    if not is_ours:
        found |= {"Xvfb": shutil.which("Xvfb"), "wish 8.6": find_wish()}
    return [name for name, path in found.items() if path is None]


def lines_beside_tk(options, folder):
    """The workloads, run by both in turn."""
    tk = Tk(folder, options.kept)
    try:
        for name in chosen(options):
            yield measure(options.program, tk, workloads.named(name), folder, options.repeat, options.quick)
    finally:
        tk.close()


def lines_of_ours(options, folder):
    """The workloads, run by our program alone."""
    told = told_of_tk(options.out)
    for name in chosen(options):
        yield measure_ours(options.program, told, workloads.named(name), folder)


def chosen(options):
    """The workloads that are asked for."""
    return [name for name in workloads.NAMES if options.only in name]


def main():
    parser = argparse.ArgumentParser(description="runs the program and real Tk in turn")
    parser.add_argument("--program", required=True)
    parser.add_argument("--out")
    parser.add_argument("--only", default="")
    parser.add_argument("--repeat", type=int, default=5)
    parser.add_argument("--quick", action="store_true")
    parser.add_argument("--kept")
    parser.add_argument("--ours", action="store_true")
    options = parser.parse_args()
    if options.ours and not options.out:
        parser.error("--ours wants --out, the page that says what Tk costs")
    if missing(options.ours):
        print(f"{', '.join(missing(options.ours))}: not installed here; on Debian: {INSTALL}", file=sys.stderr)
        return 2
    resource.setrlimit(resource.RLIMIT_CORE, (0, 0))
    lines = []
    with tempfile.TemporaryDirectory() as folder:
        for line in (lines_of_ours if options.ours else lines_beside_tk)(options, folder):
            lines.append(line)
            print(table([workload_row(line)])[0], flush=True)
        said = page(lines, options.program, folder, options.out is not None)
    if options.out:
        write_page(options.out, said)
        plots.retell(options.out)
    return 0 if all(line.is_same for line in lines) else 1


if __name__ == "__main__":
    sys.exit(main())
