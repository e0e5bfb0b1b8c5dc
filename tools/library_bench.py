#!/usr/bin/env python3
"""Counts what one call of the library costs in process, next to real Tk: what `make library-bench` calls.

    python3 tools/library_bench.py [--library out/libtktext.a] [--only WORD] [--write]
    python3 tools/library_bench.py --check [--library out/libtktext.a]

The workloads are those of library_bench.c. Their commands are given by their words: to the library by tktext_call, and
to a text widget of real Tk, in a process of the same kind, by Tcl_EvalObjv. A plain model checks the answers of both
before anything is counted. The table has the instructions of an operation, by callgrind, and the blocks that the
library allocates in a call, by a build that counts them. --library names another archive, such as the unproved
out/try/libtktext.a. --write writes the table to docs/bench_library.txt, and refuses an unproved library. --check checks
the answers alone, on small texts, and ends in a line `N passed, M failed`.

Needs a C compiler and valgrind, and for real Tk Xvfb and Tk's headers (on Debian `apt-get install xvfb tk8.6-dev`).
Without them the cells of Tk stay empty. A line that begins with `skipped:` names what is left out.
"""

import argparse
import os
import shutil
import subprocess
import sys
import tempfile
import textwrap
from concurrent.futures import ThreadPoolExecutor
from typing import NamedTuple

from examples import TCL_INCLUDE
from gains import commit_now
from harness import LONG_TIMEOUT_SECONDS, Tally
from tk_real import Display
from versus import count_instructions

TOP = os.path.dirname(os.path.dirname(os.path.abspath(__file__)))
LIBRARY = os.path.join(TOP, "out", "libtktext.a")
TABLE = os.path.join(TOP, "docs", "bench_library.txt")
WIDTH = 120
LINES, CHECKED_LINES, CHECKED_OPERATIONS = 100_000, 2_000, 200
# The function of library_bench.c that callgrind counts.
COUNTED = "--toggle-collect=counted_call"
COUNTS_BLOCKS = ["-DCOUNTS_BLOCKS", "-Wl,--wrap=malloc,--wrap=realloc"]
NOT_PROVED = "not proved"
NEEDED_OF_TK = {"Xvfb": "xvfb", "Tk's headers": "tk8.6-dev"}


class Workload(NamedTuple):
    """A workload of library_bench.c: its name, what an operation is, and the number of operations that are counted.

    `tk_operations` is the number in real Tk, where an operation takes long there.
    """

    name: str
    operation: str
    operations: int = 10_000
    tk_operations: int = None
    lines: int = LINES

    @property
    def word(self):
        """The name as library_bench.c has it."""
        return self.name.replace(" ", "_")

    @property
    def is_load(self):
        """Whether one call makes all operations, each a line."""
        return self.name == "load"

    def in_tk(self):
        """The same with the number of operations in real Tk."""
        return self._replace(operations=self.tk_operations or self.operations)

    def small(self):
        """The same on a small text."""
        lines = min(self.lines, CHECKED_LINES)
        return self._replace(lines=lines, operations=lines if self.is_load else CHECKED_OPERATIONS)


WORKLOADS = [
    Workload("edit", "`insert` of 1 to 10 characters at a random position, or `delete` of as many in a random line"),
    Workload("edit with undo", "the same, with -undo 1"),
    Workload("tag", "`tag add` of one of four tags to 1 to 10 characters in a random line"),
    Workload("recolour", "4 `tag remove`, of each tag from a line; 4 `tag add`, of each to another range of it", 2_000),
    Workload("mark", "`mark set` of one of 100 marks to a random position"),
    Workload("position", "`count -chars 1.0 I` for a random I, and `index {1.0 + N chars}` back", tk_operations=30),
    Workload("line read", "`get` of a random line"),
    Workload("key", "`insert` of a character at the mark insert, with -undo 1; a random position after each 40"),
    Workload("load", "a line of one `insert` of the whole text", LINES),
    Workload("undo", "`edit undo` of an edit as in the first row; Tk's scrolls to it too, most of its cost", 2_000),
    Workload("long line", "an edit as in the first row, in a text of one line of 1,048,576 characters", 100, lines=1),
]
# The commands of the second table, with the workload whose calls are counted.
COMMANDS = {
    "insert": "edit", "delete": "edit", "tag add": "tag", "tag remove": "recolour", "mark set": "mark",
    "index": "position", "count": "position", "get": "line read", "edit undo": "undo",
}
HEAD = (
    "Instructions of an operation in process, by callgrind, on a text of {lines:,} lines of 40 to 60 ASCII characters. "
    "`tktext` is {version}, commit {commit}, by tktext_call and tktext_said; `Tk` is {tk}, by Tcl_EvalObjv. Both are "
    "counted from the bytes of a command's words to the bytes of its answer. tktext's counts are the same in each run; "
    "Tk's vary by up to 1%, as its addresses do. `part` is tktext's count divided by Tk's. "
    "`mean` and `maximum` are the blocks that tktext allocates in one call, by malloc and realloc."
)
ROW = "{:<16}{:>6}{:>12}{:>14}{:>8}{:>12}{:>10}"
COMMAND_ROW = "{:<16}{:<16}{:>8}{:>10}"
TITLES = ("operation", "calls", "tktext", "Tk", "part", "mean", "maximum")
COMMAND_TITLES = ("blocks of", "in", "mean", "maximum")
MINIMUM_PART = 0.01


class Blocks(NamedTuple):
    """The number of calls, of the blocks that they allocated, and the maximum of one call."""

    calls: int
    blocks: int
    maximum: int

    def cells(self):
        return f"{self.blocks / self.calls:,.1f}", f"{self.maximum:,}"


class Program(NamedTuple):
    """A build of library_bench.c, and its environment."""

    path: str
    environment: dict


class Row(NamedTuple):
    """What was measured of a workload: blocks by kind of command, and instructions of an operation; None without Tk."""

    workload: Workload
    kinds: dict
    ours: float
    tk: float


class WrongAnswer(Exception):
    """A run of a workload failed."""


def source(name):
    return os.path.join(TOP, "tools", name)


def build(folder, name, *words):
    """Compiles library_bench.c with an implementation, and returns the path of the program."""
    path = os.path.join(folder, name)
    flags = ["-Wall", "-Wextra", "-O2", "-I" + os.path.join(TOP, "include")]
    subprocess.run(["cc", *flags, source("library_bench.c"), *words, "-o", path], check=True)
    return path


def missing_of_tk():
    """What real Tk needs and isn't installed."""
    headers = os.path.join(TCL_INCLUDE, "tk.h")
    return [name for name, found in zip(NEEDED_OF_TK, (shutil.which("Xvfb"), os.path.exists(headers))) if not found]


class Programs:
    """The builds: with the library, with the library and its blocks counted, and with real Tk or None."""

    def __init__(self, library, folder):
        # The counts must not depend on the user's variables.
        environment = {"PATH": os.environ.get("PATH", os.defpath)}
        ours = [source("library_bench_tktext.c"), library]
        self.ours = Program(build(folder, "ours", *ours), environment)
        self.blocks = Program(build(folder, "blocks", *COUNTS_BLOCKS, *ours), environment)
        self.tk = self.display = None
        if not missing_of_tk():
            tk = [f"-I{TCL_INCLUDE}", source("library_bench_tk.c"), "-ltk8.6", "-ltcl8.6"]
            path = build(folder, "tk", *tk)
            self.display = Display()
            self.tk = Program(path, environment | {"DISPLAY": self.display.name})

    def close(self):
        if self.display:
            self.display.close()


def command_of(program, workload):
    return [program.path, workload.word, str(workload.lines), str(workload.operations)]


def run_checked(program, workload):
    """Runs a workload, which checks its answers, and returns its blocks by kind of command."""
    done = subprocess.run(
        command_of(program, workload), capture_output=True, text=True, env=program.environment,
        timeout=LONG_TIMEOUT_SECONDS,
    )
    if done.returncode:
        raise WrongAnswer(f"workload {workload.name!r}: status {done.returncode}: {done.stderr.strip()}")
    lines = (line.split(" ", 3) for line in done.stdout.splitlines()[1:])
    return {name: Blocks(*map(int, numbers)) for *numbers, name in lines}


def count(program, workload):
    """The instructions of an operation."""
    command = [COUNTED, *command_of(program, workload)]
    return count_instructions(command, os.devnull, program.environment) / workload.operations


def version_of(program):
    command = [program.path, "version"]
    done = subprocess.run(command, stdout=subprocess.PIPE, text=True, env=program.environment, check=True)
    return done.stdout.strip()


def measure(programs, workload):
    """The row of a workload, whose answers are checked first."""
    kinds = run_checked(programs.blocks, workload)
    run_checked(programs.ours, workload)
    if programs.tk is None:
        return Row(workload, kinds, count(programs.ours, workload), None)
    run_checked(programs.tk, workload.in_tk())
    return Row(workload, kinds, count(programs.ours, workload), count(programs.tk, workload.in_tk()))


def measure_all(programs, workloads):
    """The rows, which are printed as they come. Each core takes a workload, since instructions don't depend on load."""
    rows = []
    with ThreadPoolExecutor(len(os.sched_getaffinity(0))) as cores:
        for row in cores.map(lambda workload: measure(programs, workload), workloads):
            print(row_text(row), flush=True)
            rows.append(row)
    return rows


# ---- the table


def in_all(kinds):
    """The blocks of all kinds of command."""
    calls, blocks, maximum = zip(*kinds.values())
    return Blocks(sum(calls), sum(blocks), max(maximum))


def tk_cells(row):
    """Tk's instructions, and tktext's part of them."""
    if row.tk is None:
        return "", ""
    part = row.ours / row.tk
    return f"{row.tk:,.0f}", f"{part:.2f}" if part >= MINIMUM_PART else f"<{MINIMUM_PART}"


def row_text(row):
    blocks = in_all(row.kinds)
    calls = "-" if row.workload.is_load else f"{blocks.calls / row.workload.operations:g}"
    return ROW.format(row.workload.name, calls, f"{row.ours:,.0f}", *tk_cells(row), *blocks.cells())


def command_lines(rows):
    """The blocks of each command of the second table."""
    kinds = {row.workload.name: row.kinds for row in rows}
    shown = [(command, name) for command, name in COMMANDS.items() if name in kinds]
    return [COMMAND_ROW.format(command, name, *kinds[name][command].cells()) for command, name in shown]


def operation_lines(rows):
    """What an operation of each row is."""
    for workload in (row.workload for row in rows):
        yield f"{workload.name:<16}{workload.operation}"
        if workload.tk_operations:
            yield f"{'':16}(Tk: the first {workload.tk_operations:,} of {workload.operations:,})"


def table(programs, rows):
    """The text of the page."""
    tk = version_of(programs.tk) if programs.tk else "not installed"
    head = HEAD.format(lines=LINES, version=version_of(programs.ours), commit=commit_now(), tk=tk)
    lines = textwrap.wrap(head, WIDTH) + ["", ROW.format(*TITLES), *map(row_text, rows)]
    lines += ["", COMMAND_ROW.format(*COMMAND_TITLES), *command_lines(rows)]
    lines += ["", "An operation, without undo unless it is named:", "", *operation_lines(rows)]
    return "".join(line.rstrip() + "\n" for line in lines)


# ---- the command line


def say_skipped(what, names, packages):
    missing = ", ".join(names)
    print(f"skipped: {what}: {missing} not installed (Debian: apt-get install {' '.join(packages)})", flush=True)


def say_without_tk(workloads):
    """Names the workloads that don't run in real Tk."""
    missing = missing_of_tk()
    if missing:
        names = ", ".join(workload.name for workload in workloads)
        say_skipped(f"in Tk: {names}", missing, [NEEDED_OF_TK[name] for name in missing])


def check(programs, workloads):
    """Checks the answers of each build on small texts."""
    tally = Tally()
    for workload in (workload.small() for workload in workloads):
        for program in filter(None, (programs.ours, programs.blocks, programs.tk)):
            try:
                run_checked(program, workload)
                tally.passed()
            except WrongAnswer as error:
                tally.failed(str(error))
    return tally.close()


def show(programs, workloads, is_written):
    """Measures, and prints the table; writes it too if it is asked to."""
    print(ROW.format(*TITLES))
    text = table(programs, measure_all(programs, workloads))
    print("\n" + text, end="")
    if is_written:
        with open(TABLE, "w", encoding="ascii") as file:
            file.write(text)
    return 0


def run(options, programs):
    workloads = [workload for workload in WORKLOADS if options.only in workload.name]
    if options.write and version_of(programs.ours).endswith(NOT_PROVED):
        sys.exit(f"library_bench: cannot write figures of {options.library!r}: it is not proved; run `make lib`")
    say_without_tk(workloads)
    return check(programs, workloads) if options.check else show(programs, workloads, options.write)


def read_options():
    parser = argparse.ArgumentParser(description="counts what one call of the library costs in process")
    parser.add_argument("--library", default=LIBRARY, help="the archive to measure")
    parser.add_argument("--only", default="", help="measures the rows whose names contain this")
    parser.add_argument("--write", action="store_true", help="writes docs/bench_library.txt")
    parser.add_argument("--check", action="store_true", help="checks the answers alone, on small texts")
    options = parser.parse_args()
    if options.write and (options.only or options.check):
        parser.error("--write needs all rows: leave out --only and --check")
    return options


def main():
    options = read_options()
    absent = [name for name in ("cc", *(["valgrind"] * (not options.check))) if shutil.which(name) is None]
    if absent:
        say_skipped("all workloads", absent, ["gcc", "valgrind"])
        print("0 passed, 0 failed")
        return 0 if options.check else 1
    if not os.path.exists(options.library):
        sys.exit(f"library_bench: cannot open {options.library!r}: run `make lib`")
    with tempfile.TemporaryDirectory() as folder:
        programs = Programs(options.library, folder)
        try:
            return run(options, programs)
        except WrongAnswer as error:
            sys.exit(f"library_bench: {error}")
        finally:
            programs.close()


if __name__ == "__main__":
    sys.exit(main())
