#!/usr/bin/env python3
"""Runs the gate, `rt ci`, and prints where its processor time goes.

    python3 tools/gate.py [--ratio] [--write]

Each line of `rt ci` has the time (minutes and seconds from the start) before it. After them comes a table: for each
crate the seconds of processor (user) of its check, its tests and its must-fail edits, the most expensive crate first,
then the number of runs of the prover, and the number of functions they proved. `rt ci` takes as many crates at once as
there are cores, but at most one for each 4 GB of free memory, unless RT_JOBS is set.

With `--ratio`, `rt ci --anew` runs, then tools/wrong.py over the libraries that it leaves, with nothing else on the
machine. The table has both, and its last line is the measure of the gate: the processor time of both over that of a
yardstick, a fixed check that runs every few minutes during `rt ci`, on average. The yardstick is the check of one small
crate, so it varies with the machine as the gate does. `--write` also replaces the table in docs/working.md.

The last line of all is that of `rt ci`, and so is the exit status. out/gate.txt keeps it with its commit for a release
(tools/dist.py).

`rt ci` reports the edits at its end, all at once, so the times are read off the prover's processes while they run. What
a process takes after its last reading is missing, some tenths of a second each; the line `in all` is the whole, as the
system counted it.
"""

import argparse
import os
import re
import subprocess
import sys
import threading
import time
from collections import defaultdict
from typing import NamedTuple

import build
import over
import wrong

TOP = os.path.dirname(os.path.dirname(os.path.abspath(__file__)))
NOTE = os.path.join(TOP, "out", "gate.txt")
PAGE = os.path.join(TOP, "docs", "working.md")
PAGE_HEAD = "| Crate | Check | Tests | Must-fail edits | Other wrong bodies | All |"
PAUSE_SECONDS = 0.2
TICKS_PER_SECOND = os.sysconf("SC_CLK_TCK")
KINDS = ("check", "tests", "edits", "wrong")
# The crate whose check is the yardstick, which stands on none other, and how often it runs.
YARDSTICK, YARDSTICK_PAUSE_SECONDS = "name_list", 480
PROVED = re.compile(r"^(?:fn|struct) .*: proved$")


class Process(NamedTuple):
    """A running process: its number, its parent's, its words, and the ticks that it and its ended children took."""

    number: int
    parent: int
    words: list
    ticks: int


def running_processes():
    """The processes that run now, by number."""
    found = {}
    for name in filter(str.isdigit, os.listdir("/proc")):
        try:
            with open(f"/proc/{name}/stat") as file:
                numbers = file.read().rpartition(")")[2].split()
            with open(f"/proc/{name}/cmdline", "rb") as file:
                words = file.read().decode(errors="replace").split("\0")
        except OSError:
            continue
        found[int(name)] = Process(int(name), int(numbers[1]), words, int(numbers[11]) + int(numbers[13]))
    return found


def is_prover(words):
    """Whether a process is a run of the prover over a crate."""
    return os.path.basename(words[0]) == "rattle" and "--crate-name" in words


def task_of(words, folder):
    """The crate that a run of the prover works on, and what for, by its working folder."""
    crate = words[words.index("--crate-name") + 1]
    if "--test" in words:
        return crate, "tests"
    kinds = {"rt-edit-": "edits", wrong.COPY: "wrong"}
    return crate, next((kind for part, kind in kinds.items() if part in folder), "check")


class Meter:
    """What the prover's processes below one process took so far."""

    def __init__(self, top):
        self.top = top
        self.seen = {}
        self.ended = threading.Event()
        self.thread = threading.Thread(target=self.read_on)

    def read(self):
        processes = running_processes()
        ticks = defaultdict(int)
        for process in processes.values():
            root, at = None, process
            while at is not None and at.number != self.top:
                root = at if is_prover(at.words) else root
                at = processes.get(at.parent)
            if root is not None and at is not None:
                ticks[root.number, task_of(root.words, working_folder(root.number))] += process.ticks
        for key, count in ticks.items():
            self.seen[key] = max(count, self.seen.get(key, 0))

    def read_on(self):
        while not self.ended.wait(PAUSE_SECONDS):
            self.read()

    def seconds(self):
        """The seconds by crate and kind."""
        table = defaultdict(lambda: defaultdict(float))
        for (_, (crate, kind)), count in self.seen.items():
            table[crate][kind] += count / TICKS_PER_SECOND
        return table


def working_folder(number):
    """Where a process works: an edit is tried in a folder whose name says so."""
    try:
        return os.readlink(f"/proc/{number}/cwd")
    except OSError:
        return ""


def asked_of_git(*words):
    """What git answers, or nothing where there is none."""
    try:
        done = subprocess.run(["git", *words], cwd=TOP, capture_output=True, text=True, check=False)
    except OSError:
        return ""
    return done.stdout.strip()


def commit():
    """The commit that is checked out, and whether files differ from it."""
    changes = asked_of_git("status", "--porcelain")
    return (asked_of_git("rev-parse", "HEAD") or "unknown") + (", with changes" if changes else "")


def keep_last_line(of_commit, line):
    """Keeps what a gate said of a commit."""
    os.makedirs(os.path.dirname(NOTE), exist_ok=True)
    with open(NOTE, "w", encoding="utf-8") as file:
        file.write(f"{of_commit}\n{line}\n")


def last_line_of(of_commit):
    """What the last gate here said of a commit, or nothing where it was one of another."""
    if not os.path.exists(NOTE):
        return ""
    with open(NOTE, encoding="utf-8") as file:
        about, line = file.read().splitlines()
    return line if about == of_commit else ""


def user_seconds(process):
    """Waits for a process; its exit status, and the seconds of processor (user) that it and its children took."""
    _, status, usage = os.wait4(process.pid, 0)
    process.returncode = os.waitstatus_to_exitcode(status)
    return process.returncode, usage.ru_utime


class Yardstick:
    """What a fixed check takes, run now and then until it is ended."""

    def __init__(self):
        self.seconds = []
        self.ended = threading.Event()
        self.thread = threading.Thread(target=self.run_on)

    def run_on(self):
        while not self.ended.is_set():
            self.run()
            self.ended.wait(YARDSTICK_PAUSE_SECONDS)

    def run(self):
        options = argparse.Namespace(crate=YARDSTICK, sources=[], libraries=TOP, jobs=1)
        words = over.words_of(options, build.read_crates(os.path.join(TOP, "crates.txt")))
        folder, silent = over.root_of(YARDSTICK)[0], subprocess.DEVNULL
        check = subprocess.Popen([over.RATTLE, "check", *words], cwd=folder, stdout=silent, stderr=silent)
        status, seconds = user_seconds(check)
        if status == 0:
            self.seconds.append(seconds)

    def mean(self):
        return sum(self.seconds) / len(self.seconds) if self.seconds else None


class Run(NamedTuple):
    """A measured command: its last line, its exit status, the seconds by crate and kind, all its user seconds, how many
    runs of the prover it made, and how many functions and types these proved."""

    last_line: str
    status: int
    table: dict
    seconds: float
    runs: int
    proved: int


def run_measured(words):
    """Runs `rt ci` or tools/wrong.py, and shows its lines."""
    start, last_line, proved = time.monotonic(), "", 0
    environment = {"RT_JOBS": str(build.jobs()), **os.environ}
    process = subprocess.Popen(
        words, stdout=subprocess.PIPE, stderr=subprocess.STDOUT, text=True, errors="replace", env=environment, cwd=TOP
    )
    meter = Meter(process.pid)
    meter.thread.start()
    for line in process.stdout:
        minutes, seconds = divmod(int(time.monotonic() - start), 60)
        print(f"{minutes:3}:{seconds:02} {line}", end="", flush=True)
        last_line = line.strip() or last_line
        proved += bool(PROVED.match(line))
    status, seconds = user_seconds(process)
    meter.ended.set()
    meter.thread.join()
    return Run(last_line, status, meter.seconds(), seconds, len(meter.seen), proved)


def together(runs):
    """The seconds of some runs by crate and kind, the most expensive crate first."""
    table = defaultdict(lambda: defaultdict(float))
    for run in runs:
        for crate, times in run.table.items():
            for kind, seconds in times.items():
                table[crate][kind] += seconds
    return dict(sorted(table.items(), key=lambda item: -sum(item[1].values())))


def cell(seconds, count):
    """The seconds of a kind of run, and how many wrong bodies it tried."""
    return f"{seconds:,.0f} ({count})" if count else f"{seconds:,.0f}"


def rows_of(table, count):
    """The rows of a table, each with its sum, and one of all crates; `count` counts the wrong bodies of a crate."""
    counts = {crate: [count(crate, kind) for kind in KINDS] for crate in table}
    for crate, times in table.items():
        cells = [cell(times[kind], counts[crate][at]) for at, kind in enumerate(KINDS)]
        yield [crate, *cells, cell(sum(times.values()), 0)]
    sums = [sum(times[kind] for times in table.values()) for kind in KINDS]
    cells = [cell(seconds, sum(row[at] for row in counts.values())) for at, seconds in enumerate(sums)]
    yield ["all", *cells, cell(sum(sums), 0)]


def print_table(runs):
    """Prints the times by crate and kind, the most expensive crate first, and the whole."""
    print(("{:<16}" + "{:>9}" * 5).format("crate", *KINDS, "all"))
    for row in rows_of(together(runs), lambda crate, kind: 0):
        print(("{:<16}" + "{:>9}" * 5).format(*row))
    print(f"in all {sum(run.seconds for run in runs):.0f}")
    proved = sum(run.proved for run in runs)
    print(f"{sum(run.runs for run in runs)} runs of the prover, {proved} functions and types proved")


def count_edits(crate, kind):
    """How many wrong bodies of a kind a crate has."""
    folder = {"edits": "must-fail", "wrong": wrong.FOLDER}.get(kind)
    path = os.path.join(TOP, "crates", crate, folder or "")
    return len([name for name in os.listdir(path) if name.endswith(".edit")]) if folder and os.path.isdir(path) else 0


def write_table(runs):
    """Replaces the table of docs/working.md, from its head to the row of all crates."""
    lines = [PAGE_HEAD, "|---" * len(PAGE_HEAD.split("|")[1:-1]) + "|"]
    for crate, *cells in rows_of(together(runs), count_edits):
        name = crate if crate == "all" else f"`{crate}`"
        lines.append("| " + " | ".join([name, *cells]) + " |")
    with open(PAGE, encoding="utf-8") as file:
        page = file.read()
    start = page.index("| Crate |")
    end = page.index("\n", page.index("\n| all |", start) + 1)
    with open(PAGE, "w", encoding="utf-8") as file:
        file.write(page[:start] + "\n".join(lines) + page[end:])


def run_beside_yardstick():
    """Runs the gate from nothing, then the other wrong bodies: both runs, and the yardstick's mean and count."""
    yardstick = Yardstick()
    yardstick.thread.start()
    gate = run_measured(["rt", "ci", "--anew"])
    yardstick.ended.set()
    yardstick.thread.join()
    return [gate, run_measured([sys.executable, os.path.join(TOP, "tools", "wrong.py")])], yardstick


def print_measure(runs, yardstick):
    """Prints the processor time of some runs over the yardstick's."""
    unit, count = yardstick.mean(), len(yardstick.seconds)
    if unit is None:
        print("the yardstick's check failed, so there is no measure")
    else:
        measure = sum(run.seconds for run in runs) / unit
        print(f"over {unit:.1f} s of the yardstick, the mean of {count} runs: {measure:.0f}")


def main():
    parser = argparse.ArgumentParser(description="runs the gate, and prints where its processor time goes")
    parser.add_argument("--ratio", action="store_true")
    parser.add_argument("--write", action="store_true")
    options = parser.parse_args()
    of_commit = commit()
    runs, yardstick = run_beside_yardstick() if options.ratio else ([run_measured(["rt", "ci"])], None)
    print("seconds of processor (user):")
    print_table(runs)
    if yardstick:
        print_measure(runs, yardstick)
    if options.write:
        write_table(runs)
    keep_last_line(of_commit, runs[0].last_line)
    print(*(run.last_line for run in reversed(runs)), sep="\n")
    return max(run.status for run in runs)


if __name__ == "__main__":
    sys.exit(main())
