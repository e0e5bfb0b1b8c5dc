#!/usr/bin/env python3
"""Holds what the program takes against what it took when docs/gains.txt was written: what `make gains` calls.

    python3 tools/gains.py --program PATH --shim PATH --file docs/gains.txt [--update] [--only WORD]

PATH are the proved program `tktext` and the allocator of `tools/weigh.c`. The rows are the program's runs of the jobs
of `bench/jobs.py` at small sizes and of some workloads of `tools/workloads.py`, in millions of instructions
(callgrind), and the megabytes that the load of 100,000 lines holds at its end and at its peak. A row that is more than
a twentieth above the file's fails, with the functions that grew most; one that is more than a twentieth below says that
the file's can be lowered. `--update` writes the file. Without valgrind nothing is counted, and a line says so. The last
line counts the checks.
"""

import argparse
import os
import re
import shutil
import subprocess
import sys
import tempfile
from concurrent.futures import ThreadPoolExecutor
from functools import partial
from typing import NamedTuple

import workloads
from versus import ANNOTATED, count_instructions

TOP = os.path.dirname(os.path.dirname(os.path.abspath(__file__)))
sys.path.insert(0, os.path.join(TOP, "bench"))
import jobs  # noqa: E402

MOST_GROWTH = 1.05
# The sizes of docs/PERF.md's table of instructions, with the seed of `bench/run`.
JOB_SIZES = {"console": 20_000, "typing": 20_000, "coloring": 2_000, "views": 6_000, "file": 20_000, "long_line": 3_000}
JOB_SEED = 1
WORKLOADS = ("marks-2000", "dump-500", "search-5000", "undo-500", "scattered-2000", "along-4000")
LOAD = "load-100000"
# How many functions a row keeps in the file, and how many are shown of those that grew.
KEPT_FUNCTIONS, SHOWN_FUNCTIONS = 40, 6
MILLION = 1e6
# What tells the types apart that a generic function was made for.
TYPES = re.compile(r"::<#[0-9a-f]+>")
HEAD = [
    "What the program takes: `make gains` fails where a row takes more than a twentieth more. Millions of instructions, or",
    "megabytes; the commit they are of; and below each row of instructions the functions that take most of them.",
    "",
]


class Measured(NamedTuple):
    """What a row takes, in millions, and what its functions do."""

    amount: float
    functions: dict


def functions_of(profile):
    """The millions of instructions that each function takes itself, by a file of callgrind."""
    told = subprocess.run(["callgrind_annotate", "--threshold=100", profile], capture_output=True, text=True, check=True)
    found = {}
    for line in filter(None, map(ANNOTATED.match, told.stdout.splitlines())):
        name = TYPES.sub("", line.group(2).split(" [")[0].split(":", 1)[-1])[:90]
        if "PROGRAM TOTALS" not in name:
            found[name] = found.get(name, 0) + int(line.group(1).replace(",", "")) / MILLION
    return found


def counted(command, given, folder):
    """A run of a program on a script."""
    handle, profile = tempfile.mkstemp(dir=folder)
    os.close(handle)
    amount = count_instructions(command, given, profile=profile) / MILLION
    return Measured(amount, functions_of(profile))


def file_of(script, name, folder):
    """A file with a script."""
    path = os.path.join(folder, name)
    with open(path, "wb") as file:
        file.write(script)
    return path


def workload(name):
    """The script of a workload."""
    return ("\n".join(workloads.named(name).commands()) + "\n").encode()


def weighed(options, folder):
    """What the load holds when the program reads its end, and at most."""
    report = os.path.join(folder, "weight")
    environment = dict(os.environ, LD_PRELOAD=os.path.abspath(options.shim), WEIGHT_REPORT=report)
    with open(file_of(workload(LOAD), LOAD, folder), "rb") as script:
        subprocess.run([options.program], stdin=script, stdout=subprocess.DEVNULL, env=environment, check=True)
    with open(report, encoding="ascii") as file:
        _, _, most, held = (int(word) / MILLION for word in file.read().split())
    return {f"{LOAD}, held": Measured(held, {}), f"{LOAD}, at most": Measured(most, {})}


def measure(options, folder):
    """Each row by its name."""
    scripts = {f"{job} {size}": partial(jobs.script, job, size, JOB_SEED) for job, size in JOB_SIZES.items()}
    scripts |= {name: partial(workload, name) for name in WORKLOADS}

    def count(name):
        return counted([options.program], file_of(scripts[name](), name, folder), folder)

    names = [name for name in scripts if options.only in name]
    with ThreadPoolExecutor(len(os.sched_getaffinity(0))) as cores:
        rows = dict(zip(names, cores.map(count, names)))
    return rows | (weighed(options, folder) if options.only in LOAD else {})


def read_rows(path):
    """The rows of the file."""
    rows = {}
    with open(path, encoding="utf-8") as file:
        for line in file.read().splitlines()[len(HEAD):]:
            name, amount, *_ = (cell.strip() for cell in line.split("|"))
            if line.startswith(" "):
                last.functions[name] = float(amount)
            else:
                last = rows[name] = Measured(float(amount), {})
    return rows


def write_rows(path, rows, commit):
    lines = list(HEAD)
    for name, row in rows.items():
        lines.append(f"{name} | {row.amount:.2f} | {commit}")
        dearest = sorted(row.functions.items(), key=lambda pair: -pair[1])[:KEPT_FUNCTIONS]
        lines += [f"  {function} | {amount:.2f}" for function, amount in dearest]
    with open(path, "w", encoding="utf-8") as file:
        file.write("".join(line + "\n" for line in lines))


def grown(old, new):
    """The functions that grew most, in millions, the first the one that grew most."""
    growth = {name: new.functions.get(name, 0) - old.functions.get(name, 0) for name in {*old.functions, *new.functions}}
    most = sorted(growth.items(), key=lambda pair: -pair[1])[:SHOWN_FUNCTIONS]
    return [f"    {name}: {more:+.2f}" for name, more in most if more > 0]


def check(old, new, name):
    """Whether a row is no more than a twentieth above the file's, with what is said of it."""
    if old is None:
        return False, f"{name}: {new.amount:.2f}, which the file doesn't have"
    words = f"{name}: {old.amount:.2f} in the file, {new.amount:.2f} now"
    if new.amount > MOST_GROWTH * old.amount:
        return False, "\n".join([words + ", more than a twentieth above", *grown(old, new)])
    if new.amount < old.amount / MOST_GROWTH:
        return True, words + ": the row can be lowered"
    return True, words


def commit_now():
    told = subprocess.run(["git", "rev-parse", "--short=8", "HEAD"], capture_output=True, text=True, check=True)
    return told.stdout.strip()


def main():
    parser = argparse.ArgumentParser(description="holds what the program takes against what it took")
    for name in ("program", "shim", "file"):
        parser.add_argument(f"--{name}", required=True)
    parser.add_argument("--update", action="store_true")
    parser.add_argument("--only", default="")
    options = parser.parse_args()
    if shutil.which("valgrind") is None:
        print("valgrind isn't installed: what the program takes isn't counted\n0 passed, 0 failed")
        return 0
    with tempfile.TemporaryDirectory() as folder:
        rows = measure(options, folder)
    if options.update:
        write_rows(options.file, rows, commit_now())
    known = read_rows(options.file)
    results = [check(known.get(name), row, name) for name, row in rows.items()]
    for is_met, words in results:
        print(("" if is_met else "FAILED: ") + words)
    failed = sum(not is_met for is_met, _ in results)
    print(f"{len(results) - failed} passed, {failed} failed")
    return 1 if failed or not results else 0


if __name__ == "__main__":
    sys.exit(main())
