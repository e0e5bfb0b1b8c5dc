#!/usr/bin/env python3
"""Counts the lines of crates: code, contracts, definitions and proofs.

    python3 tools/lines.py [NAME ..]

Prints a row for each crate, or for each of those named, and a row for all of them. Blank lines and comments don't
count. A line of `src` counts as a contract if it is part of a `ghost use`, a `requires`, an `ensures` or another
`ghost` item, and otherwise as code, tests included.
"""

import glob
import os
import re
import sys

import build

TOP = os.path.dirname(os.path.dirname(os.path.abspath(__file__)))
CLAUSE = re.compile(r"\s*(requires|ensures|ghost)\b")
KINDS = ("code", "contracts", "specs", "proofs")


def lines_below(folder, comment):
    """The lines of the files below a folder that are neither blank nor comments."""
    for path in glob.glob(os.path.join(folder, "**", "*.*"), recursive=True):
        if os.path.isfile(path):
            with open(path, encoding="utf-8") as file:
                yield from (line for line in file if line.strip() and not line.lstrip().startswith(comment))


def count_sources(folder):
    """How many lines of a folder's sources are code, and how many are of contracts."""
    code, contracts, depth = 0, 0, 0
    for line in lines_below(folder, "//"):
        is_clause = depth > 0 or CLAUSE.match(line)
        if is_clause:
            depth += line.count("{") - line.count("}")
        code, contracts = code + (not is_clause), contracts + bool(is_clause)
    return code, contracts


def row_of(crate):
    """The lines of a crate, by their kinds."""
    folder = os.path.join(TOP, "crates", crate)
    texts = (sum(1 for _ in lines_below(os.path.join(folder, kind), "--")) for kind in ("specs", "proofs"))
    return (*count_sources(os.path.join(folder, "src")), *texts)


def main():
    crates = sys.argv[1:] or list(build.read_crates(os.path.join(TOP, "crates.txt")))
    rows = [(crate, row_of(crate)) for crate in crates]
    print(("{:<16}" + "{:>11}" * len(KINDS)).format("crate", *KINDS))
    for name, row in [*rows, ("all", [sum(column) for column in zip(*(row for _, row in rows))])]:
        print(("{:<16}" + "{:>11,}" * len(KINDS)).format(name, *row))
    return 0


if __name__ == "__main__":
    sys.exit(main())
