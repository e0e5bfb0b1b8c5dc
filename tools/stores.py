#!/usr/bin/env python3
"""Runs the rows of very many commands on each store.

    python3 tools/stores.py --rows PATH

PATH is the program `rows`, which runs the worked rows of `rows/data` on each store itself.  These rows are made by
`worked.py`, since nobody would read them line by line.  Ends in a line `N passed, M failed`; the exit status is 1 if
anything failed.
"""

import argparse
import sys

import worked
from harness import STORES, Tally, run_program


def main():
    parser = argparse.ArgumentParser(description="runs the rows of very many commands on each store")
    parser.add_argument("--rows", required=True)
    options = parser.parse_args()
    tally = Tally()
    for row in worked.LONG_ROWS + worked.PROGRAM_ROWS:
        for store in STORES:
            result = run_program(options.rows, row.script, arguments=("--store", store))
            tally.check(
                (result.output, result.status, result.errors) == (row.output, row.status, b""),
                f"{row.name!r} on {store}: status {result.status}, standard error {result.errors!r}, output {result.output[-200:]!r}",
            )
    return tally.close()


if __name__ == "__main__":
    sys.exit(main())
