#!/usr/bin/env python3
"""Runs several checks one after the other and adds up what they count.

    python3 tools/total.py COMMAND ..

Each COMMAND is a line for the shell, and ends its output in a line `N passed, M failed`. One without
such a line, or with an exit status other than 0 though it counts no failure, counts as one failure. All
are run, whatever the others do. Lines that begin with `skipped:` are counted too, each a part that wants a
package that isn't there. The last line is the sum, and the exit status is 1 if anything failed.
"""

import re
import subprocess
import sys

CLOSING_LINE = re.compile(r"(\d+) passed, (\d+) failed")


def run_check(command):
    """Runs one check, showing its output as it comes. Gives its last line, its exit status and the parts it skipped."""
    last_line, skipped = "", 0
    process = subprocess.Popen(command, shell=True, stdout=subprocess.PIPE, text=True, errors="replace")
    for line in process.stdout:
        print(line, end="", flush=True)
        last_line = line.strip() or last_line
        skipped += line.startswith("skipped:")
    return last_line, process.wait(), skipped


def counts(last_line, status):
    """What a check passed and failed, by its last line and its exit status."""
    match = CLOSING_LINE.fullmatch(last_line)
    if match is None:
        return 0, 1
    passed, failed = int(match.group(1)), int(match.group(2))
    return passed, failed if failed or status == 0 else 1


def run_all(commands):
    """Runs all checks, prints the sum of their counts, and returns the exit status."""
    total_passed = total_failed = total_skipped = 0
    for command in commands:
        print(f"== {command}", flush=True)
        last_line, status, skipped = run_check(command)
        passed, failed = counts(last_line, status)
        total_skipped += skipped
        total_passed += passed
        total_failed += failed
        if failed:
            print(f"== failed: {command}", flush=True)
    print(f"skipped: {total_skipped}")
    print(f"{total_passed} passed, {total_failed} failed")
    return 1 if total_failed or not total_passed else 0


if __name__ == "__main__":
    sys.exit(run_all(sys.argv[1:]))
