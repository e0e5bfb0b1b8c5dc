#!/usr/bin/env python3
"""Weighs lines in nodes, and looks for what a dropped store leaves behind.

    python3 tools/memory.py --program PATH --shim PATH

PATH is the program `tree_bench` and the allocator of `tools/weigh.c`. A line of 40 ASCII characters without tags and
marks has to take at most 200 bytes in all, the allocator's own among them, over 100,000 lines; and a store that is
dropped with all of them in use leaves as many blocks as one without any. The last line counts the checks.
"""

import argparse
import os
import subprocess
import sys
import tempfile

LINES = 100_000
LENGTH = 40
MOST_BYTES = 200


def weigh(program, shim, count, folder):
    """The bytes and the blocks that are not freed after so many lines, and the most bytes at once."""
    report = os.path.join(folder, "weight.txt")
    process = subprocess.run(
        [program, "nodes", str(count), str(LENGTH)], env=dict(os.environ, LD_PRELOAD=os.path.abspath(shim), WEIGHT_REPORT=report), capture_output=True, check=True
    )
    if process.stdout != f"{count} 0\n".encode():
        sys.exit(f"{count} lines: {process.stdout!r}")
    with open(report, encoding="ascii") as file:
        return [int(word) for word in file.read().split()]


def main():
    parser = argparse.ArgumentParser(description="weighs lines in nodes")
    parser.add_argument("--program", required=True)
    parser.add_argument("--shim", required=True)
    options = parser.parse_args()
    with tempfile.TemporaryDirectory() as folder:
        empty = weigh(options.program, options.shim, 0, folder)
        full = weigh(options.program, options.shim, LINES, folder)
    each = (full[2] - empty[2]) / LINES
    checks = [
        (each <= MOST_BYTES, f"a line of 40 characters takes {each:.1f} bytes in all, at most {MOST_BYTES}"),
        (full[:2] == empty[:2], f"{LINES} lines leave {full[0] - empty[0]} bytes in {full[1] - empty[1]} blocks behind"),
    ]
    for is_met, words in checks:
        print(("" if is_met else "FAILED: ") + words)
    failed = sum(not is_met for is_met, _ in checks)
    print(f"{len(checks) - failed} passed, {failed} failed")
    return 1 if failed else 0


if __name__ == "__main__":
    sys.exit(main())
