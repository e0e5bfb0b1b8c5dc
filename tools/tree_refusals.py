#!/usr/bin/env python3
"""Refuses each growth of memory of a new tree of lines, and of room in it for a hundred lines.

    python3 tools/tree_refusals.py --program PATH --shim PATH

PATH is the program `tree_bench` and the allocator of `tools/refuse.c`. A run asks for a tree, makes a few random
splices, asks for room for a hundred lines, and puts these in. Where the one growth that is refused is of the first or
the third, the program asks again: it has to end as if nothing had been refused, with the tree as it was before, by a
walk over all nodes. Any other growth that is refused ends the program. In either case all memory is freed. The last
line counts the checks.
"""

import argparse
import os
import subprocess
import sys
import tempfile

SPLICES = 5
LENGTH = 20
# A tree has two nodes and a room at least, and each of a hundred lines takes a node.
LEAST_NEW = 3
LEAST_ROOM = 100


class Runs:
    """The program under the shim, which reports into a folder."""

    def __init__(self, program, shim, folder):
        self.words = [program, "refused", str(SPLICES), str(LENGTH)]
        self.growths = os.path.join(folder, "growths.txt")
        self.left = os.path.join(folder, "left.txt")
        self.environment = dict(
            os.environ, LD_PRELOAD=os.path.abspath(shim), GROWTH_REPORT=self.growths, LEFT_REPORT=self.left
        )

    def run(self, growth):
        """The status of a run with that growth refused (none for 0), the numbers it prints, and the blocks it leaves."""
        environment = dict(self.environment, REFUSE_GROWTH=str(growth))
        process = subprocess.run(self.words, env=environment, capture_output=True)
        return process.returncode, [int(word) for word in process.stdout.split()], read_number(self.left)


def read_number(path):
    with open(path, encoding="ascii") as file:
        return int(file.read())


def fault_of(status, numbers, left, plain_left):
    """What is wrong with a run in which a growth was refused, if anything."""
    if left != plain_left:
        return f"leaves {left - plain_left} blocks behind"
    if status == 1 and not numbers:
        return None
    if status != 0 or numbers not in ([1, 0, 0], [0, 1, 0]):
        return f"ends with status {status} and prints {numbers}"
    return None


def main():
    parser = argparse.ArgumentParser(description="refuses growths of the tree of lines")
    parser.add_argument("--program", required=True)
    parser.add_argument("--shim", required=True)
    options = parser.parse_args()
    refused = [0, 0]
    faults = []
    with tempfile.TemporaryDirectory() as folder:
        runs = Runs(options.program, options.shim, folder)
        status, numbers, plain_left = runs.run(0)
        if (status, numbers) != (0, [0, 0, 0]):
            sys.exit(f"with nothing refused it ends with status {status} and prints {numbers}")
        growths = read_number(runs.growths)
        for growth in range(1, growths + 1):
            status, numbers, left = runs.run(growth)
            fault = fault_of(status, numbers, left, plain_left)
            if fault is not None:
                faults.append(f"growth {growth} refused: it {fault}")
            elif numbers:
                refused = [refused[0] + numbers[0], refused[1] + numbers[1]]
    for fault in faults[:20]:
        print("FAILED: " + fault)
    print(f"refused: {refused[0]} growths of a new tree, {refused[1]} of room for a hundred lines, of {growths} in all")
    if refused[0] < LEAST_NEW or refused[1] < LEAST_ROOM:
        faults.append("few")
        print(f"FAILED: at least {LEAST_NEW} and {LEAST_ROOM} are to be refused there")
    print(f"{growths - len(faults)} passed, {len(faults)} failed")
    return 1 if faults else 0


if __name__ == "__main__":
    sys.exit(main())
