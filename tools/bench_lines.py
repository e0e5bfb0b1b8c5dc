#!/usr/bin/env python3
"""Times what is done to one long line, beside a copy of its whole text.

    python3 tools/bench_lines.py --program PATH --out FILE [--length 1000000] [--repeat 3]

PATH is the program `tree_bench`. Prints a table and writes it to FILE. Each time is the least of several runs, less
that of a run that does nothing. The exit status is 1 if a cut and a join, or an insertion and a removal, take more
than four copies of the text, or if a character at the line's end takes twice as long as one at its beginning.
"""

import argparse
import subprocess
import sys
import time

MOST_COPIES = 4.0
MOST_LOOK_RATIO = 2.0
EDITS = 2_000
LOOKS = 100_000_000


def run_once(program, work, column, count, length):
    """The seconds that one run takes, which has to give the line back as long as it was."""
    begin = time.perf_counter()
    words = [program, f"line-{work}", str(count), str(length), str(column)]
    process = subprocess.run(words, capture_output=True, check=True)
    seconds = time.perf_counter() - begin
    if process.stdout.split()[0] != str(length).encode():
        sys.exit(f"{work} at {column} left a line of another length: this isn't timed")
    return seconds


def nanoseconds(options, work, column, count):
    """The nanoseconds that the work takes once."""
    busy = min(run_once(options.program, work, column, count, options.length) for _ in range(options.repeat))
    idle = min(run_once(options.program, work, column, 0, options.length) for _ in range(options.repeat))
    return (busy - idle) / count * 1e9


def main():
    parser = argparse.ArgumentParser(description="times what is done to one long line")
    parser.add_argument("--program", required=True)
    parser.add_argument("--out", required=True)
    parser.add_argument("--length", type=int, default=1_000_000)
    parser.add_argument("--repeat", type=int, default=3)
    options = parser.parse_args()
    last = options.length - 1
    copy = nanoseconds(options, "copy", 0, EDITS)
    lines = [
        f"What is done to one line of {options.length} characters, in nanoseconds, and how many copies of its whole text take as long.",
        "",
        f"{'what':<42}{'ns':>12}{'copies':>10}",
        f"{'a copy of its text':<42}{copy:>12.0f}{1:>10.2f}",
    ]
    is_met = True
    for name, work in (("a cut and a join", "cut"), ("an insertion and a removal", "insert")):
        for column in (1, options.length // 2, last):
            took = nanoseconds(options, work, column, EDITS)
            is_met = is_met and took <= MOST_COPIES * copy
            lines.append(f"{f'{name} at {column}':<42}{took:>12.0f}{took / copy:>10.2f}")
    looks = [nanoseconds(options, "look", column, LOOKS) for column in (0, last)]
    for column, took in zip((0, last), looks):
        lines.append(f"{f'the character at {column}':<42}{took:>12.2f}")
    is_met = is_met and looks[1] <= MOST_LOOK_RATIO * looks[0]
    lines += ["", f"(goal: at most {MOST_COPIES:.0f} copies, and a character in the same time anywhere, {'met' if is_met else 'MISSED'})"]
    text = "".join(line + "\n" for line in lines)
    print(text, end="")
    with open(options.out, "w", encoding="utf-8") as file:
        file.write(text)
    return 0 if is_met else 1


if __name__ == "__main__":
    sys.exit(main())
