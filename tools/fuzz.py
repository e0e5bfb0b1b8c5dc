#!/usr/bin/env python3
"""Compares the program with the model on random scripts.

    python3 tools/fuzz.py --program PATH --seeds N [--first K] [--lines]

Runs the scripts of the seeds K to K+N-1 (K is 0 if left out), with `--lines` those on texts of thousands of lines, prints the first
difference, and ends in a line `N passed, M failed`.  The exit status is 1 if anything failed.
"""

import argparse
import sys

import model
import scripts
from harness import Result, run_program

# After this many differences the program is known to be wrong, and the rest of the seeds isn't run.
ENOUGH_FAILURES = 20


def wanted_result(script):
    """What the program has to give: the model's output and status, and nothing on standard error."""
    run = model.run_output(script)
    return Result(run.output, run.status, b"")


def print_difference(seed, script, wanted, given):
    """Shows one difference in full."""
    print(f"FAILED: seed {seed}")
    print(f"script: {script!r}")
    for name, result in (("wanted", wanted), ("given ", given)):
        print(f"{name} status {result.status}, standard error {result.errors!r}, output {result.output!r}")


def compare(program, make_script, seeds):
    """The numbers of seeds that passed and that failed."""
    passed = failed = 0
    for seed in seeds:
        script = make_script(seed)
        wanted = wanted_result(script)
        given = run_program(program, script)
        if given == wanted:
            passed += 1
            continue
        failed += 1
        if failed == 1:
            print_difference(seed, script, wanted, given)
        if failed == ENOUGH_FAILURES:
            print(f"stopped at seed {seed}, after {failed} differences")
            break
    return passed, failed


def main():
    parser = argparse.ArgumentParser(description="compares the program with the model on random scripts")
    parser.add_argument("--program", required=True)
    parser.add_argument("--seeds", type=int, default=300)
    parser.add_argument("--first", type=int, default=0)
    parser.add_argument("--lines", action="store_true")
    options = parser.parse_args()
    make_script = scripts.long_script if options.lines else scripts.script
    passed, failed = compare(options.program, make_script, range(options.first, options.first + options.seeds))
    print(f"{passed} passed, {failed} failed")
    return 1 if failed or not passed else 0


if __name__ == "__main__":
    sys.exit(main())
