#!/usr/bin/env python3
"""Runs the program on each worked script once for each growth of memory, with that growth refused.

    python3 tools/refusals.py --program PATH --shim PATH [--rows PATH] [--random 200]

The shim is tools/refuse.c, built.  With one growth refused a run may end in two ways alone:

- the output is that of the script in which one command finds no memory: `error: out of memory` stands in
  the place of that command's piece, and all other commands answer as if it had not been given.  (Where
  that command proves to hold a script fault, the fault is its piece, so the output is the plain one.)
- the run ends with status 2, `out of memory` on standard error, and the front of the plain output.

Where the growth only makes a block smaller the block may stay instead, and the output is the plain one.

Anything else is a failure: another output, a crash, a run that doesn't end, a refusal that left no
trace.  So is a run that answers out of memory though nothing was refused.

Where a growth refuses a command of a script whose commands are given again (`worked.repeated_scripts`), the
script is run once more with that command given twice: refused the first time, it has to answer the second time
as it does where nothing was refused.  Beside the worked scripts stand random ones, and those by which many lines go into a text,
with some growths of each.
With `--rows`, which names the program `rows`, the scripts whose commands are given again are run so on each store.

Ends in a line `N passed, M failed`; the exit status is 1 if anything failed.
"""

import argparse
import os
import sys
import tempfile
from collections import Counter

import model
import scripts
import worked
from harness import STORES, Tally, run_program

RUN_FAULT_ERRORS = b"out of memory\n"

# After this many failures of one script the rest of its growths isn't run; after this many in all, the
# rest of the scripts.
ENOUGH_FAILURES = 3
ENOUGH_FAILURES_IN_ALL = 20

# How many growths of a random script are refused.
RANDOM_GROWTHS = 10
# A text that goes in at once has so many lines, and so many growths of its scripts are refused.
LONG_LINES, LONG_GROWTHS = 2_000, 400
# A script with a command given twice is longer, so the growth that refuses it may be a few further on.
NEAR_GROWTHS = (0, 1, 2, 3, -1)


class Preloaded:
    """A program with its arguments under the shim.

    Growths are counted from the run of the script on: those before it, by which a program reads its arguments, are the
    ones of an empty script, which takes none.
    """

    def __init__(self, program, shim, report, arguments=()):
        self.program = program
        self.shim = os.path.abspath(shim)
        self.report = report
        self.kept_report = report + ".kept"
        self.arguments = arguments
        self.before = 0
        _, self.before = self.run(b"", 0)

    def run(self, script, refused_growth):
        """One run with one growth refused (none for 0): its result, and how many growths there were."""
        for path in (self.report, self.kept_report):
            if os.path.exists(path):
                os.remove(path)
        environment = dict(os.environ, LD_PRELOAD=self.shim, GROWTH_REPORT=self.report, KEPT_REPORT=self.kept_report)
        environment["REFUSE_GROWTH"] = str(refused_growth + self.before if refused_growth else 0)
        result = run_program(self.program, script, environment, arguments=self.arguments)
        return result, read_count(self.report) - self.before

    def kept_block(self):
        """Whether the growth that the last run was refused would have made a block smaller, which stayed instead."""
        return os.path.exists(self.kept_report)


def read_count(report):
    """The number in the shim's report; 0 where there is none, as the shim never saw main begin."""
    try:
        with open(report, encoding="ascii") as file:
            return int(file.read() or "0")
    except FileNotFoundError:
        return 0


def runs_with_one_refusal(script):
    """Every (output, status) that the script may give where one command finds no memory, with the first such command;
    None where that command proves to hold a script fault."""
    commands, script_fault = model.reads_script(script)
    runs = {model.run_output(script): None} if script_fault is not None else {}
    for number in range(len(commands)):
        runs.setdefault(model.run_with_refusals(script, model.PROGRAM_LIMITS, {number}), number)
    return runs


def with_command_twice(script, number):
    """The script in which the command of a number is given twice, one right behind the other."""
    text = script.decode("utf-8")
    source = model.Source(script)
    place = found = 0
    while True:
        start = place
        words, place = model.command_at(source, start)
        if words and found == number:
            return (text[:place] + "\n" + text[start:place] + "\n" + text[place:]).encode("utf-8")
        found += bool(words)


def ends_for_memory(result, plain):
    """Whether the run ended by its own want of memory, with the front of the plain output written."""
    return (
        result.status == 2
        and result.errors == RUN_FAULT_ERRORS
        and plain.output.startswith(result.output)
    )


def kind_of_end(result, plain, one_refusal, kept_block):
    """How a run with one refused growth ended: one of the ways that are right, or None."""
    if ends_for_memory(result, plain):
        return "run ended"
    if result.errors == b"" and model.Run(result.output, result.status) in one_refusal:
        return "command refused"
    if kept_block and (result.output, result.status, result.errors) == (plain.output, plain.status, b""):
        return "block kept"
    return None


def describe(result):
    return f"status {result.status}, standard error {result.errors!r}, output {shortened(result.output)}"


def shortened(output):
    """An output as it is shown in a message."""
    return repr(output) if len(output) <= 600 else f"{output[:400]!r} .. {output[-200:]!r}"


def check_plain_run(program, name, script, plain, tally):
    """The run with nothing refused is the model's.  Gives its number of growths, or None if it failed."""
    result, growths = program.run(script, 0)
    wanted = (plain.output, plain.status, b"")
    if (result.output, result.status, result.errors) != wanted:
        tally.failed(
            f"{name!r}, nothing refused: {describe(result)}\n"
            f"  wanted status {plain.status}, output {shortened(plain.output)}"
        )
        return None
    tally.passed()
    return growths


def check_again(program, name, script, growth, command, tally):
    """The command that a refused growth refuses answers as ever where it is given again right there."""
    doubled = with_command_twice(script, command)
    wanted = model.run_with_refusals(doubled, model.PROGRAM_LIMITS, {command})
    for near in NEAR_GROWTHS:
        result, _ = program.run(doubled, growth + near)
        if model.Run(result.output, result.status) == wanted and result.errors == b"":
            tally.passed()
            return
    tally.failed(f"{name!r}, growth {growth} refused, command {command} given again: {describe(result)}")


def check_script(program, name, script, tally, kinds, is_repeated=False, most_growths=None):
    """One run for each growth of the script, or for so many of them.  Gives the number of growths."""
    plain = model.run_output(script)
    growths = check_plain_run(program, name, script, plain, tally)
    if growths is None:
        return 0
    one_refusal = runs_with_one_refusal(script)
    failures_before = tally.failures
    step = 1 if most_growths is None else max(1, growths // most_growths)
    for number in range(1, growths + 1, step):
        result, _ = program.run(script, number)
        kind = kind_of_end(result, plain, one_refusal, program.kept_block())
        tally.check(kind is not None, f"{name!r}, growth {number} of {growths} refused: {describe(result)}")
        kinds[kind] += 1
        command = one_refusal.get(model.Run(result.output, result.status))
        if is_repeated and kind == "command refused" and command is not None:
            check_again(program, name, script, number, command, tally)
            kinds["given again"] += 1
        if tally.failures - failures_before >= ENOUGH_FAILURES:
            print(f"the other growths of {name!r} are left out")
            break
    return growths


def repeated_scripts():
    """What `all_scripts` gives, of the scripts whose commands are given again."""
    return [(name, script, True, None) for name, script in worked.repeated_scripts()]


def long_scripts():
    """The same of scripts by which many lines go into a text at once, at its end, in its middle and over it."""
    first, second = ("".join(f"{word} {number}\n" for number in range(LONG_LINES)) for word in ("line", "other"))
    load = f"text .t -undo 1\n.t insert end {{{first}}}\n"
    asked = f".t index end\n.t get {LONG_LINES - 3}.0 {LONG_LINES}.0\n"
    tagged = f".t tag add t 700.2 900.1\n.t insert 800.3 {{{second}}} t\n"
    edits = {
        "many lines": "",
        "many lines replaced": f".t replace 1.0 end {{{second}}}\n" + asked + ".t edit undo\n",
        "many lines in the middle": tagged + asked + ".t edit undo\n",
        "many lines gone and undone": ".t delete 3.1 end\n" + asked + ".t edit undo\n",
    }
    return [(name, (load + edit + asked).encode(), False, LONG_GROWTHS) for name, edit in edits.items()]


def all_scripts(random_count):
    """The name of each script, the script, whether its commands are given again, and how many growths are refused."""
    worked_ones = [(name, script, False, None) for name, script in worked.refused_scripts()]
    chance = [(f"seed {seed}", scripts.script(seed), False, RANDOM_GROWTHS) for seed in range(random_count)]
    return repeated_scripts() + worked_ones + long_scripts() + chance


def check_scripts(name, program, given, tally):
    """One run of a program for each growth of each script, or for so many of them, and what came of it."""
    kinds = Counter()
    growths = 0
    for script_name, script, is_repeated, most_growths in given:
        growths += check_script(program, script_name, script, tally, kinds, is_repeated, most_growths)
        if tally.failures >= ENOUGH_FAILURES_IN_ALL:
            print("the other scripts are left out")
            break
    tally.check(growths > 0, f"{name}: no growth was counted: the shim doesn't reach the program")
    again = kinds.pop("given again", 0)
    print(f"{name}: {len(given)} scripts, {growths} growths, {sum(kinds.values())} runs with a growth refused:")
    print(f"  {kinds['command refused']} refused one command, of which {again} were given again;")
    print(f"  {kinds['run ended']} ended the run, and {kinds['block kept']} left a block as it was", flush=True)


def main():
    parser = argparse.ArgumentParser(description="refuses each growth of each worked script in turn")
    parser.add_argument("--program", required=True)
    parser.add_argument("--shim", required=True)
    parser.add_argument("--rows")
    parser.add_argument("--random", type=int, default=200)
    options = parser.parse_args()
    tally = Tally()
    with tempfile.TemporaryDirectory() as folder:
        report = os.path.join(folder, "growths")
        for store in STORES if options.rows else ():
            on_store = Preloaded(options.rows, options.shim, report, ("--store", store))
            check_scripts(store, on_store, repeated_scripts(), tally)
        program = Preloaded(options.program, options.shim, report)
        check_scripts("the program", program, all_scripts(options.random), tally)
    return tally.close()


if __name__ == "__main__":
    sys.exit(main())
