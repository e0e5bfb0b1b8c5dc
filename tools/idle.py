#!/usr/bin/env python3
"""With ample memory no command ever answers out of memory.

    python3 tools/idle.py --program PATH

Runs each form of each command that exists: each optional word left out and given, each base of an index, and each
modifier behind it that the program reads, at each place of an index; and the same, but for words that go with each other,
by a second widget that shows a part of the text. No line of the output is `error: out of memory`, and the status is never 2.
Runs each worked script too: it prints what the model says, and the run never ends for want of memory.

Ends in a line `N passed, M failed`; the exit status is 1 if anything failed.
"""

import argparse
import itertools
import sys

import model
import worked
from harness import Tally, run_program
from scripts import FORMS

OUT_OF_MEMORY = b"error: out of memory"


# The second widget.
PEER = [".t peer create .p -startline 2", ".p tag add sel 1.0 1.1"]


def script_of(form, widget, choice):
    """The script of one choice of the words of a form, by a widget where it names one."""
    first = widget if form.words[0] == ".t" else form.words[0]
    words = [first] + form.words[1:] + [word for word in choice if word is not None]
    before = form.before + (PEER if form.words[0] == ".t" else [])
    return "\n".join(before + [" ".join(words)]).encode("utf-8")


def choices_by_one(form):
    """The first choice of each place, with one of them exchanged at a time."""
    firsts = [place[0] for place in form.places]
    yield firsts
    for number, place in enumerate(form.places):
        for word in place[1:]:
            yield firsts[:number] + [word] + firsts[number + 1 :]


def scripts_of(form):
    """A script for each choice of the words of a form by the first widget, and for some by the second."""
    for choice in itertools.product(*form.places):
        yield script_of(form, ".t", choice)
    if form.words[0] == ".t":
        for choice in choices_by_one(form):
            yield script_of(form, ".p", choice)


def check_script(program, script, tally):
    """One run: no line is out of memory, and neither a script fault nor the run's own error ended it."""
    result = run_program(program, script)
    is_right = OUT_OF_MEMORY not in result.output.split(b"\n") and result.status in (0, 1)
    tally.check(
        is_right,
        f"{script[:200]!r}: status {result.status}, standard error {result.errors!r}, output {result.output[:200]!r}",
    )


def check_worked(program, name, script, plain, tally):
    """One run of a worked script: this output and status, and nothing on standard error."""
    result = run_program(program, script)
    tally.check(
        (result.output, result.status, result.errors) == (plain.output, plain.status, b""),
        f"{name!r}: status {result.status}, standard error {result.errors!r}, output {result.output[:200]!r}",
    )


def main():
    parser = argparse.ArgumentParser(description="looks for commands that are out of memory while there is enough")
    parser.add_argument("--program", required=True)
    options = parser.parse_args()
    tally = Tally()
    for form in FORMS:
        for script in scripts_of(form):
            check_script(options.program, script, tally)
    for name, script in worked.program_scripts():
        check_worked(options.program, name, script, model.run_output(script), tally)
    for row in worked.PROGRAM_ROWS:
        check_worked(options.program, row.name, row.script, row, tally)
    return tally.close()


if __name__ == "__main__":
    sys.exit(main())
