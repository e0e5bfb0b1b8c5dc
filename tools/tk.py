#!/usr/bin/env python3
"""Compares the program with real Tk 8.6: the rows of docs/differences.md, and random scripts outside them.

    python3 tools/tk.py --program PATH                     every row, in the program and in Tk
    python3 tools/tk.py --program PATH --scripts N [--first K]     random scripts in both
    python3 tools/tk.py --program PATH --indices           the grammar of an index, crossed (tk_indices.py)

Where Tk isn't installed (`apt-get install xvfb tk8.6`) the rows are run in the program alone, and random scripts not at
all; both is said.  Ends in a line `N passed, M failed`; the exit status is 1 if anything failed.
"""

import argparse
import os
import re
import sys
from typing import NamedTuple

import tk_indices
import tk_real
import tk_scripts
from harness import Tally, ask_program

TOP = os.path.dirname(os.path.dirname(os.path.abspath(__file__)))
TABLE = os.path.join(TOP, "docs", "differences.md")
KINDS = ("our choice", "a bug of Tk's", "left out")
# The words of the page for an answer that isn't a text.
EMPTY, REFUSED, NONE = "*empty*", "*refused*", "*none*"
# How a difference is headed, and what parts the commands of a script, or answers.
HEADING = re.compile(r"\*\*(.*)\*\* \((.*)\)")
PART_BREAK = " · "
# A command that stands for many, each with a number in the place of its N.
MANY = re.compile(r"`(.*)` for N from (\d+) to (\d+)")


class Row(NamedTuple):
    """A difference: a script's commands, and the last answers of Tk and of the program, as the page spells them."""

    name: str
    commands: tuple
    tk: tuple
    ours: tuple


def items_below(lines):
    """The items of the list that stands below a heading, each on one line: a list of texts."""
    items = []
    for line in lines:
        if line.startswith("- "):
            items.append(line[2:])
        elif line.startswith("  "):
            items[-1] += " " + line.strip()
        elif line:
            break
    return items


def spans_of(item, label):
    """The parts of an item with a label: code without its quotes, and words as they are."""
    found, _, parts = item.partition(": ")
    assert found == label, f"{item!r} is no {label}"
    return tuple(re.sub(r"^`(.*)`$", r"\1", part) for part in parts.split(PART_BREAK))


def commands_of(spans):
    """The commands of a script."""
    commands = []
    for span in spans:
        many = MANY.fullmatch(span)
        numbers = range(int(many[2]), int(many[3]) + 1) if many else []
        commands += [many[1].replace("N", str(number)) for number in numbers] or [span]
    return tuple(commands)


def read_rows(path):
    """All differences of the page."""
    rows = []
    with open(path, encoding="utf-8") as file:
        lines = file.read().splitlines()
    for number, line in enumerate(lines):
        if heading := HEADING.fullmatch(line):
            name, kind = heading.groups()
            assert kind in KINDS, f"{name}: no kind is {kind!r}"
            script, tk, ours, _ = items_below(lines[number + 1 :])
            commands = commands_of(spans_of(script, "Script"))
            rows.append(Row(name, commands, spans_of(tk, "Tk"), spans_of(ours, "`tktext`")))
    return rows


def shown(answer):
    """An answer as the page spells it."""
    if answer is None:
        return NONE
    if answer.is_refused:
        return REFUSED
    return answer.text.replace("\n", "\\n") or EMPTY


def check_answers(where, row, wanted, answers, tally):
    """The last answers are those that the row names."""
    given = tuple(shown(answer) for answer in answers[-len(wanted) :])
    tally.check(given == wanted, f"{row.name} in {where}: {' / '.join(given)} and not {' / '.join(wanted)}")


def check_row(program, tk, row, tally):
    """The row holds in the program and, if it is there, in Tk; and it is a difference."""
    tally.check(row.tk != row.ours, f"{row.name}: both columns are the same")
    check_answers("the program", row, row.ours, ask_program(program, row.commands), tally)
    if tk is not None:
        patience = tk_real.LITTLE_PATIENCE if NONE in row.tk else tk_real.PATIENCE
        check_answers("Tk", row, row.tk, tk.answers(row.commands, patience), tally)


def check_rows(program, tk, version, tally):
    rows = read_rows(TABLE)
    names = [row.name for row in rows]
    tally.check(len(names) == len(set(names)), "two rows have one name")
    for row in rows:
        check_row(program, tk, row, tally)
    print(f"{len(rows)} rows, in the program {'alone: ' if tk is None else 'and in '}{version}")


def check_scripts(program, tk, seeds, tally):
    """Random scripts give in both what the rows leave the same."""
    met = tk_scripts.compare(program, tk, seeds, tally)
    names = {row.name for row in read_rows(TABLE)}
    for rule in sorted(set(met) - names):
        tally.failed(f"no difference of the page is called {rule}")


def check_indices(program, tk, tally):
    """Each index of the grammar gives the same in both, or is one of those of which a row speaks."""
    met = tk_indices.compare(program, tk, tally)
    names = {row.name for row in read_rows(TABLE)}
    for kind, count in sorted(met.items()):
        tally.check(kind in names, f"no difference of the page is called {kind}")
        print(f"{count} indices are answered otherwise by {kind}")


def main():
    parser = argparse.ArgumentParser(description="compares the program with real Tk")
    parser.add_argument("--program", required=True)
    parser.add_argument("--scripts", type=int, default=0)
    parser.add_argument("--first", type=int, default=0)
    parser.add_argument("--indices", action="store_true")
    options = parser.parse_args()
    tally = Tally()
    tk, version = tk_real.open_tk()
    if (options.scripts or options.indices) and tk is None:
        print(f"random scripts and indices are not run: {version}\n0 passed, 0 failed")
        return 0
    try:
        if options.scripts:
            check_scripts(options.program, tk, range(options.first, options.first + options.scripts), tally)
        elif options.indices:
            check_indices(options.program, tk, tally)
        else:
            check_rows(options.program, tk, version, tally)
    finally:
        if tk is not None:
            tk.close()
    return tally.close()


if __name__ == "__main__":
    sys.exit(main())
