#!/usr/bin/env python3
"""Weighs what a text holds after edits that leave it as it was, and asks that it doesn't grow with their number.

    python3 tools/held.py --program PATH --shim PATH [--only WORD]

PATH is the program `tktext` and the allocator of `tools/weigh.c`. Each kind makes a text, and then goes through it by
commands after which the text has its size again: once through a tenth of it, and once through all of it. What is in use
when the program reads the end of its script may differ by a twentieth, and is at most three times the text's bytes, 300
bytes for each line and a fixed amount. The last line counts the checks.
"""

import argparse
import os
import random
import subprocess
import sys
import tempfile
from typing import NamedTuple

MOST_GROWTH = 1.05
# What the program holds beside a text: its buffers, the tables of a document, its names.
FIXED_BYTES = 500_000
MOST_PER_BYTE = 3
MOST_PER_LINE = 300
# How many lines a text of many lines has, and what stands in each.
LINES = 4_000
MANY_LINES = 10_000
WORDS = "some words of a line"
# A text of few long lines: how many, and how long the longest of them is at any time.
LONG_LINES = 100
LONG = "x" * 100_000
LETTERS = "x" * 5_000
MEGABYTE = "some letters and spaces, " * 40_000


class Kind(NamedTuple):
    """What is weighed: its name, the lines of its text, the commands of a run of a given length, what was done to each
    line before that, and the lengths of the two runs: where none are given, a tenth of the lines and all."""

    name: str
    lines: list
    commands: callable
    before: tuple = ()
    runs: tuple = ()


def for_lines(*forms):
    """These commands for each of so many lines."""
    return lambda count: [form.format(line=line) for line in range(1, count + 1) for form in forms]


def replaced(tags):
    """Each line gets these tags, is replaced without any, and has them taken off."""
    on = [f".t tag add {tag} {{line}}.0 {{line}}.end" for tag in tags]
    off = [f".t tag remove {tag} {{line}}.0 {{line}}.end" for tag in tags]
    return for_lines(*on, f".t replace {{line}}.0 {{line}}.end {{{{{WORDS}}}}} {{{{}}}}", *off)


def mixed(count):
    """Each line is tagged, marked, written to and cleaned again, in an order of its own."""
    chance = random.Random(1)
    commands = []
    for line in range(1, count + 1):
        steps = [
            f".t tag add a{chance.randrange(8)} {line}.{chance.randrange(8)} {line}.end",
            f".t insert {line}.{chance.randrange(8)} word a{chance.randrange(8)}",
            f".t delete {line}.0 {line}.4",
        ]
        if chance.random() < 0.25:
            steps.append(f".t mark set m{chance.randrange(8)} {line}.{chance.randrange(8)}")
        cleaning = [f".t replace {line}.0 {line}.end {{{WORDS}}} {{}}"]
        cleaning += [f".t tag remove a{tag} {line}.0 {line}.end" for tag in range(8)]
        chance.shuffle(steps)
        chance.shuffle(cleaning)
        commands += steps + cleaning
    return commands + [f".t mark unset m{mark}" for mark in range(8)]


def long_front(count):
    """Newlines are put into the front of a long line, one after the other."""
    return [f".t insert {line}.0 {{\n}}" for line in range(1, count + 1)]


# Toggles at eight places, which go with what is behind the words of a line; the tag that it keeps has two.
TAGGED_END = " ".join(["x a y {{}}"] * 4)
MANY_TAGGED = " ".join(["x a y {{}}"] * 100)


def rounds(*commands):
    """These commands, so many times."""
    return lambda count: list(commands) * count


def named(command, last):
    """A command for each of so many names, and then one for all of them."""
    def commands(count):
        names = [f"n{number}" for number in range(count)]
        return [command.format(name=name) for name in names] + [f"{last} {' '.join(names)}"]

    return commands


def toggled(count):
    """Twenty lines get 5,000 toggles each and are joined, their tag goes, and the line is split again."""
    pieces = f"{LETTERS[0]} a {LETTERS[0]} {{}} " * (len(LETTERS) // 2)
    tagged = [f".t replace {line}.0 {line}.end {pieces}" for line in range(1, 21)]
    joined = [".t delete 1.end"] * 19
    split = [f".t insert 1.{len(LETTERS) * line} {{\n}}" for line in range(19, 0, -1)]
    return rounds(*tagged, *joined, ".t tag remove a 1.0 1.end", *split)(count)


def marked(count):
    """A thousand marks go from line to line, and are unset in the end."""
    marks = range(1_000)
    moves = [f".t mark set m{mark} {line}.{mark % 20}" for line in range(1, count + 1) for mark in marks]
    return moves + [".t mark unset " + " ".join(f"m{mark}" for mark in marks)]


def empty_documents(count):
    """So many documents, which stay."""
    return [f"text .d{number}" for number in range(count)]


def documents(count):
    """Documents are made, written to and destroyed."""
    forms = ("text .d{number}", ".d{number} insert 1.0 words", "destroy .d{number}")
    return [form.format(number=number) for number in range(count) for form in forms]


def inserted(count):
    """So many lines are put in and taken out again."""
    lines = f"{WORDS}\n" * count
    return [f".t insert 1.0 {{{lines}}}", f".t delete 1.0 {count + 1}.0"]


def undoable(count):
    """So many edits can be undone, and then none."""
    edits = [".t insert 1.0 some", ".t edit separator", ".t delete 1.0 1.4", ".t edit separator"]
    return [".t configure -undo 1", *(edits * count), ".t edit reset", ".t configure -undo 0"]


KINDS = [
    Kind("sixteen tags, replaced without", [WORDS] * LINES, replaced([f"a{tag}" for tag in range(16)])),
    Kind("one tag, replaced without", [WORDS] * LINES, replaced(["a"])),
    Kind(
        "a tag that is on already", [WORDS] * LINES,
        for_lines(
            ".t tag add a {line}.0 {line}.end", ".t tag add a {line}.2 {line}.end",
            ".t tag remove a {line}.2 {line}.end", ".t tag remove a {line}.0 {line}.end",
        ),
    ),
    Kind(
        "written with a tag, and deleted", [WORDS] * LINES,
        for_lines(".t insert {line}.4 word a", ".t delete {line}.4 {line}.8", ".t tag remove a {line}.0 {line}.end"),
    ),
    Kind("mixed edits", [WORDS] * LINES, mixed),
    Kind(
        "few of many toggles are kept", [WORDS] * LINES,
        for_lines(
            f".t insert {{line}}.end {TAGGED_END}", f".t delete {{line}}.{len(WORDS)} {{line}}.end",
            ".t tag remove a {line}.0 {line}.end",
        ),
        before=(".t tag add k {line}.0 {line}.4",),
    ),
    Kind(
        "two of two hundred toggles are kept", [WORDS] * (LINES // 10),
        for_lines(f".t insert {{line}}.end {MANY_TAGGED}", f".t delete {{line}}.{len(WORDS)} {{line}}.end"),
        before=(".t tag add k {line}.0 {line}.4",),
    ),
    Kind("newlines in front of a long line", ["x" * 1_000_000], long_front, runs=(20, 200)),
    Kind(
        "long lines that are cut", ["short"] * LONG_LINES,
        for_lines(f".t insert {{line}}.5 {LONG}", ".t delete {line}.5 {line}.end"),
    ),
    Kind("toggles that go", [LETTERS] * 20, toggled, runs=(1, 2)),
    Kind("marks that go from line to line", [WORDS] * LINES, marked, runs=(2, 20)),
    Kind(
        "lines joined and split again", [WORDS] * 1_000,
        rounds(*[".t delete 1.end"] * 999, *[f".t insert 1.{len(WORDS) * line} {{\n}}" for line in range(999, 0, -1)]),
        runs=(1, 10),
    ),
    Kind(
        "lines that are typed behind others that are cut", [WORDS] * LINES,
        rounds(".t delete 1.0 2.0", f".t insert end {{{WORDS}}}", ".t insert end {\n}"),
    ),
    Kind("lines put in and taken out", [WORDS] * 1_000, inserted, runs=(300, 30_000)),
    Kind(
        "commands of a megabyte", [WORDS] * 100,
        rounds(f".t insert 1.0 {{{MEGABYTE}}}", f".t delete 1.0 1.{len(MEGABYTE)}"), runs=(2, 200),
    ),
    Kind(
        "refused commands of a megabyte", [WORDS] * 100,
        rounds(f".t insert nowhere {{{MEGABYTE}}}", f".t mark gravity {{{MEGABYTE}}}", f"{{{MEGABYTE}}}"), runs=(1, 20),
    ),
    # What a document holds without a text, and without marks.
    Kind("documents without a text", [WORDS], empty_documents, runs=(60, 60)),
    Kind("documents that are destroyed", [WORDS] * LINES, documents, runs=(10, 1_000)),
    Kind(
        "a text deleted and brought back", [WORDS] * LINES,
        rounds(".t configure -undo 1", ".t delete 1.0 end", ".t edit undo", ".t edit reset", ".t configure -undo 0"),
        runs=(1, 10),
    ),
    Kind("edits that can't be undone any more", [WORDS] * LINES, undoable, runs=(100, 10_000)),
    # A table of lines by the numbers of marks stays: 16 bytes for each number that a mark had.
    Kind(
        "marks that are unset", [WORDS] * MANY_LINES, named(".t mark set {name} 1.0", ".t mark unset"), runs=(30, 3_000)
    ),
    Kind("tags that are deleted", [WORDS] * LINES, named(".t tag add {name} 1.0", ".t tag delete"), runs=(30, 900)),
]


def script(kind, count):
    """The text, whose lines were all edited once, and the commands that go through the first so many of them."""
    text = "\n".join(kind.lines) + "\n"
    # A line that was edited has room for a few bytes more than one that was put in.
    edited = for_lines(*kind.before, ".t insert {line}.0 x", ".t delete {line}.0")(len(kind.lines))
    return "\n".join(["text .t", f".t insert end {{{text}}}", *edited, *kind.commands(count), ""])


def weigh(options, text, folder):
    """The bytes in use when the program reads the end of a script."""
    report = os.path.join(folder, "weight.txt")
    environment = dict(os.environ, LD_PRELOAD=os.path.abspath(options.shim), WEIGHT_REPORT=report)
    ended = subprocess.run(
        [options.program], input=text.encode(), env=environment, stdout=subprocess.DEVNULL, check=False
    )
    # 1 says that a command was refused.
    if ended.returncode not in (0, 1):
        sys.exit(f"the program ended by {ended.returncode}")
    with open(report, encoding="ascii") as file:
        return int(file.read().split()[3])


def checks(kind, options, folder):
    """Whether a kind grows with the length of its run, and whether it holds more than its text."""
    runs = kind.runs or (len(kind.lines) // 10, len(kind.lines))
    little, much = (weigh(options, script(kind, length), folder) for length in runs)
    text = sum(len(line) + 1 for line in kind.lines)
    bound = MOST_PER_BYTE * text + MOST_PER_LINE * len(kind.lines) + FIXED_BYTES
    held = f"{much:,} bytes are held after the longer run, {little:,} after the other"
    yield much <= MOST_GROWTH * little, f"{kind.name}: {held}"
    yield much <= bound, f"{kind.name}: {much:,} bytes are held, at most {bound:,}"


def main():
    parser = argparse.ArgumentParser(description="weighs what a text holds after edits that leave it as it was")
    parser.add_argument("--program", required=True)
    parser.add_argument("--shim", required=True)
    parser.add_argument("--only", default="")
    options = parser.parse_args()
    passed = failed = 0
    with tempfile.TemporaryDirectory() as folder:
        for kind in KINDS:
            if options.only not in kind.name:
                continue
            for is_met, words in checks(kind, options, folder):
                print(("" if is_met else "FAILED: ") + words, flush=True)
                passed, failed = passed + is_met, failed + (not is_met)
    print(f"{passed} passed, {failed} failed")
    return 1 if failed or not passed else 0


if __name__ == "__main__":
    sys.exit(main())
