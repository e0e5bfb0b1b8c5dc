#!/usr/bin/env python3
"""Asks by which power of each of its sizes a command's cost grows, and writes docs/bench_orders.txt.

    python3 tools/orders.py --program PATH --out FILE [--only WORD] [--jobs N]

Needs valgrind, whose callgrind counts instructions. Each row is a form of a command, given after a state of a size n,
or over words of that size, at n, 2n, 4n and 8n; what the state takes by itself is counted by a run without the command
and taken off. The order is the power of the last doubling: 1 where twice the size costs twice as much. It may be 1.15
at most; a row above that needs a reason in REASONS, or the exit status is 1. Beside it stands the order of real Tk, by
its clock, where Tk is installed (`wish` and Xvfb).
"""

import argparse
import math
import os
import random
import re
import subprocess
import sys
import tempfile
from concurrent.futures import ThreadPoolExecutor
from typing import NamedTuple

import tk_orders

MOST_ORDER = 1.15
# A command that takes less than this at the greatest size doesn't grow by it: some 20 instructions for each of its
# thousands would be more. What swings there are the allocator's lists.
LEAST_INSTRUCTIONS = 400_000
COLLECTED = re.compile(r"Collected : (\d+)")
WORDS = "some words of a line"
FOUR = (1, 2, 4, 8)


class Row(NamedTuple):
    """What is counted: the form, the size that grows, the least of its four values, and for a value what stands before
    the commands, and the commands."""

    form: str
    size: str
    least: int
    before: callable
    commands: callable


# Why a row may be above the bound, by its form and its size.
MARKS_BY_NUMBER = "a line has its marks in the order of their numbers, so each stop goes over all of them"
COPIES_MARKS = "each command copies the line that gets the mark, with all marks in it"
ADDED_UP = "a walk, asked for step by step: the tags at a place are added up over the toggles before it in its line"
REASONS = {
    ("insert with pieces of one line", "pieces"):
        "the tags before a piece are added up over the toggles of its line, for each piece",
    ("mark unset", "names"): "a draft's copies are searched for each mark, of which a text has 4,096 at most",
    ("tag delete", "names"): "each tag is looked for between the lines that are copied; a text has 960 at most",
    ("insert with tags", "tags of a piece"): "the tables of names grow by doubling, up to 960 tags",
    ("mark set, one more", "marks at one place"): "linear but for the allocator: the line is copied with its marks",
    ("mark set, one more", "marks in one line"): "linear but for the allocator: the line is copied with its marks",
    ("mark set, all again", "marks at one place"): COPIES_MARKS,
    ("mark set, all again", "marks in one line"): COPIES_MARKS,
    ("mark set, all again", "marks over lines"): COPIES_MARKS,
    ("mark set", "names with one beginning"): COPIES_MARKS,
    ("dump -text", "marks in one line"): MARKS_BY_NUMBER,
    ("dump -mark", "marks in one line"): MARKS_BY_NUMBER,
    ("mark next, a walk", "marks in one line"): MARKS_BY_NUMBER,
    ("mark previous, a walk", "marks in one line"): MARKS_BY_NUMBER,
    ("delete all", "marks over lines"): "each line that is joined merges its marks into those of the lines before it",
    ("tag nextrange, a walk", "toggles of a line"): ADDED_UP,
    ("tag prevrange, a walk", "toggles of a line"): ADDED_UP,
    ("tag names, each", "toggles of a line"): ADDED_UP,
    ("destroy", "documents"): "each command looks at every document, of which there are 64 at most",
    ("edit undo of insertions at one place", "edits of a group"):
        "each removal moves up the characters behind it in its line",
}


def lines(count):
    """A text of so many lines."""
    return ["text .t", f".t insert end {{{(WORDS + chr(10)) * count}}}"]


def line(count):
    """A text of a line of so many characters."""
    return ["text .t", f".t insert end {{{'word ' * (count // 5)}}}"]


def word(count):
    """A text of one word of so many characters."""
    return ["text .t", f".t insert end {{{'x' * count}}}"]


def after(before, *commands):
    """What stands before, and these commands."""
    return lambda count: before(count) + [form.format(n=count, half=count // 2) for form in commands]


def once(*forms):
    """These commands, in which {n} is the size and {half} half of it."""
    return lambda count: [form.format(n=count, half=count // 2) for form in forms]


def each(form, order=None):
    """A command for each number from 1 to the size, in order, or as `order` puts them."""
    return lambda count: [form.format(i=i, next=i + 1) for i in put_in(order, list(range(1, count + 1)))]


def put_in(order, numbers):
    """Numbers in another order."""
    if order == "falling":
        numbers.reverse()
    if order == "shuffled":
        random.Random(1).shuffle(numbers)
    return numbers


def ranges(command, form, order=None):
    """One command with a range for each number."""
    def commands(count):
        numbers = put_in(order, list(range(1, count + 1)))
        return [f"{command} " + " ".join(form.format(i=i, next=i + 1, n=count) for i in numbers)]

    return commands


def with_word(form):
    """One command, made by a function of the size."""
    return lambda count: [form(count)]


def joined(*parts):
    """All of these, one after the other."""
    return lambda count: [command for part in parts for command in part(count)]


def marks_in(form):
    """A mark for each number, at a place."""
    return each(".t mark set m{i} " + form)


at_one_place = joined(lines, marks_in("{i}.3"), once(".t delete 1.0 end"))
in_one_line = joined(line, marks_in("1.{i}"))
over_lines = joined(lines, marks_in("{i}.3"))
tagged_lines = joined(lines, ranges(".t tag add a", "{i}.2 {i}.6"))
toggled_line = joined(lambda count: line(5 * count), ranges(".t tag add a", "1.{i}00 1.{i}01"))
tags_here = joined(lambda _: lines(4), each(".t tag add t{i} 1.0 1.4"))
peers = joined(lambda _: lines(100), each(".t peer create .p{i}"))
undoing = once(".t configure -undo 1")


def toggles(count):
    """A line with a tag on each second character."""
    return ["text .t", ".t insert end " + "x a y {} " * count]


def one_group(form, order=None):
    """Edits of one group, in an order."""
    return joined(lines, undoing, once(".t configure -autoseparators 0"), each(form, order))


def both_ends(count):
    """Deletions of one character at the start and at the end by turns, of one group."""
    return [f".t delete {'1.0' if number % 2 else f'{count}.0'}" for number in range(count)]


def rows_of(size, least, before, *forms):
    """A row for each form: its name, and one command."""
    return [Row(name, size, least, before, once(command)) for name, command in forms]


def few_lines(_):
    """A text of a few lines, whatever the size."""
    return lines(10)


all_tagged = joined(lines, once(".t tag add a 1.0 end"))
separated = each(".t insert {i}.0 x\n.t edit separator")
with_groups = joined(lines, undoing, separated)

OF_LINES = rows_of(
    "lines", 2_000, lines,
    ("insert a character", ".t insert {half}.3 x"),
    ("insert a line", ".t insert {half}.3 {{x\n}}"),
    ("delete a character", ".t delete {half}.3"),
    ("delete a line", ".t delete {half}.0 {half}.end+1c"),
    ("delete half of it", ".t delete 1.0 {half}.0"),
    ("replace a word", ".t replace {half}.0 {half}.4 that"),
    ("get a line", ".t get {half}.0 {half}.end"),
    ("get all", ".t get 1.0 end"),
    ("index by line", ".t index {half}.5"),
    ("index by characters", ".t index 1.0+{n}c"),
    ("index by lines", ".t index 1.0+{half}lines"),
    ("index lineend", ".t index {half}.0lineend"),
    ("index wordend", ".t index {{{half}.0 wordend}}"),
    ("mark set", ".t mark set m {half}.3"),
    ("mark next with none", ".t mark next 1.0"),
    ("tag add", ".t tag add a {half}.0 {half}.4"),
    ("tag add to all", ".t tag add a 1.0 end"),
    ("tag nextrange with none", ".t tag nextrange a 1.0"),
    ("count", ".t count -chars 1.0 {half}.0"),
    ("count lines", ".t count -lines 1.0 end"),
    ("compare", ".t compare {half}.0 < end"),
    ("dump a line", ".t dump {half}.0 {half}.end"),
    ("dump all", ".t dump 1.0 end"),
    ("search without a match", ".t search zebra 1.0"),
    ("search -backwards", ".t search -backwards zebra end"),
    ("search -all", ".t search -all words 1.0"),
    ("search -nocase", ".t search -nocase ZEBRA 1.0"),
    ("peer create", ".t peer create .p"),
    ("destroy", "destroy .t"),
) + [
    Row("insert lines", "lines put in", 2_000, once("text .t"), lambda count: lines(count)[1:]),
    Row(
        "edit undo of a load", "lines", 2_000, joined(once("text .t -undo 1"), lambda count: lines(count)[1:]),
        once(".t edit undo"),
    ),
]

OF_ONE_LINE = rows_of(
    "length of a line", 20_000, line,
    ("insert in front", ".t insert 1.0 x"),
    ("insert at the end", ".t insert 1.end x"),
    ("insert a newline in the middle", ".t insert 1.{half} {{\n}}"),
    ("delete a character", ".t delete 1.{half}"),
    ("delete half of it", ".t delete 1.0 1.{half}"),
    ("get all", ".t get 1.0 1.end"),
    ("index", ".t index 1.{half}"),
    ("index wordstart", ".t index {{1.{half} wordstart}}"),
    ("index lineend", ".t index {{1.0 lineend}}"),
    ("search without a match", ".t search zebra 1.0"),
    ("search -all", ".t search -all word 1.0"),
    ("tag add", ".t tag add a 1.{half} 1.end"),
    ("mark set", ".t mark set m 1.{half}"),
    ("dump", ".t dump 1.0 end"),
) + rows_of(
    "length of a word", 20_000, word,
    ("index wordend", ".t index {{1.0 wordend}}"),
    ("index wordstart", ".t index {{1.{half} wordstart}}"),
) + [
    Row("insert one by one at the end", "characters of a line", 500, once("text .t"), each(".t insert 1.end x")),
]

OF_RANGES = [
    Row(f"{verb} with ranges, {order or 'rising'}", "ranges", 500, before, ranges(f".t {verb}", "{i}.2 {i}.6", order))
    for verb, before in (("tag add a", lines), ("tag remove a", all_tagged), ("delete", lines))
    for order in (None, "falling", "shuffled")
] + [
    Row(f"{verb} with ranges that {name}", "ranges", 500, before, ranges(f".t {verb}", form))
    for verb, before in (("tag add a", lines), ("tag remove a", all_tagged), ("delete", lines))
    for name, form in (
        ("begin at one place", "1.2 {next}.2"), ("end at one place", "{i}.2 end"), ("are one", "1.2 2.3"),
    )
] + [
    Row(
        "tag add with ranges of one line", "ranges", 500, lambda count: word(2 * count + 1),
        ranges(".t tag add a", "1.{i} 1.{next}"),
    ),
]

OF_WORDS = [
    Row("insert with pieces of one line", "pieces", 500, once("text .t"), ranges(".t insert end", "x a y {{}}")),
    Row(
        "insert with pieces of lines", "pieces", 500, once("text .t"),
        ranges(".t insert end", "{{x\n}} a {{y\n}} {{}}"),
    ),
    Row("replace with pieces", "pieces", 500, few_lines, ranges(".t replace 2.0 4.0", "{{x\n}} a {{y\n}} {{}}")),
    Row("index with +1c", "modifiers", 2_000, few_lines, with_word(lambda n: ".t index 1.0" + "+1c" * n)),
    Row(
        "index with +1c behind a mark", "modifiers", 2_000, after(few_lines, ".t mark set q 1.0"),
        with_word(lambda n: ".t index q" + "+1c" * n),
    ),
    Row(
        "index with +1c behind a tag", "modifiers", 2_000, after(few_lines, ".t tag add q 1.0"),
        with_word(lambda n: ".t index q.first" + "+1c" * n),
    ),
    Row(
        "index with spaces", "modifiers", 2_000, few_lines,
        with_word(lambda n: ".t index {1.0" + " + 1 chars" * n + "}"),
    ),
    Row(
        "index of no name", "words of the index", 500, few_lines,
        with_word(lambda n: ".t index {" + "some words " * n + "}"),
    ),
    Row("mark unset", "names", 500, over_lines, ranges(".t mark unset", "m{i}")),
    Row("mark unset, falling", "names", 500, over_lines, ranges(".t mark unset", "m{i}", "falling")),
    Row("tag delete", "names", 100, joined(lines, each(".t tag add t{i} {i}.0")), ranges(".t tag delete", "t{i}")),
    Row(
        "insert with tags", "tags of a piece", 100, few_lines,
        with_word(lambda n: ".t insert 1.0 x {" + " ".join(f"t{i}" for i in range(n)) + "}"),
    ),
    Row("a long word", "bytes", 20_000, few_lines, with_word(lambda n: ".t insert end {" + "x" * n + "}")),
    Row("a quoted word", "bytes", 20_000, few_lines, with_word(lambda n: '.t insert end "' + "x\\n" * (n // 3) + '"')),
    Row("braces in braces", "depth", 2_000, few_lines, with_word(lambda n: ".t insert end " + "{" * n + "}" * n)),
    Row(
        "a list of lists", "depth", 2_000, few_lines,
        with_word(lambda n: ".t insert end x {" + "{" * n + "}" * n + "}"),
    ),
    Row("brackets", "depth", 2_000, few_lines, with_word(lambda n: ".t insert end {" + "[" * n + "]" * n + "}")),
    Row("short commands", "commands", 500, few_lines, each(".t index 1.0")),
]

OF_MARKS = [
    Row(form, f"marks {name}", 500, before, commands)
    for name, before in (("at one place", at_one_place), ("in one line", in_one_line), ("over lines", over_lines))
    for form, commands in (
        ("dump -text", once(".t dump -text 1.0 end")),
        ("dump -mark", once(".t dump -mark 1.0 end")),
        ("mark next, a walk", each(".t mark next m{i}")),
        ("mark previous, a walk", each(".t mark previous m{i}")),
        ("mark next, once", once(".t mark next m1")),
        ("mark previous, once", once(".t mark previous m{half}")),
        ("mark set, one more", once(".t mark set more 1.2")),
        ("mark set, all again", each(".t mark set m{i} 1.1")),
        ("mark names", once(".t mark names")),
        ("insert in front", once(".t insert 1.0 x")),
        ("delete all", once(".t delete 1.0 end")),
        ("index by a mark", each(".t index m{i}")),
    )
] + [
    Row(f"{verb}", "names with one beginning", least, few_lines, each(f".t {verb} {'x' * 200}{{i}} {{i}}.0"))
    for verb, least in (("mark set", 500), ("tag add", 100))
]

OF_TAGS = rows_of(
    "tags of a character", 100, tags_here,
    ("tag names", ".t tag names 1.0"),
    ("tag names, all", ".t tag names"),
    ("insert between", ".t insert 1.2 x"),
    ("dump", ".t dump 1.0 1.end"),
    ("tag add, one more", ".t tag add more 1.0"),
    ("delete", ".t delete 1.0 1.2"),
    ("tag raise", ".t tag raise t1"),
    ("tag lower", ".t tag lower t{n}"),
    ("tag delete", ".t tag delete t{half}"),
    ("get", ".t get 1.0 end"),
    ("tag ranges", ".t tag ranges t1"),
) + [
    Row(form, "toggles of a line", 500, toggles, commands)
    for form, commands in (
        ("tag nextrange, once", once(".t tag nextrange a 1.{half}")),
        ("tag ranges", once(".t tag ranges a")),
        ("tag add at the front", once(".t tag add b 1.1")),
        ("tag remove", once(".t tag remove a 1.0 end")),
        ("tag delete", once(".t tag delete a")),
        ("insert in front", once(".t insert 1.0 x")),
        ("delete half of it", once(".t delete 1.0 1.{n}")),
        ("dump", once(".t dump 1.0 end")),
        ("tag nextrange, a walk", each(".t tag nextrange a 1.{i}")),
        ("tag prevrange, a walk", each(".t tag prevrange a 1.{i}")),
        ("tag names, each", each(".t tag names 1.{i}")),
    )
] + [
    Row(form, "ranges of a tag", 500, tagged_lines, commands)
    for form, commands in (
        ("tag ranges", once(".t tag ranges a")),
        ("tag nextrange, a walk", each(".t tag nextrange a {i}.7")),
        ("tag prevrange, a walk", each(".t tag prevrange a {i}.7")),
        ("tag remove", once(".t tag remove a 1.0 end")),
        ("tag delete", once(".t tag delete a")),
        ("dump", once(".t dump 1.0 end")),
        ("index by tag.last", once(".t index a.last")),
        ("tag nextrange, last", once(".t tag nextrange a {n}.7")),
    )
]

OF_WIDGETS = rows_of(
    "peers", 7, peers,
    ("insert", ".t insert 1.0 x"),
    ("delete", ".t delete 1.0 2.0"),
    ("dump -mark", ".t dump -mark 1.0 end"),
    ("mark names", ".t mark names"),
    ("peer names", ".t peer names"),
    ("tag add sel", ".t tag add sel 1.0 2.0"),
) + [
    Row("text", "documents", 7, lambda _: [], each("text .d{i}")),
    Row("insert in each", "documents", 7, each("text .d{i}"), each(".d{i} insert 1.0 x")),
    Row("destroy", "documents", 7, each("text .d{i}"), each("destroy .d{i}")),
]

OF_HISTORY = [
    Row("insert", "groups of the history", 500, with_groups, once(".t insert 2.0 x")),
    Row("edit undo, all", "groups of the history", 500, with_groups, each(".t edit undo")),
    Row(
        "edit undo and redo, all", "groups of the history", 500, with_groups,
        joined(each(".t edit undo"), each(".t edit redo")),
    ),
    Row("edit reset", "groups of the history", 500, with_groups, once(".t edit reset")),
] + [
    Row(
        f"edit undo of {name}, {order or 'rising'}", "edits of a group", 500, one_group(form, order),
        once(".t edit undo"),
    )
    for name, form in (
        ("insertions", ".t insert {i}.3 x"),
        ("deletions", ".t delete {i}.3 {i}.5"),
        ("replacements", ".t replace {i}.0 {i}.4 that"),
    )
    for order in (None, "falling", "shuffled")
] + [
    Row(
        "edit undo of deletions at both ends by turns", "edits of a group", 500,
        joined(lines, undoing, once(".t configure -autoseparators 0"), both_ends), once(".t edit undo"),
    ),
    Row(
        "edit undo of insertions at one place", "edits of a group", 500, one_group(".t insert 1.0 x"),
        once(".t edit undo"),
    ),
]

OF_SEARCHES = [
    Row(
        f"search{option} in letters that are alike", "length of the pattern", 500, lambda n: word(8 * n),
        with_word(lambda n, option=option: f".t search{option} {{{'x' * n}y}} 1.0"),
    )
    for option in ("", " -nocase", " -backwards")
] + [
    Row(
        "search over lines that are alike", "lines of the pattern", 250,
        lambda n: ["text .t", ".t insert end {" + "x\n" * (8 * n) + "}"],
        with_word(lambda n: ".t search {" + "x\n" * n + "y} 1.0"),
    ),
    Row("search -all of one letter", "matches", 2_000, word, once(".t search -all x 1.0")),
    Row("search -all -overlap", "matches", 2_000, word, once(".t search -all -overlap xx 1.0")),
]

ROWS = [
    *OF_LINES, *OF_ONE_LINE, *OF_RANGES, *OF_WORDS, *OF_MARKS, *OF_TAGS, *OF_WIDGETS, *OF_HISTORY, *OF_SEARCHES,
]


def counted(options, commands, folder):
    """The instructions of the program over these commands."""
    with tempfile.TemporaryDirectory(dir=folder) as place:
        script = os.path.join(place, "script")
        with open(script, "w", encoding="utf-8") as file:
            file.write("\n".join([*commands, ""]))
        with open(script, "rb") as file:
            done = subprocess.run(
                ["valgrind", "--tool=callgrind", f"--callgrind-out-file={place}/out", options.program],
                stdin=file, stdout=subprocess.DEVNULL, stderr=subprocess.PIPE, check=False,
            )
    return int(COLLECTED.search(done.stderr.decode()).group(1))


def order_of(costs):
    """The power of the last doubling, or None where the cost is too little to tell."""
    if costs[-1] < LEAST_INSTRUCTIONS:
        return None
    return math.log2(max(costs[-1], 1) / max(costs[-2], 1))


def measure(row, options, folder):
    """The costs of a row at its four sizes, and Tk's order."""
    costs = []
    for factor in FOUR:
        before, commands = row.before(row.least * factor), row.commands(row.least * factor)
        costs.append(counted(options, before + commands, folder) - counted(options, before, folder))
    return costs


def main():
    parser = argparse.ArgumentParser(description="by which power of its sizes a command's cost grows")
    parser.add_argument("--program", required=True)
    parser.add_argument("--out", required=True)
    parser.add_argument("--only", default="")
    parser.add_argument("--jobs", type=int, default=os.cpu_count())
    options = parser.parse_args()
    rows = [row for row in ROWS if options.only in f"{row.form} | {row.size}"]
    with tempfile.TemporaryDirectory() as folder, ThreadPoolExecutor(options.jobs) as pool:
        found = list(pool.map(lambda row: measure(row, options, folder), rows))
    orders = [order_of(costs) for costs in found]
    tk = tk_orders.orders(rows, FOUR)
    form = "{:<49}{:<25}{:>7}{:>13}{:>14}{:>6}{:>6}"
    text = [form.format("form", "size", "least", "at least", "at most", "order", "Tk")]
    failed = 0
    for row, costs, order, theirs in zip(rows, found, orders, tk):
        told = "-" if order is None else f"{order:.2f}"
        text.append(form.format(row.form, row.size, row.least, f"{costs[0]:,}", f"{costs[-1]:,}", told, theirs))
        if order is not None and order > MOST_ORDER:
            reason = REASONS.get((row.form, row.size))
            failed += reason is None
            text.append(f"    above {MOST_ORDER}: {reason or 'no reason is known'}")
    with open(options.out, "w", encoding="utf-8") as file:
        file.write("\n".join([*text, ""]))
    print(f"{len(rows)} rows, {failed} above {MOST_ORDER} without a reason")
    return 1 if failed else 0


if __name__ == "__main__":
    sys.exit(main())
