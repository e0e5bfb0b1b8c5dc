#!/usr/bin/env python3
"""Times the program on generated scripts of growing size.

    python3 tools/bench.py --program PATH --asked PATH --out FILE [--sizes 5000,10000,20000] [--repeat 3]

Prints a table and writes it to FILE, so that the next change can be compared with it. Each time is the least of
several runs of the whole program, from its start to its end; a run of more than five seconds isn't made again. Below
stands what it takes to load as many lines as fit into a text by one insertion, what is asked for meanwhile (`--asked`
is tools/weigh.c, built with -DASKED), and the greatest resident size over scripts of three lengths, of short commands
and of edits whose history is bounded. The exit status is 1 if a run didn't
answer as it has to, if appending 20,000 words takes five seconds or more, or if the greatest resident size grows with
the script.
"""

import argparse
import os
import subprocess
import sys
import tempfile
import threading
import time
from typing import NamedTuple

from harness import SIZE_MARGIN, measure_size
from model import PROGRAM_LIMITS

GOAL_COMMANDS = 20_000
GOAL_SECONDS = 5.0
TIMEOUT_SECONDS = 300
# A run that takes longer isn't made again.
LONG_SECONDS = 5.0


class Kind(NamedTuple):
    """A kind of script: its name in the table, the commands of a size, how many newlines stand inside its answers, and its sizes
    where they aren't those of the others."""

    name: str
    commands: callable
    newlines: callable = lambda size: 0
    sizes: tuple = ()


def text_of(size):
    """The commands that make a text of `size` characters."""
    return ["text .t", ".t insert end " + "a" * size]


def appends(size):
    """A text made of words that are put in at its end."""
    return ["text .t"] + [".t insert end x"] * size


def middle_inserts(size):
    """A text of `size` characters, into which further ones are put at places all over it."""
    return text_of(size) + [f".t insert 1.{place} x" for place in spread_places(size)]


def index_queries(size):
    """A text of `size` characters, asked for the places of positions all over it."""
    return text_of(size) + [f".t index 1.{place}" for place in spread_places(size)]


def line_queries(size):
    """A text of `size` characters, asked for lines by their number, that of a line past the last too."""
    return text_of(size) + [f".t index {number % 3}.end" for number in range(size)]


def character_queries(size):
    """A text of `size` characters, asked for the characters at positions all over it."""
    return text_of(size) + [f".t get 1.{place}" for place in spread_places(size)]


def middle_deletes(size):
    """A text of `size` characters, from which single ones go all over it."""
    return text_of(size) + [f".t delete 1.{place}" for place in spread_places(size // 4)]


def middle_replaces(size):
    """A text of `size` characters, of which single ones are replaced all over it."""
    return text_of(size) + [f".t replace 1.{place} 1.{place + 1} x" for place in spread_places(size // 4)]


RANGES = 1_000


def many_ranges(size):
    """A text of `size` characters and twice as many as there are ranges, of which many go by one command, and come back."""
    text = text_of(size + 2 * RANGES)
    ranges = " ".join(f"1.{2 * number} 1.{2 * number + 1}" for number in range(RANGES))
    return text + [f".t delete {ranges}", ".t insert 1.0 " + "b" * RANGES] * (size // RANGES)


def undos(size):
    """A text of `size` characters, into which one is put all over it, taken back and put in again."""
    text = ["text .t -undo 1", ".t insert end " + "a" * size]
    return text + [command for place in spread_places(size // 8) for command in (f".t insert 1.{place} x", ".t edit undo", ".t edit redo")]


def long_histories(size):
    """A text of a few characters that is edited in so many groups, which are all undone at last."""
    return ["text .t -undo 1"] + [".t insert 1.0 x", ".t delete 1.0"] * (size // 4) + [".t edit undo"] * (size // 2)


def refused_commands(size):
    """Commands that are refused for a bad index."""
    return ["text .t"] + [".t index zz"] * size


def long_words(size):
    """A few insertions of words of `size` characters: the time is that of reading the script."""
    return ["text .t"] + [".t insert end " + "a" * size] * 20


MARKS = 4_000


def with_marks(commands):
    """These commands behind those that make a text of `size` characters with 4,000 marks spread over it."""
    return lambda size: (
        text_of(size)
        + [f".t mark set m{number} 1.{number * size // MARKS}" for number in range(MARKS)]
        + commands(size)
    )


def mark_walks(size):
    """From marks and from places all over the text, forwards and backwards."""
    return [
        f".t mark {way} {word}" for place in spread_places(size // 4) for way in ("next", "previous") for word in (f"m{place % MARKS}", f"1.{place}")
    ]


def mark_places(size):
    """The places of marks all over the text."""
    return [f".t index m{place % MARKS}" for place in spread_places(size)]


def inserts_before_marks(size):
    """A text of one character, put in before all marks again and again."""
    return [".t insert 1.0 x"] * (size // 10)


PROSE = "the quick brown fox jumps over the lazy dog, and "


def spelled_words(before, after, piece):
    """Commands that are refused, each with a word of about twenty times `size` characters between these two."""
    return lambda size: ["text .t"] + [".u " + before + piece * (20 * size // len(piece)) + after] * 20


LINE = "a lazy dog, and\n"
NEEDLE = "haystack"
# How many lines a text has that is searched, and one that is dumped: fewer, since the plain store goes over its text for each line.
LINES = (5_000, 50_000)
DUMPED_LINES = (5_000, 10_000)

WIDGETS = 64


def with_peers(commands):
    """These commands behind those that make a text of `size` characters in short lines, and 63 peers, each with a view of its own."""
    return lambda size: (
        ["text .t", ".t insert end {" + LINE * (size // len(LINE)) + "}"]
        + [f".t peer create .w{number} -startline {number} -endline {2 * number}" for number in range(1, WIDGETS)]
        + commands(size)
    )


def peer_inserts(size):
    """Insertions before all views and in each of them."""
    return [command for number in range(size // 16) for command in (".t insert 1.0 x", f".w{1 + number % (WIDGETS - 1)} insert 1.0 y")]


def peer_queries(size):
    """Places asked for by each widget."""
    return [f".w{1 + number % (WIDGETS - 1)} index end" for number in range(size)]


def with_documents(commands):
    """These commands behind those that make 64 documents of one widget each, which share a text of `size` characters out."""
    return lambda size: (
        [f"text .w{number}" for number in range(WIDGETS)]
        + [f".w{number} insert end {{" + LINE * (size // len(LINE) // WIDGETS) + "}" for number in range(WIDGETS)]
        + commands(size)
    )


def document_inserts(size):
    """Insertions into each document in turn."""
    return [f".w{number % WIDGETS} insert 1.0 x" for number in range(size // 8)]


def document_queries(size):
    """Places asked for of each document in turn."""
    return [f".w{number % WIDGETS} index end" for number in range(size)]


def with_lines(commands):
    """These commands behind those that make a text of `size` short lines, of which one near the end has a rare word."""
    return lambda size: (
        ["text .t", ".t insert end {" + LINE * size + "}", f".t insert {size - 2}.4 {NEEDLE}", ".t mark set insert 1.0", ".t mark set current 1.0"]
        + commands(size)
    )


def searches(count, *words):
    """Some searches from the text's beginning."""
    return with_lines(lambda size: [".t search " + " ".join(words) + " 1.0"] * count)


def hostile_search(size):
    """A line of so many characters, all alike, and a pattern that differs from it in its last character alone."""
    pattern = "a" * 1_000 + "b"
    return ["text .t", ".t insert end " + "a" * (50 * size)] + [f".t search {pattern} 1.0", f".t search -backwards -nocase {pattern} end"]


def with_tagged_lines(commands):
    """The text of many lines, of which each tenth has a tagged word."""
    words = lambda size: " ".join(f"{line}.2 {line}.6" for line in range(1, size, 10))
    return with_lines(lambda size: [".t tag add x " + words(size)] + commands(size))


def line_dumps(size):
    """A dump of each tenth line, without its newline."""
    return [f".t dump {line}.0 {line}.end" for line in range(1, size, 10)]


def spread_places(size):
    """`size` places from 0 to `size`, not in order."""
    return [number * 7_919 % size for number in range(size)]


KINDS = [
    Kind("append a word at the end", appends),
    Kind("insert in the middle", middle_inserts),
    Kind("delete in the middle", middle_deletes),
    Kind("replace in the middle", middle_replaces),
    Kind("delete 1,000 ranges", many_ranges),
    Kind("insert, undo and redo", undos),
    Kind("many groups, all undone", long_histories),
    Kind("index by position", index_queries),
    Kind("index by line number", line_queries),
    Kind("get one character", character_queries),
    Kind("4,000 marks", with_marks(lambda size: [])),
    Kind("4,000 marks: next, previous", with_marks(mark_walks)),
    Kind("4,000 marks: index", with_marks(mark_places)),
    Kind("4,000 marks: insert before", with_marks(inserts_before_marks)),
    Kind("a text of lines alone", with_lines(lambda size: []), sizes=LINES),
    Kind("10 searches of a rare word", searches(10, NEEDLE), sizes=LINES),
    Kind("the same with -nocase", searches(10, "-nocase", NEEDLE.upper()), sizes=LINES),
    Kind("-all of a common word", searches(1, "-all", "dog"), sizes=LINES),
    Kind("the same with -nocase", searches(1, "-all", "-nocase", "Dog"), sizes=LINES),
    Kind("search a long run, 50 x", hostile_search),
    Kind("dump all of many lines", with_tagged_lines(lambda size: [".t dump 1.0 end-1c"]), lambda size: size, DUMPED_LINES),
    Kind("dump their tags", with_tagged_lines(lambda size: [".t dump -tag 1.0 end"]), sizes=DUMPED_LINES),
    Kind("dump each tenth line", with_tagged_lines(line_dumps), sizes=DUMPED_LINES),
    Kind("64 widgets: insert", with_peers(peer_inserts)),
    Kind("64 widgets: index", with_peers(peer_queries)),
    Kind("64 documents: insert", with_documents(document_inserts)),
    Kind("64 documents: index", with_documents(document_queries)),
    Kind("a refused command", refused_commands),
    Kind("20 words of that length", long_words),
    Kind("20 bare words, 20 x", spelled_words("", "", PROSE.replace(" ", "_"))),
    Kind("20 quoted words, 20 x", spelled_words('"', '"', PROSE)),
    Kind("20 braced words, 20 x", spelled_words("{", "}", PROSE)),
    Kind("20 escaped words, 20 x", spelled_words('"', '"', "a\\x41\\n\\u00e9")),
]


class Timing(NamedTuple):
    """The time of one script."""

    commands: int
    seconds: float


def run_once(program, script_path, output_path):
    """The seconds that one run takes, from a file to a file; and its exit status."""
    with open(script_path, "rb") as script, open(output_path, "wb") as output:
        begin = time.perf_counter()
        process = subprocess.Popen([program], stdin=script, stdout=output)
        # A wait with a timeout of its own looks only now and then, which would blur the time.
        stop = threading.Timer(TIMEOUT_SECONDS, process.kill)
        stop.start()
        status = process.wait()
        seconds = time.perf_counter() - begin
        stop.cancel()
    return seconds, status


def count_pieces(path):
    """The number of newlines that a run wrote."""
    with open(path, "rb") as file:
        return file.read().count(b"\n")


def time_script(program, commands, repeat, folder, newlines=0):
    """The least time of several runs of these commands, or of one that takes long. Each has to answer every command.

    There is one line for each command, and one more for each newline inside an answer.
    """
    script_path = os.path.join(folder, "script.tcl")
    output_path = os.path.join(folder, "output")
    with open(script_path, "w", encoding="utf-8") as file:
        file.write("".join(command + "\n" for command in commands))
    times = []
    for _ in range(repeat):
        seconds, status = run_once(program, script_path, output_path)
        lines = count_pieces(output_path)
        if status not in (0, 1) or lines != len(commands) + newlines:
            sys.exit(f"status {status} and {lines} lines for {len(commands)} commands: this isn't timed")
        times.append(seconds)
        if seconds > LONG_SECONDS:
            break
    return Timing(len(commands), min(times))


def per_command(timing):
    """The microseconds for each command, as a text."""
    return "" if timing.commands == 0 else f"{timing.seconds / timing.commands * 1e6:.2f}"


def growth(before, now):
    """How many times as long the next size takes, as a text."""
    return "" if before is None else f"{now.seconds / before.seconds:.2f}"


HEADER = [
    "Time of the program on generated scripts: the least of several whole runs, or of one that takes over 5 s, its",
    "start included.",
    "`growth` is the time over that of the size before: 2 where both the size and the time double.",
    "",
    f"{'script':<28}{'size':>8}{'commands':>10}{'seconds':>10}{'us/command':>12}{'growth':>8}",
]


def table_row(name, size, timing, before):
    """One row of the table."""
    return (
        f"{name:<28}{size:>8}{timing.commands:>10}{timing.seconds:>10.4f}{per_command(timing):>12}"
        f"{growth(before, timing):>8}"
    )


def emit(lines, line):
    """Prints a line of the table, and keeps it for the file."""
    print(line, flush=True)
    lines.append(line)


def measure(program, sizes, repeat, folder):
    """The table's lines, and whether the goal is met."""
    lines = []
    for line in [f"{len(os.sched_getaffinity(0))} cores.", *HEADER]:
        emit(lines, line)
    emit(lines, table_row("an empty script", 0, time_script(program, [], repeat, folder), None))
    for kind in KINDS:
        before = None
        for size in kind.sizes or sizes:
            timing = time_script(program, kind.commands(size), repeat, folder, kind.newlines(size))
            emit(lines, table_row(kind.name, size, timing, before))
            before = timing
    goal = time_script(program, appends(GOAL_COMMANDS), repeat, folder)
    is_met = goal.seconds < GOAL_SECONDS
    emit(lines, "")
    emit(
        lines,
        f"{GOAL_COMMANDS} commands `.t insert end x`: {goal.seconds:.3f} s "
        f"(goal: under {GOAL_SECONDS:.0f} s, {'met' if is_met else 'MISSED'})",
    )
    return lines, is_met


# A line of a text that is loaded, and how many there are at most; what that is to take.
LOADED_LINE = "the quick brown fox jumps over lazy"
LOADED_LINES = 1_000_000
LOAD_SECONDS, LOAD_BYTES = 2.0, 260
# The same by what is asked for, at the most and afterwards.
ASKED_BYTES, HELD_BYTES = 230, 150
# So many lines are replaced by others in one command.
REPLACED_LINES = 200_000


def run_sized(program, script_path):
    """The seconds of one run, and its greatest resident size in bytes."""
    with open(script_path, "rb") as script:
        begin = time.perf_counter()
        process = subprocess.Popen([program], stdin=script, stdout=subprocess.DEVNULL)
        _, status, usage = os.wait4(process.pid, 0)
        seconds = time.perf_counter() - begin
    process.returncode = os.waitstatus_to_exitcode(status)
    if process.returncode != 0:
        sys.exit(f"status {process.returncode} for {script_path}: this isn't measured")
    return seconds, usage.ru_maxrss * 1024


def measure_load(program, lines, folder):
    """Adds the lines on a text that is loaded by one insertion."""
    count = min(LOADED_LINES, (PROGRAM_LIMITS.characters - 1) // (len(LOADED_LINE) + 1))
    path = os.path.join(folder, "load.tcl")
    runs = {}
    for loaded in (0, count):
        with open(path, "w", encoding="utf-8") as file:
            file.write("text .t\n.t insert end {" + f"{LOADED_LINE}\n" * loaded + "}\n")
        runs[loaded] = [run_sized(program, path) for _ in range(3)]
    seconds = min(seconds for seconds, _ in runs[count])
    size = (min(size for _, size in runs[count]) - min(size for _, size in runs[0])) / count
    emit(lines, "")
    emit(lines, f"{count:,} lines of {len(LOADED_LINE)} characters by one insertion: {seconds:.2f} s "
         f"(goal: under {LOAD_SECONDS:.0f} s, {'met' if seconds < LOAD_SECONDS else 'MISSED'}),")
    emit(lines, f"{size:.0f} bytes a line at most, the script's word among them "
         f"(goal: {LOAD_BYTES}, {'met' if size <= LOAD_BYTES else 'MISSED'})")


def asked_sizes(program, shim, script, folder):
    """The most bytes that a run asks for at once, and those that it held when it last read its script."""
    path, report = os.path.join(folder, "asked.tcl"), os.path.join(folder, "asked")
    with open(path, "w", encoding="utf-8") as file:
        file.write(script)
    environment = dict(os.environ, LD_PRELOAD=os.path.abspath(shim), WEIGHT_REPORT=report)
    with open(path, "rb") as script_file:
        subprocess.run([program], stdin=script_file, stdout=subprocess.DEVNULL, env=environment, check=True)
    with open(report, encoding="ascii") as file:
        _, _, most, held = map(int, file.read().split())
    return most, held


def measure_asked(program, shim, lines, folder):
    """Adds the lines on what is asked for while a text is loaded, and while all of it is replaced."""
    load = "text .t\n.t insert end {" + f"{LOADED_LINE}\n" * LOADED_LINES + "}\n"
    most, held = (size / LOADED_LINES for size in asked_sizes(program, shim, load, folder))
    emit(lines, f"By what is asked for, {most:.0f} bytes a line at most "
         f"(goal: {ASKED_BYTES}, {'met' if most <= ASKED_BYTES else 'MISSED'}), "
         f"and {held:.0f} afterwards (goal: {HELD_BYTES}, {'met' if held <= HELD_BYTES else 'MISSED'}).")
    line = f"{LOADED_LINE}\n"
    texts = (line, f"{LOADED_LINE.upper()}\n")
    script = "text .t\n" + "".join(f".t replace 1.0 end {{{text * REPLACED_LINES}}}\n" for text in texts)
    most, held = (size / REPLACED_LINES for size in asked_sizes(program, shim, script, folder))
    goal = 2 * (held + len(line))
    emit(lines, f"A replace of all of {REPLACED_LINES:,} lines asks for {most:.0f} bytes a line at most")
    emit(lines, f"(goal: twice what is held and the script's word, {goal:.0f}, {'met' if most <= goal else 'MISSED'})")


# What a script is made of whose size is measured: its name, its first command, the one that follows, and its lengths in bytes.
SIZED_SCRIPTS = [
    ("short commands", b"text .t\n", b".t index end\n", [1_000_000, 4_000_000, 16_000_000]),
    (
        "edits of which 1,000 groups are kept",
        b"text .t -undo 1 -maxundo 1000\n",
        b".t insert 1.0 x\n.t delete 1.0\n",
        [300_000, 1_500_000, 6_000_000],
    ),
]


def measure_sizes(program, lines):
    """Adds the lines on the resident size, and tells whether it stays the same."""
    are_met = True
    for name, first, command, lengths in SIZED_SCRIPTS:
        sizes = [measure_size(program, first, command, length) for length in lengths]
        is_met = max(sizes) - min(sizes) <= SIZE_MARGIN
        are_met = are_met and is_met
        emit(lines, "")
        for length, size in zip(lengths, sizes):
            emit(lines, f"a script of {length} bytes in {name}: greatest resident size {size} kB")
        emit(lines, f"(goal: the same within {SIZE_MARGIN} kB, {'met' if is_met else 'MISSED'})")
    return are_met


def sizes_of(text):
    """The sizes as numbers."""
    return [int(size) for size in text.split(",")]


def main():
    parser = argparse.ArgumentParser(description="times the program on generated scripts")
    parser.add_argument("--program", required=True)
    parser.add_argument("--asked", required=True)
    parser.add_argument("--out", required=True)
    parser.add_argument("--sizes", type=sizes_of, default=[5_000, 10_000, 20_000])
    parser.add_argument("--repeat", type=int, default=3)
    options = parser.parse_args()
    with tempfile.TemporaryDirectory() as folder:
        lines, is_fast = measure(options.program, options.sizes, options.repeat, folder)
        measure_load(options.program, lines, folder)
        measure_asked(options.program, options.asked, lines, folder)
    is_met = measure_sizes(options.program, lines) and is_fast
    with open(options.out, "w", encoding="utf-8") as file:
        file.write("".join(line.rstrip() + "\n" for line in lines))
    return 0 if is_met else 1


if __name__ == "__main__":
    sys.exit(main())
