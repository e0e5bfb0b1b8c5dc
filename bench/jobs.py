#!/usr/bin/env python3
"""Scripts of what text widgets are used for, by job, size and seed: what `bench/run` times and `make gains` counts.

    python3 bench/jobs.py JOB SIZE [SEED] > SCRIPT

The jobs: `console`, `typing`, `coloring`, `views`, `file`, `long_line`.
"""

import random
import sys

WORDS = (
    "the of and to in is that for it as was with be by on not he his but at are this have from or had an they which"
    " one you were all her she there would their been has when who will more if out said state file index error"
    " buffer widget window text line mark"
).split()
FOREIGN = "naïve größe été Привет λόγος 日本語 😀".split()
FOREIGN_PERCENT = 3
LEVELS, LEVEL_PERCENTS = ("info", "debug", "warn", "error"), (70, 20, 7, 3)
# A console keeps 5,000 lines: of more than 5,050 it deletes the oldest 50.
CONSOLE_LINES, CONSOLE_STEP = 5_000, 50
TYPED_LINES = 5_000
KEYWORDS = ("if", "else", "while", "return", "for", "static", "match", "struct")
TAGS = ("keyword", "name", "number", "string", "comment")
VIEWED_LINES, VIEWS, SHOWN_LINES = 3_000, 8, 25
BOOKMARKS = 2_000
LONG_LINE_WORDS = 6_000


def percent(chance, times):
    return chance.randrange(100) < times


def word(chance):
    return chance.choice(FOREIGN if percent(chance, FOREIGN_PERCENT) else WORDS)


def words(chance, count):
    return " ".join(word(chance) for _ in range(count))


def lines(chance, count, fewest, most):
    """Lines of `fewest` to `most` words, each with its newline."""
    return "".join(words(chance, chance.randint(fewest, most)) + "\n" for _ in range(count))


def console(chance, size):
    """Inserts `size` tagged lines at the end, deletes the oldest, and queries the end after each hundredth line."""
    yield "text .t"
    kept = 0
    for number in range(size):
        stamp = f"2026-11-26 {number // 3600 % 24}:{number // 60 % 60}:{number % 60} "
        level = chance.choices(LEVELS, LEVEL_PERCENTS)[0]
        message = words(chance, chance.randint(3, 12))
        yield f'.t insert end "{stamp}" stamp host{chance.randint(1, 20)} host " {level}: {message}\\n" {{msg {level}}}'
        kept += 1
        if kept > CONSOLE_LINES + CONSOLE_STEP:
            yield f".t delete 1.0 {CONSOLE_STEP + 1}.0"
            kept = CONSOLE_LINES
        if number % 100 == 99:
            yield ".t index end-1c"
            yield f".t tag nextrange error {chance.randint(1, CONSOLE_LINES)}.0"
            yield '.t get "end - 30 lines" end-1c'


def typed_edit(chance):
    """One edit at the insertion cursor."""
    kind = chance.randrange(100)
    if kind < 60:
        return f'.t insert insert "{words(chance, chance.randint(1, 2))}"'
    if kind < 68:
        return '.t insert insert "\\n"'
    if kind < 85:
        return f'.t delete "insert - {chance.randint(1, 9)} chars" insert'
    if kind < 95:
        return f'.t delete insert "insert + {chance.randint(1, 9)} chars"'
    return '.t delete "insert lineend" "insert + 1 lines linestart"'


def typing(chance, size):
    """Makes `size` edits with undo, one in fifty elsewhere in the text; undoes an eighth, redoes it, undoes half."""
    queries = ['.t get "insert linestart" "insert lineend"'] * 3 + [
        '.t index "insert wordend"', '.t index "insert linestart - 1 lines"', ".t edit separator",
        ".t compare insert < end-1c",
    ]
    yield "text .t -undo 1"
    yield f'.t insert 1.0 "{lines(chance, TYPED_LINES, 0, 14)}"'
    yield ".t edit reset"
    for _ in range(size):
        if percent(chance, 2):
            yield f".t mark set insert {chance.randint(1, TYPED_LINES)}.{chance.randint(0, 80)}"
        yield typed_edit(chance)
        yield ".t index insert"
        query = chance.randrange(12)
        if query < len(queries):
            yield queries[query]
    yield from [".t edit undo"] * (size // 8)
    yield from [".t edit redo"] * (size // 8)
    yield from [".t edit undo"] * (size // 16)


def code_line(chance):
    """A line of code in ASCII, and its tokens: a tag, the column, and the column after it."""
    line, tokens = chance.choice(("", "    ", "        ", "            ")), []

    def add(tag, *texts):
        nonlocal line
        text = chance.choice(texts)
        tokens.append((tag, len(line), len(line) + len(text)))
        line += text

    for _ in range(chance.randint(1, 3)):
        add("keyword", *KEYWORDS)
        line += " "
        add("name", "count", "line", "text", "buffer", "index")
        line += " = "
        if percent(chance, 50):
            add("number", "0", "17", "4096", "65535", "3.14159")
        else:
            add("string", "'error'", "'a file'", "'no such mark'")
        line += "; "
    if percent(chance, 30):
        add("comment", "# to do", "# so that it fits in")
    return line, tokens


def tagged(tokens, line):
    """The commands that tag the tokens of a line."""
    return [f".t tag add {tag} {line}.{start} {line}.{end}" for tag, start, end in tokens]


def coloring(chance, size):
    """Tags the tokens of `size` lines of code, changes half as many lines and tags them anew, and lists all ranges."""
    code = [code_line(chance) for _ in range(size)]
    text = "".join(line + "\n" for line, _ in code)
    yield "text .t"
    yield f".t insert 1.0 {{{text}}}"
    for number, (_, tokens) in enumerate(code, 1):
        yield from tagged(tokens, number)
    for _ in range(size // 2):
        number = chance.randint(1, size)
        yield f".t insert {number}.0 x"
        yield f".t delete {number}.0"
        yield from (f".t tag remove {tag} {number}.0 {number + 1}.0" for tag in TAGS)
        yield from tagged(code[number - 1][1], number)
        yield f".t tag names {number}.{chance.randrange(40)}"
        yield f".t tag nextrange comment {number}.0"
        yield f".t tag prevrange string {number}.0"
        yield f".t dump -text -tag {number}.0 {number + 5}.0"
    yield from (f".t tag ranges {tag}" for tag in TAGS)


def views(chance, size):
    """Makes `size` edits by eight views of one text; after each another view selects and sets marks of its own."""
    yield "text .v0"
    yield f'.v0 insert 1.0 "{lines(chance, VIEWED_LINES, 0, 14)}"'
    yield from (f".v0 peer create .v{number}" for number in range(1, VIEWS))
    for number in range(size):
        view, line, column = f".v{number % VIEWS}", chance.randint(1, VIEWED_LINES), chance.randint(0, 60)
        if percent(chance, 55):
            yield f"{view} insert {line}.{column} " + chance.choice(("x", "word", '" of"', '"a\\n"', "été"))
        else:
            yield f"{view} delete {line}.{column} {line}.{column + 4}"
        other, line, column = f".v{chance.randrange(VIEWS)}", chance.randint(1, VIEWED_LINES), chance.randint(0, 30)
        yield f"{other} tag remove sel 1.0 end"
        yield f"{other} tag add sel {line}.{column} {line + 2}.9"
        yield f"{other} mark set insert {line}.{column}"
        yield f"{other} mark set m{chance.randrange(200)} {line}.{column}"
        yield f"{other} tag ranges sel"
        if number % 10 == 9:
            top = chance.randint(1, VIEWED_LINES)
            yield f"{other} dump -text -tag -mark {top}.0 {top + SHOWN_LINES}.0"


def file_visit(chance, size, number):
    """One query or edit anywhere in a file of `size` lines."""
    line, column = chance.randint(1, size), chance.randint(0, 60)
    place = f"{line}.{column}"
    return chance.choice((
        lambda: f".t index {place}",
        lambda: f".t get {line}.0 {line + 40}.0",
        lambda: f".t mark set m{number % BOOKMARKS} {place}",
        lambda: f".t mark next {place}",
        lambda: f".t count -chars 1.0 {place}",
        lambda: f".t tag add found {place} {line}.75",
        lambda: f".t tag nextrange found {place}",
        lambda: f".t search window {place}",
        lambda: f".t delete {place} {line + 1}.5",
        lambda: f'.t insert {place} "{lines(chance, 2, 2, 9)}"',
    ))()


def file(chance, size):
    """Loads `size` lines in one `insert`, searches all of them, visits as many places, then dumps and deletes all."""
    yield "text .t"
    yield f".t insert 1.0 {{{lines(chance, size, 2, 12)}}}"
    for wanted in ("λόγος", "buffer", "absent"):
        yield from (f".t search -all {switch}{wanted} 1.0 end" for switch in ("", "-nocase "))
    yield from (file_visit(chance, size, number) for number in range(size))
    yield from (".t tag ranges found", ".t dump 1.0 end", ".t delete 1.0 end")


def line_visit(chance, length):
    """One edit, tag, mark or query near the middle of a line of `length` characters."""
    column = chance.randint(length // 4, length // 2)
    start, end = f"1.{column}", f"1.{column + chance.randint(1, 12)}"
    return chance.choice((
        f".t insert {start} {word(chance)}",
        f".t insert {start} {word(chance)}",
        f".t delete {start} {end}",
        f".t tag add {word(chance)} {start} {end}",
        f".t tag names {start}",
        f".t get {start} {end}",
        f'.t index "1.0 + {chance.choice((9000, 12000))} chars wordend"',
        f".t mark set {word(chance)} {start}",
    ))


def long_line(chance, size):
    """Makes `size` edits, tags, marks and queries in one line of some 30,000 characters, and dumps it."""
    text = words(chance, LONG_LINE_WORDS)
    yield "text .t"
    yield f".t insert 1.0 {{{text}}}"
    yield from (line_visit(chance, len(text)) for _ in range(size))
    yield ".t dump 1.0 end"


JOBS = {job.__name__: job for job in (console, typing, coloring, views, file, long_line)}


def script(job, size, seed):
    """The script of a job, as bytes."""
    chance = random.Random(f"{job}/{size}/{seed}")
    return "".join(command + "\n" for command in JOBS[job](chance, size)).encode()


def main():
    if len(sys.argv) not in (3, 4) or sys.argv[1] not in JOBS:
        sys.exit(__doc__)
    sys.stdout.buffer.write(script(sys.argv[1], int(sys.argv[2]), sys.argv[3] if len(sys.argv) == 4 else "1"))


if __name__ == "__main__":
    main()
