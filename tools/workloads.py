#!/usr/bin/env python3
"""Scripts of what text widgets are used for, with a seed, on which the program and real Tk answer alike.

    python3 tools/workloads.py NAME > SCRIPT
    python3 tools/workloads.py                 the names

A name is a kind and its size, and for `peers` the number of widgets before it: `log-5000`, `peers8-2000`.  Each command
stands on a line of its own.
"""

import random
import sys
from typing import NamedTuple

SEED = 1
WORDS = (
    "the of and to in is that for it as was with be by on not he his but at are this have from or had an they which"
    " one you were all her she there would their we him been has when who will no more if out so up said what its"
    " about than into them can only other time new some could these two may first then do any like my now over such"
    " our man me even most made after also did many fore state file index error buffer widget window text line mark"
).split()
KEYWORDS = ("if", "else", "while", "return", "for", "static")
TAGS = ("kw", "num", "str", "com")
LEVELS = ("info", "debug", "warn", "error")
# A log keeps so many lines, and drops the oldest so many once there are more.
LOG_LINES, LOG_STEP = 2_000, 50
MARKS = 4_000


def quoted(text):
    """A word in double quotes."""
    for plain, escaped in (("\\", "\\\\"), ('"', '\\"'), ("$", "\\$"), ("[", "\\["), ("\n", "\\n")):
        text = text.replace(plain, escaped)
    return f'"{text}"'


def sentence(chance, least=4, most=10):
    """So many words, with blanks between them."""
    return " ".join(chance.choice(WORDS) for _ in range(chance.randint(least, most)))


def inserted(lines):
    """The command that puts these lines into a text that is empty."""
    return ".t insert 1.0 " + quoted("\n".join(lines))


class Lengths:
    """How long each line of a text is, so that a script can name places that are there."""

    def __init__(self, lengths):
        self.lines = lengths

    def place(self, chance, near=None, spread=20):
        """A line and a column in it, anywhere or not far from a line."""
        if near is None:
            line = chance.randrange(len(self.lines))
        else:
            line = min(max(near + chance.randint(-spread, spread), 0), len(self.lines) - 1)
        return line, chance.randint(0, self.lines[line])

    def put_in(self, line, column, text):
        """A text of which the last character alone may be a newline stands in a line now."""
        if text.endswith("\n"):
            rest = self.lines[line] - column
            self.lines[line] = column + len(text) - 1
            self.lines.insert(line + 1, rest)
        else:
            self.lines[line] += len(text)


def log(chance, size):
    """So many lines put in at the end, with tags; the oldest go."""
    yield "text .t"
    for tag in ("stamp", "host", "msg", *("info", "warn", "error", "debug")):
        yield f".t tag add {tag} 1.0 1.0"
    lines = 0
    for number in range(size):
        (level,) = chance.choices(LEVELS, (70, 20, 7, 3))
        seconds = f"{number // 3600 % 24:02d}:{number // 60 % 60:02d}:{number % 60:02d}"
        stamp = quoted(f"2024-03-{1 + number // 50000:02d} {seconds} ")
        host = f"host{chance.randint(1, 9)}"
        message = quoted(f" {level}: {sentence(chance)}\n")
        yield f".t insert end {stamp} stamp {host} host {message} {{msg {level}}}"
        lines += 1
        if lines > LOG_LINES + LOG_STEP:
            yield f".t delete 1.0 {LOG_STEP + 1}.0"
            lines -= LOG_STEP
            yield ".t index end"
        if number % 100 == 99:
            yield from (".t index end-1c", ".t tag nextrange error 1.0", '.t get "end - 2 lines" end-1c')


def edit_once(chance, text, line, column):
    """One edit at a place where the insertion mark stands, and the line where the next one is near."""
    kind = chance.random()
    if kind < 0.55:
        typed = "".join(chance.choice("abcdefghij ") for _ in range(chance.randint(1, 6)))
        text.put_in(line, column, typed)
        return f".t insert insert {quoted(typed)}", line
    if kind < 0.65:
        text.put_in(line, column, "\n")
        return '.t insert insert "\\n"', line + 1
    if kind < 0.85:
        count = min(chance.randint(1, 4), column)
        text.lines[line] -= count
        return f'.t delete "insert - {count} chars" insert' if count else '.t index "insert - 1 chars"', line
    if kind < 0.95:
        count = min(chance.randint(1, 8), text.lines[line] - column)
        text.lines[line] -= count
        return f'.t delete insert "insert + {count} chars"' if count else '.t index "insert + 1 chars"', line
    if line + 1 >= len(text.lines) - 1:
        return ".t compare insert < end", line
    text.lines[line] += text.lines.pop(line + 1)
    return f".t delete {line + 1}.end {line + 2}.0", line


def edit(chance, size):
    """So many edits in a text of 2,000 lines, mostly near the one before, with undo; queries behind each."""
    lines = [sentence(chance, 0, 12) for _ in range(2_000)]
    text = Lengths([len(line) for line in lines])
    yield from ("text .t -undo 1", inserted(lines), ".t edit reset", ".t edit modified 0")
    line = 1_000
    for number in range(size):
        if chance.random() < 0.1:
            line = chance.randrange(len(text.lines))
        line, column = text.place(chance, line, 3)
        yield f".t mark set insert {line + 1}.{column}"
        command, line = edit_once(chance, text, line, column)
        yield command
        yield ".t index insert"
        if number % 4 == 0:
            yield '.t get "insert linestart" "insert lineend"'
        if number % 7 == 0 and line < len(text.lines) - 1:
            yield from ('.t index "insert wordend"', '.t index "insert linestart + 1 lines"')
        if number % 15 == 14:
            yield ".t edit separator"
    yield from (".t edit modified", ".t index end")


def load(chance, size):
    """So many lines put in at once, then 14,000 queries and marks by the numbers of lines."""
    yield from ("text .t", inserted([sentence(chance, 3, 12) for _ in range(size)]), ".t index end")
    for number in range(10_000):
        line, column = chance.randint(1, size), chance.randint(0, 60)
        if number % 5 == 0:
            yield f".t index {line}.{column}"
        elif number % 5 == 1:
            yield f".t get {line}.0 {line}.end"
        elif number % 5 == 2:
            yield f'.t index "{line}.{column} + {chance.randint(1, 200)} chars"'
        elif number % 5 == 3:
            yield f".t mark set m{chance.randint(0, 99)} {line}.{column}"
            yield f'.t index "{line}.0 - {chance.randint(1, 50)} lines"'
        else:
            to = min(size, line + chance.randint(0, 100))
            yield from (f".t count -chars {line}.0 {to}.0", f".t count -lines 1.0 {line}.0")


def code_line(chance):
    """A line of code, and its tokens: a tag, a column, and the one behind."""
    line, tokens = " " * (4 * chance.randint(0, 3)), []

    def add(tag, word):
        nonlocal line
        tokens.append((tag, len(line), len(line) + len(word)))
        line += word

    for _ in range(chance.randint(1, 3)):
        add("kw", chance.choice(KEYWORDS))
        line += " " + chance.choice(WORDS) + " = "
        if chance.random() < 0.5:
            add("num", str(chance.randint(0, 9999)))
        else:
            add("str", "'" + chance.choice(WORDS) + "'")
        line += "; "
    if chance.random() < 0.3:
        add("com", "# " + sentence(chance, 2, 5))
    return line, tokens


def syntax(chance, size):
    """Tags of the tokens of so many lines of code, a third of them tagged anew; ranges walked and listed, names asked."""
    rows = [code_line(chance) for _ in range(size)]
    yield from ("text .t", inserted([line for line, _ in rows]))
    spans = {tag: [] for tag in TAGS}
    for number, (_, tokens) in enumerate(rows, 1):
        for tag, start, end in tokens:
            yield f".t tag add {tag} {number}.{start} {number}.{end}"
            spans[tag].append((number, start, end))
    for number in chance.sample(range(1, size + 1), size // 3):
        yield from (f".t tag remove {tag} {number}.0 {number}.end" for tag in TAGS)
        yield from (f".t tag add {tag} {number}.{start} {number}.{end}" for tag, start, end in rows[number - 1][1])
    for tag in ("kw", "com"):
        yield f".t tag nextrange {tag} 1.0"
        yield from (f".t tag nextrange {tag} {number}.{end}" for number, _, end in spans[tag])
    yield from (f".t tag prevrange num {number}.{start}" for number, start, _ in reversed(spans["num"]))
    yield from (f".t tag ranges {tag}" for tag in TAGS)
    for _ in range(size):
        yield f".t tag names {chance.randint(1, size)}.{chance.randint(0, 30)}"


def search(chance, size):
    """Searches of so many lines, for a rare word, a common one and one that isn't there."""
    lines = []
    for number in range(size):
        line = sentence(chance, 4, 12)
        line += " Zyzzyva" if number % 997 == 500 else ""
        lines.append(line.capitalize() if number % 10 == 3 else line)
    yield from ("text .t", inserted(lines))
    for _ in range(3):
        for word in ("Zyzzyva", "the", "absent"):
            yield from (f".t search -all {switch}{word} 1.0 end" for switch in ("", "-nocase "))
    for _ in range(300):
        line = chance.randint(1, size)
        yield f".t search Zyzzyva {line}.0"
        yield f".t search -backwards -nocase zyzzyva {line}.0"
        yield f".t search window {line}.0 end"


def peers(chance, size, count):
    """So many edits by any of the widgets on one document, each with a selection and a mark of another one."""
    lines = [sentence(chance, 0, 12) for _ in range(500)]
    text = Lengths([len(line) for line in lines])
    yield from ("text .t", inserted(lines))
    widgets = [".t"] + [f".p{number}" for number in range(1, count)]
    yield from (f".t peer create {widget}" for widget in widgets[1:])
    choice = random.Random(f"who/{SEED}")
    for _ in range(size):
        widget = widgets[choice.randrange(1 << 30) % count]
        line, column = text.place(chance)
        if chance.random() < 0.6:
            typed = chance.choice(("x", "word ", "abc", "a\n"))
            yield f"{widget} insert {line + 1}.{column} {quoted(typed)}"
            text.put_in(line, column, typed)
        elif text.lines[line] > column:
            end = min(column + 3, text.lines[line])
            yield f"{widget} delete {line + 1}.{column} {line + 1}.{end}"
            text.lines[line] -= end - column
        else:
            yield f"{widget} index insert"
        other = widgets[choice.randrange(1 << 30) % count]
        yield f"{other} tag remove sel 1.0 end"
        yield f"{other} tag add sel {line + 1}.0 {line + 1}.end"
        yield from (f"{other} mark set insert {line + 1}.0", f"{other} index insert", f"{other} tag ranges sel")


def undo(chance, size):
    """So many groups of edits; all undone, all redone, all undone."""
    text = Lengths([0])
    yield "text .t -undo 1 -autoseparators 0"
    for _ in range(size):
        for _ in range(chance.randint(1, 3)):
            line, column = text.place(chance, len(text.lines) - 1, 10)
            if chance.random() < 0.75 or text.lines[line] - column < 2:
                typed = chance.choice(WORDS) + chance.choice((" ", " ", "\n"))
                yield f".t insert {line + 1}.{column} {quoted(typed)}"
                text.put_in(line, column, typed)
            else:
                count = min(text.lines[line] - column, 5)
                yield f".t delete {line + 1}.{column} {line + 1}.{column + count}"
                text.lines[line] -= count
        yield ".t edit separator"
    for command in ("undo", "redo", "undo"):
        for number in range(size):
            yield f".t edit {command}"
            if number % 50 == 0:
                yield from (".t index insert", ".t index end")
        yield from (".t edit modified", ".t index end")


def marks(chance, size):
    """4,000 marks on 100 lines, and so many insertions before them."""
    lines = [sentence(chance, 12, 16) for _ in range(101)]
    yield from ("text .t", inserted(lines))
    for number in range(MARKS):
        line = 2 + number % 100
        yield f".t mark set m{number} {line}.{chance.randint(0, len(lines[line - 1]))}"
        if number % 3 == 0:
            yield f".t mark gravity m{number} left"
    for _ in range(size):
        chance.randint(1, 3)
        place = chance.choice(("1.0", "1.3", "2.0", "2.1"))
        yield f".t insert {place} {quoted(chance.choice(('x', 'abc', 'new' + chr(10))))}"
        yield f".t index m{chance.randrange(MARKS)}"


def longline(chance, size):
    """One line of so many characters, with 500 edits and queries around its middle."""
    line = sentence(chance, 100, 100)
    yield from ("text .t", inserted([(line * (size // len(line) + 1))[:size]]))
    length = size
    for number in range(500):
        column = length // 2 + chance.randint(-1000, 1000)
        if chance.random() < 0.6:
            yield f".t insert 1.{column} abc"
            length += 3
        else:
            yield f".t delete 1.{column} 1.{column + 3}"
            length -= 3
        yield from (f'.t index "1.{column} + 10 chars"', f".t get 1.{column} 1.{column + 8}")
        if number % 10 == 0:
            yield from (".t index 1.end", f'.t index "1.{column} wordstart"')


def dump(chance, size):
    """So many lines with six ranges of tags each; dumps of all, of the tags, of each line."""
    lines = [sentence(chance, 10, 14) for _ in range(size)]
    yield from ("text .t", inserted(lines))
    for number, line in enumerate(lines, 1):
        cuts = sorted(chance.sample(range(len(line)), 12))
        for start, end in zip(cuts[::2], cuts[1::2]):
            yield f".t tag add t{chance.randint(0, 19)} {number}.{start} {number}.{end}"
    yield from (".t dump -text 1.0 end", ".t dump -tag 1.0 end", ".t dump 1.0 end") * 3
    yield from (f".t dump -text -tag {number}.0 {number}.end" for number in range(1, size + 1))


def markwalk(chance, size):
    """So many marks, each at a place of its own on 101 lines, walked from the first to the last and back."""
    lines = [sentence(chance, 12, 16) for _ in range(101)]
    yield from ("text .t", inserted(lines))
    places = [(number, column) for number, line in enumerate(lines, 1) for column in range(len(line))]
    names = {place: f"m{number}" for number, place in enumerate(chance.sample(places, size))}
    yield from (f".t mark set {name} {line}.{column}" for (line, column), name in names.items())
    walk = [names[place] for place in sorted(names)]
    yield from (f".t mark next {name}" for name in walk[:-1])
    yield from (f".t mark previous {name}" for name in walk[:0:-1])


def scattered(chance, size):
    """So many edits in shuffled lines as one group; undone, redone, undone."""
    forms = (".t insert {0}.3 xx", ".t delete {0}.2 {0}.5", ".t replace {0}.3 {0}.6 abc")
    yield from ("text .t -undo 1 -autoseparators 0", inserted(["some words of a line"] * size), ".t edit reset")
    for line in chance.sample(range(1, size + 1), size):
        yield chance.choice(forms).format(line)
    for command in ("undo", "redo", "undo"):
        yield f".t edit {command}"


def along(chance, size):
    """A line of one word of so many letters, of which half have a tag one by one: its ends, and its ranges."""
    yield from ("text .t", f".t insert end {'x' * size}")
    yield ".t tag add a " + " ".join(f"1.{column} 1.{column + 1}" for column in range(0, size, 2))
    for _ in range(20):
        yield from (f".t index {{1.{chance.randrange(size)} {end}}}" for end in ("wordstart", "wordend"))
    yield ".t tag ranges a"


KINDS = {kind.__name__: kind for kind in (
    log, edit, load, syntax, search, peers, undo, marks, longline, dump, markwalk, scattered, along,
)}


class Workload(NamedTuple):
    """A kind with its size, and for peers the number of widgets."""

    name: str
    kind: str
    size: int
    widgets: int = 0

    def commands(self):
        """The commands of its script, each a line."""
        chance = random.Random(f"{self.kind}/{self.size}/{SEED}")
        more = (self.widgets,) if self.widgets else ()
        return list(KINDS[self.kind](chance, self.size, *more))


def named(name):
    """The workload of a name."""
    kind, _, size = name.rpartition("-")
    letters = kind.rstrip("0123456789")
    return Workload(name, letters, int(size), int(kind[len(letters):] or 0))


NAMES = (
    "log-5000", "log-20000", "edit-5000", "edit-20000", "load-10000", "load-100000", "syntax-1000", "syntax-5000",
    "search-5000", "search-50000", "peers1-2000", "peers1-8000", "peers8-2000", "peers8-8000", "peers60-2000",
    "peers60-8000", "undo-500", "undo-2000", "marks-2000", "marks-8000", "markwalk-4000", "longline-262144",
    "longline-1048576", "dump-500", "dump-2000",
)


def main():
    if len(sys.argv) < 2:
        print("\n".join(NAMES))
        return
    sys.stdout.reconfigure(encoding="utf-8", newline="\n")
    sys.stdout.write("\n".join(named(sys.argv[1]).commands()) + "\n")


if __name__ == "__main__":
    main()
