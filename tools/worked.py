"""Worked scripts: each with what it prints and its exit status, worked out by hand from the rules.

Most stand in the files of crates/rows/data, whose form its README gives and which the program `rows` runs too; here are
those that are made by a rule.  A row with limits of its own can only be run by the model and by `rows`; all others by the
program too.  `long_scripts` are for refused growth alone: what they print is the model's answer.
"""

import os
from collections import Counter
from typing import NamedTuple, Optional
from urllib.parse import unquote_to_bytes

from model import PROGRAM_LIMITS, Limits

FOLDER = os.path.join(os.path.dirname(os.path.abspath(__file__)), "..", "crates", "rows", "data")
LIMIT_WORDS = {"chars": "characters", "tags": "tags", "marks": "marks", "widgets": "widgets"}


class Row(NamedTuple):
    """A script, what it prints, the program's exit status, and the limits it runs under; `reads` is None where these are
    the program's."""

    name: str
    script: bytes
    output: bytes
    status: int
    limits: Limits = PROGRAM_LIMITS
    reads: Optional[int] = None


def read_row(lines):
    """The row of its lines, each without its newline.  Raises ValueError where one has none of the forms."""
    texts = {"<": [], ">": []}
    names, numbers = [], {}
    for line in lines:
        word, _, rest = line.partition(" ")
        if word == "row":
            names.append(rest)
        elif word in texts:
            texts[word].append(rest.encode())
        elif word in ("<%", ">%"):
            texts[word[0]].append(unquote_to_bytes(rest))
        elif word in LIMIT_WORDS or word in ("reads", "status"):
            numbers[word] = int(rest)
        elif word not in ("", "#"):
            raise ValueError(f"no line of a row: {line!r}")
    if len(names) != 1 or "status" not in numbers:
        raise ValueError(f"a row of the names {names} and the numbers {numbers}")
    limits = PROGRAM_LIMITS._replace(**{LIMIT_WORDS[word]: number for word, number in numbers.items() if word in LIMIT_WORDS})
    output = b"".join(line + b"\n" for line in texts[">"])
    return Row(names[0], b"\n".join(texts["<"]), output, numbers["status"], limits, numbers.get("reads"))


def read_file(path):
    """The rows of a file: each ends with its status."""
    with open(path, encoding="utf-8", newline="\n") as file:
        lines = file.read().split("\n")
    ends = [number for number, line in enumerate(lines) if line.startswith("status ")]
    return [read_row(lines[begin:end + 1]) for begin, end in zip([0] + [end + 1 for end in ends], ends)]


def read_rows(ending):
    """The rows of all files of a kind.  Raises ValueError where two have one name."""
    files = sorted(name for name in os.listdir(FOLDER) if name.endswith(ending))
    rows = [row for name in files for row in read_file(os.path.join(FOLDER, name))]
    twice = [name for name, count in Counter(row.name for row in rows).items() if count > 1]
    if twice:
        raise ValueError(f"two rows of one name: {twice}")
    return rows


def lines(*printed):
    """The output made of these lines."""
    return "".join(line + "\n" for line in printed).encode("utf-8")


def commands(*given):
    """The script made of these commands, a line for each."""
    return "\n".join(given).encode("utf-8")


MISSING_BRACE = "error: missing close-brace"
TOO_MANY_WIDGETS = "error: too many widgets"
TOO_MANY_MARKS = "error: too many marks"
TOO_MANY_TAGS = "error: too many tags"


def most_widgets():
    """As many widgets as there may be, and one more."""
    names = [f".w{number}" for number in range(63)]
    given = ["text .t", *(f".t peer create {name}" for name in names), ".w0 peer create .x", ".w62 peer names", "destroy .w5 .w5", ".w62 peer create .x", ".t peer create .y",
             "destroy .t " + " ".join(names), ".x peer names", "destroy .x", "text .y"]
    left = [name for name in names if name != ".w62"]
    wanted = lines(".t", *names, TOO_MANY_WIDGETS, " ".join([".t", *left]), "", ".x", TOO_MANY_WIDGETS, "", "", "", ".y")
    return Row("as many widgets as there may be, and one more", commands(*given), wanted, 1)


def many_lines():
    """A text of 300 lines, most of which go."""
    appended = 300 * (b'.t insert end "ab\\n"',)
    asked = (b".t index end", b".t tag add x 100.0 260.1", b".t mark set m 150.1", b".t mark set k 299.1", b".t delete 50.0 250.0", b".t index end",
             b".t tag ranges x", b".t index m", b".t index k")
    wanted = lines(".t", *300 * ("",), "302.0", "", "", "", "", "102.0", "50.0 60.1", "50.0", "99.1")
    return Row("lines that go from the middle", b"\n".join((b"text .t",) + appended + asked), wanted, 0)


def most_marks():
    """As many shared marks as there may be, and one more; those of even numbers stand before those of odd ones."""
    given = ["text .t", ".t insert 1.0 ab", ".t mark set insert 1.0", ".t mark set current 1.0"]
    given += [f".t mark set m{number} 1.{1 + number % 2}" for number in range(4_096)]
    asked = {"next": {"m2": "m4", "m2000": "m2002", "m4094": "m1", "m1": "m3", "m4095": ""},
             "previous": {"m2": "m0", "m2000": "m1998", "m4094": "m4092", "m1": "m4094", "end": "m4095"}}
    given.append(".t mark set more 1.0")
    given += [f".t mark {way} {origin}" for way, found in asked.items() for origin in found]
    wanted = [".t", *4_099 * ("",), TOO_MANY_MARKS, *(mark for found in asked.values() for mark in found.values())]
    return Row("as many marks as there may be, and one more", commands(*given), lines(*wanted), 1)


def most_tags():
    """As many tags as there may be, and one more; the number of a deleted tag is used again."""
    most = PROGRAM_LIMITS.tags
    given = ["text .t", *(f".t tag add t{number} 1.0" for number in range(1, most + 2))]
    given += [f".t tag nextrange t{most} 1.0", f".t tag lower t{most}", ".t tag delete t1", f".t tag add t{most + 1} 1.0", f".t tag nextrange t{most + 1} 1.0"]
    wanted = [".t", *most * ("",), TOO_MANY_TAGS, "1.0 2.0", "", "", "", "1.0 2.0"]
    return Row("as many tags as there may be, and one more", commands(*given), lines(*wanted), 1)


def long_answers():
    """Answers that fill what waits to be written by a little less, exactly, and by more."""
    rows = []
    for length in (0, 5_000, 8_190, 8_192, 10_000):
        text = "x" * length
        word = text or "{}"
        given = ["text .t", f".t insert 1.0 {word}", ".t get 1.0 1.end", ".t get 1.0 1.end", ".t index 1.end"]
        rows.append(Row(f"two answers of {length} characters", commands(*given), lines(".t", "", text, text, f"1.{length}"), 0))
    return rows


def many_braces():
    """Braces that are opened, and closed or not."""
    return [
        Row("100,000 open braces", b"text .t; .t insert 1.0 " + b"{" * 100_000, lines(".t", MISSING_BRACE), 2),
        Row(
            "100,000 braces, closed again",
            b"text .t; .t insert 1.0 " + b"{" * 100_000 + b"}" * 100_000 + b"; .t index 1.end",
            lines(".t", "", "1.199998"),
            0,
        ),
        Row(
            "a list of 100,000 open braces",
            b'text .t; .t insert 1.0 a "' + b"{" * 100_000 + b'"',
            lines(".t", f'error: bad list "{100_000 * "{"}"'),
            1,
        ),
    ]


FILE_ROWS = read_rows(".rows")

# Scripts with the words of their commands, and lists with their elements.
WORD_ROWS = read_rows(".words")
LIST_ROWS = read_rows(".lists")

# The model has no limit on reads.
ROWS = [row for row in FILE_ROWS if row.reads is None] + many_braces()

# Rows of so many commands that they aren't run once for each growth.
LONG_ROWS = [many_lines(), most_widgets(), most_tags()] + long_answers()

# Rows that take the model half a minute: the program alone runs them.
PROGRAM_ROWS = [most_marks()]


def long_scripts():
    """Scripts that make the program's buffers grow more than once, for refused growth alone."""
    long_word = b"abcdefghij" * 500
    long_line = b"abcdefghij" * 10_000
    pieces = b"".join(b".t insert end piece%d;" % number for number in range(40))
    many_words = b".t get " + b"1.0 " * 100
    many_ranges = b" ".join(b"1.%d 1.%d" % (2 * number, 2 * number + 1) for number in range(60))
    many_tags = b" ".join(b"{tag %d}" % number for number in range(40))
    return [
        ("one long insertion", b"text .t;.t insert 1.0 " + long_word + b";.t get 1.0 1.end;.t index 1.end"),
        ("a text made of many insertions", b"text .t;" + pieces + b".t get 1.0 end;.t index end"),
        ("insertions in the middle", b"text .t;.t insert 1.0 ab;" + b".t insert 1.1 xyz;" * 40 + b".t get 1.0 1.end"),
        ("long words that are refused", b"text .t;." + long_word + b";.t " + long_word + b";.t index " + long_word),
        ("a command of many words", b"text .t;" + many_words + b";.t index end"),
        (
            "a long line that is split and joined",
            b"text .t;.t insert 1.0 " + long_line + b";.t insert 1.20 {\n};.t insert 2.90000 {\n};.t delete 1.end;.t delete 1.end;.t index 1.end",
        ),
        ("a long line that is cut", b"text .t -undo 1;.t insert 1.0 " + long_line + b";.t delete 1.30 1.end;.t edit undo;.t index 1.end"),
        ("long answers", b"text .t;.t insert 1.0 " + long_word + b";" + b".t get 1.0 end;" * 5),
        ("a braced word of many lines", b"text .t;.t insert 1.0 {" + b"a line\n" * 700 + b"};.t get 1.0 end"),
        ("a quoted word of many escapes", b'text .t;.t insert 1.0 "' + b"\\x41\\n" * 700 + b'";.t index end'),
        (
            "an insertion with three new tags",
            b"text .t;.t tag names;.t insert 1.0 a {p q} bc {} d {r sel p};.t tag names;.t tag names 1.0;.t tag names 1.3;.t tag add s 1.0 1.1;"
            b".t tag names;.t insert end e {t p};.t tag names;.t tag ranges p",
        ),
        (
            "deletions of three ranges",
            b"text .t;.t insert 1.0 abcdefgh x ijkl y mnop {x y};.t mark set m 1.9;.t delete 1.0 1.2 1.4 1.6 1.9 1.11;.t get 1.0 1.end;"
            b".t tag ranges x;.t index m;.t delete 1.1 1.3 1.2 1.4 1.6;.t get 1.0 end;.t tag ranges y;.t delete end-1c 1.0 1.2 1.1 1.3;"
            b".t get 1.0 end;.t tag ranges x",
        ),
        (
            "replacements with new tags",
            b"text .t;.t insert 1.0 abcdefgh;.t mark set insert 1.3;.t replace 1.1 1.5 x;.t index insert;.t replace 1.1 1.2 long p;.t tag names;"
            b".t replace 1.0 1.1 a {q p} b {} c {r s t};.t tag names;.t tag names 1.0;.t get 1.0 end;.t replace 1.0 end {} {u v};.t tag names;"
            b".t index insert;.t get 1.0 end;.t replace 1.0 1.0 {} w;.t tag names",
        ),
        (
            "overlapping ranges, dumped",
            b"text .t; .t insert 1.0 abcdefgh; .t delete 1.0 1.4 1.2 1.6 1.0 1.1; .t get 1.0 end-1c; .t dump 1.0 end; .t delete 1.0 1.1 1.0 zz; "
            b".t get 1.0 end-1c; .t dump 1.0 end",
        ),
        (
            "a replacement, dumped",
            b'text .t; .t insert 1.0 "hello world"; .t mark set insert 1.3; .t replace 1.0 1.5 hi; .t dump 1.0 end; .t get 1.0 end-1c; '
            b".t index insert; .t replace 1.2 1.0 x; .t dump 1.0 end",
        ),
        (
            "undo and redo, dumped",
            b"text .t -undo 1; .t insert end a; .t insert end b; .t delete 1.0; .t dump 1.0 end; .t edit undo; .t dump 1.0 end; .t edit undo; "
            b".t dump 1.0 end; .t edit modified; .t edit undo; .t edit redo; .t dump 1.0 end; .t edit modified",
        ),
        (
            "deletions in a view, dumped",
            b'text .t; .t insert 1.0 "a\nb\nc\nd"; .t peer create .p -startline 2 -endline 3; .t dump 1.0 end; .p dump 1.0 end; .p index end; '
            b".t delete 2.1; .p dump 1.0 end; .p get 1.0 end-1c; .p delete 1.0 end; .t dump 1.0 end; .p dump 1.0 end; .t get 1.0 end-1c; "
            b".t delete 1.0 end; .p index end; .p insert 1.0 x; .t get 1.0 end-1c; .p cget -endline; .t dump 1.0 end; .p dump 1.0 end",
        ),
        (
            "widgets made and destroyed",
            b'text .t -undo 1 -startline 1; .t insert 1.0 "a\nb\nc"; .t peer create .p -startline 2 -maxundo 5; '
            b".p peer create {.a long name of a widget} -endline 3; .t peer names; .p tag add sel 1.0 end; .p mark set insert 2.0; "
            b"{.a long name of a widget} tag add sel 1.0; {.a long name of a widget} insert end x new; .p edit undo; .p dump 1.0 end; "
            b"destroy .p .q {.a long name of a widget}; .t peer names; .t tag ranges sel; .t peer create .p; .p tag ranges sel; "
            b".p peer create .q -state disabled -startline 9; .q insert 1.0 y z; .t edit redo; .t dump 1.0 end; destroy .t .q; "
            b".p cget -startline; destroy .p; text .u -endline 1; .u tag names; .u cget -endline",
        ),
        (
            "long answers of searches and dumps",
            b"text .t;.t insert 1.0 " + b"ab" * 120 + b" {tag one};.t insert 1.20 {a longer text of several words} {two {tag three}};"
            b".t mark set {a mark} 1.30;"
            b".t search -all ab 1.0;.t search -all -overlap -nocase -backwards BA end;.t search -all {} 1.5;.t search longer 1.0;.t dump 1.0 end;"
            b".t dump -tag 1.0 end;.t dump -text 1.0 1.40;.t dump -mark 1.0 end;.t count -lines -chars -indices 1.0 end",
        ),
        (
            "undo and redo of groups of three actions",
            b"text .t -undo 1;.t insert 1.0 abcdefgh;.t delete 1.0 1.2 1.4 1.6 1.7;.t edit undo;.t get 1.0 1.end;.t edit redo;.t get 1.0 1.end;"
            b".t index insert;.t insert 1.0 {some longer text} p {and more} {} x;.t edit undo;.t get 1.0 1.end;.t edit undo;.t edit redo;"
            b".t edit redo;.t get 1.0 1.end;.t replace 1.0 1.3 y {q r} z;.t edit modified;.t edit undo;.t get 1.0 1.end;.t edit modified;"
            b".t edit redo;.t insert end !;.t edit undo;.t edit undo;.t edit undo;.t edit undo;.t edit undo;.t get 1.0 end;.t edit modified;"
            b".t edit redo;.t edit redo;.t get 1.0 end;.t tag names",
        ),
        (
            "a history that grows and is cut",
            b"text .t -undo 1 -maxundo 3;" + b"".join(b".t insert end word%d;.t edit separator;" % number for number in range(20))
            + b".t edit undo;.t edit undo;.t edit undo;.t edit undo;.t get 1.0 end;.t edit redo;.t insert end x;.t edit redo;.t configure -maxundo 0;"
            + b".t insert end y;.t delete 1.0;" * 12 + b".t edit undo;.t get 1.0 end;.t edit reset;.t edit undo;.t edit modified 0;.t edit modified",
        ),
        (
            "options",
            b"text .t -undo 1 -maxundo 7 -autoseparators no -state disabled;.t cget -maxundo;.t configure -state normal -maxundo -12;"
            b".t cget -maxundo;.t cget -state;.t cget -undo;.t insert 1.0 a;.t configure -undo 0;.t edit undo;.t get 1.0 end",
        ),
        (
            "deletions of many ranges",
            b"text .t;.t insert 1.0 " + b"ab" * 60 + b";.t delete " + many_ranges + b";.t get 1.0 end;.t insert 1.0 " + b"cd" * 30 + b";.t delete "
            + many_ranges + b" " + many_ranges + b";.t get 1.0 end",
        ),
        (
            "tags deleted and made again",
            b"text .t;.t insert 1.0 abcd {p q r};.t tag delete q r;.t tag names;.t tag add r 1.0;.t tag add s 1.1 1.2 1.3;.t tag ranges r;"
            b".t tag ranges s;.t tag remove p 1.1 1.2;.t tag ranges p;.t tag raise p;.t tag lower s p;.t tag names",
        ),
        (
            "long lists of ranges and tags",
            b"text .t;.t insert 1.0 " + b"ab" * 60 + b";.t tag add x " + many_ranges + b";.t tag ranges x;.t get " + many_ranges
            + b";.t tag remove x " + many_ranges + b";.t tag ranges x;.t insert 1.0 c {" + many_tags + b"};.t tag names;.t tag names 1.0",
        ),
        (
            "marks that are made, put and taken out",
            b"text .t;.t insert 1.0 abcd;.t mark set m 1.1;.t mark set {a long name of a mark} 1.2;.t mark gravity m left;.t mark gravity m;"
            b".t mark set insert 1.2;.t mark names;.t mark set m 1.3;.t mark next m;.t mark previous m;.t index m;.t mark unset m q;.t mark names;"
            b".t mark set n end;.t mark names;.t insert 1.2 x;.t index insert",
        ),
        (
            "many marks",
            b"text .t;.t insert 1.0 " + b"ab" * 60 + b";" + b"".join(b".t mark set {mark %d} 1.%d;" % (number, number) for number in range(40))
            + b".t mark names;.t mark next 1.5;.t mark unset " + b" ".join(b"{mark %d}" % number for number in range(0, 40, 2)) + b";.t mark names",
        ),
        ("a script fault after long words", b"text .t;.t insert 1.0 " + long_word + b";.t get " + long_word + b"["),
    ]


def dumped(script, *widgets):
    """A script, and then dumps of these widgets' whole views."""
    return script + b"".join(b"; %s dump 1.0 end" % widget for widget in widgets)


def repeated_scripts():
    """Scripts of which each command that a refused growth refuses is then given again: one for each family of commands, with
    dumps of what is left."""
    return [
        ("ranges, given again", dumped(b"text .t; .t insert 1.0 abcdefgh; .t delete 1.0 1.4 1.2 1.6 1.0 1.1; .t delete 1.0 1.1 1.0 zz", b".t")),
        (
            "a replacement, given again",
            dumped(b'text .t; .t insert 1.0 "hello world"; .t mark set insert 1.3; .t replace 1.0 1.5 hi; .t replace 1.2 1.0 x', b".t"),
        ),
        (
            "undo and redo, given again",
            dumped(
                b"text .t -undo 1; .t insert end a; .t insert end b; .t delete 1.0; .t edit undo; .t edit undo; .t edit modified; "
                b".t edit undo; .t edit redo; .t edit modified",
                b".t",
            ),
        ),
        (
            "peers, given again",
            dumped(
                b'text .t; .t insert 1.0 "a\nb\nc\nd"; .t peer create .p -startline 2 -endline 3; .t delete 2.1; .p delete 1.0 end; '
                b".t delete 1.0 end; .p insert 1.0 x; .t peer create .q; destroy .p .t",
                b".q",
            ),
        ),
        (
            "tags, given again",
            dumped(
                b"text .t; .t insert 1.0 abc; .t tag add x 1.0 1.2; .t insert 1.1 Y; .t insert 1.3 Z; .t insert 1.1 W {}; "
                b".t tag ranges x; .t insert 1.0 {} {q r}; .t tag names; .t tag delete q x; .t tag add s 1.0 end",
                b".t",
            ),
        ),
        (
            "search and dump, given again",
            dumped(
                b"text .t; .t insert 1.0 abc; .t peer create .p; .p tag add sel 1.1 1.2; .t dump -text 1.0 1.3; .p dump -text 1.0 1.3; "
                b".t search -all b 1.0; .t count -chars 1.0 end",
                b".t",
                b".p",
            ),
        ),
        (
            "marks, given again",
            dumped(
                b"text .t; .t insert 1.0 ab; .t mark set m 1.0; .t mark set n 1.0; .t mark set z end; .t mark next 1.0; .t mark gravity m left; "
                b".t mark previous z; .t mark unset insert m; .t mark names",
                b".t",
            ),
        ),
        (
            "options, given again",
            dumped(
                b"text .t -undo 1 -maxundo 7 -state disabled; .t configure -state normal -maxundo -12; .t cget -maxundo; .t insert 1.0 a; "
                b".t configure -undo 0; .t peer create .p -startline 1 -endline 1; .p cget -endline; .p configure -endline {}",
                b".t",
                b".p",
            ),
        ),
        (
            "an edit of a peer that another undoes, given again",
            dumped(
                b'text .t -undo 1; .t insert 1.0 "a\nb"; .t peer create .p -startline 2; .p insert 1.0 "x\n"; .t edit undo; .t edit undo; '
                b".t edit redo",
                b".t",
                b".p",
            ),
        ),
        (
            "several documents, given again",
            dumped(
                b"text .t; text .u; .t insert 1.0 a; .u tag add x 1.0; .t peer create .p; .u peer create .q; .t tag names; "
                b"destroy .t .q; text .v -undo 1; .v insert 1.0 b y; destroy .u",
                b".p",
                b".v",
            ),
        ),
    ]


def refused_scripts():
    """The names and scripts that the program is run on once for each of their growths."""
    rows = [(row.name, row.script) for row in ROWS if row.limits == PROGRAM_LIMITS]
    return rows + long_scripts()


def program_scripts():
    """The names and scripts of everything here that the program can run under its own limits."""
    return refused_scripts() + [(row.name, row.script) for row in LONG_ROWS]
