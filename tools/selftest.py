#!/usr/bin/env python3
"""Tries the model on the worked rows, and the generator of random scripts on what it has to reach.

    python3 tools/selftest.py

Ends in a line `N passed, M failed`; the exit status is 1 if anything failed.
"""

import sys

import indices
import model
import scripts
import worked
from harness import Tally

SEEDS = 1_500
WORLD_SEEDS = 500
UNDO_SEEDS = 100

# Every fault that a script can bring about under the program's own limits, without a text of millions
# of characters.
REACHED_FAULTS = [
    b'error: bad text index "',
    b'error: bad option "',
    b"error: wrong # args",
    b'error: invalid command name "',
    b'error: bad comparison operator "',
    b'error: bad list "',
    b"error: too many tags",
    b'" in the text',
    b'error: window name "',
    b"\" isn't defined in text widget",
    b'error: there is no mark named "',
    b'error: bad mark gravity "',
    b'error: expected boolean value but got "',
    b'error: expected integer but got "',
    b"error: -startline must be less than or equal to -endline",
    b"error: too many widgets",
    b"error: nothing to undo",
    b"error: nothing to redo",
    b"error: missing close-brace",
    b'error: missing "',
    b"error: extra characters after close-brace",
    b"error: extra characters after close-quote",
    b"error: substitution isn't supported",
    b"error: bad character code",
    b"error: script isn't UTF-8",
]

# And where the program reads the whole grammar of indices.
REACHED_BY_INDICES = [b"error: text doesn't contain any characters tagged with \""]


def check_row(row, tally):
    """The model prints what the row says."""
    run = model.run_output(row.script, row.limits)
    if (run.output, run.status) == (row.output, row.status):
        tally.passed()
        return
    tally.failed(
        f"row {row.name!r}\n  script {row.script!r}\n  wanted {row.output!r}, status {row.status}\n"
        f"  given  {run.output!r}, status {run.status}"
    )


def with_bars(words):
    """Words in one line, with a bar before each."""
    return "".join("|" + word for word in words) + "\n"


def check_words(row, tally):
    """The model splits the row's script into the words that it says."""
    commands, fault = model.reads_script(row.script)
    found = "".join(map(with_bars, commands)) + ("" if fault is None else f"{fault}\n")
    status = 0 if fault is None else 2
    tally.check((found.encode(), status) == (row.output, row.status), f"row {row.name!r}: {found!r} is not {row.output!r}")


def check_list(row, tally):
    """The model splits the row's list into the elements that it says."""
    elements = model.split_list(row.script.decode())
    found = ("bad list\n", 2) if elements is None else (with_bars(elements), 0)
    tally.check((found[0].encode(), found[1]) == (row.output, row.status), f"row {row.name!r}: {found!r} is not {row.output!r}")


# Texts with the list that each spells; None where it spells none.
LISTS = [
    ("", []),
    (" \t\n\r\v\f", []),
    ("a {b c} d\\{", ["a", "b c", "d{"]),
    ("{} {#} a# \\#", ["", "#", "a#", "#"]),
    ("{a\\}b} {{c} d}", ["a\\}b", "{c} d"]),
    ('"a b" "\\"" a"b', ["a b", '"', 'a"b']),
    ("\\x41\\101\\u20ac \\a", ["AA€", "\a"]),
    ("a\\\n  b {a\\\n b}", ["a b", "a\\\n b"]),
    ("[a $b ;", ["[a", "$b", ";"]),
    ("a\\", ["a\\"]),
    ("{", None),
    ('"', None),
    ("{a}b", None),
    ('"a"b', None),
    ("{a}\\\n", None),
    ("\\uD800", None),
    ("{" * 100_000, None),
]

# Elements with the one way to write each.
ELEMENTS = [
    ("a", "a"),
    ("", "{}"),
    ("#", "{#}"),
    ("#a", "{#a}"),
    ("a#", "a#"),
    ("b c", "{b c}"),
    ("d{", "d\\{"),
    ("}{", "\\}\\{"),
    ("{}", "{{}}"),
    ("a\\", "a\\\\"),
    ("a\\ {}", "a\\\\\\ \\{\\}"),
    ("#{", "\\#\\{"),
    ("}\t\n\r\v\f ", "\\}\\t\\n\\r\\v\\f\\ "),
    ("[", "{[}"),
    ('"', '{"}'),
    ("a;b", "{a;b}"),
]


def check_lists(tally):
    """Lists are read and written as the rules say, and what is written is read back."""
    for text, elements in LISTS:
        tally.check(model.split_list(text) == elements, f"{text[:40]!r} spells {model.split_list(text)!r}")
    for element, text in ELEMENTS:
        tally.check(model.list_text([element]) == text, f"{element!r} is written {model.list_text([element])!r}")
    whole = [element for element, _ in ELEMENTS]
    tally.check(model.split_list(model.list_text(whole)) == whole, "a list isn't read back")


# The names that the words below may have in them.
MARKS = model.OWN_MARKS + ("a", "a+1c", "", "1.0", "end", "x.first")
TAGS = ("sel", "x", "y", "y.last.z", "é +")

PLACE = model.LineCharacter(1, 0)


def move(count, unit):
    """A move by a count, back where it is below 0."""
    return model.Move(count >= 0, abs(count), unit)


# Words with the index that each is; None where it is none.
INDEX_WORDS = [
    ("1.0", model.Index(PLACE)),
    ("0012.0345", model.Index(model.LineCharacter(12, 345))),
    ("1.end", model.Index(model.LineEnd(1))),
    ("end", model.Index(model.End())),
    ("a", model.Index(model.MarkName("a"))),
    ("a+1c", model.Index(model.MarkName("a+1c"))),
    ("a+1c-2l", model.Index(model.MarkName("a+1c"), (move(-2, "lines"),))),
    ("", model.Index(model.MarkName(""))),
    ("\t ", model.Index(model.MarkName(""))),
    ("+1c", model.Index(model.MarkName(""), (move(1, "chars"),))),
    ("x.first", model.Index(model.MarkName("x.first"))),
    ("x.last", model.Index(model.LastTagged("x"))),
    ("y.last.z.first", model.Index(model.FirstTagged("y.last.z"))),
    ("y.last.z.last", model.Index(model.LastTagged("y.last.z"))),
    ("é +.last \t", model.Index(model.LastTagged("é +"))),
    ("sel.first", model.Index(model.FirstTagged("sel"))),
    ("insert", model.Index(model.MarkName("insert"))),
    ("1.0\t-\t2\tchars", model.Index(PLACE, (model.Move(False, 2, "chars"),))),
    ("1.0+3ind", model.Index(PLACE, (move(3, "chars"),))),
    ("1.0 + 3 any \t lin", model.Index(PLACE, (move(3, "lines"),))),
    ("1.0+3any l-1c", model.Index(PLACE, (move(3, "lines"), move(-1, "chars")))),
    ("1.0 lines linee", model.Index(PLACE, (model.Keyword("linestart"), model.Keyword("lineend")))),
    ("end wordstart worde ", model.Index(model.End(), (model.Keyword("wordstart"), model.Keyword("wordend")))),
    ("end-" + "9" * 30 + "c", model.Index(model.End(), (model.Move(False, 10**30 - 1, "chars"),))),
    ("a+1cx", None),
    ("b", None),
    ("y.last.first", None),
    ("é +", None),
    ("1.0+3any c d", None),
]

# Places of the text `ab`, `cde`, an empty line and `f` in views of it: the widget's `insert` and `current` stand at 8 and 0,
# the marks `m` and `n` at 4 and 9, and the characters from 4 to before 9 have the tag `x`. The number stands for a fault.
VIEWED_TEXT = "ab\ncde\n\nf\n"
BAD_INDEX, NO_CHARACTERS = 1, 2
VALUES = {
    (None, None): [
        ("1.99", "1.2"), ("0.7", "1.0"), ("9.9", "5.0"), ("2.end", "2.3"), ("end", "5.0"), ("end-1c", "4.1"), ("end - 1 lines", "4.0"),
        ("end-1l-1l", "3.0"), ("end -3 lines", "2.0"), ("2.2 + 1 l", "3.0"), ("2.2+2l", "4.1"), ("2.2 +9 lines", "4.1"), ("2.2-9l", "1.2"),
        ("2.1 linestart", "2.0"), ("2.1 lineend", "2.3"), ("end linestart", "5.0"), ("2.1 wordstart", "2.0"), ("2.1 wordend", "2.3"),
        ("1.2 wordend", "2.0"), ("end-1c wordend", "4.1"), ("end wordend", "5.0"), ("1.0+" + "9" * 30 + "c", "5.0"),
        ("end-" + "9" * 30 + "c", "1.0"), ("1.1+" + "9" * 30 + "l", "4.1"), ("end-" + "9" * 30 + "l", "1.0"), ("9" * 30 + ".0", "5.0"),
        ("x.first", "2.1"), ("x.last", "4.1"), ("x.last-1c", "4.0"), ("insert", "4.0"), ("current", "1.0"), ("m", "2.1"),
        ("m+2l", "4.1"), ("n", "4.1"), ("q", BAD_INDEX), ("sel.first", NO_CHARACTERS),
    ],
    (3, 7): [
        ("1.0", "1.0"), ("end", "2.0"), ("1.9", "1.3"), ("9.9", "2.0"), ("end-1l", "1.0"), ("end-1c wordend", "1.3"), ("x.first", "1.1"),
        ("x.last", "2.0"), ("insert", "1.3"), ("current", "1.0"), ("m", "1.1"), ("n", BAD_INDEX),
    ],
    (3, 8): [("2.0", "2.0"), ("end", "3.0"), ("x.last", "3.0"), ("1.2+1l", "2.0"), ("insert", "2.0")],
    (0, 3): [("x.first", NO_CHARACTERS)],
    (3, 3): [
        ("1.0", "1.0"), ("end", "1.0"), ("end-1l+1c", "1.0"), ("insert", "1.0"), ("9.end wordend", "1.0"), ("m", BAD_INDEX),
        ("x.last", NO_CHARACTERS),
    ],
}

# Characters with whether each makes words.
WORD_CHARACTERS = [("aZ0_éß漢٣ªǅ", True), (" -.\n²½Ⅷ\u0301€😀‿", False)]

# Characters with the one that stands for each where case doesn't matter.
FOLDS = [
    ("A", "a"), ("a", "a"), ("ẞ", "ß"), ("ß", "ß"), ("İ", "İ"), ("ı", "ı"), ("ς", "σ"), ("Σ", "σ"), ("\u212a", "k"), ("ſ", "s"),
    ("ﬅ", "ﬆ"), ("ᾈ", "ᾀ"), ("ꭰ", "Ꭰ"), ("Ꭰ", "Ꭰ"), ("ǅ", "ǆ"), ("ΐ", "ΐ"), ("\u1fd3", "ΐ"), ("\n", "\n"),
]


def check_folds(tally):
    """Each character has its simple fold, also where its whole fold would be several characters."""
    for character, fold in FOLDS:
        tally.check(model.simple_fold(character) == fold, f"the fold of {character!r} is {model.simple_fold(character)!r}")


def check_indices(tally):
    """Words are read as the indices that they are, and no word near an index is one."""
    for word, wanted in INDEX_WORDS:
        read = model.reads_index(word, MARKS, TAGS)
        tally.check(read == wanted, f"{word!r} is read as {read!r}")
    for word in indices.NEAR:
        tally.check(model.reads_index(word, model.OWN_MARKS, ("sel",)) is None, f"{word!r} is an index")
    for characters, makes_words in WORD_CHARACTERS:
        for character in characters:
            tally.check(model.is_word_character(character) == makes_words, f"{character!r} makes words or not")


def viewed_document():
    """The document whose places are tried."""
    cells = [model.Cell(c, frozenset({"x"} if 4 <= k < 9 else ())) for k, c in enumerate(VIEWED_TEXT)]
    marks = (("m", model.Mark(4)), ("n", model.Mark(9)))
    return model.Document(cells=tuple(cells), marks=marks, tags=("sel", "x"))


def place_found(word, document, widget):
    """The text of a word's place, or the number of the fault."""
    try:
        return model.position_text(model.argument_place(word, document, widget), model.view(document, widget))
    except model.Fault as fault:
        return BAD_INDEX if fault.text == f'bad text index "{word}"' else NO_CHARACTERS


def check_values(tally):
    """Words have the places in views that were worked out by hand."""
    document = viewed_document()
    for (start, end), rows in VALUES.items():
        widget = model.Widget(".t", start=start, end=end, insert=model.Mark(8), current=model.Mark(0))
        for word, wanted in rows:
            found = place_found(word, document, widget)
            tally.check(found == wanted, f"{word!r} in {start} to {end} is {found!r}, not {wanted!r}")
    tally.check(model.tag_ranges([True, False, True, True]) == [(0, 1), (2, 4)], "ranges to the end")
    tally.check(model.tag_ranges([False, False]) == [] == model.tag_ranges([]), "ranges of none")


def check_refused_command(tally):
    """A command that finds no memory prints its error, and the others run as if it weren't there."""
    script = b"text .t; .t insert 1.0 ab; .t insert 1.1 X; .t get 1.0 1.end"
    run = model.run_with_refusals(script, model.PROGRAM_LIMITS, refused={1})
    wanted = model.Run(b".t\nerror: out of memory\n\nX\n", 1)
    tally.check(run == wanted, f"a refused command: {run!r} is not {wanted!r}")


def stands_at_line(anchor, characters):
    """Whether an anchor is none, or stands where a line begins or at the length."""
    return anchor is None or anchor in (0, len(characters)) or anchor < len(characters) and characters[anchor - 1] == "\n"


def is_well_formed(world):
    """Whether each document ends with a newline, marks and views lie in it, and keys, actions and names belong to something."""
    for document in world.documents:
        characters = [cell.character for cell in document.cells]
        marks = [mark for _, mark in document.marks] + [mark for widget in document.widgets for mark in (widget.insert, widget.current)]
        keys = set(document.tags) - {"sel"} | {("sel", widget.name) for widget in document.widgets}
        views = [(widget.start or 0, len(characters) if widget.end is None else widget.end) for widget in document.widgets]
        holds = (
            characters[-1] == "\n"
            and all(0 <= mark.offset <= len(characters) for mark in marks)
            and all(stands_at_line(anchor, characters) for widget in document.widgets for anchor in (widget.start, widget.end))
            and all(start <= end for start, end in views)
            and all(cell.keys <= keys for cell in document.cells)
            and len({widget.name for widget in document.widgets}) == len(document.widgets) > 0
            and all(group for group in document.history.groups + document.history.undone)
        )
        if not holds:
            return False
    return True


def check_worlds(tally):
    """Each command of random scripts leaves a world that is well formed."""
    for seed in range(WORLD_SEEDS):
        world = model.World()
        for words in model.reads_script(scripts.script(seed))[0]:
            world, _, _ = model.piece(world, words, False)
            if not is_well_formed(world):
                tally.failed(f"seed {seed}: {words!r} leaves a world that isn't well formed")
                return
    tally.passed()


def text_of(world):
    """The characters of the document."""
    return "".join(cell.character for cell in world.documents[0].cells)


def keeps_history(words):
    """Whether a command leaves alone which edits can be undone, but for those that it makes itself."""
    return words[0] not in ("text", "destroy") and not {"reset", "-undo", "-maxundo"} & set(words)


def check_undo_runs(tally):
    """After random commands of three widgets undo, until nothing is left, gives the text before them, and redo the one behind."""
    for seed in range(UNDO_SEEDS):
        chance = scripts.Chance(seed)
        chance.documents = ((".t", ".p", ".q"),)
        given = [
            ["text", ".t"],
            [".t", "insert", "end", scripts.lines_text(chance)],
            [".t", "configure", "-undo", "1"],
            [".t", "peer", "create", ".whole"],
            [".t", "peer", "create", ".p", "-startline", "2"],
            [".t", "peer", "create", ".q", "-endline", "3"],
        ]
        world = model.World()
        for words in given:
            world, _ = model.step(world, words)
        before = text_of(world)
        for words in (scripts.pick(chance, scripts.COMMANDS) for _ in range(30)):
            world = model.piece(world, words, not keeps_history(words))[0]
        behind, count = text_of(world), 0
        while world.documents[0].history.groups:
            world, count = model.step(world, [".whole", "edit", "undo"])[0], count + 1
        is_before = text_of(world) == before
        for _ in range(count):
            world, _ = model.step(world, [".whole", "edit", "redo"])
        tally.check(is_before and text_of(world) == behind, f"seed {seed}: {count} groups, undone and redone, leave another text")


def check_generator(tally):
    """Scripts are the same for the same seed, and reach every fault and every exit status."""
    runs = [model.run_output(scripts.script(seed)) for seed in range(SEEDS)]
    tally.check(scripts.script(7) == scripts.script(7), "one seed makes two scripts")
    for fault in REACHED_FAULTS + (REACHED_BY_INDICES if indices.PROGRAM_READS_ALL else []):
        count = sum(run.output.count(fault) for run in runs)
        tally.check(count >= 10, f"{SEEDS} random scripts meet {fault!r} only {count} times")
    for status in (0, 1, 2):
        count = sum(run.status == status for run in runs)
        tally.check(count >= 10, f"{SEEDS} random scripts end with status {status} only {count} times")


def main():
    tally = Tally()
    for row in worked.ROWS + worked.LONG_ROWS:
        check_row(row, tally)
    for row in worked.WORD_ROWS:
        check_words(row, tally)
    for row in worked.LIST_ROWS:
        check_list(row, tally)
    check_lists(tally)
    check_indices(tally)
    check_values(tally)
    check_folds(tally)
    check_refused_command(tally)
    check_worlds(tally)
    check_undo_runs(tally)
    check_generator(tally)
    return tally.close()


if __name__ == "__main__":
    sys.exit(main())
