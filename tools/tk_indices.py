"""The grammar of an index, crossed: each base with each modifier, beside it and apart, in real Tk and in the program.

What one of them answers otherwise has to be of a kind that a row of docs/differences.md names.
"""

import re
from collections import Counter

from harness import ask_program

SETUP = (
    "text .t", '.t insert 1.0 "ab cd\\nefg hi\\njk\\n"', ".t mark set m 2.1", ".t mark set m2 2.3",
    ".t tag add x 1.1 2.2",
)
NUMBERS = ("1.0", "1.2", "01.0", "-1.0", "1.-1", "1.+1", "+1.0", "0.0", "0.5", "1.99", "99.0", "0x1.0", "1 .0", "1. 0")
ENDS = ("1.end", "1.e", "1.en", "1.endx", "end", "e", "en", "END", "endx")
NAMES = ("insert", "m", "m2", "m3", "x.first", "x.last", "x.f", "x.lastx", "sel.first", "y.first", "@0,0", "@0", ".t")
NO_BASES = ("1", "1.", ".1", "1,0", "1.0x", "1.0e", "1.0.0", "1.0c", " 1.0", "1e0.0", "")
BASES = NUMBERS + ENDS + NAMES + NO_BASES
# What the modifiers stand behind.
CROSSED = ("1.0", "2.1", "m", "1.end", "x.first", "end", "@0,0")
COUNTS = ("1", " 1 ", "1 ", "01", "09", "0", "-1", " -1", "+1", "", "1.5", "1e1")
UNITS = (
    "c", "char", "chars", "i", "ind", "indices", "l", "li", "line", "lines", "C", "CHARS", "m", "x", "", "c x", "any c",
    "any chars", "any indices", "any lines", "anychars", "an c", "a c", "d c", "display chars", "displaychars",
    "display indices", "display lines", "displaylines",
)
PLACES = (
    "linestart", "lineend", "wordstart", "wordend", "lines", "linee", "words", "worde", "line", "word", "w", "l",
    "LINEEND", "lineendx", "display linestart", "displaylineend", "display wordend", "any lineend", "anywordstart",
)
CHAINS = (
    "+1c+1c", "+1c -1l", "+1c lineend", "+1clineend", "lineend+1c", "lineend wordstart", "lineendwordstart", "+1c 1c",
    "+", "+2147483647c", "-2147483647 lines", "+99999999999 chars", "-99999999999l",
)
# Rows of the page, each with the words that it speaks of.
KINDS = (
    ("end-is-whole", re.compile(r"^en?\b")),
    ("coordinates", re.compile(r"^@")),
    ("display-words", re.compile(r"display|(?<![a-z])d [a-z]")),
    ("any-words", re.compile(r"any|(?<![a-z])an? [a-z]")),
    ("signed-numbers", re.compile(r"^[-+]|\.[-+ ]\d|[-+] *[-+]")),
    ("places-joined", re.compile(r"(\d|end|first|last)(line|word)")),
    ("octal-numbers", re.compile(r"\b0\d|0x")),
    ("lines-past-end", re.compile(r"\d{8} ?l")),
)


def words():
    """Each index of the grammar, and many that are none."""
    modifiers = [sign + count + unit for sign in "+-" for count in COUNTS for unit in UNITS]
    modifiers += [*PLACES, *CHAINS]
    crossed = [base + between + modifier for base in CROSSED for between in ("", " ") for modifier in modifiers]
    return list(dict.fromkeys([*BASES, *crossed]))


def kind_of(word):
    """The row of the page that speaks of a word, or None."""
    return next((name for name, pattern in KINDS if pattern.search(word)), None)


def compare(program, tk, tally):
    """Compares all words.  Gives how many each row speaks of, of those that are answered otherwise."""
    asked = words()
    commands = [*SETUP, *(f'.t index "{word}"' for word in asked)]
    theirs, ours = tk.answers(commands)[len(SETUP) :], ask_program(program, commands)[len(SETUP) :]
    met = Counter()
    for word, tk_answer, answer in zip(asked, theirs, ours, strict=True):
        both = [None if it is None or it.is_refused else it.text for it in (tk_answer, answer)]
        kind = kind_of(word)
        if both[0] == both[1]:
            tally.passed()
        elif kind is None:
            tally.failed(f"the index {word!r}: {both[0]} in Tk and {both[1]} in the program, and no row speaks of it")
        else:
            met[kind] += 1
    return met
