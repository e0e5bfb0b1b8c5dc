"""Words that are indices, and words near them that are none, for all tools that make scripts.

`PROGRAM_READS_ALL` says which part of the grammar the program has.  Turn it once the program reads marks, tags and
modifiers too: then the random scripts, and the search for idle refusals, have such words.  The model knows the whole
grammar either way, so no word here is an index to one of the two alone.
"""

PROGRAM_READS_ALL = True

# One word for each base.
PLACES = ["1.1", "1.end", "end"]
NAMED = ["insert", "current", "m", "sel.first", "sel.last", "x.first", "x.last"]

# One spelling for each modifier, to stand behind a base.
MODIFIERS = ["+1c", "-1chars", "+1i", "+1l", "-1lines", "\\ +\\ 1\\ any\\ l", "\\ linestart", "\\ linee", "\\ words", "\\ wordend"]

# What a count can count, and each keyword with its shortest spelling.
UNITS = ["chars", "indices", "lines"]
KEYWORDS = {"linestart": "lines", "lineend": "linee", "wordstart": "words", "wordend": "worde"}

# The names that every widget has.
MARKS = ["insert", "current"]

# Names for shared marks: often the same few, and such as look like indices, like names of tags or like words of commands.
SHARED_MARKS = ["m", "n", "o"]
ODD_MARKS = [
    "", " ", "b c", "d{", "}", "#", "\\", "\n", "$", '"', "é", "😀", "1.0", "end", "x.first", "sel.last", "insert ", "insert+1c", "m+1c", "m ",
    "current.first", "-1c", "left", ".t", "x", "M", "1.0+1c", "end-1c",
]

# Names for tags: often the same few, and such as look like indices, like lists or like words of commands.
TAGS = ["x", "y", "z", "sel"]
ODD_TAGS = [
    "", " ", "b c", "d{", "}", "#", "#a", "a\\", "\n", "$", "[x]", '"', "é", "😀", "x.first", "x.last", "sel.first", "1.0", "end", "insert",
    "x+1c", "x ", "X", "sel2", "-1c", "names", ".t", "x.first.last", "a;b",
]

# Words near the forms of an index that are none.
NEAR = [
    "1", ".", "1.", ".1", "1.e", "1.en", "1.ends", "e", "en", "ends", "END", "End", "1.End", "-1.0", "+1.0",
    "1.-1", "1.+1", "1..0", "1.0.0", "1,0", "0x1.0", "1.0x", "1e.0", "１.０", "1.٣", "end.0", "end.end",
    "1.0+1", "1.0+c", "1.0+1cc", "1.0++1c", "1.0+1c1", "1.0+1charss", "1.0+1indice s", "1.0+1any", "1.0+1anyc", "1.0+1any any c",
    "1.0+1 an c", "1.0+1any+1c", "1.0+٣c", "1.0+1é", "1.0+1\u00a0c", "end-", "end -1", "1.0lineend", "1.0 line", "1.0 word",
    "1.0 linestarts", "1.0 any", "1.0 1c", "1.0 c", "1.0\n", "1.0\n+1c", "1.0\r+1c", " 1.0", "\tend", "inser", "inserts",
    "insert.first", "currents", "sel", "sel.", "sel.firs", "sel.firsts", "sel.first.last", "x.first", "@0,0", "1.0\x00",
    "\x001.0", "é", "1.é", "$", "1.$", "end]", "1.0}", "1.0#",
]


def bare_indices():
    """A word for each base, and for each base with each modifier, as a script spells them bare."""
    if not PROGRAM_READS_ALL:
        return PLACES
    bases = PLACES + NAMED
    return bases + [base + modifier for base in bases for modifier in MODIFIERS]
