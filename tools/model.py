"""A plain model of what tktext answers.

Sources: the manual pages text(n) and Tcl(n) of Tcl/Tk 8.6.  Where they are silent the model follows
docs/model.md of this repository, and each function below states its rule.  The model was written
without a look at the program's code, so that the two can be compared.

A document is a list of cells, each a character with a set of keys (the tags on it).  Marks and anchors
are positions: the number of cells before them.  Nothing here is changed in place: a command makes a new
world out of the old one, so a refused command leaves the old one as it was.

One function stands for one definition.  A new command gets a function of its own and a line in
SUBCOMMANDS; a new form of index gets a case in `reads_index` and one in `base_value` or `modified`.
"""

import re
import sys
import unicodedata
from dataclasses import dataclass, replace
from typing import NamedTuple, Optional

# Numbers in indices are of any length; Python stops at some thousand digits unless told not to.
sys.set_int_max_str_digits(0)


# ---------------------------------------------------------------------------------------------------
# Limits


class Limits(NamedTuple):
    """The greatest numbers that a world may hold.  `characters` counts the last newline too."""

    characters: int = 134_217_728
    tags: int = 960
    marks: int = 4_096
    widgets: int = 64


PROGRAM_LIMITS = Limits()


# ---------------------------------------------------------------------------------------------------
# The script grammar: which bytes are which commands, or which script fault

BLANKS = frozenset(" \t\r\v\f")
COMMAND_ENDS = frozenset("\n;")
LETTERS = frozenset("abcdefghijklmnopqrstuvwxyzABCDEFGHIJKLMNOPQRSTUVWXYZ")
DIGITS = frozenset("0123456789")
OCTAL_DIGITS = frozenset("01234567")
HEX_DIGITS = frozenset("0123456789abcdefABCDEF")

MISSING_BRACE = "missing close-brace"
MISSING_QUOTE = 'missing "'
EXTRA_AFTER_BRACE = "extra characters after close-brace"
EXTRA_AFTER_QUOTE = "extra characters after close-quote"
SUBSTITUTION = "substitution isn't supported"
NOT_UTF8 = "script isn't UTF-8"
BAD_CHARACTER_CODE = "bad character code"


class ScriptFault(Exception):
    """What ends a script where it stands: no later command is read, and the one begun isn't run."""

    def __init__(self, text):
        super().__init__(text)
        self.text = text


class Source:
    """The characters of a script, up to its end or to the first bytes that aren't UTF-8."""

    def __init__(self, script):
        try:
            self.characters = script.decode("utf-8")
            self.breaks_off = False
        except UnicodeDecodeError as error:
            self.characters = script[: error.start].decode("utf-8")
            self.breaks_off = True

    def at(self, place):
        """The character at `place`, or the empty text at the end.

        To ask what stands where the bytes aren't UTF-8 is to meet the fault.
        """
        if place < len(self.characters):
            return self.characters[place]
        if self.breaks_off:
            raise ScriptFault(NOT_UTF8)
        return ""


class ListSource(Source):
    """The characters of a list: its end stands for a script's."""

    def __init__(self, text):
        self.characters = text
        self.breaks_off = False


def dollar_substitutes(source, place):
    """Whether a dollar sign just before `place` asks for a variable, and doesn't stand for itself.

    It does before an ASCII letter, an ASCII digit, an underscore, `{`, `(` and two colons.
    """
    following = source.at(place)
    if following == ":":
        return source.at(place + 1) == ":"
    return following in LETTERS or following in DIGITS or following in frozenset("_{(")


def is_substitution(source, place):
    """Whether the character at `place`, outside braces, asks for what isn't supported."""
    character = source.at(place)
    if character == "$":
        return dollar_substitutes(source, place + 1)
    return character == "["


def after_spaces(source, place):
    """The first place at or after `place` where neither a space nor a tab stands."""
    while source.at(place) in frozenset(" \t"):
        place += 1
    return place


def is_escaped_newline(source, place):
    """Whether a backslash with a newline after it stands at `place`."""
    return source.at(place) == "\\" and source.at(place + 1) == "\n"


# The escapes of one letter.
LETTER_ESCAPES = {"a": "\a", "b": "\b", "f": "\f", "n": "\n", "r": "\r", "t": "\t", "v": "\v"}

# The escapes of digits: which digits, how many at most, and the greatest value.
OCTAL_ESCAPE = (OCTAL_DIGITS, 8, 3, 0o377)
HEX_ESCAPES = {
    "x": (HEX_DIGITS, 16, 2, 0xFF),
    "u": (HEX_DIGITS, 16, 4, 0xFFFF),
    "U": (HEX_DIGITS, 16, 8, 0x10FFFF),
}


def digits_at(source, place, rule):
    """The value of the digits at `place`, or None where there are none, and the place after them.

    A digit that would take the value above the greatest isn't one of them.
    """
    kind, base, most, greatest = rule
    value, begin = 0, place
    while place - begin < most and value * base <= greatest:
        digit = source.at(place)
        if digit == "" or digit not in kind or value * base + int(digit, base) > greatest:
            break
        value = value * base + int(digit, base)
        place += 1
    return (None if place == begin else value), place


def character_of(value):
    """The character of a value, which has to be a Unicode scalar value."""
    if 0xD800 <= value <= 0xDFFF:
        raise ScriptFault(BAD_CHARACTER_CODE)
    return chr(value)


def escape_at(source, place):
    """What the backslash at `place` gives, and the place after its escape."""
    escaped = source.at(place + 1)
    if escaped == "":
        return "\\", place + 1
    if escaped == "\n":
        return " ", after_spaces(source, place + 2)
    if escaped in OCTAL_DIGITS:
        value, after = digits_at(source, place + 1, OCTAL_ESCAPE)
        return character_of(value), after
    if escaped in HEX_ESCAPES:
        value, after = digits_at(source, place + 2, HEX_ESCAPES[escaped])
        return (escaped if value is None else character_of(value)), after
    return LETTER_ESCAPES.get(escaped, escaped), place + 2


def after_blanks(source, place):
    """The first place at or after `place` where no blank stands; a backslash-newline is one too."""
    while True:
        if source.at(place) != "" and source.at(place) in BLANKS:
            place += 1
        elif is_escaped_newline(source, place):
            place = after_spaces(source, place + 2)
        else:
            return place


def ends_word(source, place):
    """Whether a word ends at `place`: at a blank, a newline, a semicolon or the end."""
    character = source.at(place)
    return character == "" or character in BLANKS or character in COMMAND_ENDS or is_escaped_newline(source, place)


def after_comment(source, place):
    """The place behind the comment that begins at `place`: through a newline that no backslash escapes."""
    while True:
        character = source.at(place)
        if character == "":
            return place
        if character == "\n":
            return place + 1
        if character == "\\" and source.at(place + 1) != "":
            place += 1
        place += 1


def is_expansion(source, place):
    """Whether `{*}` stands at `place` before what makes a substitution of it."""
    return (
        source.at(place + 1) == "*" and source.at(place + 2) == "}" and not ends_word(source, place + 3)
    )


def braced_word(source, place):
    """What stands between the brace at `place` and the matching one, and the place after that."""
    if is_expansion(source, place):
        raise ScriptFault(SUBSTITUTION)
    word, depth, place = [], 1, place + 1
    while True:
        character = source.at(place)
        if character == "":
            raise ScriptFault(MISSING_BRACE)
        if character == "\\":
            escaped = source.at(place + 1)
            if escaped == "\n":
                word.append(" ")
                place = after_spaces(source, place + 2)
            else:
                word.append(character + escaped)
                place += 1 + len(escaped)
            continue
        depth += {"{": 1, "}": -1}.get(character, 0)
        place += 1
        if depth == 0:
            break
        word.append(character)
    if not ends_word(source, place):
        raise ScriptFault(EXTRA_AFTER_BRACE)
    return "".join(word), place


def unit_at(source, place):
    """The character that stands at `place` outside braces, or that an escape gives, and the place after it."""
    if source.at(place) == "\\":
        return escape_at(source, place)
    if is_substitution(source, place):
        raise ScriptFault(SUBSTITUTION)
    return source.at(place), place + 1


def quoted_word(source, place):
    """What stands between the quote at `place` and the next one, and the place after that."""
    word, place = [], place + 1
    while source.at(place) != '"':
        if source.at(place) == "":
            raise ScriptFault(MISSING_QUOTE)
        character, place = unit_at(source, place)
        word.append(character)
    if not ends_word(source, place + 1):
        raise ScriptFault(EXTRA_AFTER_QUOTE)
    return "".join(word), place + 1


def units_before(ends, read_unit, source, place):
    """What `read_unit` reads from `place` up to where something ends by `ends`; and the place there."""
    characters = []
    while not ends(source, place):
        character, place = read_unit(source, place)
        characters.append(character)
    return "".join(characters), place


def bare_word(source, place):
    """The word from `place` to the next blank, newline, semicolon or the end; and the place after it."""
    return units_before(ends_word, unit_at, source, place)


def word_at(source, place):
    """The word that begins at `place`, and the place after it."""
    return {"{": braced_word, '"': quoted_word}.get(source.at(place), bare_word)(source, place)


def command_at(source, place):
    """The words of the command at `place`, perhaps none, and the place after its end."""
    words = []
    while True:
        place = after_blanks(source, place)
        character = source.at(place)
        if character == "":
            return words, place
        if character in COMMAND_ENDS:
            return words, place + 1
        if character == "#" and not words:
            return words, after_comment(source, place)
        word, place = word_at(source, place)
        words.append(word)


def reads_script(script):
    """The commands of a script, each of at least one word, and its script fault's text, or None."""
    source = Source(script)
    commands = []
    place = 0
    try:
        while source.at(place) != "":
            words, place = command_at(source, place)
            if words:
                commands.append(words)
    except ScriptFault as fault:
        return commands, fault.text
    return commands, None


# ---------------------------------------------------------------------------------------------------
# List text, both ways

LIST_SPACE = frozenset(" \t\n\r\v\f")
LIST_MARKS = frozenset('{}[]$";\\')
SPACE_SPELLINGS = {" ": "\\ ", "\t": "\\t", "\n": "\\n", "\r": "\\r", "\v": "\\v", "\f": "\\f"}


def braces_balance(text):
    """Whether never more braces are closed than opened, and as many at the end."""
    depth = 0
    for character in text:
        depth += {"{": 1, "}": -1}.get(character, 0)
        if depth < 0:
            return False
    return depth == 0


def element_text(element):
    """An element of a list: bare, in braces, or with backslashes."""
    is_plain = not (set(element) & (LIST_SPACE | LIST_MARKS))
    if element != "" and is_plain and not element.startswith("#"):
        return element
    if "\\" not in element and braces_balance(element):
        return "{" + element + "}"
    spelled = [SPACE_SPELLINGS.get(c, "\\" + c if c in LIST_MARKS else c) for c in element]
    return ("\\" if element.startswith("#") else "") + "".join(spelled)


def list_text(elements):
    """A list as text."""
    return " ".join(element_text(element) for element in elements)


def ends_element(source, place):
    return source.at(place) == "" or source.at(place) in LIST_SPACE


def list_unit_at(source, place):
    """A character of a list outside braces, or what an escape gives."""
    return escape_at(source, place) if source.at(place) == "\\" else (source.at(place), place + 1)


def braced_element(source, place):
    """What stands between the brace at `place` and the matching one, unchanged."""
    begin, depth, place = place + 1, 1, place + 1
    while depth > 0:
        character = source.at(place)
        if character == "":
            return None, place
        if character == "\\" and source.at(place + 1) != "":
            place += 1
        depth += {"{": 1, "}": -1}.get(character, 0)
        place += 1
    return (source.characters[begin : place - 1], place) if ends_element(source, place) else (None, place)


def quoted_element(source, place):
    """What stands between the quote at `place` and the next one, with escapes."""
    element, place = [], place + 1
    while source.at(place) != '"':
        if source.at(place) == "":
            return None, place
        character, place = list_unit_at(source, place)
        element.append(character)
    return ("".join(element), place + 1) if ends_element(source, place + 1) else (None, place)


def bare_element(source, place):
    """What stands up to the next white space, with escapes."""
    return units_before(ends_element, list_unit_at, source, place)


def split_list(text):
    """The list that a text spells, or None where it spells none."""
    source, place, elements = ListSource(text), 0, []
    while True:
        while source.at(place) != "" and source.at(place) in LIST_SPACE:
            place += 1
        if source.at(place) == "":
            return elements
        reader = {"{": braced_element, '"': quoted_element}.get(source.at(place), bare_element)
        try:
            element, place = reader(source, place)
        except ScriptFault:
            return None
        if element is None:
            return None
        elements.append(element)


# ---------------------------------------------------------------------------------------------------
# Documents, widgets, worlds


class Cell(NamedTuple):
    """A character with its keys.  A key is a tag's name, or the pair of `sel` and a widget's name."""

    character: str
    keys: frozenset = frozenset()


class Mark(NamedTuple):
    """A place between cells; text inserted at a right mark goes to its left."""

    offset: int
    gravity: str = "right"


@dataclass(frozen=True)
class Widget:
    """A widget: its name, its part of the document, and the two marks of its own."""

    name: str
    start: Optional[int] = None
    end: Optional[int] = None
    disabled: bool = False
    insert: Mark = Mark(0)
    current: Mark = Mark(0)


@dataclass(frozen=True)
class History:
    """Undo groups, whether the last one takes further actions, the last kind of edit, undone groups."""

    groups: tuple = ()
    is_open: bool = False
    kind: Optional[str] = None
    undone: tuple = ()


class Action(NamedTuple):
    """A text that was put in at an offset, or taken out there."""

    is_insertion: bool
    offset: int
    text: str


class Modified(NamedTuple):
    """The modified flag: a signed count of actions, and whether the flag is fixed."""

    count: int = 0
    fixed: bool = False


@dataclass(frozen=True)
class Document:
    """The cells, the last a newline, and all that the widgets of one document share."""

    cells: tuple = (Cell("\n"),)
    widgets: tuple = ()
    marks: tuple = ()
    tags: tuple = ("sel",)
    history: History = History()
    modified: Modified = Modified()
    undo: bool = False
    max_undo: int = 0
    auto_separators: bool = True


@dataclass(frozen=True)
class World:
    """Everything that a later command can see.  The documents stand in the order of their creation."""

    limits: Limits = PROGRAM_LIMITS
    documents: tuple = ()


class View(NamedTuple):
    """The part of a document that a widget shows: its cells, and the offset of the first."""

    start: int
    cells: tuple

    @property
    def end(self):
        return self.start + len(self.cells)

    @property
    def characters(self):
        return tuple(cell.character for cell in self.cells)


def view(document, widget):
    """What the widget shows, from its start anchor (else 0) to its end anchor (else the length)."""
    start = 0 if widget.start is None else widget.start
    end = len(document.cells) if widget.end is None else widget.end
    return View(start, document.cells[start:end])


# ---------------------------------------------------------------------------------------------------
# Faults of commands


class Fault(Exception):
    """Why a command is refused.  The world stays as it was."""

    def __init__(self, text):
        super().__init__(text)
        self.text = text


def bad_index(word):
    return Fault(f'bad text index "{word}"')


def no_tagged_characters(tag):
    return Fault(f'text doesn\'t contain any characters tagged with "{tag}"')


def bad_comparison(word):
    return Fault(f'bad comparison operator "{word}"')


def no_such_mark(name):
    return Fault(f'there is no mark named "{name}"')


def bad_gravity(word):
    return Fault(f'bad mark gravity "{word}"')


def no_such_tag(tag):
    return Fault(f'tag "{tag}" isn\'t defined in text widget')


def bad_list(word):
    return Fault(f'bad list "{word}"')


def index_order(first, last):
    return Fault(f'index "{last}" before "{first}" in the text')


def bad_boolean(word):
    return Fault(f'expected boolean value but got "{word}"')


def bad_integer(word):
    return Fault(f'expected integer but got "{word}"')


def line_order():
    return Fault("-startline must be less than or equal to -endline")


def nothing_to_undo():
    return Fault("nothing to undo")


def nothing_to_redo():
    return Fault("nothing to redo")


def bad_option(word):
    return Fault(f'bad option "{word}"')


def wrong_arguments():
    return Fault("wrong # args")


def invalid_command_name(word):
    return Fault(f'invalid command name "{word}"')


def window_exists(word):
    return Fault(f'window name "{word}" already exists')


def too_many_widgets():
    return Fault("too many widgets")


def too_many_tags():
    return Fault("too many tags")


def too_many_marks():
    return Fault("too many marks")


def text_too_long():
    return Fault("text is too long")


def memory():
    return Fault("out of memory")


# ---------------------------------------------------------------------------------------------------
# The index grammar: which texts are which index, given the names of marks and tags


class LineCharacter(NamedTuple):
    """The base `line.char`."""

    line: int
    character: int


class LineEnd(NamedTuple):
    """The base `line.end`."""

    line: int


class End(NamedTuple):
    """The base `end`."""


class MarkName(NamedTuple):
    """The base that is a mark's name."""

    name: str


class FirstTagged(NamedTuple):
    """The base that is a tag's name with `.first`."""

    tag: str


class LastTagged(NamedTuple):
    """The base that is a tag's name with `.last`."""

    tag: str


class Move(NamedTuple):
    """A modifier that goes on, or back, by a count of `chars` or `lines`."""

    is_forward: bool
    count: int
    unit: str


class Keyword(NamedTuple):
    """A modifier that is a word, spelled out."""

    word: str


class Index(NamedTuple):
    """A base and the modifiers after it, from left to right."""

    base: NamedTuple
    modifiers: tuple = ()


# What stands before this is closed: the text ends there, or a blank, `+` or `-` follows.
CLOSED = r"(?![^ \t+-])"
LINE_FORM = re.compile(r"([0-9]+)\.([0-9]+|end)" + CLOSED)
END_FORM = re.compile("end" + CLOSED)
COUNT_FORM = re.compile(r"[ \t]*([+-])[ \t]*([0-9]+)[ \t]*(?:any[ \t]+)?([^ \t+-]+)")
KEYWORD_FORM = re.compile(r"[ \t]*([^ \t+-]+)")

# Each unit with what it counts, and each keyword with its shortest spelling.
UNITS = {"chars": "chars", "indices": "chars", "lines": "lines"}
KEYWORDS = {"linestart": "lines", "lineend": "linee", "wordstart": "words", "wordend": "worde"}

# The two marks that each widget has of its own.
OWN_MARKS = ("insert", "current")


def is_closed(text, place):
    """Whether what stands before `place` is closed: the text ends there, or a blank, `+` or `-` follows."""
    return place == len(text) or text[place] in " \t+-"


def longest_front(text, names):
    """The longest of the names that begins the text and is closed, or None."""
    fronts = [name for name in names if text.startswith(name) and is_closed(text, len(name))]
    return max(fronts, key=len, default=None)


def place_base(text):
    """The base `line.char`, `line.end` or `end` that begins the text, and the place after it, or None."""
    if END_FORM.match(text):
        return End(), len("end")
    match = LINE_FORM.match(text)
    if match is None:
        return None
    line, place = match.groups()
    base = LineEnd(int(line)) if place == "end" else LineCharacter(int(line), int(place))
    return base, match.end()


def mark_base(text, marks):
    """The longest name of a mark that begins the text, and the place after it, or None."""
    name = longest_front(text, marks)
    return None if name is None else (MarkName(name), len(name))


def tag_base(text, tags):
    """The longest name of a tag that begins the text before `.first` or `.last`, and the place after that, or None."""
    spelled = {tag + ".first": FirstTagged(tag) for tag in tags} | {tag + ".last": LastTagged(tag) for tag in tags}
    front = longest_front(text, spelled)
    return None if front is None else (spelled[front], len(front))


def unit_of(word):
    """What a word counts: it is a unit that is spelled out, or the first letters of one."""
    return next((kind for unit, kind in UNITS.items() if unit.startswith(word)), None)


def keyword_of(word):
    """The keyword that a word abbreviates, or None."""
    return next(
        (whole for whole, least in KEYWORDS.items() if word.startswith(least) and whole.startswith(word)), None
    )


def modifier_at(text, place):
    """The modifier at `place` and the place after it, or None."""
    match = COUNT_FORM.match(text, place)
    if match is not None:
        sign, count, word = match.groups()
        unit = unit_of(word)
        return None if unit is None else (Move(sign == "+", int(count), unit), match.end())
    match = KEYWORD_FORM.match(text, place)
    word = None if match is None else keyword_of(match.group(1))
    return None if word is None else (Keyword(word), match.end())


def modifiers_from(text, place):
    """The modifiers from `place` to the end, blanks aside, or None."""
    modifiers = []
    while text[place:].strip(" \t") != "":
        found = modifier_at(text, place)
        if found is None:
            return None
        modifier, place = found
        modifiers.append(modifier)
    return tuple(modifiers)


def reads_index(text, marks, tags):
    """The index that a text spells, or None.

    The base is the first that fits of a place, the longest mark and the longest tag, and never another one.
    """
    found = place_base(text) or mark_base(text, marks) or tag_base(text, tags)
    if found is None:
        return None
    base, place = found
    modifiers = modifiers_from(text, place)
    return None if modifiers is None else Index(base, modifiers)


# ---------------------------------------------------------------------------------------------------
# The value of an index, and a place as text


def newlines(characters):
    """The places of the newlines, the first one first."""
    return [place for place, character in enumerate(characters) if character == "\n"]


def line_begin(line, characters):
    """Where a line begins; lines count from 0 here, and the line behind the last begins at the end."""
    return 0 if line == 0 else newlines(characters)[line - 1] + 1


def in_line(line, character, characters):
    """The place of a character of a line; of the line's newline where `character` is None or past it."""
    newline = newlines(characters)[line]
    return newline if character is None else min(line_begin(line, characters) + character, newline)


def line_and_column(place, characters):
    """The line of a place, and how many characters stand before the place in it."""
    line = len(newlines(characters[:place]))
    return line, place - line_begin(line, characters)


def line_place(line, character, characters):
    """The place of a character of a line that counts from 1; of the line's newline where `character` is None.

    Line 0 stands for the first place, a line past the last one for the end, and a character past the
    newline for the newline.
    """
    if line == 0:
        return 0
    if line > len(newlines(characters)):
        return len(characters)
    return in_line(line - 1, character, characters)


def tag_ranges(flags):
    """The ranges of a tag, from first to last: the maximal runs of places whose flag is set, each with its end."""
    ranges = []
    for place, flag in enumerate(flags):
        if flag and ranges and ranges[-1][1] == place:
            ranges[-1] = (ranges[-1][0], place + 1)
        elif flag:
            ranges.append((place, place + 1))
    return ranges


def key_of(tag, widget):
    """The key of a tag where the widget acts; `sel` is its own."""
    return ("sel", widget.name) if tag == "sel" else tag


def shown_ranges(tag, shown, widget):
    """The ranges of a tag in what the widget shows."""
    key = key_of(tag, widget)
    return tag_ranges([key in cell.keys for cell in shown.cells])


def mark_place(name, shown, document, widget):
    """Where the widget shows a mark: its own two within its characters; None for a shared one outside its view."""
    if name in OWN_MARKS:
        offset = getattr(widget, name).offset
        return max(shown.start, min(offset, shown.end - 1)) - shown.start
    offset = dict(document.marks)[name].offset
    return offset - shown.start if shown.start <= offset <= shown.end else None


def base_value(base, shown, document, widget):
    """The place that a base stands for, or None for a mark that the widget can't use."""
    if isinstance(base, LineCharacter):
        return line_place(base.line, base.character, shown.characters)
    if isinstance(base, LineEnd):
        return line_place(base.line, None, shown.characters)
    if isinstance(base, MarkName):
        return mark_place(base.name, shown, document, widget)
    if isinstance(base, (FirstTagged, LastTagged)):
        ranges = shown_ranges(base.tag, shown, widget)
        if not ranges:
            raise no_tagged_characters(base.tag)
        return ranges[0][0] if isinstance(base, FirstTagged) else ranges[-1][1]
    return len(shown.characters)


def lines_on(place, count, characters):
    """The same character so many lines on, or on the last line; the end stays."""
    if place == len(characters):
        return place
    line, column = line_and_column(place, characters)
    return in_line(min(line + count, len(newlines(characters)) - 1), column, characters)


def lines_back(place, count, characters):
    """The same character so many lines back, or on the first line; the end is on a line behind the last."""
    line, column = line_and_column(place, characters)
    line = max(line - count, 0)
    return len(characters) if line == len(newlines(characters)) else in_line(line, column, characters)


def is_word_character(character):
    """A letter or a decimal digit of any script, or an underscore."""
    category = unicodedata.category(character)
    return category.startswith("L") or category == "Nd" or character == "_"


def word_of(place, characters):
    """Where the word of a place begins and ends: a maximal run of word characters, or one other character."""
    begin, end = place, place + 1
    if is_word_character(characters[place]):
        while begin > 0 and is_word_character(characters[begin - 1]):
            begin -= 1
        while end < len(characters) and is_word_character(characters[end]):
            end += 1
    return begin, end


def keyword_place(word, place, characters):
    """Where a keyword leads from a place.  The end stays, and `wordend` leaves the last place too."""
    if place == len(characters) or (word == "wordend" and place == len(characters) - 1):
        return place
    line, _ = line_and_column(place, characters)
    return {
        "linestart": lambda: line_begin(line, characters),
        "lineend": lambda: in_line(line, None, characters),
        "wordstart": lambda: word_of(place, characters)[0],
        "wordend": lambda: word_of(place, characters)[1],
    }[word]()


def modified(place, modifier, characters):
    """Where a modifier leads from a place."""
    if isinstance(modifier, Keyword):
        return keyword_place(modifier.word, place, characters)
    if modifier.unit == "lines":
        return (lines_on if modifier.is_forward else lines_back)(place, modifier.count, characters)
    return min(place + modifier.count, len(characters)) if modifier.is_forward else max(place - modifier.count, 0)


def index_value(index, shown, document, widget):
    """The place that an index stands for, from 0 to the number of characters of the view, or None."""
    place = base_value(index.base, shown, document, widget)
    if place is None:
        return None
    for modifier in index.modifiers:
        place = modified(place, modifier, shown.characters)
    return place


def position_text(place, shown):
    """A place of a view as `line.char`: 1 more than the newlines before it, and the cells since."""
    before = "".join(shown.characters[:place])
    return f"{before.count(chr(10)) + 1}.{place - (before.rfind(chr(10)) + 1)}"


def mark_names(document):
    """The names of all marks: the widget's own two, then the shared ones by their creation."""
    return OWN_MARKS + tuple(name for name, _ in document.marks)


def argument_place(word, document, widget):
    """The place that an argument word stands for, or the fault that it isn't an index or has no place."""
    index = reads_index(word, mark_names(document), document.tags)
    place = None if index is None else index_value(index, view(document, widget), document, widget)
    if place is None:
        raise bad_index(word)
    return place


# ---------------------------------------------------------------------------------------------------
# Insertion


def shared_keys(cells, offset):
    """The keys that stand on both neighbours of an offset; none at the text's beginning."""
    if offset == 0:
        return frozenset()
    return cells[offset - 1].keys & cells[offset].keys


def inserted_cells(cells, offset, new_cells):
    """The cells with the new ones put in before the cell at `offset`."""
    return cells[:offset] + new_cells + cells[offset:]


def moved_mark(mark, offset, count):
    """A mark after `count` cells came in at `offset`: it moves if it is above, or there and right."""
    if mark.offset > offset or (mark.offset == offset and mark.gravity == "right"):
        return mark._replace(offset=mark.offset + count)
    return mark


def moved_anchor(anchor, offset, count):
    """An anchor after `count` cells came in at `offset`: it moves only if it is above."""
    if anchor is not None and anchor > offset:
        return anchor + count
    return anchor


def moved_widget(widget, offset, count):
    """A widget after `count` cells came in at `offset`."""
    return replace(
        widget,
        start=moved_anchor(widget.start, offset, count),
        end=moved_anchor(widget.end, offset, count),
        insert=moved_mark(widget.insert, offset, count),
        current=moved_mark(widget.current, offset, count),
    )


def inserted(document, offset, text, keys):
    """The document after a text went in at an offset, each character with these keys."""
    if text == "":
        return document
    new_cells = tuple(Cell(character, keys) for character in text)
    count = len(text)
    return replace(
        document,
        cells=inserted_cells(document.cells, offset, new_cells),
        widgets=tuple(moved_widget(widget, offset, count) for widget in document.widgets),
        marks=tuple((name, moved_mark(mark, offset, count)) for name, mark in document.marks),
    )


class TaggedText(NamedTuple):
    """A text to be put in, with the tags of its list; None where it has no list."""

    text: str
    tags: Optional[tuple]


def inserted_texts(document, widget, offset, pieces):
    """The document after the pieces went in, each right behind the one before it.

    A text with a list has the tags of the list and no others; one without has those that stand on both of its neighbours.
    """
    for piece in pieces:
        if piece.tags is None:
            keys = shared_keys(document.cells, offset)
        else:
            keys = frozenset(key_of(tag, widget) for tag in piece.tags)
        document = inserted(document, offset, piece.text, keys)
        offset += len(piece.text)
    return document


def insertion_place(place, shown):
    """Where an insertion at a place goes: at the end, just before the view's last newline."""
    return min(place, len(shown.characters) - 1)


# ---------------------------------------------------------------------------------------------------
# Removal


def drawn_mark(mark, first, last):
    """A mark after a span was taken out: it stands behind the kept cells that it stood behind."""
    kept = [offset for offset in range(mark.offset) if not first <= offset < last]
    return mark._replace(offset=len(kept))


def drawn_start(start, first, last, line):
    """A start anchor after a span was taken out: from inside the span it goes to where the span's line begins."""
    if start is None or start <= first:
        return start
    return line if start <= last else start - (last - first)


def drawn_end(end, first, last, stop):
    """An end anchor after a span was taken out: from inside the span it goes to `stop`."""
    if end is None or end <= first:
        return end
    return stop if end <= last else end - (last - first)


def line_start_at(offset, characters):
    """Where the line of an offset begins."""
    return line_begin(len(newlines(characters[:offset])), characters)


def next_line_start(offset, characters):
    """Where the line behind that of an offset begins; the length where there is none."""
    return next((place + 1 for place in newlines(characters) if place >= offset), len(characters))


def drawn_widget(widget, first, last, characters):
    """A widget after a span was taken out, which left these characters.

    An end anchor in the span goes to the next line where the widget began at the span or before it and the span
    didn't begin with its line; else to the beginning of the span's line.
    """
    line = line_start_at(first, characters)
    keeps_line = (widget.start or 0) <= first and first != line
    stop = next_line_start(first, characters) if keeps_line else line
    return replace(
        widget,
        start=drawn_start(widget.start, first, last, line),
        end=drawn_end(widget.end, first, last, stop),
        insert=drawn_mark(widget.insert, first, last),
        current=drawn_mark(widget.current, first, last),
    )


def removed(document, first, last):
    """The document without the cells of a span, of which the last newline is none."""
    if first == last:
        return document
    cells = document.cells[:first] + document.cells[last:]
    characters = tuple(cell.character for cell in cells)
    return replace(
        document,
        cells=cells,
        widgets=tuple(drawn_widget(widget, first, last, characters) for widget in document.widgets),
        marks=tuple((name, drawn_mark(mark, first, last)) for name, mark in document.marks),
    )


def runs(offsets):
    """The maximal runs of a set of offsets, from first to last, each with its end."""
    return tag_ranges([offset in offsets for offset in range(max(offsets, default=-1) + 1)])


def delete_set(spans, shown):
    """The offsets that a deletion takes: those of the spans, but never the last one that is shown.

    Where that one is in a span and the run that it ends begins with a line, and not with the view, the newline before
    that line goes in its place.
    """
    offsets = {offset for first, last in spans for offset in range(first, last)}
    if shown.end - 1 not in offsets:
        return offsets
    begin, _ = runs(offsets)[-1]
    if begin > shown.start and shown.characters[begin - 1 - shown.start] == "\n":
        offsets = offsets | {begin - 1}
    return offsets - {shown.end - 1}


def bared(document, offset):
    """The document after one cell lost all its keys, those of every widget's `sel` too."""
    return retagged(document, [(offset, offset + 1)], lambda keys: frozenset())


def deleted(document, spans, shown):
    """The document after spans of a view were deleted: its last cell loses its keys if it is in one, and stays."""
    newline = shown.end - 1
    if any(first <= newline < last for first, last in spans):
        document = bared(document, newline)
    for first, last in reversed(runs(delete_set(spans, shown))):
        document = removed(document, first, last)
    return document


def clipped_mark(mark, old, first, last, length):
    """A mark after a span was replaced by texts of a length, where it was the mark `old` before.

    One that stood in the span ends as many cells behind its start as it did, or at the end of the texts.
    """
    if not first <= old.offset < last:
        return mark
    return mark._replace(offset=first + min(old.offset - first, length))


def replaced(document, widget, first, last, pieces):
    """The document after a span went and the pieces came in at its start; the widget's `insert` isn't drawn along."""
    changed = inserted_texts(removed(document, first, last), widget, first, pieces)
    length = sum(len(piece.text) for piece in pieces)
    mark = clipped_mark(widget_named(changed, widget.name).insert, widget.insert, first, last, length)
    return with_mark(changed, widget_named(changed, widget.name), "insert", mark)


# ---------------------------------------------------------------------------------------------------
# Tags: their names from the lowest priority to the highest, and the cells that have them


def new_names(tags, names):
    """Those of the names that no tag has, each once, in the order in which they are met."""
    return tuple(dict.fromkeys(name for name in names if name not in tags))


def with_names(document, names, limits):
    """The document with a tag for each of the names: a new one goes above all others.  All or none are made."""
    created = new_names(document.tags, names)
    if len(document.tags) - 1 + len(created) > limits.tags:
        raise too_many_tags()
    return replace(document, tags=document.tags + created)


def moved_name(tags, tag, place):
    """The tags with one of them taken out and put in at a place among the others."""
    others = tuple(name for name in tags if name != tag)
    return others[:place] + (tag,) + others[place:]


def place_beside(tags, tag, other, step):
    """The place among the others right behind a tag, for a step of 1, or right before it, for 0."""
    return tuple(name for name in tags if name != tag).index(other) + step


def retagged(document, spans, change):
    """The document after the keys of each cell in a span became what `change` makes of them."""
    cells = tuple(
        cell._replace(keys=change(cell.keys)) if any(first <= offset < last for first, last in spans) else cell
        for offset, cell in enumerate(document.cells)
    )
    return replace(document, cells=cells)


def without_tags(document, tags):
    """The document without some tags, of which none is `sel`: no cell has them, and their names are gone."""
    cells = tuple(cell._replace(keys=cell.keys - tags) for cell in document.cells)
    return replace(document, cells=cells, tags=tuple(name for name in document.tags if name not in tags))


# ---------------------------------------------------------------------------------------------------
# Marks: where they stand, and the order of those that a widget can use

GRAVITIES = ("left", "right")


def widget_named(document, name):
    """The widget of a name as it stands in a document."""
    return next(widget for widget in document.widgets if widget.name == name)


def with_widget(document, old, new):
    """The document with one widget exchanged."""
    return replace(document, widgets=tuple(new if widget is old else widget for widget in document.widgets))


def named_mark(document, widget, name):
    """The mark of a name, the widget's own or a shared one, or None."""
    return getattr(widget, name) if name in OWN_MARKS else dict(document.marks).get(name)


def with_mark(document, widget, name, mark):
    """The document with the mark of a name exchanged; a shared mark that is new comes last."""
    if name in OWN_MARKS:
        return with_widget(document, widget, replace(widget, **{name: mark}))
    return replace(document, marks=tuple((dict(document.marks) | {name: mark}).items()))


def usable_marks(document, widget):
    """The names of the marks that the widget can use, each with its place, in the order of marks.

    They go by their places, and at one place `insert` and `current` come before the shared ones by their creation.
    """
    shown = view(document, widget)
    places = [(name, mark_place(name, shown, document, widget)) for name in mark_names(document)]
    return sorted([(name, place) for name, place in places if place is not None], key=lambda each: each[1])


def mark_walk(word, document, widget):
    """The usable marks before a word and those behind it.

    The word is whole the name of a mark, which then stands between the two; or an index, at whose place the second begin.
    """
    marks = usable_marks(document, widget)
    if word in mark_names(document):
        at = next((number for number, (name, _) in enumerate(marks) if name == word), None)
        if at is None:
            raise bad_index(word)
        return marks[:at], marks[at + 1 :]
    place = argument_place(word, document, widget)
    return [each for each in marks if each[1] < place], [each for each in marks if each[1] >= place]


# ---------------------------------------------------------------------------------------------------
# The history of edits, and whether the text is modified

LEAST_COUNT, GREATEST_COUNT = -(2**63), 2**63 - 1


def counted(modified, step):
    """The modified state after an action was made again, for a step of 1, or reverted, for -1."""
    count = modified.count + step
    return modified._replace(count=count) if LEAST_COUNT <= count <= GREATEST_COUNT else modified._replace(fixed=True)


def counted_new(modified):
    """The modified state after a new action: below 0 the text as it was can't come back, so the flag is fixed."""
    return modified._replace(fixed=True) if modified.count < 0 else counted(modified, 1)


def newest(groups, limit):
    """The groups without the oldest ones past the limit; 0 and less is none."""
    return groups[-limit:] if limit > 0 else groups


def closed(history):
    """The history whose last group takes no more actions."""
    return replace(history, is_open=False, kind=None)


def history_with(history, kind, actions, document):
    """The history after the actions of one edit: they join the last group, or make one."""
    parts = document.auto_separators and history.kind is not None and history.kind != kind
    if history.is_open and not parts:
        groups = history.groups[:-1] + (history.groups[-1] + actions,)
    else:
        groups = history.groups + (actions,)
    return History(groups=newest(groups, document.max_undo), is_open=True, kind=kind)


def noted(document, kind, actions):
    """The document after it is noted that an edit of a kind made these actions; an edit that made none leaves no trace."""
    if not actions:
        return document
    for _ in actions:
        document = replace(document, modified=counted_new(document.modified))
    if not document.undo:
        return document
    return replace(document, history=history_with(document.history, kind, tuple(actions), document))


def insertions(offset, pieces):
    """The actions of pieces that go in, each right behind the one before it; an empty text is none."""
    actions = []
    for piece in pieces:
        if piece.text != "":
            actions.append(Action(True, offset, piece.text))
        offset += len(piece.text)
    return actions


def removals(document, spans):
    """The actions of spans that go, the last one first; an empty span is none."""
    texts = [(first, "".join(cell.character for cell in document.cells[first:last])) for first, last in reversed(spans)]
    return [Action(False, first, text) for first, text in texts if text != ""]


def reverse(action):
    """The action that takes another one back."""
    return action._replace(is_insertion=not action.is_insertion)


def made(document, action):
    """The document after an action; a text comes in as one without a tag list."""
    if action.is_insertion:
        return inserted(document, action.offset, action.text, shared_keys(document.cells, action.offset))
    return removed(document, action.offset, action.offset + len(action.text))


def place_behind(action):
    """Where an action leaves `insert`: behind what it put in, or where it took something out."""
    return action.offset + (len(action.text) if action.is_insertion else 0)


def all_made(document, widget, actions, step):
    """The document after some actions; each counts, and `insert` of the acting widget stands where the last one was."""
    for action in actions:
        document = replace(made(document, action), modified=counted(document.modified, step))
    acting = widget_named(document, widget.name)
    return with_mark(document, acting, "insert", acting.insert._replace(offset=place_behind(actions[-1])))


def undone(document, widget):
    """The document after the last group was reverted, its last action first."""
    *groups, group = document.history.groups
    changed = all_made(document, widget, [reverse(action) for action in reversed(group)], -1)
    return replace(changed, history=History(groups=tuple(groups), undone=(group,) + document.history.undone))


def redone(document, widget):
    """The document after the group that was undone last was made again, its first action first."""
    group, *rest = document.history.undone
    changed = all_made(document, widget, group, 1)
    groups = newest(document.history.groups + (group,), document.max_undo)
    return replace(changed, history=History(groups=groups, undone=tuple(rest)))


# ---------------------------------------------------------------------------------------------------
# Search: which places are looked at, in which order, and where the pattern stands

# What maps by itself to one character by newer rules, and to several by those that Python knows.
NEWER_FOLDS = {"\u1fd3": "\u0390", "\u1fe3": "\u03b0", "\ufb05": "\ufb06"}


def simple_fold(character):
    """The one character that stands for a character where case doesn't matter."""
    if character in NEWER_FOLDS:
        return NEWER_FOLDS[character]
    return next((fold for fold in (character.casefold(), character.lower()) if len(fold) == 1), character)


class Search(NamedTuple):
    """A search: the pattern, where it begins, where it stops (None: it goes round the end), and how it goes."""

    pattern: str
    begin: int
    stop: Optional[int]
    is_backward: bool = False
    ignores_case: bool = False
    is_strict: bool = False


def candidates(search, length):
    """The places at which a match may begin, in the order in which they are looked at."""
    if search.is_backward:
        before, behind = range(search.begin - 1, -1, -1), range(length - 1, search.begin - 1, -1)
        return [*before, *behind] if search.stop is None else list(range(search.begin - 1, search.stop - 1, -1))
    behind, before = range(search.begin, length), range(search.begin)
    return [*behind, *before] if search.stop is None else list(range(search.begin, search.stop))


def match_limit(search, length):
    """The place behind which no match may end."""
    if search.stop is None or not search.is_strict:
        return length
    return search.begin if search.is_backward else search.stop


def matches(search, characters):
    """The places at which the pattern stands, in the order of the search."""
    fold = simple_fold if search.ignores_case else str
    wanted, text = [fold(c) for c in search.pattern], [fold(c) for c in characters]
    limit = match_limit(search, len(text))
    return [
        place for place in candidates(search, len(text))
        if place + len(wanted) <= limit and text[place : place + len(wanted)] == wanted
    ]


def apart(places, length):
    """The places without each whose match shares a character with one that is listed before it."""
    listed, taken = [], set()
    for place in places:
        covered = set(range(place, place + length))
        if not covered & taken:
            listed.append(place)
            taken |= covered
    return listed


# ---------------------------------------------------------------------------------------------------
# Dump: what stands at each place


class Element(NamedTuple):
    """What a dump says of a place: that a tag begins or ends there, that a mark or a text stands there."""

    key: str
    value: str
    place: int


def seen_ranges(document, widget):
    """The ranges that the widget shows, each with its tag, from the lowest tag to the highest."""
    shown = view(document, widget)
    return [(tag, each) for tag in document.tags for each in shown_ranges(tag, shown, widget)]


def elements_between(ranges, marks, place):
    """What stands at a place before its character: ends of ranges, their beginnings, and marks."""
    return (
        [Element("tagoff", tag, place) for tag, (_, end) in ranges if end == place]
        + [Element("tagon", tag, place) for tag, (begin, _) in ranges if begin == place]
        + [Element("mark", name, place) for name, at in marks if at == place]
    )


def texts_between(first, last, cuts, characters):
    """The texts from one place to another, cut at some places: each by where it begins."""
    begins = sorted({first} | {cut for cut in cuts if first < cut < last})
    return {begin: "".join(characters[begin:end]) for begin, end in zip(begins, begins[1:] + [last])}


def dumped(document, widget, first, last):
    """All elements from one place to another; at the view's end, what stands there before no character.

    A text is cut where a line or a range begins, where a range ends, and where a mark stands.
    """
    characters = view(document, widget).characters
    ranges, marks = seen_ranges(document, widget), usable_marks(document, widget)
    cuts = [place + 1 for place in newlines(characters)] + [place for _, each in ranges for place in each] + [place for _, place in marks]
    texts = texts_between(first, last, cuts, characters)
    elements = []
    for place in range(first, last + 1 if last == len(characters) else last):
        elements += elements_between(ranges, marks, place)
        if place < last and place in texts:
            elements.append(Element("text", texts[place], place))
    return elements


# ---------------------------------------------------------------------------------------------------
# Options of a widget and of its document

BOOLEANS = {"1": True, "true": True, "yes": True, "on": True, "0": False, "false": False, "no": False, "off": False}
INTEGER_FORM = re.compile(r"[+-]?[0-9]{1,9}")


def boolean_of(word):
    """The boolean that a word spells."""
    if word not in BOOLEANS:
        raise bad_boolean(word)
    return BOOLEANS[word]


def integer_of(word):
    """The integer that a word spells: perhaps a sign, and one to nine digits."""
    if INTEGER_FORM.fullmatch(word) is None:
        raise bad_integer(word)
    return int(word)


def is_disabled_of(word):
    """Whether a word for a state says that the widget is disabled."""
    if word not in ("normal", "disabled"):
        raise bad_option(word)
    return word == "disabled"


def line_of(word):
    """The line that a word names, from 1 on, or None for the empty text."""
    if word == "":
        return None
    if integer_of(word) < 1:
        raise bad_integer(word)
    return int(word)


def start_anchor(line, characters):
    """Where the view of a widget begins whose first line this is; behind the last line, the length."""
    return None if line is None else line_begin(min(line - 1, len(newlines(characters))), characters)


def end_anchor(line, characters):
    """Where the view of a widget ends that ends before this line; behind the last line there is no anchor."""
    return None if line is None or line > len(newlines(characters)) else line_begin(line - 1, characters)


def anchor_text(anchor, document):
    """An anchor as a line's number, or the empty text."""
    characters = [cell.character for cell in document.cells]
    return "" if anchor is None else str(1 + len(newlines(characters[:anchor])))


class Option(NamedTuple):
    """An option: how a word for its value is read, and how its value is printed."""

    read: callable
    text: callable


OPTIONS = {
    "-undo": Option(boolean_of, lambda document, widget: str(int(document.undo))),
    "-maxundo": Option(integer_of, lambda document, widget: str(document.max_undo)),
    "-autoseparators": Option(boolean_of, lambda document, widget: str(int(document.auto_separators))),
    "-state": Option(is_disabled_of, lambda document, widget: "disabled" if widget.disabled else "normal"),
    "-startline": Option(line_of, lambda document, widget: anchor_text(widget.start, document)),
    "-endline": Option(line_of, lambda document, widget: anchor_text(widget.end, document)),
}


def settings_of(words):
    """The value of each option that is given, where each word for one is read, and the last one counts."""
    return {name: OPTIONS[name].read(word) for name, word in zip(words[0::2], words[1::2])}


def with_settings(document, widget, settings):
    """A widget with the values of some options of its own; its view may not end before it begins."""
    characters = [cell.character for cell in document.cells]
    start = start_anchor(settings["-startline"], characters) if "-startline" in settings else widget.start
    end = end_anchor(settings["-endline"], characters) if "-endline" in settings else widget.end
    if start is not None and end is not None and start > end:
        raise line_order()
    return replace(widget, start=start, end=end, disabled=settings.get("-state", widget.disabled))


def configured(document, widget, settings):
    """The document with the values of some options; `-undo` set to false takes the history away."""
    changed = with_settings(document, widget, settings)
    history = History() if settings.get("-undo") is False else document.history
    limit = settings.get("-maxundo", document.max_undo)
    document = replace(
        document,
        undo=settings.get("-undo", document.undo),
        max_undo=limit,
        auto_separators=settings.get("-autoseparators", document.auto_separators),
        history=replace(history, groups=newest(history.groups, limit)),
    )
    return with_widget(document, widget, changed)


# ---------------------------------------------------------------------------------------------------
# One command.  Faults are decided in this order: the first word; the subcommand or option words; the
# number of words; the arguments from left to right; the order of places; an empty history; a name that is taken; the limits.


def find_widget(world, name):
    """The document and the widget of a name, or None."""
    for document in world.documents:
        for widget in document.widgets:
            if widget.name == name:
                return document, widget
    return None


def with_document(world, old, new):
    """The world with one document exchanged."""
    return replace(
        world,
        documents=tuple(new if document is old else document for document in world.documents),
    )


def is_window_name(word):
    """A window's name is a dot and at least one more character."""
    return len(word) >= 2 and word[0] == "."


def count_widgets(world):
    """How many widgets there are."""
    return sum(len(document.widgets) for document in world.documents)


def with_new_widget(document, widget, settings):
    """The document with one widget more, last, which has these options; its own marks stand where its view begins."""
    document = configured(replace(document, widgets=document.widgets + (widget,)), widget, settings)
    *others, widget = document.widgets
    mark = Mark(view(document, widget).start)
    return replace(document, widgets=(*others, replace(widget, insert=mark, current=mark)))


class Options(NamedTuple):
    """Where options stand among arguments: behind so many, and whether each has a value and others may follow."""

    behind: int
    are_valued: bool

    def stands_at(self, place):
        """Whether an option stands at a place."""
        return place >= self.behind and (place - self.behind) % 2 == 0 if self.are_valued else place == self.behind

    def are_whole(self, count):
        """Whether of so many arguments the ones before the options are there, and each option has its value."""
        return count >= self.behind and (not self.are_valued or (count - self.behind) % 2 == 0)


def check_options(options, arguments):
    """The words in the places of options have to be options.  This comes before the number of words."""
    for place, word in enumerate(arguments):
        if options.stands_at(place) and word not in OPTIONS:
            raise bad_option(word)


class Switches(NamedTuple):
    """The names of switches, in front of all arguments: whether a name may be abbreviated.  `--` ends them where it is one."""

    names: tuple
    are_abbreviated: bool

    def whole(self, word):
        """The switch that a word names, or the fault that it is none."""
        found = [name for name in self.names if name == word or self.are_abbreviated and name.startswith(word)]
        if len(found) != 1:
            raise bad_option(word)
        return found[0]


def split_switches(switches, words):
    """The switches at the front of some words, each by its whole name, and the words behind them."""
    count = 0
    while count < len(words) and words[count].startswith("-"):
        count += 1
        if words[count - 1] == "--" and "--" in switches.names:
            break
    return [switches.whole(word) for word in words[:count]], words[count:]


TEXT_OPTIONS = Options(1, True)


def text_command(world, words):
    """`text W ?option value ..?`: a new document with one widget.  The answer is W."""
    arguments = words[1:]
    check_options(TEXT_OPTIONS, arguments)
    if not TEXT_OPTIONS.are_whole(len(arguments)):
        raise wrong_arguments()
    name = arguments[0]
    if not is_window_name(name):
        raise invalid_command_name(name)
    document = with_new_widget(Document(), Widget(name), settings_of(arguments[1:]))
    if find_widget(world, name) is not None:
        raise window_exists(name)
    if count_widgets(world) >= world.limits.widgets:
        raise too_many_widgets()
    return replace(world, documents=world.documents + (document,)), name


def without_widgets(document, names):
    """The document without some widgets, and without the keys of their selections."""
    keys = {key_of("sel", widget) for widget in document.widgets if widget.name in names}
    cells = tuple(cell._replace(keys=cell.keys - keys) for cell in document.cells)
    widgets = tuple(widget for widget in document.widgets if widget.name not in names)
    return replace(document, cells=cells, widgets=widgets)


def destroy_command(world, words):
    """`destroy ?W ..?`: takes widgets away, and each document whose last one goes.  Other names are skipped."""
    documents = [without_widgets(document, words[1:]) for document in world.documents]
    return replace(world, documents=tuple(document for document in documents if document.widgets)), ""


def peer_create_command(world, document, widget, arguments):
    """`W peer create V ?option value ..?`: a further widget, which begins with W's anchors.  The answer is V."""
    name = arguments[0]
    if not is_window_name(name):
        raise invalid_command_name(name)
    changed = with_new_widget(document, Widget(name, widget.start, widget.end), settings_of(arguments[1:]))
    if find_widget(world, name) is not None:
        raise window_exists(name)
    if count_widgets(world) >= world.limits.widgets:
        raise too_many_widgets()
    return with_document(world, document, changed), name


def peer_names_command(world, document, widget, arguments):
    """`W peer names`: the other widgets of the document, by their creation."""
    return world, list_text([other.name for other in document.widgets if other is not widget])


def list_of(word):
    """The list that an argument word spells."""
    elements = split_list(word)
    if elements is None:
        raise bad_list(word)
    return tuple(elements)


def texts_of(words):
    """The pieces of the words `chars ?tagList chars ..?`, of which the last list may be left out."""
    lists = [list_of(word) for word in words[1::2]]
    return [TaggedText(text, lists[number] if number < len(lists) else None) for number, text in enumerate(words[0::2])]


def with_text_tags(world, document, pieces):
    """The document with the new tags of all pieces, in the order in which they are first named."""
    return with_names(document, [tag for piece in pieces for tag in piece.tags or ()], world.limits)


def check_length(world, document, more):
    """The document with so many cells more, or fewer, may not pass the limit."""
    if len(document.cells) + more > world.limits.characters:
        raise text_too_long()


def is_idle(document, widget):
    """Whether commands that edit through this widget do nothing: it is disabled, or shows nothing."""
    return widget.disabled or not view(document, widget).cells


def insert_command(world, document, widget, arguments):
    """`W insert I chars ?tagList chars ..?`: puts the texts in at I, and makes the new tags.  The answer is empty."""
    shown = view(document, widget)
    place = argument_place(arguments[0], document, widget)
    pieces = texts_of(arguments[1:])
    if is_idle(document, widget):
        return world, ""
    named = with_text_tags(world, document, pieces)
    check_length(world, document, sum(len(piece.text) for piece in pieces))
    offset = shown.start + insertion_place(place, shown)
    changed = noted(inserted_texts(named, widget, offset, pieces), "insert", insertions(offset, pieces))
    return with_document(world, document, changed), ""


def delete_command(world, document, widget, arguments):
    """`W delete I ?I ..?`: takes out what the ranges hold, as one set of characters.  The answer is empty."""
    shown = view(document, widget)
    spans = offsets_of(pairs_of(arguments, document, widget), shown)
    if is_idle(document, widget):
        return world, ""
    actions = removals(document, runs(delete_set(spans, shown)))
    return with_document(world, document, noted(deleted(document, spans, shown), "delete", actions)), ""


def replace_command(world, document, widget, arguments):
    """`W replace A B chars ?tagList chars ..?`: puts the texts in place of what stands from A to before B.

    The places are compared as they are, and then neither goes behind the view's last newline.  The answer is empty.
    """
    shown = view(document, widget)
    places = [argument_place(word, document, widget) for word in arguments[:2]]
    pieces = texts_of(arguments[2:])
    if places[1] < places[0]:
        raise index_order(*arguments[:2])
    if is_idle(document, widget):
        return world, ""
    first, last = (shown.start + insertion_place(place, shown) for place in places)
    named = with_text_tags(world, document, pieces)
    check_length(world, document, sum(len(piece.text) for piece in pieces) - (last - first))
    actions = removals(document, [(first, last)]) + insertions(first, pieces)
    return with_document(world, document, noted(replaced(named, widget, first, last, pieces), "replace", actions)), ""


def pairs_of(words, document, widget):
    """The places of pairs of indices; where the last index is left out, the place one character on."""
    length = len(view(document, widget).cells)
    places = [argument_place(word, document, widget) for word in words]
    if len(places) % 2 == 1:
        places.append(min(places[-1] + 1, length))
    return list(zip(places[0::2], places[1::2]))


def got(first, last, shown):
    """The characters from one place to another; none if the second isn't after the first."""
    return "".join(shown.characters[first:last])


def get_command(world, document, widget, arguments):
    """`W get I ?I ..?`: the text of the range; from three indices on, the list of those that aren't empty."""
    shown = view(document, widget)
    texts = [got(first, last, shown) for first, last in pairs_of(arguments, document, widget)]
    if len(arguments) <= 2:
        return world, texts[0]
    return world, list_text([text for text in texts if text != ""])


def offsets_of(pairs, shown):
    """The places of pairs as offsets of the document."""
    return [(shown.start + first, shown.start + last) for first, last in pairs]


def tag_add_command(world, document, widget, arguments):
    """`W tag add T I ?I ..?`: puts the tag on the characters of each range, and makes it where it is new."""
    spans = offsets_of(pairs_of(arguments[1:], document, widget), view(document, widget))
    named = with_names(document, [arguments[0]], world.limits)
    key = key_of(arguments[0], widget)
    return with_document(world, document, retagged(named, spans, lambda keys: keys | {key})), ""


def tag_remove_command(world, document, widget, arguments):
    """`W tag remove T I ?I ..?`: takes the tag off the characters of each range."""
    spans = offsets_of(pairs_of(arguments[1:], document, widget), view(document, widget))
    key = key_of(arguments[0], widget)
    return with_document(world, document, retagged(document, spans, lambda keys: keys - {key})), ""


def tag_delete_command(world, document, widget, arguments):
    """`W tag delete T ?T ..?`: takes the tags off all characters and drops their names; `sel` stays."""
    return with_document(world, document, without_tags(document, frozenset(arguments) - {"sel"})), ""


def tag_names_command(world, document, widget, arguments):
    """`W tag names ?I?`: all tags, or those of the character at I, from the lowest to the highest."""
    if not arguments:
        return world, list_text(document.tags)
    place = argument_place(arguments[0], document, widget)
    cells = view(document, widget).cells
    keys = cells[place].keys if place < len(cells) else frozenset()
    return world, list_text([tag for tag in document.tags if key_of(tag, widget) in keys])


def ranges_text(ranges, shown):
    """Ranges as a list: each as where it begins and the place after it."""
    return list_text([position_text(place, shown) for each in ranges for place in each])


def ranges_of(tag, document, widget):
    """The ranges of a tag in what the widget shows; none of an unknown tag."""
    return shown_ranges(tag, view(document, widget), widget)


def tag_ranges_command(world, document, widget, arguments):
    """`W tag ranges T`: all ranges of the tag."""
    return world, ranges_text(ranges_of(arguments[0], document, widget), view(document, widget))


def tag_nextrange_command(world, document, widget, arguments):
    """`W tag nextrange T A ?B?`: the first range that begins at A or behind it and before B, which is the end if left out."""
    shown = view(document, widget)
    places = [argument_place(word, document, widget) for word in arguments[1:]]
    first, last = places if len(places) == 2 else (places[0], len(shown.cells))
    found = [each for each in ranges_of(arguments[0], document, widget) if first <= each[0] < last]
    return world, ranges_text(found[:1], shown)


def tag_prevrange_command(world, document, widget, arguments):
    """`W tag prevrange T A ?B?`: the last range that begins before A and not before B, which is the start if left out."""
    shown = view(document, widget)
    places = [argument_place(word, document, widget) for word in arguments[1:]]
    before, first = places if len(places) == 2 else (places[0], 0)
    found = [each for each in ranges_of(arguments[0], document, widget) if first <= each[0] < before]
    return world, ranges_text(found[-1:], shown)


def known_tags(document, words):
    """The words, each of which has to be the name of a tag."""
    for word in words:
        if word not in document.tags:
            raise no_such_tag(word)
    return words


def moved_tag(world, document, arguments, step, outermost):
    """The world in which a tag stands beside another one, or outermost, where there is no other."""
    tag, *others = known_tags(document, arguments)
    if others == [tag]:
        return world, ""
    place = place_beside(document.tags, tag, others[0], step) if others else outermost
    return with_document(world, document, replace(document, tags=moved_name(document.tags, tag, place))), ""


def tag_raise_command(world, document, widget, arguments):
    """`W tag raise T ?U?`: puts T just above U, or highest."""
    return moved_tag(world, document, arguments, 1, len(document.tags) - 1)


def tag_lower_command(world, document, widget, arguments):
    """`W tag lower T ?U?`: puts T just below U, or lowest."""
    return moved_tag(world, document, arguments, 0, 0)


SEARCH_SWITCHES = Switches(("-all", "-backwards", "-exact", "-forwards", "-nocase", "-overlap", "-strictlimits", "--"), True)
COUNT_SWITCHES = Switches(("-chars", "-indices", "-lines"), False)
DUMP_SWITCHES = Switches(("-all", "-mark", "-tag", "-text"), True)

# What the switches of `dump` list.
DUMPED_KEYS = {"-mark": {"mark"}, "-tag": {"tagon", "tagoff"}, "-text": {"text"}, "-all": {"mark", "tagon", "tagoff", "text"}}


def search_command(world, document, widget, switches, arguments):
    """`W search ?switch ..? pattern I ?J?`: where the pattern stands, or the list of all places with `-all`."""
    shown = view(document, widget)
    pattern, *places = arguments[0], *(argument_place(word, document, widget) for word in arguments[1:])
    ways = [switch for switch in switches if switch in ("-forwards", "-backwards")]
    search = Search(
        pattern,
        begin=places[0],
        stop=places[1] if len(places) == 2 else None,
        is_backward=ways[-1:] == ["-backwards"],
        ignores_case="-nocase" in switches,
        is_strict="-strictlimits" in switches,
    )
    found = matches(search, shown.characters)
    if "-all" in switches:
        listed = found if "-overlap" in switches else apart(found, len(pattern))
        return world, list_text([position_text(place, shown) for place in listed])
    return world, position_text(found[0], shown) if found else ""


def count_command(world, document, widget, switches, arguments):
    """`W count ?option ..? A B`: for each option how much greater B's number is than A's."""
    characters = view(document, widget).characters
    first, last = (argument_place(word, document, widget) for word in arguments)
    lines = len(newlines(characters[:last])) - len(newlines(characters[:first]))
    numbers = [lines if switch == "-lines" else last - first for switch in switches or ["-chars"]]
    return world, " ".join(str(number) for number in numbers)


def dump_command(world, document, widget, switches, arguments):
    """`W dump ?switch ..? A ?B?`: the texts, marks and tags from A to before B, of the kinds that the switches name."""
    shown = view(document, widget)
    ((first, last),) = pairs_of(arguments, document, widget)
    keys = set().union(*(DUMPED_KEYS[switch] for switch in switches or ["-all"]))
    elements = [element for element in dumped(document, widget, first, last) if element.key in keys] if first <= last else []
    return world, list_text([word for key, value, place in elements for word in (key, value, position_text(place, shown))])


def mark_set_command(world, document, widget, arguments):
    """`W mark set M I`: puts the mark at I, and makes it where it is new; the widget's own stay before the view's end."""
    name, word = arguments
    shown = view(document, widget)
    place = argument_place(word, document, widget)
    if name in OWN_MARKS:
        place = max(min(place, len(shown.cells) - 1), 0)
    old = named_mark(document, widget, name)
    if old is None and len(document.marks) >= world.limits.marks:
        raise too_many_marks()
    mark = (old or Mark(0))._replace(offset=shown.start + place)
    return with_document(world, document, with_mark(document, widget, name, mark)), ""


def mark_unset_command(world, document, widget, arguments):
    """`W mark unset ?M ..?`: takes the marks out; the widget's own and unknown names are skipped."""
    marks = tuple((name, mark) for name, mark in document.marks if name not in arguments)
    return with_document(world, document, replace(document, marks=marks)), ""


def mark_gravity_command(world, document, widget, arguments):
    """`W mark gravity M ?left or right?`: the mark's gravity, or gives it another.  The mark is decided first."""
    mark = named_mark(document, widget, arguments[0])
    if mark is None:
        raise no_such_mark(arguments[0])
    if len(arguments) == 1:
        return world, mark.gravity
    if arguments[1] not in GRAVITIES:
        raise bad_gravity(arguments[1])
    changed = with_mark(document, widget, arguments[0], mark._replace(gravity=arguments[1]))
    return with_document(world, document, changed), ""


def mark_names_command(world, document, widget, arguments):
    """`W mark names`: all marks."""
    return world, list_text(mark_names(document))


def mark_next_command(world, document, widget, arguments):
    """`W mark next I`: the name of the next mark, or nothing."""
    _, behind = mark_walk(arguments[0], document, widget)
    return world, behind[0][0] if behind else ""


def mark_previous_command(world, document, widget, arguments):
    """`W mark previous I`: the name of the mark before, or nothing."""
    before, _ = mark_walk(arguments[0], document, widget)
    return world, before[-1][0] if before else ""


def index_command(world, document, widget, arguments):
    """`W index I`: the place as `line.char`."""
    return world, position_text(argument_place(arguments[0], document, widget), view(document, widget))


COMPARISONS = {
    "<": lambda left, right: left < right,
    "<=": lambda left, right: left <= right,
    "==": lambda left, right: left == right,
    ">=": lambda left, right: left >= right,
    ">": lambda left, right: left > right,
    "!=": lambda left, right: left != right,
}


def compare_command(world, document, widget, arguments):
    """`W compare A op B`: 1 or 0.  A is decided first, then the operator, then B."""
    left = argument_place(arguments[0], document, widget)
    if arguments[1] not in COMPARISONS:
        raise bad_comparison(arguments[1])
    right = argument_place(arguments[2], document, widget)
    return world, "1" if COMPARISONS[arguments[1]](left, right) else "0"


def edit_modified_command(world, document, widget, arguments):
    """`W edit modified ?bool?`: whether the text is modified, or says that it is or isn't."""
    modified = document.modified
    if not arguments:
        return world, str(int(modified.fixed or modified.count != 0))
    changed = modified._replace(fixed=True) if boolean_of(arguments[0]) else Modified()
    return with_document(world, document, replace(document, modified=changed)), ""


def edit_separator_command(world, document, widget, arguments):
    """`W edit separator`: the last group takes no more actions."""
    if not document.undo:
        return world, ""
    return with_document(world, document, replace(document, history=closed(document.history))), ""


def edit_reset_command(world, document, widget, arguments):
    """`W edit reset`: takes the history away."""
    return with_document(world, document, replace(document, history=History())), ""


def edit_undo_command(world, document, widget, arguments):
    """`W edit undo`: reverts the last group, of the whole document."""
    if not document.undo:
        return world, ""
    if not document.history.groups:
        raise nothing_to_undo()
    return (world if is_idle(document, widget) else with_document(world, document, undone(document, widget))), ""


def edit_redo_command(world, document, widget, arguments):
    """`W edit redo`: makes the group again that was undone last."""
    if not document.undo:
        return world, ""
    if not document.history.undone:
        raise nothing_to_redo()
    return (world if is_idle(document, widget) else with_document(world, document, redone(document, widget))), ""


def configure_command(world, document, widget, arguments):
    """`W configure option value ?option value ..?`: gives options their values, all of which are read first."""
    return with_document(world, document, configured(document, widget, settings_of(arguments))), ""


def cget_command(world, document, widget, arguments):
    """`W cget option`: the value of an option."""
    return world, OPTIONS[arguments[0]].text(document, widget)


class Subcommand(NamedTuple):
    """A widget's subcommand: what it does, the least and greatest number of its arguments, where options stand, its switches."""

    body: callable
    least: int
    greatest: Optional[int]
    options: Optional[Options] = None
    switches: Optional[Switches] = None


# By their words: one, or that of a family and that of its member.  A greatest number of None is no bound.
SUBCOMMANDS = {
    ("insert",): Subcommand(insert_command, 2, None),
    ("delete",): Subcommand(delete_command, 1, None),
    ("replace",): Subcommand(replace_command, 3, None),
    ("get",): Subcommand(get_command, 1, None),
    ("index",): Subcommand(index_command, 1, 1),
    ("compare",): Subcommand(compare_command, 3, 3),
    ("tag", "add"): Subcommand(tag_add_command, 2, None),
    ("tag", "remove"): Subcommand(tag_remove_command, 2, None),
    ("tag", "delete"): Subcommand(tag_delete_command, 1, None),
    ("tag", "names"): Subcommand(tag_names_command, 0, 1),
    ("tag", "ranges"): Subcommand(tag_ranges_command, 1, 1),
    ("tag", "nextrange"): Subcommand(tag_nextrange_command, 2, 3),
    ("tag", "prevrange"): Subcommand(tag_prevrange_command, 2, 3),
    ("tag", "raise"): Subcommand(tag_raise_command, 1, 2),
    ("tag", "lower"): Subcommand(tag_lower_command, 1, 2),
    ("mark", "gravity"): Subcommand(mark_gravity_command, 1, 2),
    ("mark", "names"): Subcommand(mark_names_command, 0, 0),
    ("mark", "next"): Subcommand(mark_next_command, 1, 1),
    ("mark", "previous"): Subcommand(mark_previous_command, 1, 1),
    ("mark", "set"): Subcommand(mark_set_command, 2, 2),
    ("mark", "unset"): Subcommand(mark_unset_command, 0, None),
    ("edit", "modified"): Subcommand(edit_modified_command, 0, 1),
    ("edit", "redo"): Subcommand(edit_redo_command, 0, 0),
    ("edit", "reset"): Subcommand(edit_reset_command, 0, 0),
    ("edit", "separator"): Subcommand(edit_separator_command, 0, 0),
    ("edit", "undo"): Subcommand(edit_undo_command, 0, 0),
    ("peer", "create"): Subcommand(peer_create_command, 1, None, Options(1, True)),
    ("peer", "names"): Subcommand(peer_names_command, 0, 0),
    ("configure",): Subcommand(configure_command, 2, None, Options(0, True)),
    ("cget",): Subcommand(cget_command, 1, 1, Options(0, False)),
    ("search",): Subcommand(search_command, 2, 3, None, SEARCH_SWITCHES),
    ("count",): Subcommand(count_command, 2, 2, None, COUNT_SWITCHES),
    ("dump",): Subcommand(dump_command, 1, 2, None, DUMP_SWITCHES),
}


def subcommand_of(words):
    """The words of the subcommand that a widget's command begins with, and what it is."""
    for names, subcommand in SUBCOMMANDS.items():
        if tuple(words[1 : 1 + len(names)]) == names:
            return names, subcommand
    if all(names[0] != words[1] for names in SUBCOMMANDS):
        raise bad_option(words[1])
    raise wrong_arguments() if len(words) == 2 else bad_option(words[2])


def check_count(subcommand, count):
    """So many arguments may stand behind the subcommand and its switches."""
    is_few = subcommand.greatest is None or count <= subcommand.greatest
    are_whole = subcommand.options is None or subcommand.options.are_whole(count)
    if count < subcommand.least or not is_few or not are_whole:
        raise wrong_arguments()


def widget_command(world, document, widget, words):
    """`W subcommand ?switch ..? ?argument ..?`."""
    if len(words) == 1:
        raise wrong_arguments()
    names, subcommand = subcommand_of(words)
    arguments = words[1 + len(names) :]
    if subcommand.switches is not None:
        switches, arguments = split_switches(subcommand.switches, arguments)
        check_count(subcommand, len(arguments))
        return subcommand.body(world, document, widget, switches, arguments)
    if subcommand.options is not None:
        check_options(subcommand.options, arguments)
    check_count(subcommand, len(arguments))
    return subcommand.body(world, document, widget, arguments)


def step(world, words):
    """One command of at least one word: the new world and the answer.  A refused one raises Fault."""
    if words[0] == "text":
        return text_command(world, words)
    if words[0] == "destroy":
        return destroy_command(world, words)
    found = find_widget(world, words[0])
    if found is None:
        raise invalid_command_name(words[0])
    document, widget = found
    return widget_command(world, document, widget, words)


# ---------------------------------------------------------------------------------------------------
# A whole run


class Run(NamedTuple):
    """What a run writes, and the exit status of the program."""

    output: bytes
    status: int


def error_piece(text):
    """What is written for a fault."""
    return f"error: {text}\n"


def piece(world, words, is_refused):
    """One command's new world, what is written for it, and whether it was refused.

    `is_refused` says that a growth of memory is refused here: the world stays as it was.
    """
    try:
        if is_refused:
            raise memory()
        new_world, answer = step(world, words)
    except Fault as fault:
        return world, error_piece(fault.text), True
    return new_world, answer + "\n", False


def exit_status(was_refused, script_fault):
    """2 where a script fault ended the run, else 1 where a command was refused, else 0."""
    if script_fault is not None:
        return 2
    return 1 if was_refused else 0


def run_with_refusals(script, limits, refused):
    """The run of a script in which the commands of the numbers `refused` find no memory."""
    commands, script_fault = reads_script(script)
    world = World(limits)
    pieces = []
    was_refused = False
    for number, words in enumerate(commands):
        world, written, is_refused = piece(world, words, number in refused)
        pieces.append(written)
        was_refused = was_refused or is_refused
    if script_fault is not None:
        pieces.append(error_piece(script_fault))
    return Run("".join(pieces).encode("utf-8"), exit_status(was_refused, script_fault))


def run_output(script, limits=PROGRAM_LIMITS):
    """The run of a script with ample memory."""
    return run_with_refusals(script, limits, refused=frozenset())
