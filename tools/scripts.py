#!/usr/bin/env python3
"""Random scripts over the commands that exist, valid and invalid.

    python3 tools/scripts.py SEED      writes the script of a seed on standard output

One function makes each kind of word, command or fault; all randomness comes from the generator handed
in, so a seed gives the same script each time.  A new command gets a function of its own and a line in
COMMANDS.  Which forms of an index the program reads is told by a switch in indices.py.
"""

import random
import sys
from typing import NamedTuple

import indices
import model


class Chance(random.Random):
    """Where all that is random comes from, and the documents of the script that is made: of each the names of its widgets."""

    documents = ((".t",),)

    @property
    def widgets(self):
        """The names of all widgets that the script makes."""
        return tuple(name for names in self.documents for name in names)


# ---------------------------------------------------------------------------------------------------
# Numbers and texts

CHARACTERS = "abcXYZ019_-+=.,:!?*/()<>%&|~^'`@"
MULTI_BYTE = "éßñ€→あ漢😀𝄞\u00a0\u0085\u2028\u0301\ufeff\U0010ffff"
CONTROLS = "\x00\x01\x07\x08\x1b\x7f"
# Characters that are special to Tcl somewhere.
INNER = '{}"]#[$\\;'
SPACES = " \t\r\v\f\n"


def small_number(chance):
    """A number that often lies inside a small text."""
    return str(chance.choice([0, 0, 1, 1, 2, 3, 4, 5, 7, 9, 12, 20, 40, 99]))


def padded_number(chance):
    """A small number with zeros before it."""
    return "0" * chance.randrange(1, 30) + small_number(chance)


def huge_number(chance):
    """A number at or above the edges of machine words, or of very many digits."""
    edge = chance.choice([2**31, 2**32, 2**63, 2**64, 2**128, 10**20])
    if chance.random() < 0.2:
        return "9" * chance.choice([20, 39, 100, 1_000, 5_000])
    return str(edge + chance.choice([-1, 0, 1]))


def number(chance):
    """A number of any of these forms."""
    return chance.choices([small_number, padded_number, huge_number], [8, 1, 1])[0](chance)


def line_number(chance):
    """A line's number: mostly 1, where most texts begin."""
    return "1" if chance.random() < 0.5 else number(chance)


def plain_text(chance):
    """A few ordinary characters."""
    return "".join(chance.choices(CHARACTERS, k=chance.randrange(1, 8)))


def multi_byte_text(chance):
    """Characters of two, three and four bytes among ordinary ones."""
    return "".join(chance.choices(CHARACTERS + MULTI_BYTE * 2, k=chance.randrange(1, 8)))


def control_text(chance):
    """Control characters that are no blanks."""
    return "".join(chance.choices(CONTROLS + CHARACTERS, k=chance.randrange(1, 4)))


def inner_text(chance):
    """Braces, quotes, brackets, dollar signs, backslashes and the like, as they come."""
    return "".join(chance.choices(INNER + "ab", k=chance.randrange(1, 7)))


def spaced_text(chance):
    """Words with blanks and newlines between them, at the beginning and at the end."""
    return "".join(chance.choices(SPACES * 2 + "abé", k=chance.randrange(1, 10)))


def lines_text(chance):
    """A few short lines."""
    return "".join(chance.choice(["", "a", "bc", "é d"]) + "\n" for _ in range(chance.randrange(1, 5)))


def empty_text(chance):
    return ""


def repeated_text(chance):
    """A few letters again and again, in both cases, so that patterns stand in it, at several places and over one another."""
    return "".join(chance.choices(chance.choice(["aabbAB\n", "aaab", "ab\n"]), k=chance.randrange(2, 12)))


def folded_text(chance):
    """Letters whose cases differ in their bytes, or that have no other case of one character."""
    return "".join(chance.choices("kK\u212asSſßẞẤấΣσςİiıǅǆéÉ", k=chance.randrange(1, 6)))


def lone_dollar_text(chance):
    """A dollar sign that stands for itself, at a word's beginning, inside or at its end."""
    after = chance.choice([
        "", ".", "-", "$", "$-", "]", "}", ")", '"', ":", ":a", ":.:", "é", "٣", "２", "%", "#", "\x01",
    ])
    return chance.choice(["", "a", "a.b"]) + "$" + after


def long_text(chance):
    """A word of many characters, longer than one read of the program now and then."""
    alphabet = chance.choice(["ab", CHARACTERS, "aé€😀"])
    return "".join(chance.choices(alphabet, k=chance.choice([50, 300, 1_000, 4_090, 4_096, 9_000])))


TEXTS = [
    (plain_text, 10),
    (multi_byte_text, 5),
    (control_text, 1),
    (inner_text, 2),
    (spaced_text, 3),
    (lines_text, 3),
    (repeated_text, 5),
    (folded_text, 1),
    (empty_text, 1),
    (lone_dollar_text, 2),
    (long_text, 0.3),
]


def pick(chance, weighted):
    """Calls one of the functions of a weighted list."""
    functions, weights = zip(*weighted)
    return chance.choices(functions, weights)[0](chance)


def text(chance):
    """The characters to be inserted."""
    return pick(chance, TEXTS)


# ---------------------------------------------------------------------------------------------------
# Indices


def line_character(chance):
    return line_number(chance) + "." + number(chance)


def line_end(chance):
    return line_number(chance) + ".end"


def end(chance):
    return "end"


PLACES = [(line_character, 6), (line_end, 2), (end, 2)]


def mark_name(chance):
    """The name of a mark: of a widget's own, or mostly one of a few shared ones."""
    kind = chance.random()
    if kind < 0.4:
        return chance.choice(indices.MARKS)
    if kind < 0.85:
        return chance.choice(indices.SHARED_MARKS)
    return chance.choice(indices.ODD_MARKS) if kind < 0.97 else text(chance)


def own_mark_name(chance):
    return chance.choice(indices.MARKS)


def shared_index(chance):
    """The place of a mark, which may be unknown, with modifiers now and then."""
    return mark_name(chance) + (modifiers(chance) if chance.random() < 0.3 else "")


def tag_name(chance):
    """The name of a tag: mostly one of a few, so that it is used again."""
    kind = chance.random()
    if kind < 0.8:
        return chance.choice(indices.TAGS)
    return chance.choice(indices.ODD_TAGS) if kind < 0.95 else text(chance)


def tag_index(chance):
    """The first or the last character of a tag, which may have no characters or be unknown."""
    return tag_name(chance) + chance.choice([".first", ".last"])


def index_blanks(chance):
    return "".join(chance.choices(" \t", k=chance.choice([0, 0, 0, 1, 2])))


def count_modifier(chance):
    """A step on, or back, by a count of units that are spelled out or abbreviated."""
    unit = chance.choice(indices.UNITS)
    unit = unit[: chance.randrange(1, len(unit) + 1)]
    any_word = "any" + chance.choice(" \t") + index_blanks(chance) if chance.random() < 0.2 else ""
    return chance.choice("+-") + index_blanks(chance) + number(chance) + index_blanks(chance) + any_word + unit


def keyword_modifier(chance):
    """A keyword, spelled out or abbreviated, behind a blank."""
    keyword, least = chance.choice(list(indices.KEYWORDS.items()))
    return chance.choice(" \t") + keyword[: chance.randrange(len(least), len(keyword) + 1)]


def modifiers(chance):
    """Some modifiers with blanks before and behind them, perhaps none."""
    parts = ""
    while chance.random() < 0.4:
        parts += index_blanks(chance) + pick(chance, [(count_modifier, 3), (keyword_modifier, 2)])
    return parts + index_blanks(chance)


def marked_index(chance):
    """The first or the last character of a tag, with modifiers now and then."""
    return tag_index(chance) + (modifiers(chance) if chance.random() < 0.3 else "")


def near_index(chance):
    return chance.choice(indices.NEAR)


def whole_index(chance):
    """An index of any form that has a place."""
    return pick(chance, PLACES + [(own_mark_name, 2)]) + modifiers(chance)


def place_index(chance):
    return pick(chance, PLACES)


def index(chance):
    """An index that the program reads, and that has a place."""
    return (whole_index if indices.PROGRAM_READS_ALL else place_index)(chance)


def argument_index(chance):
    """A word where an index is wanted: mostly one."""
    words = [(index, 8), (near_index, 0.7), (text, 0.2)]
    return pick(chance, words + [(marked_index, 1.5), (shared_index, 1)] if indices.PROGRAM_READS_ALL else words)


# ---------------------------------------------------------------------------------------------------
# Commands, each a list of words

WIDGETS = [".t", ".u", "..", ".t.u", ".é", ".$", ".1"]
NO_WINDOW_NAMES = ["t", ".", "a.b", "é.", "$", "-undo", "1.0", "text", "", " .t", "\n"]
NO_COMMANDS = [
    "foo", "puts", "destro", "Destroy", "pack", "Text", "TEXT", "texts", "tex", "insert", "$", "]", "end", "\x00", "", "#", "text .t",
]
NO_SUBCOMMANDS = [
    "foo", "ins", "Insert", "inserts", "del", "deletes", "Replace", "ge", "gets", "ind", "indexes", "edi", "edits", "undo", "pee",
    "peers", "config", "Configure", "cge", "sear", "searches", "Count", "dumps", "ta", "tags", "-undo", "$", "]", "#", ".t",
    "text", "é", "", " ", "get ", "{", "\\", "names", "gravity",
]
NO_GRAVITIES = ["", "Left", "lef", "right ", "up", "l", "é", "1.0", "leftright"]
# Words in the place of an option that are none, and in the place of its value.
NO_OPTIONS = ["-start", "-endlines", "-und", "-undos", "-Undo", "undo", "-", "--", "-wrap", "1", "", "é", "insert"]
NO_SWITCHES = ["-", "--", "-x", "-regexp", "-ALL", "-char", "-charss", "-t", "-1", "-é", "-all ", "--all"]
NO_BOOLEANS = ["", "True", "NO", "y", "t", "2", "00", "maybe", "é", "1 "]
NO_INTEGERS = ["", "+", "-", "+-1", "1.0", "1 ", " 1", "0x1", "1e2", "1234567890", "٣", "one"]
NO_STATES = ["", "Normal", "dis", "disable", "readonly", "1"]
NO_COMPARISONS = ["", "=", "<>", "< ", "===", "!", "lt", "é", "1.0", "=<"]


def widget(chance):
    """A widget's name: mostly one of those that the script makes."""
    return own_widget(chance) if chance.random() < 0.95 else chance.choice(WIDGETS)


def own_widget(chance):
    """A widget that the script makes."""
    return chance.choice(chance.widgets)


def text_command(chance):
    """`text W`: mostly one widget name, so that a name can be taken; with another one it makes a document more."""
    return ["text", chance.choice([".t", ".t", ".t", *WIDGETS])]


def text_with_bad_name(chance):
    return ["text", chance.choice(NO_WINDOW_NAMES)]


def boolean_word(chance):
    """A word for a boolean, or now and then one that is none."""
    return chance.choice(list(model.BOOLEANS) if chance.random() < 0.9 else NO_BOOLEANS)


def integer_word(chance):
    """A word for an integer, or now and then one that is none."""
    integers = ["0", "1", "1", "2", "3", "5", "+05", "-0", "-1", "100", "000000007", "999999999", "-999999999"]
    return chance.choice(integers if chance.random() < 0.8 else NO_INTEGERS)


def state_word(chance):
    return chance.choice(["normal", "normal", "disabled"] if chance.random() < 0.9 else NO_STATES)


def line_word(chance):
    """A word for a line, or for none, or now and then one that is neither."""
    kind = chance.random()
    if kind < 0.8:
        return chance.choice(["1", "2", "2", "3", "4", "5", "", "+2", "003", "99"])
    return chance.choice(["0", "-1", "-0"] if kind < 0.9 else NO_INTEGERS)


OPTION_WORDS = {
    "-undo": boolean_word,
    "-maxundo": integer_word,
    "-autoseparators": boolean_word,
    "-state": state_word,
    "-startline": line_word,
    "-endline": line_word,
}


def option_name(chance):
    """The name of an option, or now and then a word that is none."""
    return chance.choice(list(OPTION_WORDS) if chance.random() < 0.93 else NO_OPTIONS)


def option_words(chance):
    """Options with their values, one of them twice now and then; the last value is missing now and then."""
    words = []
    for _ in range(chance.choice([1, 1, 1, 2, 2, 3, 4])):
        name = option_name(chance)
        words += [name, OPTION_WORDS.get(name, text)(chance)]
    return words[:-1] if chance.random() < 0.07 else words


def text_with_options(chance):
    """`text` with options, of a name that is taken or none now and then."""
    name = ".t" if chance.random() < 0.6 else chance.choice(WIDGETS + NO_WINDOW_NAMES)
    return ["text", name] + option_words(chance)


def configure_command(chance):
    return [widget(chance), "configure"] + option_words(chance)


def shown_lines(chance):
    """Options for the lines that a widget shows, which mostly stand in their order."""
    first, last = sorted(chance.choices("12345", k=2))
    return chance.choice([[], ["-startline", first], ["-endline", last], ["-startline", first, "-endline", last], ["-startline", "", "-endline", ""]])


def peer_create_command(chance):
    """`peer create` of a name that is new, taken or none, with options."""
    name = chance.choice([".p", ".p", ".q", ".r", ".t", *WIDGETS] if chance.random() < 0.9 else NO_WINDOW_NAMES)
    return [widget(chance), "peer", "create", name] + (shown_lines(chance) if chance.random() < 0.6 else option_words(chance))


def peer_names_command(chance):
    return [widget(chance), "peer", "names"]


def peer_alone(chance):
    """`peer` without a member of it, or with too few or too many words."""
    rests = [[], ["foo"], [""], ["Create", ".p"], ["creat", ".p"], ["create"], ["create", ".p", "-undo"], ["create", ".p", "1"], ["names", ".p"]]
    return [widget(chance), "peer"] + chance.choice(rests)


def destroy_command(chance):
    """`destroy` of some widgets, of names of none, and of all of them now and then."""
    names = [".p", ".q", ".r", *chance.widgets, chance.choice(WIDGETS + NO_WINDOW_NAMES)]
    return ["destroy"] + chance.choices(names, k=chance.choice([0, 1, 1, 1, 2, 3, 4]))


def show_command(chance):
    """`configure` of the lines that a widget shows."""
    return [widget(chance), "configure"] + (shown_lines(chance) or ["-startline", line_word(chance)])


def cget_command(chance):
    return [widget(chance), "cget", option_name(chance)]


def tag_words(chance):
    """The names of some tags, some of them twice now and then."""
    return [tag_name(chance) for _ in range(chance.choice([0, 1, 1, 1, 2, 3, 5]))]


def written_list(chance):
    """A list as it is written."""
    return model.list_text(tag_words(chance))


def spaced_list(chance):
    """A list with white space of every kind round its elements."""
    spaces = ["".join(chance.choices(SPACES, k=chance.randrange(0, 3))) for _ in range(2)]
    between = chance.choice([" ", "\t", "  ", "\n ", "\v", "\f\r"])
    return spaces[0] + between.join(model.element_text(tag) for tag in tag_words(chance)) + spaces[1]


def quoted_list(chance):
    """A list whose elements stand in quotes or braces, with escapes."""
    parts = ['"x y"', "{x y}", "x", "\\x41", "\\u20ac\\n", '"\\""', "{\\}}", "{}", '""', "a{", 'a"b', "\\#", "{a\\\n b}", "a\\\n b", "[x", "$y", ";"]
    return " ".join(chance.choices(parts, k=chance.randrange(1, 4)))


def broken_list(chance):
    """A text that spells no list."""
    ends = ["{", '"', "{x}y", '"x"y', "{x}\\", "{x}\\\n", "\\uD800", "{{}", '"\\"', "{\\}"]
    return model.list_text(tag_words(chance)) + " " + chance.choice(ends)


def long_list(chance):
    """As many tags as there may be, or nearly, or one more."""
    return model.list_text(["t%d" % number for number in range(chance.choice([100, 957, 958, 959, 960, 960, 961]))])


TAG_LISTS = [
    (written_list, 10),
    (spaced_list, 2),
    (quoted_list, 2),
    (broken_list, 1.5),
    (text, 0.5),
    (long_list, 0.5),
]


def tag_list(chance):
    return pick(chance, TAG_LISTS)


def pairs(chance):
    """`chars ?tagList chars ..?`: one text or more, each with a list but perhaps the last."""
    words = [text(chance)]
    for _ in range(chance.choice([0, 0, 0, 1, 1, 1, 2, 3, 4, 5])):
        words.append(tag_list(chance) if len(words) % 2 == 1 else text(chance))
    return words


def insert_command(chance):
    return [widget(chance), "insert", argument_index(chance)] + pairs(chance)


def near_begin(chance):
    """A place near the text's beginning, so that ranges meet."""
    return "%d.%d" % (chance.choice([1, 1, 1, 2, 3]), chance.randrange(0, 8))


def range_index(chance):
    """A word for an end of a range: mostly a place near the beginning."""
    return near_begin(chance) if chance.random() < 0.6 else argument_index(chance)


def range_words(chance):
    """The words of one range or more, the last end of which may be left out."""
    return [range_index(chance) for _ in range(chance.choice([1, 2, 2, 2, 3, 4, 4, 5, 8]))]


def last_place(chance):
    """A place at the text's end, or near it."""
    return chance.choice(["end", "end-1c", "end-2c", "end-1l", "end-2l", "end -2c linestart", "end-2l lineend", "9.0"])


def span_index(chance):
    """A word for an end of a range that is taken out: at the text's end now and then."""
    return last_place(chance) if indices.PROGRAM_READS_ALL and chance.random() < 0.2 else range_index(chance)


def near_span(chance):
    """Two places near the beginning, of which the first isn't behind the second."""
    return sorted([near_begin(chance), near_begin(chance)])


def lines_span(chance):
    """Whole lines near the beginning, up to the end now and then."""
    line = chance.choice([1, 2, 2, 2, 3, 3, 4])
    return ["%d.0" % line, chance.choice(["end", "end", "%d.0" % (line + 1), "%d.0" % (line + 2), "%d.end" % line])]


def insert_span(chance):
    """A range round the mark `insert`."""
    return [chance.choice(["insert", "insert-1c", "insert -3c", "insert linestart"]), chance.choice(["insert+1c", "insert +2c", "insert lineend"])]


def any_span(chance):
    return [span_index(chance), span_index(chance)]


def span(chance):
    """The two words of a range that is taken out."""
    return pick(chance, [(near_span, 4), (lines_span, 2), (any_span, 2), (insert_span, 1)])


def last_lines(chance):
    """The last lines, and a range of the line before them that ends with its characters."""
    line = chance.choice([2, 3, 4])
    return ["%d.0" % line, "end", "%d.%d" % (line - 1, chance.randrange(0, 3)), "%d.end" % (line - 1)]


def delete_command(chance):
    """`delete` of one range or more, which may meet, lie in one another, be turned round or be empty."""
    if chance.random() < 0.1:
        return [widget(chance), "delete"] + last_lines(chance)
    words = [word for _ in range(chance.choice([1, 1, 1, 2, 3, 4])) for word in span(chance)]
    return [widget(chance), "delete"] + (words[:-1] if chance.random() < 0.3 else words)


def replace_command(chance):
    return [widget(chance), "replace"] + span(chance) + pairs(chance)


def get_command(chance):
    return [widget(chance), "get"] + range_words(chance)


def tag_add_command(chance):
    return [widget(chance), "tag", "add", tag_name(chance)] + range_words(chance)


def tag_remove_command(chance):
    return [widget(chance), "tag", "remove", tag_name(chance)] + range_words(chance)


def tag_delete_command(chance):
    return [widget(chance), "tag", "delete"] + [tag_name(chance) for _ in range(chance.choice([1, 1, 2, 4]))]


def tag_names_command(chance):
    return [widget(chance), "tag", "names"] + [range_index(chance) for _ in range(chance.choice([0, 1, 1]))]


def tag_ranges_command(chance):
    return [widget(chance), "tag", "ranges", tag_name(chance)]


def tag_walk_command(chance):
    """`tag nextrange` or `tag prevrange`."""
    places = [range_index(chance) for _ in range(chance.choice([1, 2]))]
    return [widget(chance), "tag", chance.choice(["nextrange", "prevrange"]), tag_name(chance)] + places


def tag_order_command(chance):
    """`tag raise` or `tag lower`."""
    return [widget(chance), "tag", chance.choice(["raise", "lower"])] + [tag_name(chance) for _ in range(chance.choice([1, 2, 2]))]


def tag_alone(chance):
    """`tag` without a member of it, with any words after it."""
    members = [[], ["foo"], [""], ["nam"], ["Add"], ["x"], ["configure"], ["bind", "x"], ["addx", "x", "1.0"], ["namess"]]
    return [widget(chance), "tag"] + chance.choice(members)


def mark_set_command(chance):
    return [widget(chance), "mark", "set", mark_name(chance), range_index(chance)]


def mark_unset_command(chance):
    return [widget(chance), "mark", "unset"] + [mark_name(chance) for _ in range(chance.choice([0, 1, 1, 2, 4]))]


def mark_gravity_command(chance):
    """`mark gravity`, with a gravity mostly, and now and then with a word that is none."""
    gravity = chance.choice([[], [], ["left"], ["left"], ["right"], [chance.choice(NO_GRAVITIES)]])
    return [widget(chance), "mark", "gravity", mark_name(chance)] + gravity


def mark_names_command(chance):
    return [widget(chance), "mark", "names"]


def mark_walk_command(chance):
    """`mark next` or `mark previous`, from a mark or from a place."""
    word = mark_name(chance) if chance.random() < 0.5 else range_index(chance)
    return [widget(chance), "mark", chance.choice(["next", "previous"]), word]


def edit_step_command(chance):
    """`edit undo`, `redo`, `separator` or `reset`."""
    return [widget(chance), "edit", chance.choices(["undo", "redo", "separator", "reset"], [8, 5, 3, 0.5])[0]]


def edit_modified_command(chance):
    return [widget(chance), "edit", "modified"] + ([boolean_word(chance)] if chance.random() < 0.4 else [])


def edit_alone(chance):
    """`edit` without a member of it, with any words after it."""
    rests = [[], ["foo"], [""], ["und"], ["Undo"], ["undo", "1"], ["canundo"], ["reset", ""], ["modify", "1"]]
    return [widget(chance), "edit"] + chance.choice(rests)


def shortened(chance, word):
    """A switch, or the front of it: one letter, which is often enough, or more."""
    return word if chance.random() < 0.6 else word[: chance.randrange(2, len(word) + 1)]


def abbreviated_switches(chance, names, counts):
    """Some switches, spelled out or abbreviated, or now and then a word that is none."""
    words = [shortened(chance, chance.choice(names)) for _ in range(chance.choice(counts))]
    return words + [chance.choice(NO_SWITCHES)] if chance.random() < 0.05 else words


def pattern(chance):
    """A pattern that mostly stands in a text: a few letters, with newlines, none now and then."""
    if chance.random() < 0.8:
        return chance.choice(["", "a", "b", "A", "aa", "ab", "aA", "aba", "aab", "bb", "bab", "\n", "a\n", "\n\n", "b\na"])
    return pick(chance, [(folded_text, 1), (text, 1), (plain_text, 1)])


def search_place(chance):
    """A word for where a search begins or stops: mostly an end of the text, or near its beginning."""
    kind = chance.random()
    return chance.choice(["1.0", "end", "2.0"]) if kind < 0.4 else near_begin(chance) if kind < 0.8 else span_index(chance)


def search_command(chance):
    """`search`, from a place, to another one now and then."""
    names = list(model.SEARCH_SWITCHES.names[:-1]) + ["-all", "-all"]
    words = abbreviated_switches(chance, names, [0, 0, 1, 1, 2, 2, 3, 4])
    ending = ["--"] if chance.random() < 0.2 else []
    places = [search_place(chance) for _ in range(chance.choice([1, 1, 2]))]
    if len(places) == 2 and chance.random() < 0.7:
        places.sort(reverse=any(word.startswith("-b") for word in words))
    return [widget(chance), "search"] + words + ending + [pattern(chance)] + places


def count_command(chance):
    """`count` of some numbers."""
    words = chance.choices(["-chars", "-indices", "-lines", "-lines"], k=chance.choice([0, 1, 1, 2, 4]))
    words += [chance.choice(NO_SWITCHES)] if chance.random() < 0.05 else []
    return [widget(chance), "count"] + words + [range_index(chance), span_index(chance)]


def dump_command(chance):
    """`dump` of some kinds, of a character, a range or all."""
    words = abbreviated_switches(chance, list(model.DUMP_SWITCHES.names), [0, 0, 0, 1, 1, 2])
    places = chance.choice([["1.0", "end"], [span_index(chance)], span(chance), span(chance)])
    return [widget(chance), "dump"] + words + places


def mark_alone(chance):
    """`mark` without a member of it, with any words after it."""
    members = [[], ["foo"], [""], ["nam"], ["Set"], ["m"], ["set", "m"], ["unse", "m"], ["nexts", "1.0"], ["prev", "1.0"]]
    return [widget(chance), "mark"] + chance.choice(members)


def index_command(chance):
    return [widget(chance), "index", argument_index(chance)]


def operator(chance):
    """A comparison, or now and then a word that is none."""
    return chance.choice(list(model.COMPARISONS) if chance.random() < 0.9 else NO_COMPARISONS)


def compare_command(chance):
    return [widget(chance), "compare", argument_index(chance), operator(chance), argument_index(chance)]


# The words of each subcommand behind which no word may stand.
BARE = [list(words) for words, subcommand in model.SUBCOMMANDS.items() if subcommand.greatest == 0]


def bare_command(chance):
    return [widget(chance), *chance.choice(BARE)]


def wrong_count_command(chance):
    """A command of too few words or too many, whose other words may be wrong too."""
    subcommand, counts = chance.choice([
        (["insert"], [0, 1]),
        (["delete"], [0]),
        (["replace"], [0, 1, 2]),
        (["get"], [0]),
        (["index"], [0, 2, 3]),
        (["compare"], [0, 1, 2, 4]),
        (["edit", "modified"], [2, 3]),
        (["peer", "create"], [0]),
        (["configure"], [0]),
        (["configure", "-undo"], [0]),
        (["configure", "-undo", "1", "-state"], [0]),
        (["cget"], [0]),
        (["cget", "-undo"], [1, 2]),
        (["search"], [0, 1, 4]),
        (["search", "-all"], [0, 1, 4]),
        (["search", "--"], [0, 1]),
        (["count"], [0, 1, 3]),
        (["count", "-lines"], [0, 1, 3]),
        (["dump"], [0, 3]),
        (["dump", "-all", "-text"], [0, 3]),
        (["mark", "set"], [0, 1, 3]),
        (["mark", "gravity"], [0, 3]),
        (["mark", "next"], [0, 2]),
        (["mark", "previous"], [0, 2]),
        (["tag", "add"], [0, 1]),
        (["tag", "remove"], [0, 1]),
        (["tag", "delete"], [0]),
        (["tag", "names"], [2, 3]),
        (["tag", "ranges"], [0, 2]),
        (["tag", "nextrange"], [0, 1, 4]),
        (["tag", "prevrange"], [0, 1, 4]),
        (["tag", "raise"], [0, 3]),
        (["tag", "lower"], [0, 3]),
        ([], [0]),
        *[(words, [1, 2]) for words in BARE],
    ])
    arguments = [argument_index(chance) for _ in range(chance.choice(counts))]
    return [widget(chance)] + subcommand + arguments


def text_alone(chance):
    return ["text"]


def bad_option_command(chance):
    """A widget with a subcommand that it doesn't have, and any words after it."""
    arguments = [argument_index(chance) for _ in range(chance.randrange(0, 4))]
    return [widget(chance), chance.choice(NO_SUBCOMMANDS)] + arguments


def unknown_command(chance):
    """A first word that is no command, and any words after it."""
    first = chance.choice(NO_COMMANDS + WIDGETS[1:])
    return [first] + [chance.choice(["insert", "get", "1.0", ".t", "a"]) for _ in range(chance.randrange(0, 4))]


def any_words(chance):
    """Words of any kind in any order."""
    words = ["text", ".t", "insert", "delete", "replace", "get", "index", "1.0", "end"]
    return [chance.choice(words) if chance.random() < 0.8 else text(chance) for _ in range(chance.randrange(1, 7))]


COMMANDS = [
    (insert_command, 12),
    (delete_command, 3),
    (replace_command, 3),
    (get_command, 7),
    (index_command, 5),
    (compare_command, 2),
    (tag_add_command, 6),
    (tag_remove_command, 3),
    (tag_delete_command, 1),
    (tag_names_command, 3),
    (tag_ranges_command, 4),
    (tag_walk_command, 5),
    (tag_order_command, 2),
    (tag_alone, 0.4),
    (mark_set_command, 6),
    (mark_unset_command, 1),
    (mark_gravity_command, 2),
    (mark_names_command, 1.5),
    (mark_walk_command, 4),
    (mark_alone, 0.4),
    (edit_step_command, 6),
    (edit_modified_command, 2.5),
    (edit_alone, 0.3),
    (bare_command, 0.7),
    (configure_command, 1.5),
    (cget_command, 1.5),
    (show_command, 2),
    (peer_create_command, 1.5),
    (peer_names_command, 0.7),
    (peer_alone, 0.3),
    (destroy_command, 0.4),
    (search_command, 7),
    (count_command, 3),
    (dump_command, 5),
    (text_command, 1),
    (text_with_bad_name, 0.4),
    (text_with_options, 0.5),
    (text_alone, 0.1),
    (wrong_count_command, 1),
    (bad_option_command, 1),
    (unknown_command, 0.7),
    (any_words, 0.7),
]

# ---------------------------------------------------------------------------------------------------
# Each form of each command, for the search for idle refusals

# One word for each base of an index, with each modifier.
FORM_INDICES = indices.bare_indices()

# Texts of characters of one byte and of several, short and longer than one read of the program.
FORM_TEXTS = ["x", "é€😀", "abcdefghij" * 500]

FORM_WORLD = [
    "text .t", r'.t insert 1.0 "abcd\nefgh"', ".t tag add x 1.0 1.1 1.2 1.3 2.1 2.3", ".t tag add sel 1.1", ".t mark set m 2.2", ".t mark set n end",
]

# Names of marks that there are and one more.
FORM_MARKS = ["m", "n", "insert", "current", "q", "{}"]

# Names of tags that there are and one more, and lists of them, as a script spells them bare or in braces.
FORM_TAGS = ["x", "sel", "q"]
FORM_LISTS = ["{}", "x", "sel", "{q r}", "{{a b} \\x41}"]


class Form(NamedTuple):
    """A command: the commands before it, its first words, and the choices of words at each further place.

    A place that may be left out has the choice None; so may no place before one that is given.
    """

    before: list
    words: list
    places: list


# A world with groups that were made and undone.
FORM_UNDO_WORLD = [
    "text .t -undo 1", r'.t insert 1.0 "abcd\nef"', ".t delete 1.0 1.1 1.2 1.3", ".t replace 1.0 1.1 {long text} x y", ".t edit separator",
    ".t insert end z", ".t edit undo",
]

# Options with a value of each kind.
FORM_BOOLEANS = list(model.BOOLEANS)
FORM_SETTINGS = ["-undo 1", "-undo 0", "-maxundo 0", "-maxundo 1", "-maxundo -5", "-autoseparators no", "-state normal", "-state disabled",
                 "-startline 1", "-startline {}", "-startline 2", "-endline 2", "-endline 1", "-endline {}"]

# A world with texts to be found, over several lines, and tags of which some range over them.
FORM_FOUND_WORLD = [
    "text .t", r'.t insert 1.0 "abab\nABab\nk\u212a\u00e9"', ".t tag add x 1.1 2.1 2.2 2.3", ".t tag add sel 1.2 1.3",
    ".t tag add {a b} 1.0 end", ".t mark set m 2.2", ".t mark set {n o} end",
]
FORM_SWITCHES = [name for name in model.SEARCH_SWITCHES.names if name != "--"]

FORMS = [
    Form([], ["text"], [[".t", ".window"]]),
    Form(FORM_WORLD + [".t peer create .p", "destroy .t .p"], ["text"], [[".t", ".p", ".window"]]),
    Form(
        FORM_WORLD + [".t peer create .q -endline 2", ".q tag add sel 1.0 1.2"],
        ["destroy"],
        [[None, ".t", ".q", ".u"], [None, ".t", ".q"], [None, ".q"]],
    ),
    Form(FORM_WORLD, [".t", "peer", "create"], [[".q", ".window"], [None, *FORM_SETTINGS], [None, *FORM_SETTINGS]]),
    Form(FORM_WORLD + [".t peer create .q"], [".t", "peer", "names"], []),
    Form([], ["text", ".t"], [FORM_SETTINGS, [None, *FORM_SETTINGS]]),
    Form(FORM_UNDO_WORLD, [".t", "configure"], [FORM_SETTINGS, [None, *FORM_SETTINGS]]),
    Form(FORM_UNDO_WORLD, [".t", "configure"], [["-undo", "-autoseparators"], FORM_BOOLEANS]),
    Form(FORM_UNDO_WORLD, [".t", "cget"], [list(model.OPTIONS)]),
    *[Form(before, [".t", *words], []) for before in (FORM_UNDO_WORLD, FORM_UNDO_WORLD + [".t edit undo"]) for words in BARE],
    Form(FORM_UNDO_WORLD, [".t", "edit", "modified"], [[None, *FORM_BOOLEANS]]),
    Form(FORM_UNDO_WORLD + [".t edit undo"], [".t", "edit", "modified"], []),
    Form(
        FORM_UNDO_WORLD + [".t configure -state disabled"],
        [".t"],
        [["edit undo", "edit redo", "insert 1.0 a q", "delete 1.0", "replace 1.0 1.1 b q"]],
    ),
    Form(FORM_UNDO_WORLD, [".t"], [["insert 1.0 a {x q} b", "delete 1.0 1.1 1.2 1.3", "replace 1.0 1.1 a {x q} b"]]),
    Form(FORM_WORLD, [".t", "insert"], [FORM_INDICES, FORM_TEXTS, [None, "{q r}"]]),
    Form(FORM_WORLD, [".t", "insert"], [["1.1"], ["x", "{}"], FORM_LISTS, FORM_TEXTS, [None, *FORM_LISTS]]),
    Form(FORM_WORLD, [".t", "insert", "1.1", "a", "p", "b", "{}", "c"], [[None, "{p q}"]]),
    Form(FORM_WORLD, [".t", "delete"], [FORM_INDICES, [None, *indices.PLACES]]),
    Form(FORM_WORLD, [".t", "delete"], [indices.PLACES, FORM_INDICES]),
    Form(FORM_WORLD, [".t", "delete", "1.0", "1.2"], [FORM_INDICES, [None, *indices.PLACES]]),
    Form(FORM_WORLD, [".t", "delete", "1.3", "end", "1.1", "1.2"], [[None, "1.0"], [None, "1.1", "end"]]),
    Form(FORM_WORLD, [".t", "replace"], [["1.0"], FORM_INDICES, FORM_TEXTS, [None, "{q r}"]]),
    Form(FORM_WORLD, [".t", "replace"], [FORM_INDICES, ["end"], ["x", "{}"], [None, "x"], [None, "y"]]),
    Form(FORM_WORLD, [".t", "replace", "1.1", "1.3"], [["x", "{}"], FORM_LISTS, FORM_TEXTS, [None, *FORM_LISTS]]),
    Form(FORM_WORLD, [".t", "replace", "1.1", "1.1"], [["x", "{}"], [None, "{q r}"]]),
    Form(FORM_WORLD, [".t", "get"], [FORM_INDICES, [None, *indices.PLACES]]),
    Form(FORM_WORLD, [".t", "get"], [indices.PLACES, FORM_INDICES]),
    Form(FORM_WORLD, [".t", "get", "1.0", "1.2"], [FORM_INDICES, [None, *indices.PLACES]]),
    Form(FORM_WORLD, [".t", "get", "1.0", "1.1"], [["1.0"], ["1.2"], FORM_INDICES, [None, "1.end"]]),
    Form(FORM_WORLD, [".t", "index"], [FORM_INDICES]),
    Form(FORM_WORLD, [".t", "compare"], [FORM_INDICES, ["<"], indices.PLACES]),
    Form(FORM_WORLD, [".t", "compare"], [indices.PLACES, list(model.COMPARISONS), FORM_INDICES]),
    Form(FORM_WORLD, [".t", "tag"], [["add", "remove"], FORM_TAGS, ["1.0"], [None, "1.2"]]),
    Form(FORM_WORLD, [".t", "tag"], [["add", "remove"], ["x"], FORM_INDICES, [None, *indices.PLACES]]),
    Form(FORM_WORLD, [".t", "tag"], [["add", "remove"], ["x"], ["1.0"], FORM_INDICES]),
    Form(FORM_WORLD, [".t", "tag"], [["add", "remove"], ["q"], ["1.0"], ["1.1"], FORM_INDICES, [None, "end"]]),
    Form(FORM_WORLD, [".t", "tag"], [["add", "remove"], ["sel"], ["1.0"], ["1.1"], ["1.2"], ["1.3"], FORM_INDICES, [None, "end"]]),
    Form(FORM_WORLD, [".t", "tag", "delete"], [FORM_TAGS, [None, *FORM_TAGS], [None, "x"]]),
    Form(FORM_WORLD, [".t", "tag", "names"], [[None, *FORM_INDICES]]),
    Form(FORM_WORLD, [".t", "tag", "ranges"], [FORM_TAGS]),
    Form(FORM_WORLD, [".t", "tag"], [["nextrange", "prevrange"], FORM_TAGS, ["1.0"], [None, "end"]]),
    Form(FORM_WORLD, [".t", "tag"], [["nextrange", "prevrange"], ["x"], FORM_INDICES, [None, *indices.PLACES]]),
    Form(FORM_WORLD, [".t", "tag"], [["nextrange", "prevrange"], ["x"], indices.PLACES, FORM_INDICES]),
    Form(FORM_WORLD, [".t", "tag"], [["raise", "lower"], FORM_TAGS, [None, *FORM_TAGS]]),
    Form(FORM_WORLD, [".t", "mark", "set"], [FORM_MARKS, FORM_INDICES]),
    Form(FORM_WORLD, [".t", "mark", "unset"], [[None, *FORM_MARKS], [None, *FORM_MARKS], [None, "m"]]),
    Form(FORM_WORLD, [".t", "mark", "gravity"], [FORM_MARKS, [None, "left", "right", "up"]]),
    Form(
        FORM_FOUND_WORLD,
        [".t", "search"],
        [[None, *FORM_SWITCHES], [None, *FORM_SWITCHES], [None, "--"], ["ab", "{}", "\\u212a"], ["1.1"], [None, "2.2"]],
    ),
    Form(FORM_FOUND_WORLD, [".t", "search"], [["-al", "-b", "-e", "-f", "-n", "-o", "-s"], ["a"], ["end"]]),
    Form(FORM_FOUND_WORLD, [".t", "search", "-all", "-nocase", "-overlap"], [["aB", "b\\na", "q"], FORM_INDICES, [None, "end"]]),
    Form(FORM_FOUND_WORLD, [".t", "search", "ab"], [indices.PLACES, FORM_INDICES]),
    Form(FORM_FOUND_WORLD, [".t", "count"], [[None, "-chars", "-indices", "-lines"], [None, "-chars", "-lines"], ["1.1"], indices.PLACES]),
    Form(FORM_FOUND_WORLD, [".t", "count", "-lines"], [["2.1"], FORM_INDICES]),
    Form(FORM_FOUND_WORLD, [".t", "count"], [FORM_INDICES, indices.PLACES]),
    Form(
        FORM_FOUND_WORLD,
        [".t", "dump"],
        [[None, "-all", "-mark", "-tag", "-text", "-a", "-m", "-ta", "-te"], [None, "-mark", "-tag", "-text"], ["1.0", "end"], [None, "end"]],
    ),
    Form(FORM_FOUND_WORLD, [".t", "dump"], [FORM_INDICES, [None, *indices.PLACES]]),
    Form(FORM_FOUND_WORLD, [".t", "dump"], [["1.0"], FORM_INDICES]),
    Form(FORM_WORLD, [".t", "mark", "names"], []),
    Form(FORM_WORLD, [".t", "mark"], [["next", "previous"], FORM_INDICES + FORM_MARKS]),
]

# ---------------------------------------------------------------------------------------------------
# From words to bytes

LETTER_ESCAPES = {"\a": "\\a", "\b": "\\b", "\f": "\\f", "\n": "\\n", "\r": "\\r", "\t": "\\t", "\v": "\\v"}


def numeric_escape(chance, character):
    """A character by its number, in as many digits as its escape may have, so that none that follows belongs to it."""
    code = ord(character)
    forms = [f"\\U{code:08x}"]
    if code <= 0xFFFF:
        forms.append(f"\\u{code:04X}")
    if code <= 0xFF:
        forms += [f"\\x{code:02x}", f"\\{code:03o}"]
    return chance.choice(forms)


def escaped(chance, character):
    """A character that is escaped, by a letter, by its number or by itself."""
    if character in LETTER_ESCAPES and chance.random() < 0.7:
        return LETTER_ESCAPES[character]
    if character not in "\nabfnrtvxuU01234567" and chance.random() < 0.7:
        return "\\" + character
    return numeric_escape(chance, character)


def spelled_by(chance, word, special):
    """The characters of a word, of which the special ones are escaped, and others now and then."""
    return "".join(
        escaped(chance, character) if character in special or chance.random() < 0.02 else character
        for character in word
    )


def bare(chance, word):
    """A word that isn't empty, spelled bare."""
    first = escaped(chance, word[0]) if word[0] in '{"#' else spelled_by(chance, word[0], SPACES + ";[$\\")
    return first + spelled_by(chance, word[1:], SPACES + ";[$\\")


def quoted(chance, word):
    return '"' + spelled_by(chance, word, '"[$\\') + '"'


def can_be_braced(word):
    """Whether braces round a word leave it as it is."""
    depth = 0
    for character in word:
        depth += {"{": 1, "}": -1}.get(character, 0)
        if depth < 0 or character == "\\":
            return False
    return depth == 0 and word != "*"


def spelled(chance, word):
    """A word as a script spells it: bare, quoted or braced."""
    if word == "":
        return chance.choice(["{}", '""'])
    kind = chance.random()
    if kind < 0.2 and can_be_braced(word):
        return "{" + word + "}"
    if kind < 0.4:
        return quoted(chance, word)
    return bare(chance, word)


def escaped_newline(chance):
    """A backslash-newline with spaces and tabs after it."""
    return "\\\n" + "".join(chance.choices(" \t", k=chance.randrange(0, 3)))


def blanks(chance):
    """One blank or more, of every kind."""
    if chance.random() < 0.7:
        return " "
    kinds = [" ", "\t", "\r", "\v", "\f", escaped_newline(chance)]
    return "".join(chance.choices(kinds, k=chance.randrange(1, 5)))


def optional_blanks(chance):
    return blanks(chance) if chance.random() < 0.2 else ""


def comment(chance):
    """A comment with its newline."""
    inside = ["a", " ", ";", "{", '"', "[", "$x", "\\\n", "\\\\", "\\a", "é", "#", "}"]
    return "#" + "".join(chance.choices(inside, k=chance.randrange(0, 8))) + "\n"


def command_end(chance):
    """A newline or a semicolon, perhaps with commands without words and comments around it."""
    ending = chance.choice("\n;")
    while chance.random() < 0.1:
        ending += optional_blanks(chance) + chance.choice(["\n", ";", comment(chance)])
    return ending


def spelled_command(chance, words):
    """The characters of a command, without its end."""
    return optional_blanks(chance) + blanks(chance).join(spelled(chance, word) for word in words) + optional_blanks(chance)


def undo_walk(chance):
    """Undo and redo some times in a row, and what they leave."""
    steps = [[widget(chance), "edit", step] for step in chance.choices(["undo", "redo"], k=chance.randrange(2, 7))]
    asked = (["dump", "1.0", "end"], ["index", "insert"], ["edit", "modified"])
    return steps + [[own_widget(chance), *words] for words in asked if chance.random() < 0.6]


def next_commands(chance):
    """The characters of one command, or of some that belong together, without their ends."""
    words = undo_walk(chance) if chance.random() < 0.04 else [pick(chance, COMMANDS)]
    return [spelled_command(chance, each) for each in words]


# ---------------------------------------------------------------------------------------------------
# Script faults, as bytes that are put somewhere into a script


def dollar_fault(chance):
    """A dollar sign that asks for a variable, alone or after one that stands for itself."""
    letter = chance.choice([b"a", b"z", b"A", b"Z"])
    digit = chance.choice([b"0", b"5", b"9"])
    name = chance.choice([letter, digit, b"_", b"{", b"(", b"::"])
    return chance.choice([b"$", b"a$", b"$$", b"$:$"]) + name + chance.choice([b"", b"a", b"}", b"\xff"])


def bracket_fault(chance):
    return chance.choice([b"[", b"[foo]", b"[["])


def expansion_fault(chance):
    return chance.choice([b" {*}a", b" {*}{a}", b" {*}\\a", b" {*}$", b";{*}.t", b" {*}\xff", b" {*}\\\xff"])


def brace_fault(chance):
    """A brace that is never closed, one that is closed too early, or a character behind one that closes a word."""
    return chance.choice([b" {", b" {a", b" {{}", b" {\\}", b" {}a", b" {a}{b}", b' {}"', b" {}\\a", b" {}\\", b"\t{\xff", b" {}\xff"])


def quote_fault(chance):
    return chance.choice([b' "', b' "a', b' "\\"', b' ""a', b' "a""b"', b' ""{', b' ""\\a', b' ""\\', b'\r"\xff', b' ""\xff'])


def code_fault(chance):
    """A number that is no character, or an escape before bytes that aren't UTF-8."""
    return chance.choice([
        b"\\uD800", b"\\uDFFF", b"\\ud9ab0", b"\\U0000D800", b"\\UDFFF ", b"\\UD800\xff", b"\\uD80\xff", b"\\uD800\xff",
        b"\\x\xff", b"\\x4\xff", b"\\1\xff", b"\\\xff", b"\\U0010FFFF\xff",
    ])


def edge_bytes(chance):
    """Spellings at the edges of a rule, which are no faults by themselves."""
    return chance.choice([
        b"\\400", b"\\377", b"\\8", b"\\1011", b"\\x414", b"\\xg", b"\\u12345", b"\\ug", b"\\U1100000", b"\\U00110000",
        b"\\Ug", b" {*}", b" {*} ", b" {*};", b" {*}\\\n", b"\\", b"\\\n", b";#\\\n", b"\n#a\\\\\n", b" {\\\n \t}", b' "\\\n "', b"]", b"}",
    ])


NOT_UTF8 = [
    b"\x80", b"\xbf", b"\xc0\xaf", b"\xc1\xbf", b"\xc3", b"\xe2\x82", b"\xe0\x80\x80",
    b"\xed\xa0\x80", b"\xed\xbf\xbf", b"\xf0\x9f\x98", b"\xf0\x80\x80\x80", b"\xf4\x90\x80\x80",
    b"\xf5\x80\x80\x80", b"\xfe", b"\xff", b"\xf8\x88\x80\x80\x80",
]


def not_utf8_fault(chance):
    """Bytes that aren't UTF-8, perhaps where a rule asks what stands after a dollar sign."""
    return chance.choice([b"", b"", b"$", b"$:", b" ", b";", b"\n", b" $$"]) + chance.choice(NOT_UTF8)


FAULTS = [
    (dollar_fault, 6),
    (bracket_fault, 1),
    (expansion_fault, 2),
    (brace_fault, 4),
    (quote_fault, 6),
    (code_fault, 4),
    (edge_bytes, 6),
    (not_utf8_fault, 4),
]

READ_BYTES = 4_096


def with_fault(chance, script_bytes):
    """The script with a fault put in at a random place, at its beginning or at its end.

    The place may lie inside a character of several bytes, which is a fault by itself.
    """
    place = chance.choice([0, len(script_bytes), chance.randrange(0, len(script_bytes) + 1)])
    return script_bytes[:place] + pick(chance, FAULTS) + script_bytes[place:]


def cut_short(chance, script_bytes):
    """The script without its last bytes, so that it may end inside a character or a word."""
    return script_bytes[: chance.randrange(0, len(script_bytes) + 1)]


def stretched(chance, script_bytes):
    """The script after so many blanks that a random place of it lies where one read of the program ends."""
    place = chance.randrange(0, len(script_bytes) + 1)
    return b" " * (chance.choice([1, 2]) * READ_BYTES - place % READ_BYTES) + script_bytes


# ---------------------------------------------------------------------------------------------------
# Whole scripts


# The widgets of the documents behind the first, and how many of each may be made.
MORE_WIDGETS = ((".u", ".ua", ".ub", ".uc"), (".v", ".va", ".vb", ".vc"), (".w", ".wa", ".wb", ".wc"))


def some_documents(chance):
    """The widgets of a script's documents: mostly of one, and of four at most."""
    first = chance.choice([(".t",), (".t",), (".t", ".p"), (".t", ".p"), (".t", ".p", ".q"), (".t", ".p", ".q", ".r")])
    count = chance.choices([0, 1, 2, 3], [6, 3, 1, 1])[0]
    return (first, *(names[: chance.choice([1, 1, 2, 4])] for names in MORE_WIDGETS[:count]))


def first_peers(chance):
    """The commands that make the further widgets of the script's documents."""
    return [
        [names[0], "peer", "create", name] + shown_lines(chance) for names in chance.documents for name in names[1:]
    ]


def first_text(chance):
    """A text of a few lines."""
    letters = chance.choice([CHARACTERS + "é€ ", "aabbAB", "ab"])
    return "\n".join("".join(chance.choices(letters, k=chance.randrange(0, 9))) for _ in range(chance.randrange(1, 6)))


def most_peers(chance):
    """The commands that make as many widgets as there may be, now and then more."""
    return [[".t", "peer", "create", f".w{number}"] for number in range(chance.choice([63, 64, 66]))]


def first_commands(chance):
    """The characters of the first commands: the widgets that the others name are made, and mostly have a text of a few lines."""
    words = []
    for name, *_ in chance.documents:
        words.append(["text", name] + (["-undo", "1"] if chance.random() < 0.5 else []))
        if chance.random() < 0.6:
            words.append([name, "insert", "end", first_text(chance)])
    words += most_peers(chance) if chance.random() < 0.03 else first_peers(chance)
    return "".join(" ".join(spelled(chance, word) for word in each) + command_end(chance) for each in words)


def commands(chance):
    """The characters of a script without faults.  Most begin with the widget that the others name."""
    count = chance.choice([0, 1, 3, 10, 20, 30])
    if chance.random() < 0.05:
        count = 300
    beginning = first_commands(chance) if chance.random() < 0.9 else ""
    if chance.random() < 0.02:
        beginning = "\ufeff" + beginning
    ending = chance.choice(["", "", command_end(chance), optional_blanks(chance)])
    parts = [part for _ in range(count) for part in next_commands(chance)]
    return beginning + "".join(part + command_end(chance) for part in parts[:-1]) + "".join(parts[-1:]) + ending


def valid_commands(chance):
    """The characters of a script in which no command is refused."""
    words = [["text", names[0]] for names in chance.documents]
    words += [[names[0], "insert", "1.0", lines_text(chance)] for names in chance.documents] + first_peers(chance)
    for _ in range(chance.randrange(0, 40)):
        words.append(chance.choice([
            lambda: [own_widget(chance), "insert", index(chance), text(chance)],
            lambda: [own_widget(chance), "insert", index(chance), text(chance), written_list(chance), text(chance)],
            lambda: [own_widget(chance), "delete", index(chance), index(chance), *near_span(chance)],
            lambda: [own_widget(chance), "replace", *near_span(chance), text(chance), written_list(chance), text(chance)],
            lambda: [own_widget(chance), "get", index(chance)],
            lambda: [own_widget(chance), "get", index(chance), index(chance)],
            lambda: [own_widget(chance), "get", index(chance), index(chance), index(chance)],
            lambda: [own_widget(chance), "index", index(chance)],
            lambda: [own_widget(chance), "tag", "add", tag_name(chance), near_begin(chance), index(chance)],
            lambda: [own_widget(chance), "tag", "remove", tag_name(chance), near_begin(chance)],
            lambda: [own_widget(chance), "tag", "nextrange", tag_name(chance), near_begin(chance)],
            lambda: [own_widget(chance), "tag", "prevrange", tag_name(chance), index(chance), near_begin(chance)],
            lambda: [own_widget(chance), "tag", "delete", tag_name(chance)],
            lambda: [own_widget(chance), "tag", "names", near_begin(chance)],
            lambda: [own_widget(chance), "tag", "ranges", tag_name(chance)],
            lambda: [own_widget(chance), "tag", "raise", "sel"],
            lambda: [own_widget(chance), "mark", "set", mark_name(chance), index(chance)],
            lambda: [own_widget(chance), "mark", "unset", mark_name(chance), mark_name(chance)],
            lambda: [own_widget(chance), "mark", "gravity", own_mark_name(chance), chance.choice(["left", "right"])],
            lambda: [own_widget(chance), "mark", "names"],
            lambda: [own_widget(chance), "mark", chance.choice(["next", "previous"]), index(chance)],
            lambda: [own_widget(chance), "search", "-nocase", "-all", "--", pattern(chance), near_begin(chance)],
            lambda: [own_widget(chance), "search", "-backwards", "--", pattern(chance), index(chance), near_begin(chance)],
            lambda: [own_widget(chance), "count", "-lines", "-chars", index(chance), index(chance)],
            lambda: [own_widget(chance), "dump", near_begin(chance), index(chance)],
            lambda: [own_widget(chance), "peer", "names"],
            lambda: [own_widget(chance), "cget", chance.choice(["-startline", "-endline"])],
            lambda: [own_widget(chance), "configure", *chance.choice([["-startline", ""], ["-endline", ""], ["-startline", "1"]])],
            lambda: [own_widget(chance), "configure", "-endline", "99"],
            lambda: [own_widget(chance), "edit", "modified"],
            lambda: [own_widget(chance), "edit", "modified", chance.choice(list(model.BOOLEANS))],
            lambda: [own_widget(chance), "edit", chance.choice(["undo", "redo", "separator", "reset"])],
            lambda: [own_widget(chance), "configure", "-maxundo", "3", "-autoseparators", chance.choice(list(model.BOOLEANS))],
            lambda: [own_widget(chance), "cget", chance.choice(list(OPTION_WORDS))],
        ])())
    return "".join(blanks(chance).join(spelled(chance, word) for word in each) + command_end(chance) for each in words)


def reading_commands(chance):
    """The characters of a script that makes one text with a few tags and marks, and then asks for what stands in it."""
    words = [["text", ".t"], [".t", "insert", "end", "".join(repeated_text(chance) for _ in range(chance.randrange(1, 5)))]]
    words += first_peers(chance)
    words += [pick(chance, [(tag_add_command, 1), (mark_set_command, 1)]) for _ in range(chance.randrange(0, 5))]
    words += [pick(chance, [(search_command, 6), (dump_command, 2), (count_command, 1)]) for _ in range(chance.randrange(1, 15))]
    return "".join(" ".join(spelled(chance, word) for word in each) + command_end(chance) for each in words)


# ---------------------------------------------------------------------------------------------------
# Scripts whose text has thousands of lines


def line_texts(chance, count):
    """So many short lines, without a newline behind the last."""
    return "\n".join(chance.choices(["", "a", "bc", "aab", "é d", "漢b"], k=count))


def far_place(chance):
    """A place anywhere in a long text, now and then behind its end."""
    return f"{chance.randrange(1, chance.lines + 3)}.{chance.choice([0, 0, 1, 2, 'end'])}"


def far_span(chance):
    """Two places in their order, from a few to hundreds of lines apart."""
    line = chance.randrange(1, chance.lines + 1)
    last = line + chance.choice([0, 0, 1, 2, 5, 13, 40, 150, 700])
    return [f"{line}.{chance.randrange(0, 3)}", f"{last}.{chance.choice([0, 1, 'end'])}"]


def short_span(chance):
    """Two places a few lines apart."""
    line = chance.randrange(1, chance.lines + 1)
    return [f"{line}.0", f"{line + chance.randrange(0, 9)}.{chance.choice([0, 1, 'end'])}"]


def far_lines(chance):
    """From a character to hundreds of lines."""
    return line_texts(chance, chance.choice([1, 2, 2, 3, 7, 13, 14, 40, 160, 400]))


LONG_EDITS = [
    (lambda chance: ["insert", far_place(chance), far_lines(chance)], 6),
    (lambda chance: ["insert", far_place(chance), far_lines(chance), written_list(chance), far_lines(chance)], 2),
    (lambda chance: ["delete", *far_span(chance)], 6),
    (lambda chance: ["delete", far_place(chance)], 1),
    (lambda chance: ["delete", *[word for _ in range(chance.randrange(2, 6)) for word in far_span(chance)]], 2),
    (lambda chance: ["replace", *far_span(chance), far_lines(chance)], 3),
    (lambda chance: ["tag", "add", tag_name(chance), *far_span(chance)], 5),
    (lambda chance: ["tag", "remove", tag_name(chance), *far_span(chance)], 2),
    (lambda chance: ["tag", "delete", tag_name(chance)], 0.5),
    (lambda chance: ["mark", "set", mark_name(chance), far_place(chance)], 5),
    (lambda chance: ["mark", "unset", mark_name(chance)], 0.5),
    (lambda chance: ["mark", "gravity", mark_name(chance), chance.choice(["left", "right"])], 1),
    (lambda chance: ["edit", chance.choice(["undo", "undo", "redo", "separator"])], 4),
    (lambda chance: ["configure", "-startline", str(chance.randrange(1, chance.lines))], 0.3),
    (lambda chance: ["configure", "-startline", "", "-endline", ""], 0.3),
]

LONG_QUERIES = [
    (lambda chance: ["index", far_place(chance)], 2),
    (lambda chance: ["index", far_place(chance) + chance.choice(["+700c", "-90c", "+200l", "-13l", " lineend", " wordstart"])], 2),
    (lambda chance: ["index", mark_name(chance)], 2),
    (lambda chance: ["index", "end"], 2),
    (lambda chance: ["index", tag_index(chance)], 1),
    (lambda chance: ["get", *short_span(chance)], 2),
    (lambda chance: ["count", "-lines", "-chars", far_place(chance), far_place(chance)], 1),
    (lambda chance: ["tag", "names", far_place(chance)], 1),
    (lambda chance: ["tag", "ranges", tag_name(chance)], 1),
    (lambda chance: ["tag", chance.choice(["nextrange", "prevrange"]), tag_name(chance), far_place(chance)], 2),
    (lambda chance: ["mark", chance.choice(["next", "previous"]), far_place(chance)], 2),
    (lambda chance: ["dump", *short_span(chance)], 2),
    (lambda chance: ["search", chance.choice(["-forwards", "-backwards"]), "--", pattern(chance), *short_span(chance)], 1),
]


def long_script(seed):
    """The script of a seed on a text of thousands of lines, as bytes: whatever list the lines are kept in, it grows and shrinks under every command."""
    chance = Chance(seed)
    chance.documents = chance.choice([((".t",),), ((".t", ".p"),), ((".t", ".p"), (".u",))])
    chance.lines = chance.choice([300, 1_000, 2_000, 4_000])
    words = []
    for name, *others in chance.documents:
        words.append(["text", name] + (["-undo", "1"] if chance.random() < 0.7 else []))
        words.append([name, "insert", "end", line_texts(chance, chance.lines)])
        words += [[name, "peer", "create", other] for other in others]
    for _ in range(chance.choice([10, 20, 40])):
        words.append([own_widget(chance)] + pick(chance, LONG_EDITS))
        words.append([own_widget(chance)] + pick(chance, LONG_QUERIES))
    return "".join(" ".join(spelled(chance, word) for word in each) + "\n" for each in words).encode("utf-8")


def script(seed):
    """The script of a seed, as bytes."""
    chance = Chance(seed)
    chance.documents = some_documents(chance)
    if chance.random() < 0.15:
        return valid_commands(chance).encode("utf-8")
    if chance.random() < 0.1:
        return reading_commands(chance).encode("utf-8")
    made = commands(chance).encode("utf-8")
    kind = chance.random()
    if kind < 0.4:
        made = with_fault(chance, made)
    elif kind < 0.5:
        made = cut_short(chance, made)
    if chance.random() < 0.05:
        made = stretched(chance, made)
    return made


def main():
    if len(sys.argv) != 2:
        sys.exit("usage: scripts.py SEED")
    sys.stdout.buffer.write(script(int(sys.argv[1])))


if __name__ == "__main__":
    main()
