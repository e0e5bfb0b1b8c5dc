#!/usr/bin/env python3
"""Writes the forms of the commands for include/hints.c, as C: what tools/build_library.py calls.

    python3 tools/forms.py > forms.h

The subcommands, their switches and their options are in `command_table/specs/Table.antt`, the words after these in
`command_table/src/commands.rt`, those for states and gravities in `command_effects/specs`, and those for comparisons in
`peers/specs`.
A form that takes another number of words than the table says is refused.
"""

import re
import sys

import table

# The letters of the forms, by the words that Tk's manual page has for them.
WORDS = {"W": "pathName", "V": "pathName", "I": "index", "J": "index2", "A": "index1", "B": "index2", "M": "markName",
         "T": "tagName", "U": "tagName", "bool": "boolean"}
FORM = re.compile(r"/// `([^`]*)`\n")
# What stands before the arguments where a command takes switches.
SWITCHES = re.compile(r"\?(?:switch|option) \.\.\? ")
OPTIONAL = re.compile(r"\?([^?]*)\?")
FIRST_WORDS = ("text", "destroy")
HEAD = "/* Written by tools/forms.py, which says from what. */\n\n"
TABLES = """static const struct form text_form = {text};
static const struct form destroy_form = {destroy};
static const struct form forms[] = {{
    {forms},
}};
static const struct family families[] = {{
    {families},
}};
static const char subcommands[] = {subcommands};
static const char *const option_names[] = {{{option_names}}};
static const char options[] = {options}, states[] = {states};
static const char comparisons[] = {comparisons}, gravities[] = {gravities};
"""


def one_of(words):
    """The words as a choice: `a`, `a or b`, `a, b, or c`."""
    *others, last = words
    return f"{', '.join(others)}{',' * (len(others) > 1)} or {last}" if others else last


def literal(text):
    """A text as C spells it, or none."""
    return "NULL" if text is None else '"' + text.replace("\\", "\\\\").replace('"', '\\"') + '"'


def written_forms():
    """The arguments in the form of each command, by the words that it begins with behind a widget's name."""
    forms = {}
    names = sorted((" ".join(words) for words in table.defined_commands()), key=len, reverse=True)
    for form in FORM.findall(table.text_of("crates", "command_table", "src", "commands.rt")):
        first, _, rest = form.partition(" ")
        if first in FIRST_WORDS:
            forms[first] = rest
            continue
        name = next((it for it in names if f"{rest} ".startswith(f"{it} ")), None)
        if first != "W" or name is None:
            sys.exit(f"crates/command_table/src/commands.rt has the form of no command: {form}")
        forms[name] = rest[len(name) :].strip()
    return forms


def counts_of(form):
    """The least and the greatest number of words of a form, without its switches."""
    optional = OPTIONAL.findall(form)
    least = len(OPTIONAL.sub("", form).split())
    has_end = not any(".." in part for part in optional)
    return least, least + sum(len(part.split()) for part in optional) if has_end else None


def checked_forms():
    """The forms of all commands, each with as many words as the table says."""
    forms = written_forms()
    for words, command in table.defined_commands().items():
        name = " ".join(words)
        form = forms.get(name, "")
        counts = counts_of(SWITCHES.sub("", form) if command.switches else form)
        if name not in forms or counts != (command.least, command.greatest):
            sys.exit(f"crates/command_table/src/commands.rt has another form of {name} than the table: {form!r}")
    return forms


def told(form):
    """A form in the words that a user reads."""
    words = re.sub(r"\w+", lambda it: WORDS.get(it[0], it[0]), form)
    return words.replace("..?", "...?")


def entry(name, form, command):
    """A form as C has it."""
    first, second = [*name.split(), None, None][:2]
    switches = one_of(sorted(command.switches[0])) if command and command.switches else None
    after, is_paired = (command and command.options) or (-1, False)
    texts = (first, second, f"{name} {told(form)}".strip(), switches)
    return f"{{{', '.join(map(literal, texts))}, {after}, {int(is_paired)}}}"


def entry_of_text(form):
    """The same of `text`, whose options stand behind the name of the widget."""
    return f"{{NULL, NULL, {literal(told(form))}, NULL, 1, 1}}"


def words_of(crate, name, definition):
    """The literals of a definition in the `specs` of a crate."""
    page = table.text_of("crates", crate, "specs", f"{name}.antt")
    body = re.search(rf"^{definition} \w+ =(.*?)(?=^\S)", page, re.MULTILINE | re.DOTALL)
    if body is None:
        sys.exit(f"crates/{crate}/specs/{name}.antt doesn't define {definition}")
    return table.LITERAL.findall(body[1])


def option_names():
    page = table.text_of("crates", "command_table", "specs", "Table.antt")
    return table.LITERAL.findall(table.definitions(page)["option_names"])


def header():
    """The tables as C."""
    commands, written = table.defined_commands(), checked_forms()
    families = sorted({words[0] for words in commands if len(words) > 1})
    members = {family: sorted(words[1] for words in commands if words[0] == family) for family in families}
    lines = [f'{{"{it}", "{it} option ?arg ...?", "{one_of(members[it])}"}}' for it in families]
    return HEAD + TABLES.format(
        text=entry_of_text(written["text"]),
        destroy=f"{{NULL, NULL, {literal(told(written['destroy']))}, NULL, -1, 0}}",
        forms=",\n    ".join(entry(" ".join(words), written[" ".join(words)], it) for words, it in commands.items()),
        families=",\n    ".join(lines),
        subcommands=literal(one_of(sorted({words[0] for words in commands}))),
        option_names=", ".join(map(literal, option_names())), options=literal(one_of(sorted(option_names()))),
        states=literal(one_of(sorted(words_of("command_effects", "Settings", "state_of")))),
        comparisons=literal(one_of(words_of("peers", "Comparisons", "comparison_of"))),
        gravities=literal(one_of(words_of("command_effects", "Marking", "gravity_of"))),
    )


def main(words):
    if words:
        print(__doc__)
        return 2
    print(header(), end="")
    return 0


if __name__ == "__main__":
    sys.exit(main(sys.argv[1:]))
