"""The commands as crates/command_table/specs/Table.antt defines them: what tools/facts.py compares with the pages."""

import os
import re
from typing import NamedTuple, Optional

TOP = os.path.dirname(os.path.dirname(os.path.abspath(__file__)))
LITERAL = re.compile(r'literal "([^"]*)"')


class Command(NamedTuple):
    """What may stand behind the words of a subcommand: least and greatest number, options, switches."""

    least: int
    greatest: Optional[int]
    options: Optional[tuple] = None
    switches: Optional[tuple] = None


def text_of(*names):
    with open(os.path.join(TOP, *names), encoding="utf-8") as file:
        return file.read()


def definitions(page):
    """The text behind `name =` of each definition."""
    parts = re.split(r"^(\w+)(?: [\w ]*)? =", page, flags=re.M)
    return dict(zip(parts[1::2], parts[2::2]))


def number_of(word):
    """A greatest number: `None`, `Some 2` or `2`."""
    digits = re.search(r"\d+", word)
    return int(digits[0]) if digits else None


def switches_of(found, name):
    """The names of the switches of a rule, and whether they may be abbreviated."""
    return tuple(LITERAL.findall(found[name])), "abbreviated = true" in found[name]


def record_of(text):
    """The words and the command of an entry that is written out."""
    least, greatest = (re.search(rf"{name} = ([^;]*);", text)[1] for name in ("least", "greatest"))
    options = re.search(r"after = (\d+); valued = (\w+)", text)
    spelled = tuple(LITERAL.findall(re.search(r"spelling = ([^;]*);", text)[1]))
    return spelled, Command(int(least), number_of(greatest), (int(options[1]), options[2] == "true"))


def entry_of(found, entry):
    """The words and the command of an entry of the table."""
    words = tuple(LITERAL.findall(entry))
    kind, *rest = LITERAL.sub("", entry).replace("(", " ").replace(")", " ").split()
    if kind not in ("alone", "member", "switched"):
        return record_of(found[kind])
    _, *rule, least = rest[: -1 if rest[-2] != "Some" else -2]
    greatest = number_of(rest[-1])
    return words, Command(int(least), greatest, None, switches_of(found, rule[0]) if rule else None)


def defined_commands():
    """Each subcommand's words with what may stand behind them."""
    found = definitions(text_of("crates", "command_table", "specs", "Table.antt"))
    entries = [entry.strip() for entry in found["table"].split("∷")]
    return dict(entry_of(found, entry) for entry in entries if entry.split("--")[0].strip() != "[]")
