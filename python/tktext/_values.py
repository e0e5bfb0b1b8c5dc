"""Values as words, as tkinter makes them, and lists as Tcl spells them."""

from __future__ import annotations

from typing import Iterable

_SPELLED = {"\n": "\\n", "\t": "\\t", "\r": "\\r", "\v": "\\v", "\f": "\\f"}
_SPACE = set(" \t\n\r\v\f")
# What braces are put around for, and what a backslash alone is put in front of where nothing else asks for braces.
_BRACED = _SPACE | set("[$;\\")
_ESCAPED = set(']"')


def list_text(elements: Iterable[object]) -> str:
    """A list of these elements, as one word, spelled as Tcl does.

    >>> list_text(["a", "b c", 1])
    'a {b c} 1'
    """
    if isinstance(elements, str):
        return elements
    return " ".join(_quoted(word(element), number == 0) for number, element in enumerate(elements))


def _quoted(element: str, is_first: bool) -> str:
    """An element of a list: bare, in braces, or with backslashes."""
    is_comment = is_first and element.startswith("#")
    if not _can_be_braced(element):
        escaped = _escaped(element, "{}")
        return "\\" + escaped if is_comment else escaped
    if element == "" or is_comment or element[0] in '{"' or _BRACED & set(element):
        return "{" + element + "}"
    return _escaped(element, "") if _ESCAPED & set(element) else element


def _can_be_braced(element: str) -> bool:
    """Whether the element within braces is itself: its own are pairs, and no backslash meets its end or a new line."""
    depth, place = 0, 0
    while place < len(element) and depth >= 0:
        if element[place] == "\\":
            place += 1
            if place == len(element) or element[place] == "\n":
                return False
        else:
            depth += (element[place] == "{") - (element[place] == "}")
        place += 1
    return depth == 0


def _escaped(element: str, braces: str) -> str:
    special = _BRACED | _ESCAPED | set(braces)
    return "".join(_SPELLED.get(c, "\\" + c if c in special else c) for c in element)


def _float_text(number: float) -> str:
    """A number as Tcl spells it: without an exponent below 1e17, else with one that has no leading zeros."""
    digits, is_long, exponent = repr(number).partition("e")
    if not is_long:
        return {"inf": "Inf", "-inf": "-Inf", "nan": "NaN"}.get(digits, digits)
    if exponent != "+16":
        return f"{digits}e{int(exponent):+d}"
    return digits.replace(".", "").ljust(17 + digits.startswith("-"), "0") + ".0"


def word(value: object) -> str:
    """A value as a word, as tkinter makes it: 1 or 0, a list, characters with the numbers of the bytes, or its text."""
    if isinstance(value, str):
        return str.__str__(value)
    if isinstance(value, bytes):
        return bytes(memoryview(value)).decode("latin-1")
    if isinstance(value, (tuple, list)):
        return list_text(value)
    if isinstance(value, bool):
        return str(int(value))
    return _float_text(value) if type(value) is float else str(value)


def number_or_text(value: str) -> int | str:
    """A number, where it is one."""
    return int(value) if value.removeprefix("-").isdecimal() else value
