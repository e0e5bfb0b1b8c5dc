"""What a command changed, and the functions that are called with it."""

from __future__ import annotations

from itertools import starmap
from typing import TYPE_CHECKING, Any, Callable, Iterable, NamedTuple

from . import _core
from ._events import print_error

if TYPE_CHECKING:
    from ._text import Text


class Spot(NamedTuple):
    """A position in a text: its line, from 1, and the number of characters, bytes and units before it in that line.

    `column` counts characters, as Tk does, `bytes` those of UTF-8, as parsers do, and `units` those of UTF-16, as
    language servers do.

    >>> str(Spot(2, 1, 4, 2))
    '2.1'
    """

    line: int
    column: int
    bytes: int
    units: int

    def __str__(self) -> str:
        return f"{self.line}.{self.column}"


class Change(NamedTuple):
    """A change of a text: at the offset `at`, `removed` characters were replaced by the text `inserted`.

    It starts at the spot `start`; the deleted characters ended at `old_end`, in the text before the change, and the
    inserted ones end at `new_end`, in the text after it.
    """

    at: int
    removed: int
    inserted: str
    start: Spot
    old_end: Spot
    new_end: Spot

    def made_in(self, text: str) -> str:
        """Returns a text after the change."""
        return text[: self.at] + self.inserted + text[self.at + self.removed :]

    def moved(self, offset: int, gravity: str = "right") -> int:
        """Returns where the change takes a mark of a gravity from an offset: by its deletion, then by its insertion.

        >>> change = Change(2, 1, "xy", Spot(1, 2, 2, 2), Spot(1, 3, 3, 3), Spot(1, 4, 4, 4))
        >>> change.moved(2), change.moved(2, "left"), change.moved(5)
        (4, 2, 6)
        """
        offset = min(offset, self.at) + max(offset - self.at - self.removed, 0)
        is_after = offset > self.at or (offset == self.at and gravity == "right")
        return offset + len(self.inserted) if is_after else offset


class TagChange(NamedTuple):
    """A change of a tag: it was added (`on`) to the characters at the offsets from `at` to `end`, or removed from them.

    None of them had it before, or each did.  `sel` is the one of the widget whose follower is called.
    """

    tag: str
    at: int
    end: int
    on: bool

    def made_in(self, tagged: set[int]) -> set[int]:
        """Returns the offsets of the characters that have the tag after the change, from those that had it before."""
        span = range(self.at, self.end)
        return tagged.union(span) if self.on else tagged.difference(span)


class Position(NamedTuple):
    """Where a mark is: its offset, and its gravity, "left" or "right"."""

    offset: int
    gravity: str

    def moved_by(self, changes: Iterable[Change]) -> Position:
        """Returns where changes of the text alone take the mark, applied in order.

        >>> change = Change(2, 1, "xy", Spot(1, 2, 2, 2), Spot(1, 3, 3, 3), Spot(1, 4, 4, 4))
        >>> Position(5, "left").moved_by([change, change])
        Position(offset=7, gravity='left')
        """
        offset = self.offset
        for change in changes:
            offset = change.moved(offset, self.gravity)
        return Position(offset, self.gravity)


class MarkChange(NamedTuple):
    """A mark that isn't where the changes of the text take it, has another gravity, is new, or is gone.

    `widget` is the name of the widget whose `insert` or `current` it is, and "" for any other mark, which all peers
    share.  It was at the position `old` before the command, and is at `new` after it; None of a mark that wasn't there,
    or isn't, as the marks of a destroyed widget.
    """

    mark: str
    widget: str
    old: Position | None
    new: Position | None


class Content(NamedTuple):
    """The content of a report: the names of the followers' widgets that it concerns, and what changed.

    Each change of a tag has the name of the widget whose `sel` it is, or "", and each mark the names of the followers'
    widgets that it concerns: a `destroy` may report marks of several texts.
    """

    concerned: list[str]
    changes: list[Change]
    tags: list[tuple[TagChange, str]]
    marks: list[tuple[MarkChange, list[str]]]


def _position(parts: tuple[int, str] | None) -> Position | None:
    return None if parts is None else Position(*parts)


def _mark(
    mark: str, widget: str, old: tuple[int, str] | None, new: tuple[int, str] | None, names: list[str]
) -> tuple[MarkChange, list[str]]:
    return MarkChange(mark, widget, _position(old), _position(new)), names


def make_content(concerned: list[str], lists: tuple[list[Any], list[Any], list[Any]]) -> Content:
    """Returns the content of a report, which the extension has as tuples."""
    changes = [Change(*change[:3], *map(Spot._make, change[3:])) for change in lists[0]]
    tags = [(TagChange(*change), owner) for *change, owner in lists[1]]
    return Content(concerned, changes, tags, list(starmap(_mark, lists[2])))


# ---- what concerns a widget

Part = Callable[[Content, str], "list[Any]"]


def changes_for(content: Content, name: str) -> list[Change]:
    return list(content.changes)


def tags_for(content: Content, name: str) -> list[TagChange]:
    return [change for change, owner in content.tags if owner in ("", name)]


def marks_for(content: Content, name: str) -> list[MarkChange]:
    return [change for change, names in content.marks if name in names]


# In the order in which followers are called.
_PARTS = (changes_for, tags_for, marks_for)


def part_of(report: _core.Report, part: Part, name: str) -> list[Any]:
    """Returns one part of a report, if it concerns the widget of a name."""
    content = report.read()
    return part(content, name) if content is not None and name in content.concerned else []


class Follower:
    """A function that is called with one part of each report on the text that a widget shows: the extension does that.

    Without a function, which is None, reports are kept for `changes`; once it has ended, nothing is called either.
    """

    def __init__(self, text: Text, part: Part, function: Callable[[Any], Any] | None) -> None:
        self.text = text
        self.rank = _PARTS.index(part)
        self.follows_marks = part is marks_for
        self.function = function

    def part(self, report: _core.Report) -> list[Any]:
        """Returns what the function is called with; it isn't called with an empty list."""
        return [] if self.function is None else part_of(report, _PARTS[self.rank], self.text._name)

    def fail(self, error: Exception) -> None:
        """Prints what the function raised."""
        print_error(error)
