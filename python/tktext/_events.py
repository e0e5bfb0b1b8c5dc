"""Bindings of events, and the argument of a handler."""

from __future__ import annotations

import sys
import traceback
from typing import TYPE_CHECKING, Any, Callable, NamedTuple

if TYPE_CHECKING:
    from ._text import Text

Handler = Callable[["Event"], Any]
MODIFIED, SELECTION = "<<Modified>>", "<<Selection>>"


class Event:
    """An event: `widget` is where it occurred, and `type` its sequence, such as `<<Modified>>`.

    >>> text = Text()
    >>> name = text.bind("<<Modified>>", lambda event: print(event.widget, event.type))
    >>> text.insert("1.0", "one")
    .!text <<Modified>>
    """

    def __init__(self, widget: Text, sequence: str) -> None:
        self.widget = widget
        self.type = sequence

    def __repr__(self) -> str:
        return f"<{self.type} of {self.widget}>"


class _Bound(NamedTuple):
    name: str
    handler: Handler


class Bindings:
    """The handlers of sequences."""

    def __init__(self) -> None:
        self._bound: dict[str, list[_Bound]] = {}

    def bind(self, sequence: str | None, handler: Handler | None, add: object) -> Any:
        """Binds a handler and returns its name; or returns the names of a sequence's handlers, or all sequences."""
        if sequence is None:
            return tuple(self._bound)
        if handler is None:
            return "\n".join(bound.name for bound in self._bound.get(sequence, ()))
        name = f"{id(handler)}{getattr(handler, '__name__', '')}"
        kept = self._bound.get(sequence, []) if add else []
        self._bound[sequence] = [*kept, _Bound(name, handler)]
        return name

    def unbind(self, sequence: str, name: str | None) -> None:
        """Removes the handler of a name, or all of a sequence."""
        kept = [bound for bound in self._bound.get(sequence, ()) if name is not None and bound.name != name]
        self._bound.pop(sequence, None)
        if kept:
            self._bound[sequence] = kept

    def has(self, *sequences: str) -> bool:
        return any(sequence in self._bound for sequence in sequences)

    def send(self, event: Event) -> None:
        """Calls the handlers of an event until one returns "break"."""
        for bound in list(self._bound.get(event.type, ())):
            if called(bound.handler, event) == "break":
                break


def called(handler: Handler, event: Event) -> Any:
    """Returns what a handler returns for an event.  What it raises is printed, as by tkinter."""
    try:
        return handler(event)
    except Exception as error:
        print_error(error)
        return None


def print_error(error: Exception) -> None:
    print("Exception in Tkinter callback", file=sys.stderr)
    traceback.print_exception(type(error), error, error.__traceback__)
