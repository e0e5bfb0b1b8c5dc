"""The core of Tk's text widget without a display.

`Text` has the methods of tkinter's `Text`, by the same names and with the same arguments, so code that calls them runs
on it.  docs/guide/python.md of the repository lists the methods, and answers common questions.

    from tktext import END, Text

    text = Text(undo=True)
    text.insert(END, "hello, wide world")
    text.edit_undo()

A refused command raises `TclError`, which is tkinter's if that is installed, and changes nothing.  The core's own
message is the error's `fault`.  Out of memory is `MemoryError`; `World.call` documents what was carried out then.

A `World` contains texts and their widgets; each `Text` creates its own unless it is given one.  Threads may share a
world and its widgets: one command runs at a time, with the global interpreter lock held.

`python3 -m tktext` runs scripts of commands, and has a prompt.
"""

from __future__ import annotations

from types import MethodType

try:
    from . import _core
except ImportError as error:
    raise ImportError(
        "tktext: the extension isn't built: run `make lib`, or `make try-lib` for an unproved one, and then "
        "`pip install .` at the top of the repository"
    ) from error
from ._errors import TclError, error_of_fault
from ._events import Event
from ._reports import Change, MarkChange, Position, Spot, TagChange, make_content
from ._values import list_text, word

_core.use(word, error_of_fault, make_content, MethodType)

from ._text import Text  # noqa: E402  (after what `_core` uses)
from ._world import World  # noqa: E402

# The version of the library, and whether it was proved: "2.0.0, proved" or "2.0.0, not proved".
library_version = _core.version
__version__ = library_version.partition(",")[0]

END = "end"
INSERT = "insert"
CURRENT = "current"
SEL = "sel"
SEL_FIRST = "sel.first"
SEL_LAST = "sel.last"

split_list = _core.split_list

for _public in (Change, Event, MarkChange, Position, Spot, TagChange, Text, World):
    # Its name is shown with the package that users import it from.
    _public.__module__ = __name__

__all__ = [
    "CURRENT", "Change", "END", "Event", "INSERT", "MarkChange", "Position", "SEL", "SEL_FIRST", "SEL_LAST", "Spot",
    "TagChange", "TclError", "Text", "World", "list_text", "split_list",
]
