"""Worlds: texts with their widgets, and a script that may be fed in pieces."""

from __future__ import annotations

import operator
import struct
import weakref
from functools import partial
from typing import TYPE_CHECKING, Any, Callable, Iterable, Iterator, Sequence

from . import _core
from ._reports import Follower

if TYPE_CHECKING:
    from ._text import Text

# The number of values of the library's types for the four limits.
_LIMIT_NUMBERS = (2 ** (8 * struct.calcsize("N")), 2**16, 2**16, 2**16)


def _limits_of(limits: Iterable[int]) -> tuple[int, ...]:
    """The four limits, each a number that the library can be given as it is."""
    numbers = tuple(map(operator.index, limits))
    if len(numbers) != len(_LIMIT_NUMBERS):
        raise ValueError("the limits are four: characters, tags, marks and widgets")
    if not all(0 <= number < count for number, count in zip(numbers, _LIMIT_NUMBERS)):
        raise ValueError("no characters, or a limit above its maximum")
    return numbers


def _bytes_of(piece: Any) -> bytes:
    """The bytes of a buffer, all of them, whatever length a subclass of `bytes` reports."""
    return piece if type(piece) is bytes else bytes(memoryview(piece))


class World(_core.World):
    """Texts with their widgets, and a script that may be fed in pieces.

    `limits` are the maximum numbers of characters of a text, its last newline included (1 to 134217728), of tags of a
    text besides `sel` (960), of shared marks of a text (4096) and of widgets (64); these are the default.  A limit out
    of range raises ValueError, and out of memory MemoryError.

    Threads may share a world: a command runs and its report is queued as a whole.  A world can't be copied.

    >>> with World() as world:
    ...     world.call("text", ".t"), world.call(".t", "index", "end")
    ('.t', '2.0')
    """

    def __init__(self, limits: Iterable[int] | None = None) -> None:
        numbers = () if limits is None else _limits_of(limits)
        self._make(*numbers)
        self._made: dict[tuple[str, str], int] = {}
        self._texts: weakref.WeakValueDictionary[str, Text] = weakref.WeakValueDictionary()
        self._watched: list[Text] = []

    def __enter__(self) -> World:
        return self

    def __exit__(self, *_: object) -> None:
        self.close()

    def __reduce_ex__(self, _protocol: object) -> Any:
        """Refuses to copy or pickle a world, which has one handle."""
        raise TypeError("a world can't be copied")

    def close(self) -> None:
        """Deletes the world with its texts, and reports that weren't delivered; a second call is a no-op.

        >>> world = World()
        >>> world.close()
        >>> world.call("text", ".t")
        Traceback (most recent call last):
        ValueError: the world was closed
        """
        self._drop()

    def call(self, *words: object) -> str:
        """Runs a command of these words, and returns its answer.

        A word of bytes is UTF-8; any other is its `str`.  A refused command raises TclError, and changes nothing.  So
        does a MemoryError, unless memory ran out for the answer, or while the command was reported to functions: then
        it was carried out, and the rest of the report is delivered after the next command.

        >>> world = World()
        >>> world.call("text", ".t")
        '.t'
        >>> world.call(".t", "index")
        Traceback (most recent call last):
        _tkinter.TclError: wrong # args: should be ".t index index"
        """
        return self._run(words)

    def give(self, words: Sequence[Any]) -> int:
        """Runs a command whose words are bytes, and returns the code of the call, as in include/tktext.h.

        >>> world = World()
        >>> world.give([b"text", b".t"]), world.said()
        (0, b'.t\\n')
        """
        return self._give(list(map(_bytes_of, words)))

    def said(self) -> bytes:
        """Returns the output of the last command, as the program prints it: UTF-8, with its newline.

        After `give` and `lines` it is that of their command, whatever functions they called.  A command that another
        thread or a signal handler runs in between has its own; `call` returns the answer itself.

        >>> world = World()
        >>> world.give([b"foo"]), world.said()
        (1, b'error: invalid command name "foo"\\n')
        """
        return self._said()

    def feed(self, piece: Any) -> None:
        """Takes the next bytes of the script: UTF-8, cut anywhere.  No command runs yet.

        A piece is `bytes` or another buffer.  After `finish` it raises ValueError.

        >>> world = World()
        >>> world.feed(b"text .t\\n.t ins")
        >>> list(world.lines())
        [b'.t\\n']
        """
        self._feed(_bytes_of(piece))

    def finish(self) -> None:
        """Ends the script, and so its last command, which then needs no newline.

        >>> world = World()
        >>> world.feed(b"text .t")
        >>> world.finish()
        >>> list(world.lines())
        [b'.t\\n']
        """
        self._finish()

    def lines(self) -> Iterator[bytes]:
        """Runs the commands of the script that are complete, and yields the output of the program for each.

        Each runs when its output is requested.  A command is complete if it ends there however the script goes on.
        After the next `feed` or `finish`, call `lines` again for the rest.  After a parse error there are no more.

        >>> world = World()
        >>> world.feed(b"text .t; .t index end; .t index foo\\n")
        >>> for line in world.lines():
        ...     print(line)
        b'.t\\n'
        b'2.0\\n'
        b'error: bad text index "foo"\\n'
        """
        for _, line in self._turns():
            yield line

    def _turns(self) -> Iterator[tuple[int, bytes]]:
        """Yields what `lines` yields, each after its code of include/tktext.h."""
        while (turn := self._next()) is not None:
            yield turn

    def status(self) -> int:
        """Returns the exit status of the script so far: 2 after a parse error, 1 after a refused command, else 0.

        >>> world = World()
        >>> world.status()
        0
        """
        return self._status()

    # ---- widgets and their bindings

    def _name_child(self, parent: str, kind: str) -> str:
        """A new name, as tkinter makes it: .!text, .!text2."""
        number = self._made[parent, kind] = self._made.get((parent, kind), 0) + 1
        return f"{parent.rstrip('.')}.!{kind}{number if number > 1 else ''}"

    def _watch_text(self, text: Text, is_watched: bool) -> None:
        """Starts or stops checking after each command whether a widget has events."""
        self._watched = [other for other in self._watched if other is not text] + [text] * is_watched
        self._watch(bool(self._watched))

    def _look(self) -> None:
        """Queues the events of the last command: the extension calls this after each one."""
        for text in self._watched:
            for event in text._news():
                self._queue(partial(text._bindings.send, event))

    def _change_followers(self, added: Sequence[Follower], ended: Sequence[Follower] = ()) -> None:
        """Adds followers, and ends others."""
        for follower in ended:
            follower.function = None
        while True:
            old = self._followers()
            kept = [follower for follower in old if follower not in ended]
            kept += [follower for follower in added if follower not in old]
            new = tuple(sorted(kept, key=operator.attrgetter("rank")))
            names = tuple(follower.text._name for follower in new)
            follows_marks = any(follower.follows_marks for follower in new)
            # Another thread, or a handler, may have changed them in the meantime.
            if new == old or self._replace_followers(old, new, names, follows_marks):
                return
