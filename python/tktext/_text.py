"""The widget."""

from __future__ import annotations

import sys
from functools import WRAPPER_ASSIGNMENTS, partial
from typing import Any, Callable, Mapping, Protocol, TypeVar, cast

from . import _core, _options
from ._errors import TclError, refusal
from ._events import MODIFIED, SELECTION, Bindings, Event, Handler
from ._reports import Change, Follower, MarkChange, Part, TagChange, changes_for, marks_for, part_of, tags_for
from ._values import list_text, number_or_text, word
from ._world import World

# How an answer is returned by `_ask`.
_AS_TEXT, _AS_TUPLE, _AS_NOTHING = 0, 1, 3
_HAS_MORE = 0x04  # The flag of a function's code that takes any number of values.
_SEL = "sel"
_NO_IMAGES = "images can't be embedded: the widget isn't drawn"
_NO_WINDOWS = "windows can't be embedded: the widget isn't drawn"
_NOT_HELD = frozenset(("image", "window"))
# What `count` can be asked for, by what the core counts: nothing is hidden, and nothing is to be brought up to date.
_COUNTED = {"displaychars": "chars", "displayindices": "indices"}
_TRUE, _FALSE = frozenset(("1", "true", "yes", "on")), frozenset(("0", "false", "no", "off"))


class Variable(Protocol):
    """What `search` can set: a variable of tkinter's, or anything with `set`."""

    def set(self, value: Any) -> Any: ...


_Options = Mapping[str, Any]
_Method = TypeVar("_Method", bound=Callable[..., Any])


def _direct(form: int, *words: str) -> Callable[[_Method], _Method]:
    """Makes a method that passes its values on after fixed words; a call by position skips its function."""

    def made(function: _Method) -> _Method:
        code, defaults = function.__code__, function.__defaults__ or ()
        most = code.co_argcount - 1
        least = most - len(defaults)
        direct = _core.Direct(function, words, least, sys.maxsize if code.co_flags & _HAS_MORE else most, form)
        for name in WRAPPER_ASSIGNMENTS:
            setattr(direct, name, getattr(function, name))
        setattr(direct, "__wrapped__", function)
        return cast(_Method, direct)

    return made


def _merged(cnf: Any, given: _Options, synonyms: Mapping[str, str] = _options.SYNONYMS) -> dict[str, Any]:
    """Options as tkinter takes them: mappings, then those of a call, each without a last underscore."""
    parts = cnf if isinstance(cnf, (tuple, list)) else [cnf or {}]
    merged = {name: value for part in [*parts, given] for name, value in (part or {}).items()}
    names = ((name[:-1] if name.endswith("_") else name) for name in merged)
    full = (synonyms.get(name, name) for name in names)
    return {name: value for name, value in zip(full, merged.values()) if value is not None}


def _words(options: _Options) -> list[Any]:
    return [part for name, value in options.items() for part in ("-" + name, value)]


def _kept(name: str, value: Any) -> Any:
    """An option's value as tkinter would return it."""
    if isinstance(value, bool):
        return int(value)
    if name == "font" and isinstance(value, (tuple, list)):
        return list_text(value)
    if name == "tabs" and isinstance(value, str):
        try:
            parts = _core.split_list(value)
        except ValueError as error:
            raise refusal(str(error)) from None
        return parts if len(parts) > 1 else value
    return number_or_text(value) if isinstance(value, str) and name not in ("font", "tabs") else value


def _parted(options: _Options) -> tuple[list[Any], dict[str, Any]]:
    """The words of those options that are the core's, and what is kept of those of drawing."""
    core = {name: value for name, value in options.items() if name not in _options.DRAWN}
    return _words(core), {name: _kept(name, value) for name, value in options.items() if name in _options.DRAWN}


def _option(name: str) -> str:
    """The name of an option without a minus before it or an underscore after it."""
    bare = name[1:] if name[:1] == "-" else name
    return bare[:-1] if bare[-1:] == "_" else bare


class Text(_core.Widget):
    """A text widget as tkinter's `Text`, without a display: one of a text of its own, or a peer.

    `master` is a `World` in which the widget is created, or a `Text` whose world is used; with anything else the widget
    has a new world.  Options are as tkinter's, by `cnf` or by name: `undo`, `maxundo`, `autoseparators`, `state`,
    `startline` and `endline` have an effect; drawing options are only stored.  `name` is a full widget name that begins
    with a dot, or a name below the master; without it names are those that tkinter would choose.

    An index is a string: `"1.0"` (lines count from 1, characters from 0), `"end"`, a mark's name, `"sel.first"`,
    `"insert + 2 chars"` or `"1.0 lineend"`.  A bad index raises `TclError`.  A refused command changes nothing.  For
    MemoryError see `World.call`.

    >>> with Text(undo=True) as text:
    ...     text.insert(END, "hello, wide world")
    ...     text.tag_add("bold", "1.7", "1.11")
    ...     text.get("bold.first", "bold.last"), str(text)
    ('wide', '.!text')
    """

    world: World
    master: Any
    _drawn: dict[str, Any]

    def __init__(self, master: Any = None, cnf: Any = None, **kw: Any) -> None:
        options = _merged(cnf, kw)
        world = master if isinstance(master, World) else master.world if isinstance(master, Text) else None
        self._owns_world = world is None
        world = World() if world is None else world
        given = options.pop("name", None)
        parent = str(master) if isinstance(master, Text) else "."
        if given is None:
            name = world._name_child(parent, type(self).__name__.lower())
        else:
            name = word(given) if word(given).startswith(".") else f"{parent.rstrip('.')}.{word(given)}"
        core, drawn = _parted(options)
        world.call("text", name, *map(word, core))
        self._begin(world, name)
        self.master = world if master is None else master
        self._drawn = drawn

    def _begin(self, world: World, name: str, shared: dict[str, dict[str, str]] | None = None) -> None:
        """Makes this the widget of a name; `shared` are the options of the text's tags."""
        self._join(world, name)
        self.world, self._name, self.master = world, name, world
        self._drawn = {}
        self._tags: dict[str, dict[str, str]] = {} if shared is None else shared
        self._own_tags: dict[str, dict[str, str]] = {}
        self._bindings = Bindings()
        self._virtual: dict[str, dict[str, None]] = {}
        self._tag_bindings: dict[str, Bindings] = {}
        self._known: tuple[str, tuple[str, ...]] = ("0", ())
        self._is_debugged = False
        world._texts[name] = self

    @classmethod
    def named(cls, world: World, name: str) -> Text:
        """Returns the widget of this name in a world, for example one that a script created.

        >>> world = World()
        >>> world.call("text", ".t")
        '.t'
        >>> Text.named(world, ".t").index(END)
        '2.0'
        """
        known = world._texts.get(name)
        if known is not None:
            return known
        found = cls.__new__(cls)
        found._owns_world = False
        found._begin(world, name)
        return found

    def __str__(self) -> str:
        return self._name

    def __repr__(self) -> str:
        return f"<{type(self).__module__}.{type(self).__qualname__} object {self._name}>"

    def __enter__(self) -> Text:
        return self

    def __exit__(self, *_: object) -> None:
        """Deletes the widget, and its world if they were created together."""
        if self._owns_world:
            self.world.close()
        else:
            self.destroy()

    def __copy__(self) -> Text:
        return self

    def __reduce_ex__(self, _protocol: object) -> Any:
        raise TypeError("a widget can't be copied")

    # ---- texts

    @_direct(_AS_NOTHING, "insert")
    def insert(self, index: object, chars: object, *args: object) -> None:
        """Inserts characters before the one at an index; at the end, before the last newline.

        A tag or a tuple of tags may follow the characters, then more characters and tags.  Characters without a tag
        argument have the tags that both neighbours have.  A text that would be too long raises TclError.

        >>> text = Text()
        >>> text.insert("1.0", "one ", "a", "two")
        >>> text.get("1.0", END), text.tag_ranges("a")
        ('one two\\n', ('1.0', '1.4'))
        """
        self._do("insert", index, chars, *args)

    @_direct(_AS_NOTHING, "delete")
    def delete(self, index1: object, index2: object = None) -> None:
        """Deletes the characters from one index to before another, or the one at it.  The last newline stays.

        >>> text = Text()
        >>> text.insert("1.0", "one two")
        >>> text.delete("1.0", "1.4")
        >>> text.get("1.0", "1.end")
        'two'
        """
        self._do("delete", index1, index2)

    @_direct(_AS_NOTHING, "replace")
    def replace(self, index1: object, index2: object, chars: object, *args: object) -> None:
        """Replaces the characters from one index to before another by others, with tags as in `insert`.

        A second index before the first one raises TclError.

        >>> text = Text()
        >>> text.insert("1.0", "one two")
        >>> text.replace("1.0", "1.3", "1")
        >>> text.get("1.0", "1.end")
        '1 two'
        """
        self._do("replace", index1, index2, chars, *args)

    @_direct(_AS_TEXT, "get")
    def get(self, index1: object, index2: object = None) -> str:
        """Returns the characters from one index to before another, or the one at it.

        >>> text = Text()
        >>> text.insert("1.0", "one")
        >>> text.get("1.0"), text.get("1.1", END)
        ('o', 'ne\\n')
        """
        return self._text("get", index1, index2)

    @_direct(_AS_TEXT, "index")
    def index(self, index: object) -> str:
        """Returns an index in the form line.character.

        >>> text = Text()
        >>> text.insert("1.0", "one")
        >>> text.index("end - 1 chars"), text.index(INSERT)
        ('1.3', '1.3')
        """
        return self._text("index", index)

    def compare(self, index1: object, op: str, index2: object) -> bool:
        """Compares two indices; `op` is <, <=, ==, >=, > or !=.

        >>> Text().compare("1.0", "<", END)
        True
        """
        return self._text("compare", index1, op, index2) == "1"

    def count(self, index1: object, index2: object, *args: str, return_ints: bool = False) -> Any:
        """Returns the number of characters between two indices, negative if the second is before the first.

        Options select what is counted: `"chars"`, `"indices"` (the same here), `"lines"`, `"displaychars"` and
        `"displayindices"`; `"update"` is a no-op.  Display lines and pixels raise TclError.  As in tkinter, a single
        number is returned in a tuple, and as None if it is 0; with `return_ints` it is an int.

        >>> text = Text()
        >>> text.insert("1.0", "one\\ntwo")
        >>> text.count("1.0", END), text.count("1.0", END, "chars", "lines"), text.count("1.0", "1.0")
        ((8,), (8, 2), None)
        """
        counted = ["-" + _COUNTED.get(arg, arg) for arg in args if arg != "update"]
        counts = tuple(map(int, self._tuple("count", *counted, index1, index2)))
        if len(counts) != 1:
            return counts
        if return_ints:
            return counts[0]
        if counts == (0,):
            return None
        return counts if len(args) <= 1 else counts[0]

    def search(self, pattern: object, index: object, stopindex: object = None, forwards: object = None,
               backwards: object = None, exact: object = None, *, nocase: object = None,
               count: Variable | None = None, strictlimits: object = None) -> str:
        """Returns the index of the first match from an index on, or "".

        The search wraps around, unless `stopindex` limits it.  `backwards` searches towards the start, `nocase`
        compares by simple case folding, and `strictlimits` requires the whole match before `stopindex`.  `count` is a
        tkinter variable, or any object with `set`: it is set to the length of a match in characters.  The pattern is
        plain text: there is no `regexp`, and no `elide`, since nothing is hidden.

        >>> text = Text()
        >>> text.insert("1.0", "one two one")
        >>> text.search("one", "1.1"), text.search("ONE", "1.1", nocase=True), text.search("six", "1.0")
        ('1.8', '1.8', '')
        """
        flags = _flags(forwards=forwards, backwards=backwards, exact=exact, nocase=nocase, strictlimits=strictlimits)
        found = self._text("search", *flags, "--", pattern, index, stopindex or None)
        if count is not None and found:
            _set(count, len(word(pattern)))
        return found

    def search_all(self, pattern: object, index: object, stopindex: object = None, *, backwards: object = None,
                   nocase: object = None, overlap: object = None, count: Variable | None = None,
                   strictlimits: object = None) -> tuple[str, ...]:
        """Returns the indices of all matches; with `overlap` also of those that share characters with an earlier one.

        `count` is set to a tuple of the lengths.

        >>> text = Text()
        >>> text.insert("1.0", "aaa")
        >>> text.search_all("aa", "1.0"), text.search_all("aa", "1.0", overlap=True)
        (('1.0',), ('1.0', '1.1'))
        """
        flags = _flags(backwards=backwards, nocase=nocase, overlap=overlap, strictlimits=strictlimits)
        found = self._tuple("search", "-all", *flags, "--", pattern, index, stopindex or None)
        if count is not None and found:
            _set(count, (len(word(pattern)),) * len(found))
        return found

    def dump(self, index1: object, index2: object = None, command: Callable[[str, str, str], Any] | None = None,
             **kw: object) -> list[tuple[str, str, str]] | None:
        """Returns a list of (kind, value, index) for a range, or calls `command` with the three for each.

        A kind is `"text"`, `"tagon"`, `"tagoff"` or `"mark"`; `text`, `tag` and `mark` select kinds.  There are no
        images and no windows.

        >>> text = Text()
        >>> text.insert("1.0", "one", "a")
        >>> text.dump("1.0", "1.end", text=True, tag=True)
        [('tagon', 'a', '1.0'), ('text', 'one', '1.0')]
        """
        kinds = [name for name, is_set in kw.items() if is_set]
        held = ["-" + kind for kind in kinds if kind not in _NOT_HELD]
        # Where nothing but images or windows is asked for, the indices alone are looked at.
        found = self._triples("dump", *held, index1, index2 or None)
        if kinds and not held:
            found = []
        if command is None:
            return found
        for part in found:
            command(*part)
        return None

    # ---- tags

    @_direct(_AS_NOTHING, "tag", "add")
    def tag_add(self, tagName: object, index1: object, *args: object) -> None:
        """Adds a tag to the characters from one index to before another, or to the one at it; more pairs may follow.

        Too many tags raise TclError.

        >>> text = Text()
        >>> text.insert("1.0", "one two")
        >>> text.tag_add("a", "1.0", "1.3", "1.6")
        >>> text.tag_ranges("a")
        ('1.0', '1.3', '1.6', '1.7')
        """
        self._do("tag", "add", tagName, index1, *args)

    @_direct(_AS_NOTHING, "tag", "remove")
    def tag_remove(self, tagName: object, index1: object, index2: object = None) -> None:
        """Removes a tag from the characters from one index to before another, or from the one at it.

        >>> text = Text()
        >>> text.insert("1.0", "one two", "a")
        >>> text.tag_remove("a", "1.0", "1.3")
        >>> text.tag_ranges("a")
        ('1.3', '1.7')
        """
        self._do("tag", "remove", tagName, index1, index2)

    def tag_names(self, index: object = None) -> tuple[str, ...]:
        """Returns all tags, or those of the character at an index, from the lowest priority to the highest.

        >>> Text().tag_names()
        ('sel',)
        """
        return self._tuple("tag", "names", index)

    def tag_ranges(self, tagName: object) -> tuple[str, ...]:
        """Returns the start and the end of each range of a tag.

        >>> text = Text()
        >>> text.insert("1.0", "one", "a")
        >>> text.tag_ranges("a")
        ('1.0', '1.3')
        """
        return self._tuple("tag", "ranges", tagName)

    def tag_nextrange(self, tagName: object, index1: object, index2: object = None) -> tuple[str, ...]:
        """Returns the first range of a tag that starts at an index or after it, and before another; or ().

        >>> text = Text()
        >>> text.insert("1.0", "one", "a")
        >>> text.tag_nextrange("a", "1.0"), text.tag_nextrange("a", "1.1")
        (('1.0', '1.3'), ())
        """
        return self._tuple("tag", "nextrange", tagName, index1, index2)

    def tag_prevrange(self, tagName: object, index1: object, index2: object = None) -> tuple[str, ...]:
        """Returns the last range of a tag that starts before an index, and not before another; or ().

        >>> text = Text()
        >>> text.insert("1.0", "one", "a")
        >>> text.tag_prevrange("a", END), text.tag_prevrange("a", "1.0")
        (('1.0', '1.3'), ())
        """
        return self._tuple("tag", "prevrange", tagName, index1, index2)

    def tag_raise(self, tagName: object, aboveThis: object = None) -> None:
        """Moves a tag to the highest priority, or directly above another one.

        >>> text = Text()
        >>> text.insert("1.0", "one", "a")
        >>> text.tag_raise("sel")
        >>> text.tag_names()
        ('a', 'sel')
        """
        self._do("tag", "raise", tagName, aboveThis)

    def tag_lower(self, tagName: object, belowThis: object = None) -> None:
        """Moves a tag to the lowest priority, or directly below another one.

        >>> text = Text()
        >>> text.insert("1.0", "one", "a")
        >>> text.tag_lower("a")
        >>> text.tag_names()
        ('a', 'sel')
        """
        self._do("tag", "lower", tagName, belowThis)

    def tag_delete(self, *tagNames: object) -> None:
        """Deletes tags, with their ranges, options and bindings; `sel` stays.

        >>> text = Text()
        >>> text.insert("1.0", "one", "a")
        >>> text.tag_delete("a")
        >>> text.tag_names()
        ('sel',)
        """
        self._do("tag", "delete", *tagNames)
        for name in map(word, tagNames):
            self._tags.pop(name, None)
            self._tag_bindings.pop(name, None)

    def tag_configure(self, tagName: object, cnf: Any = None, **kw: Any) -> Any:
        """Stores drawing options of a tag, and creates it if it is new; peers share all but those of `sel`.

        Without options it returns all, and with the name of one that one, as tkinter does.

        >>> text = Text()
        >>> text.tag_configure("a", foreground="red")
        >>> text.tag_configure("a", "foreground")
        ('foreground', '', '', '', 'red')
        """
        tag = word(tagName)
        if isinstance(cnf, str):
            return self._tag_option(tag, _option(cnf))
        given = {name: word(value) for name, value in _merged(cnf, kw, {}).items()}
        for name in given:
            _check_tag_option(name)
        if tag not in self.tag_names():
            self._do("tag", "add", tag, "end", "end")
        if not given:
            return {name: self._tag_option(tag, name) for name in _options.OF_TAGS}
        self._options_of_tag(tag).update(given)
        return None

    tag_config = tag_configure

    def tag_cget(self, tagName: object, option: str) -> str:
        """Returns an option that was stored for a tag, or "".  An unknown tag or option raises TclError.

        >>> text = Text()
        >>> text.tag_configure("a", foreground="red")
        >>> text.tag_cget("a", "foreground"), text.tag_cget("a", "underline")
        ('red', '')
        """
        tag, name = word(tagName), _option(option)
        if tag not in self.tag_names():
            raise refusal(f"tag \"{tag}\" isn't defined in text widget")
        return self._tag_option(tag, name)[4]

    def _options_of_tag(self, tag: str) -> dict[str, str]:
        return (self._own_tags if tag == _SEL else self._tags).setdefault(tag, {})

    def _tag_option(self, tag: str, name: str) -> tuple[str, str, str, str, str]:
        _check_tag_option(name)
        kept = (self._own_tags if tag == _SEL else self._tags).get(tag, {})
        return (name, "", "", "", kept.get(name, ""))

    def tag_bind(self, tagName: object, sequence: str | None = None, func: Handler | None = None,
                 add: object = None) -> Any:
        """Stores a handler for events on a tag, which never occur here, and returns its name.

        >>> text = Text()
        >>> name = text.tag_bind("a", "<1>", print)
        >>> text.tag_bind("a")
        ('<1>',)
        """
        return self._tag_bindings.setdefault(word(tagName), Bindings()).bind(sequence, func, add)

    def tag_unbind(self, tagName: object, sequence: str, funcid: str | None = None) -> None:
        """Removes the handlers of `tag_bind` for a sequence, or one handler by its name.

        >>> text = Text()
        >>> name = text.tag_bind("a", "<1>", print)
        >>> text.tag_unbind("a", "<1>", name)
        >>> text.tag_bind("a")
        ()
        """
        self._tag_bindings.setdefault(word(tagName), Bindings()).unbind(sequence, funcid)

    # ---- marks

    @_direct(_AS_NOTHING, "mark", "set")
    def mark_set(self, markName: object, index: object) -> None:
        """Sets a mark before the character at an index, and creates it if it is new.  Too many raise TclError.

        >>> text = Text()
        >>> text.insert("1.0", "one")
        >>> text.mark_set("m", "1.1")
        >>> text.index("m")
        '1.1'
        """
        self._do("mark", "set", markName, index)

    def mark_unset(self, *markNames: object) -> None:
        """Deletes marks; `insert` and `current` stay.

        >>> text = Text()
        >>> text.mark_set("m", "1.0")
        >>> text.mark_unset("m")
        >>> text.mark_names()
        ('insert', 'current')
        """
        self._do("mark", "unset", *markNames)

    def mark_names(self) -> tuple[str, ...]:
        """Returns the names of all marks.

        >>> Text().mark_names()
        ('insert', 'current')
        """
        return self._tuple("mark", "names")

    def mark_next(self, index: object) -> str | None:
        """Returns the next mark at an index or after it, or None; for the name of a mark, the mark after it.

        >>> Text().mark_next("1.0")
        'insert'
        """
        return self._text("mark", "next", index) or None

    def mark_previous(self, index: object) -> str | None:
        """Returns the previous mark before an index, or None; for the name of a mark, the mark before it.

        >>> Text().mark_previous("current")
        'insert'
        """
        return self._text("mark", "previous", index) or None

    def mark_gravity(self, markName: object, direction: str | None = None) -> str:
        """Returns the gravity of a mark, `"left"` or `"right"`; or sets it, and returns "".

        >>> text = Text()
        >>> text.mark_gravity(INSERT), text.mark_gravity(INSERT, "left"), text.mark_gravity(INSERT)
        ('right', '', 'left')
        """
        return self._text("mark", "gravity", markName, direction)

    # ---- the history

    def edit(self, *args: object) -> Any:
        """Runs a subcommand of `edit`: `modified`, `redo`, `reset`, `separator` or `undo`, as the methods below.

        `canundo` and `canredo` return 1 if there is something to undo or to redo, else 0.

        >>> text = Text(undo=True)
        >>> text.insert("1.0", "one")
        >>> text.edit("modified"), text.edit("canundo"), text.edit("canredo")
        (1, 1, 0)
        """
        if args in (("canundo",), ("canredo",)):
            return self._can(args == ("canredo",))
        return number_or_text(self._text("edit", *args))

    def edit_undo(self) -> str:
        """Reverts the last group of edits, if `undo` is set.  Raises TclError if there is none.

        >>> text = Text(undo=True)
        >>> text.insert("1.0", "one")
        >>> text.edit_undo()
        ''
        >>> text.get("1.0", END)
        '\\n'
        """
        return self._text("edit", "undo")

    def edit_redo(self) -> str:
        """Makes the group again that was undone last.  Raises TclError if there is none.

        >>> text = Text(undo=True)
        >>> text.insert("1.0", "one")
        >>> text.edit_undo(), text.edit_redo(), text.get("1.0", END)
        ('', '', 'one\\n')
        """
        return self._text("edit", "redo")

    def edit_separator(self) -> str:
        """Closes the last group of edits.

        >>> text = Text(undo=True)
        >>> text.insert("1.0", "one")
        >>> text.edit_separator()
        ''
        >>> text.insert(END, " two")
        >>> text.edit_undo(), text.get("1.0", END)
        ('', 'one\\n')
        """
        return self._text("edit", "separator")

    def edit_reset(self) -> str:
        """Deletes the history: nothing can be undone or redone.

        >>> Text().edit_reset()
        ''
        """
        return self._text("edit", "reset")

    def edit_modified(self, arg: object = None) -> Any:
        """Returns 1 if the text was edited, else 0; or sets that, and returns "".

        >>> text = Text()
        >>> text.insert("1.0", "one")
        >>> text.edit_modified(), text.edit_modified(False), text.edit_modified()
        (1, '', 0)
        """
        return self.edit("modified", arg)

    # ---- peers and options

    def peer_create(self, newPathName: object, cnf: Any = None, **kw: Any) -> Text:
        """Creates another widget of the same text, and returns it; tkinter returns None.

        Too many widgets, or a name in use, raise TclError.

        >>> text = Text()
        >>> peer = text.peer_create(".p", startline=1)
        >>> text.insert("1.0", "one")
        >>> str(peer), peer.get("1.0", END)
        ('.p', 'one\\n')
        """
        core, drawn = _parted(_merged(cnf, kw))
        self._do("peer", "create", newPathName, *core)
        peer = Text.__new__(Text)
        peer._owns_world = False
        peer._begin(self.world, word(newPathName), self._tags)
        peer._drawn = drawn
        return peer

    def peer_names(self) -> tuple[str, ...]:
        """Returns the names of the other widgets of the text.

        >>> text = Text()
        >>> peer = text.peer_create(".p")
        >>> text.peer_names(), peer.peer_names()
        (('.p',), ('.!text',))
        """
        return self._tuple("peer", "names")

    def cget(self, key: str) -> Any:
        """Returns the value of an option: an int if it is a number.  An unknown option raises TclError.

        >>> text = Text(undo=True, width=20)
        >>> text.cget("undo"), text["width"], text["wrap"]
        (1, 20, 'char')
        """
        name = key[:-1] if key[-1:] == "_" else key
        full = _options.SYNONYMS.get(name, name)
        if full in _options.DRAWN:
            # A deleted widget has no options either.
            self._do("edit", "modified")
            return self._drawn.get(full, _kept(full, _options.DRAWN[full].first))
        return number_or_text(self._text("cget", "-" + name))

    __getitem__ = cget

    def configure(self, cnf: Any = None, **kw: Any) -> Any:
        """Sets options, as in `Text`.  A bad option raises TclError, and none is set.

        Without options it returns all as tuples of five, and with the name of one that one, as tkinter does.

        >>> text = Text()
        >>> text.configure(undo=True, width=20)
        >>> text.configure("undo")
        ('undo', 'undo', 'Undo', '0', 1)
        """
        if isinstance(cnf, str):
            return self._described(_option(cnf))
        given = _merged(cnf, kw)
        if not given and cnf is None and not kw:
            return {name: self._described(name, True) for name in _options.NAMES}
        core, drawn = _parted(given)
        if core:
            self._do("configure", *core)
        self._drawn.update(drawn)
        return None

    config = configure

    def __setitem__(self, key: str, value: Any) -> None:
        self.configure({key: value})

    def keys(self) -> list[str]:
        """Returns the names of all options.

        >>> Text().keys()[:3]
        ['autoseparators', 'background', 'bd']
        """
        return list(_options.NAMES)

    def _described(self, name: str, is_short: bool = False) -> tuple[Any, ...]:
        """An option as tkinter describes it; a synonym by its full name if `is_short`."""
        full = _options.SYNONYMS.get(name, name)
        if is_short and full != name:
            return (name, "-" + full)
        value = self.cget(full)
        return (full, *(_options.DRAWN[full] if full in _options.DRAWN else _options.CORE[full]), value)

    def destroy(self) -> None:
        """Deletes the widget; its text is deleted with the last peer.

        >>> text = Text()
        >>> text.destroy()
        >>> text.index(END)
        Traceback (most recent call last):
        _tkinter.TclError: invalid command name ".!text"
        """
        self.world._watch_text(self, False)
        self.world._change_followers((), [it for it in self.world._followers() if it.text is self])
        self.world._texts.pop(self._name, None)
        self.world.call("destroy", self._name)

    # ---- events

    def bind(self, sequence: str | None = None, func: Handler | None = None, add: object = None) -> Any:
        """Calls a function with an `Event` for each event, and returns the name by which `unbind` removes it.

        `<<Modified>>` fires after a command that changes `edit_modified`, and `<<Selection>>` after one that changes
        the ranges of `sel`; other sequences fire by `event_generate` only.  With `add`, earlier functions stay.

        >>> text = Text()
        >>> name = text.bind("<<Modified>>", print)
        >>> text.insert("1.0", "one")
        <<<Modified>> of .!text>
        """
        name = self._bindings.bind(sequence, func, add)
        if func is not None and sequence in (MODIFIED, SELECTION):
            self._known = self._state() or self._known
            self.world._watch_text(self, True)
        return name

    def unbind(self, sequence: str, funcid: str | None = None) -> None:
        """Removes the functions of a sequence, or one function by its name.

        >>> text = Text()
        >>> name = text.bind("<<Modified>>", print)
        >>> text.unbind("<<Modified>>")
        >>> text.insert("1.0", "one")
        """
        self._bindings.unbind(sequence, funcid)
        self.world._watch_text(self, self._bindings.has(MODIFIED, SELECTION))

    def event_generate(self, sequence: str, **kw: Any) -> None:
        """Calls the functions of a sequence, as if the event had occurred.

        >>> text = Text()
        >>> name = text.bind("<<Paste>>", print)
        >>> text.event_generate("<<Paste>>")
        <<<Paste>> of .!text>
        """
        self.world._queue(partial(self._bindings.send, Event(self, sequence)))
        self.world._deliver()

    def event_add(self, virtual: str, *sequences: str) -> None:
        """Stores sequences of a virtual event; keys and clicks never occur here.

        >>> text = Text()
        >>> text.event_add("<<Find>>", "<Control-f>")
        >>> text.event_info("<<Find>>")
        ('<Control-f>',)
        """
        kept = self._virtual.setdefault(virtual, {})
        kept.update(dict.fromkeys(sequences))

    def event_delete(self, virtual: str, *sequences: str) -> None:
        """Removes sequences of a virtual event, or all of them.

        >>> text = Text()
        >>> text.event_add("<<Find>>", "<Control-f>")
        >>> text.event_delete("<<Find>>")
        >>> text.event_info()
        ()
        """
        kept = self._virtual.get(virtual, {})
        for sequence in sequences or tuple(kept):
            kept.pop(sequence, None)
        if not kept:
            self._virtual.pop(virtual, None)

    def event_info(self, virtual: str | None = None) -> tuple[str, ...]:
        """Returns the virtual events that have sequences, or the sequences of one.

        >>> text = Text()
        >>> text.event_add("<<Find>>", "<Control-f>")
        >>> text.event_info()
        ('<<Find>>',)
        """
        if virtual is None:
            return tuple(self._virtual)
        return tuple(self._virtual.get(virtual, {}))

    def _state(self) -> tuple[str, tuple[str, ...]] | None:
        """Whether the text was edited, and the ranges of `sel`; None if the widget was deleted."""
        try:
            return self._ask(_AS_TEXT, "edit", "modified"), self._ask(_AS_TUPLE, "tag", "ranges", _SEL)
        except (TclError, ValueError):
            return None

    def _news(self) -> list[Event]:
        """Returns the events of what has changed since the last call."""
        state, known = self._state(), self._known
        if state is None or state == known:
            return []
        self._known = state
        return [Event(self, name) for name, was, now in zip((MODIFIED, SELECTION), known, state) if was != now]

    # ---- what changed

    def on_change(self, function: Callable[[list[Change]], Any]) -> Callable[[], None]:
        """Calls a function after each command that changes the text, by whichever peer, with a list of `Change`s.

        Each refers to the text that those before it produce, the last newline included; applied in order to the old
        text they produce the new one.  They are exactly what the command does: the last position comes first, and
        adjacent changes are one, as a replacement is.  Each command is reported once, in order, to the functions set at
        that time, whatever threads, signal handlers and finalizers do.  A report may come after further commands: those
        that a function or another thread ran in the meantime are reported later.  An exception in the function is
        printed.  Returns a function that ends the reports.

        >>> text = Text()
        >>> end = text.on_change(print)
        >>> text.insert("1.0", "one")  # doctest: +NORMALIZE_WHITESPACE
        [Change(at=0, removed=0, inserted='one', start=Spot(line=1, column=0, bytes=0, units=0),
                old_end=Spot(line=1, column=0, bytes=0, units=0), new_end=Spot(line=1, column=3, bytes=3, units=3))]
        >>> end()
        """
        return self._follow(changes_for, function)

    def on_tags(self, function: Callable[[list[TagChange]], Any]) -> Callable[[], None]:
        """Calls a function after each command that adds or removes tags of characters, with a list of `TagChange`s.

        They follow the report of `on_change` for the same command: inserted characters have no tags at first, and
        deleted ones are gone with theirs.  Applied in order to the rest of the old tags they produce the new ones.
        Offsets are of the whole text, whatever part of it the widget shows, and `sel` is the widget's own.  Returns a
        function that ends the reports.

        >>> text = Text()
        >>> end = text.on_tags(print)
        >>> text.insert("1.0", "one two", "bold"), text.insert("1.3", "-"), text.tag_remove("bold", "1.0", "end")
        [TagChange(tag='bold', at=0, end=7, on=True)]
        [TagChange(tag='bold', at=3, end=4, on=True)]
        [TagChange(tag='bold', at=0, end=8, on=False)]
        (None, None, None)
        >>> end()
        """
        return self._follow(tags_for, function)

    def on_marks(self, function: Callable[[list[MarkChange]], Any]) -> Callable[[], None]:
        """Calls a function after each command that moves marks otherwise than with the text, with `MarkChange`s.

        They follow the reports of `on_change` and `on_tags` for the same command.  A mark is reported if it isn't where
        the changes of the text take it (`Change.moved`), has another gravity, is new, or is gone, after `mark_set` as
        after an undo.  Any other mark is where the changes take it.  The marks are those of the text: the `insert` and
        `current` of each peer, with the peer's name, and the shared ones.  `destroy` reports those of a peer as gone.
        Returns a function that ends the reports.

        >>> text = Text()
        >>> end = text.on_marks(print)
        >>> text.mark_set("here", "1.0"), text.mark_set("here", "1.0")  # doctest: +NORMALIZE_WHITESPACE
        [MarkChange(mark='here', widget='', old=None, new=Position(offset=0, gravity='right'))]
        (None, None)
        >>> end()
        """
        return self._follow(marks_for, function)

    def _follow(self, part: Part, function: Callable[[Any], Any]) -> Callable[[], None]:
        follower = Follower(self, part, function)
        self.world._change_followers([follower])
        return partial(self.world._change_followers, (), [follower])

    def changes(self) -> list[Change]:
        """Returns the changes of the text since the last call, as `on_change` reports them; none the first time.

        They include those of the caller's own commands that have returned.

        >>> text = Text()
        >>> text.changes()
        []
        >>> text.insert("1.0", "one"), text.delete("1.0")
        (None, None)
        >>> [(change.at, change.removed, change.inserted, str(change.new_end)) for change in text.changes()]
        [(0, 0, 'one', '1.3'), (0, 1, '', '1.0')]
        """
        # Only when first used, since it refers to the widget, which would otherwise be freed with its last reference.
        reader = self.__dict__.setdefault("_reader", Follower(self, changes_for, None))
        self.world._change_followers([reader])
        while True:
            links = self._unread()
            # The last one is empty: the next report fills it.
            changes = [change for link in links[:-1] for change in part_of(link, changes_for, self._name)]
            # Another thread, or a handler, may have asked in the meantime.
            if self._pass(links):
                return changes

    # ---- what a widget returns that isn't shown

    def bbox(self, index: object) -> None:
        """Returns None, since no character is shown.

        >>> Text().bbox("1.0")
        """
        self._do("index", index)

    def dlineinfo(self, index: object) -> None:
        """Returns None, since no line is shown.

        >>> Text().dlineinfo("1.0")
        """
        self._do("index", index)

    def see(self, index: object) -> None:
        """Does nothing for a valid index.

        >>> Text().see(END)
        """
        self._do("index", index)

    def debug(self, boolean: object = None) -> bool | None:
        """Stores whether a display would check itself, or returns it.

        >>> Text().debug()
        False
        """
        if boolean is None:
            return self._is_debugged
        self._is_debugged = _boolean(boolean)
        return None

    def scan_mark(self, x: int, y: int) -> None:
        """Does nothing.

        >>> Text().scan_mark(1, 1)
        """

    def scan_dragto(self, x: int, y: int) -> None:
        """Does nothing.

        >>> Text().scan_dragto(1, 1)
        """

    def xview(self, *args: object) -> tuple[float, float] | None:
        """Returns (0.0, 1.0), as if the whole text were shown; with arguments it does nothing.

        >>> Text().xview(), Text().xview("moveto", 0.5)
        ((0.0, 1.0), None)
        """
        return None if args else (0.0, 1.0)

    yview = xview

    def xview_moveto(self, fraction: float) -> None:
        """Does nothing.

        >>> Text().xview_moveto(0.5)
        """

    yview_moveto = xview_moveto

    def xview_scroll(self, number: int, what: str) -> None:
        """Does nothing.

        >>> Text().xview_scroll(1, "units")
        """

    yview_scroll = xview_scroll

    def yview_pickplace(self, *what: object) -> None:
        """Does nothing.

        >>> Text().yview_pickplace("1.0")
        """

    def update(self) -> None:
        """Does nothing: nothing is drawn, and events need no loop.

        >>> Text().update()
        """

    update_idletasks = update

    def bell(self, displayof: object = 0) -> None:
        """Does nothing.

        >>> Text().bell()
        """

    def focus_set(self) -> None:
        """Does nothing.

        >>> Text().focus_set()
        """

    focus = focus_set

    # ---- images and windows, which can't be embedded

    def image_names(self) -> tuple[str, ...]:
        """Returns (), since there are none.

        >>> Text().image_names()
        ()
        """
        return ()

    def image_create(self, index: object, cnf: Any = None, **kw: Any) -> Any:
        """Raises TclError: images can't be embedded.

        >>> Text().image_create("1.0")
        Traceback (most recent call last):
        _tkinter.TclError: images can't be embedded: the widget isn't drawn
        """
        raise refusal(_NO_IMAGES)

    def image_cget(self, index: object, option: str) -> Any:
        """Raises TclError, as `image_create`."""
        raise refusal(_NO_IMAGES)

    def image_configure(self, index: object, cnf: Any = None, **kw: Any) -> Any:
        """Raises TclError, as `image_create`."""
        raise refusal(_NO_IMAGES)

    def window_names(self) -> tuple[str, ...]:
        """Returns (), since there are none.

        >>> Text().window_names()
        ()
        """
        return ()

    def window_create(self, index: object, cnf: Any = None, **kw: Any) -> Any:
        """Raises TclError: windows can't be embedded.

        >>> Text().window_create("1.0")
        Traceback (most recent call last):
        _tkinter.TclError: windows can't be embedded: the widget isn't drawn
        """
        raise refusal(_NO_WINDOWS)

    def window_cget(self, index: object, option: str) -> Any:
        """Raises TclError, as `window_create`."""
        raise refusal(_NO_WINDOWS)

    def window_configure(self, index: object, cnf: Any = None, **kw: Any) -> Any:
        """Raises TclError, as `window_create`."""
        raise refusal(_NO_WINDOWS)

    window_config = window_configure


def _flags(**flags: object) -> list[str]:
    return ["-" + name for name, is_set in flags.items() if is_set]


def _set(variable: Any, value: object) -> None:
    if not hasattr(variable, "set"):
        raise TypeError("count is a variable, with a method `set`")
    variable.set(value)


def _boolean(value: object) -> bool:
    given = word(value).lower()
    if given not in _TRUE | _FALSE:
        raise refusal(f'expected boolean value but got "{word(value)}"')
    return given in _TRUE


def _check_tag_option(name: str) -> None:
    if name not in _options.OF_TAGS:
        raise refusal(f'unknown option "-{name}"')
