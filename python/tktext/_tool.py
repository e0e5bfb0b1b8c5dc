"""Runs scripts from files, standard input or a prompt: `python3 -m tktext`."""

from __future__ import annotations

import argparse
import json
import os
import re
import sys
from typing import BinaryIO, Iterator

from . import __version__, _core
from ._errors import TclError
from ._world import World

_ABOUT = """Runs the commands of a script and prints the answer of each, as the program tktext does: those of the
files in order, or of standard input.  Without files at a terminal it is a prompt, with history and completion.

The exit status is 0, 1 if a command was refused, and 2 after a parse error, or if reading or writing fails."""
_PIECE = 65536
_ANSWER, _FAULT, _SCRIPT_FAULT = 0, 1, 3
_BEFORE_FAULT = "error: "
_FAILED = 2
_HISTORY = os.path.join("~", ".tktext_history")
_PROMPT, _FURTHER = "tktext> ", "......> "
_BANNER = "tktext {version}: `help` lists the commands, `exit` or Ctrl-D ends"
_HELP = """text W ?option value ..?   creates a text and a widget for it, for example: text .t
W COMMAND ?argument ..?    runs a command of a widget, for example: .t insert end "hello"
destroy ?W ..?             deletes widgets
help COMMAND               shows the arguments of a widget's command, for example: help insert
exit                       ends the prompt, as Ctrl-D does

Widget commands: {commands}
Tab completes commands, options, widgets, marks and tags.  A line that isn't complete goes on at the next prompt."""
# A hint for an error that the library has none for.
_HINTS = {
    "invalid command name": "`text .t` creates a widget `.t`; `help` lists the commands",
    "bad text index": 'an index is line.char, end or a mark, for example 1.0 or "end - 1 chars"',
    "text doesn't contain": "the tag is on no characters",
    "nothing to undo": "`-undo 1` has to be set before the edit, and `edit separator` ends a group",
    "window name": "`destroy` deletes it",
}
_NOT_RUN = "no command of this line was run; braces keep $, [ and quotes as they are"


def _printed(code: int, line: bytes, is_json: bool) -> str:
    """The output of a command: its line, or an object that distinguishes an answer from an error."""
    text = line.decode("utf-8")
    if not is_json:
        return text
    said = text[:-1]
    if code == _ANSWER:
        return json.dumps({"ok": True, "answer": said}) + "\n"
    return json.dumps({"ok": False, "fault": said[len(_BEFORE_FAULT):]}) + "\n"


def _pieces(files: list[str]) -> Iterator[bytes]:
    """The bytes of the files in order, or of standard input, as they come."""
    if not files:
        yield from _pieces_of(sys.stdin.buffer)
    for name in files:
        with open(name, "rb") as file:
            yield from _pieces_of(file)


def _pieces_of(file: BinaryIO) -> Iterator[bytes]:
    # A short read is passed on, so that a command is answered before the next one is written.
    while piece := os.read(file.fileno(), _PIECE):
        yield piece


def _write(text: str) -> None:
    sys.stdout.buffer.write(text.encode("utf-8"))


def run_script(world: World, pieces: Iterator[bytes], is_json: bool) -> int:
    """Runs a script, and returns the exit status."""
    def carry_out() -> None:
        for code, line in world._turns():
            _write(_printed(code, line, is_json))
        sys.stdout.flush()

    for piece in pieces:
        world.feed(piece)
        carry_out()
        if world.status() == _FAILED:
            return _FAILED
    world.finish()
    carry_out()
    return world.status()


# ---- the prompt


def _script(command: str) -> bytes:
    """The bytes that were typed, and the end of their line."""
    return command.encode("utf-8", "surrogateescape") + b"\n"


class Completion:
    """The possible words at the cursor."""

    def __init__(self, world: World) -> None:
        self._world = world
        self._named: set[str] = set()

    def learn(self, command: str) -> None:
        """Notes the names in a command, one of which may be a new widget's."""
        self._named.update(re.findall(r"\.[^\s;{}\"\[\]$\\]+", command))

    def widgets(self) -> list[str]:
        """The names that belong to a widget."""
        return sorted(name for name in self._named if self._asked(name, "edit", "modified"))

    def words(self, before: list[str], begun: str) -> list[str]:
        """The possible words after some, which start with the text typed so far."""
        return [word for word in dict.fromkeys(self._all(before, begun)) if word.startswith(begun)]

    def _all(self, before: list[str], begun: str) -> list[str]:
        widgets = self.widgets()
        if not before:
            return ["text", "destroy", "help", "exit", *widgets]
        if before[0] == "destroy":
            return widgets
        return [*self._told(before, begun), *self._names(before, widgets)]

    @staticmethod
    def _told(before: list[str], begun: str) -> list[str]:
        """The subcommands and switches in the library's hint."""
        # A word that is never valid; where a switch is typed, an unknown one.
        wrong = "-?" if begun.startswith("-") or len(before) > 1 and before[1] in ("cget", "configure") else "?"
        words = [word.encode("utf-8").replace(b"\0", b"\x01") for word in [*before, wrong]]
        hint = _core.hint(words, f'bad option "{wrong}"'.encode("ascii"))
        return re.findall(r"[\w-]+", hint.replace(" or ", " ")) if hint else []

    def _names(self, before: list[str], widgets: list[str]) -> list[str]:
        """The tags and marks of a command's widget."""
        if before[0] not in widgets or len(before) < 2:
            return []
        tags = self._asked(before[0], "tag", "names") or ()
        marks = self._asked(before[0], "mark", "names") or ()
        if before[1] == "tag":
            return list(tags)
        return list(marks) if before[1] == "mark" else ["end", *marks]

    def _asked(self, *words: str) -> tuple[str, ...] | None:
        try:
            return _core.split_list(self._world.call(*words))
        except (TclError, ValueError):
            return None


def is_whole(command: str) -> bool:
    """Whether a command is complete, and no more lines belong to it.

    >>> is_whole(".t index end"), is_whole(".t insert 1.0 {a")
    (True, False)
    """
    with World() as world:
        world.feed(_script(command))
        for _ in world._turns():
            pass
        if world.status() == _FAILED:
            return True
        # Incomplete is what is an error only at the end, or a line that a backslash continues.
        world.finish()
        return not any(True for _ in world._turns())


def fault_of(command: str) -> str | None:
    """Returns the parse error of a script of this command, or None.

    >>> fault_of(".t index [x]")
    "error: substitution isn't supported"
    """
    with World() as world:
        world.feed(_script(command))
        world.finish()
        said = [line for code, line in world._turns() if code == _SCRIPT_FAULT]
        return said[0].decode("utf-8")[:-1] if said else None


def hint_of(command: str, fault: str) -> str:
    """Returns what to do next after a refused command, or "".

    >>> hint_of(".t index", "wrong # args")
    'should be ".t index index"'
    """
    try:
        words = [word.encode("utf-8").replace(b"\0", b"\x01") for word in _core.split_list(command)]
    except (UnicodeEncodeError, ValueError):
        words = []
    more = _core.hint(words, fault.encode("utf-8").replace(b"\0", b"\x01")) if words else None
    if more and fault == "wrong # args":
        return f'should be "{_core.split_list(command)[0]} {more}"'
    return f"must be {more}" if more else next((it for start, it in _HINTS.items() if fault.startswith(start)), "")


def help_of(words: list[str]) -> str:
    """Returns what `help` prints with these arguments.

    >>> help_of(["insert"])
    'W insert index chars ?tagList chars ...?'
    """
    if not words:
        commands = _core.hint([b"W", b"?"], b'bad option "?"') or ""
        return _HELP.format(commands=commands.replace(" option ?arg ...?", "").replace(" or ", " "))
    command = [b"W", *(word.encode("utf-8", "replace").replace(b"\0", b"\x01") for word in words)]
    form = _core.hint(command, b"wrong # args")
    if not form or form == _core.hint([b"W", b"?"], b"wrong # args"):
        return f"tktext: no command '{' '.join(words)}': `help` lists the commands"
    choices = _core.hint([*command, b"?"], b'bad option "?"') if " option " in f"{form} " else None
    return f"W {form}" + (f"\n  option: {choices}" if choices else "")


class Prompt:
    """Runs typed commands, each as soon as it is complete."""

    def __init__(self, world: World, is_json: bool) -> None:
        self._world, self._is_json = world, is_json
        self._completion = Completion(world)
        self._found: list[str] = []

    def run(self) -> int:
        """Reads commands to the end, and returns the exit status of all."""
        self._set_up()
        if not self._is_json:
            print(_BANNER.format(version=__version__))
        while True:
            try:
                command = self._read()
            except EOFError:
                print()
                return self._world.status()
            except KeyboardInterrupt:
                print()
                continue
            words = command.split()
            if words in (["exit"], ["quit"]):
                return self._world.status()
            if words[:1] == ["help"]:
                print(help_of(words[1:]))
            else:
                self._carry_out(command)

    @staticmethod
    def _read() -> str:
        command = input(_PROMPT)
        while not is_whole(command):
            command += "\n" + input(_FURTHER)
        return command

    def _carry_out(self, command: str) -> None:
        fault = fault_of(command)
        if fault is not None:
            # None of it runs, so that the next command is read as usual.
            print(_printed(_SCRIPT_FAULT, (fault + "\n").encode("utf-8"), self._is_json), end="")
            self._advise(_NOT_RUN)
            return
        self._completion.learn(command)
        self._world.feed(_script(command))
        for code, line in self._world._turns():
            printed = _printed(code, line, self._is_json)
            print(printed if printed != "\n" else "", end="", flush=True)
            if code == _FAULT:
                self._advise(hint_of(command, line.decode("utf-8")[len(_BEFORE_FAULT):-1]))

    def _advise(self, hint: str) -> None:
        """Prints what to do next, for a reader."""
        if hint and not self._is_json:
            print(f"  hint: {hint}")

    def _set_up(self) -> None:
        """Sets up history and completion, if Python has `readline`."""
        try:
            import atexit
            import readline
        except ImportError:
            return
        readline.set_completer(self._complete)
        readline.set_completer_delims(" \t\n;{}\"")
        readline.parse_and_bind("tab: complete")
        history = os.path.expanduser(_HISTORY)
        try:
            readline.read_history_file(history)
        except OSError:
            pass
        atexit.register(_write_history, history)

    def _complete(self, begun: str, number: int) -> str | None:
        import readline

        if number == 0:
            line = readline.get_line_buffer()[: readline.get_begidx()]
            before = re.split(r"[;\n]", line)[-1].split()
            self._found = self._completion.words(before, begun)
        return self._found[number] + " " if number < len(self._found) else None


def _write_history(path: str) -> None:
    import readline

    try:
        readline.write_history_file(path)
    except OSError:
        pass


def main(words: list[str] | None = None) -> int:
    """Runs `python3 -m tktext` with its arguments, and returns the exit status."""
    parser = argparse.ArgumentParser(
        prog="python3 -m tktext", description=_ABOUT, formatter_class=argparse.RawDescriptionHelpFormatter
    )
    parser.add_argument("files", nargs="*", metavar="FILE", help="a script")
    objects = 'print an object for each command: {"ok": true, "answer": ".."} or {"ok": false, "fault": ".."}'
    parser.add_argument("--json", action="store_true", help=objects)
    parser.add_argument("--version", action="version", version=f"tktext {__version__} (library {_core.version})")
    options = parser.parse_args(words)
    with World() as world:
        if not options.files and sys.stdin.isatty():
            return Prompt(world, options.json).run()
        try:
            return run_script(world, _pieces(options.files), options.json)
        except BrokenPipeError:
            # The rest of the output has no reader either.
            os.dup2(os.open(os.devnull, os.O_WRONLY), sys.stdout.fileno())
            print("write failed", file=sys.stderr)
        except OSError as error:
            print(f"{error.filename or 'read or write failed'}: {error.strerror}", file=sys.stderr)
        except MemoryError:
            print("out of memory", file=sys.stderr)
    return _FAILED
