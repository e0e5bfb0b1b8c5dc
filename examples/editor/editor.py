"""The editor: the effect of each key, as commands of the core, and the rows of the screen."""

import contextlib
import os
import re
import sys
import time

# The package's TclError is Tk's own where that is installed; its libraries would take 3 MB here, and draw nothing.
sys.modules.setdefault("_tkinter", None)
from files import File  # noqa: E402
from lock import Held  # noqa: E402
from replacing import Round  # noqa: E402
from terminal import Terminal  # noqa: E402
from tktext import Text  # noqa: E402
from view import Pane, columns_of, parts_of, row_of  # noqa: E402

HELP = "^S save ^O as ^Q quit ^F find ^N next ^R replace ^G line ^Z undo ^Y redo ^W pane"
# Where moves go to, and those by lines and by pages.
PLACES = {
    "left": "insert - 1c", "right": "insert + 1c", "ctrl-left": "insert - 1c wordstart", "ctrl-right": "insert wordend",
    "home": "insert linestart", "end": "insert lineend", "ctrl-home": "1.0", "ctrl-end": "end - 1c",
}
STEPS = {"up": (-1, 0), "down": (1, 0), "pageup": (0, -1), "pagedown": (0, 1)}
# What is undone together with what was typed before it.
TYPED = ("text", "enter", "tab", "backspace", "delete")


class GivenUp(OSError):
    """The user cancelled a question by Esc."""


def reason_of(error):
    """Why a call of the system failed, and of which file; or what another error says."""
    if isinstance(error, OSError) and error.strerror:
        return f"cannot open '{error.filename}': {error.strerror}" if error.filename else error.strerror
    return str(error) or "out of memory"


@contextlib.contextmanager
def saving():
    """Adds to an error that the file isn't saved."""
    try:
        yield
    except (OSError, Held) as error:
        raise OSError(f"NOT saved: {reason_of(error)}") from error


class Editor:
    """A file in two panes, which are two peers of one text; one of them alone is shown at first."""

    def __init__(self, path):
        self.file, self.terminal, self.widget = File(path), Terminal(), Text(name=".a")
        peers = self.widget, self.widget.peer_create(".b")
        self.panes = [Pane(peer, is_python=self.file.name.endswith(".py")) for peer in peers]
        self.pane, self.is_split, self.is_marking, self.is_kept, self.is_left = self.panes[0], False, False, True, False
        self.message, self.failures, self.are_failures_shown = "", [], False
        self.pattern, self.clipboard = "", ""

    def run(self):
        """Edits until the user leaves; the lock goes with the editor, whatever ends it."""
        try:
            self.edit()
        finally:
            self.file.unlock()

    def edit(self):
        """Opens the file and does what keys say; if it has to end early, a copy is kept of edits that aren't saved."""
        try:
            with self.terminal:
                self.open()
                while not self.is_left:
                    self.draw()
                    self.do(*self.terminal.key(self.keep))
        finally:
            self.keep(is_last=True)
            if not self.file.is_read_only and (copy := self.file.copy()):
                self.fail(f"unsaved edits are in {copy}")
            for failure in self.failures:
                print(failure, file=sys.stderr)

    def do(self, key, characters):
        """Does what a key says.  What is undone at once is parted by `autoseparators` of the core, and at each word."""
        if not key:
            return
        name, self.message = key.replace("shift-", ""), ""
        if self.are_failures_shown:
            self.failures = []
        is_move = name in PLACES or name in STEPS
        try:
            if key not in TYPED or characters.strip() and self.widget.get("insert - 1c").isspace():
                self.widget.edit_separator()
            if is_move:
                self.move(name, selects=name != key or self.is_marking)
            elif characters:
                self.put(characters)
            elif key in KEYS:
                KEYS[key](self)
            if key not in TYPED:
                self.widget.edit_separator()
        except Exception as error:
            self.message = ""
            self.fail(reason_of(error))
        self.is_kept = self.is_kept and is_move

    # What the screen shows

    def draw(self, is_asking=False):
        """Shows all as it is, unless a key waits already."""
        if self.terminal.waiting:
            return
        width, height = (max(1, size) for size in os.get_terminal_size())
        rows, cursor = [], (0, 0)
        last_rows, column = self.last_rows(width, max(1, height // 3), is_asking)
        height -= len(last_rows)
        panes = self.panes if self.is_split and height > 5 else [self.pane]
        for number, pane in enumerate(panes, 1):
            pane.height, pane.width = max(1, height * number // len(panes) - len(rows) - 1), width
            lines, (row, pane_column) = pane.rows(self.pattern)
            cursor = (len(rows) + row, pane_column) if pane is self.pane else cursor
            rows += [*lines, self.state(pane)]
        rows = [*rows[:height], *last_rows]
        self.terminal.show(rows, (len(rows) - 1, column) if is_asking else cursor)
        self.are_failures_shown = not is_asking

    def last_rows(self, width, limit, is_asking):
        """The rows of what failed and of the message, or of a question, and the column of its end."""
        if is_asking:  # the cursor is after the question, whose end is shown
            parts = parts_of(self.message, width - 1)[-limit:]
        else:
            parts = parts_of("; ".join(filter(None, [*self.failures, self.message])), width)[:limit]
        return [row_of([(part, None)], 0, width) for part in parts], columns_of(parts[-1])[-1]

    def state(self, pane):
        """The row below a pane."""
        (line, column), lines = pane.place(), pane.place("end - 1c")[0]
        is_modified = self.widget.cget("undo") and self.widget.edit_modified()
        file = self.file
        marks = {"read-only": file.is_read_only, "modified": is_modified, "CHANGED ON DISK": file.is_changed()}
        text = f" {file.name}  line {line} of {lines}, column {column + 1}"
        text += "".join(f"  {mark}" for mark, is_set in marks.items() if is_set)
        if len(text) > pane.width:
            text = f"{line}:{column + 1}{'*' if is_modified else ''}"
        return row_of([(text.ljust(pane.width), "active" if pane is self.pane else "other")], 0, pane.width)

    def fail(self, failure):
        """Reports what failed, which stays in the last rows until a key comes after it was shown."""
        if failure not in self.failures:
            self.failures.append(failure)
        self.are_failures_shown = False

    def report(self, what, steps):
        """Goes through the steps of a long piece of work, and shows now and then how far it is."""
        shown_at = time.monotonic()
        for done in steps:
            if time.monotonic() > shown_at + 0.1:
                shown_at, self.message = time.monotonic(), f"{what}: {done:.0%}"
                self.draw()

    def ask(self, label, letters=""):
        """What is typed in the last row, or one of some letters.  Esc ends all that asked."""
        key, typed = "", ""
        while typed not in list(letters) if letters else key != "enter":
            self.message = label + typed
            self.draw(is_asking=True)
            key, characters = self.terminal.key(self.keep)
            if key == "escape":
                raise GivenUp("cancelled")
            before = "" if letters else typed
            typed = typed[:-1] if key == "backspace" else before + characters.partition("\n")[0]
        self.message = ""
        return typed

    # The file

    def open(self):
        """Loads the file, or the copy that an editor which was killed has left."""
        self.lock()
        if self.is_left:
            return
        copy = None if self.file.is_read_only else self.file.copy()
        if copy and self.ask("[r]ecover or [d]rop unsaved edits?", "rd") == "d":
            copy = None
        self.report("loading", self.file.load(self.widget, copy))
        self.widget.configure(undo=True)
        self.widget.edit_modified(bool(copy))
        if not copy:
            self.file.drop_copies()
        self.select("1.0")
        self.message = HELP if self.file.stamp else "a new file"

    def lock(self, takes_over=False):
        """Locks the file; if another editor has the lock, the user leaves, reads only, or takes over a stale lock."""
        try:
            self.file.lock(takes_over)
            self.file.is_read_only = False
        except Held as held:
            self.file.is_read_only = True
            choices, letters = "[r]ead only or [q]uit?", "rq"
            if held.may_be_stale:
                choices, letters = "[r]ead only, [q]uit or [t]ake over?", "rqt"
            answer = self.ask(f"{held}: {choices} ", letters)
            self.is_left = answer == "q"
            if answer == "t":
                self.lock(takes_over=True)
        except OSError as error:
            self.fail(f"cannot lock the file: {reason_of(error)}")

    def check_writable(self):
        if self.file.is_read_only:
            raise PermissionError("read-only, as another editor has the file: ^O saves it under another name")

    def save(self):
        """Saves, or raises why it doesn't."""
        with saving():
            self.check_writable()
            if self.file.is_changed():
                self.ask("[o]verwrite? The file changed on disk", "o")
            self.report("saving", self.file.save(self.widget))
        self.widget.edit_modified(False)
        self.message = f"saved {self.file.name}"

    def save_as(self):
        """Saves under another name, and edits that file from there on."""
        with saving():
            other = File(os.path.expanduser(self.ask("save as: ") or self.file.path))
        if other.path == self.file.path and not self.file.is_read_only:
            self.save()
            return
        was = self.file
        try:
            with saving():
                other.lock()
                self.save_to(other)
        finally:
            (was if self.file is other else other).unlock()

    def save_to(self, other):
        """Saves to another file, which is locked; asks before it replaces one, and edits it from there on."""
        if copy := other.copy():
            raise OSError(f"unsaved edits of {other.name} are in {copy}")
        if other.stamp:
            self.ask(f"[o]verwrite {other.name}?", "o")
        if other.is_changed():
            raise OSError(f"another program has just written {other.name}")
        other.line_end = self.file.line_end
        self.report("saving", other.save(self.widget))
        self.file.drop_copies()
        self.file = other
        for pane in self.panes:
            pane.show_as(is_python=other.name.endswith(".py"))
        self.widget.edit_modified(False)
        self.message = f"saved {other.name}"

    def leave(self):
        if self.widget.edit_modified() and self.ask("[s]ave or [d]rop the edits? Esc stays", "sd") == "s":
            self.save()
        self.widget.edit_modified(False)
        self.file.drop_copies()
        self.is_left = True

    def keep(self, is_last=False):
        """Keeps a copy of edits that aren't saved, if it isn't there yet; later, where a key comes meanwhile."""
        if self.is_kept or not self.widget.edit_modified():
            return
        try:
            for _ in self.file.keep(self.widget):
                if not is_last and self.terminal.wait(0):
                    return
        except OSError as error:
            self.fail(f"no copy is kept: {reason_of(error)}")
        self.is_kept = True

    # The text, and what is selected

    def put(self, characters, *ends):
        """Replaces the selection, or else a range, by characters, or inserts them at the cursor."""
        self.check_writable()
        ends = self.widget.tag_ranges("sel") or ends
        place = self.widget.index(ends[0] if ends else "insert")
        if ends:
            self.widget.replace(*ends, characters)
        else:
            self.widget.insert(place, characters)
        self.is_kept = False
        self.select(f"{place} + {len(characters)} chars")

    def move(self, name, selects):
        """Moves the cursor, and selects what is between it and where that began, or nothing."""
        began = self.pane.anchor if self.widget.tag_ranges("sel") else self.widget.index("insert")
        place = PLACES.get(name) or self.pane.step(*STEPS[name])
        self.select(place, began if selects else None, self.is_marking)

    def select(self, place, anchor=None, is_marking=False):
        """Moves the cursor to an index, and selects the text between it and another index, or nothing."""
        self.is_marking = is_marking
        self.widget.mark_set("insert", place)
        self.widget.mark_set(self.pane.anchor, anchor or "insert")
        self.widget.tag_remove("sel", "1.0", "end")
        self.widget.tag_add("sel", self.pane.anchor, "insert", "insert", self.pane.anchor)  # one of these is empty

    def break_line(self):
        """Begins a line with the spaces that the last one begins with."""
        self.put("\n" + re.match("[ \t]*", self.widget.get("insert linestart", "insert"))[0])

    def indent(self):
        self.put(" " * (4 - self.pane.column() % 4) if self.pane.is_python else "\t")

    def copy(self):
        if ends := self.widget.tag_ranges("sel"):
            self.clipboard = self.widget.get(*ends)

    def cut(self):
        self.copy()
        self.put("")

    def paste(self):
        if self.clipboard:
            self.put(self.clipboard)

    def clear(self):
        """Selects nothing, and shows nothing as found."""
        self.select("insert")
        self.pattern = ""

    def go_to_line(self):
        self.select(f"{self.ask('line: ')}.0")

    def find(self, start="insert + 1c", pattern=""):
        """Selects the next match of a pattern, or of the last one, and wraps around; capitals count if it has some."""
        self.pattern = pattern or self.pattern
        place = self.pattern and self.widget.search(self.pattern, start, nocase=self.pattern.islower())
        if place:
            self.select(place, f"{place} + {len(self.pattern)} chars")
        self.message = "" if place else f"not found: '{self.pattern}'"
        return place

    def replace(self):
        """Replaces a pattern, one by one or all that are left, in one round from the cursor; counts them."""
        self.check_writable()
        pattern = self.ask("replace: ") or self.pattern
        if pattern:
            turn = Round(self.widget, pattern, self.ask(f"replace {pattern} by: "))
            self.pattern = pattern
            try:
                self.report("replacing", self.replace_in(turn))
            except GivenUp:
                pass  # what was replaced stays
            finally:
                turn.close()
            self.message = f"{turn.count} replaced"

    def replace_in(self, turn):
        """Asks at each match of a round; yields the fraction done once all are to be replaced."""
        while place := turn.next():
            self.select(place, turn.end_of(place))
            answer = self.ask("[y]es, [n]o, [a]ll, Esc ends", "yna")
            if answer == "a":
                yield from turn.replace_rest()
                self.select("insert")
                return
            if answer == "y":
                self.put(turn.by)
                turn.count += 1
            else:
                self.select("sel.last")
            turn.go_on(self.widget.index("insert"))

    def change_pane(self):
        """Goes to the other pane; one that wasn't shown starts at the lines of this one."""
        was, self.pane = self.pane, self.panes[self.pane is self.panes[0]]
        self.widget = self.pane.widget
        if not self.is_split:
            self.is_split = True
            self.select(was.widget.index("insert"))
            self.widget.mark_set(self.pane.top, was.top)


    def hide_pane(self):
        self.is_split = False

    def show_help(self):
        self.message = HELP


KEYS = {
    "f1": Editor.show_help, "ctrl-s": Editor.save, "ctrl-o": Editor.save_as, "ctrl-q": Editor.leave,
    "enter": Editor.break_line, "tab": Editor.indent,
    "backspace": lambda editor: editor.put("", "insert - 1c", "insert"),
    "delete": lambda editor: editor.put("", "insert", "insert + 1c"),
    "ctrl-z": lambda editor: editor.widget.edit_undo(), "ctrl-y": lambda editor: editor.widget.edit_redo(),
    "ctrl-c": Editor.copy, "ctrl-x": Editor.cut, "ctrl-v": Editor.paste,
    "ctrl-a": lambda editor: editor.select("1.0", "end - 1c"),
    "ctrl-space": lambda editor: editor.select("insert", is_marking=True), "escape": Editor.clear,
    "ctrl-f": lambda editor: editor.find("insert", editor.ask("find: ")), "ctrl-n": Editor.find,
    "ctrl-r": Editor.replace, "ctrl-g": Editor.go_to_line, "ctrl-w": Editor.change_pane, "ctrl-t": Editor.hide_pane,
}
