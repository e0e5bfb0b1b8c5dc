#!/usr/bin/env python3
"""Tries examples/editor in real terminals, and measures it.

    python3 tools/editor_test.py [--module out/python] [--show] [--measure]

MODULE is the folder of the Python package that the editor stands on.  The keys and the screens are in
tools/editor.screens; with `--show` each screen is printed as it is.  Screens are those of tmux: where it isn't there
a line says that they are skipped, and what needs no screen is tried in a pseudo-terminal alone: replacing, locks,
saves, faults of the disk, kills and signals, and how long 20 MB take.  With `--measure` the figures of docs/guide/editor.md are
taken, and no more is done.
Ends in a line `N passed, M failed`; the exit status is 1 if anything failed.

In the file of screens `keys` sends keys by tmux's names for them, `paste` the lines after bars as a paste, `resize`
gives the terminal a size, `screen` has what is shown then, each line after a bar, `styles` the parts that are shown in
a style, `written` the lines of the file on disk, and `changed` has lines written to it by another program.  `locked`
waits until the editor has left, writes a lock file with that record, and starts the editor again.
"""

import argparse
import contextlib
import ctypes
import fcntl
import glob
import os
import pty
import re
import select
import shutil
import signal
import stat
import statistics
import struct
import subprocess
import sys
import tempfile
import termios
import time

from harness import Tally

TOP = os.path.dirname(os.path.dirname(os.path.abspath(__file__)))
EDITOR = os.path.join(TOP, "examples", "editor")
SCREENS = os.path.join(TOP, "tools", "editor.screens")
NAME = "list.py"
WIDTH, HEIGHT = 60, 13
# How long what is waited for may take.
PATIENCE = 30.0
# How many lines it may have.
MOST_LINES = 1100
# What it says when it is opened, and what ends each drawing of a screen.
OPENED, DRAWN = b"^Q quit", b"\x1b[?25h"
SAVE, LEAVE, SAVE_AS, REPLACE, RIGHT = b"\x13", b"\x11", b"\x0f", b"\x12", b"\x1b[C"
# Wide enough for each message to be in one row, which is written at once.
WIDE = 400
COPY, LOCK = f".{NAME}.copy~", f".{NAME}.lock~"
HOST = os.uname().nodename
# The moments of a save at which the editor is killed, by how long a save took: beside other work one may take longer.
KILLS = [number / 12 for number in range(14)] + [1.5, 2.0, 3.0, 5.0, 8.0, 12.0]
# The text that is measured, and what it may take: seconds, seconds, seconds, and times its own size.
BYTES, LINES, PASTED_LINES = 20_000_000, 300_000, 2_000
MOST = {"open": 2.0, "key": 0.020, "key, two panes": 0.020, "paste": 1.0, "memory": 4.0}
SGR = re.compile(r"\x1b\[([0-9;]*)m|[\x0e\x0f]|([^\x1b\x0e\x0f])", re.DOTALL)


def environment_over(module, state):
    """What the editor gets: the package, a terminal, and a state folder of the test's own."""
    given = {**os.environ, "PYTHONPATH": module, "LANG": "C.UTF-8", "LC_ALL": "C.UTF-8", "TERM": "xterm-256color",
             "XDG_STATE_HOME": state}
    return {name: value for name, value in given.items() if name != "TMUX"}


def wait_until(holds, pause=lambda: time.sleep(0.02)):
    """Waits until something holds; returns whether it did in time."""
    until = time.monotonic() + PATIENCE
    while not holds() and time.monotonic() < until:
        pause()
    return holds()


# Screens, by tmux


def read_parts(path):
    """The parts of the file in their order: each a word, what stands behind it, and the lines with a bar."""
    parts = []
    with open(path, encoding="utf-8") as file:
        for line in file.read().split("\n"):
            if line.startswith("|"):
                parts[-1][2].append(line[1:])
            elif line and not line.startswith("#"):
                word, _, rest = line.partition(" ")
                parts.append((word, rest, []))
    return parts


def style_of(codes):
    """The name of a style, by the codes that are set."""
    if 7 in codes:
        return "other" if 2 in codes else "selected"
    named = {43: "found", 34: "keyword", 32: "string", 36: "comment", 35: "number", 1: "defined"}
    return next((name for code, name in named.items() if code in codes), None)


def styled_parts(shown):
    """The parts of a screen with a style, each a name and its characters, but for the rows below the panes."""
    parts, codes = [], set()
    for code, character in SGR.findall(shown):
        if character:
            style = None if character == "\n" else style_of(codes)
            if not parts or parts[-1][0] != style:
                parts.append([style, ""])
            parts[-1][1] += character
            continue
        for number in map(int, (code or "0").split(";")):
            kind = number // 10
            codes = set() if number == 0 else {other for other in codes if kind < 3 or other // 10 != kind} | {number}
    return [f"{style} {part}" for style, part in parts if style and f" {NAME}  line" not in part]


class Screen:
    """A terminal of tmux, of its own, with the editor in it."""

    def __init__(self, environment, folder, path, width=WIDTH, height=HEIGHT):
        self.folder, self.environment, self.path, self.starts = folder, environment, path, 0
        self.start(width, height)

    def start(self, width, height):
        """Starts the editor in a terminal, by a server of its own."""
        self.height, self.starts = height, self.starts + 1
        self.socket = os.path.join(self.folder, f"tmux{self.starts}")
        words = [sys.executable, EDITOR, self.path]
        size = "-x", str(width), "-y", str(height)
        self.tmux("-f", "/dev/null", "new-session", "-d", "-c", self.folder, *size, *words)
        self.tmux("set-option", "-g", "status", "off")
        self.editor = self.tmux("display-message", "-p", "#{pane_pid}").strip()

    def tmux(self, *words, given=None):
        done = subprocess.run(
            ["tmux", "-u", "-S", self.socket, *words], capture_output=True, input=given, env=self.environment,
            stdin=None if given is not None else subprocess.DEVNULL,
        )
        return done.stdout.decode("utf-8", "replace")

    def screen(self):
        """The lines of the screen, and the parts of it with a style."""
        shown = self.tmux("capture-pane", "-p", "-e").rstrip("\n")
        lines = [line.rstrip() for line in SGR.sub(r"\2", shown).split("\n")]
        return lines + [""] * (self.height - len(lines)), styled_parts(shown)

    def wait_for(self, is_right):
        """The screen as soon as it is right, or as it is when the time is up."""
        until = time.monotonic() + PATIENCE
        found = self.screen()
        while not is_right(found) and time.monotonic() < until:
            time.sleep(0.02)
            found = self.screen()
        return found

    def do(self, word, rest, lines, path):
        """What a part does that shows nothing itself."""
        if word == "keys":
            self.tmux("send-keys", *rest.split())
        elif word == "paste":
            self.tmux("load-buffer", "-", given="\n".join(lines).encode("utf-8"))
            self.tmux("paste-buffer", "-p")
        elif word == "resize":
            width, height = rest.split()
            self.height = int(height)
            self.tmux("resize-window", "-x", width, "-y", height)
        elif word == "changed":
            write(path, "\n".join(lines).encode("utf-8"))
        elif word == "locked":
            self.wait_for_end()
            write(os.path.join(os.path.dirname(path), LOCK), rest.encode("utf-8"))
            self.start(WIDTH, HEIGHT)

    def wait_for_end(self):
        wait_until(lambda: not os.path.exists(f"/proc/{self.editor}"))

    def close(self):
        """Ends the terminal, and waits for the editor, which keeps a copy of its edits then."""
        self.tmux("kill-server")
        self.wait_for_end()


def check_part(screen, path, part, name, shows, tally):
    """One part of the file of screens."""
    word, rest, lines = part
    if word == "screen":
        wanted = lines + [""] * (screen.height - len(lines))
        given, _ = screen.wait_for(lambda found: found[0] == wanted)
        if shows:
            print(f"{name}:", *given, sep="\n|")
        tally.check(given == wanted, f"{name}: the screen is\n" + "\n".join(f"|{line}" for line in given))
    elif word == "styles":
        _, given = screen.wait_for(lambda found: found[1] == lines)
        tally.check(given == lines, f"{name}: the styles are\n" + "\n".join(f"|{line}" for line in given))
    elif word == "written":
        lines_of = lambda: read(path).decode("utf-8").split("\n")
        tally.check(wait_until(lambda: lines_of() == lines), f"{name}: the file has {lines_of()} and not {lines}")
    else:
        screen.do(word, rest, lines, path)


def check_screens(environment, shows, tally):
    if shutil.which("tmux") is None:
        print("skipped: the editor's screens, since tmux is not installed")
        return
    (_, _, lines), *parts = read_parts(SCREENS)
    with tempfile.TemporaryDirectory() as folder:
        path = os.path.join(folder, NAME)
        write(path, "\n".join(lines).encode("utf-8"))
        screen = Screen(environment, folder, path)
        name = "at first"
        try:
            for part in parts:
                name = part[1] if part[0] in ("keys", "resize", "locked") else name
                check_part(screen, path, part, name, shows, tally)
        finally:
            screen.close()


# Files and faults, in a pseudo-terminal


def read(path):
    with open(path, "rb") as file:
        return file.read()


def contents_of(path):
    """The bytes of a file, or None if there is none."""
    return read(path) if os.path.exists(path) else None


def write(path, data):
    with open(path, "wb") as file:
        file.write(data)


class Editing:
    """The editor in a pseudo-terminal of its own; what it wrote is kept, and looked at as bytes."""

    def __init__(self, environment, path, rows=24, columns=80, before=lambda: None):
        self.pid, self.terminal = pty.fork()
        if self.pid == 0:
            try:
                before()
                fcntl.ioctl(0, termios.TIOCSWINSZ, struct.pack("HHHH", rows, columns, 0, 0))
                os.execve(sys.executable, [sys.executable, EDITOR, path], environment)
            finally:
                os._exit(127)
        self.path, self.written, self.status = path, b"", None

    def take(self, seconds):
        """Takes what it writes within some seconds; tells whether it goes on."""
        if not select.select([self.terminal], [], [], max(0, seconds))[0]:
            return True
        try:
            self.written += (data := os.read(self.terminal, 1 << 16))
        except OSError:
            return False
        return bool(data)

    def wait_for(self, *parts):
        """Waits until it has written all of some parts since the last such time; tells whether it did."""
        until, goes_on = time.monotonic() + PATIENCE, True
        while goes_on and time.monotonic() < until and not all(part in self.written for part in parts):
            goes_on = self.take(until - time.monotonic())
        has_come = all(part in self.written for part in parts)
        if has_come:
            self.written = b""
        return has_come

    def wait_for_any(self, *parts):
        """Waits until it has written one of some parts; returns the first of them that it has, or None."""
        until, goes_on = time.monotonic() + PATIENCE, True
        while goes_on and time.monotonic() < until and not any(part in self.written for part in parts):
            goes_on = self.take(until - time.monotonic())
        return next((part for part in parts if part in self.written), None)

    def wait_until(self, holds):
        """Waits until something holds, and takes what is written meanwhile."""
        return wait_until(holds, lambda: self.take(0.02))

    def settle(self, seconds=0.05):
        """Forgets what it wrote, when for some time nothing comes any more."""
        while select.select([self.terminal], [], [], seconds)[0] and self.take(0):
            pass
        self.written = b""

    def send(self, keys):
        os.write(self.terminal, keys)

    def end(self, keys=b""):
        """Its exit status, and what it wrote last."""
        if keys:
            self.send(keys)
        until = time.monotonic() + PATIENCE
        while self.take(until - time.monotonic()) and time.monotonic() < until:
            pass
        if time.monotonic() >= until:
            os.kill(self.pid, signal.SIGKILL)
        os.close(self.terminal)
        status = os.waitstatus_to_exitcode(os.waitpid(self.pid, 0)[1])
        return status, self.written.decode("utf-8", "replace")

    def kill(self, number=signal.SIGKILL):
        os.kill(self.pid, number)
        return self.end()


@contextlib.contextmanager
def edited(environment, folder, data=None, name=NAME, **options):
    """The editor over a file with these bytes, when it shows them."""
    path = os.path.join(folder, name)
    if data is not None:
        write(path, data)
    editing = Editing(environment, path, **options)
    editing.wait_for_any(OPENED, b"a new file")
    editing.wait_for(DRAWN)
    try:
        yield editing
    finally:
        if editing.status is None:
            with contextlib.suppress(OSError):
                editing.kill()


def started_over(environment, top, contents):
    """An editor over a file of its own for each of some contents: they start side by side."""
    started = []
    for number, data in enumerate(contents):
        os.mkdir(os.path.join(top, str(number)))
        path = os.path.join(top, str(number), NAME)
        write(path, data)
        started.append(Editing(environment, path))
    return started


CONTENTS = {
    "no byte": b"", "a line": b"one\n", "no last newline": b"one\ntwo", "CRLF": b"one\r\ntwo\r\n",
    "CRLF and no last newline": b"one\r\ntwo", "ends of both kinds": b"one\r\ntwo\nthree\rfour\r\n",
    "CR alone": b"one\rtwo\r", "Latin-1": b"caf\xe9 \xc3\xa9\xc3\n", "a byte 0": b"one\0two\n",
    "UTF-16": "é\n".encode("utf-16"),
    "private characters": "\U0010fe80\U0010fee9\U0010feff\n".encode(), "surrogates": b"\xed\xa0\x80\xed\xb0\x80\n",
    "a byte order mark": b"\xef\xbb\xbfone\n", "all bytes": bytes(range(256)) * 3, "long": b"x" * 300_000 + b"\xff\n",
}


def check_contents(environment, tally):
    """What a file has comes back, but for what was typed."""
    with tempfile.TemporaryDirectory() as top:
        started = started_over(environment, top, CONTENTS.values())
        for (name, data), editing in zip(CONTENTS.items(), started):
            editing.wait_for(OPENED, DRAWN)
            editing.send(b"#" + SAVE)
            tally.check(editing.wait_for(b"saved " + NAME.encode()), f"{name}: it isn't saved")
            tally.check(read(editing.path) == b"#" + data, f"{name}: it is saved as {read(editing.path)[:80]}")
            status, _ = editing.end(LEAVE)
            tally.check(status == 0, f"{name}: the status is {status}")
            left = os.listdir(os.path.dirname(editing.path))
            tally.check(left == [NAME], f"{name}: left are {left}")


WIDTHS = {"世": 2, "e": 1, "\u0301": 0, "é": 1, "\u200b": 6, "\x07": 2, "\U0010fee9": 4, "😀": 2}


def check_widths(environment, tally):
    """How wide characters are, by `wcwidth`, where it is installed, and without it."""
    for without in ("", "sys.modules['wcwidth'] = None; "):
        words = f"import sys; {without}sys.path.insert(0, sys.argv[1]); from view import cell\n"
        words += f"print({{character: cell(character, 1)[1] for character in {WIDTHS!a}}})"
        done = subprocess.run([sys.executable, "-c", words, EDITOR], capture_output=True, text=True, env=environment)
        tally.check(done.stdout == f"{WIDTHS}\n", f"the widths are {done.stdout or done.stderr}")


def check_saving(environment, tally):
    """The mode and a link stay; nothing is lost unasked, nor by a file that changed on the disk."""
    with tempfile.TemporaryDirectory() as folder:
        real = os.path.join(folder, "real.py")
        write(real, b"one\n")
        os.chmod(real, 0o640)
        os.symlink("real.py", os.path.join(folder, NAME))
        with edited(environment, folder) as editing:
            editing.send(b"a" + SAVE)
            tally.check(editing.wait_for(b"saved real.py"), "a link: it isn't saved")
            tally.check(os.path.islink(editing.path) and read(real) == b"aone\n", "a link: it is a file now")
            tally.check(stat.S_IMODE(os.stat(real).st_mode) == 0o640, "the mode isn't kept")
            editing.send(b"b" + LEAVE)
            tally.check(editing.wait_for(b"[s]ave or [d]rop"), "edits are dropped unasked")
            editing.send(b"\x1b")
            editing.wait_for(b"cancelled")
            write(real, b"another\n")
            editing.send(b"c")
            tally.check(editing.wait_for(b"CHANGED ON DISK"), "a file that changed isn't noticed")
            editing.send(SAVE)
            tally.check(editing.wait_for(b"[o]verwrite?"), "a file that changed is overwritten unasked")
            editing.send(b"\x1b")
            tally.check(editing.wait_for(b"NOT saved"), "it doesn't say that it isn't saved")
            tally.check(read(real) == b"another\n", "a file that changed is overwritten after Esc")
            editing.send(SAVE + b"o")
            tally.check(editing.wait_for(b"saved real.py"), "a file that changed isn't overwritten")
            tally.check(read(real) == b"abcone\n", f"the file has {read(real)}")
            editing.send(b"d")
            editing.status, _ = editing.end(LEAVE + b"d")
            tally.check((editing.status, read(real)) == (0, b"abcone\n"), "edits that were dropped are saved")


def check_copies(environment, tally):
    """A copy is kept while edits aren't saved, by signals that end the editor too, and is offered then."""
    for number, status in ((signal.SIGKILL, -9), (signal.SIGTERM, 143), (signal.SIGHUP, 129)):
        with tempfile.TemporaryDirectory() as folder:
            copy = os.path.join(folder, COPY)
            with edited(environment, folder, b"one\r\n") as editing:
                editing.send(b"new ")
                editing.wait_for(b"modified")
                if number == signal.SIGKILL:
                    editing.wait_until(lambda: os.path.exists(copy))
                editing.status, said = editing.kill(number)
                tally.check(editing.status == status, f"signal {number}: the status is {editing.status}")
                tally.check(number == signal.SIGKILL or copy in said, f"signal {number}: it says {said!r}")
                tally.check("Traceback" not in said, f"signal {number}: it says {said!r}")
            left = os.path.exists(os.path.join(folder, LOCK))
            tally.check(left == (number == signal.SIGKILL), f"signal {number}: whether the lock is there is {left}")
            check_recovery(environment, tally, f"signal {number}", editing.path, [b"one\r\n"], b"new one\r\n")
            tally.check(os.listdir(folder) == [NAME], f"signal {number}: left are {os.listdir(folder)}")


def check_recovery(environment, tally, name, path, states, copied):
    """The copy has what was typed, the file one of some states, and the next editor saves what the copy has."""
    copy = os.path.join(os.path.dirname(path), COPY)
    tally.check(contents_of(copy) == copied, f"{name}: there is no copy")
    tally.check(read(path) in states, f"{name}: the file has {read(path)[:80]}")
    editing = Editing(environment, path)
    tally.check(editing.wait_for(b"[r]ecover"), f"{name}: the copy isn't offered")
    editing.send(b"r")
    tally.check(editing.wait_for(b"modified"), f"{name}: the copy isn't taken")
    editing.send(SAVE)
    editing.wait_for(b"saved")
    tally.check(editing.end(LEAVE)[0] == 0, f"{name}: it doesn't end")
    tally.check(read(path) == copied, f"{name}: the file has {read(path)[:80]}")


# The lock


REFUSED = b"^O saves it"  # what it says of an edit in a file that another editor has


def lock_record(folder):
    return (contents_of(os.path.join(folder, LOCK)) or b"").decode("utf-8")


def check_second(environment, tally, first, keys, answers, **options):
    """A second editor over a file that is edited: it names the first one, and shows some answers to some keys."""
    second = Editing(environment, first.path, columns=WIDE, **options)
    question = f"being edited by process {first.pid} on {HOST} since ".encode()
    tally.check(second.wait_for(question, b"[r]ead only or [q]uit?"), "a second editor doesn't name the first one")
    for key, answer in zip(keys, answers):
        second.send(key)
        tally.check(second.wait_for(answer), f"a second editor: {key} doesn't show {answer}")
    return second


def check_locks(environment, tally):
    """One editor has the lock; another one says which, reads only, and leaves its copy alone."""
    with tempfile.TemporaryDirectory() as folder:
        copy = os.path.join(folder, COPY)
        with edited(environment, folder, b"one\n") as first:
            first.send(b"first ")
            tally.check(first.wait_until(lambda: os.path.exists(copy)), "no copy is kept")
            for keys, answers, last, status in (
                ((), (), b"q", 0), ((), (), b"\x1b", 1),
                ((b"r", b"x", RIGHT, b"\r", RIGHT, REPLACE, SAVE),
                 (b"read-only", REFUSED, b"column 2", REFUSED, b"column 3", REFUSED, b"NOT saved: read"), LEAVE, 0),
            ):
                second = check_second(environment, tally, first, keys, answers)
                ended, said = second.end(last)
                tally.check(ended == status and "Traceback" not in said, f"a second editor: {ended}, {said!r}")
                tally.check("unsaved edits" not in said, f"a second editor has the first one's edits: {said!r}")
            second = check_second(environment, tally, first, [b"r"], [b"read-only"])
            tally.check(second.kill(signal.SIGTERM)[0] == 143, "a second editor isn't ended by SIGTERM")
            tally.check(contents_of(copy) == b"first one\n", "a second editor has changed the first one's copy")
            tally.check(read(first.path) == b"one\n", "a second editor has changed the file")
            is_first = f"process {first.pid} on {HOST} since" in lock_record(folder)
            tally.check(is_first, "the first editor has lost the lock")
            first.status, _ = first.kill()
        check_recovery(environment, tally, "a lock of a killed editor", first.path, [b"one\n"], b"first one\n")
        tally.check(os.listdir(folder) == [NAME], f"after a lock of a killed editor: {os.listdir(folder)}")


def check_stale_locks(environment, tally):
    """A lock that no process holds is stale, also with the number of another process; one of another host may live."""
    reused = f"process {os.getpid()} on {HOST} since 2026-01-01 00:00:00"
    gone = f"process 99999999 on {HOST} since 2026-01-01 00:00:00"
    remote = "process 1 on elsewhere since 2026-01-01 00:00:00"
    with tempfile.TemporaryDirectory() as folder:
        lock = os.path.join(folder, LOCK)
        for record in (reused, gone, ""):
            write(lock, record.encode())
            with edited(environment, folder, b"one\n") as editing:
                tally.check(f"process {editing.pid} on" in lock_record(folder), f"{record!r}: it isn't taken for stale")
                editing.status, _ = editing.end(LEAVE)
            tally.check(os.listdir(folder) == [NAME], f"{record!r}: left are {os.listdir(folder)}")
        write(lock, remote.encode())
        for keys in (b"q", b"r" + LEAVE):
            editing = Editing(environment, editing.path, columns=WIDE)
            is_asked = editing.wait_for(b"being edited by " + remote.encode(), b"[t]ake over?")
            tally.check(is_asked, "a lock of another host is ignored")
            editing.end(keys)
            tally.check(lock_record(folder) == remote, f"another host's lock is {lock_record(folder)!r} after {keys}")
        editing = Editing(environment, editing.path, columns=WIDE)
        editing.wait_for(b"[t]ake over?")
        editing.send(b"t")
        editing.wait_for(OPENED)
        tally.check(f"process {editing.pid} on" in lock_record(folder), "a lock of another host can't be taken over")
        editing.end(LEAVE)
        tally.check(os.listdir(folder) == [NAME], f"after a lock that was taken over: {os.listdir(folder)}")


def check_starts(environment, tally):
    """Of editors that start at the same moment one gets the lock, also where a stale one is there."""
    for stale in (None, f"process 99999999 on {HOST} since 2026-01-01 00:00:00"):
        with tempfile.TemporaryDirectory() as folder:
            path = os.path.join(folder, NAME)
            write(path, b"one\n")
            if stale:
                write(os.path.join(folder, LOCK), stale.encode())
            started = [Editing(environment, path, columns=WIDE) for _ in range(6)]
            found = [editing.wait_for_any(OPENED, b"[q]uit?") for editing in started]
            counts = found.count(OPENED), found.count(b"[q]uit?")
            tally.check(counts == (1, 5), f"editors that start at once: {found}")
            for editing, has_lock in zip(started, found):
                editing.end(LEAVE if has_lock == OPENED else b"q")
            tally.check(os.listdir(folder) == [NAME], f"after editors that start at once: {os.listdir(folder)}")


# A file system without `flock`, in a process of its own: the first lock is taken, and whether it is stale is asked.
WITHOUT_FLOCK = """
import errno, fcntl, sys
sys.path.insert(0, sys.argv[1])
from lock import Held, Lock
def refuse(*_):
    raise OSError(errno.ENOLCK, "No locks available")
fcntl.flock = refuse
first, second = Lock(sys.argv[2]), Lock(sys.argv[2])
first.take()
try:
    second.take()
except Held as held:
    print(held.may_be_stale)
second.take(takes_over=True)
first.release()
print(second.is_current(second.file))
"""


def check_without_flock(environment, tally):
    with tempfile.TemporaryDirectory() as folder:
        words = [sys.executable, "-c", WITHOUT_FLOCK, EDITOR, os.path.join(folder, LOCK)]
        done = subprocess.run(words, capture_output=True, text=True, env=environment)
        tally.check(done.stdout == "True\nTrue\n", f"without flock: {done.stdout}{done.stderr}")


# Replacing

# What replacing does: a text, keys, how many it reports, and the text then.
REPLACED = {
    "some, and all that are left": (
        b"alpha one\nalpha two\nalpha three", b"\x12alpha\ralphas\ryna", 2, b"alphas one\nalpha two\nalphas three"),
    "one by one, to the end of the round": (b"cat cat\ncat", b"\x12cat\rcats\ryyy#", 3, b"cats cats\ncats#"),
    "one by one, from the middle": (b"cat cat\ncat", b"\x1b[B\x12cat\rcats\ryyy#", 3, b"cats cats#\ncats"),
    "all, from the middle": (b"cat cat\ncat\n", b"\x1b[B\x12cat\rcats\ra", 3, b"cats cats\ncats\n"),
    "all, after the end": (b"cat cat\ncat\n", b"\x1b[B\x12cat\rcats\rnya", 2, b"cats cats\ncat\n"),
    "declined ones aren't asked again": (b"cat cat\ncat", b"\x1b[B\x12cat\rdog\rnnn#", 0, b"cat cat#\ncat"),
    "the cursor in a match": (b"cat cat", b"\x1b[C\x12cat\rdog\ra", 2, b"dog dog"),
    "the cursor in matches that overlap": (b"aaaa", b"\x1b[C\x1b[C\x12aa\rb\ra", 1, b"aba"),
    "a match over the start, with what was inserted": (b"aab", b"\x1b[C\x12ab\rb\ry#", 1, b"ab#"),
    "the same of all": (b"aab", b"\x1b[C\x12ab\rb\ra", 1, b"ab"),
    "a match of what is left": (b"aabb aabb", b"\x12ab\r\ra", 2, b"ab ab"),
    "no capitals": (b"Cat CAT cat", b"\x12cat\rdog\ra", 3, b"dog dog dog"),
    "capitals": (b"Cat CAT cat", b"\x12Cat\rdog\ra", 1, b"dog CAT cat"),
    "Esc": (b"cat cat cat", b"\x12cat\rdog\ry\x1b", 1, b"dog cat cat"),
    "none": (b"cat", b"\x12dog\rcat\r", 0, b"cat"),
    "all are undone at once": (b"cat cat cat", b"\x12cat\rdog\rya\x1a", None, b"cat cat cat"),
    "the second pane": (b"cat cat\ncat", b"\x17\x1b[B\x12cat\rcats\rya\x17#", None, b"cats# cats\ncats"),
    "no pattern": (b"cat", b"\x12\r#", None, b"#cat"),
    "1,000 of them": (b"cat\n" * 1000, b"\x1b[B\x12cat\rcats\ra", 1000, b"cats\n" * 1000),
}


def check_replace(environment, tally):
    """A round meets each match once, and nothing that it has inserted."""
    with tempfile.TemporaryDirectory() as top:
        started = started_over(environment, top, [data for data, _, _, _ in REPLACED.values()])
        for (name, (_, keys, count, replaced)), editing in zip(REPLACED.items(), started):
            editing.wait_for(OPENED, DRAWN)
            # A key alone after those that are typed ahead of what is shown.
            keys, last = (keys[:-1], keys[-1:]) if keys.endswith(b"#") else (keys, b"")
            editing.send(keys)
            if count is not None:
                tally.check(editing.wait_for(b"m%d replaced" % count), f"replace, {name}: {count} aren't reported")
            editing.send(last + SAVE)
            editing.wait_for(b"saved")
            tally.check(read(editing.path) == replaced, f"replace, {name}: {read(editing.path)[:80]}")
            tally.check(editing.end(LEAVE)[0] == 0, f"replace, {name}: it doesn't end")


def check_kills(environment, tally):
    """Killed at twenty moments of a save: the file is the old one or the new one."""
    old = b"a line of some characters that is to be saved\n" * 50_000
    found, took = [], 0.0
    with tempfile.TemporaryDirectory() as top:
        for number, editing in enumerate(started_over(environment, top, [old] * (1 + len(KILLS)))):
            editing.wait_for(OPENED, DRAWN)
            editing.send(b"#")
            editing.settle()
            began = time.monotonic()
            editing.send(SAVE)
            if number == 0:
                # The first is let go to its end.
                editing.wait_for(b"saved")
                took = time.monotonic() - began
            else:
                time.sleep(took * KILLS[number - 1])
            editing.kill()
            found.append({old: "old", b"#" + old: "new"}.get(read(editing.path), "less"))
        tally.check("less" not in found, f"a save that is killed leaves {found}")
        tally.check({"old", "new"} <= set(found[1:]), f"no moment was within a save: {found}")
        folder = next(os.path.join(top, str(number)) for number, state in enumerate(found) if state == "old")
        with contextlib.suppress(FileNotFoundError):
            os.unlink(os.path.join(folder, f".{NAME}.copy~"))
        with edited(environment, folder) as editing:
            editing.send(b"#" + SAVE)
            editing.wait_for(b"saved")
            editing.status, _ = editing.end(LEAVE)
            tally.check(os.listdir(folder) == [NAME], f"after a killed save the folder has {os.listdir(folder)}")


def limit_files():
    import resource

    resource.setrlimit(resource.RLIMIT_FSIZE, (65_536, 65_536))


def drop_privileges():
    """Root keeps its name, but no longer what it may do with the files of others, or against their modes."""
    if os.geteuid() == 0:
        drop_from_bounding_set, capabilities = 24, (0, 1, 2, 3)
        for capability in capabilities:
            if ctypes.CDLL(None).prctl(drop_from_bounding_set, capability, 0, 0, 0):
                raise OSError("a privilege can't be dropped")


def can_be_refused():
    """Whether a process here can be refused what it may not do."""
    with tempfile.TemporaryDirectory() as folder:
        os.chmod(folder, 0o555)
        words = [sys.executable, "-c", "import sys; open(sys.argv[1], 'x')", os.path.join(folder, "new")]
        with contextlib.suppress(OSError, AttributeError, subprocess.SubprocessError):
            return subprocess.run(words, capture_output=True, preexec_fn=drop_privileges).returncode == 1
    return False


@contextlib.contextmanager
def small_disk():
    """A folder on a file system of 128 KB, or None where none can be mounted."""
    with tempfile.TemporaryDirectory() as folder:
        words = ["mount", "-t", "tmpfs", "-o", "size=128k", "tmpfs", folder]
        if shutil.which("mount") is None or subprocess.run(words, capture_output=True).returncode:
            print("skipped: a file system that is full, since none can be mounted here")
            yield None
            return
        try:
            yield folder
        finally:
            subprocess.run(["umount", folder], check=True)


def check_refused_save(environment, tally, fault, folder, data, **options):
    """A save that fails is reported, and leaves the file as it was, and nothing else."""
    with edited(environment, folder, data, **options) as editing:
        was = read(editing.path)
        editing.send(b"#" + SAVE)
        tally.check(editing.wait_for(b"NOT saved"), f"{fault}: it doesn't say that it isn't saved")
        tally.check(read(editing.path) == was, f"{fault}: the file changed")
        editing.status, said = editing.end(LEAVE + b"d")
        tally.check(editing.status == 0 and "Traceback" not in said, f"{fault}: status {editing.status}, {said!r}")
        tally.check(not [left for left in os.listdir(folder) if left.endswith("~")], f"{fault}: {os.listdir(folder)}")


def check_faults(environment, tally):
    """A disk that is full, a folder in which nothing can be written, and what can't be edited."""
    with tempfile.TemporaryDirectory() as folder:
        check_refused_save(environment, tally, "a full disk", folder, b"a line\n" * 20_000, before=limit_files)
    with small_disk() as folder:
        if folder:
            check_refused_save(environment, tally, "a full file system", folder, b"a line\n" * 10_000)
    with tempfile.TemporaryDirectory() as folder:
        os.mkfifo(os.path.join(folder, "pipe"))
        os.mkdir(os.path.join(folder, "sub"))
        os.symlink("loop", os.path.join(folder, "loop"))
        refused = {"pipe": "not a regular file", "sub": "not a regular file", "pipe/x": "Not a directory", "loop": "Too many"}
        for name, editing in {name: Editing(environment, os.path.join(folder, name)) for name in refused}.items():
            status, given = editing.end()
            is_told = refused[name] in given and "Traceback" not in given
            tally.check(status == 1 and is_told, f"{name}: {status}, {given!r}")
        words = [sys.executable, "-S", "-E", EDITOR, os.path.join(folder, "new")]
        given = subprocess.run(words, capture_output=True, text=True).stderr
        tally.check("tktext" in given and "Traceback" not in given, f"without the package: {given!r}")
        with edited(environment, os.path.join(folder, "sub"), b"one\n") as editing:
            shutil.rmtree(os.path.join(folder, "sub"))
            editing.send(b"#" + SAVE + b"o")
            tally.check(editing.wait_for(b"NOT saved"), "a folder that is gone: it doesn't say that it isn't saved")
            editing.status, given = editing.end(LEAVE + b"d")
            tally.check(editing.status == 0 and "Traceback" not in given, f"a folder that is gone: {given!r}")


def check_failure_stays(environment, tally):
    """That a save failed is shown until a key comes after that: also by keys typed ahead, and where no copy is kept."""
    with tempfile.TemporaryDirectory() as folder:
        data = b"a line\n" * 20_000
        with edited(environment, folder, data, columns=WIDE, before=limit_files) as editing:
            editing.send(b"#" + SAVE + b"ab")
            tally.check(editing.wait_for(b"NOT saved: "), "keys that are typed ahead hide that it isn't saved")
            is_shown = editing.wait_for(b"NOT saved: ", b"; no copy is kept: ")
            tally.check(is_shown, "where no copy is kept it doesn't say any more that it isn't saved")
            os.kill(editing.pid, signal.SIGWINCH)
            tally.check(editing.wait_for(b"NOT saved: ", DRAWN), "a new drawing hides that it isn't saved")
            editing.send(b"c")
            editing.wait_until(lambda: b"no copy is kept: " in editing.written)
            tally.check(b"NOT saved: " not in editing.written, "a key doesn't end that it isn't saved")
            editing.status, _ = editing.end(LEAVE + b"d")


def check_saved_in_place(environment, tally, name, folder, data=b"one\n", state=None, **options):
    """A save in place: the file keeps its inode, its owner and its mode; no copy is left, and no lock."""
    environment = {**environment, "XDG_STATE_HOME": state} if state else environment
    with edited(environment, folder, data, **options) as editing:
        was = os.stat(editing.path)
        editing.send(b"#" + SAVE)
        tally.check(editing.wait_for(b"saved " + NAME.encode()), f"{name}: it isn't saved")
        status = os.stat(editing.path)
        for field in ("st_ino", "st_uid", "st_mode", "st_nlink"):
            given, wanted = getattr(status, field), getattr(was, field)
            tally.check(given == wanted, f"{name}: {field} is {given} and not {wanted}")
        editing.send(b"more")
        editing.wait_for(b"modified", DRAWN)
        editing.send(SAVE)
        tally.check(editing.wait_for(b"saved " + NAME.encode()), f"{name}: it isn't saved a second time")
        editing.status, _ = editing.end(LEAVE)
        given = read(editing.path)
        tally.check(given == b"#more" + (data or b"one\n"), f"{name}: the file has {given[:80]}")
        left = files_below(folder, environment["XDG_STATE_HOME"])
        tally.check(not [path for path in left if path.endswith("~")], f"{name}: left are {left}")


def files_below(*folders):
    return [os.path.join(at, name) for folder in folders for at, _, names in os.walk(folder) for name in names]


def check_in_place(environment, tally):
    """A file that can't be replaced, or that has several names, is written in place."""
    with tempfile.TemporaryDirectory() as folder, tempfile.TemporaryDirectory() as state:
        path, other = os.path.join(folder, NAME), os.path.join(folder, "other")
        write(path, b"one\n" * 1000)
        os.link(path, other)
        check_saved_in_place(environment, tally, "a hard link", folder, b"one\n" * 1000, state)
        tally.check(read(other) == b"#more" + b"one\n" * 1000, "a hard link: the other name has another file")
        # A shorter text, and a longer one.
        with edited(environment, folder) as editing:
            editing.send(b"\x01\x7fx" + SAVE)
            editing.wait_for(b"saved")
            editing.status, _ = editing.end(LEAVE)
        tally.check(read(other) == b"x", f"a hard link to a file that becomes shorter: it has {read(other)[:80]}")
    if not can_be_refused():
        print("skipped: files that can't be replaced, since no privilege can be dropped here")
        return
    with tempfile.TemporaryDirectory() as folder, tempfile.TemporaryDirectory() as state:
        write(os.path.join(folder, NAME), b"one\n")
        os.chmod(folder, 0o555)
        check_saved_in_place(environment, tally, "an unwritable folder", folder, None, state, before=drop_privileges)
        check_kept_elsewhere(environment, tally, folder, state)
        os.chmod(folder, 0o755)
    if os.geteuid() != 0:
        print("skipped: an owner that can't be kept, since only root can make a file of another one")
        return
    with tempfile.TemporaryDirectory() as folder:
        path = os.path.join(folder, NAME)
        write(path, b"one\n")
        os.chown(path, 65_534, 65_534)
        os.chmod(path, 0o666)
        os.chmod(folder, 0o777)
        check_saved_in_place(environment, tally, "another owner", folder, None, before=drop_privileges)
        os.chmod(folder, 0o1777)
        write(path, b"one\n")
        check_saved_in_place(environment, tally, "a sticky folder", folder, None, before=drop_privileges)


def check_kept_elsewhere(environment, tally, folder, state):
    """Where nothing can be created beside a file its copy and its lock are at the same path in the state folder."""
    environment = {**environment, "XDG_STATE_HOME": state}
    path = os.path.join(folder, NAME)
    write(path, b"one\n")
    elsewhere = os.path.join(state, "tktext-editor") + os.path.realpath(folder)
    with edited(environment, folder, before=drop_privileges) as editing:
        editing.send(b"new ")
        is_kept = editing.wait_until(lambda: os.path.exists(os.path.join(elsewhere, COPY)))
        tally.check(is_kept, "an unwritable folder: no copy is kept elsewhere")
        tally.check(lock_record(elsewhere), "an unwritable folder: no lock is held elsewhere")
        modes = [stat.S_IMODE(os.stat(path).st_mode) for path in glob.glob(os.path.join(state, "*"))]
        tally.check(modes == [0o700], f"the state folder may be read by others: {modes}")
        second = check_second(environment, tally, editing, [], [], before=drop_privileges)
        second.end(b"q")
        editing.status, _ = editing.kill()
    editing = Editing(environment, path, before=drop_privileges)
    tally.check(editing.wait_for(b"[r]ecover"), "an unwritable folder: the copy isn't offered")
    editing.send(b"r")
    editing.wait_for(b"modified")
    editing.send(SAVE)
    editing.wait_for(b"saved")
    editing.end(LEAVE)
    tally.check(read(path) == b"new one\n", f"an unwritable folder: the file has {read(path)}")


def check_full_in_place(environment, tally):
    """A disk that is full while a file would be written in place: nothing of it is overwritten, the copy is named."""
    with small_disk() as folder, tempfile.TemporaryDirectory() as state:
        if not folder:
            return
        environment = {**environment, "XDG_STATE_HOME": state}
        data = b"a line\n" * 10_000
        write(os.path.join(folder, NAME), data)
        os.link(os.path.join(folder, NAME), os.path.join(folder, "other"))
        copy = os.path.join(state, "tktext-editor") + os.path.join(os.path.realpath(folder), COPY)
        with edited(environment, folder, columns=WIDE) as editing:
            editing.send(b"\x1b[200~" + b"x" * 70_000 + b"\x1b[201~")
            editing.wait_for(b"column 70001")
            editing.send(SAVE)
            is_named = editing.wait_for(b"NOT saved: ", b"the text is in " + copy.encode())
            tally.check(is_named, "a full disk in place: the copy isn't named")
            tally.check(read(editing.path) == data, "a full disk in place: the file changed")
            tally.check(contents_of(copy) == b"x" * 70_000 + data, "a full disk in place: the copy isn't whole")
            editing.send(b"\x1b[D")
            editing.wait_for(b"column 70000")
            tally.check(b"CHANGED" not in editing.written, "a full disk in place: the file seems to be another one")
            editing.status, _ = editing.end(LEAVE + b"d")
            tally.check(not os.path.exists(copy), "a full disk in place: the copy of dropped edits is left")


# A save in place that fails, in a process of its own: killed in the middle, or by an error of the disk there or last.
HALF_WRITTEN = """
import os, shutil, signal, sys
sys.path.insert(0, sys.argv[1])
from files import File
from tktext import Text
def half(source, target):
    target.write(source.read(10))
    target.flush()
    if sys.argv[3] == "killed":
        os.kill(os.getpid(), signal.SIGKILL)
    raise OSError(5, "Input/output error")
def refuse(descriptor):
    if os.path.samestat(os.fstat(descriptor), os.stat(sys.argv[2])):
        raise OSError(5, "Input/output error")
file, text = File(sys.argv[2]), Text()
file.lock()
list(file.load(text))
text.insert("1.0", "new ")
if sys.argv[3] == "not synchronised":
    os.fsync = refuse
else:
    shutil.copyfileobj = half
try:
    list(file.save(text))
except OSError as error:
    print(error)
file.drop_copies()
file.unlock()
"""


def check_half_written(environment, tally):
    """The copy of a file that is half written in place, or not synchronised, stays, and the next editor offers it."""
    for how in ("killed", "refused", "not synchronised"):
        with tempfile.TemporaryDirectory() as folder:
            path = os.path.join(folder, NAME)
            write(path, b"one " * 100)
            os.link(path, os.path.join(folder, "other"))
            words = [sys.executable, "-c", HALF_WRITTEN, EDITOR, path, how]
            done = subprocess.run(words, capture_output=True, text=True, env=environment)
            is_named = how == "killed" or f"the text is in {os.path.join(folder, COPY)}" in done.stdout
            tally.check(is_named, f"a save in place that is {how}: it says {done.stdout}{done.stderr}")
            whole, old = b"new " + b"one " * 100, b"one " * 100
            half = whole[:10] + old[10:]
            reserved = half + b"\0" * (len(whole) - len(old))
            states = [whole] if how == "not synchronised" else [half, reserved]
            check_recovery(environment, tally, f"a save in place that is {how}", path, states, whole)
            left = sorted(os.listdir(folder))
            tally.check(left == [NAME, "other"], f"a save in place that is {how}: left are {left}")


def check_links_and_times(environment, tally):
    """A link to a new file, a chain of links, a file over which another one is mounted, and a file that is emptied."""
    with tempfile.TemporaryDirectory() as folder:
        os.mkdir(os.path.join(folder, "sub"))
        os.symlink("second", os.path.join(folder, NAME))
        os.symlink("sub/real", os.path.join(folder, "second"))
        for _ in range(2):
            with edited(environment, folder) as editing:
                editing.send(b"#" + SAVE)
                tally.check(editing.wait_for(b"saved real"), "a chain of links: it isn't saved")
                editing.status, _ = editing.end(LEAVE)
        tally.check(read(os.path.join(folder, "sub", "real")) == b"##", "a chain of links: the file isn't written")
        is_link = os.path.islink(os.path.join(folder, NAME)) and os.path.islink(os.path.join(folder, "second"))
        tally.check(is_link, "a chain of links: a link is a file now")
    with tempfile.TemporaryDirectory() as folder:
        path = os.path.join(folder, NAME)
        write(path, b"one\n")
        os.utime(path, (1_000_000_000, 1_000_000_000))
        with edited(environment, folder) as editing:
            editing.send(b"\x01\x7f" + SAVE)
            editing.wait_for(b"saved")
            editing.status, _ = editing.end(LEAVE)
        is_new = os.stat(path).st_mtime > 1_000_000_000
        tally.check(read(path) == b"" and is_new, "a file that is emptied has its old time")
    with tempfile.TemporaryDirectory() as folder:
        path, other = os.path.join(folder, NAME), os.path.join(folder, "other")
        write(path, b"")
        write(other, b"one\n")
        words = ["mount", "--bind", other, path]
        if shutil.which("mount") is None or subprocess.run(words, capture_output=True).returncode:
            print("skipped: a file that is mounted, since none can be mounted here")
            return
        try:
            check_saved_in_place(environment, tally, "a file that is mounted", folder, None)
        finally:
            subprocess.run(["umount", path], check=True)
        tally.check(read(other) == b"#moreone\n", "a file that is mounted: it isn't written")


def check_save_as(environment, tally):
    """^O saves under another name, asks before it replaces a file, and takes that file's lock."""
    with tempfile.TemporaryDirectory() as folder:
        paths = {name: os.path.join(folder, name) for name in ("new.txt", "there.py", "held.py", "copied.py")}
        write(paths["there.py"], b"there\n")
        write(os.path.join(folder, ".copied.py.copy~"), b"a copy\n")
        held = Editing(environment, paths["held.py"])
        held.wait_for(b"a new file", DRAWN)
        with edited(environment, folder, b"one\r\ntwo\r\n", columns=WIDE) as editing:
            for name, answer in (
                ("held.py", b"NOT saved: being edited by process %d" % held.pid),
                ("copied.py", b"NOT saved: unsaved edits of copied.py are in "), ("none/x", b"NOT saved: cannot open '"),
                ("", b"NOT saved: not a regular file"),
                ("there.py", b"[o]verwrite there.py?"),
            ):
                editing.send(SAVE_AS + os.path.join(folder, name).encode() + b"\r")
                tally.check(editing.wait_for(answer), f"^O {name}: it doesn't say {answer}")
            editing.send(b"\x1b")
            tally.check(editing.wait_for(b"NOT saved: cancelled"), "^O: Esc doesn't end it")
            tally.check(read(paths["there.py"]) == b"there\n", "^O: a file is overwritten unasked")
            left = sorted(name for name in os.listdir(folder) if name.endswith("lock~"))
            tally.check(left == [".held.py.lock~", LOCK], f"^O that is refused: the locks are {left}")
            text = b"one\r\ntwo\r\n"
            for was, name, answers, changed in (
                (NAME, "there.py", b"o", b"#" + text), ("there.py", "new.txt", b"", b"##" + text)
            ):
                copy = os.path.join(folder, f".{was}.copy~")
                editing.send(b"#")
                tally.check(editing.wait_until(lambda: os.path.exists(copy)), f"^O {name}: no copy is kept before")
                editing.send(SAVE_AS + paths[name].encode() + b"\r" + answers)
                tally.check(editing.wait_for(b"saved " + name.encode(), DRAWN), f"^O {name}: it isn't saved")
                tally.check(read(paths[name]) == changed, f"^O {name}: the file has {read(paths[name])}")
                locks = sorted(entry for entry in os.listdir(folder) if entry.endswith("lock~"))
                tally.check(locks == [".held.py.lock~", f".{name}.lock~"], f"^O {name}: the locks are {locks}")
                tally.check(not os.path.exists(copy), f"^O {name}: the copy of {was} is left")
            tally.check(read(editing.path) == b"one\r\ntwo\r\n", "^O: the file that was edited before has changed")
            editing.send(b"x")
            editing.wait_for(b"modified", DRAWN)
            editing.send(SAVE)
            editing.wait_for(b"saved new.txt")
            tally.check(read(paths["new.txt"]) == b"##xone\r\ntwo\r\n", "^O: the new file isn't edited")
            editing.status, _ = editing.end(LEAVE)
        held.end(LEAVE)
        second = [Editing(environment, os.path.join(folder, NAME), columns=WIDE) for _ in range(2)]
        # One of the two has the lock; the other one saves under another name, and edits that.
        found = [editing.wait_for_any(OPENED, b"[q]uit?") for editing in second]
        reader = second[found.index(b"[q]uit?")]
        reader.send(b"r")
        reader.wait_for(b"read-only")
        reader.send(SAVE_AS + os.path.join(folder, "read.py").encode() + b"\r")
        tally.check(reader.wait_for(b"saved read.py", DRAWN), "^O of what is only read: it isn't saved")
        reader.send(b"#")
        reader.wait_for(b"modified", DRAWN)
        reader.send(SAVE)
        tally.check(reader.wait_for(b"saved read.py"), "^O of what is only read: it can't be edited then")
        reader.end(LEAVE)
        tally.check(read(os.path.join(folder, "read.py")) == b"#one\r\ntwo\r\n", "^O of what is only read: the file")
        second[found.index(OPENED)].end(LEAVE)
        left = [name for name in os.listdir(folder) if name.endswith("~")]
        tally.check(left == [".copied.py.copy~"], f"^O: left are {left}")


# What 20 MB take


def long_text():
    """Python of so many bytes in so many lines."""
    lines = [f"    value_{number} = compute({number}, 'some text')  # " for number in range(LINES)]
    lines[::10] = [f"def function_{number}(argument, other=None):  # " for number in range(LINES)][::10]
    missing = BYTES - sum(map(len, lines)) - LINES
    return "".join(
        line + "x" * (missing // LINES + (number < missing % LINES)) + "\n" for number, line in enumerate(lines)
    ).encode("ascii")


def wall(_):
    return time.monotonic()


def processor(pid):
    """The processor time of a process so far, or of none yet, by its clock's number in Linux."""
    return 0.0 if pid is None else time.clock_gettime((~pid << 3) | 2)


def seconds_to(clock, editing, keys, *parts):
    """How long it takes from keys to a screen that has some parts."""
    editing.settle(0.01)
    began = clock(editing.pid)
    while keys:
        # A terminal that is full takes no more before something is read.
        _, writable, _ = select.select([], [editing.terminal], [], 0)
        if writable:
            keys = keys[os.write(editing.terminal, keys[:2048]) :]
        else:
            editing.take(0.01)
    return clock(editing.pid) - began if editing.wait_for(*parts, DRAWN) else PATIENCE


def greatest_memory(pid):
    """The greatest resident size of a process so far, in bytes."""
    with open(f"/proc/{pid}/status", encoding="ascii") as file:
        return next(int(line.split()[1]) * 1024 for line in file if line.startswith("VmHWM"))


def measured(environment, clock):
    """The figures of a text of 20 MB: seconds to open it, of keys, of a paste and of a save, and the memory."""
    with tempfile.TemporaryDirectory() as folder:
        write(os.path.join(folder, NAME), long_text())
        opened = []
        for _ in range(2):
            began = clock(None)
            with edited(environment, folder) as editing:
                opened.append(clock(editing.pid) - began)
        with edited(environment, folder) as editing:
            seconds_to(clock, editing, b"\x07150000\r")
            keys = [bytes([byte]) for byte in b"def typed(words):\r    'a'  # b"]
            keys += [b"\x1b[B", b"\x1b[A", b"\x1b[6~", b"\x1b[5~", b"\x1b[C", b"\x7f", b"\x1b[1;2B", b"\x1a", b"\x19"]
            times = [seconds_to(clock, editing, key) for key in keys]
            seconds_to(clock, editing, b"\x17")
            with_two = [seconds_to(clock, editing, key) for key in keys]
            line = b"    pasted = lines.of(some, words)  # and a remark\r"
            pasted = seconds_to(clock, editing, b"\x1b[200~" + line * PASTED_LINES + b"\x1b[201~", b"of 302")
            editing.settle(1.0)
            memory = greatest_memory(editing.pid)
            saved = seconds_to(clock, editing, SAVE, b"saved")
            editing.status, _ = editing.end(LEAVE)
    return {"open": min(opened), "key": statistics.median(times), "key, two panes": statistics.median(with_two),
            "slowest key": max(times + with_two), "paste": pasted, "save": saved, "memory": memory / BYTES}


def check_size(_, tally):
    """It stays small enough to be read."""
    count = sum(read(path).count(b"\n") for path in glob.glob(os.path.join(EDITOR, "*.py")))
    tally.check(count <= MOST_LINES, f"the editor has {count} lines")


def check_progress(environment, tally):
    """How far it is, is told while much is loaded and saved."""
    with tempfile.TemporaryDirectory() as folder:
        write(os.path.join(folder, NAME), long_text() * 5)
        editing = Editing(environment, os.path.join(folder, NAME))
        tally.check(editing.wait_for(b"loading: ", OPENED), "the progress of loading isn't shown")
        editing.send(b"#" + SAVE)
        tally.check(editing.wait_for(b"saving: ", b"saved"), "the progress of saving isn't shown")
        tally.check(editing.end(LEAVE)[0] == 0, "it doesn't end after a long save")


def check_measures(environment, tally):
    """The goals, by processor time, which other work on the machine changes little."""
    figures = measured(environment, processor)
    for name, most in MOST.items():
        tally.check(figures[name] <= most, f"20 MB: {name} takes {figures[name]:.3f}, and {most} at most is asked for")


def main():
    parser = argparse.ArgumentParser(description="tries the editor in a terminal")
    parser.add_argument("--module", default=os.path.join(TOP, "out", "python"))
    parser.add_argument("--show", action="store_true")
    parser.add_argument("--measure", action="store_true")
    options = parser.parse_args()
    if not os.path.isdir(options.module):
        print(f"skipped: the editor, since there is no {options.module} (`make python` makes it)\n0 passed, 0 failed")
        return 0
    with tempfile.TemporaryDirectory() as state:
        environment = environment_over(os.path.abspath(options.module), state)
        return show_measures(environment) if options.measure else check_all(environment, options.show)


def show_measures(environment):
    by_clock, of_processor = measured(environment, wall), measured(environment, processor)
    print(f"memory: {by_clock.pop('memory'):.2f} times the file")
    for name, figure in by_clock.items():
        print(f"{name}: {figure * 1000:.1f} ms by the clock, {of_processor[name] * 1000:.1f} ms of the processor")
    return 0


def check_all(environment, shows):
    tally = Tally()
    check_screens(environment, shows, tally)
    for check in CHECKS:
        began = time.monotonic()
        check(environment, tally)
        if shows:
            print(f"{check.__name__}: {time.monotonic() - began:.1f} s")
    return tally.close()


CHECKS = (
    check_size, check_widths, check_contents, check_replace, check_saving, check_copies, check_kills, check_locks,
    check_stale_locks, check_starts, check_without_flock, check_faults, check_failure_stays, check_in_place,
    check_full_in_place, check_half_written, check_links_and_times, check_save_as, check_progress, check_measures,
)

if __name__ == "__main__":
    sys.exit(main())
