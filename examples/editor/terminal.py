"""The terminal: its keys by their names, a paste as one of them, and rows, of which those that changed are written."""

import contextlib
import os
import re
import select
import signal
import sys
import termios
import tty

from files import decoded

PASTE, PASTE_END = b"\x1b[200~", b"\x1b[201~"
# After how long without a key one is idle, and how long the rest of a key may take, and that of a paste.
IDLE_SECONDS, KEY_SECONDS, PASTE_SECONDS = 0.5, 0.05, 2.0
# A key: an escape sequence, a character of some bytes, a byte, or none; and what is the beginning of one.
_KEY = re.compile(rb"\x1b[\[O][\d;]*[A-Za-z~]|[\xc2-\xf4][\x80-\xbf]+|.?", re.DOTALL)
_BEGUN = re.compile(rb"\x1b([\[O][\d;]*)?|[\xc2-\xdf]|[\xe0-\xef][\x80-\xbf]?|[\xf0-\xf4][\x80-\xbf]{0,2}")
_BYTES = dict(zip("\r\n\t\x7f\b\x1b\0", "enter enter tab backspace backspace escape ctrl-space".split()))
_NAMES = dict(zip("A B C D H F P 1~ 3~ 4~ 5~ 6~ 7~ 8~ 11~".split(),
                  "up down right left home end f1 home delete end pageup pagedown home end f1".split()))
_HELD = {"2": "shift-", "5": "ctrl-", "6": "ctrl-shift-"}
_SETUP, _RESTORE = "\x1b[?1049h\x1b[?2004h\x1b[?7l", "\x1b[?7h\x1b[?2004l\x1b[m\x1b[?25h\x1b[?1049l"
_ENDING = (signal.SIGTERM, signal.SIGHUP, signal.SIGINT)


def named(key):
    """The name of a key, and its characters, where it has some."""
    if len(key) > 2 and key[0] == "\x1b":
        number, _, held = key[2:-1].partition(";")
        return _HELD.get(held, "") + _NAMES.get(number + "~" if key[-1] == "~" else key[-1], "unknown"), ""
    is_text = key >= " " and key != "\x7f"
    return ("text", key) if is_text else (_BYTES.get(key) or "ctrl-" + chr(ord(key) | 96), "")


class Terminal:
    """The terminal, taken as a whole until it is given back; a signal that ends the editor is a SystemExit."""

    def __enter__(self):
        self.was, self.waiting, self.shown = termios.tcgetattr(0), bytearray(), ([], None)
        self.signals, signalled = os.pipe()
        os.set_blocking(signalled, False)
        signal.set_wakeup_fd(signalled)
        for number in (signal.SIGWINCH, *_ENDING):
            signal.signal(number, lambda *_: None)
        sys.stdout.reconfigure(encoding="utf-8", errors="replace")
        tty.setraw(0)
        print(_SETUP, end="", flush=True)
        return self

    def __exit__(self, *_):
        with contextlib.suppress(OSError, termios.error):
            print(_RESTORE, end="", flush=True)
            termios.tcsetattr(0, termios.TCSADRAIN, self.was)

    def show(self, rows, cursor):
        """Shows rows, from the first on, and the cursor at a row and a column."""
        was, self.shown = self.shown, (rows, cursor)
        drawn = (f"\x1b[{at}H\x1b[m\x1b[2K{row}" for at, row in enumerate(rows, 1) if [row] != was[0][at - 1 : at])
        if was != self.shown:
            print(f"\x1b[?25l{''.join(drawn)}\x1b[m\x1b[{cursor[0] + 1};{cursor[1] + 1}H\x1b[?25h", end="", flush=True)

    def wait(self, seconds):
        """Waits for bytes or a signal; returns whether one came."""
        ready, _, _ = select.select([0, self.signals], [], [], seconds)
        if self.signals in ready:
            for number in set(os.read(self.signals, 64)) & set(_ENDING):
                raise SystemExit(128 + number)
            self.shown = [], None
        if 0 in ready:
            self.waiting += (data := os.read(0, 1 << 16))
            if not data:
                raise SystemExit(128 + signal.SIGHUP)
        return bool(ready)

    def key(self, idle):
        """The next key, and its characters; both are empty where none comes for some time, or a signal."""
        if not self.waiting and not self.wait(IDLE_SECONDS):
            idle()
        while _BEGUN.fullmatch(self.waiting) and self.wait(KEY_SECONDS):
            pass
        if self.waiting.startswith(PASTE):
            while PASTE_END not in self.waiting and self.wait(PASTE_SECONDS):
                pass
            pasted, _, self.waiting = self.waiting[len(PASTE) :].partition(PASTE_END)
            return "paste", re.sub("\r\n?", "\n", decoded(pasted))
        key = _KEY.match(self.waiting)[0]
        del self.waiting[: len(key)]
        return named(decoded(key)) if key else ("", "")
