"""Real Tk 8.6 behind a display that nobody sees: each command of a script with its answer.

Wants `Xvfb` and `wish` (on Debian `apt-get install xvfb tk8.6`).
"""

import os
import select
import shutil
import subprocess
import time
from typing import NamedTuple

DRIVER = os.path.join(os.path.dirname(os.path.abspath(__file__)), "tk_driver.tcl")
WISHES = ("wish8.6", "wish")
# An answer that isn't there after so many seconds never comes.
PATIENCE = 60
# The same where none is awaited.
LITTLE_PATIENCE = 5
# A process of Tk keeps something of each script, so it is begun anew after so many.
MOST_SCRIPTS = 1_000


class Answer(NamedTuple):
    """What a command gave: a text, or none where it was refused (`is_refused`, then with the error's text)."""

    text: str
    is_refused: bool


class NoAnswer(Exception):
    """Tk ended, or did not return."""


def find_wish():
    """The program that runs Tk scripts, or None."""
    return next((found for found in map(shutil.which, WISHES) if found), None)


def open_tk():
    """Real Tk, or None where it can't be asked here, and its version, or why it can't."""
    if find_wish() is None or shutil.which("Xvfb") is None:
        return None, "Tk 8.6 or Xvfb isn't installed"
    tk = RealTk()
    try:
        (version,) = tk.answers(["info patchlevel"])
    except OSError:
        version = None
    if version is None or not version.text.startswith("8.6."):
        tk.close()
        return None, f"no Tk 8.6 answers, but {version and version.text}"
    return tk, f"Tk {version.text}"


class Display:
    """A display of its own, without a screen."""

    def __init__(self):
        reader, writer = os.pipe()
        self.server = subprocess.Popen(
            ["Xvfb", "-displayfd", str(writer), "-screen", "0", "640x480x24", "-nolisten", "tcp"],
            pass_fds=[writer], stdin=subprocess.DEVNULL, stdout=subprocess.DEVNULL, stderr=subprocess.DEVNULL,
        )
        os.close(writer)
        with os.fdopen(reader) as file:
            self.name = ":" + file.readline().strip()

    def close(self):
        self.server.terminate()
        self.server.wait()


class RealTk:
    """A display and a process of Tk on it, which is begun anew where it ended or hangs."""

    def __init__(self):
        self.display = Display()
        self.process = None
        self.count = 0

    def begin(self):
        """A process that has met no script yet."""
        self.end()
        self.process = subprocess.Popen(
            [find_wish(), DRIVER],
            env={**os.environ, "DISPLAY": self.display.name},
            stdin=subprocess.PIPE, stdout=subprocess.PIPE, stderr=subprocess.DEVNULL, bufsize=0,
        )
        self.count = 0

    def end(self):
        if self.process is not None:
            self.process.kill()
            self.process.wait()
            self.process.stdin.close()
            self.process.stdout.close()
            self.process = None

    def close(self):
        self.end()
        self.display.close()

    def write(self, line):
        try:
            self.process.stdin.write(line + b"\n")
        except BrokenPipeError:
            raise NoAnswer from None

    def read_line(self, patience):
        """The next line, or NoAnswer."""
        line, until = b"", time.monotonic() + patience
        while not line.endswith(b"\n"):
            ready, _, _ = select.select([self.process.stdout], [], [], max(0, until - time.monotonic()))
            piece = os.read(self.process.stdout.fileno(), 65536) if ready else b""
            if not piece:
                raise NoAnswer
            line += piece
        return line

    def new(self):
        """No widgets."""
        if self.process is None or self.count >= MOST_SCRIPTS:
            self.begin()
        self.count += 1
        self.write(b"new")

    def run(self, command, patience):
        """The answer of one command, or NoAnswer, after which a script can't go on."""
        try:
            self.write(command.encode("utf-8").hex().encode())
            word, _, spelled = self.read_line(patience).decode().strip().partition(" ")
        except NoAnswer:
            self.end()
            raise
        return Answer(bytes.fromhex(spelled).decode("utf-8", "replace"), word == "error")

    def answers(self, commands, patience=PATIENCE):
        """The answers of a script's commands; where one gave none the list ends with None."""
        found = []
        try:
            self.new()
            for command in commands:
                found.append(self.run(command, patience))
        except NoAnswer:
            self.end()
            found.append(None)
        return found
