#!/usr/bin/env python3
"""Tries `python3 -m tktext`: scripts by files and standard input, objects of JSON, statuses, and the prompt.

    python3 tools/python_tool.py [--module out/python]

Ends in a line `N passed, M failed`; the exit status is 1 if anything failed.
"""

import argparse
import json
import os
import pty
import re
import select
import signal
import subprocess
import sys
import tempfile
import time

import version
from harness import TIMEOUT_SECONDS, Tally

TOP = os.path.dirname(os.path.dirname(os.path.abspath(__file__)))
MODULE = os.path.join(TOP, "out", "python")
WORDS = [sys.executable, "-m", "tktext"]
PATIENCE = 20
INTERRUPT, SETTLE_SECONDS = "\x03", 0.5
SCRIPT = b'text .t\n.t insert 1.0 "error: x\\ny"\n.t get 1.0 1.end\n.t index foo\n'
PRINTS = b'.t\n\nerror: x\nerror: bad text index "foo"\n'
OBJECTS = [
    {"ok": True, "answer": ".t"}, {"ok": True, "answer": ""}, {"ok": True, "answer": "error: x"},
    {"ok": False, "fault": 'bad text index "foo"'},
]
# What is typed at the prompt, and what the screen then shows.
TYPED = (
    ("text .t\r", ".t"),
    (".t index [x]\r", "error: substitution isn't supported"),
    (".t insert 1.0 {one\r", "......> "),
    ("two}\r", "tktext> "),
    (".t get 1.0 end\r", "one\r\ntwo"),
    (".t ind\tend\r", "3.0"),
    (".t tag add wide 1.0 1.2\r", "tktext> "),
    (".t tag ranges wi\t\r", "1.0 1.2"),
    (".t mark set here 2.1\r", "tktext> "),
    (".t mark gravity he\t\r", "right"),
    (".t cget -aut\t\r", "1"),
    (".t peer create .peer\r", ".peer"),
    (".p\tindex end\r", "3.0"),
    ("\x1b[A\r", "3.0"),
    (".t index foo\r", 'error: bad text index "foo"\r\n  hint: an index is line.char'),
    (".t index\r", 'error: wrong # args\r\n  hint: should be ".t index index"'),
    (".t mark gravity here up\r", 'error: bad mark gravity "up"\r\n  hint: must be left or right'),
    (".none index end\r", 'error: invalid command name ".none"\r\n  hint: `text .t` creates'),
    ("help\r", "text W ?option value ..?"),
    ("help tag add\r", "W tag add tagName index ?index ...?"),
    ("help edit\r", "W edit option ?arg ...?\r\n  option: modified, redo"),
    ("help nothing\r", "tktext: no command 'nothing'"),
    (INTERRUPT, "tktext> "),
)


def environment(module, home):
    return {**os.environ, "PYTHONPATH": module, "HOME": home, "PYTHONIOENCODING": "utf-8", "TERM": "dumb"}


def check_run(module, home, words, given, wanted, tally):
    """A run on standard input: what it prints and its status."""
    done = subprocess.run(
        [*WORDS, *words], input=given, capture_output=True, env=environment(module, home), timeout=TIMEOUT_SECONDS
    )
    said = (done.stdout, done.returncode)
    tally.check(said == wanted, f"tktext {words}, {given!r}: {said!r}, {done.stderr!r}, wanted {wanted!r}")
    return done.stdout


def check_runs(module, home, tally):
    """Scripts by files and by standard input."""
    file, more = os.path.join(home, "script"), os.path.join(home, "more")
    for path, script in ((file, SCRIPT), (more, b".t index end")):
        with open(path, "wb") as written:
            written.write(script)
    check_run(module, home, [], SCRIPT, (PRINTS, 1), tally)
    check_run(module, home, [file], b"", (PRINTS, 1), tally)
    check_run(module, home, [file, more], b"", (PRINTS + b"3.0\n", 1), tally)
    check_run(module, home, [], b"text .t", (b".t\n", 0), tally)
    check_run(module, home, [], b"text .t\ntext {", (b".t\nerror: missing close-brace\n", 2), tally)
    check_run(module, home, [], b"text [x]\ntext .t\n", (b"error: substitution isn't supported\n", 2), tally)
    check_run(module, home, [os.path.join(home, "none")], b"", (b"", 2), tally)
    check_run(module, home, [home], b"", (b"", 2), tally)
    objects = "".join(json.dumps(it) + "\n" for it in OBJECTS).encode()
    check_run(module, home, ["--json"], SCRIPT, (objects, 1), tally)
    done = subprocess.run([*WORDS, "--help"], capture_output=True, env=environment(module, home))
    tally.check(done.returncode == 0 and b"--json" in done.stdout, f"--help: {done}")
    done = subprocess.run([*WORDS, "--version"], capture_output=True, env=environment(module, home))
    own = re.escape(version.text()).encode()
    shown = re.fullmatch(rb"tktext %s \(library %s, (not )?proved\)\n" % (own, own), done.stdout)
    tally.check(shown, f"--version: {done}")
    with open("/dev/full", "wb") as full:
        at = environment(module, home)
        done = subprocess.run(WORDS, input=SCRIPT, stdout=full, stderr=subprocess.PIPE, env=at)
    tally.check(done.returncode == 2, f"a full device: {done}")


def check_answers_come(module, home, tally):
    """A command is answered before the next one is written."""
    words = subprocess.Popen(WORDS, stdin=subprocess.PIPE, stdout=subprocess.PIPE, env=environment(module, home))
    with words as process:
        for command, answer in ((b"text .t\n", b".t\n"), (b".t index end\n", b"2.0\n")):
            process.stdin.write(command)
            process.stdin.flush()
            said = process.stdout.readline()
            tally.check(said == answer, f"{command!r} returns {said!r}")


class Terminal:
    """The prompt in a terminal of its own."""

    def __init__(self, module, home):
        self.child, self.master = pty.fork()
        if self.child == 0:
            # A parent that runs in the background may have it ignored.
            signal.signal(signal.SIGINT, signal.SIG_DFL)
            os.execvpe(WORDS[0], WORDS, environment(module, home))
        self.shown, self.has_ended = "", False

    def wait_for(self, wanted):
        """Reads until a text is shown, and tells whether it was."""
        until = time.monotonic() + PATIENCE
        while wanted not in self.shown and time.monotonic() < until:
            if select.select([self.master], [], [], 0.1)[0]:
                try:
                    self.shown += os.read(self.master, 4096).decode("utf-8", "replace")
                except OSError:
                    self.has_ended = True
                    break
        return wanted in self.shown

    def type(self, keys):
        self.shown = ""
        os.write(self.master, keys.encode("utf-8"))

    def close(self):
        """Ends the prompt; the exit status, negative if it had to be killed."""
        os.write(self.master, b"exit\r")
        self.wait_for("nothing that is shown")
        if not self.has_ended:
            os.kill(self.child, signal.SIGKILL)
        return os.waitstatus_to_exitcode(os.waitpid(self.child, 0)[1])


def check_prompt(module, home, tally):
    """What is typed at the prompt, with completion and history."""
    terminal = Terminal(module, home)
    tally.check(terminal.wait_for("tktext> "), "there is a prompt")
    for keys, wanted in TYPED:
        if keys == INTERRUPT:
            # Python's readline loses one that comes between the prompt and the first wait for a key.
            time.sleep(SETTLE_SECONDS)
        terminal.type(keys)
        is_shown = terminal.wait_for(f"\r\n{wanted}")
        tally.check(is_shown, f"{keys!r}: {terminal.shown!r}, wanted {wanted!r}")
        terminal.wait_for("> ")
    status = terminal.close()
    tally.check(status == 1, f"the prompt's exit status: {status}")
    with open(os.path.join(home, ".tktext_history"), encoding="utf-8") as file:
        tally.check("text .t\n" in file.read(), "the history is kept")


def check(module, tally):
    with tempfile.TemporaryDirectory() as home:
        check_runs(module, home, tally)
        check_answers_come(module, home, tally)
        try:
            import readline  # noqa: F401
        except ImportError:
            print("skipped: the prompt isn't tried, which wants Python's readline")
        else:
            check_prompt(module, home, tally)


def main():
    parser = argparse.ArgumentParser(description="tries `python3 -m tktext`")
    parser.add_argument("--module", default=MODULE)
    options = parser.parse_args()
    tally = Tally()
    check(options.module, tally)
    return tally.close()


if __name__ == "__main__":
    sys.exit(main())
