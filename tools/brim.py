#!/usr/bin/env python3
"""Fills the program's text to its limit of characters, and the tables of marks and of tags to theirs, and goes one past each.

    python3 tools/brim.py --program PATH

The text is filled by one command and by many, on one line and in lines of 64 characters, and the limit is passed by an
insertion and by a replacement.  That takes scripts of 134 MB and a gigabyte of memory, so it is not among the everyday
checks.  Each script's seconds and the program's greatest resident size are printed.  Ends in a line `N passed, M failed`;
the exit status is 1 if anything failed.
"""

import argparse
import os
import subprocess
import sys
import tempfile
import time
from itertools import chain, repeat

import worked
from harness import Tally
from model import PROGRAM_LIMITS

# A new text has one character, its newline.
ROOM = PROGRAM_LIMITS.characters - 1
# How many characters one of many commands puts in, and in how many lines.
PIECE = 1_048_576
PIECE_LINES = PIECE // 64
LINE = b"a" * 63 + b"\\n"
TOO_LONG = b"error: text is too long\n"


# A script is made in pieces, so that this process stays small: the size of one that it starts is never told as less than
# its own.


def commands(*given):
    """These commands, with their ends."""
    yield from (command.encode() + b"\n" for command in given)


def letters(count):
    """So many letters."""
    return chain(repeat(b"a" * PIECE, count // PIECE), [b"a" * (count % PIECE)])


def filled(count):
    """A text with so many letters put in by one command."""
    return chain(commands("text .t"), [b".t insert end "], letters(count), [b"\n"])


def filled_by_pieces(piece):
    """A text that is filled by many commands, the last with what is left."""
    whole = repeat(b".t insert end " + piece + b"\n", ROOM // PIECE)
    return chain(commands("text .t"), whole, [b".t insert end " + b"b" * (ROOM % PIECE) + b"\n"])


def brim_scripts():
    """Names and scripts with their outputs and statuses."""
    pieces = ROOM // PIECE + 1
    lines, column = PIECE_LINES * (ROOM // PIECE) + 1, ROOM % PIECE
    yield "full by one command", chain(filled(ROOM), commands(".t index 1.end")), b".t\n\n1.%d\n" % ROOM, 0
    past = chain(filled(ROOM), commands(".t insert end b", f".t get 1.{ROOM - 1}"))
    yield "one past by an insertion", past, b".t\n\n" + TOO_LONG + b"a\n", 1
    over = chain(filled(ROOM + 1), commands(".t get 1.0 end"))
    yield "one past by the first insertion", over, b".t\n" + TOO_LONG + b"\n\n", 1
    replaced = commands(".t replace 1.0 1.1 bc", ".t replace 1.1 1.3 bc", ".t delete 1.0", ".t insert 1.0 d", ".t get 1.0 1.3")
    yield "one past by a replacement", chain(filled(ROOM), replaced), b".t\n\n" + TOO_LONG + b"\n\n\ndbc\n", 1
    many = chain(filled_by_pieces(b"a" * PIECE), commands(".t insert 1.0 b", ".t index end-1c", ".t replace 1.0 1.1 bc"))
    yield "full by many commands", many, b".t\n" + b"\n" * pieces + TOO_LONG + b"1.%d\n" % ROOM + TOO_LONG, 1
    many = chain(filled_by_pieces(b'"' + LINE * PIECE_LINES + b'"'), commands(".t insert 1.0 b", ".t index end-1c", ".t get 2.0 2.3"))
    yield "full in lines", many, b".t\n" + b"\n" * pieces + TOO_LONG + b"%d.%d\naaa\n" % (lines, column), 1
    for row in (worked.most_marks(), worked.most_tags()):
        yield row.name, [row.script], row.output, row.status


def run_measured(program, script):
    """Output, status and errors of one run, the bytes of its script, its seconds, and its greatest resident size in MB."""
    with tempfile.TemporaryFile() as file:
        for piece in script:
            file.write(piece)
        length = file.tell()
        file.seek(0)
        began = time.monotonic()
        with subprocess.Popen([program], stdin=file, stdout=subprocess.PIPE, stderr=subprocess.PIPE) as process:
            output, errors = process.stdout.read(), process.stderr.read()
            _, status, usage = os.wait4(process.pid, 0)
            process.returncode = os.waitstatus_to_exitcode(status)
    return (output, process.returncode, errors), length, time.monotonic() - began, usage.ru_maxrss / 1024


def main():
    parser = argparse.ArgumentParser(description="fills the text to its limit of characters")
    parser.add_argument("--program", required=True)
    options = parser.parse_args()
    tally = Tally()
    for name, script, output, status in brim_scripts():
        (given, ended, errors), length, seconds, size = run_measured(options.program, script)
        print(f"{name}: a script of {length:,} bytes, {seconds:.1f} s, {size:.0f} MB", flush=True)
        tally.check(
            (given, ended, errors) == (output, status, b""),
            f"{name}: wanted status {status} and {output[-80:]!r}, given status {ended}, standard error {errors!r}, output {given[-200:]!r}",
        )
    return tally.close()


if __name__ == "__main__":
    sys.exit(main())
