#!/usr/bin/env python3
"""Builds the program without a proof, and runs a script with it: what `make try` calls.

    python3 tools/try.py --build [PROGRAM]
    python3 tools/try.py EXAMPLE [SCRIPT]

The first compiles the program as tools/unproved.py does, without a proof, without checks at run time and without a
sanitizer, as PROGRAM, by default out/try/tktext.  The second runs it: the script is the file SCRIPT, or else standard
input, or at a terminal EXAMPLE.  The answers come on standard output; the exit status is the program's, as
in docs/tktext.1.md, and 4 if a signal ended the program.
"""

import os
import stat
import subprocess
import sys
import tempfile

import unproved

TOP = os.path.dirname(os.path.dirname(os.path.abspath(__file__)))
CRATE = os.path.join(TOP, "crates", "tktext")
PROGRAM = os.path.join(TOP, "out", "try", "tktext")
BUILDS = "make try: building the program without a proof (1 to 2 minutes); it is kept for the next script"
NOTE = "make try: this program is NOT PROVED; `make run` proves and runs it"
FAULT, FAULT_STATUS = "make try: a signal ended the program: run `rt try` in crates/tktext to see the failed check", 4
MEANINGS = {1: "a command was refused", 2: "a parse error or a failed read or write ended the run"}


def build(program=PROGRAM):
    """Builds the program."""
    print(BUILDS, file=sys.stderr, flush=True)
    os.makedirs(os.path.dirname(program), exist_ok=True)
    kit = unproved.kit_folder()
    with tempfile.TemporaryDirectory() as folder:
        unproved.build(kit, unproved.keep_try(kit, folder, CRATE), program)
    return 0


def is_given(file):
    """Whether a script may come on this standard input: from a pipe or a file, and not from a terminal."""
    mode = os.fstat(file.fileno()).st_mode if file is not None else 0
    return stat.S_ISFIFO(mode) or stat.S_ISREG(mode) or stat.S_ISSOCK(mode)


def script_bytes(example, path):
    """The script that is asked for: any bytes."""
    if not path and is_given(sys.stdin):
        piped = sys.stdin.buffer.read()
        if piped:
            return piped
    with open(path or example, "rb") as file:
        return file.read()


def main(arguments):
    if arguments[:1] == ["--build"]:
        return build(*arguments[1:2])
    example, path = (arguments + [""])[:2]
    try:
        script = script_bytes(example, path)
    except OSError as error:
        print(f"make try: cannot open '{error.filename}': {error.strerror}", file=sys.stderr)
        return 2
    print(NOTE, file=sys.stderr, flush=True)
    status = subprocess.run([PROGRAM], input=script).returncode
    if status < 0:
        print(FAULT, file=sys.stderr)
        return FAULT_STATUS
    if status:
        meaning = MEANINGS.get(status, "the program failed")
        print(f"make try: status {status}: {meaning} (docs/tktext.1.md)", file=sys.stderr)
    return status


if __name__ == "__main__":
    try:
        sys.exit(main(sys.argv[1:]))
    except KeyboardInterrupt:
        sys.exit(130)
