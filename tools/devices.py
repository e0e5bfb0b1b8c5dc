#!/usr/bin/env python3
"""Runs the program on devices that fail or are slow: what it writes on standard error, and how it ends.

    python3 tools/devices.py --program PATH

A standard input that can't be read, a standard output that is full, closed, or read by nobody, a script
that comes a byte at a time, and a console that sends a line once the one before it is answered.  Each
worked script that comes in pieces prints what it prints in one piece, and never wants memory.  Each front of a
script of comments, quotes and escapes, cut anywhere in its bytes, prints what that front prints.  A script of
megabytes takes no more memory than a short one, and what is large ends on a small stack.  The last line is
`N passed, M failed`.
"""

import argparse
import os
import resource
import select
import subprocess
import sys

import model
import worked
from harness import LONG_TIMEOUT_SECONDS, SIZE_MARGIN, TIMEOUT_SECONDS, Tally, measure_size, run_program

SCRIPT = b"text .t\n.t insert 1.0 ab\n.t get 1.0 end\n"
ANSWERS = b".t\n\nab\n\n"
# The lines of a console, each with its answer.
CONVERSATION = [
    (b"text .t\n", b".t\n"),
    (b".t insert 1.0 ab\n", b"\n"),
    (b"\n", b""),
    (b".t index end\n", b"2.0\n"),
    (b".u\n", b'error: invalid command name ".u"\n'),
]
# The worked scripts come in so many pieces at most.
MOST_PIECES = 60
# Rows with comments, quotes and escapes, which are cut at each byte.
FRONT_ROWS = {
    "a comment, braces and escapes",
    "escapes of digits",
    "a line that goes on",
    "several bytes",
}
SMALL_STACK = 256 * 1024
# More than a pipe holds while nobody reads it.
LONG_SCRIPT = b".t index end\n" * 100_000


def run_with(program, script, **devices):
    """The status and the words on standard error of a run with these devices."""
    done = subprocess.run([program], input=script, stderr=subprocess.PIPE, timeout=TIMEOUT_SECONDS, **devices)
    return done.returncode, done.stderr


def unreadable_input(program):
    """A folder for standard input."""
    folder = os.open("/", os.O_RDONLY)
    try:
        done = subprocess.run([program], stdin=folder, capture_output=True, timeout=TIMEOUT_SECONDS)
    finally:
        os.close(folder)
    return done.returncode, done.stderr, done.stdout


def full_output(program):
    """A device that takes nothing for standard output."""
    with open("/dev/full", "wb") as full:
        return run_with(program, SCRIPT, stdout=full)


def closed_output(program):
    """No standard output at all."""
    return run_with(program, SCRIPT, preexec_fn=lambda: os.close(1))


def abandoned_output(program):
    """A pipe whose reader goes away after a few bytes."""
    process = subprocess.Popen(
        [program], stdin=subprocess.PIPE, stdout=subprocess.PIPE, stderr=subprocess.PIPE, bufsize=0
    )
    process.stdin.write(SCRIPT)
    process.stdout.read(len(ANSWERS))
    process.stdout.close()
    try:
        process.stdin.write(LONG_SCRIPT)
        process.stdin.close()
    except BrokenPipeError:
        pass  # the run ended before it had read all
    words = process.stderr.read()
    process.stderr.close()
    return process.wait(timeout=TIMEOUT_SECONDS), words


def slow_input(program):
    """A pipe that hands out a byte at a time."""
    process = subprocess.Popen([program], stdin=subprocess.PIPE, stdout=subprocess.PIPE, bufsize=0)
    for byte in SCRIPT:
        process.stdin.write(bytes([byte]))
    process.stdin.close()
    output = process.stdout.read()
    process.stdout.close()
    return process.wait(timeout=TIMEOUT_SECONDS), output


def read_answer(process, wanted):
    """What the program writes within the time, up to as many bytes as are wanted."""
    answer = b""
    while len(answer) < len(wanted):
        ready, _, _ = select.select([process.stdout], [], [], TIMEOUT_SECONDS)
        piece = os.read(process.stdout.fileno(), len(wanted) - len(answer)) if ready else b""
        if not piece:
            break
        answer += piece
    return answer


def console(program):
    """A console that sends the next line once the one before it is answered."""
    process = subprocess.Popen([program], stdin=subprocess.PIPE, stdout=subprocess.PIPE, bufsize=0)
    answers = []
    for line, wanted in CONVERSATION:
        process.stdin.write(line)
        answers.append(read_answer(process, wanted))
    process.stdin.close()
    rest = process.stdout.read()
    process.stdout.close()
    return process.wait(timeout=TIMEOUT_SECONDS), answers, rest


def in_pieces(program, script, most_pieces=MOST_PIECES):
    """A pipe that hands out a script in so many pieces at most."""
    process = subprocess.Popen(
        [program], stdin=subprocess.PIPE, stdout=subprocess.PIPE, stderr=subprocess.PIPE, bufsize=0
    )
    length = max(1, len(script) // most_pieces)
    try:
        for place in range(0, len(script), length):
            process.stdin.write(script[place:place + length])
    except BrokenPipeError:
        pass  # a script fault ended the run
    output, errors = process.communicate(timeout=TIMEOUT_SECONDS)
    return process.returncode, output, errors


def check_worked_scripts(program, tally):
    """Each worked script in pieces: what the model prints, and nothing on standard error."""
    for name, script in worked.program_scripts():
        plain = model.run_output(script)
        given = in_pieces(program, script)
        tally.check(
            given == (plain.status, plain.output, b""),
            f"{name!r} in pieces: status {given[0]}, standard error {given[2]!r}, output {given[1][:200]!r}",
        )


def check_bytes(program, tally):
    """The script of many lines, a byte at a time."""
    row = worked.many_lines()
    given = in_pieces(program, row.script, len(row.script))
    tally.check(given == (row.status, row.output, b""), f"{row.name!r} by single bytes: status {given[0]}")


def check_fronts(program, tally):
    """Each front of the rows on comments, quotes and escapes: the model's run of that front."""
    for row in worked.FILE_ROWS:
        if row.name not in FRONT_ROWS:
            continue
        for length in range(len(row.script)):
            front = row.script[:length]
            plain = model.run_output(front)
            given = run_program(program, front)
            tally.check(
                (given.output, given.status) == (plain.output, plain.status),
                f"the first {length} bytes of {row.name!r}: status {given.status}, output {given.output!r}",
            )


def deep_scripts():
    """Scripts that leave something large to be dropped: a list, a history, a text, a nest of braces."""
    return [
        ("a list of 1,000,000 elements", b'text .t; .t insert 1.0 a "' + b"b " * 1_000_000 + b'"'),
        ("1,000,000 groups", b"text .t -undo 1\n" + b".t insert 1.0 x\n.t delete 1.0\n" * 500_000),
        ("1,000,000 lines", b"text .t; .t insert 1.0 {" + b"x\n" * 1_000_000 + b"}; .t index end"),
        ("a word in 1,000,000 braces", b"text .t; .t insert 1.0 " + b"{" * 1_000_000 + b"}" * 1_000_000),
    ]


def check_stack(program, tally):
    """Nothing goes deeper with what it works on: large scripts end on a stack of 256 KiB."""
    for name, script in deep_scripts():
        done = subprocess.run(
            [program],
            input=script,
            stdout=subprocess.DEVNULL,
            stderr=subprocess.PIPE,
            timeout=LONG_TIMEOUT_SECONDS,
            preexec_fn=lambda: resource.setrlimit(resource.RLIMIT_STACK, (SMALL_STACK, SMALL_STACK)),
        )
        tally.check(done.returncode in (0, 1) and done.stderr == b"", f"{name}: status {done.returncode}")


def check_size(program, tally):
    """No command that was given is kept: the greatest resident size is that of a script an eighth as long."""
    short, long = (measure_size(program, b"text .t\n", b".t index end\n", length) for length in (500_000, 4_000_000))
    tally.check(long - short <= SIZE_MARGIN, f"a long script takes {long} kB and a short one {short} kB")


def main():
    parser = argparse.ArgumentParser(description="runs the program on devices that fail")
    parser.add_argument("--program", required=True)
    program = parser.parse_args().program
    tally = Tally()
    cases = [
        ("an input that can't be read", unreadable_input, (2, b"read failed\n", b"")),
        ("an output that is full", full_output, (2, b"write failed\n")),
        ("an output that is closed", closed_output, (2, b"write failed\n")),
        ("an output that nobody reads", abandoned_output, (2, b"write failed\n")),
        ("an input that comes a byte at a time", slow_input, (0, ANSWERS)),
        ("a console", console, (1, [answer for _, answer in CONVERSATION], b"")),
    ]
    for name, run, wanted in cases:
        given = run(program)
        tally.check(given == wanted, f"{name}: wanted {wanted!r}, given {given!r}")
    check_worked_scripts(program, tally)
    check_bytes(program, tally)
    check_fronts(program, tally)
    check_stack(program, tally)
    check_size(program, tally)
    return tally.close()


if __name__ == "__main__":
    sys.exit(main())
