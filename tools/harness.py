"""What the tools share: running the program, its answers, the memory that it takes, and counting what passed."""

import argparse
import fcntl
import subprocess
import sys
from typing import NamedTuple

TIMEOUT_SECONDS = 60
# A script of megabytes may take this long.
LONG_TIMEOUT_SECONDS = 300
# By how many kB the resident size may differ among scripts of several lengths.
SIZE_MARGIN = 256
# The least that a pipe can hold, in bytes.
PIPE_SIZE = 4096
# The stores on which `rows` runs a script that is on its standard input.
STORES = ("PlainStore", "LineVec", "TreeStore")


class Result(NamedTuple):
    """What one run of the program gave.  `status` is a text where it ended by a signal or not at all."""

    output: bytes
    status: object
    errors: bytes


def run_program(program, script, environment=None, timeout=TIMEOUT_SECONDS, arguments=()):
    """Runs the program once on a script."""
    words = [program, *arguments]
    try:
        done = subprocess.run(words, input=script, capture_output=True, timeout=timeout, env=environment)
    except subprocess.TimeoutExpired as expired:
        return Result(expired.stdout or b"", f"no end after {timeout} s", expired.stderr or b"")
    status = done.returncode if done.returncode >= 0 else f"signal {-done.returncode}"
    return Result(done.stdout, status, done.stderr)


def resident_size(pid):
    """The greatest resident size of a process so far, in kB."""
    with open(f"/proc/{pid}/status", encoding="ascii") as file:
        for line in file:
            if line.startswith("VmHWM:"):
                return int(line.split()[1])
    sys.exit("this system reports no maximum resident size")


def size_over(program, script):
    """The greatest resident size, in kB, over a script.

    It is looked at when all but what a pipe holds was read, since it is gone with the process; what the system tells
    then is no less than the size of this one.
    """
    with subprocess.Popen([program], stdin=subprocess.PIPE, stdout=subprocess.DEVNULL) as process:
        fcntl.fcntl(process.stdin, fcntl.F_SETPIPE_SZ, PIPE_SIZE)
        process.stdin.write(script)
        process.stdin.flush()
        size = resident_size(process.pid)
        process.stdin.close()
        status = process.wait(timeout=LONG_TIMEOUT_SECONDS)
    if status != 0:
        sys.exit(f"status {status} for a script of {len(script)} bytes: this isn't measured")
    return size


def measure_size(program, first, command, length):
    """The same over a script of a first command and then a short one, so many bytes long."""
    return size_over(program, first + command * (length // len(command)))


class Tally:
    """Counts checks, and prints those that failed as they are met."""

    def __init__(self):
        self.passes = 0
        self.failures = 0

    def passed(self):
        self.passes += 1

    def failed(self, message):
        self.failures += 1
        print(f"FAILED: {message}")

    def check(self, holds, message):
        if holds:
            self.passed()
        else:
            self.failed(message)

    def close(self):
        """Prints the closing line and gives the exit status."""
        print(f"{self.passes} passed, {self.failures} failed")
        return 1 if self.failures or not self.passes else 0


class Answer(NamedTuple):
    """What a command gave: a text, or the text of the fault for which it was refused."""

    text: str
    is_refused: bool


# A command that is refused with its own words: what is written before its line is the answer of the command before it.
PROBE = ".=={}=="
ERROR = "error: "


def read_answer(piece):
    """One answer of the program, from what it wrote."""
    is_refused = piece.startswith(ERROR)
    return Answer(piece[len(ERROR) :] if is_refused else piece, is_refused)


def ask_program(program, commands):
    """The answers of the program to commands, each as a script spells it; a script fault is the last of them."""
    probes = [PROBE.format(number) for number in range(len(commands))]
    script = "".join(f"{command}\n{probe}\n" for command, probe in zip(commands, probes))
    rest = run_program(program, script.encode("utf-8")).output.decode("utf-8")
    answers = []
    for probe in probes:
        piece, found, rest = rest.partition(f'{ERROR}invalid command name "{probe}"\n')
        answers.append(read_answer(piece.removesuffix("\n")))
        if not found:
            break
    return answers


def run_checks(description, check, **defaults):
    """The `main` of a tool of checks: an option for each default, which `check` gets in their order, and then the tally."""
    parser = argparse.ArgumentParser(description=description)
    for name, default in defaults.items():
        parser.add_argument(f"--{name}", type=type(default), default=default)
    tally = Tally()
    check(*vars(parser.parse_args()).values(), tally)
    return tally.close()
