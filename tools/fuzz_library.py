#!/usr/bin/env python3
"""Random calls of the library, by the harness in C (tools/fuzz_library.c): what `make fuzz-library` calls.

    python3 tools/fuzz_library.py [--runs 20000] [--first 0] [--seconds N]

It is built over out/libtktext.a, which `make lib` makes, with that library's own calls for memory turned to the
harness, which refuses some; and with clang's sanitizers of addresses and of undefined behaviour, or else a line says
that it wasn't.  A run is a seed; those from `--first` on are shared among the processors, and with `--seconds` none
begins after so many.
Ends in a line `N passed, M failed`; the exit status is 1 if anything failed.
"""

import argparse
import os
import re
import shutil
import subprocess
import sys
import tempfile

from harness import Tally

TOP = os.path.dirname(os.path.dirname(os.path.abspath(__file__)))
OUT = os.path.join(TOP, "out")
ARCHIVE = os.path.join(OUT, "libtktext.a")
TURNED = os.path.join(OUT, "fuzzed_libtktext.a")
PROGRAM = os.path.join(OUT, "fuzz_library")
FLAGS = ["-Wall", "-Wextra", "-O1", "-g", "-I" + os.path.join(TOP, "include")]
SANITIZED = ["-fsanitize=address,undefined", "-fno-sanitize-recover=all"]
PROCESSES = min(os.cpu_count() or 1, 4)
# As good as without end, where the seconds are given.
ENDLESS = 10**9
CLOSING_LINES = re.compile(r"(\d+) calls, (\d+) of them refused memory\n(\d+) passed, (\d+) failed\n\Z")


def sanitizes():
    """Whether clang is installed with the libraries of its sanitizers."""
    if shutil.which("clang") is None:
        return False
    with tempfile.TemporaryDirectory() as folder:
        words = ["clang", *SANITIZED, "-x", "c", "-", "-o", os.path.join(folder, "program")]
        return subprocess.run(words, input=b"int main(void) { return 0; }", capture_output=True).returncode == 0


def build():
    """Makes the harness over the library, whose calls of the allocator are the harness's."""
    names = [f"--redefine-sym={name}=library_{name}" for name in ("malloc", "realloc", "free")]
    subprocess.run(["objcopy", *names, ARCHIVE, TURNED], check=True)
    compiler = ["clang", *SANITIZED] if sanitizes() else ["cc"]
    if compiler == ["cc"]:
        print("clang's sanitizers aren't installed: the calls are made without them")
    subprocess.run([*compiler, *FLAGS, os.path.join(TOP, "tools", "fuzz_library.c"), TURNED, "-o", PROGRAM], check=True)


def run(first, runs, seconds):
    """What each process printed, with its exit status."""
    share = -(-runs // PROCESSES)
    # What the library leaves behind the harness counts itself, after each run.
    environment = dict(os.environ, ASAN_OPTIONS="detect_leaks=0")
    started = []
    for begin in range(first, first + runs, share):
        count = min(share, first + runs - begin)
        words = [PROGRAM, str(begin), str(count), *([str(seconds)] if seconds else [])]
        started.append(subprocess.Popen(words, stdout=subprocess.PIPE, stderr=subprocess.STDOUT, env=environment))
    return [(process.communicate()[0].decode("utf-8", "replace"), process.returncode) for process in started]


def main():
    parser = argparse.ArgumentParser(description="random calls of the library")
    parser.add_argument("--runs", type=int)
    parser.add_argument("--first", type=int, default=0)
    parser.add_argument("--seconds", type=int)
    options = parser.parse_args()
    tally = Tally()
    if shutil.which("cc") is None or shutil.which("objcopy") is None:
        print("the library isn't fuzzed: it wants a C compiler")
        return tally.close()
    build()
    calls = refused = 0
    runs = options.runs or (ENDLESS if options.seconds else 20_000)
    for printed, status in run(options.first, runs, options.seconds):
        closing = CLOSING_LINES.search(printed)
        print(printed[: closing.start() if closing else None], end="")
        if closing is None:
            tally.failed(f"a process ended with status {status}")
            continue
        of_process = list(map(int, closing.groups()))
        calls, refused = calls + of_process[0], refused + of_process[1]
        tally.passes, tally.failures = tally.passes + of_process[2], tally.failures + of_process[3]
    print(f"random calls of the library: {calls}, {refused} of them out of memory")
    return tally.close()


if __name__ == "__main__":
    sys.exit(main())
