#!/usr/bin/env python3
"""Shows that the tree of lines can't make a counter of steps of its own.

    python3 tools/own_counter.py

A call of the tree that counts on a counter of its own, and not on the one that it was handed, would meet each bound on
its steps. It doesn't compile, since the calls are generic in the counter and none can be made of it. An edit that
doesn't compile is no must-fail edit, so this makes it in a copy of the crate, and asks for the compiler's words, for
which nothing is proved; as it stands the copy compiles. Ends in a line `N passed, M failed`; the exit status is 1 if the
edited copy compiles, or fails for another reason.
"""

import argparse

import pathlib
import shutil
import subprocess
import sys
import tempfile

import build
import over
from harness import Tally

CRATE = "line_tree"
BELOW = ["text_model", "toggle_sums", "segments", "line_lists", "raw_nodes"]
FILE = "src/select.rt"
OLD = "find_at(store, at, level - 1, lines, rest, ticks)"
NEW = "find_at(store, at, level - 1, lines, rest, &mut raw_nodes::Steps::new())"
WANTED = "error[mismatched-types]: expected `&mut C`, found `&mut Steps`"


def edit(path):
    """Hands the walk down a counter of its own, in the one place where it counts."""
    text = path.read_text()
    if text.count(OLD) != 1:
        sys.exit(f"{path.name} has {text.count(OLD)} times {OLD!r}, and not once")
    path.write_text(text.replace(OLD, NEW))


def compile_copy(folder):
    """What the compiler says of a copy of the crate, over the sources of those below it, and whether it takes it."""
    options = argparse.Namespace(crate=CRATE, sources=BELOW, libraries=build.TOP, jobs=1)
    words = over.words_of(options, build.read_crates(f"{build.TOP}/crates.txt"))
    process = subprocess.run(
        [over.RATTLE, "check", *words, "--only", ""], cwd=folder, capture_output=True, text=True, timeout=600
    )
    return process.stdout + process.stderr, process.returncode == 0


def main():
    tally = Tally()
    with tempfile.TemporaryDirectory() as name:
        folder = pathlib.Path(name) / CRATE
        shutil.copytree(pathlib.Path(build.TOP) / "crates" / CRATE, folder, ignore=shutil.ignore_patterns("out"))
        words, is_taken = compile_copy(folder)
        tally.check(is_taken, f"the unchanged crate doesn't compile: {words}")
        edit(folder / FILE)
        words, is_taken = compile_copy(folder)
        tally.check(not is_taken and WANTED in words, f"a counter of its own: {words}")
    return tally.close()


if __name__ == "__main__":
    sys.exit(main())
