#!/usr/bin/env python3
"""Times our Text beside tkinter's under a virtual display, for `make bench-python`.

    python3 tools/bench_python.py [--module out/python] [--out docs/bench_python.txt] [--python /usr/bin/python3]

Each takes its calls by turns in processes of its own, the least of some takes.  What is measured is the processor's time
of that process, in which the display's server has no part.
"""

import argparse
import json
import os
import subprocess
import sys

import python_probes
from harness import LONG_TIMEOUT_SECONDS

TOP = os.path.dirname(os.path.dirname(os.path.abspath(__file__)))
MODULE = os.path.join(TOP, "out", "python")
TAKES = 9
RUNNER = """
import json, sys, time
if sys.argv[1] == "tkinter":
    from tkinter import Text
else:
    from tktext import Text
COUNT = 20_000
text, told = Text(), {}
def each(method, words):
    given = [words(number) for number in range(1, COUNT + 1)]
    begin = time.process_time()
    for it in given:
        method(*it)
    return time.process_time() - begin
def once(call):
    begin = time.process_time()
    kept = call()
    return time.process_time() - begin
told["insert at the end"] = each(text.insert, lambda number: ("end", "a line of some words\\n"))
told["get of a line"] = each(text.get, lambda number: (f"{number}.0", f"{number}.end"))
told["tag_add"] = each(text.tag_add, lambda number: ("a", f"{number}.2", f"{number}.6"))
told["mark_set"] = each(text.mark_set, lambda number: ("m", f"{number}.3"))
told["index"] = each(text.index, lambda number: (f"{number}.3 lineend",))
told["dump of these lines"] = once(lambda: text.dump("1.0", "end"))
text.delete("1.0", "end")
text.insert("1.0", ("x" * 99 + "\\n") * 200_000)
told["dump of 20 MB"] = once(lambda: text.dump("1.0", "end"))
json.dump(told, sys.stdout)
"""
HEAD = """Python: milliseconds of processor for 20,000 calls each of a method on a text of 20,000 lines, and for a dump of all, as
a list of tuples, by tktext {version} and by tkinter under a virtual display; the least of {takes} takes of each, in
processes of their own, by turns.

                          tktext   tkinter
"""


def take(words, module, which):
    done = subprocess.run(
        [*words, "-c", RUNNER, which], stdout=subprocess.PIPE, env=dict(os.environ, PYTHONPATH=module), check=True,
        timeout=LONG_TIMEOUT_SECONDS,
    )
    return json.loads(done.stdout)


def least(takes):
    return {name: min(it[name] for it in takes) for name in takes[0]}


def measure(module, python):
    """What each call takes, in seconds, by ours and by tkinter's."""
    ours, theirs = [], []
    for _ in range(TAKES):
        ours.append(take([python], module, "tktext"))
        theirs.append(take(["xvfb-run", "-a", python], module, "tkinter"))
    return least(ours), least(theirs)


def version(module, python):
    """What the library says of itself."""
    words = [python, "-c", "import tktext; print(tktext.library_version)"]
    environment = dict(os.environ, PYTHONPATH=module)
    return subprocess.run(words, stdout=subprocess.PIPE, text=True, env=environment, check=True).stdout.strip()


def main():
    parser = argparse.ArgumentParser(description="times our Text and tkinter's")
    parser.add_argument("--module", default=MODULE)
    parser.add_argument("--out")
    parser.add_argument("--python", default=python_probes.PYTHON)
    options = parser.parse_args()
    if not python_probes.can_run(options.python):
        print(f"not measured: this wants {python_probes.WANTED}", file=sys.stderr)
        return 1
    ours, theirs = measure(options.module, options.python)
    rows = "".join(f"{name:24}{1000 * ours[name]:8.0f}{1000 * theirs[name]:10.0f}\n" for name in ours)
    text = HEAD.format(version=version(options.module, options.python), takes=TAKES) + rows
    print(text, end="")
    if options.out:
        with open(options.out, "w", encoding="ascii") as file:
            file.write(text)
    return 0


if __name__ == "__main__":
    sys.exit(main())
