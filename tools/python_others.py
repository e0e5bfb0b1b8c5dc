#!/usr/bin/env python3
"""Runs tests that others wrote for tkinter's Text with ours in its place: CPython's own, and IDLE's.

    python3 tools/python_others.py [--module out/python] [--python /usr/bin/python3]

In IDLE's our Text stands in the place of the mock that it has for tests, and in both in that of `tkinter.Text`; the rest
is tkinter's, under a virtual display.  What is left out is told with the reason.  Where a package isn't installed, that
is said and counted as skipped.  Ends in a line `N passed, M failed`; the exit status is 1 if anything failed.
"""

import json
import os
import shutil
import subprocess
import sys

from harness import LONG_TIMEOUT_SECONDS, run_checks

TOP = os.path.dirname(os.path.dirname(os.path.abspath(__file__)))
MODULE = os.path.join(TOP, "out", "python")
PYTHON = "/usr/bin/python3"
WANTED = "python3-tk, xvfb, libpython3.11-testsuite and idle (Debian: apt-get install)"
NO_LINE = "a line below 1 is no index here (docs/differences.md)"
NO_COMMAND = "renames the widget's command in an interpreter of Tcl"
# Each module, and the tests of it that are left out, with the reason.
MODULES = {
    "tkinter.test.test_tkinter.test_text": {"test_count": "asks for lines and points of a display"},
    "idlelib.idle_test.test_text": {
        "test_decode": "is of the mock's inside", "test_index_empty": NO_LINE, "test_index_data": NO_LINE,
    },
    "idlelib.idle_test.test_autoexpand": {},
    "idlelib.idle_test.test_calltip": {},
    "idlelib.idle_test.test_format": {},
    "idlelib.idle_test.test_history": {},
    "idlelib.idle_test.test_hyperparser": {},
    "idlelib.idle_test.test_parenmatch": {},
    "idlelib.idle_test.test_replace": {},
    "idlelib.idle_test.test_searchengine": {},
}
# Whole modules that use a Text and are left out.
LEFT_OUT = {
    "idlelib.idle_test.test_colorizer": NO_COMMAND, "idlelib.idle_test.test_percolator": NO_COMMAND,
    "idlelib.idle_test.test_redirector": NO_COMMAND, "idlelib.idle_test.test_undo": NO_COMMAND,
    "idlelib.idle_test.test_editmenu": "sends keys to a widget that is shown",
    "idlelib.idle_test.test_codecontext": "draws", "idlelib.idle_test.test_sidebar": "draws",
    "idlelib.idle_test.test_textview": "draws", "tkinter.test.test_tkinter.test_widgets": "is of options of drawing",
}
RUNNER = """
import io, json, sys, tkinter, unittest
import tktext
from test import support
import idlelib.idle_test.mock_tk as mock
support.use_resources = ["gui"]
tkinter.Text = mock.Text = tktext.Text
def each(suite):
    for test in suite:
        yield from each(test) if isinstance(test, unittest.TestSuite) else [test]
told = {}
for name, left_out in json.load(sys.stdin).items():
    tests = list(each(unittest.defaultTestLoader.loadTestsFromName(name)))
    kept = [test for test in tests if test.id().split(".")[-1] not in left_out]
    result = unittest.TextTestRunner(stream=io.StringIO()).run(unittest.TestSuite(kept))
    # Tests of a class whose set-up fails aren't run, and the class is among the errors.
    faults = [(str(test), text) for test, text in result.failures + result.errors]
    told[name] = result.testsRun - len(result.skipped), len(tests) - len(kept), faults
json.dump(told, sys.stdout)
"""


def can_run(python):
    """Whether everything is installed."""
    if shutil.which("xvfb-run") is None or shutil.which(python) is None:
        return False
    wanted = "import tkinter, test.support, tkinter.test, idlelib.idle_test.mock_tk, idlelib.history"
    return subprocess.run([python, "-c", wanted], capture_output=True).returncode == 0


def run(module, python):
    """For each module how many tests were run, how many left out, and the faults."""
    with_ours = dict(os.environ, PYTHONPATH=module)
    words, given = ["xvfb-run", "-a", python, "-c", RUNNER], json.dumps({name: list(it) for name, it in MODULES.items()})
    done = subprocess.run(
        words, input=given.encode(), stdout=subprocess.PIPE, stderr=subprocess.DEVNULL, env=with_ours,
        timeout=LONG_TIMEOUT_SECONDS,
    )
    return json.loads(done.stdout) if done.returncode == 0 else {}


def check(module, python, tally):
    """Runs all, and tells what was left out."""
    if not can_run(python):
        print(f"skipped: tests that others wrote aren't run, which wants {WANTED}")
        return
    told = run(module, python)
    for name, left_out in MODULES.items():
        count, without, faults = told.get(name, (0, 0, [(name, "it wasn't run")]))
        print(f"{name}: {count} run, {without} left out")
        for test, reason in left_out.items():
            print(f"  {test}: {reason}")
        for test, text in faults:
            tally.failed(f"{name}, {test}: {text}")
        # A part of a test counts as a fault of its own.
        tally.passes += max(count - len(faults), 0)
        tally.check(count > 0 and without >= len(left_out), f"{name}: {count} run, {without} left out")
    for name, reason in LEFT_OUT.items():
        print(f"{name} isn't run: it {reason}")


if __name__ == "__main__":
    sys.exit(run_checks("runs others' tests with our Text", check, module=MODULE, python=PYTHON))
