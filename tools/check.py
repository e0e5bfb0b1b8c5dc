#!/usr/bin/env python3
"""Tests the unproved program, library and Python package: what `make check` runs after it has built them.

    python3 tools/check.py

The facts of the pages, the model, 100 random scripts, the examples of the manual and of the pages, and the Python
package.  Nothing is proved.  Ends in lines that say so and how many tests passed; the exit status is 1 if one failed.
"""

import os
import sys

import build_python
import examples
import total

PROGRAM = os.path.join("out", "try", "tktext")
MODULE = os.path.join("out", "try", "python")
NOTE = "make check: NOTHING WAS PROVED; `make test` proves the program and the library, and runs every test"
OF_PROGRAM = (
    "python3 tools/facts.py",
    "python3 tools/selftest.py",
    f"python3 tools/fuzz.py --program {PROGRAM} --seeds 100",
    f"python3 tools/manual.py --program {PROGRAM}",
    f"python3 tools/pages.py --program {PROGRAM} --out out/try",
)
OF_PYTHON = (
    f"PYTHONPATH={MODULE} python3 tools/library.py --python --seeds 100",
    f"python3 tools/python_cases.py --module {MODULE} --rounds 20",
    f"python3 tools/python_tool.py --module {MODULE}",
)


def main():
    if build_python.can_build():
        build_python.build_in(examples.TRIED)
        of_python = OF_PYTHON
    else:
        print(f"skipped: the Python package needs {build_python.WANTED}")
        of_python = ()
    examples.build_alone(examples.TRIED)
    status = total.run_all([*OF_PROGRAM, *of_python])
    print(NOTE)
    return status


if __name__ == "__main__":
    os.chdir(build_python.TOP)
    sys.exit(main())
