#!/usr/bin/env python3
"""Builds and runs the examples of the library in C, Python and Tcl: what `make examples` calls, after `make lib`.

    python3 tools/examples.py [--try]
    python3 tools/examples.py --extension [--try]

The second builds the Tcl extension alone, as `make tcl` does.  With `--try` both go by the library of `make try-lib`,
before anything is proved.  Says what to install where something is missing, and goes on.  The exit status is 1 if an
example failed, or none was run.
"""

import os
import shutil
import subprocess
import sys

import build_python

TOP = os.path.dirname(os.path.dirname(os.path.abspath(__file__)))
PROVED, TRIED = "out", os.path.join("out", "try")
TCL_INCLUDE = "/usr/include/tcl8.6"


def run(words, **more):
    """Runs a command at the top of the repository, and returns its output and status."""
    done = subprocess.run(words, cwd=TOP, stdout=subprocess.PIPE, text=True, env=dict(os.environ, **more))
    return done.stdout, done.returncode


def run_c(out):
    run(["cc", "-O2", "-Iinclude", "examples/peers.c", f"{out}/libtktext.a", "-o", f"{out}/peers"])
    return run([f"{out}/peers"])


def run_python(out):
    return run([sys.executable, "examples/peers.py"], PYTHONPATH=build_python.build_in(out))


def has_tcl():
    return shutil.which("tclsh8.6") is not None and os.path.exists(os.path.join(TCL_INCLUDE, "tcl.h"))


def build_extension(out):
    """Makes the Tcl extension of its glue and the library, with the file next to it by which Tcl finds it."""
    words = ["cc", "-O2", "-shared", "-fPIC", "-DUSE_TCL_STUBS", "-Iinclude", "-I" + TCL_INCLUDE, "tcl/tktext.c"]
    # Of the library's names none is seen from outside.
    words += [f"{out}/libtktext.a", "-ltclstub8.6", "-Wl,--exclude-libs,ALL", "-o", f"{out}/tktext.so"]
    shutil.copy(os.path.join(TOP, "tcl", "pkgIndex.tcl"), os.path.join(TOP, out))
    return run(words)


def run_tcl(out):
    build_extension(out)
    return run(["tclsh8.6", "examples/peers.tcl"], TCLLIBPATH=out)


TCL_WANTED = "tclsh8.6 and its headers (Debian: apt-get install tcl8.6 tcl8.6-dev)"
EXAMPLES = (
    ("examples/peers.c", lambda: shutil.which("cc") is not None, run_c, "a C compiler (Debian: apt-get install gcc)"),
    ("examples/peers.py", build_python.can_build, run_python, build_python.WANTED),
    ("examples/peers.tcl", has_tcl, run_tcl, TCL_WANTED),
)


def build_alone(out):
    """Builds the Tcl extension, or says what it wants."""
    if not has_tcl():
        print(f"make tcl: cannot build the Tcl package: it needs {TCL_WANTED}", file=sys.stderr)
        return 0
    return build_extension(out)[1]


def main():
    if not set(sys.argv[1:]) <= {"--try", "--extension"}:
        print(__doc__)
        return 2
    out = TRIED if "--try" in sys.argv else PROVED
    if "--extension" in sys.argv:
        return build_alone(out)
    failed = False
    for name, can_run, run_it, missing in EXAMPLES:
        print(f"== {name}")
        if not can_run():
            print(f"not run: it needs {missing}")
            continue
        output, status = run_it(out)
        print(output, end="")
        if status:
            print(f"failed with status {status}")
            failed = True
    return 1 if failed else 0


if __name__ == "__main__":
    sys.exit(main())
