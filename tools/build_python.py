#!/usr/bin/env python3
"""Builds the Python package below a folder, to be used by PYTHONPATH: what `make python` calls.

    python3 tools/build_python.py [--try]

Puts the package tktext into out/python, with out/libtktext.a, or into out/try/python with `--try`, with the library of
`make try-lib`.  The extension is built by the stable ABI of Python 3.9, so it serves each later one too.  `pip install .`
does the same by tools/python_backend.py, for users.
"""

import argparse
import os
import shutil
import subprocess
import sys
import sysconfig

TOP = os.path.dirname(os.path.dirname(os.path.abspath(__file__)))
SOURCE = os.path.join(TOP, "python", "tktext")
EXTENSION = "_core.abi3.so"
WANTED = "a C compiler, headers (Debian: apt-get install gcc python3-dev), and a Python that isn't free-threaded"


def can_build():
    """Whether an extension can be compiled for this Python."""
    has_header = os.path.exists(os.path.join(sysconfig.get_path("include"), "Python.h"))
    return shutil.which("cc") is not None and has_header and not sysconfig.get_config_var("Py_GIL_DISABLED")


def files():
    """The files of the package that are no extension."""
    return sorted(name for name in os.listdir(SOURCE) if name.endswith((".py", ".pyi")) or name == "py.typed")


def sources():
    """The extension's files in C."""
    return [os.path.join(SOURCE, name) for name in sorted(os.listdir(SOURCE)) if name.endswith(".c")]


def includes():
    """The compiler's flags for the headers."""
    return [f"-I{os.path.join(TOP, 'include')}", f"-I{sysconfig.get_path('include')}"]


def compile_extension(made, archive, *flags):
    """Compiles the extension with an archive of the library."""
    words = ["cc", "-Wall", "-Wextra", "-O2", "-fPIC", "-fvisibility=hidden", "-shared", *includes(), *flags]
    # The extension exports only its initialization, and no name of the library.
    words += [*sources(), archive, "-Wl,--exclude-libs,ALL", "-o", made]
    subprocess.run(words, check=True)


def build(folder, archive, *flags):
    """Makes the package in a folder."""
    package = os.path.join(folder, "tktext")
    shutil.rmtree(package, ignore_errors=True)
    os.makedirs(package)
    for name in files():
        shutil.copyfile(os.path.join(SOURCE, name), os.path.join(package, name))
    compile_extension(os.path.join(package, EXTENSION), archive, *flags)


def folder_of(out):
    """The folder of the package that belongs to a library."""
    return os.path.join(TOP, out, "python")


def build_in(out):
    """Builds the package next to a library, and returns its folder."""
    build(folder_of(out), os.path.join(TOP, out, "libtktext.a"))
    return folder_of(out)


def main():
    parser = argparse.ArgumentParser(description="builds the Python package below a folder")
    parser.add_argument("--try", action="store_true", dest="is_tried")
    options = parser.parse_args()
    if not can_build():
        print(f"make python: cannot build the Python package: it needs {WANTED}", file=sys.stderr)
        return 1
    print(build_in(os.path.join("out", "try") if options.is_tried else "out"))
    return 0


if __name__ == "__main__":
    sys.exit(main())
