#!/usr/bin/env python3
"""Installs what was built, and removes it: what `make install` and `make uninstall` call.

    python3 tools/install.py [--prefix /usr/local] [--destdir FOLDER] [--try]
    python3 tools/install.py [--prefix /usr/local] [--destdir FOLDER] --uninstall

The program, the header, the library with its file for pkg-config, the manual pages and the Tcl package go below the
prefix, and all of that below FOLDER, as where a package is made.  With `--try` it installs the unproved builds.
What wasn't built is left out and reported, and so are the variables that the system needs to find the rest.  Nothing is
built here, nor written into out/.
"""

import argparse
import os
import shutil
import subprocess
import sys
from typing import NamedTuple

import examples
import version
from build_library import SONAME

TOP = os.path.dirname(os.path.dirname(os.path.abspath(__file__)))
PROGRAM = {False: os.path.join("crates", "tktext", "out", "tktext"), True: os.path.join("out", "try", "tktext")}
PKG_CONFIG = """prefix={prefix}
libdir=${{prefix}}/lib
includedir=${{prefix}}/include

Name: tktext
Description: the editing core of the Tk text widget{note}
Version: {version}
Libs: -L${{libdir}} -ltktext
Cflags: -I${{includedir}}
"""
UNPROVED = " (built without its proof)"
# The prefixes below which the dynamic linker looks by itself, after ldconfig.
LINKED_PREFIXES = ("/usr", "/usr/local")


class Item(NamedTuple):
    """An installed file: its path below the prefix, the file that it is copied from, and its mode."""

    place: str
    source: str
    mode: int = 0o644


def tcl_folder():
    return os.path.join("lib", "tcltk", f"tktext{version.for_tcl()}")


def library(is_tried):
    """The shared library."""
    return os.path.join(examples.TRIED if is_tried else examples.PROVED, SONAME)


def items(is_tried):
    """All files that are copied, whether they were built or not."""
    out = examples.TRIED if is_tried else examples.PROVED
    return [
        Item("bin/tktext", PROGRAM[is_tried], 0o755),
        Item("include/tktext.h", "include/tktext.h"),
        Item("lib/libtktext.a", f"{out}/libtktext.a"),
        Item(f"lib/{SONAME}", library(is_tried)),
        Item("share/man/man1/tktext.1", "out/man/tktext.1"),
        Item("share/man/man3/tktext.3", "out/man/tktext.3"),
        Item(f"{tcl_folder()}/tktext.so", f"{out}/tktext.so"),
        Item(f"{tcl_folder()}/pkgIndex.tcl", f"{out}/pkgIndex.tcl"),
    ]


LINK = "lib/libtktext.so"
DESCRIPTION = "lib/pkgconfig/tktext.pc"


def put(path, mode, write):
    """Writes a file of a mode by a function of its path, in place of one that is there."""
    os.makedirs(os.path.dirname(path), exist_ok=True)
    if os.path.lexists(path):
        os.remove(path)
    write(path)
    os.chmod(path, mode)


def write_text(path, text):
    with open(path, "w", encoding="utf-8") as file:
        file.write(text)


def description(prefix, is_tried):
    """What pkg-config reads."""
    return PKG_CONFIG.format(prefix=prefix, version=version.text(), note=UNPROVED if is_tried else "")


def install(root, prefix, is_tried):
    """Installs everything that was built below the root, and returns what wasn't built."""
    missing = []
    for item in items(is_tried):
        source = os.path.join(TOP, item.source)
        if os.path.exists(source):
            put(os.path.join(root, item.place), item.mode, lambda path, source=source: shutil.copyfile(source, path))
        else:
            missing.append(item.source)
    put(os.path.join(root, DESCRIPTION), 0o644, lambda path: write_text(path, description(prefix, is_tried)))
    link = os.path.join(root, LINK)
    if os.path.lexists(link):
        os.remove(link)
    os.symlink(SONAME, link)
    return missing


def uninstall(root):
    """Removes every file that can be installed, and the Tcl package's folder."""
    for place in (*(item.place for item in items(False)), LINK, DESCRIPTION):
        path = os.path.join(root, place)
        if os.path.lexists(path):
            os.remove(path)
    folder = os.path.join(root, tcl_folder())
    if os.path.isdir(folder) and not os.listdir(folder):
        os.rmdir(folder)


def asked(words, given=""):
    """The output of a program, or nothing if it isn't installed."""
    if shutil.which(words[0]) is None:
        return ""
    return subprocess.run(words, input=given, capture_output=True, text=True, check=False).stdout


def wants(prefix):
    """The variables that the system needs to find the files below a prefix, line by line."""
    library, packages, scripts = (os.path.join(prefix, place) for place in ("lib", "lib/pkgconfig", "lib/tcltk"))
    if prefix not in LINKED_PREFIXES:
        yield f"make install: set LD_LIBRARY_PATH={library} for libtktext.so, or link with -Wl,-rpath,{library}"
    if packages not in asked(["pkg-config", "--variable", "pc_path", "pkg-config"]).strip().split(":"):
        yield f"make install: set PKG_CONFIG_PATH={packages} for pkg-config"
    if scripts not in asked(["tclsh8.6"], "puts [join $auto_path \\n]\n").splitlines():
        yield f"make install: set TCLLIBPATH={scripts} for Tcl, or `lappend auto_path {scripts}`"


def tell_linker(prefix):
    """Updates the cache of the dynamic linker, if it searches the prefix."""
    if prefix in LINKED_PREFIXES and (os.geteuid() or subprocess.run(["ldconfig"], check=False).returncode):
        print("make install: run `ldconfig` as root, so that programs find the library", file=sys.stderr)


def main():
    parser = argparse.ArgumentParser(description="installs what was built, or removes it")
    parser.add_argument("--prefix", default="/usr/local")
    parser.add_argument("--destdir", default="")
    parser.add_argument("--try", action="store_true", dest="is_tried")
    parser.add_argument("--uninstall", action="store_true")
    options = parser.parse_args()
    prefix = os.path.abspath(options.prefix)
    root = os.path.join(options.destdir, prefix.lstrip("/")) if options.destdir else prefix
    if options.uninstall:
        uninstall(root)
        print(f"uninstalled below {root}")
        return 0
    missing = install(root, prefix, options.is_tried)
    print(f"installed below {root}")
    for source in missing:
        print(f"make install: not installed, since it isn't built: {source}", file=sys.stderr)
    if not options.destdir:
        tell_linker(prefix)
        for line in wants(prefix):
            print(line, file=sys.stderr)
    if options.is_tried:
        print("make install: these files are NOT PROVED; without TRY=1 it installs proved ones", file=sys.stderr)
    return 0


if __name__ == "__main__":
    sys.exit(main())
