#!/usr/bin/env python3
"""The version of the header, the packages and the library, which the file VERSION holds.

    python3 tools/version.py            prints it
    python3 tools/version.py --write    writes it into the files that repeat it

VERSION has the form of Python's packages: 2.0.0, or 2.0.0.dev0 before the release.  Two files of Tcl need the number and
its dot alone, and Debian writes `~` before `dev`.  `tools/facts.py` checks the files that repeat it.
"""

import os
import re
import sys

TOP = os.path.dirname(os.path.dirname(os.path.abspath(__file__)))
# The files that repeat it: what is before it in each, whether it is Tcl's, and what is after it.
REPEATED = (
    (("include", "tktext.h"), r'#define TKTEXT_VERSION "', False, '"'),
    (("tcl", "pkgIndex.tcl"), r"package ifneeded tktext ", True, " "),
    (("tcl", "tktext.c"), r'Tcl_PkgProvide\(interp, "tktext", "', True, '"'),
)


def text():
    """The version: 2.0.0, or 2.0.0.dev0."""
    with open(os.path.join(TOP, "VERSION"), encoding="ascii") as file:
        return file.read().strip()


def for_tcl():
    """Tcl's form: major and minor number, also before the release."""
    return ".".join(text().split(".")[:2])


def for_debian():
    """Debian's form: a version before the release is older than the release."""
    return text().replace(".dev", "~dev")


def repeated():
    """Each file that repeats the version: its name, its text, and its text with the version of VERSION."""
    for names, before, is_tcl, after in REPEATED:
        with open(os.path.join(TOP, *names), encoding="utf-8") as file:
            old = file.read()
        wanted = for_tcl() if is_tcl else text()
        new, count = re.subn(rf"({before})[^{after}]*({after})", rf"\g<1>{wanted}\g<2>", old)
        yield os.path.join(*names), old, new if count else ""


def write():
    for name, old, new in repeated():
        if not new:
            sys.exit(f"{name}: no version found")
        if new != old:
            with open(os.path.join(TOP, name), "w", encoding="utf-8") as file:
                file.write(new)
            print(f"{name}: {text()}")


def main(words):
    if words not in ([], ["--write"]):
        print(__doc__)
        return 2
    if words:
        write()
    else:
        print(text())
    return 0


if __name__ == "__main__":
    sys.exit(main(sys.argv[1:]))
