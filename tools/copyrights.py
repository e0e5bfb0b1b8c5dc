#!/usr/bin/env python3
"""Writes what a release says of its licences: what tools/dist.py puts into each.

    python3 tools/copyrights.py

The text of the repository's own licence, or that none has been given where it has no such file; and those of the
libraries of the Rattle kit that the program and the library are compiled with, as they lie in the kit.
"""

import glob
import os
import re
import sys

import build
import unproved
import version

LICENCES = ("LICENSE*", "LICENCE*", "COPYING*")
HEAD = """tktext {version}, made from the repository Riavolth

Its own licence
---------------

{own}"""
NONE = """No licence has been given: the repository has no such file. Whoever wants to copy it, to change it or to hand it on
asks those who wrote it.
"""
KIT = """
Compiled into it
----------------

Libraries of the Rattle kit, each by its own licence, which follows:
{names}.
Its standard library too, of which the kit has no file that says a licence.
"""
PART = "\n{title}\n{line}\n\n{text}"


def files_of(folder):
    """The files of a folder that say a licence."""
    return sorted(path for pattern in LICENCES for path in glob.glob(os.path.join(folder, pattern)))


def text_of(path):
    with open(path, encoding="utf-8") as file:
        return file.read().rstrip() + "\n"


def kit_libraries():
    """The libraries of the kit that the crates of the program and the library name."""
    crates = build.read_crates(os.path.join(build.TOP, "crates.txt"))
    packed = {name for top in ("tktext", "tktext_c") for name in build.crates_below(crates, top) | {top}}
    named = set()
    for line in text_of(os.path.join(build.TOP, "crates.txt")).splitlines():
        words = re.split(r"[\s:]+", line.strip())
        if words[0] in packed:
            named |= {word for word in words[1:] if word and "=" not in word and word != "staticlib"}
    return sorted(named - set(crates))


def kit_licences():
    """The texts of the licences of the kit's libraries, each with the libraries that have it."""
    folder = os.path.join(unproved.kit_folder(), "rattle")
    texts = {}
    for name in kit_libraries():
        for path in files_of(os.path.join(folder, name)):
            texts.setdefault((os.path.basename(path), text_of(path)), []).append(name)
    return texts


def text(number):
    """What a release says of its licences."""
    own = files_of(build.TOP)
    texts = kit_licences()
    names = sorted({name for users in texts.values() for name in users})
    parts = [HEAD.format(version=number, own="\n".join(map(text_of, own)) or NONE), KIT.format(names=", ".join(names))]
    for (name, said), users in texts.items():
        title = f"{name} of {', '.join(users)}"
        parts.append(PART.format(title=title, line="-" * len(title), text=said))
    return "".join(parts)


def main(words):
    if words:
        print(__doc__)
        return 2
    print(text(version.text()), end="")
    return 0


if __name__ == "__main__":
    sys.exit(main(sys.argv[1:]))
