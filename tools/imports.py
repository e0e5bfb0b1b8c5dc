#!/usr/bin/env python3
"""Lays out what the proofs of a crate bring in.

    python3 tools/imports.py NAME ..

What two files of `crates/NAME/proofs` bring in from one module stands in `proofs/Common.antt`, which passes it on, and
they bring it in from there, by one list: what `rt check --fix-imports` wrote is put there.  A name that its file doesn't
use goes, and so does one that is passed on and no file brings in.  `proofs/Lib.antt` has the line `pub mod Common`.

As they are stay names of the crate's own laws and goals, modules, a name under another name (`as`), and one that the
file unfolds, since the right to unfold isn't passed on.  Where one name means two things, that one is passed on which
more files bring in.  What comes out is proved by nothing but a check.
"""

import glob
import os
import re
import sys
from collections import Counter, defaultdict
from functools import lru_cache

from facts import COMMENT, is_named
from over import KIT

TOP = os.path.dirname(os.path.dirname(os.path.abspath(__file__)))
MOST_CHARACTERS = 120
LIST = re.compile(r"(pub )?use ([^{]+)\.\{(.*)\}$")
UNFOLDED = re.compile(r"^\s*unfolding (.*)$", re.MULTILINE)
HEAD = "-- The names that most proofs of this crate cite, passed on from one place. Declares nothing."
COMMON = "Rattle.std.proofs.Common"


def lists_of(module, names, before=""):
    """The lines that bring names in from a module, or with `pub ` before them pass them on."""
    lines = []
    for name in names:
        if lines and len(lines[-1]) + len(name) + 3 <= MOST_CHARACTERS:
            lines[-1] += f", {name}"
        else:
            lines.append(f"{before}use {module}.{{{name}")
    # `rt fmt` keeps `!` and the bracket apart.
    return [line + (" }" if line.endswith("!") else "}") for line in lines]


def names_in(listed):
    return [name.strip() for name in listed.split(",")]


def read(path):
    with open(path, encoding="utf-8") as file:
        return file.read()


def write(path, text):
    if not os.path.exists(path) or read(path) != text:
        with open(path, "w", encoding="utf-8") as file:
            file.write(text)


def passed_in(text):
    """The names that a file passes on, each with its module."""
    lists = filter(None, map(LIST.match, text.split("\n")))
    return {name: module for _, module, names in map(re.Match.groups, lists) for name in names_in(names)}


@lru_cache(None)
def origin(module, name):
    """The module of a name, behind those of std that pass it on."""
    path = os.path.join(KIT, "rattle", *module.split(".")[1:]) + ".antt"
    if module.startswith("Rattle.std.") and os.path.exists(path):
        below = passed_in(read(path)).get(name)
        return origin(below, name) if below else module
    return module


class Proofs:
    """A file of proofs: its lines, and the names in use that it brings in, each with its module."""

    def __init__(self, path, own, passed):
        self.path, self.own, text = path, own, read(path)
        self.lines = text.split("\n")
        rest = COMMENT.sub("", "\n".join(line for line in self.lines if not line.startswith("use ")))
        self.unfolded = set(" ".join(UNFOLDED.findall(text)).split())
        self.brought = {}
        for match in self.lists():
            for name in names_in(match[3]):
                if is_named(name.split(" as ")[-1], rest):
                    self.brought[name] = passed[name] if match[2] == f"{own}.Common" else match[2]

    def lists(self):
        return [match for match in map(LIST.match, self.lines) if match and not match[1]]

    def movable(self):
        """The names that may be passed on, each with its module."""
        return {
            name: module for name, module in self.brought.items()
            if module.startswith("Rattle.") and not module.startswith(self.own) and ".specs.contracts." not in module
            and " as " not in name and name not in self.unfolded
        }

    def lay_out(self, passed):
        """Writes the file with what is passed on brought in from there, before all other lists."""
        movable, by_module = self.movable(), {f"{self.own}.Common": []}
        for name, module in self.brought.items():
            is_passed = name in movable and name in passed and origin(passed[name], name) == origin(module, name)
            by_module.setdefault(f"{self.own}.Common" if is_passed else module, []).append(name)
        lists = [line for module, names in by_module.items() for line in lists_of(module, names)]
        lines = []
        for line in self.lines:
            match = LIST.match(line)
            if not match or match[1]:
                lines.append(line)
            elif lists:
                lines, lists = lines + lists, []
        write(self.path, "\n".join(lines))


def passed_on(files):
    """The names that a crate is to pass on, each with its module."""
    sizes, counts, modules = Counter(), Counter(), defaultdict(Counter)
    for file in files:
        movable = file.movable()
        sizes.update(set(movable.values()))
        for name, module in movable.items():
            counts[name, origin(module, name)] += 1
            modules[name, origin(module, name)][module] += 1
    passed = {}
    for (name, _), found in sorted(modules.items(), key=lambda entry: counts[entry[0]]):
        module = COMMON if COMMON in found else found.most_common(1)[0][0]
        if sizes[module] > 1:
            passed[name] = module
    return passed


def order_of(name):
    """Operators before names."""
    return name.isascii() and name[0].isalpha(), name


def lay_out(crate):
    """Lays out what the proofs of a crate bring in."""
    own, folder = f"Rattle.{crate}.proofs", os.path.join(TOP, "crates", crate, "proofs")
    place = os.path.join(folder, "Common.antt")
    before = passed_in(read(place)) if os.path.exists(place) else {}
    paths = glob.glob(os.path.join(folder, "**", "*.antt"), recursive=True)
    files = [Proofs(path, own, before) for path in sorted(paths) if path != place]
    passed = passed_on(files)
    for file in files:
        file.lay_out(passed)
    by_module = defaultdict(list)
    for name in sorted(passed, key=order_of):
        by_module[passed[name]].append(name)
    modules = sorted(by_module, key=lambda module: (module != COMMON, module))
    lists = [line for module in modules for line in lists_of(module, by_module[module], "pub ")]
    write(place, "\n".join([HEAD, *lists, ""]))


def main():
    for crate in sys.argv[1:]:
        lay_out(crate)


if __name__ == "__main__":
    main()
