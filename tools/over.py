#!/usr/bin/env python3
"""Checks one crate over libraries that stand built already, here or in another checkout, or over sources.

    python3 tools/over.py CRATE [--build] [--libraries FOLDER] [--sources LIB ..] [--jobs N] [-- WORD ..]

This is what `rt check` calls in the end, without the proofs of all that stands below, so a function of a high crate is
checked in some twenty seconds; it is no verdict, which `rt ci` alone gives.  A library below is taken from `out/rlib` of
its crate here, where `--build` has put it, and else from that of the same crate below FOLDER, a checkout in which a gate
has run.  Those that are named by `--sources` are read as they stand, whether they are proved or not: these are all whose
contracts changed, and all between them and the crate.  Behind `--` stand words of `rattle check` itself, as `--only
FUNCTION`, `--allow-holes` or `--test`.  With `--build` the crate, a library, is proved and built, for crates above it
or, a static one, for C.

What a check keeps for the next one stands in out/over/CRATE.  The exit status is that of `rattle`.
"""

import argparse
import os
import shutil
import subprocess
import sys

import build

KIT = os.path.dirname(subprocess.run(["rt", "doc"], capture_output=True, text=True, check=True).stdout.strip())
RATTLE = f"{KIT}/bin/rattle"
# By this file a library that was built here is known.
BUILT = "over"


def line_of(crate):
    """The words before and after the colon in the line of a crate."""
    with open(os.path.join(build.TOP, "crates.txt"), encoding="utf-8") as file:
        lines = [[part.split() for part in line.split(":")] for line in file if ":" in line and line[0] != "#"]
    return next(parts for parts in lines if parts[0][0] == crate)


def words_below(crate):
    """What the line of a crate names, libraries of the kit among them."""
    return line_of(crate)[1]


def is_static(crate):
    """Whether a crate is a static library, for C."""
    return "staticlib" in line_of(crate)[0]


def rlib_folder(top, crate):
    return os.path.join(top, "crates", crate, "out", "rlib")


def find_rlib(crate, libraries):
    """The folder in which the library of a crate stands built."""
    own = rlib_folder(build.TOP, crate)
    return own if os.path.exists(os.path.join(own, BUILT)) else rlib_folder(libraries, crate)


def root_of(crate):
    """The folder of a crate and its root file in it."""
    folder = os.path.join(build.TOP, "crates", crate)
    return folder, "src/lib.rt" if os.path.exists(os.path.join(folder, "src", "lib.rt")) else "src/main.rt"


def words_of(options, crates):
    """The words behind `rattle check` or `rattle build`."""
    words = ["--crate-name", options.crate, root_of(options.crate)[1], "--extern", f"std={KIT}/rlibs/std.rlib"]
    named = [*words_below(options.crate), *(name for source in options.sources for name in words_below(source))]
    for name in dict.fromkeys(named):
        if name not in crates:
            words += ["--extern", f"{name}={KIT}/rlibs/{name}.rlib"]
        elif name not in options.sources:
            words += ["--extern", f"{name}={find_rlib(name, options.libraries)}/{name}.rlib"]
    for source in options.sources:
        folder, root = root_of(source)
        words += ["--lib", f"{source}:{','.join(['std', *words_below(source)])}={folder}/{root}"]
    folders = [f"{KIT}/rlibs", *(find_rlib(name, options.libraries) for name in crates)]
    for folder in filter(os.path.isdir, folders):
        words += ["-L", f"dependency={folder}"]
    words += ["--logic-built", f"{KIT}/logic_built", "--antt-project", f"{KIT}/rattle/logic/antt-project.json"]
    if is_static(options.crate):
        words += ["--crate-type", "staticlib"]
    return [*words, "--links", f"{options.crate}=", "--jobs", str(options.jobs)]


def words_of_build(crate):
    """The words that `rattle build` takes beside these. Makes the folder of what it writes, an old library deleted."""
    if is_static(crate):
        folder = os.path.join(build.TOP, "crates", crate, "out")
        os.makedirs(folder, exist_ok=True)
        return ["--toolchain", f"{KIT}/toolchain", "--backend", "llvm", "-o", f"{folder}/lib{crate}.a"]
    folder = rlib_folder(build.TOP, crate)
    shutil.rmtree(folder, ignore_errors=True)
    os.makedirs(folder)
    return ["--statements", "-o", f"{folder}/{crate}.rlib"]


def main():
    parser = argparse.ArgumentParser(description="checks one crate over built libraries")
    parser.add_argument("crate")
    parser.add_argument("--build", action="store_true")
    parser.add_argument("--libraries", default=build.TOP)
    parser.add_argument("--sources", nargs="+", default=[])
    parser.add_argument("--jobs", type=int, default=1)
    end = sys.argv.index("--") if "--" in sys.argv else len(sys.argv)
    options, given = parser.parse_args(sys.argv[1:end]), sys.argv[end + 1 :]
    words = words_of(options, build.read_crates(os.path.join(build.TOP, "crates.txt")))
    if options.build:
        words += words_of_build(options.crate)
    else:
        kept = os.path.join(build.TOP, "out", "over", options.crate)
        os.makedirs(kept, exist_ok=True)
        words += ["--incremental", kept]
    verb = "build" if options.build else "check"
    done = subprocess.run([RATTLE, verb, *words, *given], cwd=root_of(options.crate)[0])
    if options.build and done.returncode == 0 and not is_static(options.crate):
        open(os.path.join(rlib_folder(build.TOP, options.crate), BUILT), "w").close()
    return done.returncode


if __name__ == "__main__":
    sys.exit(main())
