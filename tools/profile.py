"""Shows which functions of a crate take the time of its check.

    python3 tools/profile.py NAME [--lines 40] [--libraries FOLDER] [--test]

Checks the crate from nothing by one process, over the libraries that are built here or in FOLDER (tools/over.py), and
sees when the check writes the file of each module; with `--test`, its tests too.  Prints the prover's own seconds of
processor (user), so other work on the machine changes little, by function and lemma file, the most expensive first: all of
it, then the steps of the code, the goals, the answers (with the invariants), and the rest.  Modules that are written
together share their time evenly.
"""

import argparse
import collections
import os
import pathlib
import re
import subprocess
import sys
import tempfile
import time

import build
import gate
import over

KINDS = {"Lts": "steps", "Tie": "steps", "Proof": "goals", "Answers": "answers", "Invariants": "answers", "Goals": "answers"}
# How often the files are looked for.
PAUSE_SECONDS = 0.05
PARTS = re.compile(
    r"^(Lts|Tie|Proof|Answers|Invariants|Goals|Given|Kinds|Carried|Reads|Symbol|Statement|Named|Layout|Met|View|Code|TheL\w+)(-.*)?$"
)


def function_and_kind(module):
    """The function or file that a module belongs to, and what of it the module is."""
    path = re.sub(r"^Rattle-\w+(-(proofs|specs))?\.?((proofs|specs)\.)?(contracts\.|declared\.)?", "", module).split(".")
    for at, part in enumerate(path):
        found = PARTS.match(part)
        if found:
            return ".".join(path[:at]) or "(crate)", KINDS.get(found[1], "rest")
    return ".".join(path) or "(crate)", "rest"


def processor_seconds(process):
    """The seconds of processor (user) that a process and all below it took so far, or None where it has ended."""
    running = gate.running_processes()
    ticks = [found.ticks for found in running.values() if is_below(found, process.pid, running)]
    return sum(ticks) / gate.TICKS_PER_SECOND if ticks else None


def is_below(found, top, running):
    """Whether a process is the one of a number, or one that it began."""
    while found is not None and found.number != top:
        found = running.get(found.parent)
    return found is not None


def new_modules(folder, seen):
    """The modules whose files weren't seen before."""
    found = {path.name for path in folder.glob("**/*.oantt")} - seen
    seen |= found
    return found


def profile(check, folder):
    """Seconds of processor by function and kind, of a check that writes its modules below a folder."""
    seconds, seen, last = collections.defaultdict(collections.Counter), set(), None
    while check.poll() is None and (now := processor_seconds(check)) is not None:
        found = new_modules(folder, seen)
        if found and last is None:
            last = now  # what came before is the loading of libraries
        elif found:
            for name in found:
                function, kind = function_and_kind(name.removesuffix(".oantt").removesuffix(".decls"))
                seconds[function][kind] += (now - last) / len(found)
            last = now
        time.sleep(PAUSE_SECONDS)
    return seconds


def check_words(crate, libraries, folder, has_tests):
    options = argparse.Namespace(crate=crate, sources=[], libraries=libraries, jobs=1)
    words = over.words_of(options, build.read_crates(os.path.join(build.TOP, "crates.txt")))
    return [over.RATTLE, "check", *words, "--incremental", folder, *(["--test"] if has_tests else [])]


def main():
    parser = argparse.ArgumentParser(description="shows which functions of a crate take the time of its check")
    parser.add_argument("crate")
    parser.add_argument("--lines", type=int, default=40)
    parser.add_argument("--libraries", default=build.TOP)
    parser.add_argument("--test", action="store_true")
    options = parser.parse_args()
    with tempfile.TemporaryDirectory() as folder:
        words, silent = check_words(options.crate, options.libraries, folder, options.test), subprocess.DEVNULL
        check = subprocess.Popen(words, cwd=over.root_of(options.crate)[0], stdout=silent, stderr=silent)
        seconds = profile(check, pathlib.Path(folder))
    if not seconds:
        sys.exit(f"the check of {options.crate} wrote no module: tools/over.py {options.crate} says why")
    kinds = ["steps", "goals", "answers", "rest"]
    print("".join(f"{word:>9}" for word in ["seconds", *kinds]))
    ordered = sorted(seconds.items(), key=lambda item: -sum(item[1].values()))
    for function, spent in ordered[: options.lines]:
        numbers = [sum(spent.values()), *(spent[kind] for kind in kinds)]
        print("".join(f"{number:9.1f}" for number in numbers), "", function)
    total = sum((spent for _, spent in ordered), collections.Counter())
    print("".join(f"{number:9.1f}" for number in [sum(total.values()), *(total[kind] for kind in kinds)]), " all")


if __name__ == "__main__":
    main()
