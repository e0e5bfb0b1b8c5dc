#!/usr/bin/env python3
"""Tries the wrong bodies of crates/NAME/wrong, all of a crate in one check.

    python3 tools/wrong.py [CRATE ..] [--libraries FOLDER] [--jobs N] [--show]

Each file of that folder is an edit with the rules of must-fail/: below a line `file:` pairs of lines `old:` and `new:`,
where the text of `old:` is in the file once.  A line `# refused: F` names the function whose contract refuses the edit,
by its path in the crate; `# refused: F at GOAL` also names the goal, so that two edits of one function share a check.

All edits of a crate are made in one copy of it.  The functions named are checked over the libraries that `rt ci` leaves
in `out/rlib`; the theorems of what they call are taken as stated.  The prover has to refuse F at a goal of F itself.
It doesn't count that F calls a function that is not proved, nor that a proof of F names what the edit deleted.  An edit
that doesn't apply, doesn't compile or isn't refused fails by name.  One that fails beside others is tried again alone.

`--libraries` takes the libraries of another checkout, `--jobs` crates are checked at once, and `--show` prints the
goals at which each function is refused.  Ends in a line `N passed, M failed`; the exit status is 1 if anything failed.
"""

import argparse
import json
import os
import re
import shutil
import subprocess
import sys
import tempfile
from collections import defaultdict
from concurrent.futures import ThreadPoolExecutor
from typing import NamedTuple

import build
import over
from harness import Tally

PARTS = ("src", "specs", "proofs")
FOLDER = "wrong"
# What the name of the folder begins with in which a crate's edits are made; tools/gate.py knows these checks by it.
COPY = "wrong-"
# A check of a crate takes some minutes, also beside others.
TIMEOUT_SECONDS = 3600
REFUSED = re.compile(r"^# refused: (\S+)(?: at (\S+))?$", re.MULTILINE)
# The file of a proof that takes a theorem as it is stated.  The prover prints the goal of a hole; this one is short.
HOLE = """use Rattle.{crate}.proofs.{place}.Statement.{{statement}}

hole : ⊥
hole = ?

pub {name}_spec : {{M : Type 1}} → statement M
{name}_spec = absurd hole
"""
# What the prover says of a function, and in it the goals that its `search` left.
VERDICT = re.compile(r"^fn (\w+)::(\S+): (.*)$", re.MULTILINE)
LEFT = re.compile(r"`search` did not prove ((?:`[^`]+`(?:, | and )?)+)")
# An error at a goal of a proof; some say no more than that a name is gone.
ERROR = re.compile(r"^\./proofs/(\S+)/(?:Answers|Invariants|Proof)\.antt:[\d:]+ error: `([^`]+)`: (.*)$", re.MULTILINE)
GONE = re.compile(r"has no field|is not in scope|has no `|was not admitted")


class Target(NamedTuple):
    """A function that an edit breaks, by its path in the crate, and the goal at which it is refused, or nothing."""

    function: str
    goal: str


class Change(NamedTuple):
    """A text of a file that an edit replaces by another."""

    place: str
    old: str
    new: str


class Edit(NamedTuple):
    """A wrong body: its name, what it breaks, and what it replaces."""

    name: str
    targets: list
    changes: list


def text_of(*names):
    with open(os.path.join(*names), encoding="utf-8") as file:
        return file.read()


def folder_of(crate):
    return os.path.join(build.TOP, "crates", crate)


# ---- edits


def read_edit(name, text):
    """An edit by the text of its file."""
    place, old, changes = None, None, []
    for line in text.splitlines():
        word, _, rest = line.partition(":")
        rest = rest.removeprefix(" ")
        if word == "file":
            place = rest.strip()
        elif word == "old":
            old = rest
        elif word == "new":
            changes.append(Change(place, old, rest))
    return Edit(name, [Target(*found) for found in REFUSED.findall(text)], changes)


def read_edits(crate):
    """The edits of a crate, by name."""
    folder = os.path.join(folder_of(crate), FOLDER)
    names = sorted(os.listdir(folder)) if os.path.isdir(folder) else []
    return [read_edit(name[: -len(".edit")], text_of(folder, name)) for name in names if name.endswith(".edit")]


def changed_lines(crate, edit):
    """The lines that an edit changes, by file and number; None where a text that it replaces isn't there once."""
    texts = {place: text_of(folder_of(crate), place) for place, _, _ in edit.changes}
    lines = {place: text.split("\n") for place, text in texts.items()}
    for place, old, new in edit.changes:
        if texts[place].count(old) != 1:
            return None
        texts[place] = texts[place].replace(old, new)
    return {
        (place, number): line
        for place, text in texts.items()
        for number, line in enumerate(text.split("\n"))
        if line != lines[place][number]
    }


def edited_texts(crate, edits):
    """The texts of the files that some edits change."""
    texts = {}
    for edit in edits:
        for (place, number), line in changed_lines(crate, edit).items():
            texts.setdefault(place, text_of(folder_of(crate), place).split("\n"))[number] = line
    return {place: "\n".join(lines) for place, lines in texts.items()}


def can_share(crate, edit, other):
    """Whether two edits can be made in one copy and told apart by what the prover says of it."""
    pairs = [(one, two) for one in edit.targets for two in other.targets if one.function == two.function]
    are_apart = all(one.goal and two.goal and one.goal != two.goal for one, two in pairs)
    return are_apart and not changed_lines(crate, edit).keys() & changed_lines(crate, other).keys()


def batches_of(crate, edits):
    """Edits that are tried together; as few batches as there need be."""
    batches = []
    for edit in edits:
        for batch in batches:
            if all(can_share(crate, edit, other) for other in batch):
                batch.append(edit)
                break
        else:
            batches.append([edit])
    return batches


# ---- checks


def calls_of(crate, libraries):
    """The functions of a crate, by their paths, each with those of the crate that it names, as its library has them.

    None of a static crate, which leaves no library: its functions call those of other crates.
    """
    if over.is_static(crate):
        return {}
    library = os.path.join(over.find_rlib(crate, libraries), f"{crate}.rlib")
    named = re.compile(rf'"{crate}::([^"]+)"')
    bodies = {
        name.partition("::")[2]: named.findall(json.dumps(body))
        for name, body in json.loads(text_of(library, "toolchain", "mir.json")) if name.startswith(f"{crate}::")
    }
    return {name: {found for found in names if found in bodies} for name, names in bodies.items()}


def reached(calls, functions):
    """All functions that some of a crate lead to."""
    found, left = set(), list(functions)
    while left:
        new = calls.get(left.pop(), set()) - found
        found |= new
        left += new
    return found


def below(calls, functions):
    """What some functions lead to and has a theorem of its own: no closure, nothing of the compiler's, no cycle."""
    plain = re.compile(r"(?!.*::fn::)\w+(::\w+)*")
    found = reached(calls, functions) - functions
    return {name for name in found if plain.fullmatch(name) and name not in reached(calls, [name])}


def write_holes(crate, copy, functions):
    """Has the theorems of functions taken as they are stated, where their proof consists of answers."""
    for function in functions:
        *path, name = function.split("::")
        folder = os.path.join(copy, "proofs", *path, name)
        proof = os.path.join(folder, "Proof.antt")
        if not os.path.exists(proof):
            shutil.rmtree(folder, ignore_errors=True)
            os.makedirs(folder)
            with open(proof, "w", encoding="utf-8") as file:
                file.write(HOLE.format(crate=crate, place=".".join([*path, name]), name=name))


def write_copy(crate, copy, edits, stated):
    """Writes a crate with some edits made, in which the theorems of some functions are taken as they are stated."""
    for part in PARTS:
        if os.path.isdir(os.path.join(folder_of(crate), part)):
            shutil.copytree(os.path.join(folder_of(crate), part), os.path.join(copy, part))
    write_holes(crate, copy, stated)
    for place, text in edited_texts(crate, edits).items():
        with open(os.path.join(copy, place), "w", encoding="utf-8") as file:
            file.write(text)


def check(crate, edits, functions, libraries):
    """What the prover says of functions of a crate in which some edits are made."""
    words = over.words_of(
        argparse.Namespace(crate=crate, sources=[], libraries=libraries, jobs=1),
        build.read_crates(os.path.join(build.TOP, "crates.txt")),
    )
    only = [word for function in sorted(functions) for word in ("--only", function)]
    with tempfile.TemporaryDirectory(prefix=COPY) as copy:
        write_copy(crate, copy, edits, below(calls_of(crate, libraries), functions))
        try:
            done = subprocess.run(
                [over.RATTLE, "check", *words, "--allow-holes", *only], cwd=copy, stdin=subprocess.DEVNULL, text=True,
                stdout=subprocess.PIPE, stderr=subprocess.STDOUT, errors="replace", timeout=TIMEOUT_SECONDS,
            )
        except subprocess.TimeoutExpired:
            return f"error: the check doesn't end within {TIMEOUT_SECONDS} s"
    return done.stdout


def gone_goals(said):
    """The goals, each with its function, whose errors all say no more than that a name is gone."""
    errors = defaultdict(list)
    for place, goal, text in ERROR.findall(said):
        function = re.sub(r"(^|/)\+", r"\1", place).replace("/", "::")
        if "::" in goal:  # that of a function of a cycle, which begins with its path
            function, _, goal = goal.partition("-")
        errors[function, goal].append(text)
    return {key for key, texts in errors.items() if all(map(GONE.search, texts))}


def own_goals(crate, function, verdict):
    """The goals of a function itself that a verdict names, by its own proof or by that of the cycle that it is in."""
    *path, name = function.split("::")
    proofs = re.escape(f"Rattle.{crate}.proofs.")
    # The proof of a function that calls itself is at its name with a `+` before it.
    own = re.escape(".".join([*path, ""])) + r"\+?" + re.escape(name)
    goals = re.findall(rf"`{proofs}{own}\.(?:Answers|Invariants|Proof)\.([^`:]+)`", verdict)
    cycle = rf"`{proofs}(?:\w+\.)*\+\w+\.(?:Answers|Invariants)\.{re.escape(function)}-([^`]+)`"
    return goals + re.findall(cycle, verdict)


def refused_goals(crate, functions, said):
    """The goals of its own at which each function is refused, by what the prover said; none where it isn't."""
    gone, found = gone_goals(said), {}
    for of_crate, function, verdict in VERDICT.findall(said):
        if of_crate == crate and function in functions:
            goals = own_goals(crate, function, verdict)
            goals += [goal for left in LEFT.findall(verdict) for goal in re.findall(r"`([^`]+)`", left)]
            found[function] = [goal for goal in goals if (function, goal) not in gone]
    return found


# ---- trying them


def fault_of(edit, goals, said):
    """What is wrong with an edit by the goals that were refused; None where it is refused as it says."""
    for function, goal in edit.targets:
        if function not in goals:
            error = re.search(r"\berror\b.*", said)
            return f"it doesn't compile, or there is no function {function}: {error[0] if error else said[-200:]}"
        if not goals[function] or goal and goal not in goals[function]:
            refused = ", ".join(goals[function]) or "no goal of its own"
            return f"{function} isn't refused{f' at {goal}' if goal else ''}; it is refused at {refused}"
    return None


def halves_of(edits):
    """Edits in two parts, or nothing where there is but one."""
    middle = len(edits) // 2
    return [edits[:middle], edits[middle:]] if middle else []


def try_batch(crate, edits, options):
    """What is wrong with each of some edits, by its name.  Those that fail beside others are tried again."""
    functions = {target.function for edit in edits for target in edit.targets}
    said = check(crate, edits, functions, options.libraries)
    goals = refused_goals(crate, functions, said)
    if options.show:
        shown = (f"{crate}: {function}: {', '.join(found)}\n" for function, found in sorted(goals.items()))
        print("".join(shown), end="", flush=True)
    faults = {edit.name: fault_of(edit, goals, said) for edit in edits}
    failed = [edit for edit in edits if faults[edit.name]]
    for part in halves_of(edits) if failed == edits else filter(None, [failed]):
        faults.update(try_batch(crate, part, options))
    return faults


def try_edits(crate, edits, options):
    """What is wrong with each of the wrong bodies of a crate, by its name."""
    faults, left = {}, []
    for edit in edits:
        if not edit.targets or not edit.changes:
            faults[edit.name] = "it doesn't say what it replaces, or which function is refused"
        elif changed_lines(crate, edit) is None:
            faults[edit.name] = "it doesn't apply: a text that it replaces isn't there once"
        else:
            left.append(edit)
    for batch in batches_of(crate, left):
        faults.update(try_batch(crate, batch, options))
    return faults


def main():
    parser = argparse.ArgumentParser(description="tries the wrong bodies of crates")
    parser.add_argument("crates", nargs="*")
    parser.add_argument("--libraries", default=build.TOP)
    parser.add_argument("--jobs", type=int, default=build.jobs())
    parser.add_argument("--show", action="store_true")
    options = parser.parse_args()
    crates = options.crates or build.read_crates(os.path.join(build.TOP, "crates.txt"))
    edits = {crate: found for crate in crates if (found := read_edits(crate))}
    libraries = [crate for crate in edits if not over.is_static(crate)]
    unbuilt = [crate for crate in libraries if not os.path.isdir(over.find_rlib(crate, options.libraries))]
    if unbuilt:
        names = ", ".join(unbuilt)
        sys.exit(f"wrong.py: no library of {names} is built: run `rt ci`, or name a checkout by --libraries")
    # The crates with the most edits take longest, and begin first.
    longest_first = sorted(edits, key=lambda crate: len(edits[crate]), reverse=True)
    tally = Tally()
    with ThreadPoolExecutor(max_workers=options.jobs) as pool:
        tried = pool.map(lambda crate: try_edits(crate, edits[crate], options), longest_first)
        for crate, faults in zip(longest_first, tried):
            for name, fault in faults.items():
                tally.check(fault is None, f"crates/{crate}/{FOLDER}/{name}.edit: {fault}")
    return tally.close()


if __name__ == "__main__":
    sys.exit(main())
