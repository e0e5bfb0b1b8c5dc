#!/usr/bin/env python3
"""Tries tools/wrong.py: what counts as refused, on the prover's words as they are here, and on the crate `name_list`.

    python3 tools/wrong_test.py [--libraries FOLDER]

The crate without an edit has no refused function.  Of four edits of it that are tried together, the wrong body is
refused, and the others fail by name: one that means the same, one that doesn't compile, and one that doesn't apply.
Ends in a line `N passed, M failed`; the exit status is 1 if anything failed.
"""

import argparse
import sys

import build
import wrong
from harness import Tally

CRATE = "name_list"
NEXT, ADD = "places::next_free", "places::add_place"
PROOFS = "Rattle.name_list.proofs.places"
# Edits of the crate: one that is refused, and three that are not.
EDITS = {
    "wrong_body": f"""# refused: {NEXT} at loop-number-preserved
file: src/places.rt
old: places[number].is_some()
new: places[number].is_none()
""",
    "same_meaning": f"""# refused: {ADD}
file: src/places.rt
old: if number == places.len() {{
new: if places.len() == number {{
""",
    "no_such_name": """# refused: names::NameList::take_out
file: src/names.rt
old: self.free = self.free.min(number as usize);
new: self.free = self.free.min(no_such_name);
""",
    "no_such_text": f"""# refused: {ADD}
file: src/places.rt
old: no_such_text
new: _
""",
}
FAULTS = {
    "wrong_body": None,
    "same_meaning": f"{ADD} isn't refused",
    "no_such_name": "it doesn't compile",
    "no_such_text": "it doesn't apply",
}
# What the prover says of `next_free`, and the goals of its own at which it is refused by that.
VERDICTS = {
    "no holes": [],
    "depends on a hole in `{add}.Proof.add_place_spec`": [],
    "not proved; it calls `name_list::places::add_place`, which is not proved": [],
    "not proved; it stands on `{add}.Answers.returns`, which antt refuses": [],
    "not proved; it stands on `{next}.Answers.returns`, which antt refuses": ["returns"],
    "not proved; it stands on `{next}.Answers.gone`, `{next}.Answers.both`, which antt refuses": ["both"],
    "not proved; it stands on `{itself}.Invariants.loop`, `{itself}.Answers.gone`, which antt refuses": ["loop"],
    "no proof: `search` did not prove `first`, `second`": ["first", "second"],
    "no proof: `search` did not prove `first`; it calls `{add}`, which is not proved": ["first"],
}
# Errors in its proof: at the goal `gone` no more than that a name is gone, at `both` also another.
ANSWERS = "./proofs/places/next_free/Answers.antt"
ERRORS = f"""\
{ANSWERS.replace("/next_free/", "/+next_free/")}:3:9: error: `gone`: `goal.Case` has no field `count`
{ANSWERS}:3:9: error: `gone`: `goal.Case` has no field `count`
{ANSWERS}:5:9: error: `both`: `goal.Case` has no field `count`
{ANSWERS}:6:9: error: `both`: the two types differ
fn name_list::places::add_place: no proof: `search` did not prove `returns`
"""


def check_verdicts(tally):
    """A function counts as refused at goals of its own alone."""
    for verdict, goals in VERDICTS.items():
        names = {"next": "next_free", "itself": "+next_free", "add": "add_place"}
        text = verdict.format(**{key: f"{PROOFS}.{name}" for key, name in names.items()})
        found = wrong.refused_goals(CRATE, {NEXT}, f"{ERRORS}fn {CRATE}::{NEXT}: {text}\n")
        tally.check(found == {NEXT: goals}, f"{text}: refused at {found}, and not at {goals}")


def edit_of(function, old, new):
    return wrong.read_edit(new, f"# refused: {function}\nfile: src/places.rt\nold: {old}\nnew: {new}\n")


def check_batches(tally):
    """Two edits share a check unless they can't be told apart, or change one line."""
    first, second = "needed -= 1;", "number += 1;"
    cases = [
        ("two functions", ADD, NEXT, second, 1),
        ("one function", ADD, ADD, second, 2),
        ("two goals of one function", f"{ADD} at one", f"{ADD} at other", second, 1),
        ("one goal of one function", f"{ADD} at one", f"{ADD} at one", second, 2),
        ("one line", ADD, NEXT, first, 2),
    ]
    for name, one, other, old, number in cases:
        batches = wrong.batches_of(CRATE, [edit_of(one, first, "a"), edit_of(other, old, "b")])
        tally.check(len(batches) == number, f"edits of {name} take {len(batches)} checks, and not {number}")


def check_unedited(libraries, tally):
    """No function of the crate is refused as it stands."""
    functions = {target.function for edit in wrong.read_edits(CRATE) for target in edit.targets}
    goals = wrong.refused_goals(CRATE, functions, wrong.check(CRATE, [], functions, libraries))
    tally.check(goals.keys() == functions, f"the prover says nothing of {', '.join(functions - goals.keys())}")
    for function, refused in goals.items():
        tally.check(not refused, f"{function} is refused without an edit at {', '.join(refused)}")


def check_edits(libraries, tally):
    """Each edit is refused, or fails with what is wrong with it, whatever it is tried beside."""
    edits = [wrong.read_edit(name, text) for name, text in EDITS.items()]
    faults = wrong.try_edits(CRATE, edits, argparse.Namespace(libraries=libraries, show=False))
    for name, fault in FAULTS.items():
        found = faults[name]
        is_same = found == fault if fault is None else (found or "").startswith(fault)
        tally.check(is_same, f"{name}: {found}")


def main():
    parser = argparse.ArgumentParser(description="tries tools/wrong.py")
    parser.add_argument("--libraries", default=build.TOP)
    libraries = parser.parse_args().libraries
    tally = Tally()
    check_verdicts(tally)
    check_batches(tally)
    check_unedited(libraries, tally)
    check_edits(libraries, tally)
    return tally.close()


if __name__ == "__main__":
    sys.exit(main())
