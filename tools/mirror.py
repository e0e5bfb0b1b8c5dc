#!/usr/bin/env python3
"""Runs random scripts with a copy beside each text, which follows it by its changes alone (examples/mirror.py).

    python3 tools/mirror.py [--module out/python] [--seeds 300] [--first 0]

MODULE is the folder of the Python package, and the scripts are those of tools/fuzz.py.  After each command the string
and the text of the other world have to be what the text is, and what is told has to be no idle change of what stood
there, whose three ends are where it says.  Each tag has to be on just the characters on which it was told to be, each
widget's `sel` too, no change of a tag may be idle, and the other world's text has to have the tags that all peers
share.  Each mark, `insert` and `current` of each widget too, has to be where the changes take it and the reports of
marks then put it, with its gravity, in the text and in the copy; and a mark is reported only if the changes don't take
it there.  Those of a destroyed widget have to be reported as gone.  Where there is no such package a line says that it
is skipped.  Ends in a line `N passed, M failed`; the exit status is 1 if anything failed.
"""

import argparse
import os
import sys

import scripts
from harness import Tally

TOP = os.path.dirname(os.path.dirname(os.path.abspath(__file__)))
# Marks of which each widget has its own.
OWN_MARKS = ("insert", "current")


def spot_in(text, offset):
    """Where an offset of a text is, as a Spot counts."""
    line = text[:offset].rpartition("\n")[2]
    return (text.count("\n", 0, offset) + 1, len(line), len(line.encode()), len(line.encode("utf-16-le")) // 2)


def moved_by(change, tagged):
    """Which characters have a tag after a change of the text, whose new characters don't have it."""
    end, growth = change.at + change.removed, len(change.inserted) - change.removed
    return {at for at in tagged if at < change.at} | {at + growth for at in tagged if at >= end}


def starts_of(text):
    """The offsets at which the lines of a text start, and its length."""
    starts = [0]
    for line in text.split("\n")[:-1]:
        starts.append(starts[-1] + len(line) + 1)
    return starts


def offset_in(starts, index):
    line, char = str(index).split(".")
    return starts[int(line) - 1] + int(char)


def offsets_in(text, places):
    """The offsets of the characters between places, which are a list of where ranges begin and end."""
    starts = starts_of(text)
    offsets = [offset_in(starts, place) for place in places]
    return {at for start, end in zip(offsets[::2], offsets[1::2]) for at in range(start, end)}


def marks_of(view, starts):
    """The marks that a widget which shows all of a text has, with offsets and gravity."""
    marks = [(name, offset_in(starts, index)) for _, name, index in view.dump("1.0", "end", mark=True)]
    return sorted((name, offset, view.mark_gravity(name)) for name, offset in marks)


def bounds_of(view, starts):
    """The offsets between which a widget shows the text."""
    first, last = str(view.cget("startline")), str(view.cget("endline"))
    return (starts[int(first) - 1] if first else 0, starts[int(last) - 1] if last else starts[-1])


class Followed:
    """A text, by a peer of our own that shows all of it and that no script destroys, and what follows it."""

    def __init__(self, package, whole, mirror):
        self.package, self.whole, self.mirror = package, whole, mirror
        # Which characters have a tag, or the `sel` of a widget.
        self.tagged = {}
        # Where each mark is, by its name and the name of the widget whose own it is.
        self.marks = {key: place for key, place, _ in self.find_marks(mirror.string)}

    def take_changes(self, changes):
        for key, tagged in self.tagged.items():
            for change in changes:
                tagged = moved_by(change, tagged)
            self.tagged[key] = tagged

    def take_contents(self):
        """The contents of the reports since the last call."""
        links = self.whole._unread()
        contents = [content for content in (link.read() for link in links[:-1])
                    if content is not None and str(self.whole) in content.concerned]
        self.whole._pass(links)
        return contents

    def take_tags(self, content):
        """Adds and removes tags as a report says, of each widget's `sel` too; returns the no-ops."""
        idle = []
        for change, widget in content.tags:
            tagged = self.tagged.get((change.tag, widget), set())
            places = range(change.at, change.end)
            if not places or change.end > len(self.mirror.string) or any((at in tagged) == change.on for at in places):
                idle.append((change, widget))
            self.tagged[change.tag, widget] = change.made_in(tagged)
        return idle

    def take_marks(self, content):
        """Moves marks by the changes of a report, and then as it says; returns those that are wrong in it."""
        marks = [change for change, names in content.marks if str(self.whole) in names]
        carried = {key: place.moved_by(content.changes) for key, place in self.marks.items()}
        keys = [(change.mark, change.widget) for change in marks]
        wrong = [change for change, key in zip(marks, keys)
                 if keys.count(key) > 1 or change.old != self.marks.get(key) or change.new == carried.get(key)]
        carried.update((key, change.new) for change, key in zip(marks, keys))
        self.marks = {key: place for key, place in carried.items() if place is not None}
        return wrong

    def views(self):
        """The widgets that show the text, but our own peer."""
        return [self.package.Text.named(self.whole.world, str(name)) for name in self.whole.peer_names()]

    def find_marks(self, text):
        """Yields each mark, where it is shown, and between which offsets: one elsewhere is shown at the nearest."""
        starts = starts_of(text)
        for name, offset, gravity in marks_of(self.whole, starts):
            if name not in OWN_MARKS:
                yield (name, ""), self.package.Position(offset, gravity), (0, len(text))
        for view in (self.whole, *self.views()):
            start, end = bounds_of(view, starts)
            for name in OWN_MARKS:
                offset = start + offset_in(starts_of(text[start:end]), view.index(name))
                yield (name, str(view)), self.package.Position(offset, view.mark_gravity(name)), (start, end - 1)

    def wrong_marks(self, text):
        """The marks that aren't where the reports say, or have another gravity: in the text, and in the copy."""
        found = {key: (place, bounds) for key, place, bounds in self.find_marks(text)}
        for key in {**self.marks, **found}:
            known, (place, (start, end)) = self.marks.get(key), found.get(key, (None, (0, 0)))
            if known is None or place is None or place != known._replace(offset=max(start, min(known.offset, end))):
                yield key, place, known
        starts = starts_of(text)
        copied, marks = marks_of(self.mirror.copy, starts), marks_of(self.whole, starts)
        if copied != marks:
            yield "the copy's", copied, marks

    def wrong_tags(self, text):
        """The tags that aren't where they were told to be: those of all peers, the copy's, and each widget's `sel`."""
        views = self.views()
        names = [str(view) for view in views]
        self.tagged = {(tag, widget): on for (tag, widget), on in self.tagged.items() if widget in ("", *names)}
        whole = [view for view in views if not str(view.cget("startline")) + str(view.cget("endline"))]
        found = [((tag, ""), other) for other in (self.whole, self.mirror.copy) for tag in self.whole.tag_names()
                 if tag != "sel"]
        found += [(("sel", str(view)), view) for view in whole]
        return [(key, str(view)) for key, view in found
                if offsets_in(text, view.tag_ranges(key[0])) != self.tagged.get(key, set())]


class Watch:
    """The texts of a world, and what was wrong in what was told of them."""

    def __init__(self, world, package, mirror_class):
        self.world, self.package, self.mirror_class = world, package, mirror_class
        self.followed = []
        self.changes = self.moves = self.tags = 0
        self.faults = []

    def begin(self, name):
        """Follows the text of the widget of a name, if there is one, nothing follows it, and one more may be made."""
        peer = f".mirror{len(self.followed)}"
        if any(name in (str(followed.whole), *followed.whole.peer_names()) for followed in self.followed):
            return
        try:
            self.world.call(name, "peer", "create", peer, "-startline", "", "-endline", "", "-state", "normal")
        except self.package.TclError:
            return
        whole = self.package.Text.named(self.world, peer)
        mirror = self.mirror_class(whole)
        # Looked at before the mirror follows: each change has to be one of what the mirror was till then.
        mirror.stop()
        followed = Followed(self.package, whole, mirror)
        whole.on_change(lambda changes: self.check_changes(followed, changes))
        whole.on_change(mirror.follow)
        whole.on_tags(mirror.follow_tags)
        whole.on_marks(mirror.follow_marks)
        whole._unread()
        self.followed.append(followed)

    def check_changes(self, followed, changes):
        followed.take_changes(changes)
        text = followed.mirror.string
        if any(after.at + after.removed >= before.at for before, after in zip(changes, changes[1:])):
            self.faults.append(f"{changes} don't have the last position first, or adjacent ones aren't one")
        for change in changes:
            end = change.at + change.removed
            if end > len(text) or not (change.removed or change.inserted):
                self.faults.append(f"{change} is no change of {text!r}")
            new = change.made_in(text)
            ends = (spot_in(text, change.at), spot_in(text, end), spot_in(new, change.at + len(change.inserted)))
            if (change.start, change.old_end, change.new_end) != ends:
                self.faults.append(f"{change} of {text!r} has the ends {ends}")
            text = new
        self.changes += len(changes)

    def compare(self):
        for followed in self.followed:
            for content in followed.take_contents():
                self.tags += len(content.tags)
                self.moves += len(content.marks)
                self.faults.extend(f"{change} is no change of a tag" for change in followed.take_tags(content))
                self.faults.extend(f"{change} is no change of a mark" for change in followed.take_marks(content))
            now, mirror = followed.whole.get("1.0", "end"), followed.mirror
            wrong = followed.wrong_tags(now)
            if wrong:
                self.faults.append(f"the tags {wrong} of {now!r} aren't as they were told")
            for name, other in (("string", mirror.string), ("copy", mirror.copy.get("1.0", "end"))):
                if other != now:
                    self.faults.append(f"the {name} is {other!r}, and the text {now!r}")
            self.faults.extend(f"the mark {key} is at {place}, and was reported at {known}"
                               for key, place, known in followed.wrong_marks(now))
            self.faults.extend(f"the copy has the mark {mark} of {widget} at {place}"
                               for (widget, mark), place in mirror.peers.items()
                               if followed.marks.get((mark, widget)) != place)


def run(script, package, mirror_class):
    """What was wrong in a script, and how many changes, changes of tags and marks were told."""
    world = package.World()
    watch = Watch(world, package, mirror_class)
    world.feed(script)
    world.finish()
    for code, line in world._turns():
        if code == 0 and line.startswith(b"."):
            watch.begin(line.decode().rstrip("\n"))
        watch.compare()
        if watch.faults:
            break
    world.close()
    return watch.faults, watch.changes, watch.tags, watch.moves


def main():
    parser = argparse.ArgumentParser(description="follows texts by their reports")
    parser.add_argument("--module", default=os.path.join(TOP, "out", "python"))
    parser.add_argument("--seeds", type=int, default=300)
    parser.add_argument("--first", type=int, default=0)
    options = parser.parse_args()
    if not os.path.isdir(os.path.join(options.module, "tktext")):
        print(f"skipped: the mirror, since there is no {options.module} (`make python` makes it)\n0 passed, 0 failed")
        return 0
    sys.path[:0] = [options.module, os.path.join(TOP, "examples")]
    import mirror
    import tktext

    tally, changes, tags, moves = Tally(), 0, 0, 0
    for seed in range(options.first, options.first + options.seeds):
        faults, told, tagged, moved = run(scripts.script(seed), tktext, mirror.Mirror)
        tally.check(not faults, f"seed {seed}: {' '.join(faults[:1])}")
        changes, tags, moves = changes + told, tags + tagged, moves + moved
    tally.check(changes > options.seeds, f"only {changes} changes were reported")
    tally.check(tags > options.seeds, f"only {tags} changes of tags were reported")
    tally.check(moves > options.seeds // 4, f"only {moves} marks were reported")
    return tally.close()


if __name__ == "__main__":
    sys.exit(main())
