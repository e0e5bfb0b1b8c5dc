#!/usr/bin/env python3
"""Copies of a text that follow it by its reports alone: a string, a text of another world with its tags and marks, and
the insertion cursors of its peers.

    python3 examples/mirror.py        where the package is installed by `pip install .`
"""

from tktext import Change, MarkChange, Position, TagChange, Text


class Mirror:
    """A string and a text that become what another text is, and what follows it later: its first view is read once."""

    def __init__(self, text: Text) -> None:
        self.name = str(text)
        self.string = text.get("1.0", "end")
        self.copy = Text()
        self.copy.insert("1.0", self.string[:-1])
        for tag in text.tag_names():
            for start, end in ranges_of(text, tag):
                self.copy.tag_add(tag, start, end)
        for _, mark, place in text.dump("1.0", "end", mark=True):
            self.copy.mark_set(mark, place)
            self.copy.mark_gravity(mark, text.mark_gravity(mark))
        # The `insert` and `current` of each peer, by its name, from the first report of them on.
        self.peers: "dict[tuple[str, str], Position]" = {}
        self.stops = [
            text.on_change(self.follow), text.on_tags(self.follow_tags), text.on_marks(self.follow_marks),
        ]

    def stop(self) -> None:
        for stop in self.stops:
            stop()

    def follow(self, changes: "list[Change]") -> None:
        for change in changes:
            self.string = change.made_in(self.string)
            self.make_in_copy(change)
        self.peers = {key: place.moved_by(changes) for key, place in self.peers.items()}

    def make_in_copy(self, change: Change) -> None:
        # A spot is an index once it is a string: its line, and its column there.
        if change.removed:
            self.copy.delete(str(change.start), str(change.old_end))
        if change.inserted:
            # With an empty list, since what is put in has no tags until these are told.
            self.copy.insert(str(change.start), change.inserted, "")

    def follow_tags(self, changes: "list[TagChange]") -> None:
        for change in changes:
            put = self.copy.tag_add if change.on else self.copy.tag_remove
            put(change.tag, f"1.0 + {change.at} chars", f"1.0 + {change.end} chars")
            if not change.on and not self.copy.tag_ranges(change.tag):
                # So a copy has no more tags than its text, where there may be only so many.
                self.copy.tag_delete(change.tag)

    def follow_marks(self, changes: "list[MarkChange]") -> None:
        # The copy's changes move its marks as the text's do, so only what they don't do is reported.
        for change in changes:
            if change.widget not in ("", self.name):
                self.follow_peer(change)
            elif change.new is None:
                self.copy.mark_unset(change.mark)
            else:
                self.copy.mark_set(change.mark, f"1.0 + {change.new.offset} chars")
                self.copy.mark_gravity(change.mark, change.new.gravity)

    def follow_peer(self, change: MarkChange) -> None:
        # A peer's marks are new with it, and gone once it is destroyed.
        if change.new is None:
            self.peers.pop((change.widget, change.mark), None)
        else:
            self.peers[change.widget, change.mark] = change.new


def ranges_of(text: Text, tag: str) -> "list[tuple[str, str]]":
    """Where the ranges of a tag begin and end."""
    places = [str(place) for place in text.tag_ranges(tag)]
    return list(zip(places[::2], places[1::2]))


if __name__ == "__main__":
    text = Text(undo=True)
    mirror = Mirror(text)
    text.insert("1.0", "one\ntwo\nthree")
    peer = text.peer_create(".peer", startline=2)
    peer.replace("1.0", "1.end", "2")
    text.edit_undo()
    peer.delete("2.0", "2.2")
    peer.tag_add("bold", "1.0", "end")
    peer.mark_set("here", "1.2")
    text.insert("2.1", "-")
    print(repr(mirror.string), mirror.copy.get("1.0", "end") == text.get("1.0", "end"))
    print(ranges_of(text, "bold"), ranges_of(mirror.copy, "bold"))
    print(text.index("here"), mirror.copy.index("here"))
    peer.mark_set("insert", "end")
    print(mirror.peers[".peer", "insert"])
    peer.destroy()
    print(mirror.peers)
