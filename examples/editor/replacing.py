"""Replacing a pattern in one round through a text."""

BEGAN = "round"  # a mark: where the round began


class Round:
    """One round: from the cursor to the end, and from the start to where it began; nothing is met twice.

    It begins before a match that the cursor is within, and no match runs over its end, so it meets no text that it has
    inserted.  Its `spans` are what is left of it, each from an index to another one.
    """

    def __init__(self, widget, pattern, by):
        self.widget, self.pattern, self.by, self.count = widget, pattern, by, 0
        self.options = {"nocase": pattern.islower(), "strictlimits": True}
        around = widget.search_all(pattern, f"insert - {len(pattern) - 1} chars", "insert", nocase=pattern.islower())
        widget.mark_set(BEGAN, around[0] if around else "insert")
        widget.mark_gravity(BEGAN, "left")  # what is inserted there comes after it
        self.spans = [(BEGAN, "end"), ("1.0", BEGAN)]

    def next(self):
        """The next match, or "" at the end of the round."""
        while self.spans:
            if place := self.widget.search(self.pattern, *self.spans[0], **self.options):
                return place
            del self.spans[0]
        return ""

    def end_of(self, place):
        return f"{place} + {len(self.pattern)} chars"

    def go_on(self, place):
        """Continues from an index, in the span of the last match."""
        self.spans[0] = place, self.spans[0][1]

    def replace_rest(self):
        """Replaces all matches that are left; yields the fraction done."""
        # Those of the first span come first, and each span's from the last one on, so that the others stay in place.
        spans = [self.widget.search_all(self.pattern, *span, **self.options) for span in self.spans]
        places = [place for span in spans for place in reversed(span)]
        for done, place in enumerate(places, 1):
            self.widget.replace(place, self.end_of(place), self.by)
            self.count += 1
            yield done / len(places)

    def close(self):
        self.widget.mark_unset(BEGAN)
