"""A pane: which part of the text it shows, as rows of a terminal."""

import bisect
import functools
import itertools
import unicodedata

import colours
from files import BYTES

TAB = 8
# Of the tags of a character the first counts.
STYLES = {"sel": "7", "found": "30;43", **colours.STYLES, "active": "7", "other": "2;7"}


@functools.lru_cache(maxsize=4096)
def cell(character, at=0):
    """How a character is shown at a column after a tab stop, and its number of columns."""
    number, category = ord(character), unicodedata.category(character)
    if character == "\t":
        return " " * (TAB - at), TAB - at
    if number < 32 or number == 127:
        return "^" + chr(number ^ 64), 2
    if BYTES <= number < BYTES + 256:
        return f"\\x{number - BYTES:02x}", 4
    if category in ("Cc", "Cf", "Zl", "Zp", "Cn") and character not in "\u200c\u200d":
        # What would be unseen, or turn a line round, is shown by its number.
        return f"\\u{number:04x}", len(f"\\u{number:04x}")
    if number < 127:
        return character, 1
    try:
        from wcwidth import wcwidth  # here, since it takes memory, and plain texts don't want it
    except ImportError:
        return character, 0 if category in ("Mn", "Me", "Cf") else 1 + (unicodedata.east_asian_width(character) in "WF")
    return character, wcwidth(character)


def columns_of(line, begin=0):
    """The columns at which the characters of a line begin, and where it ends."""
    if line.isascii() and line.isprintable():
        return range(begin, begin + len(line) + 1)
    return list(itertools.accumulate(line, lambda at, character: at + cell(character, at % TAB)[1], initial=begin))


def row_of(parts, left, width):
    """What a row shows, from a column on, of a line in parts, each with a style."""
    row, column = [], 0
    for part, style in parts:
        columns = columns_of(part, column)
        first, behind = bisect.bisect_left(columns, left), bisect.bisect_right(columns, left + width) - 1
        blank = columns[first] - left if 0 < first < len(columns) else 0  # what begins before the row
        cells = "".join(cell(part[at], columns[at] % TAB)[0] for at in range(first, behind))
        row.append(f"\x1b[0;{STYLES.get(style, '')}m{' ' * blank}{cells}")
        column = columns[-1]
    return "".join(row)


def parts_of(text, width):
    """A text in parts that fit into a row each, split after spaces where that is possible."""
    columns, parts, start = columns_of(text), [], 0
    while columns[-1] - columns[start] > width:
        fits = max(start + 1, bisect.bisect_right(columns, columns[start] + width) - 1)
        end = text.rfind(" ", start, fits) + 1 or fits
        parts.append(text[start:end])
        start = end
    return [*parts, text[start:]]


class Pane:
    """A peer of the text in a part of the screen.  Its first line is a mark, which moves with what others edit."""

    def __init__(self, widget, is_python):
        self.widget, self.is_python, self.top, self.anchor = widget, is_python, f"top{widget}", f"anchor{widget}"
        self.height, self.width, self.left, self.seen, self.behind = 1, 80, 0, None, 0
        self.goal = None, 0  # where the last step up or down ended, and to which column it went
        widget.on_change(self.follow)
        widget.mark_set(self.top, "1.0")
        widget.mark_gravity(self.top, "left")

    def show_as(self, is_python):
        """Shows the text in colours or without, as it has another name now."""
        self.is_python, self.seen = is_python, None
        for tag in colours.STYLES:
            self.widget.tag_remove(tag, "1.0", "end")

    def place(self, index="insert"):
        """The line and the character of an index."""
        return tuple(map(int, self.widget.index(index).split(".")))

    def column(self):
        return columns_of(self.widget.get("insert linestart", "insert"))[-1]

    def step(self, lines, pages):
        """The index some lines and pages down, or up, at the column of the last move of another kind."""
        place, last = self.place(), self.place("end - 1c")[0]
        goal = self.goal[1] if self.goal[0] == place else self.column()
        line = min(max(place[0] + lines + pages * max(1, self.height - 1), 1), last)
        columns = columns_of(self.widget.get(f"{line}.0", f"{line}.end"))
        character = bisect.bisect_right(columns, goal) - 1
        self.goal = (line, character), goal
        return f"{line}.{character}"

    def follow(self, changes):
        """Forgets what was seen, unless all changes are after it."""
        if any(change.at <= self.behind for change in changes):
            self.seen = None

    def tagged(self, first, pattern):
        """What the core has in the lines that are shown; where others are, or something changed, tags are set first."""
        shown, above = (f"{first}.0", f"{first + self.height}.0"), f"{max(1, first - colours.LINES_ABOVE)}.0"
        if self.seen != (first, self.height, pattern):
            if self.is_python:
                colours.colour(self.widget, above, *shown)
            self.widget.tag_remove("found", *shown)
            for place in self.widget.search_all(pattern, *shown, nocase=pattern.islower()) if pattern else ():
                self.widget.tag_add("found", place, f"{place} + {len(pattern)} chars")
            self.seen, self.behind = (first, self.height, pattern), self.widget.count("1.0", shown[1], "chars")[0]
        return self.widget.dump(*shown, text=True, tag=True)

    def rows(self, pattern):
        """The rows of the pane, with all matches of a pattern in a style, and the position of the cursor in them."""
        line, top, column = self.place()[0], self.place(self.top)[0], self.column()
        first = max(min(top, line), line - self.height + 1)
        self.widget.mark_set(self.top, f"{first}.0")
        if not self.left <= column < self.left + self.width:
            self.left = max(0, column - self.width // 2)
        # The dump tells only where a tag begins and ends: some go on from the line above.
        dump, tags, lines = self.tagged(first, pattern), set(self.widget.tag_names(f"{first}.0")), [[]]
        for kind, value, _ in dump:
            if kind == "text":
                style = next((style for style in STYLES if style in tags), None)
                lines[-1].append((value.replace("\n", " "), style))
                lines += [[]] * value.endswith("\n")
            else:
                (tags.add if kind == "tagon" else tags.discard)(value)
        rows = [row_of(parts, self.left, self.width) for parts in lines[:-1]]
        return rows + [""] * (self.height - len(rows)), (line - first, column - self.left)
