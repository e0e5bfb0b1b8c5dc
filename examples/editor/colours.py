"""Python in colours: tags of the core, set on the lines that a pane shows."""

import keyword
import re

STYLES = {"keyword": "1;34", "defined": "1", "string": "32", "comment": "36", "number": "35"}  # a terminal's, by tags
# A string that began further above than so many lines isn't seen, and longer lines stay as they are.
LINES_ABOVE, MOST_CHARACTERS = 100, 200_000
_STRING = r"""'''(?:[^'\\]+|\\(?:.|\Z)|'(?!''))*(?:'''|\Z) | '(?:[^'\\\n]|\\.)*'?
            | \"\"\"(?:[^"\\]+|\\(?:.|\Z)|"(?!""))*(?:\"\"\"|\Z) | "(?:[^"\\\n]|\\.)*"?"""
_TOKEN = re.compile(
    rf"""(?P<string> {_STRING} ) | (?P<comment> \#[^\n]* ) | (?P<number> \b\d\w* )
       | (?:(?<=\bdef\ )|(?<=\bclass\ )) (?P<defined> \w+ )
       | (?P<keyword> \b(?:{'|'.join(keyword.kwlist)})\b ) | \w+""", re.VERBOSE | re.DOTALL,
)
_OUTSIDE = re.compile(r"^(?:def |class |@)", re.MULTILINE)  # where no string goes on, most likely


def colour(widget, above, first, behind):
    """Tags the text from one index to before another, as it is read from an index above."""
    source, shown = widget.get(above, behind), len(widget.get(above, first))
    if len(source) > MOST_CHARACTERS:
        return
    outside = _OUTSIDE.search(source, 0, shown) if above != "1.0" else None
    for tag in STYLES:
        widget.tag_remove(tag, first, behind)
    for found in _TOKEN.finditer(source, outside.start() if outside else 0):
        if found.lastgroup and found.end() > shown:
            ends = max(found.start() - shown, 0), found.end() - shown
            widget.tag_add(found.lastgroup, *(f"{first} + {end} chars" for end in ends))
