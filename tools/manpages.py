#!/usr/bin/env python3
"""Makes the manual pages tktext(1) and tktext(3) as roff: what `make man` calls.

    python3 tools/manpages.py FOLDER

The first is docs/tktext.1.md, the second the comments and calls of include/tktext.h; pandoc turns both into roff.
Without pandoc it writes nothing, and says so.
"""

import os
import re
import shutil
import subprocess
import sys

TOP = os.path.dirname(os.path.dirname(os.path.abspath(__file__)))
MISSING = "make man: no manual pages: they need pandoc (Debian: apt-get install pandoc)"
# A comment with the call behind it; a code with its words; a call; where the types begin and end; a comment with the
# names behind it that the preprocessor knows.
CALL = re.compile(r"/\* ((?:(?!\*/).)*?) \*/\n(\w[\w ]*[ *](tktext_\w+)\([^;]*\);)", re.DOTALL)
CODE = re.compile(r"^    (TKTEXT_\w+) = (\d+),?\s*/\* (.*) \*/$", re.MULTILINE)
DECLARED = re.compile(r"^\w[\w ]*[ *](tktext_\w+)\(", re.MULTILINE)
TYPES, ENUM = "/* Where a world is kept", "enum {"
NAMED = re.compile(r"/\* ([^*]*) \*/\n((?:#define TKTEXT_\w+ .*\n)+)")


def text_of(*names):
    with open(os.path.join(TOP, *names), encoding="utf-8") as file:
        return file.read()


def code(text):
    return f"```\n{text.rstrip()}\n```\n"


def paragraphs(comment):
    """The words of a comment, without the blanks by which it is set in."""
    return re.sub(r"\n   ", "\n", comment).strip()


def calls_page():
    """tktext(3), as the header has it."""
    header = text_of("include", "tktext.h")
    head = paragraphs(re.match(r"/\* (.*?) *\*/", header, re.DOTALL)[1]).replace("docs/tktext.1.md", "tktext(1)")
    title, _, words = head.partition("\n\n")
    calls = CALL.findall(header)
    missing = set(DECLARED.findall(header)) - {name for _, _, name in calls}
    if missing:
        sys.exit(f"make man: include/tktext.h doesn't document {' '.join(sorted(missing))}")
    prototypes = "".join(prototype + "\n" for _, prototype, _ in calls)
    parts = [
        "# tktext(3)\n",
        "## NAME\n", f"tktext - {title[0].lower()}{title[1:].rstrip('.')}\n",
        "## SYNOPSIS\n", code(f"#include <tktext.h>\n\n{prototypes}"),
        code("cc program.c $(pkg-config --cflags --libs tktext)"),
        "## DESCRIPTION\n", f"{words}\n",
        "## TYPES\n", code(header[header.index(TYPES) : header.index(ENUM)]),
        "## CODES\n", *(f"- `{name}`, {number}: {said}" for name, number, said in CODE.findall(header)),
        "", *(f"{said}\n\n{code(lines)}" for said, lines in NAMED.findall(header)),
        "## CALLS\n",
        *(f"{code(prototype)}\n{paragraphs(said)}\n" for said, prototype, _ in calls),
        "## SEE ALSO\n", "tktext(1)\n",
    ]
    return "\n".join(parts)


def write_page(markdown, path):
    """A manual page of roff, from one of markdown whose title is its name and section."""
    words = ["pandoc", "-f", "gfm", "-t", "man", "-s", "--shift-heading-level-by=-1", "-V", "header=Riavolth"]
    subprocess.run([*words, "-M", "hyphenate=false", "-o", path], input=markdown.encode("utf-8"), check=True)


def main(words):
    if len(words) != 1:
        print(__doc__)
        return 2
    if shutil.which("pandoc") is None:
        print(MISSING, file=sys.stderr)
        return 0
    os.makedirs(words[0], exist_ok=True)
    write_page(text_of("docs", "tktext.1.md"), os.path.join(words[0], "tktext.1"))
    write_page(calls_page(), os.path.join(words[0], "tktext.3"))
    return 0


if __name__ == "__main__":
    sys.exit(main(sys.argv[1:]))
