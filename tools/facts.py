#!/usr/bin/env python3
"""Compares what stands in several places, and names what differs.

    python3 tools/facts.py

The commands stand in `command_table/specs/Table.antt`; `docs/model.md` and the tools' model say the same of each, and
the random scripts begin a form with each.  The limits stand in `text_model/specs/LimitTable.antt`.  The crates stand in
`crates.txt`; the pages on architecture and on what is proved speak of each, and the page of each (`crates/NAME/README.md`)
of its files of definitions.  The wrong bodies of `must-fail/` are those that have a name; `wrong/` has the others.  The
figures of docs/theorems.md on speed are those of docs/bench.txt.  A line of code, of a definition or of a page has at
most 120 characters, and no name is brought in for a contract, a definition or a proof that isn't used there, nor passed
on for proofs of which none does.
Ends in a line `N passed, M failed`; the exit status is 1 if anything failed.
"""

import ast
import glob
import os
import re
import sys
from typing import NamedTuple

import build
import model
import scripts
import version
from harness import Tally
from table import LITERAL, Command, defined_commands, definitions, text_of

TOP = os.path.dirname(os.path.dirname(os.path.abspath(__file__)))
MOST_CHARACTERS = 120
MOST_PAGE_LINES = 40
MOST_README_LINES = 130
# A line of a proof that `rt fmt` joins again may be longer.
MOST_IN_PROOFS = 160
# A longer line is the output of a program, as it is.
OUTPUTS = {os.path.join("docs", name) for name in ("tour.md", "performance.svg", "memory.svg")}
# Names that a line brings in from the language of proofs: in a file of code one that begins with `ghost`.
BROUGHT_IN = {".rt": re.compile(r"^\s*ghost use \S+\.\{(.*)\};$"), ".antt": re.compile(r"^\s*use \S+\.\{(.*)\}$")}
PASSED_ON = re.compile(r"^pub use \S+\.\{(.*)\}$", re.MULTILINE)
COMMENT = re.compile(r"^\s*(--|//).*$", re.MULTILINE)
NAME = re.compile(r"[^\W\d][^\s(){}\[\];,.:]*")
OPERATOR = re.compile(r"◌|^\W")
# The wrong bodies that have a name, by the crate in whose `must-fail/` each is, for `rt ci`.
NAMED = {
    "text_model": ["right_mark_stays"],
    "tcl_words": ["braces_unbalanced", "none_for_fault", "runs_before_end"],
    "line_tree": ["one_line_tree", "stale_parent_link", "sums_kept_once", "walks_lines"],
    "undo_stack": ["keeps_undone", "redo_closes_group"],
    "edit_ops": [
        "anchor_past_insert", "empty_last_line", "half_an_undo", "ranges_one_by_one", "takes_left_tags",
        "undo_restores_tags",
    ],
    "index_grammar": ["shortest_mark"],
    "text_index": ["end_from_last_line"],
    "search_dump": ["foreign_cut", "wrapped_overlap"],
    "documents": ["peer_edit_unrecorded", "peer_left_behind", "redo_closes_group", "tags_left_behind"],
    "peers": ["late_bad_list", "shared_tag_names"],
    "script_cli": ["read_fault_is_end", "repeats_script", "runs_half_command", "writes_nothing"],
}
# A row of docs/bench.txt, and the scripts of edits and of readings whose times a page gives.
TIMED = re.compile(r"^(\S.*?) +(\d+) +\d+ +(\d+\.\d+) +(\d+\.\d+)", re.MULTILINE)
EDITS = (
    "append a word at the end", "insert in the middle", "delete in the middle", "replace in the middle",
    "insert, undo and redo", "many groups, all undone",
)
READS = ("index by position", "index by line number", "get one character")
# The pages, the Python sources whose every text counts, and those of which messages alone do.
PLAIN_PAGES = (
    "README.md", "CHANGELOG.md", "docs/README.md", "docs/install.md", "docs/release.md", "docs/tktext.1.md",
    "docs/guide/*.md",
)
PLAIN_SOURCES = (
    "python/tktext/*.py", "examples/*.py", "examples/editor/*.py", "tools/build.py", "tools/build_library.py",
    "tools/build_python.py", "tools/check.py", "tools/copyrights.py", "tools/dist.py", "tools/examples.py",
    "tools/install.py", "tools/manpages.py", "tools/pages.py", "tools/python_backend.py", "tools/python_wheel.py",
    "tools/try.py", "tools/unproved.py", "tools/version.py",
)
PLAIN_MESSAGES = ("tools/*.py",)
PLAIN_STRINGS = ("python/tktext/*.c", "tcl/*.c", "include/*.c", "tools/run.sh")
# What a call of these prints.
PRINTING = ("print", "exit", "check", "failed", "error", "add_argument", "ArgumentParser", "run_checks")
CODE_SPAN = re.compile(r"`[^`]*`")
FENCED = re.compile(r"^ *```.*?^ *```$", re.MULTILINE | re.DOTALL)
DOCTEST = re.compile(r"^ *>>> .*(?:\n.*\S.*)*", re.MULTILINE)
LINK = re.compile(r"\]\(([^)\s]+)\)|^\[\w+\]: (\S+)$", re.MULTILINE)
# What stands for two or more words at the end of a command's form in docs/model.md.
COUNTS = {"any number": (0, None), **{f"{count} and more": (count, None) for count in range(1, 4)}}


# ---- the same elsewhere


def modelled_commands():
    """The same as the tools' model has it."""
    return {
        words: Command(
            subcommand.least, subcommand.greatest, subcommand.options and tuple(subcommand.options),
            subcommand.switches and (tuple(subcommand.switches.names), subcommand.switches.are_abbreviated),
        )
        for words, subcommand in model.SUBCOMMANDS.items()
    }


def counts_of(text):
    """The least and the greatest number of words that a cell of the page says."""
    if text in COUNTS:
        return COUNTS[text]
    numbers = [int(number) for number in text.split(" or ")]
    return numbers[0], numbers[-1]


def written_commands():
    """The least and the greatest number of words of each subcommand, as docs/model.md has them."""
    section = text_of("docs", "model.md").partition("## What stands where in a command")[2].partition("\n## ")[0]
    written = {}
    for cells in re.findall(r"^\| (`.*?) \| .*\| (.*) \|$", section, re.M):
        for words in re.findall(r"`([^`]*)`", cells[0]):
            written[tuple(words.split())] = counts_of(cells[1])
    return written


def check_commands(tally):
    """The commands are the same everywhere."""
    defined, modelled, written = defined_commands(), modelled_commands(), written_commands()
    begun = {word for form in scripts.FORMS for word in spelled_words(form)}
    for words in sorted(defined.keys() | modelled.keys() | written.keys()):
        name, command = " ".join(words), defined.get(words)
        tally.check(command == modelled.get(words), f"{name}: {command} and in tools/model.py {modelled.get(words)}")
        counts = command and (command.least, command.greatest)
        tally.check(counts == written.get(words), f"{name}: {counts} and in docs/model.md {written.get(words)}")
        tally.check(words in begun, f"{name}: no form of tools/scripts.py begins with it")
    options = tuple(LITERAL.findall(definitions(text_of("crates", "command_table", "specs", "Table.antt"))["option_names"]))
    tally.check(options == tuple(model.OPTIONS), f"the options are {options} and in tools/model.py {tuple(model.OPTIONS)}")


def spelled_words(form):
    """The words of subcommands that a form of the generator may begin with."""
    fronts = [" ".join(form.words[1:])]
    for choices in form.places[:2]:
        fronts += [f"{front} {choice}" for front in fronts for choice in choices if choice]
    for front in fronts:
        words = tuple(front.split())
        yield words[:1]
        yield words[:2]


# ---- limits, crates, definitions, lines


def check_limits(tally):
    """The greatest numbers of the definition are those of the code, the model and the pages."""
    table = text_of("crates", "text_model", "specs", "LimitTable.antt")
    code = text_of("crates", "text_model", "src", "limits.rt")
    written = text_of("docs", "model.md")
    pages = {
        "docs/theorems.md": text_of("docs", "theorems.md"), "docs/tktext.1.md": text_of("docs", "tktext.1.md"),
        "docs/differences.md": text_of("docs", "differences.md"),
        "include/tktext.h": re.sub(r"\b(\d+)\b", lambda it: f"{int(it[1]):,}", text_of("include", "tktext.h")),
    }
    for name, constant, ours in (
        ("chars", "MOST_CHARS", model.PROGRAM_LIMITS.characters), ("tags", "MOST_TAGS", model.PROGRAM_LIMITS.tags),
        ("marks", "MOST_MARKS", model.PROGRAM_LIMITS.marks), ("widgets", "MOST_WIDGETS", model.PROGRAM_LIMITS.widgets),
    ):
        most = int(re.search(rf"^most_{name} = (\d+)$", table, re.M)[1])
        in_code = int(re.search(rf"{constant}: \w+ = ([\d_]+)", code)[1].replace("_", ""))
        tally.check(most == in_code, f"most_{name} is {most}, and {constant} {in_code}")
        tally.check(most == ours, f"most_{name} is {most}, and in tools/model.py {ours}")
        tally.check(f"| {most:,} | {most:,} |" in written, f"most_{name} is {most:,}, and docs/model.md doesn't say so")
        for page, said in pages.items():
            tally.check(re.search(rf"(?<![\d,]){most:,}(?![\d,])", said), f"most_{name} is {most:,}, and {page} doesn't say so")


def crate_names():
    """The crates of crates.txt."""
    return [line.partition(":")[0].split()[0] for line in text_of("crates.txt").splitlines() if re.match(r"\w", line)]


def check_crates(tally):
    """The page on architecture speaks of each crate, and the page of each crate of its files of definitions."""
    page = text_of("docs", "architecture.md")
    for name in crate_names():
        tally.check(f"`{name}`" in page, f"docs/architecture.md doesn't speak of {name}")
        tally.check(os.path.isdir(os.path.join(TOP, "crates", name)), f"there is no crate {name}")
    for path in glob.glob(os.path.join(TOP, "crates", "*", "specs", "*.antt")):
        crate, subject = path.split(os.sep)[-3], os.path.basename(path).removesuffix(".antt")
        if subject == "Lib" or subject.endswith("Laws") or crate.endswith("_tests"):
            continue
        listed = crate_page(crate).partition("## What is stated")[2].partition("\n## ")[0]
        tally.check(f"`{subject}`" in listed, f"crates/{crate}/README.md doesn't name {subject}")


def crate_page(crate):
    """The page of a crate, or nothing where it has none."""
    path = os.path.join(TOP, "crates", crate, "README.md")
    return text_of("crates", crate, "README.md") if os.path.isfile(path) else ""


def check_crate_pages(tally):
    """The program, the library and each crate below them has a page, and the files that a page names are there."""
    crates = build.read_crates(os.path.join(TOP, "crates.txt"))
    programs = ("tktext", "tktext_c")
    for crate in {below for program in programs for below in (program, *build.crates_below(crates, program))}:
        page = crate_page(crate)
        tally.check(page, f"crates/{crate} has no README.md")
        tally.check(page.count("\n") <= MOST_PAGE_LINES, f"crates/{crate}/README.md has more than {MOST_PAGE_LINES} lines")
        for path in re.findall(r"`((?:src|specs|proofs)/[\w/]+(?:\.rt|\.antt|/))`", page):
            tally.check(os.path.exists(os.path.join(TOP, "crates", crate, path)), f"there is no crates/{crate}/{path}")


def check_wrong_bodies(tally):
    """The edits of `must-fail/` are the wrong bodies that have a name; the others are in `wrong/` of a crate."""
    crates = build.read_crates(os.path.join(TOP, "crates.txt"))
    for folder in glob.glob(os.path.join(TOP, "crates", "*")):
        crate, place = os.path.basename(folder), os.path.relpath(folder, TOP)
        named = {f"{name}.edit" for name in NAMED.get(crate, [])}
        names = {os.path.basename(path) for path in glob.glob(os.path.join(folder, "must-fail", "*"))}
        strange, missing = ", ".join(sorted(names - named)), ", ".join(sorted(named - names))
        tally.check(not strange, f"{place}/must-fail has {strange}: move what has no name to {place}/wrong")
        tally.check(not missing, f"{place}/must-fail has no {missing}")
        others = [os.path.basename(path) for path in glob.glob(os.path.join(folder, "wrong", "*"))]
        tally.check(crate in crates or not others, f"{place} has wrong/, and isn't in crates.txt")
        for name in others:
            tally.check(name.endswith(".edit"), f"{place}/wrong/{name} isn't an edit")


def check_lines(tally):
    """No line is longer than it may be."""
    patterns = {
        "crates/*/src/**/*.rt": MOST_CHARACTERS, "crates/*/specs/**/*.antt": MOST_CHARACTERS,
        "crates/*/proofs/**/*.antt": MOST_IN_PROOFS, "docs/*.*": MOST_CHARACTERS, "README.md": MOST_CHARACTERS,
        "docs/guide/*.md": MOST_CHARACTERS, "CHANGELOG.md": MOST_CHARACTERS,
        "tools/README.md": MOST_CHARACTERS, "crates/*/README.md": MOST_CHARACTERS,
    }
    for pattern, most in patterns.items():
        for path in glob.glob(os.path.join(TOP, pattern), recursive=True):
            name = os.path.relpath(path, TOP)
            with open(path, encoding="utf-8") as file:
                longest = max((len(line.rstrip("\n")) for line in file), default=0)
            is_short = longest <= most or name in OUTPUTS
            tally.check(is_short, f"{name} has a line of {longest} characters")


def is_named(name, text):
    """Whether a text has a name, or the parts of an operator, as `◌+◌`."""
    if OPERATOR.search(name):
        return all(part in text for part in name.split("◌"))
    return re.search(rf"(?<![\w'-]){re.escape(name)}(?![\w'-])", text) is not None


def unused_names(text, pattern):
    """The names that lines of a file bring in, and that no other line has."""
    lines = COMMENT.sub("", text).split("\n")
    rest = "\n".join(line for line in lines if not pattern.match(line))
    names = set(NAME.findall(rest))
    found = [match[1] for line in lines if (match := pattern.match(line))]
    brought = [name.split(" as ")[-1] for some in found for name in some.split(", ")]
    return [name for name in brought if name not in names and not is_named(name, rest)]


def check_names(tally):
    """Each name that a file brings in is used there."""
    for ending, pattern in BROUGHT_IN.items():
        for path in glob.glob(os.path.join(TOP, "crates", "*", "*", "**", f"*{ending}"), recursive=True):
            name = os.path.relpath(path, TOP)
            if os.sep + "out" + os.sep not in name:
                unused = unused_names(text_of(name), pattern)
                tally.check(not unused, f"{name} brings in {', '.join(unused)}, and doesn't use it")


def check_passed_on(tally):
    """Each name that the proofs of a crate pass on for one another is brought in from there."""
    for path in glob.glob(os.path.join(TOP, "crates", "*", "proofs", "Common.antt")):
        folder = os.path.dirname(path)
        crate = os.path.basename(os.path.dirname(folder))
        brought = re.compile(rf"^use Rattle\.{crate}\.proofs\.Common\.\{{(.*)\}}$", re.MULTILINE)
        files = map(text_of, glob.glob(os.path.join(folder, "**", "*.antt"), recursive=True))
        used = {name for text in files for names in brought.findall(text) for name in names.split(", ")}
        passed = [name for names in PASSED_ON.findall(text_of(path)) for name in names.split(", ")]
        idle = [name for name in passed if name not in used]
        tally.check(not idle, f"crates/{crate}/proofs/Common.antt passes on {', '.join(idle)}, which no file brings in")


# ---- figures of a page that were measured


class Timed(NamedTuple):
    """A row of docs/bench.txt: a script, its size, and how long it took, whole and a command."""

    script: str
    size: int
    seconds: float
    microseconds: float


def timed_rows(text):
    return [Timed(found[1], int(found[2]), float(found[3]), float(found[4])) for found in TIMED.finditer(text)]


def span_of(rows, scripts):
    """The least and the greatest microseconds that a command of these scripts takes."""
    times = [row.microseconds for row in rows if row.script in scripts]
    return f"{min(times):.1f} to {max(times):.1f}"


def seconds_of(rows, script, size):
    return next(row.seconds for row in rows if (row.script, row.size) == (script, size))


def measured_figures(text):
    """What docs/theorems.md says of speed, by what docs/bench.txt has."""
    rows = timed_rows(text)
    appended = re.search(r"^20000 commands `.t insert end x`: ([\d.]+) s", text, re.MULTILINE)[1]
    sizes = re.findall(r"in short commands: greatest resident size (\d+) kB", text)
    resident = {f"{int(size) / 1000:.1f}" for size in sizes}
    return [
        f"An edit takes {span_of(rows, EDITS)} microseconds a command",
        f"an index and a character that is read {span_of(rows, READS)}, at each",
        f"20,000 commands `.t insert end x` take {appended} seconds",
        f"a refused command {span_of(rows, ['a refused command'])} microseconds",
        f"for a rare word take {seconds_of(rows, '10 searches of a rare word', 50000):.2f} seconds",
        f"with a match on each of them {seconds_of(rows, '-all of a common word', 50000):.2f};",
        f"a dump of 10,000 lines takes {seconds_of(rows, 'dump all of many lines', 10000):.3f}.",
        f"again, {span_of(rows, ['4,000 marks: insert before'])} microseconds with 4,000.",
        f"those up to 16 MB ({' to '.join(sorted(resident))} MB, whatever the length)",
    ]


def check_figures(tally):
    page = " ".join(text_of("docs", "theorems.md").split())
    for figure in measured_figures(text_of("docs", "bench.txt")):
        tally.check(figure in page, f"docs/theorems.md doesn't say, as docs/bench.txt does: {figure}")


# ---- the words of pages and messages


class Refused(NamedTuple):
    """A pattern that plain pages don't use, what they use instead, and where it is allowed."""

    pattern: re.Pattern
    instead: str
    allowed: list


def pattern_of(cell):
    """The pattern of a cell, in which a table needs a backslash before each bar."""
    return re.compile(cell.replace(r"\|", "|"), re.I)


def refused_words():
    """The table of docs/glossary.md."""
    table = text_of("docs", "glossary.md").partition("## Words that pages and messages don't use")[2]
    rows = re.findall(r"^\| `(.*?)` \| (.*?) \| ?(?:`(.*?)` )?\|$", table, re.M)
    return [Refused(pattern_of(row[0]), row[1], [pattern_of(row[2])] if row[2] else []) for row in rows]


def plain_text(text):
    """The prose of a page or a docstring, with blanks in place of code, examples and the addresses of links."""
    for pattern in (FENCED, DOCTEST, CODE_SPAN, LINK):
        text = pattern.sub(lambda found: re.sub(r"[^\n]", " ", found[0]), text)
    return text


def refused_in(text, refused):
    """Each refused word of a text, with its line."""
    for word in refused:
        allowed = [found.span() for pattern in word.allowed for found in pattern.finditer(text)]
        for found in word.pattern.finditer(text):
            if not any(start <= found.start() < end for start, end in allowed):
                yield text.count("\n", 0, found.start()) + 1, found[0], word.instead


def is_printing(node):
    """Whether a node prints or raises what it is given."""
    if isinstance(node, ast.Raise):
        return True
    name = node.func if isinstance(node, ast.Call) else None
    return getattr(name, "id", getattr(name, "attr", None)) in PRINTING


def constants_of(node):
    """The texts below a node, with their lines, but for those that are values of a dictionary or a subscript."""
    return [it for it in ast.walk(node) if isinstance(it, ast.Constant) and isinstance(it.value, str)]


def texts_of(path, is_whole):
    """The texts of a Python source: all, or those of its messages and its usage."""
    tree = ast.parse(text_of(path))
    nodes = [tree] if is_whole else [node for node in ast.walk(tree) if is_printing(node)]
    found = {(it.lineno, it.col_offset): it for node in nodes for it in constants_of(node)}
    return [(it.lineno, plain_text(it.value)) for it in found.values() if " " in it.value.strip()]


def paths_of(patterns):
    """The files of patterns below the top of the repository."""
    found = [path for pattern in patterns for path in glob.glob(os.path.join(TOP, pattern))]
    return sorted(os.path.relpath(path, TOP) for path in found)


def strings_of(path):
    """The texts in quotes of a file of C or of the shell, with their lines."""
    code = re.sub(r"/\*.*?\*/", lambda found: re.sub(r"[^\n]", " ", found[0]), text_of(path), flags=re.DOTALL)
    quoted = re.finditer(r'"((?:[^"\\\n]|\\.)*)"', code)
    return [(code.count("\n", 0, found.start()) + 1, found[1]) for found in quoted]


def check_words(tally):
    """Pages, docstrings and messages don't use the words that docs/glossary.md refuses."""
    refused = refused_words()
    tally.check(len(refused) > 20, f"docs/glossary.md refuses {len(refused)} words")
    for path in paths_of(PLAIN_PAGES):
        for line, word, instead in refused_in(plain_text(text_of(path)), refused):
            tally.failed(f"{path}:{line}: '{word}': write {instead}")
    whole = paths_of(PLAIN_SOURCES)
    for path in {*whole, *paths_of(PLAIN_MESSAGES)}:
        for start, text in texts_of(path, path in whole):
            for line, word, instead in refused_in(text, refused):
                tally.failed(f"{path}:{start + line - 1}: '{word}': write {instead}")
    help_lines = text_of("Makefile").partition("\n\n")[0]
    for line, word, instead in refused_in(help_lines, refused):
        tally.failed(f"Makefile:{line}: '{word}': write {instead}")
    for path in paths_of(PLAIN_STRINGS):
        for start, text in strings_of(path):
            for _, word, instead in refused_in(text, refused):
                tally.failed(f"{path}:{start}: '{word}': write {instead}")


# ---- links, and what repeats


def slug(heading):
    """The anchor of a heading."""
    return re.sub(r"[^\w\- ]", "", heading.strip().lower()).replace(" ", "-")


def anchors_of(path):
    return {slug(heading) for heading in re.findall(r"^#+ (.*)$", FENCED.sub("", text_of(path)), re.M)}


def check_links(tally):
    """The links of the pages lead to files and headings that are there."""
    for path in paths_of(PLAIN_PAGES):
        for found in LINK.findall(FENCED.sub("", text_of(path))):
            address = found[0] or found[1]
            if address.startswith("https:"):
                continue
            name, _, anchor = address.partition("#")
            target = os.path.normpath(os.path.join(os.path.dirname(path), name)) if name else path
            tally.check(os.path.exists(os.path.join(TOP, target)), f"{path}: there is no {target}")
            if anchor and target.endswith(".md"):
                tally.check(anchor in anchors_of(target), f"{path}: {target} has no heading #{anchor}")


def check_version(tally):
    """The files that repeat the version have that of VERSION."""
    for name, old, new in version.repeated():
        tally.check(new and old == new, f"{name} hasn't the version of VERSION: `python3 tools/version.py --write` sets it")


def check_readme(tally):
    """README is short, and has the figures of docs/performance.md and docs/bench.txt."""
    page = text_of("README.md")
    tally.check(page.count("\n") <= MOST_README_LINES, f"README.md has more than {MOST_README_LINES} lines")
    page = " ".join(page.split())
    words = " ".join(text_of("docs", "performance.md").split())
    part = re.search(r"fewer instructions than Tk's own widget: ([\d.]+ to [\d.]+) of them", words)
    time = re.search(r"Of its time it is ([\d.]+ to [\d.]+)\.", words)
    parts = part and time and f"{part[1]}; {time[1]}"
    tally.check(parts and f"| {parts} |" in page, f"README.md hasn't the parts of Tk's instructions and time: {parts}")
    sizes = re.search(r"(\d+) bytes a line at most .* and (\d+) afterwards", text_of("docs", "bench.txt"))
    for size in sizes.groups():
        tally.check(re.search(rf"\b{size} bytes", page), f"README.md hasn't {size} bytes a line, as docs/bench.txt has")
    targets = set(re.findall(r"^# make ([\w-]+)", text_of("Makefile"), re.M)) - {"help"}
    listed = set(re.findall(r"`make ([\w-]+)", text_of("docs", "install.md")))
    tally.check(not targets - listed, f"docs/install.md doesn't list make {', '.join(sorted(targets - listed))}")


def main():
    tally = Tally()
    check_commands(tally)
    check_limits(tally)
    check_crates(tally)
    check_crate_pages(tally)
    check_wrong_bodies(tally)
    check_lines(tally)
    check_names(tally)
    check_passed_on(tally)
    check_figures(tally)
    check_words(tally)
    check_links(tally)
    check_version(tally)
    check_readme(tally)
    return tally.close()


if __name__ == "__main__":
    sys.exit(main())
