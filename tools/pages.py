#!/usr/bin/env python3
"""Runs the examples of README, docs/guide and docs/install.md, and compares their output.

    python3 tools/pages.py [--program PATH] [--out out] [--update] [PAGE ..]

OUT is the folder with libtktext.a, the Python package and the Tcl package: out, or out/try for the unproved build.
The blocks of a section (`##`) in one language are one program, run in a scratch folder:

- `python`, `tcl`: the output of each block is the `text` block that follows it, or empty
- `c`: each block is a complete program
- `sh`: a line after `$ ` is run, and the lines after it are its output; other lines are commands that another check
  runs (ELSEWHERE)
- no language: commands of a `tktext` script after `% `, each followed by its answer

`screen` blocks are checked by tools/manual.py.  `--update` writes the actual output into the pages.  Without a C compiler,
Python's headers or Tcl, the examples that need them are skipped.  Ends in a line `N passed, M failed`; the exit status is 1
if anything failed.
"""

import argparse
import glob
import importlib.util
import os
import re
import shutil
import subprocess
import sys
import tempfile
from typing import NamedTuple, Optional

import build_python
import examples
import manual
from harness import TIMEOUT_SECONDS, Tally

TOP = os.path.dirname(os.path.dirname(os.path.abspath(__file__)))
PAGES = ("README.md", "docs/install.md", "docs/guide/*.md")
OUTPUT, SCREEN = "text", "screen"
MARK = "-- end of block --"
# Commands that a page shows and another check runs.
ELSEWHERE = (
    (re.compile(r"make \S.*"), "the target is in the Makefile"),
    (re.compile(r"pip install \."), "tools/install_test.py"),
    (re.compile(r"python3 -m venv \S+"), "tools/install_test.py"),
    (re.compile(r"\. \S+/bin/activate"), "tools/install_test.py"),
    (re.compile(r"python3 examples/editor \S+"), "tools/editor_test.py"),
    (re.compile(r"python3 -m tktext"), "tools/python_tool.py"),
    (re.compile(r"cc program\.c .*-o program"), "tools/install_test.py"),
    (re.compile(r"tclsh8\.6 program\.tcl"), "tools/install_test.py"),
    (re.compile(r"man (3 )?tktext"), "tools/install_test.py"),
    (re.compile(r"rt version"), "tools/gate.py"),
)


class Block(NamedTuple):
    """A block of code of a page, and the block of its output, if there is one."""

    page: str
    section: str
    language: str
    line: int
    lines: list
    output: Optional[list]
    output_line: int


def read_blocks(page, text):
    """The blocks of a page in order, each with the line of the page that it starts at."""
    section, fenced, found = "", None, []
    for number, line in enumerate(text.split("\n")):
        if fenced is not None:
            if line == "```":
                found.append(Block(page, section, language, start, fenced, None, 0))
                fenced = None
            else:
                fenced.append(line)
        elif line.startswith("```"):
            language, start, fenced = line[3:].strip(), number + 1, []
        elif line.startswith("## "):
            section = line[3:]
    return with_outputs(found)


def with_outputs(blocks):
    """The blocks of code, each with its output."""
    joined = []
    for block in blocks:
        if block.language == OUTPUT and joined and joined[-1].section == block.section:
            joined[-1] = joined[-1]._replace(output=block.lines, output_line=block.line)
        else:
            joined.append(block)
    return joined


def first_block(page, language):
    """The first block of a page in a language."""
    with open(os.path.join(TOP, page), encoding="utf-8") as file:
        return next(block for block in read_blocks(page, file.read()) if block.language == language)


# ---- running


class Runner:
    """Runs programs against one build, in a scratch folder."""

    def __init__(self, program, out, folder):
        self.program, self.out, self.folder = os.path.abspath(program), os.path.join(TOP, out), folder
        tools = os.path.join(folder, "bin")
        os.makedirs(tools)
        os.symlink(self.program, os.path.join(tools, "tktext"))
        self.environment = {
            **os.environ, "PATH": f"{tools}:{os.environ['PATH']}", "PYTHONPATH": os.path.join(self.out, "python"),
            "TCLLIBPATH": self.out, "PYTHONIOENCODING": "utf-8", "LC_ALL": "C.UTF-8",
        }
        self.number = 0

    def scratch(self):
        """A new folder that has the examples."""
        self.number += 1
        folder = os.path.join(self.folder, f"run{self.number}")
        os.makedirs(folder)
        os.symlink(os.path.join(TOP, "examples"), os.path.join(folder, "examples"))
        return folder

    def run(self, words, folder, given=""):
        """What a command printed on both outputs."""
        how = {"stdout": subprocess.PIPE, "stderr": subprocess.STDOUT, "env": self.environment, "cwd": folder}
        try:
            done = subprocess.run(words, input=given.encode("utf-8"), timeout=TIMEOUT_SECONDS, **how)
        except subprocess.TimeoutExpired:
            return f"no end after {TIMEOUT_SECONDS} s\n"
        return done.stdout.decode("utf-8", "replace")

    def python(self, sources):
        text = "".join(f"{source}\nprint({MARK!r}, flush=True)\n" for source in sources)
        return self.split(self.run([sys.executable, "-"], self.scratch(), text), len(sources))

    def tcl(self, sources):
        text = "".join(f"{source}\nputs {{{MARK}}}\n" for source in sources)
        return self.split(self.run(["tclsh8.6"], self.scratch(), text), len(sources))

    @staticmethod
    def split(output, count):
        """The output of each block; what follows a failure belongs to the block that failed."""
        pieces = output.split(MARK + "\n")
        return [pieces[number] if number < len(pieces) else "(not reached)\n" for number in range(count)]

    def c(self, sources):
        return [self.compile(source) for source in sources]

    def compile(self, source):
        folder = self.scratch()
        path, program = os.path.join(folder, "program.c"), os.path.join(folder, "program")
        with open(path, "w", encoding="utf-8") as file:
            file.write(source)
        include = os.path.join(TOP, "include")
        words = ["cc", "-std=c99", "-Wall", "-Wextra", "-Werror", f"-I{include}", path, f"{self.out}/libtktext.a"]
        said = self.run([*words, "-pthread", "-o", program], folder)
        return said or self.run([program], folder)

    def shell(self, command, folder):
        return self.run(["sh", "-c", command], folder)


def can_run(language, source):
    """Whether the packages that an example needs are installed."""
    if language == "c":
        return shutil.which("cc") is not None
    if language == "tcl":
        return examples.has_tcl()
    needs_tkinter = language == "python" and "import tkinter" in source
    needs_package = language == "python" or "python3 -m tktext" in source
    has_tkinter = importlib.util.find_spec("_tkinter") is not None
    return (has_tkinter or not needs_tkinter) and (build_python.can_build() or not needs_package)


# ---- checking


def compare(block, given, tally, updates):
    """Compares the output of a block with the page, or keeps it to be written there."""
    shown = given.removesuffix("\n").split("\n") if given else None
    where = f"{block.page}:{block.line}"
    if updates is not None and block.output is not None:
        updates.append((block.output_line, len(block.output), shown or [""]))
        tally.passed()
        return
    tally.check(shown == block.output, f"{where}: the output is {shown} and not {block.output}")


def check_programs(runner, language, blocks, tally, updates):
    """The blocks of one language of a section."""
    if not can_run(language, "\n".join(sum((block.lines for block in blocks), []))):
        print(f"skipped: {blocks[0].page}:{blocks[0].line}: packages are missing for the examples in {language}")
        return
    run = {"python": runner.python, "tcl": runner.tcl, "c": runner.c}[language]
    for block, given in zip(blocks, run(["\n".join(block.lines) for block in blocks])):
        compare(block, given, tally, updates)


def make_targets():
    """The targets of the Makefile."""
    with open(os.path.join(TOP, "Makefile"), encoding="utf-8") as file:
        return set(re.findall(r"^([a-z][\w-]*):", file.read(), re.M))


def check_command(block, line, tally):
    """A command that another check runs: there is one, and a target of make is in the Makefile."""
    command = line.partition("  #")[0].strip()
    known = any(pattern.fullmatch(command) for pattern, _ in ELSEWHERE)
    tally.check(known, f"{block.page}:{block.line}: no check runs `{command}`")
    if command.startswith("make "):
        targets = [word for word in command.split()[1:] if "=" not in word]
        unknown = [target for target in targets if target not in make_targets()]
        tally.check(not unknown, f"{block.page}:{block.line}: the Makefile has no target {' '.join(unknown)}")


def shell_lines(runner, block, folder):
    """The lines of a block with the actual output of each command."""
    given = []
    for line in block.lines:
        if line.startswith("$ "):
            said = runner.shell(line[2:], folder).removesuffix("\n")
            given += [line, *(said.split("\n") if said else [])]
    return given


def check_shell(runner, block, folder, tally, updates):
    """A block for the shell."""
    if not any(line.startswith("$ ") for line in block.lines):
        for line in filter(None, block.lines):
            check_command(block, line, tally)
        return
    if not can_run(block.language, "\n".join(block.lines)):
        print(f"skipped: {block.page}:{block.line}: packages are missing for the examples")
        return
    check_lines(block, shell_lines(runner, block, folder), tally, updates)


def check_lines(block, given, tally, updates):
    """A block that has commands and their output by turns."""
    if updates is not None:
        updates.append((block.line, len(block.lines), given))
    is_same = given == block.lines
    tally.check(is_same or updates is not None, f"{block.page}:{block.line}: {given} and not {block.lines}")


def script_lines(runner, blocks):
    """The lines of the blocks of a section that have commands of a script, with the actual answers."""
    commands = [[line[2:] for line in block.lines if line.startswith("% ")] for block in blocks]
    answers = manual.ask_program(runner.program, sum(commands, []))
    shown = [manual.written(answer) for answer in answers]
    for block, own in zip(blocks, commands):
        given = []
        for command in own:
            answer = shown.pop(0) if shown else "(not reached)"
            given += [f"% {command}", *(answer.split("\n") if answer else [])]
        yield block, given


def check_page(runner, page, tally, is_updated):
    """Each block of a page."""
    path = os.path.join(TOP, page)
    with open(path, encoding="utf-8") as file:
        text = file.read()
    updates = [] if is_updated else None
    blocks = read_blocks(page, text)
    for section in dict.fromkeys(block.section for block in blocks):
        own = [block for block in blocks if block.section == section]
        check_section(runner, own, tally, updates)
    if updates:
        write_updates(path, text, updates)


def check_section(runner, blocks, tally, updates):
    for language in ("python", "tcl", "c"):
        some = [block for block in blocks if block.language == language]
        if some:
            check_programs(runner, language, some, tally, updates)
    folder = runner.scratch()
    for block in blocks:
        if block.language == "sh":
            check_shell(runner, block, folder, tally, updates)
    for block, given in script_lines(runner, [block for block in blocks if not block.language]):
        check_lines(block, given, tally, updates)
    for block in blocks:
        known = block.language in ("python", "tcl", "c", "sh", "", SCREEN)
        tally.check(known, f"{block.page}:{block.line}: no check runs a block of `{block.language}`")


def write_updates(path, text, updates):
    """Writes the actual output into a page."""
    lines = text.split("\n")
    for start, count, new in sorted(updates, reverse=True):
        lines[start : start + count] = new
    with open(path, "w", encoding="utf-8") as file:
        file.write("\n".join(lines))


def main():
    parser = argparse.ArgumentParser(description="runs the examples of the pages")
    parser.add_argument("--program", default=os.path.join(TOP, "crates", "tktext", "out", "tktext"))
    parser.add_argument("--out", default="out")
    parser.add_argument("--update", action="store_true")
    parser.add_argument("pages", nargs="*", metavar="PAGE")
    options = parser.parse_args()
    found = sorted(path for pattern in PAGES for path in glob.glob(os.path.join(TOP, pattern)))
    pages = options.pages or [os.path.relpath(path, TOP) for path in found]
    tally = Tally()
    with tempfile.TemporaryDirectory() as folder:
        runner = Runner(options.program, options.out, folder)
        for page in pages:
            check_page(runner, page, tally, options.update)
    return tally.close()


if __name__ == "__main__":
    sys.exit(main())
