#!/usr/bin/env python3
"""Runs each example of the manual page, docs/tktext.1.md, of README and of docs/tour.md, and compares what they say.

    python3 tools/manual.py --program PATH

In a block of code a line that begins with `% ` is a command, and the lines behind it are its answer.  The blocks of a
section are one run, until a script fault ends it.  In a block of `sh` a line that begins with `$ ` is a line for the
shell, in which `tktext` is the program.  Each subcommand, option and switch has to stand in an example, and each text
of an error too.  README's table has to be examples/first.tcl with its answers, the screen there and in
docs/guide/editor.md one of those that `editor_test.py` captures, and docs/tour.md examples/tour.tcl with its output.

Ends in a line `N passed, M failed`; the exit status is 1 if anything failed.
"""

import argparse
import os
import re
import subprocess
import sys
import tempfile
from typing import NamedTuple

import model
from harness import TIMEOUT_SECONDS, Tally, ask_program, run_program

TOP = os.path.dirname(os.path.dirname(os.path.abspath(__file__)))
FENCE = "```"
CODE = re.compile("`([^`]*)`")
# The faults of commands and of scripts, without the word in them; and those that no example can bring about.
FAULTS = (
    "invalid command name", "bad option", "wrong # args", "bad text index",
    "text doesn't contain any characters tagged with", "there is no mark named", "bad mark gravity",
    "isn't defined in text widget", "bad comparison operator", "bad list", "expected boolean value but got",
    "expected integer but got", "\" before \"", "-startline must be less than or equal to -endline",
    "nothing to undo", "nothing to redo", "already exists", "too many widgets", "too many tags", "too many marks",
    "text is too long",
    "missing close-brace", 'missing "', "extra characters after close-brace", "extra characters after close-quote",
    "substitution isn't supported", "bad character code", "script isn't UTF-8", "read failed", "write failed",
)
NOT_SHOWN = ("out of memory", "too many reads")
SCREEN_PAGES = ("README.md", os.path.join("docs", "guide", "editor.md"))


class Example(NamedTuple):
    """A command, or a line for the shell, and the answer that the page shows."""

    section: str
    command: str
    answer: str


def blocks_of(page):
    """Each block of code of the page: its section, whether it is for the shell, and its lines."""
    section, lines = "", None
    for line in page.split("\n"):
        if lines is not None and line == FENCE:
            yield section, is_shell, lines
            lines = None
        elif lines is not None:
            lines.append(line)
        elif line.startswith(FENCE):
            is_shell, lines = line == FENCE + "sh", []
        elif line.startswith(("## ", "### ")):
            section = line.lstrip("# ")


def examples_of(section, lines, prompt):
    """The examples of a block, whose commands begin with a prompt."""
    examples = []
    for line in lines:
        if line.startswith(prompt):
            examples.append(Example(section, line[len(prompt) :], None))
        else:
            last = examples[-1]
            examples[-1] = last._replace(answer=line if last.answer is None else f"{last.answer}\n{line}")
    return [example._replace(answer=example.answer or "") for example in examples]


def read_page(page):
    """The examples of the page by sections, and those for the shell."""
    sections, shell = {}, []
    for section, is_shell, lines in blocks_of(page):
        if is_shell:
            shell += examples_of(section, lines, "$ ")
        else:
            sections.setdefault(section, []).extend(examples_of(section, lines, "% "))
    return sections, shell


def is_last(example):
    """Whether a run ends here, by a fault of the script."""
    try:
        return model.reads_script(example.command.encode("utf-8"))[1] is not None
    except model.ScriptFault:
        return True


def runs_of(examples):
    """The examples of a section, cut behind each script fault."""
    runs = [[]]
    for example in examples:
        runs[-1].append(example)
        if is_last(example):
            runs.append([])
    return [run for run in runs if run]


def check_example(example, given, tally):
    told = f"{example.section}: {example.command}: {given!r} and not {example.answer!r}"
    tally.check(given == example.answer, told)


def written(answer):
    """An answer as the page shows it."""
    return f"error: {answer.text}" if answer.is_refused else answer.text


def check_run(program, examples, tally):
    """One run: each answer is that of the page."""
    answers = [written(answer) for answer in ask_program(program, [example.command for example in examples])]
    for number, example in enumerate(examples):
        check_example(example, answers[number] if number < len(answers) else "no answer", tally)


def run_shell(command, environment):
    """What a line for the shell writes, without the last newline."""
    how = {"stdin": subprocess.DEVNULL, "stdout": subprocess.PIPE, "stderr": subprocess.STDOUT, "env": environment}
    try:
        done = subprocess.run(["sh", "-c", command], timeout=TIMEOUT_SECONDS, **how)
    except subprocess.TimeoutExpired:
        return f"no end after {TIMEOUT_SECONDS} s"
    return done.stdout.decode("utf-8", "replace").removesuffix("\n")


def check_shell(program, examples, tally):
    """The lines for the shell, with the program on its path as `tktext`."""
    with tempfile.TemporaryDirectory() as folder:
        os.symlink(os.path.abspath(program), os.path.join(folder, "tktext"))
        environment = {**os.environ, "PATH": f"{folder}:{os.environ['PATH']}"}
        for example in examples:
            check_example(example, run_shell(example.command, environment), tally)


def wanted_words():
    """What has to stand in the commands of the examples: each form's words."""
    wanted = [" ".join(names) for names in model.SUBCOMMANDS] + list(model.OPTIONS) + list(model.COMPARISONS)
    for switches in (model.SEARCH_SWITCHES, model.COUNT_SWITCHES, model.DUMP_SWITCHES):
        wanted += switches.names
    return wanted + ["text", "destroy"]


def stands_in(words, commands):
    """Whether the words stand in a command, as words."""
    form = re.compile(rf"(?<!\S){re.escape(words)}(?!\S)")
    return any(form.search(command) for command in commands)


def check_whole(page, examples, tally):
    """No form and no error is missing."""
    commands = [example.command for example in examples]
    for words in wanted_words():
        tally.check(stands_in(words, commands), f"no example has {words!r}")
    answers = "\n".join(example.answer for example in examples)
    for text in FAULTS:
        tally.check(text in answers, f"no example returns {text!r}")
    for text in NOT_SHOWN:
        tally.check(text in page, f"the page doesn't name {text!r}")


def text_of(*names):
    with open(os.path.join(TOP, *names), encoding="utf-8") as file:
        return file.read()


def table_of(page):
    """The rows of the first table of a page, each its code, without the head."""
    rows = re.search(r"(?:^\|.*\n)+", page, re.M)[0].split("\n")[2:-1]
    return [[(CODE.findall(cell) or [""])[0] for cell in row.strip("|").split("|")] for row in rows]


def check_first(program, tally):
    """README's table is examples/first.tcl with its answers."""
    rows = table_of(text_of("README.md"))
    commands = [line for line in text_of("examples", "first.tcl").split("\n") if line and not line.startswith("#")]
    tally.check([row[0] for row in rows] == commands, "README's table hasn't the commands of examples/first.tcl")
    for (command, shown), answer in zip(rows, ask_program(program, commands)):
        tally.check(shown == written(answer), f"README: {command}: {written(answer)!r} and not {shown!r}")


def check_tour(program, tally):
    """docs/tour.md has a script and its output."""
    script, output = ("\n".join(lines) + "\n" for _, _, lines in blocks_of(text_of("docs", "tour.md")))
    tally.check(script == text_of("examples", "tour.tcl"), "docs/tour.md hasn't the script of examples/tour.tcl")
    given = run_program(program, script.encode("utf-8")).output.decode("utf-8")
    tally.check(given == output, f"docs/tour.md: the output is {given!r}")


def check_screen(tally):
    """The screen of each page is one that the editor showed in a terminal."""
    captured = text_of("tools", "editor.screens")
    for page in SCREEN_PAGES:
        screens = [lines for _, _, lines in blocks_of(text_of(page)) if any("list.py" in line for line in lines)]
        for lines in screens:
            is_captured = "".join(f"|{line}\n" for line in lines) in captured
            tally.check(is_captured, f"the screen of {page} isn't in tools/editor.screens")
        tally.check(len(screens) == 1, f"{page} has {len(screens)} screens")


def main():
    parser = argparse.ArgumentParser(description="runs the examples of the manual page")
    parser.add_argument("--program", required=True)
    options = parser.parse_args()
    tally = Tally()
    sections, shell = read_page(text_of("docs", "tktext.1.md"))
    for examples in sections.values():
        for run in runs_of(examples):
            check_run(options.program, run, tally)
    check_shell(options.program, shell, tally)
    check_whole(text_of("docs", "tktext.1.md"), sum(sections.values(), shell), tally)
    check_first(options.program, tally)
    check_tour(options.program, tally)
    check_screen(tally)
    return tally.close()


if __name__ == "__main__":
    sys.exit(main())
