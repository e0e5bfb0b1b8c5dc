#!/usr/bin/env python3
"""Tries the library by real clients: C, Python and Tcl.

    python3 tools/library.py [--seeds 1000] [--build]

out/libtktext.a and out/libtktext.so are what `make lib` makes; with `--build` they are made first, from the crates that a gate
has just proved (tools/build_library.py).  Without a C compiler one line says so, and nothing is tried.

- C (tools/library.c): worked and random scripts, fed in pieces and word by word, answer as the model does; calls that a
  caller may get wrong, and the calls that are written in C, with growths refused to these; valgrind finds no leak and no
  wrong access in 10,000 commands and a drop.
- Python (python/tktext): the worked rows, each under its limits; the methods of `Text` on worked and random scripts;
  the cases of tools/python_cases.py, threads among them; `python3 -m tktext`; tkinter's answers
  beside ours, and tests that others wrote for its Text.
- Tcl (tcl/): a script with procedures, loops and variables, and random scripts; the cases of tools/tcl_cases.py.
- Python and Tcl with growths of memory refused (tools/refuse_calls.c): out of memory is an error of the language, and the
  command answers as ever when it is given again; in Python, those who follow a text miss no change.
- The instructions of a command by its words and by a script, where valgrind is installed: the words cost less.
- The memory of a report: that of an undo which brings a text back asks for that text, and for little more.
- The examples of three languages answer alike.

Ends in a line `N passed, M failed`; the exit status is 1 if anything failed.
"""

import argparse
import itertools
import os
import shutil
import struct
import subprocess
import sys
import tempfile

import build_library
import build_python
import examples
import model
import python_cases
import python_others
import python_probes
import python_tool
import scripts
import tcl_cases
import worked
from harness import LONG_TIMEOUT_SECONDS, Tally
from versus import count_instructions

TOP = os.path.dirname(os.path.dirname(os.path.abspath(__file__)))
OUT = os.path.join(TOP, "out")
ARCHIVE = os.path.join(OUT, "libtktext.a")
SHARED = os.path.join(OUT, "libtktext.so")
EXTENSION = os.path.join(OUT, "tktext.so")
CLIENT = os.path.join(OUT, "library_client")
REFUSED_CLIENT = os.path.join(OUT, "refused_library_client")
ASKED = os.path.join(OUT, "asked.so")
PYTHON = os.path.join(OUT, "python")
REFUSED_PYTHON = os.path.join(OUT, "refused_python")
REFUSED_EXTENSION = os.path.join(OUT, "refused_tktext.so")
SMALL_EXTENSION = os.path.join(OUT, "small_tktext.so")
FLAGS = ["-Wall", "-Wextra", "-O2", "-fPIC", "-I" + os.path.join(TOP, "include")]
PIECES = (1, 7, 4096)
LEAK_COMMANDS = 10_000
# How many lines are inserted and deleted for the instructions of a command.
COUNTED_LINES = 2_000
# The lines of a text that comes back, the bytes of each, and what its report may hold beside the text.
UNDONE_LINES, LINE_BYTES, MOST_BESIDE = 100_000, 37, 1_000
ENOUGH_FAILURES = 10
# How many growths of a command are refused, at most.
MOST_GROWTHS = 60


def run(words, given=b"", **how):
    """Runs a command to its end; what it wrote, and its exit status."""
    done = subprocess.run(words, input=given, capture_output=True, timeout=4 * LONG_TIMEOUT_SECONDS, **how)
    return done.stdout, done.returncode, done.stderr


def source(*names):
    return os.path.join(TOP, *names)


def compile_all(has_tcl):
    """The client, and the library with growths that can be refused, for Python and for Tcl."""
    refuses = ["-Wl,--wrap=malloc,--wrap=realloc", source("tools", "refuse_calls.c")]
    client = source("tools", "library.c")
    subprocess.run(["cc", *FLAGS, "-o", CLIENT, client, ARCHIVE], check=True)
    subprocess.run(["cc", *FLAGS, *refuses, "-o", REFUSED_CLIENT, client, ARCHIVE], check=True)
    if build_python.can_build():
        build_python.build(PYTHON, ARCHIVE)
        build_python.build(REFUSED_PYTHON, ARCHIVE, *refuses)
    if has_tcl:
        tcl = ["-DUSE_TCL_STUBS", "-I" + examples.TCL_INCLUDE, source("tcl", "tktext.c")]
        small = f"-DTKTEXT_MOST_BYTES={tcl_cases.MOST_BYTES}"
        for made, flags in ((EXTENSION, []), (SMALL_EXTENSION, [small])):
            subprocess.run(["cc", *FLAGS, *flags, "-shared", *tcl, "-o", made, ARCHIVE, "-ltclstub8.6"], check=True)
        # What is Tcl's own, a value or a command, is taken from Tcl, which doesn't survive a refusal: those of the glue and
        # of the library alone are counted.
        subprocess.run(["cc", *FLAGS, *tcl, "-c", "-o", EXTENSION + ".o"], check=True)
        subprocess.run(["cc", *FLAGS, "-shared", *refuses, EXTENSION + ".o", "-o", REFUSED_EXTENSION, ARCHIVE, "-ltclstub8.6"], check=True)


# ---------------------------------------------------------------------------------------------------
# C


def packed(commands):
    """Commands as the client reads them."""
    parts = []
    for words in commands:
        encoded = [word.encode("utf-8") for word in words]
        parts.append(struct.pack(f"<{1 + len(encoded)}I", len(encoded), *map(len, encoded)) + b"".join(encoded))
    return b"".join(parts)


def commands_output(commands, limits=model.PROGRAM_LIMITS):
    """What the model prints for commands, without a script's own fault."""
    world, written = model.World(limits), []
    for words in commands:
        world, text, _ = model.piece(world, words, False)
        written.append(text)
    return "".join(written).encode("utf-8")


def check_c_script(name, script, pieces, tally):
    wanted = model.run_output(script)
    for piece in pieces:
        output, status, _ = run([CLIENT, "script", str(piece)], script)
        tally.check((output, status) == (wanted.output, wanted.status), f"C, {name!r} in pieces of {piece}: status {status}, {output!r}")
    commands, _ = model.reads_script(script)
    output, status, _ = run([CLIENT, "words"], packed(commands))
    tally.check((output, status) == (commands_output(commands), 0), f"C, {name!r} by words: status {status}, {output!r}")


def check_uses(tally):
    for client, what in ((CLIENT, "uses"), (REFUSED_CLIENT, "refusals")):
        output, status, _ = run([client, what])
        print(f"C, {what}: {output.decode()}", end="")
        tally.check(status == 0, f"C, {what}: {output!r}")


def many_commands():
    """A script of thousands of random commands."""
    parts, count = [], 0
    for seed in itertools.count(10_000):
        commands, _ = model.reads_script(scripts.script(seed))
        parts += [words for words in commands if len("".join(words)) < 4_000]
        count = len(parts)
        if count >= LEAK_COMMANDS:
            return parts[:LEAK_COMMANDS]


def check_leaks(tally):
    """No leak and no wrong access in many commands."""
    if shutil.which("valgrind") is None:
        print("valgrind isn't installed: leaks aren't looked for")
        return
    valgrind = ["valgrind", "-q", "--leak-check=full", "--show-leak-kinds=all", "--errors-for-leak-kinds=all", "--error-exitcode=9"]
    commands = many_commands()
    _, status, errors = run([*valgrind, CLIENT, "words"], packed(commands))
    tally.check((status, errors) == (0, b""), f"C, {len(commands)} commands by words under valgrind: status {status}, {errors[-600:]!r}")
    script = "\n".join(" ".join(map(model.element_text, words)) for words in commands if all("\\" not in word for word in words))
    fed = script.encode("utf-8")
    _, status, errors = run([*valgrind, CLIENT, "script", "4096"], fed)
    tally.check(status in (0, 1, 2) and errors == b"", f"C, a long script under valgrind: status {status}, {errors[-600:]!r}")
    print(f"valgrind: {len(commands)} commands by words, and a script of {len(fed)} bytes")


def instructions(way):
    """What a command takes that puts a line in or takes it out, by its words or by a script."""
    none, all_lines = (count_instructions([CLIENT, "edits", way, str(count)], os.devnull) for count in (0, COUNTED_LINES))
    return (all_lines - none) // (2 * COUNTED_LINES)


def check_instructions(tally):
    """A command costs less by its words than by a script."""
    if shutil.which("valgrind") is None:
        print("valgrind isn't installed: the instructions of a command aren't counted")
        return
    for way in ("words", "script"):
        _, status, _ = run([CLIENT, "edits", way, "2"])
        tally.check(status == 0, f"C, lines inserted and deleted by the {way}: status {status}")
    words, script = instructions("words"), instructions("script")
    said = f"{words} instructions by its words, {script} by a script"
    print(f"a command that inserts or deletes a line: {said}")
    tally.check(words < script, f"a command takes {said}")


def most_held(way):
    """The most bytes that are asked for at once where a whole text is deleted and comes back."""
    report = os.path.join(OUT, "weight")
    environment = dict(os.environ, LD_PRELOAD=ASKED, WEIGHT_REPORT=report)
    _, status, errors = run([CLIENT, "undo", way, str(UNDONE_LINES)], env=environment)
    if status != 0:
        raise RuntimeError(f"a text that comes back: status {status}, {errors[-600:]!r}")
    with open(report, encoding="ascii") as file:
        return int(file.read().split()[2])


def check_report(tally):
    """The report of an undo that brings a text back asks for that text, and for little more."""
    subprocess.run(["cc", "-DASKED", "-shared", "-fPIC", "-O1", "-o", ASKED, source("tools", "weigh.c")], check=True)
    more = most_held("told") - most_held("plain")
    print(f"a report of an undo of {UNDONE_LINES} lines holds {more} bytes, {UNDONE_LINES * LINE_BYTES} of them text")
    tally.check(0 <= more - UNDONE_LINES * LINE_BYTES < MOST_BESIDE, f"a report of an undo holds {more} bytes")


# ---------------------------------------------------------------------------------------------------
# Python


def limits_of(row):
    return (row.limits.characters, row.limits.tags, row.limits.marks, row.limits.widgets)


def fed_output(tktext, script, limits):
    """What a world says of a script that is fed, and its status."""
    with tktext.World(limits) as world:
        world.feed(script)
        said = list(world.lines())
        if world.status() != 2:
            world.finish()
            said += world.lines()
        return b"".join(said), world.status()


def check_python_row(tktext, row, tally):
    given = fed_output(tktext, row.script, limits_of(row))
    tally.check(given == (row.output, row.status), f"Python, {row.name!r}: {given!r}")


def method_calls():
    """For the words of a widget's command after its name: the method of `Text`, and what it gives of the command's answer."""
    def flag(answer):
        return answer == "1"

    def name(answer):
        return answer or None

    def nothing(_):
        return None

    def text(answer):
        return answer

    def elements(answer):
        return tuple(model.split_list(answer))

    return {
        ("insert",): ("insert", nothing, 2, 99), ("delete",): ("delete", nothing, 1, 2), ("replace",): ("replace", nothing, 3, 99),
        ("get",): ("get", text, 1, 2), ("index",): ("index", text, 1, 1), ("compare",): ("compare", flag, 3, 3),
        ("tag", "add"): ("tag_add", nothing, 2, 99), ("tag", "remove"): ("tag_remove", nothing, 2, 3), ("tag", "names"): ("tag_names", elements, 0, 1),
        ("tag", "ranges"): ("tag_ranges", elements, 1, 1), ("tag", "nextrange"): ("tag_nextrange", elements, 2, 3),
        ("tag", "prevrange"): ("tag_prevrange", elements, 2, 3), ("tag", "raise"): ("tag_raise", nothing, 1, 2), ("tag", "lower"): ("tag_lower", nothing, 1, 2),
        ("tag", "delete"): ("tag_delete", nothing, 1, 99), ("mark", "set"): ("mark_set", nothing, 2, 2), ("mark", "unset"): ("mark_unset", nothing, 0, 99),
        ("mark", "names"): ("mark_names", elements, 0, 0), ("mark", "next"): ("mark_next", name, 1, 1), ("mark", "previous"): ("mark_previous", name, 1, 1),
        ("mark", "gravity"): ("mark_gravity", text, 1, 2), ("edit", "undo"): ("edit_undo", text, 0, 0), ("edit", "redo"): ("edit_redo", text, 0, 0),
        ("edit", "separator"): ("edit_separator", text, 0, 0), ("edit", "reset"): ("edit_reset", text, 0, 0),
        ("edit", "modified"): ("edit_modified", flag, 0, 0), ("peer", "names"): ("peer_names", elements, 0, 0),
    }


METHODS = method_calls()
# The method knows those of drawing too.
CORE_OPTIONS = ("-autoseparators", "-endline", "-maxundo", "-startline", "-state", "-undo")


def value_of(answer):
    """The value of an option, a number where it is one."""
    return int(answer) if answer.removeprefix("-").isdigit() else answer


def method_of(words):
    """The method, its arguments and what it gives of the command's answer; None where the command isn't one of these."""
    for count in (1, 2):
        found = METHODS.get(tuple(words[1:1 + count]))
        rest = words[1 + count:]
        if found and found[2] <= len(rest) <= found[3]:
            return found[0], rest, found[1]
    if words[1:2] == ["dump"] and 3 <= len(words) <= 4:
        return "dump", words[2:], lambda answer: list(zip(*[iter(model.split_list(answer))] * 3))
    if words[1:2] == ["search"] and 4 <= len(words) <= 5 and not words[2].startswith("-"):
        return "search", words[2:], str
    if words[1:2] == ["cget"] and len(words) == 3 and words[2] in CORE_OPTIONS:
        return "cget", [words[2][1:]], value_of
    return None


def check_methods(tktext, name, script, tally):
    """Each command of a script by a method of `Text`, or else by its words, is the model's.  Gives how many were methods."""
    commands, _ = model.reads_script(script)
    world, called, by_method = model.World(), tktext.World(), 0
    for words in commands:
        world, written, is_refused = model.piece(world, words, False)
        answer = written[:-1]
        method = method_of(words)
        try:
            if method is None:
                given, wanted = called.call(*words), answer
            else:
                by_method += 1
                given = getattr(tktext.Text.named(called, words[0]), method[0])(*method[1])
                wanted = method[2](answer) if not is_refused else None
        except tktext.TclError as error:
            given, wanted = f"error: {error.fault}", answer
        if given != wanted or is_refused != (isinstance(given, str) and is_refused and given == answer):
            tally.failed(f"Python, {name!r}, {words}: {given!r}, wanted {wanted!r}")
            return by_method
    called.close()
    tally.passed()
    return by_method


def refused_numbers():
    """Values of TKTEXT_REFUSE, of a name of its own each."""
    for serial in itertools.count():
        yield serial


def call_refused(tktext, world, words, growth, serials):
    """Gives a command with one growth refused, and then once more where that was refused: the answer, and whether it was."""
    os.environ["TKTEXT_REFUSE"] = f"{next(serials)}:{growth}"
    try:
        return answer_of(tktext, world, words), False
    except MemoryError:
        os.environ["TKTEXT_REFUSE"] = ""
        return answer_of(tktext, world, words), True
    finally:
        os.environ["TKTEXT_REFUSE"] = ""


def answer_of(tktext, world, words):
    try:
        return world.call(*words) + "\n"
    except tktext.TclError as error:
        return f"error: {error.fault}\n"


def check_python_refusals(tktext, tally):
    """Each growth of each command refused in turn: MemoryError, and then the answer as ever.  Gives how many were refused."""
    serials, refusals = refused_numbers(), 0
    for name, script in worked.repeated_scripts():
        commands, _ = model.reads_script(script)
        wanted = commands_output(commands).decode("utf-8")
        for growth in range(1, MOST_GROWTHS):
            with tktext.World() as world:
                answers = [call_refused(tktext, world, words, growth, serials) for words in commands]
            refused = sum(was for _, was in answers)
            refusals += refused
            tally.check("".join(text for text, _ in answers) == wanted, f"Python, {name!r}, growth {growth} of each command refused: {answers!r}")
            if refused == 0:
                break
    os.environ["TKTEXT_REFUSE"] = f"{next(serials)}:1"
    try:
        tktext.World()
        tally.failed("Python, a world without memory")
    except MemoryError:
        tally.passed()
    os.environ["TKTEXT_REFUSE"] = ""
    return refusals


class FollowedText:
    """A text of a world, and the copies that `on_change` and `changes` make of it."""

    def __init__(self, text):
        self.text, self.followed = text, "\n"
        self.polled = "\n"
        text.changes()
        text.on_change(self.take)

    def take(self, changes):
        for change in changes:
            self.followed = change.made_in(self.followed)

    def is_same(self):
        for change in self.text.changes():
            self.polled = change.made_in(self.polled)
        return self.followed == self.polled == self.text.get("1.0", "end")


def check_followed_refusals(tktext, tally):
    """Each growth of each command refused in turn in a world that is followed: no change is lost, and none comes twice.
    Returns the number of commands refused, and of those carried out."""
    serials, refused, carried_out = refused_numbers(), 0, 0
    for name, script in worked.repeated_scripts():
        commands, _ = model.reads_script(script)
        for growth in range(1, MOST_GROWTHS):
            world, before = tktext.World(), refused
            world.call("text", ".followed", "-startline", "", "-endline", "")
            followed = FollowedText(tktext.Text.named(world, ".followed"))
            peers = {words[1] for words in commands if words[0] == "text"}
            for peer in peers:
                world.call(".followed", "peer", "create", peer)
            for words in commands:
                old = followed.text.get("1.0", "end")
                if words[0] != "text" and is_refused_once(tktext, world, words, f"followed {next(serials)}:{growth}"):
                    refused += 1
                    carried_out += followed.text.get("1.0", "end") != old
                tally.check(followed.is_same(), f"Python, {name!r}, growth {growth} of {words} refused: a copy differs")
            world.close()
            if refused == before:
                break
    return refused, carried_out


def is_refused_once(tktext, world, words, which):
    """Gives a command with a growth refused, and returns whether that was a MemoryError."""
    os.environ["TKTEXT_REFUSE"] = which
    try:
        answer_of(tktext, world, words)
        return False
    except MemoryError:
        return True
    finally:
        os.environ["TKTEXT_REFUSE"] = ""


def try_python(seeds, refuses):
    """What `python3 tools/library.py --python` does, in a process of its own, with a package that PYTHONPATH names."""
    import tktext

    tally = Tally()
    if refuses:
        refusals = check_python_refusals(tktext, tally)
        tally.check(refusals > 0, "Python, no growth was refused")
        print(f"Python: {refusals} commands refused for memory, and given again")
        refusals, carried_out = check_followed_refusals(tktext, tally)
        said = f"{refusals} commands refused for memory in a world that is followed, {carried_out} of them carried out"
        tally.check(refusals > carried_out == 0, f"Python, {said}")
        print(f"Python: {said}")
        return tally.close()
    for row in worked.ROWS + worked.LONG_ROWS:
        check_python_row(tktext, row, tally)
        if row.limits == model.PROGRAM_LIMITS:
            check_methods(tktext, row.name, row.script, tally)
    methods = sum(check_methods(tktext, f"seed {seed}", scripts.script(seed), tally) for seed in range(seeds))
    print(f"Python: {len(worked.ROWS + worked.LONG_ROWS)} worked rows and {seeds} random scripts, in which {methods} commands are methods")
    return tally.close()


# ---------------------------------------------------------------------------------------------------
# Tcl

TCL_HEAD = r"""
load [lindex $argv 0] Tktext
fconfigure stdout -encoding utf-8 -translation lf
proc give {words} {
    set name [lindex $words 0]
    if {$name in {text destroy}} {
        return [tktext::$name {*}[lrange $words 1 end]]
    }
    if {[namespace which -command ::$name] eq "" || $name in $::own} {
        error "invalid command name \"$name\""
    }
    return [::$name {*}[lrange $words 1 end]]
}
set ::own [info commands]
set ::serial 0
# A command with one growth refused, and then once more where that was refused.
proc give_refused {words growth} {
    set ::env(TKTEXT_REFUSE) [incr ::serial]:$growth
    set code [catch {give $words} answer options]
    set ::env(TKTEXT_REFUSE) ""
    if {$code && [dict get $options -errorcode] eq {TKTEXT MEMORY}} {
        incr ::refused
        set code [catch {give $words} answer options]
    }
    return [line $code $answer $options]
}
# What the program prints: of a refused command the fault alone, and not what it leaves unsaid.  No `expr`, which would
# read an answer as a number.
proc line {code answer options} {
    if {!$code} {
        return $answer
    }
    set parts [dict get $options -errorcode]
    if {[lrange $parts 0 1] eq {TKTEXT FAULT}} {
        return "error: [lindex $parts 2]"
    }
    return "error: $answer"
}
proc run {commands} {
    foreach words $commands {
        puts [line [catch {give $words} answer options] $answer $options]
    }
    forget
}
proc forget {} {
    foreach name [info commands .*] {
        rename $name {}
    }
}
"""

# Procedures, loops and variables around the widget's commands, and what is printed.
TCL_PROGRAM = r"""
proc fill {widget lines} {
    for {set number 1} {$number <= $lines} {incr number} {
        $widget insert end "line $number\n" [expr {$number % 2 ? "odd" : "even"}]
    }
}
proc words {widget tag} {
    set found {}
    foreach {from to} [$widget tag ranges $tag] {
        lappend found [string trim [$widget get $from $to]]
    }
    return $found
}
tktext::text .t -undo 1
fill .t 5
puts [words .t odd]
set total 0
foreach index [.t search -all line 1.0] {
    incr total [.t count -chars 1.0 $index]
}
puts $total
.t peer create .p -startline 2 -endline 4
puts [.p get 1.0 1.end]
while {[.t compare 1.0 < end-1c]} {
    .t delete 1.0 2.0
}
puts [.p index end]
puts [catch {.t index nowhere} error]$error
puts [list [info commands .p] [tktext::destroy .p] [info commands .p] [.t peer names]]
rename .t .u
puts [list [.u index end] [catch {.t index end}]]
rename .u {}
tktext::text .t
puts [.t get 1.0 end]
"""
TCL_PRINTS = """{line 1} {line 3} {line 5}
70
line 2
1.0
1bad text index "nowhere"
.p {} {} {}
2.0 1


"""


def tcl_word(text):
    """A word of Tcl with these characters."""
    return '"' + "".join(c if c.isascii() and c.isalnum() else f"\\u{ord(c):04x}" for c in text) + '"'


def tcl_list(commands):
    return "[list " + " ".join("[list " + " ".join(map(tcl_word, words)) + "]" for words in commands) + "]"


def is_for_tcl(commands):
    """Tcl 8.6 has no characters beyond U+FFFF of its own, and reads a name with `::` as one in a namespace."""
    return all(ord(c) < 0x10000 for words in commands for word in words for c in word) and not any("::" in word for words in commands for word in words)


def run_tcl(extension, body, folder):
    file = os.path.join(folder, "script.tcl")
    with open(file, "w", encoding="ascii") as written:
        written.write(TCL_HEAD + body)
    return run(["tclsh8.6", file, extension])


def check_tcl_scripts(seeds, folder, tally):
    """Random scripts, all in one process, each with the model's answers.  Gives how many were run."""
    wanted, body, count = [], [], 0
    for seed in itertools.count():
        commands, _ = model.reads_script(scripts.script(seed))
        if not is_for_tcl(commands):
            continue
        wanted.append(commands_output(commands))
        body.append(f"run {tcl_list(commands)}\nputs \"== {seed}\"\n")
        count += 1
        if count == seeds:
            break
    output, status, errors = run_tcl(EXTENSION, "".join(body), folder)
    tally.check((status, errors) == (0, b""), f"Tcl: status {status}, {errors[-600:]!r}")
    rest = output
    for text, part in zip(wanted, body):
        end = part[part.rindex("puts"):].split('"')[1].encode() + b"\n"
        given, _, rest = rest.partition(end)
        tally.check(given == text, f"Tcl, {end!r}: {given[-900:]!r}, wanted {text[-900:]!r}")
        if tally.failures >= ENOUGH_FAILURES:
            break
    return count


def check_tcl_refusals(folder, tally):
    """Each growth of each command refused in turn: an error of its own code, and then the answer as ever."""
    wanted, body = [], ["set ::refused 0\n"]
    for _, script in worked.repeated_scripts():
        commands, _ = model.reads_script(script)
        text = commands_output(commands)
        wanted.append(text)
        body.append(f"""
set commands {tcl_list(commands)}
for {{set growth 1}} {{$growth < {MOST_GROWTHS}}} {{incr growth}} {{
    set before $::refused
    set said {{}}
    foreach words $commands {{ append said [give_refused $words $growth] \\n }}
    forget
    if {{$growth == 1}} {{ set first $said; puts -nonewline $said }}
    if {{$said ne $first}} {{ puts "growth $growth: $said" }}
    if {{$::refused == $before}} {{ break }}
}}
""")
    body.append("puts $::refused\n")
    output, status, errors = run_tcl(REFUSED_EXTENSION, "".join(body), folder)
    lines = output.splitlines(keepends=True)
    tally.check((status, errors) == (0, b""), f"Tcl, growths refused: status {status}, {errors[-600:]!r}")
    tally.check(b"".join(lines[:-1]) == b"".join(wanted), f"Tcl, growths refused: {output[-900:]!r}")
    refused = int(lines[-1]) if lines and lines[-1].strip().isdigit() else 0
    tally.check(refused > 0, "Tcl, no growth was refused")
    print(f"Tcl: {refused} commands refused for memory, and given again")


def check_tcl(seeds, tally):
    with tempfile.TemporaryDirectory() as folder:
        output, status, errors = run_tcl(EXTENSION, TCL_PROGRAM, folder)
        tally.check((output.decode(), status, errors) == (TCL_PRINTS, 0, b""), f"Tcl, a program: status {status}, {output!r}, {errors!r}")
        count = check_tcl_scripts(seeds, folder, tally)
        print(f"Tcl: a program, and {count} random scripts")
        check_tcl_refusals(folder, tally)
    tcl_cases.check(EXTENSION, SMALL_EXTENSION, REFUSED_EXTENSION, tally)


# ---------------------------------------------------------------------------------------------------
# The examples

# The commands of examples/peers.c, and what the others do by other names.
EXAMPLE = r"""
text .a -undo 1
.a insert 1.0 "one\ntwo\nthree"
.a peer create .b -startline 2
.b tag add bold 1.0 1.end
.b insert 1.0 "number "
.a dump 1.0 end
.b dump 1.0 end
.b index nowhere
"""


def wanted_of_examples():
    """What each example prints, by what the model says, in its own way."""
    commands, _ = model.reads_script(EXAMPLE.encode())
    world, answers = model.World(), []
    for words in commands:
        world, text, _ = model.piece(world, words, False)
        answers.append(text)
    fault = answers[7].removeprefix("error: ")
    dumps = [list(zip(*[iter(model.split_list(answer[:-1]))] * 3)) for answer in answers[5:7]]
    in_python = ["".join(f"  {it!r}\n" for it in dump) for dump in dumps]
    in_tcl = ["".join(f"  {it[2]} {it[0]} {model.element_text(it[1])}\n" for it in dump) for dump in dumps]
    return {
        "examples/peers.c": "".join(answers),
        "examples/peers.py": f".a\n{in_python[0]}.b\n{in_python[1]}{fault}",
        "examples/peers.tcl": f".a\n{in_tcl[0]}.b\n{in_tcl[1]}{fault}",
    }


def check_examples(tally):
    """Each example prints what the model says."""
    wanted = wanted_of_examples()
    for name, can_run, run_it, _ in examples.EXAMPLES:
        if can_run():
            given = run_it(examples.PROVED)
            tally.check(given == (wanted[name], 0), f"{name}: {given!r}")


# ---------------------------------------------------------------------------------------------------


def add_counts(output, status, tally):
    """Shows what a process of its own printed, and adds what it counted."""
    lines = output.decode("utf-8", "replace").splitlines()
    print(*lines[:-1], sep="\n")
    words = lines[-1].split() if lines else []
    if len(words) == 4 and status in (0, 1):
        tally.passes += int(words[0])
        tally.failures += int(words[2])
    else:
        tally.failed(f"a process ended with status {status}")


def check_python(seeds, tally):
    if not build_python.can_build():
        print(f"Python isn't tried: it wants {build_python.WANTED}")
        return
    for package, flags in ((PYTHON, []), (REFUSED_PYTHON, ["--refuses"])):
        environment = dict(os.environ, PYTHONPATH=package)
        words = [sys.executable, os.path.abspath(__file__), "--python", "--seeds", str(seeds), *flags]
        output, status, errors = run(words, env=environment)
        sys.stderr.buffer.write(errors)
        add_counts(output, status, tally)
    python_cases.check(PYTHON, python_cases.ROUNDS, tally)
    python_tool.check(PYTHON, tally)
    python_probes.check(PYTHON, python_probes.PYTHON, tally)
    python_others.check(PYTHON, python_others.PYTHON, tally)


def main():
    parser = argparse.ArgumentParser(description="tries the library by clients in C, Python and Tcl")
    parser.add_argument("--seeds", type=int, default=1_000)
    parser.add_argument("--build", action="store_true")
    parser.add_argument("--python", action="store_true")
    parser.add_argument("--refuses", action="store_true")
    options = parser.parse_args()
    if options.python:
        return try_python(options.seeds, options.refuses)
    tally = Tally()
    if shutil.which("cc") is None:
        print("the library isn't tried: it wants a C compiler")
        return tally.close()
    if options.build and build_library.main([]):
        tally.failed("the library isn't made")
        return tally.close()
    has_tcl = examples.has_tcl()
    compile_all(has_tcl)
    check_examples(tally)
    check_uses(tally)
    for row in worked.ROWS:
        if row.limits == model.PROGRAM_LIMITS:
            check_c_script(row.name, row.script, PIECES[1:], tally)
    for seed in range(100):
        check_c_script(f"seed {seed}", scripts.script(seed), PIECES, tally)
    check_leaks(tally)
    check_instructions(tally)
    check_report(tally)
    check_python(options.seeds, tally)
    if has_tcl:
        check_tcl(options.seeds, tally)
    else:
        print("Tcl isn't tried: it wants tclsh8.6 and tcl8.6-dev")
    return tally.close()


if __name__ == "__main__":
    sys.exit(main())
