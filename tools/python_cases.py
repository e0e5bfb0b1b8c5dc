#!/usr/bin/env python3
"""Cases of the Python package (python/tktext), each in a process of its own: what a caller may do to it.

    python3 tools/python_cases.py [--module out/python] [--rounds 200]

A case is a script and what it has to print; a crash is a failed case, and its script is shown.  Threads share a world,
or have one each, in so many rounds.  Where Python has tkinter, random values become the words that they are there,
which needs no display.  Ends in a line `N passed, M failed`; the exit status is 1 if anything failed.
"""

import os
import shutil
import subprocess
import sys

import build_python
from harness import LONG_TIMEOUT_SECONDS, run_checks

TOP = os.path.dirname(os.path.dirname(os.path.abspath(__file__)))
MODULE = os.path.join(TOP, "out", "python")
ROUNDS = 200
HEAD = """
import faulthandler, sys, threading
faulthandler.enable()
from tktext import *
def tried(call, *arguments):
    try:
        return call(*arguments)
    except Exception as error:
        return f"{type(error).__name__}: {error}"
"""

# ---------------------------------------------------------------------------------------------------
# Threads

# Eight threads put lines into one text and take them out; each line is there, and no call is refused.
ONE_WORLD = """
text, faults = Text(undo=True), []
def work(number):
    for turn in range(10):
        try:
            text.insert("1.0", f"{number} {turn}\\n")
            text.tag_add("t", "1.0", "1.1")
            text.get("1.0", "end")
        except Exception as error:
            faults.append(f"{type(error).__name__}: {error}")
sys.setswitchinterval(1e-5)
for _ in range(ROUNDS):
    threads = [threading.Thread(target=work, args=(number,)) for number in range(8)]
    for thread in threads: thread.start()
    for thread in threads: thread.join()
    lines = text.get("1.0", "end-2c").split("\\n")
    if faults or sorted(lines) != [f"{number} {turn}" for number in range(8) for turn in range(10)]:
        print(len(faults), "faults", faults[:2], len(lines), "lines")
        break
    text.delete("1.0", "end")
    text.edit_reset()
print("done")
"""

# Eight worlds, each with a thread, end as they do one after another.
EIGHT_WORLDS = """
import random
def work(seed, ended):
    chance, text = random.Random(seed), Text(undo=True)
    def place():
        return f"{chance.randrange(1, 9)}.{chance.randrange(9)}"
    for _ in range(12):
        kind = chance.randrange(6)
        try:
            if kind < 3: text.insert(place(), chance.choice(["a", "b\\n", "xyz"]), chance.choice(["u", "v"]))
            elif kind == 3: text.delete(place(), place())
            elif kind == 4: text.edit_undo()
            else: text.mark_set("m", place())
        except TclError:
            pass
    ended[seed] = str(text.dump("1.0", "end"))
for turn in range(ROUNDS):
    seeds, alone, together = range(8 * turn, 8 * turn + 8), {}, {}
    for seed in seeds: work(seed, alone)
    threads = [threading.Thread(target=work, args=(seed, together)) for seed in seeds]
    for thread in threads: thread.start()
    for thread in threads: thread.join()
    if alone != together:
        print("they differ:", alone, together)
        break
print("done")
"""

# A world that is closed, fed and read by threads at once: each call is carried out, or told that the world was closed.
CLOSED_BY_ANOTHER = """
said = set()
def work(world, number):
    for _ in range(10):
        try:
            if number == 0: world.feed(b"text .t\\ndestroy .t\\n")
            elif number == 1: list(world.lines())
            elif number == 2: world.call("foo")
            else: world.status()
        except Exception as error:
            said.add(f"{type(error).__name__}: {error}")
    world.close()
for _ in range(ROUNDS):
    world = World()
    threads = [threading.Thread(target=work, args=(world, number)) for number in range(4)]
    for thread in threads: thread.start()
    for thread in threads: thread.join()
print(said - {'TclError: invalid command name "foo"', "ValueError: the world was closed"})
"""

# The handler of a signal calls where another call is under way: that comes to its end first, and both are carried out.
REENTRANT = """
import signal, time
text, said = Text(), set()
text.insert("1.0", "x" * 2_000_000)
def handler(*_):
    said.add(str(tried(text.index, "end")))
    text.mark_set(f"m{len(said)}", "1.0")
signal.signal(signal.SIGALRM, handler)
until = time.monotonic() + 1
signal.setitimer(signal.ITIMER_REAL, 0.003, 0.003)
while time.monotonic() < until:
    if len(text.get("1.0", "end")) != 2_000_001: print("an answer is cut")
    if text.tag_names() != ("sel",): print("an answer of another call")
signal.setitimer(signal.ITIMER_REAL, 0)
print(sorted(said), text.index("1.end"))
"""
REENTRANT_SAYS = "['2.0'] 1.2000000"

# A value that calls the world, closes it, or makes the widget anew, while the words of a call are made of it.
WITHIN_WORDS = """
class Calling:
    def __init__(self, call): self.call = call
    def __str__(self):
        self.call()
        return "x"
text = Text()
text.insert("1.0", Calling(lambda: text.insert("1.0", "first ")))
print(text.get("1.0", "1.end"))
print(tried(text.insert, "1.0", Calling(lambda: text.__init__())), str(text), text.get("1.0", "1.end"))
print(tried(text.insert, "1.0", Calling(text.world.close)))
print(tried(Text.__new__(Text)._text, "index"), tried(World.__new__(World).call, "text", ".t"))
print(tried(text.get, Calling(lambda: 1 / 0)))
"""
WITHIN_WORDS_SAY = """xfirst\x20
None .!text x
ValueError: the world was closed
ValueError: the widget wasn't made ValueError: the world was closed
ZeroDivisionError: division by zero"""

# The handler raises, wherever in a call it comes: the world goes on, also for another thread.
INTERRUPTED = """
import signal, time
text, interrupts = Text(), 0
text.insert("1.0", "x" * 200_000)
def handler(*_): raise KeyboardInterrupt
signal.signal(signal.SIGALRM, handler)
until = time.monotonic() + 20
while interrupts < ROUNDS and time.monotonic() < until:
    try:
        signal.setitimer(signal.ITIMER_REAL, 0.0002 + 1e-6 * interrupts)
        for _ in range(1000): text.get("1.0", "1.100000")
        signal.setitimer(signal.ITIMER_REAL, 0)
    except KeyboardInterrupt:
        interrupts += 1
thread = threading.Thread(target=lambda: print(text.index("1.end")), daemon=True)
thread.start()
thread.join(20)
print(interrupts == ROUNDS, text.index("end"))
"""

# ---------------------------------------------------------------------------------------------------
# Limits, room, copies, lengths

LIMITS = """
for limits in ((10, 65541, 1, 1), (2**64 + 5, 1, 1, 1), (10, 1, 65536 + 4, 1), (10, 1, 1, 65536 + 2),
               (10, -65535, 1, 1), (-2**64 + 7, 1, 1, 1), (0, 1, 1, 1), (10, 961, 1, 1), (10, 1, 1)):
    print(tried(World, limits))
with World((10, 1, 1, 1)) as world:
    print(tried(Text(world).insert, "1.0", "0123456789"))
"""
LIMITS_SAY = """ValueError: no characters, or a limit above its maximum
""" * 8 + """ValueError: the limits are four: characters, tags, marks and widgets
TclError: text is too long"""

# What is kept after a long answer, in KiB, also by a world that was closed.
ROOM = """
import tracemalloc
tracemalloc.start()
text = Text()
text.insert("1.0", "x" * 5_000_000)
def kept(call):
    before = tracemalloc.get_traced_memory()[0]
    call()
    return (tracemalloc.get_traced_memory()[0] - before) // 1024 < 66
text.index("1.0")
print(kept(lambda: text.get("1.0", "end")), kept(lambda: text.get("1.0", "1.60000")), kept(lambda: text.world.said()))
print(kept(text.world.close))
"""

COPIES = """
import copy, gc, pickle
text = Text()
text.insert("1.0", "hi")
print(tried(copy.copy, text.world))
print(tried(copy.deepcopy, text.world))
print(tried(pickle.dumps, text.world))
print(repr(tried(text.get, "1.0", "end-1c")))
other = copy.copy(text)
del other
gc.collect()
print(repr(tried(text.get, "1.0", "end-1c")))
"""
COPIES_SAY = "TypeError: a world can't be copied\n" * 3 + "'hi'\n'hi'"

# Classes that stand on `bytes` and tell a wrong length, a buffer of another class, and what is none.
LENGTHS = """
class Long(bytes):
    def __len__(self): return 500_000_000
class Short(bytes):
    def __len__(self): return 1
for piece in (Long(b"text .t\\n"), Short(b"text .u\\n"), bytearray(b"text .v\\n"), memoryview(b"xtext .w\\n")[1:]):
    with World() as world:
        world.feed(piece)
        print(list(world.lines()))
        print(world.give([Long(b"text"), Short(b".x")]), world.said())
with World() as world:
    print(tried(world.feed, "text .t\\n"))
    print(tried(world.call, b"text", Long(b".y")), world.call(".y", "index", "end"))
"""
LENGTHS_SAY = """[b'.t\\n']
0 b'.x\\n'
[b'.u\\n']
0 b'.x\\n'
[b'.v\\n']
0 b'.x\\n'
[b'.w\\n']
0 b'.x\\n'
TypeError: memoryview: a bytes-like object is required, not 'str'
.y 2.0"""

# ---------------------------------------------------------------------------------------------------
# Values, as tkinter has them: what it gave in each place stands behind.

VALUES_HEAD = """
import enum
class Name(str, enum.Enum):
    first = "x"
def put(value):
    text = Text()
    said = tried(text.insert, "1.0", value)
    print(repr(text.get("1.0", "end-1c")) if said is None else said)
"""
PUT = (
    ("None", 'TclError: wrong # args: should be ".!text insert index chars ?tagList chars ...?"'),
    ("True", "'1'"), ("False", "'0'"), ("5", "'5'"), ("1.5", "'1.5'"), ("-1.2e16", "'-12000000000000000.0'"),
    ("1e17", "'1e+17'"), ("1e-05", "'1e-5'"), ('float("inf")', "'Inf'"), ('float("-inf")', "'-Inf'"),
    ('float("nan")', "'NaN'"), ("b'q\\xe9'", "'qé'"), ("Name.first", "'x'"), ("['a', 'b c']", "'a {b c}'"),
    ("()", "''"), ("('', 1, None, True, b'\\xe9')", "'{} 1 None 1 é'"),
    ("['#x', '#y', ['n n', 'm'], 'a\"b', '\"q', '\\\\', 'a{b}', 'a}b', '$x', '[y]', ';', ']']",
     "'{#x} #y {{n n} m} a\\\\\"b {\"q} \\\\\\\\ a{b} a\\\\}b {$x} {[y]} {;} \\\\]'"),
)
VALUES = """
text = Text(undo=True, maxundo=7, startline=None)
print(text["undo"], text["maxundo"], text["autoseparators"], text["state"])
print(repr(text["startline"]), repr(text["endline"]))
text.insert("1.0", "one two\\nthree\\nfour\\n", None, "not put in", "never")
text.configure(undo=False, endline=3, startline=None)
text.configure(undo=None)
print(repr(text["undo"]), repr(text["endline"]), repr(text["startline"]), bool(text["undo"]))
text["endline"] = ""
print(repr(text["endline"]))
text.tag_add("t", "1.0", None, "1.3")
print(text.tag_ranges("t"))
text.tag_add(b"tt", "2.0", "2.1")
text.tag_add(True, "2.0")
text.insert("3.0", "w", ("u", "v w"), "z")
text.insert("3.2", "x", [1, True], "y", ("t3",))
print(text.tag_names("2.0"), text.tag_names("3.0"), text.tag_names("3.1"), text.tag_names("3.2"), text.tag_names("3.3"))
text.replace("1.0", "1.3", True, None, "no tag")
print(repr(text.get("1.0", "1.end")), tried(text.replace, "1.0", "1.1", None))
print(text.get("1.0", None), text.tag_nextrange("u", "1.0", None), text.mark_gravity("insert", None))
print(text.tag_names(None)[:1])
print(tried(text.get, None), tried(text.mark_unset, None))
print(text.search("t", 1.0, stopindex=""), text.index(1.0), tried(text.edit_modified, ""))
text.edit_modified(False)
print(text.edit_modified(None), text.edit_modified())
"""
VALUES_SAY = """1 7 1 normal
'' ''
0 3 '' False
''
('1.0', '1.1')
('tt', '1') ('u', 'v w') () ('1',) ('t3',)
'1 two' TclError: wrong # args: should be ".!text replace index1 index2 chars ?tagList chars ...?"
1 ('3.0', '3.1') right
('sel',)
TclError: wrong # args: should be ".!text get index ?index ...?" None
1.2 1.0 TclError: expected boolean value but got ""
0 0"""

# An error says what the library's own fault leaves unsaid, and keeps that.
FAULTS = r"""
import copy, pickle
def fault(*words):
    try:
        world.call(*words)
    except TclError as error:
        same = [(str(it), it.fault) for it in (error, pickle.loads(pickle.dumps(error)), copy.copy(error))]
        print(error, error.fault if same.count(same[0]) == 3 else same, sep=" | ")
world = World()
text = Text(world, name=".t")
for words in ((".t",), (".t", "index"), (".t", "edit"), (".t", "tag", "raise"), ("text",), (".t", "search", "x"),
              (".t", "mark", "foo"), (".t", "dump", "-foo", "1.0"), (".t", "cget", "-foo"), ("text", ".u", "-foo", 1),
              (".t", "configure", "-undo", 1, "-state", "off"), ("text", ".u", "-state", "-undo"),
              (".t", "configure", "-undo\0", 1), (".t", "configure", "-state", "-undo\0"),
              (".t", "compare", "1.0", "=", "1.0"), (".t", "mark", "gravity", "insert", "up"),
              (".t", "index", "wrong # args"), (".zz", "index"), ("text", "x\0"), (".t", "edit", "undo")):
    fault(*words)
text.destroy()
Text(world, name=".a b\u00e9")
fault(".a b\u00e9", "index")
print(tried(Text.named(world, ".a b\u00e9").mark_gravity, "insert", "up"))
"""
FAULTS_SAY = """wrong # args: should be ".t option ?arg ...?" | wrong # args
wrong # args: should be ".t index index" | wrong # args
wrong # args: should be ".t edit option ?arg ...?" | wrong # args
wrong # args: should be ".t tag raise tagName ?tagName?" | wrong # args
wrong # args: should be "text pathName ?option value ...?" | wrong # args
wrong # args: should be ".t search ?switch ...? pattern index ?index2?" | wrong # args
bad option "foo": must be gravity, names, next, previous, set, or unset | bad option "foo"
bad option "-foo": must be -all, -mark, -tag, or -text | bad option "-foo"
bad option "-foo": must be -autoseparators, -endline, -maxundo, -startline, -state, or -undo | bad option "-foo"
bad option "-foo": must be -autoseparators, -endline, -maxundo, -startline, -state, or -undo | bad option "-foo"
bad option "off": must be disabled or normal | bad option "off"
bad option "-undo": must be disabled or normal | bad option "-undo"
bad option "-undo\0": must be -autoseparators, -endline, -maxundo, -startline, -state, or -undo | bad option "-undo\0"
bad option "-undo\0": must be disabled or normal | bad option "-undo\0"
bad comparison operator "=": must be <, <=, ==, >=, >, or != | bad comparison operator "="
bad mark gravity "up": must be left or right | bad mark gravity "up"
bad text index "wrong # args" | bad text index "wrong # args"
invalid command name ".zz" | invalid command name ".zz"
invalid command name "x\0" | invalid command name "x\0"
wrong # args: should be ".a bé index index" | wrong # args
TclError: bad mark gravity "up": must be left or right"""

# Random values, and lists of them, become the words that they are in a Tcl interpreter without a display.
TKINTER = """
import math, random
try:
    import tkinter
    interpreter = tkinter.Tcl()
except Exception:
    interpreter = None
def value(chance, depth):
    kind = chance.randrange(9 if depth else 7)
    if kind < 3: return "".join(chance.choice(' \\n\\t{}[]$;"\\\\#aéb') for _ in range(chance.randrange(7)))
    if kind == 3: return chance.choice([True, False, 0, -7, 2**70])
    if kind == 4: return math.ldexp(chance.uniform(-1, 1), chance.randrange(-90, 90))
    if kind == 5: return bytes(chance.randrange(1, 256) for _ in range(chance.randrange(4)))
    if kind == 6: return chance.choice([1e15, 1e16, 123456789.0, -2.0, 1e-4, 1e-5, ""])
    return [value(chance, depth - 1) for _ in range(chance.randrange(5))]
text, faults = Text(), 0
for seed in range(0 if interpreter is None else 3000):
    given = value(random.Random(seed), 3)
    text.delete("1.0", "end")
    text.insert("1.0", given)
    wanted = interpreter.call("format", "%s", given)
    if text.get("1.0", "end-1c") != str(wanted):
        faults += 1
        print(repr(given), repr(text.get("1.0", "end-1c")), repr(wanted))
    if faults == 5: break
print("done" if interpreter else "skipped: it wants tkinter, whose values it compares")
"""


# A script in pieces: its lines, a fault of its own, and what comes behind that and behind its end.
SCRIPTS = r"""
with World() as world:
    world.feed(b"text .t; .t ins"); print(list(world.lines()))
    world.feed(b"ert 1.0 ab\n.t index end"); print(list(world.lines()), list(world.lines()))
    world.finish(); print(list(world.lines()), world.status())
    print(tried(world.feed, b"x"), world.status())
with World() as world:
    world.feed(b"text .t\n.t foo\ntext [x]\n.t index end\n")
    print(list(world.lines()), list(world.lines()), world.status())
print(tried(lambda: list(world.lines())), tried(world.feed, b""))
"""
SCRIPTS_SAY = r"""[b'.t\n']
[b'\n'] []
[b'2.0\n'] 0
ValueError: the script has ended 0
[b'.t\n', b'error: bad option "foo"\n', b"error: substitution isn't supported\n"] [] 2
ValueError: the world was closed ValueError: the world was closed"""


# Refused options leave nothing behind; a widget that is bound and its world go when nobody has them.
LEFT = """
import gc, weakref
world = World()
for options in ({"tabs": "{", "undo": 1}, {"undo": "x", "width": 3}, {"foo": 1}):
    print(tried(lambda: Text(world, name="t", **options)), tried(world.call, ".t", "index", "end"))
text = Text(world, name="t")
print(tried(lambda: text.configure(undo=1, tabs="{")), tried(lambda: text.configure(width=3, undo="x")))
print(text["undo"], text["width"])
text = Text()
text.bind("<<Modified>>", lambda event: None)
text.insert("1.0", "x")
print(text.get("1.0"))
gone = weakref.ref(text), weakref.ref(text.world)
del text
gc.collect()
print(*(reference() for reference in gone))
"""
LEFT_SAYS = """TclError: unmatched open brace in list TclError: invalid command name ".t"
TclError: expected boolean value but got "x" TclError: invalid command name ".t"
OPTION TclError: invalid command name ".t"
TclError: unmatched open brace in list TclError: expected boolean value but got "x"
0 80
x
None None""".replace("OPTION", 'TclError: bad option "-foo": must be -autoseparators, -endline, -maxundo, -startline, '
                     "-state, or -undo")

# Methods that hand their values on are called by position, by name, with too few or too many, bound, unbound, by a
# subclass, in a world that is watched, with many words, long ones and what isn't UTF-8, and are functions to who asks.
DIRECT = """
import copy, inspect, pydoc
class Loud(Text):
    def insert(self, index, chars, *args):
        super().insert(index, chars.upper(), *args)
text, loud = Text(), Loud()
text.insert(index="end", chars="one")
text.insert("end", chars=" two")
Text.insert(text, "end", " three", "a", *(part for at in range(20) for part in (str(at % 10), ("b", "c"))))
bound = text.insert
bound("end", *("!", "c"))
loud.insert("1.0", "one")
print(text.get("1.0", "end"), loud.get("1.0", "end"), text.get("1.0", None), text.get(index2="1.3", index1="1.0"), sep="|")
for call in (lambda: bound("end"), lambda: text.get(), lambda: text.get("1.0", "1.1", "1.2"), lambda: text.get(index="1.0"),
             lambda: Text.insert("end", "x"), lambda: Text.get(3, "1.0"), lambda: text.insert("end", chr(0xd800)),
             lambda: text.insert("end", chr(0xd800) * 300), lambda: Text.index(object.__new__(Text), "1.0")):
    print(tried(call).replace("Text.", "").partition(". Did")[0])
text.insert("1.0", "é" * 257 + "\\n")
print(text.index("1.end"), text.mark_set("m", "1.5"), text.index("m"), text.tag_add("d", "1.0", "1.2"), text.tag_ranges("d"))
seen = []
text.bind("<<Modified>>", lambda event: seen.append(event.widget is text))
text.edit_modified(False)
text.insert("end", "x")
text.delete(index1="1.0")
print(seen)
print(inspect.signature(Text.mark_set), inspect.isroutine(Text.mark_set), Text.mark_set.__qualname__, text.mark_set.__name__)
print(pydoc.render_doc(Text.mark_set, renderer=pydoc.plaintext).splitlines()[2], hasattr(Text.get, "__wrapped__"))
print(tried(lambda: setattr(text.get, "x", 1)).partition(":")[0], copy.copy(text) is text)
"""
DIRECT_SAYS = """one two three01234567890123456789!
|ONE
|o|one
TypeError: insert() missing 1 required positional argument: 'chars'
TypeError: get() missing 1 required positional argument: 'index1'
TypeError: get() takes from 2 to 3 positional arguments but 4 were given
TypeError: get() got an unexpected keyword argument 'index'
TypeError: insert() missing 1 required positional argument: 'chars'
AttributeError: 'int' object has no attribute '_text'
UnicodeEncodeError: 'utf-8' codec can't encode character '\\ud800' in position 0: surrogates not allowed
UnicodeEncodeError: 'utf-8' codec can't encode characters in position 0-299: surrogates not allowed
ValueError: the widget wasn't made
1.257 None 1.5 None ('1.0', '1.2')
[True, True]
(self, markName: 'object', index: 'object') -> 'None' True Text.mark_set mark_set
mark_set(self, markName: 'object', index: 'object') -> 'None' True
AttributeError True"""

# The examples of the docstrings.
EXAMPLES = """
import doctest, tktext
finder = doctest.DocTestFinder()
# Without tkinter the error is of a module of our own.
flags = 0 if TclError.__module__ == "_tkinter" else doctest.IGNORE_EXCEPTION_DETAIL
runner = doctest.DocTestRunner(optionflags=flags)
for shown in (Text, World, Event, Change.moved, Position.moved_by, list_text, split_list):
    tests = finder.find(shown, shown.__name__, module=False, globs=vars(tktext).copy())
    bare = {test.name for test in tests if not test.examples and "._" not in test.name}
    # Those that can't be had refer to one of them.
    print(sorted(name for name in bare if not name.startswith(("Text.image_c", "Text.window_c"))))
    for test in tests: runner.run(test)
print(runner.summarize().failed)
"""

# What changed is told to each who follows the text, by whichever peer and way it came, once and in order.
FOLLOWED = """
text, told = Text(undo=True, name=".t"), []
peer, other = text.peer_create(".p"), Text(text.world, name=".u")
end = text.on_change(lambda changes: told.append([change[:3] for change in changes]))
peer.on_change(lambda changes: told.append(sum(change.removed for change in changes)))
def places(marks):
    told.append([(mark, widget, old and tuple(old), new and tuple(new)) for mark, widget, old, new in marks])
ended = text.on_marks(places)
peer.on_marks(lambda marks: told.append(len(marks)))
def show(answer):
    print(answer, told)
    told.clear()
show(text.insert("1.0", "one\\U0001f600", "x"))
show(text.world.call(".p", "delete", "1.0", "1.1", "1.2"))
show(text.edit_undo())
show(other.insert("1.0", "another text"))
show([text.tag_add("x", "1.0"), text.mark_gravity("insert", "left"), text.insert("1.0", ""), text.delete("9.0")])
show([text.mark_set("m", "1.0"), text.mark_set("m", "1.0"), text.mark_set("insert", "1.1"), peer.mark_set("m", "end")])
show((text.mark_unset("m", "n", "insert", "m"), tried(text.mark_set, "m", "nowhere"), ended(), text.mark_set("m", "1.0")))
show(tried(text.insert, "nowhere", "x"))
text.world.feed(b".p insert 1.0 y; .t get 1.0 1.1; .u insert 1.0 z\\n")
show(list(text.world.lines()))
show((text.world.give([b".t", b"get", b"1.0"]), text.world.said()))
show((text.world.give([b".t", b"replace", b"1.0", b"1.1", b"q"]), text.world.said()))
answered = text.on_change(lambda changes: len(text.get("1.0", "end")) < 9 and text.insert("end", "!"))
show(text.insert("1.0", "a"))
answered(), answered(), end()
ends = text.on_change(lambda changes: [told.append((str(change.start), *change[4:])) for change in changes])
show(peer.insert("1.1", "\\u00e9\\n\\U0001f600"))
show(peer.delete("1.1", "2.1"))
ends()
show((peer.changes(), text.insert("1.0", "b"), peer.changes(), peer.changes()))
other.peer_create(".v")
other.on_marks(places)
peer.on_marks(places)
show(text.world.call("destroy", ".t", ".v", ".x"))
show(peer.insert("1.0", "c"))
peer.destroy()
show(other.delete("1.0", "end"))
"""
FOLLOWED_SAYS = """None [[(0, 0, 'one😀')], 0]
 [[(2, 1, ''), (0, 1, '')], 2]
 [[(1, 0, 'e'), (0, 0, 'o')], 0, [('insert', '.t', (2, 'right'), (3, 'right'))], 1]
None []
[None, '', None, None] [[('insert', '.t', (3, 'right'), (3, 'left'))], 1]
[None, None, None, None] [[('m', '', None, (0, 'right'))], 1, [('insert', '.t', (3, 'left'), (1, 'left'))], 1, \
[('m', '', (0, 'right'), (5, 'right'))], 1]
(None, 'TclError: bad text index "nowhere"', None, None) [[('m', '', (5, 'right'), None)], 1, 1]
TclError: bad text index "nowhere" []
[b'\\n', b'y\\n', b'\\n'] [[(0, 0, 'y')], 0]
(0, b'y\\n') []
(0, b'\\n') [[(0, 1, 'q')], 1]
None [[(0, 0, 'a')], 0, [(6, 0, '!')], 0, [(7, 0, '!')], 0]
None [0, ('1.1', Spot(line=1, column=1, bytes=1, units=1), Spot(line=2, column=1, bytes=4, units=2))]
None [3, ('1.1', Spot(line=2, column=1, bytes=4, units=2), Spot(line=1, column=1, bytes=1, units=1))]
([], None, [Change(at=0, removed=0, inserted='b', start=Spot(line=1, column=0, bytes=0, units=0), old_end=Spot(line=1, column=0, bytes=0, units=0), new_end=Spot(line=1, column=1, bytes=1, units=1))], []) [0]
 [2, [('insert', '.v', (0, 'right'), None), ('current', '.v', (0, 'right'), None)], \
[('insert', '.t', (4, 'left'), None), ('current', '.t', (9, 'right'), None)]]
None [0]
None []
"""

# What becomes of tags is told behind it: to each of its own `sel` alone.
TAGGED = """
text, told = Text(undo=True, name=".t"), []
peer = text.peer_create(".p")
end = text.on_tags(lambda tags: told.append([tuple(change) for change in tags]))
peer.on_tags(lambda tags: told.append(len(tags)))
def show(answer):
    print(answer, told)
    told.clear()
show(text.insert("1.0", "one", ("b", "sel", "b"), "two"))
show(peer.insert("1.1", "x"))
show(text.tag_add("b", "1.2", "end"))
show(text.tag_add("b", "1.0", "1.1"))
show(text.world.call(".p", "tag", "remove", "b", "1.1", "1.2", "1.4", "1.5"))
show(text.delete("1.5", "end"))
show(text.edit_undo())
show((text.tag_add("b", "1.0", "end"), text.edit_redo(), text.edit_undo()))
show(text.tag_delete("b", "b", "none", "sel"))
text.edit_separator()
show(text.insert("1.0", "d", ("s", "t"), "e", "s", "f", "u", "g", ("s", "u")))
show((text.edit_undo(), text.edit_redo()))
show(text.edit_undo())
show(text.replace("1.0", "1.2", "zz"))
show((peer.tag_add("sel", "1.0"), text.tag_raise("sel"), text.mark_set("m", "1.1")))
end()
show((tried(text.insert, "nowhere", "a", "q"), text.insert("1.0", "a", "q")))
"""
TAGGED_SAYS = """None [[('sel', 0, 3, True), ('b', 0, 3, True)], 1]
None [[('sel', 1, 2, True), ('b', 1, 2, True)], 1]
None [[('b', 4, 8, True)], 1]
None []
 [[('b', 4, 5, False), ('b', 1, 2, False)], 2]
None [[('b', 5, 6, False)], 1]
 []
(None, '', '') [[('b', 1, 2, True), ('b', 4, 8, True)], 2, [('b', 5, 7, True)], 1]
None [[('b', 0, 8, False)], 1]
None [[('s', 0, 2, True), ('s', 3, 4, True), ('t', 0, 1, True), ('u', 2, 4, True)], 4]
('', '') []
 []
None []
(None, None, None) [1]
('TclError: bad text index "nowhere"', None) [1]
"""

# ---------------------------------------------------------------------------------------------------
# Reports: each change reaches those who follow a text once and in order, whatever runs in between.

# Copies of a text by `on_change` and by `changes`, and of the tag `a` by `on_tags`; `compare` returns those that differ.
FOLLOWING = r"""
class Copies:
    def __init__(self, text):
        self.text, self.followed, self.polled, self.tagged = text, text.get("1.0", "end"), text.get("1.0", "end"), set()
        text.changes()
        self.ends = [text.on_tags(self.take_tags), text.on_change(self.take)]
    def take(self, changes):
        for change in changes:
            self.followed = change.made_in(self.followed)
            end, growth = change.at + change.removed, len(change.inserted) - change.removed
            if self.tagged:
                self.tagged = {at if at < end else at + growth for at in self.tagged if not change.at <= at < end}
    def take_tags(self, changes):
        for change in changes:
            if change.tag == "a": self.tagged = change.made_in(self.tagged)
    def compare(self):
        for change in self.text.changes():
            self.polled = change.made_in(self.polled)
        now, starts = self.text.get("1.0", "end"), [0]
        for line in now.split("\n"):
            starts.append(starts[-1] + len(line) + 1)
        ends = (index.split(".") for index in self.text.tag_ranges("a"))
        places = [starts[int(line) - 1] + int(char) for line, char in ends]
        tagged = {at for start, end in zip(places[::2], places[1::2]) for at in range(start, end)}
        found = {"on_change": self.followed == now, "changes": self.polled == now, "on_tags": self.tagged == tagged}
        return [name for name, is_same in found.items() if not is_same]
"""

# The handler of a signal inserts text while text is inserted.
BY_SIGNAL = FOLLOWING + r"""
import signal
text = Text()
copies = Copies(text)
signal.signal(signal.SIGALRM, lambda *_: text.insert("1.0", "z"))
signal.setitimer(signal.ITIMER_REAL, 0.0003, 0.0003)
for _ in range(20_000):
    text.insert("end", "ab")
while text.get("1.0") != "z": pass
signal.setitimer(signal.ITIMER_REAL, 0)
print(copies.compare())
"""

# A finalizer that the garbage collector runs inserts text.
BY_COLLECTOR = FOLLOWING + r"""
import gc
class Inserting:
    def __init__(self): self.itself = self
    def __del__(self): text.insert("1.0", "z", "a")
text = Text()
copies = Copies(text)
for number in range(1000):
    gc.set_threshold(3)
    Inserting()
    text.insert("end", "ab", "x", "cd", "a", "ef")
    gc.set_threshold(0)
    if copies.compare(): print(number, copies.compare())
print(text.get("1.0"))
"""

# Two threads edit one text, and a third one reads it.
BY_THREADS = FOLLOWING + r"""
sys.setswitchinterval(1e-5)
text = Text(undo=True)
peer = text.peer_create(".p")
copies = Copies(text)
def work(widget, letter):
    for number in range(1500):
        widget.insert("1.0", letter, "" if number % 3 else "a")
        if number % 5 == 0: widget.tag_remove("a", "1.0")
        if number % 7 == 0: widget.delete("1.1")
def read():
    while any(thread.is_alive() for thread in threads):
        text.get("1.0", "1.5")
threads = [threading.Thread(target=work, args=arguments) for arguments in ((text, "x"), (peer, "y"))]
reader = threading.Thread(target=read)
for thread in threads: thread.start()
reader.start()
for thread in (*threads, reader): thread.join()
print(copies.compare())

# What a thread's own command changed is there when it calls `changes`, and each change is returned to one thread.
text, returned, late = Text(), [], []
text.changes()
text.on_change(lambda changes: None)
def ask(letter):
    own = []
    for number in range(1500):
        text.insert("1.0", f"{letter}{number} ")
        own += [change.inserted for change in text.changes()]
    returned.extend(own)
threads = [threading.Thread(target=ask, args=(letter,)) for letter in "xy"]
for thread in threads: thread.start()
for thread in threads: thread.join()
print(len(returned), len(set(returned)), text.changes())
"""
BY_THREADS_SAY = """[]
3000 3000 []"""

# A follower edits, and another one copies; whichever is called first, both get the changes in their order.
BY_FOLLOWERS = FOLLOWING + r"""
for is_first in (True, False):
    text = Text()
    peer = text.peer_create(".p")
    def trim(changes):
        if int(text.index("end").split(".")[0]) > 4: text.delete("1.0", "2.0")
    if is_first: peer.on_change(trim)
    copies = Copies(text)
    if not is_first: peer.on_change(trim)
    for word in "one two three four five six".split(): text.insert("end", word + "\n", "a")
    print(copies.compare(), repr(text.get("1.0", "end")))

# A follower of tags by one peer is called after a follower of the text by another one.
text, heard = Text(), []
peer = text.peer_create(".p")
text.on_tags(lambda changes: heard.append("tags"))
peer.on_change(lambda changes: heard.append("text"))
text.insert("1.0", "x", "a")
print(heard)

# Whoever begins to follow after a command hears nothing of it, and whoever has ended nothing more.
text, heard = Text(), []
def begin(changes):
    if changes[0].inserted == "one":
        text.insert("end", "two")
        ends[0]()
        text.on_change(lambda changes: heard.append(("late", changes[0].inserted)))
text.on_change(begin)
ends = [text.on_change(lambda changes: heard.append(("ended", changes[0].inserted)))]
text.insert("1.0", "one")
text.insert("1.0", "three")
print(heard)

# The widgets that hear of a change are those that showed the text when it was made.
text, heard = Text(name=".t"), []
peer = text.peer_create(".p")
def swap(changes):
    if changes[0].inserted == "one":
        text.insert("1.0", "two")
        text.world.call("destroy", ".p")
        text.world.call("text", ".p")
text.on_change(swap)
peer.on_change(lambda changes: heard.append(changes[0].inserted))
text.insert("1.0", "one")
text.insert("1.0", "three")
print(heard)

# Each follower is called with a list of its own, and what it raises is printed.
import io
text, heard = Text(), []
text.on_change(lambda changes: changes.clear())
text.on_change(lambda changes: heard.append(len(changes)))
text.on_change(lambda changes: 1 / 0)
text.on_change(lambda changes: heard.append("after"))
errors, sys.stderr = sys.stderr, io.StringIO()
text.insert("1.0", "x")
printed, sys.stderr = sys.stderr.getvalue().splitlines(), errors
print(heard, printed[0], printed[-1])
"""
BY_FOLLOWERS_SAY = r"""[] 'five\nsix\n\n'
[] 'five\nsix\n\n'
['text', 'tags']
[('late', 'three')]
['one', 'two']
[1, 'after'] Exception in Tkinter callback ZeroDivisionError: division by zero"""

# A follower takes away the widget, its world, itself or another follower.
TAKEN_AWAY = r"""
import gc, weakref
def case(what, take):
    heard, text = [], Text(name=".t")
    text.on_change(lambda changes: heard.append(changes[0].inserted))
    def taking(changes):
        if changes[0].inserted == "one":
            text.insert("end", "two")
            take(text, ends)
    ends = [text.on_change(taking)]
    ends += [text.on_change(lambda changes: heard.append(changes[0].inserted.upper()))]
    print(what, tried(text.insert, "1.0", "one"), heard)
    heard.clear()
    print("..", tried(text.insert, "1.0", "three"), heard)
def remake(text, ends):
    text.world.close()
    text.world.__init__()
    text.world.call("text", ".t")
case("destroyed", lambda text, ends: text.destroy())
case("destroyed by its name", lambda text, ends: text.world.call("destroy", ".t"))
case("closed", lambda text, ends: text.world.close())
case("closed and made again", remake)
case("ended itself", lambda text, ends: ends[0]())
case("ended another", lambda text, ends: ends[1]())

# A world that is made again is followed as any other.
text = Text(name=".t")
print(text.changes(), text.insert("1.0", "one"))
text.world.close()
print([change.inserted for change in text.changes()])
text.world.__init__()
text.world.call("text", ".t")
print(text.changes(), text.insert("1.0", "two"), [change.inserted for change in text.changes()])

# A function is called though it is false.
class Empty(list):
    def __call__(self, changes): print(changes[0].inserted)
text.on_change(Empty())
text.insert("1.0", "three")

# The last reference to the world goes within a follower.
held = [Text()]
gone = weakref.ref(held[0].world)
held[0].on_change(lambda changes: (held.clear(), gc.collect()))
held[0].insert("1.0", "one")
gc.collect()
print(gone())

# A text that nothing follows goes with its last reference, and so does one that was followed, after a collection.
gc.disable()
text = Text()
text.insert("1.0", "one")
gone = weakref.ref(text), weakref.ref(text.world)
del text
print(*(reference() for reference in gone))
gc.enable()

# A world goes with what is queued and what `changes` would return, however much that is, and with a small stack.
def leave(changes): raise KeyboardInterrupt
def drop(is_closed):
    text = Text()
    text.changes()
    for number in range(20_000): text.mark_set("m", f"1.{number % 2}") if number else text.insert("1.0", "ab")
    text.on_change(leave)
    text.on_change(lambda changes: print(text))
    for _ in range(2):
        try: text.insert("1.0", "c")
        except KeyboardInterrupt: pass
    gone = weakref.ref(text), weakref.ref(text.world)
    if is_closed:
        text.world.close()
        print([change.inserted for change in text.changes()])
    del text
    gc.collect()
    print(*(reference() for reference in gone))
threading.stack_size(2**18)
for is_closed in (True, False):
    thread = threading.Thread(target=drop, args=(is_closed,))
    thread.start()
    thread.join()
"""
TAKEN_AWAY_SAYS = r"""destroyed None ['one']
.. TclError: invalid command name ".t" []
destroyed by its name None ['one', 'ONE', 'two', 'TWO']
.. TclError: invalid command name ".t" []
closed None ['one']
.. ValueError: the world was closed []
closed and made again None ['one']
.. None []
ended itself None ['one', 'ONE', 'two', 'TWO']
.. None ['three', 'THREE']
ended another None ['one', 'two']
.. None ['three']
[] None
['one']
[] None ['two']
three
None
None None
.!text
['ab', 'c', 'c']
None None
.!text
None None"""

# KeyboardInterrupt leaves a follower, which isn't called again with the same; the rest comes with the next command.
LEFT_BY_INTERRUPT = FOLLOWING + r"""
text, heard = Text(), []
def first(changes):
    heard.append(changes[0].inserted)
    if changes[0].inserted == "one":
        text.insert("end", "two")
        raise KeyboardInterrupt
text.on_change(first)
copies = Copies(text)
try:
    text.insert("1.0", "one")
except KeyboardInterrupt:
    print(heard, repr(copies.followed))
text.mark_set("m", "1.0")
print(heard, copies.compare())

# It comes from the handler of a signal, at any time: a follower that runs no code of Python's lacks no change.
import signal
def handler(*_): raise KeyboardInterrupt
text, interrupts, heard = Text(), 0, []
text.changes()
text.on_change(heard.extend)
signal.signal(signal.SIGALRM, handler)
while interrupts < ROUNDS:
    try:
        signal.setitimer(signal.ITIMER_REAL, 0.0002 + 1e-6 * interrupts)
        for _ in range(1000):
            text.insert("end", "x")
            text.world.call(".!text", "insert", "end", "y")
        signal.setitimer(signal.ITIMER_REAL, 0)
    except KeyboardInterrupt:
        interrupts += 1
signal.setitimer(signal.ITIMER_REAL, 0)
text.insert("end", "z")
print(heard == text.changes(), "".join(change.inserted for change in heard) == text.get("1.0", "end-1c"))
"""
LEFT_BY_INTERRUPT_SAYS = r"""['one'] '\n'
['one', 'two'] []
True True"""

# The line of a command is its own, also if followers and events carry out others.
LINES = r"""
text = Text(name=".t")
text.on_change(lambda changes: (text.world.call(".t", "get", "1.0", "end"), text.world.give([b".t", b"index", b"end"])))
text.bind("<<Modified>>", lambda event: text.edit_modified(False))
world = text.world
world.feed(b".t insert 1.0 ab; .t index end-1c; .t foo; .t insert 1.0 x\n")
print([line == world.said() and line for line in world.lines()])
for words in (b".t insert 1.0 q", b".t index 1.end", b".t foo", b".t delete 1.0"):
    print((world.give(words.split()), world.said()))
world.call(".t", "insert", "1.0", "z")
world.feed(b"text [x]\n")
print(list(world.lines()), list(world.lines()), world.status())
"""
LINES_SAY = r"""[b'\n', b'1.2\n', b'error: bad option "foo"\n', b'\n']
(0, b'\n')
(0, b'1.4\n')
(1, b'error: bad option "foo"\n')
(0, b'\n')
[b"error: substitution isn't supported\n"] [] 2"""

# Each of Python's own allocations is refused in a world that is followed: no change is lost, though MemoryError may come
# after the command.  If a follower can't be called, that is an error of its own, and printed.
REFUSED = FOLLOWING + r"""
try:
    from _testcapi import remove_mem_hooks, set_nomemory
except ImportError:
    print("skipped: it wants Python's own module _testcapi")
    sys.exit()
import io
class Safe(Copies):
    def take(self, changes):
        remove_mem_hooks()
        super().take(changes)
    def take_tags(self, changes):
        remove_mem_hooks()
        super().take_tags(changes)
def is_refused(number, call):
    set_nomemory(number, number + 1)
    try:
        call()
    # CPython 3.11 and 3.12 have a SystemError where a frame is refused.
    except (MemoryError, SystemError):
        return True
    finally:
        remove_mem_hooks()
    return False
text = Text()
peer = text.peer_create(".p")
world, errors, refused, carried_out = text.world, sys.stderr, 0, 0
calls = (lambda: text.insert("1.1", "abc", "a", "d", "b"), lambda: peer.insert("1.1", "x" * 2000, "a"),
         lambda: text.delete("1.0"), lambda: world.call(".p", "insert", "1.0", "zz"), lambda: next(world.lines(), None),
         lambda: world.give([b".p", b"insert", b"1.0", b"zz"]), lambda: peer.tag_remove("a", "1.0", "end"))
for call in calls:
    for number in range(60):
        text.delete("1.0", "end")
        text.insert("1.0", "one two")
        world.feed(b".!text insert 1.0 fed\n")
        copies, before, sys.stderr = Safe(text), text.get("1.0", "end"), io.StringIO()
        was_refused = is_refused(number, call)
        printed, sys.stderr = sys.stderr.getvalue(), errors
        refused += was_refused
        carried_out += was_refused and text.get("1.0", "end") != before
        text.index("1.0")
        if copies.compare() and not printed: print(number, copies.compare())
        for end in copies.ends: end()
print(refused > 100, carried_out > 0)
"""

# ---------------------------------------------------------------------------------------------------
# Interpreters in one process

# Interpreters that imported the package end, of those that share a lock and of those that have their own, if there are
# such, and the others go on.  Two of the latter run at once.
INTERPRETERS = r"""
try:
    try: import _interpreters as interpreters
    except ImportError: import _xxsubinterpreters as interpreters
except ImportError:
    print("skipped: this Python has no module of interpreters")
    sys.exit()
WITHIN = f"import sys; sys.path[:] = {sys.path!r}" + r'''
from tktext import *
text, heard = Text(), []
text.on_change(lambda changes: heard.append(len(changes)))
for number in range(200): text.insert("1.0", ["x", number], "a")
try: text.index("foo")
except TclError as error: fault = error.fault
assert (text.get("1.0", "1.5"), len(heard), fault) == ("x 199", 200, 'bad text index "foo"')
'''
def legacy():
    if sys.version_info >= (3, 13): return interpreters.create("legacy")
    return interpreters.create(isolated=False) if sys.version_info >= (3, 10) else interpreters.create()
def run(interpreter):
    try: fault = interpreters.run_string(interpreter, WITHIN)
    except Exception as error: fault = error
    if fault is not None: print(fault)
def work():
    text = Text()
    for value in (["a", "b c"], 5, True, 1.5, b"q"): text.insert("1.0", value)
    return text.get("1.0", "1.end"), tried(text.index, "foo"), isinstance(text, Text)
before = work()
for create in (legacy, interpreters.create):
    for _ in range(3):
        interpreter = create()
        run(interpreter)
        if work() != before: print("other answers next to it")
        interpreters.destroy(interpreter)
        if work() != before: print("other answers after it")
pair = [interpreters.create() for _ in range(2)]
threads = [threading.Thread(target=run, args=(interpreter,)) for interpreter in pair]
for thread in threads: thread.start()
for thread in threads: thread.join()
for interpreter in pair: interpreters.destroy(interpreter)
print(before)
"""
INTERPRETERS_SAY = """('q1.515a {b c}', 'TclError: bad text index "foo"', True)"""


def cases(rounds):
    """The name of each case, its script, and what it prints."""
    def of(script):
        return script.replace("ROUNDS", str(rounds))

    yield "threads on one world", of(ONE_WORLD), "done"
    yield "threads on worlds of their own", of(EIGHT_WORLDS), "done"
    yield "threads on a world that is closed", of(CLOSED_BY_ANOTHER), "set()"
    yield "a call within a call", REENTRANT, REENTRANT_SAYS
    yield "a call within the words of a call", WITHIN_WORDS, WITHIN_WORDS_SAY
    yield "interrupted calls", of(INTERRUPTED), "1.200000\nTrue 2.0"
    yield "scripts in pieces", SCRIPTS, SCRIPTS_SAY
    yield "limits", LIMITS, LIMITS_SAY
    yield "the room that is kept", ROOM, "True True True\nTrue"
    yield "copies", COPIES, COPIES_SAY
    yield "lengths", LENGTHS, LENGTHS_SAY
    puts, said = "".join(f"put({value})\n" for value, _ in PUT), "\n".join(said for _, said in PUT)
    yield "values that are put in", VALUES_HEAD + puts, said
    yield "values of methods", VALUES, VALUES_SAY
    yield "faults that say more", FAULTS, FAULTS_SAY
    yield "what is left", LEFT, LEFT_SAYS
    yield "calls by position", DIRECT, DIRECT_SAYS
    yield "a text that is followed", FOLLOWED, FOLLOWED_SAYS.rstrip()
    yield "tags that are followed", TAGGED, TAGGED_SAYS.rstrip()
    yield "changes by the handler of a signal", BY_SIGNAL, "[]"
    yield "changes by a finalizer", BY_COLLECTOR, "z"
    yield "changes by threads", BY_THREADS, BY_THREADS_SAY
    yield "changes by followers", BY_FOLLOWERS, BY_FOLLOWERS_SAY
    yield "what a follower takes away", TAKEN_AWAY, TAKEN_AWAY_SAYS
    yield "a follower that is interrupted", of(LEFT_BY_INTERRUPT), LEFT_BY_INTERRUPT_SAYS
    yield "lines of a world that is followed", LINES, LINES_SAY
    yield "memory that is refused to Python", REFUSED, "True True"
    yield "several interpreters", INTERPRETERS, INTERPRETERS_SAY
    yield "the examples of the docstrings", EXAMPLES, "[]\n" * 7 + "0"
    yield "random values", TKINTER, "done"


def check_case(module, name, script, wanted, tally):
    """One case: what it prints and its end, or its script is shown."""
    environment = dict(os.environ, PYTHONPATH=module, PYTHONIOENCODING="utf-8")
    try:
        done = subprocess.run(
            [sys.executable, "-c", HEAD + script], capture_output=True, env=environment, timeout=LONG_TIMEOUT_SECONDS
        )
    except subprocess.TimeoutExpired:
        tally.failed(f"Python, {name}: no end; the script:\n{HEAD}{script}")
        return
    said = done.stdout.decode("utf-8", "replace").rstrip("\n")
    if said.startswith("skipped: "):
        print(f"skipped: Python, {name}: {said.partition(' ')[2]}")
        return
    if (said, done.returncode, done.stderr) == (wanted, 0, b""):
        tally.passed()
        return
    errors = done.stderr[-900:].decode("utf-8", "replace")
    ended = f"Python, {name}: status {done.returncode}\n{said}\n{errors}\nwanted\n{wanted}"
    tally.failed(f"{ended}\nthe script:\n{HEAD}{script}")


def check_types(module, tally):
    """The package's annotations, by mypy."""
    if shutil.which("mypy") is None:
        print("skipped: the Python package's annotations aren't checked, which wants mypy (Debian: apt-get install mypy)")
        return
    words = ["mypy", "--strict", "--no-incremental", os.path.join(module, "tktext")]
    done = subprocess.run(words, capture_output=True, text=True, timeout=LONG_TIMEOUT_SECONDS)
    tally.check(done.returncode == 0, f"mypy: {done.stdout}{done.stderr}")


def check_free_threads(tally):
    """The extension isn't compiled for a Python without the global interpreter lock, and says why."""
    if not build_python.can_build():
        print(f"skipped: the extension isn't compiled without a lock, which wants {build_python.WANTED}")
        return
    words = ["cc", "-fsyntax-only", "-DPy_GIL_DISABLED", *build_python.includes(), *build_python.sources()]
    done = subprocess.run(words, capture_output=True, text=True, timeout=LONG_TIMEOUT_SECONDS)
    says_why = "tktext needs a Python with the global interpreter lock" in done.stderr
    tally.check(done.returncode != 0 and says_why, f"the extension without a lock: {done.stderr[-900:]}")


def check_returns(tally):
    """No source uses `Py_RETURN_NONE` or its like, which the headers of 3.12 compile to no reference: older Pythons, for
    which the extension is too, count those and would crash."""
    for path in build_python.sources():
        with open(path, encoding="utf-8") as file:
            tally.check("Py_RETURN_" not in file.read(), f"{path} returns None, True or False without a reference")


def check(module, rounds, tally):
    """Each case, of the package in a folder."""
    for name, script, wanted in cases(rounds):
        check_case(module, name, script, wanted, tally)
    check_types(module, tally)
    check_free_threads(tally)
    check_returns(tally)


if __name__ == "__main__":
    sys.exit(run_checks("what a caller may do to the Python package", check, module=MODULE, rounds=ROUNDS))
