#!/usr/bin/env python3
"""Asks tkinter's Text under a virtual display and ours the same, and compares what each gives, and its type.

    python3 tools/python_probes.py [--module out/python] [--python /usr/bin/python3]

A probe is some statements and then an expression, on a new widget `t` of three lines with the tag `a` and the mark `m`.
Both run by a Python that has tkinter, and `xvfb-run`; where one isn't there, that is said and counted as skipped.  An
object of Tcl's is compared by its text, and of an error its class.  Ends in a line `N passed, M failed`; the exit
status is 1 if anything failed.
"""

import json
import os
import shutil
import subprocess
import sys

from harness import LONG_TIMEOUT_SECONDS, run_checks

TOP = os.path.dirname(os.path.dirname(os.path.abspath(__file__)))
MODULE = os.path.join(TOP, "out", "python")
# Debian's, whose package python3-tk has tkinter.
PYTHON = "/usr/bin/python3"
WANTED = "python3-tk and xvfb (Debian: apt-get install python3-tk xvfb)"
PLACES = ("1.0", "1.3", "1.99", "2.end", "end", "end-1c", "insert", "m", "m+2c", "a.first", "a.last", "1.0 lineend",
          "2.2 linestart", "1.5 wordstart", "1.5 wordend", "2.0 + 1 lines", "3.0-1l", "0.5", "-1.0", "99.0", "foo",
          "", "1.x", "1.0 + foo", "sel.first", "1.4 + 2 indices", "1.0 + 99 chars", "end - 99 lines")
# One line each; what stands before the last semicolon is carried out, and what is behind it is asked.
OTHERS = """
str(t)
str(type(t)(t.master)), str(type(t)(t.master))
t.get("1.0", "end")
t.get("1.0")
t.get("end")
t.get("2.0", "1.0")
t.get("foo")
t.get(1.0, 2.0)
t.get()
t.insert("1.0", "x")
t.insert("1.0", None)
t.insert(END, "x", "b", "y", ("c",)); t.dump("3.0", "end")
t.insert("1.0", 5, "b"); t.get("1.0", "1.3")
t.insert("1.0", True); t.get("1.0")
t.insert("1.0", 1.5); t.get("1.0", "1.4")
t.insert("1.0", ["a", "b c"]); t.get("1.0", "1.8")
t.insert("1.0", b"q"); t.get("1.0")
t.insert("foo", "x")
t.insert("1.0", "é\\u20ac"); t.get("1.0", "1.2")
t.delete("1.0"); t.get("1.0", "1.end")
t.delete("1.0", "2.0"); t.get("1.0", "end")
t.delete("1.0", "end"); t.get("1.0", "end")
t.delete("end"); t.get("1.0", "end")
t.delete("1.0", None); t.get("1.0", "end")
t.delete("foo")
t.replace("1.0", "1.3", "ONE", "b"); t.dump("1.0", "1.end")
t.replace("1.3", "1.0", "x")
t.replace("1.0", "1.1", None)
t.compare("1.0", "<", "2.0")
t.compare("1.0", "==", "2.0")
t.compare("1.0", "=", "2.0")
t.compare("1.0", "<", "foo")
t.count("1.0", "end")
t.count("1.0", "1.0")
t.count("2.0", "1.0")
t.count("1.0", "end", "chars")
t.count("1.0", "end", "lines")
t.count("1.0", "end", "chars", "lines")
t.count("1.0", "1.0", "chars", "lines")
t.count("1.0", "end", "indices", "chars", "lines")
t.count("1.0", "end", "update", "chars")
t.count("1.0", "1.0", "update")
t.count("1.0", "1.3", "update")
t.count("1.0", "end", "displaychars")
t.count("1.0", "end", "displayindices")
t.count("1.0", "end", "foo")
t.count("1.0", "foo")
t.search("t", "1.0")
t.search("zz", "1.0")
t.search("-", "1.0")
t.search("", "1.0")
t.search("t", "foo")
t.search("T", "1.0")
t.search("T", "1.0", nocase=True)
t.search("t", "end", backwards=True)
t.search("three", "1.0", "2.0")
t.search("one", "2.0")
t.search("one", "2.0", "end")
t.search("t", "1.0", END, forwards=1, exact=1)
t.search("two", 1.0)
t.search(None, "1.0")
v = Variable(); t.search("two", "1.0", count=v), int(v.get())
v = Variable(); v.set(9); t.search("zz", "1.0", count=v), int(v.get())
v = Variable(); t.search("TW", "1.0", nocase=1, count=v), int(v.get())
t.dump("1.0", "end")
t.dump("1.0")
t.dump("1.0", "end", text=True)
t.dump("1.0", "end", mark=True)
t.dump("1.0", "end", tag=True)
t.dump("1.0", "end", tag=True, mark=True)
t.dump("1.0", "end", all=True)
t.dump("1.0", "end", image=True)
t.dump("1.0", "end", window=True, text=False)
t.dump("1.0", "end", foo=True)
t.dump("foo")
l = []; t.dump("1.0", "2.0", command=lambda *x: l.append(x)), l
t.tag_add("b", "1.0"); t.tag_ranges("b")
t.tag_add("b", "1.0", "1.2", "2.0", "2.2"); t.tag_ranges("b")
t.tag_add("b", "1.0", "1.0"); t.tag_names()
t.tag_add("b", "foo")
t.tag_add("b", "1.0")
t.tag_remove("a", "1.0", "1.2"); t.tag_ranges("a")
t.tag_remove("zz", "1.0")
t.tag_names()
t.tag_names("1.0")
t.tag_names("3.0")
t.tag_names(None)
t.tag_ranges("a")
t.tag_ranges("zz")
t.tag_nextrange("a", "1.0")
t.tag_nextrange("a", "2.0")
t.tag_nextrange("a", "1.0", "1.1")
t.tag_prevrange("a", "end")
t.tag_prevrange("a", "1.0")
t.tag_prevrange("zz", "1.0")
t.tag_raise("sel"); t.tag_names()
t.tag_lower("a"); t.tag_names()
t.tag_raise("sel", "a"); t.tag_names()
t.tag_raise("zz")
t.tag_lower("a", "zz")
t.tag_delete("a"); t.tag_names()
t.tag_delete("a", "zz")
t.tag_delete("sel"); t.tag_names()
t.tag_configure("b", foreground="red"); t.tag_names()
t.tag_configure("b", foreground="red"); t.tag_cget("b", "foreground")
t.tag_configure("b", fg="red")
t.tag_configure("b", {"underline": 1}); t.tag_cget("b", "underline")
t.tag_configure("b", underline=True); t.tag_cget("b", "-underline")
t.tag_configure("b", "underline")
t.tag_configure("b")
t.tag_configure("b", foo=1)
t.tag_configure("b", spacing1=3, lmargin1=2); t.tag_cget("b", "spacing1"), t.tag_cget("b", "lmargin1")
t.tag_cget("zz", "underline")
t.tag_cget("a", "foo")
t.tag_cget("a", "wrap")
t.tag_config("a", wrap="none"); t.tag_cget("a", "wrap")
type(t.tag_bind("a", "<1>", print))
t.tag_bind("a", "<1>", print); t.tag_unbind("a", "<1>")
t.mark_set("x", "1.1")
t.mark_set("x", "1.1"); sorted(t.mark_names())
t.mark_set("x", "foo")
t.mark_unset("m"); t.mark_names()
t.mark_unset("m", "zz", "insert"); t.mark_names()
t.mark_names()
t.mark_next("1.0")
t.mark_next("m")
t.mark_next("foo")
t.mark_next("current")
t.mark_previous("end")
t.mark_previous("1.0")
t.mark_gravity("m")
t.mark_gravity("m", "left")
t.mark_gravity("m", "left"); t.mark_gravity("m")
t.mark_gravity("m", "up")
t.mark_gravity("zz")
t.edit_modified()
t.edit_modified(False)
t.edit_modified(False); t.edit_modified()
t.edit_modified("x")
t.edit_modified(1); t.edit_modified()
t.edit("modified")
t.edit("canundo"), t.edit("canredo")
t.edit_undo(); t.edit("canundo"), t.edit("canredo")
t.edit_reset(); t.edit("canundo"), t.edit("canredo")
t.configure(undo=False); t.edit("canundo"), t.edit("canredo")
t.edit("canundo", "x")
t.edit("foo")
t.edit()
t.edit_undo()
t.edit_undo(); t.get("1.0", "end")
t.edit_undo(); t.edit_redo(); t.get("1.0", "end")
t.edit_undo(); t.edit_redo()
t.edit_redo()
t.edit_reset()
t.edit_reset(); t.edit_undo()
t.edit_separator()
t.edit_separator(); t.insert("1.0", "x"); t.edit_undo(); t.get("1.0", "1.end")
t.configure(undo=False); t.edit_undo()
t["undo"]
t["state"]
t["maxundo"]
t["autoseparators"]
t["startline"]
t["width"]
t["bd"]
t["borderwidth"]
t["font"]
t["wrap"]
t["tabs"]
t["xscrollcommand"]
t["foo"]
t.cget("undo")
t.cget("bg")
t.configure("undo")
t.configure("width")
t.configure("wrap")[-1]
t.configure("bd")[0]
t.configure("foo")
t.configure("state")[0]
sorted(t.configure())
{k: v[-1] for k, v in t.configure().items() if k != "selectborderwidth"}
{k: v[:-1] for k, v in t.configure().items()}
t.configure(undo=0); t["undo"]
t.configure(undo=True); t["undo"]
t.configure(undo="yes"); t["undo"]
t.configure(maxundo=7); t["maxundo"]
t.configure(maxundo="x")
t.configure(state="disabled"); t["state"]
t.configure(state="disabled"); t.insert("1.0", "x"); t.get("1.0", "1.end")
t.configure(state="off")
t.configure(foo=1)
t.configure({"width": 20}); t["width"]
t.configure(width="20"); t["width"]
sorted(t.configure(None))
t.configure(width=20)
t.configure({"width": 20}, height=3); t["width"], t["height"]
t.config(bg="red"); t["background"], t["bg"]
t.configure(bd=3); t["borderwidth"]
t.configure(exportselection=False); t["exportselection"]
t.configure(font=("Courier", 12)); t["font"]
t.configure(font="Courier 12"); t["font"]
t.configure(tabs=("1c", "2c")); t["tabs"]
t.configure(tabs="1c 2c"); t["tabs"]
t.configure(wrap="word"); t["wrap"]
t.configure(relief="flat", padx=5); t["relief"], t["padx"]
t.configure(startline=2); t["startline"], t.get("1.0", "1.end")
t.configure(startline=2, endline=3); t.get("1.0", "end")
t.configure(startline=3, endline=2)
t.configure(endline=2); t.configure(endline=""); t["endline"]
t["height"] = 5; t["height"]
t.keys()
t.peer_names()
t.peer_create(".p"); t.peer_names()
t.peer_create(".!text")
t.peer_create("x")
t.peer_create(".p", {"startline": 2}); t.peer_names()
t.bbox("1.0")
t.bbox("foo")
t.bbox(None)
t.dlineinfo("1.0")
t.dlineinfo("foo")
t.see("end")
t.see("foo")
type(t.yview())
type(t.xview())
t.yview("moveto", 0.5)
t.yview_moveto(0.5)
t.yview_scroll(1, "units")
t.xview_moveto(0)
t.xview_scroll(1, "units")
t.yview_pickplace("1.0")
t.scan_mark(1, 1)
t.scan_dragto(2, 2)
t.debug()
t.debug(True); t.debug()
t.debug(True), t.debug(False)
t.debug("x")
t.image_create("1.0")
t.image_cget("1.0", "align")
t.image_configure("1.0", align="top")
t.window_names()
t.window_cget("1.0", "align")
t.window_configure("1.0", align="top")
t.update()
t.update_idletasks()
t.focus_set()
t.destroy()
t.destroy(); t.index("end")
type(t.bind("<<Modified>>", print))
t.bind("<<Modified>>", print); t.bind()
t.bind("<<Modified>>", print); t.unbind("<<Modified>>"); t.bind()
t.bind("<<Modified>>")
e = watch(t); t.edit_modified(0); seen(e)
e = watch(t); t.edit_modified(0); seen(e); t.insert("1.0", "x"); seen(e)
e = watch(t); t.insert("1.0", "x"); seen(e)
e = watch(t); t.edit_modified(1); seen(e)
e = watch(t); t.edit_undo(); seen(e)
e = watch(t); t.tag_add("sel", "1.0", "1.2"); seen(e)
e = watch(t); t.tag_add("b", "1.0", "1.2"); seen(e)
e = watch(t); t.tag_add("sel", "1.0", "1.2"); seen(e); t.tag_remove("sel", "1.0", "end"); seen(e)
e = watch(t); t.tag_remove("sel", "1.0", "end"); seen(e)
e = watch(t); t.event_generate("<<Modified>>"); seen(e)
e = watch(t); t.tag_add("sel", "1.0", "1.2"); t.tag_add("sel", "1.2", "1.4"); seen(e)
t.unbind("<<Modified>>")
issubclass(type(t), object), bool(t)
Text(None, {"undo": True})["undo"]
Text(t.master, {"undo": True}, undo=False)["undo"]
Text(t.master, undo=None)["undo"]
Text(t.master, width=3, bg="red")["width"]
Text(t.master, foo=1)
Text(t.master, class_="x")
str(Text(t.master, name="abc"))
str(Text(t))
END, INSERT, CURRENT, SEL, SEL_FIRST, SEL_LAST
TclError.__name__
t.tag_add(SEL, "1.0", "1.2"); t.index(SEL_FIRST), t.index(SEL_LAST)
t.mark_set(INSERT, "1.2"); t.index(INSERT)
""".strip().splitlines()
# What ours gives otherwise: a line below 1 is no index (docs/differences.md), and nothing is shown.
OTHERWISE = {'t.index("-1.0")': "TclError", 't.bbox("1.0")': "None", 't.dlineinfo("1.0")': "None"}
RUNNER = """
import ast, json, sys
if sys.argv[1] == "tkinter":
    from tkinter import *
else:
    from tktext import *
    class Variable:
        value = ""
        def set(self, value): self.value = value
        def get(self): return self.value
def watch(text):
    events = []
    text.update()
    for name in ("<<Modified>>", "<<Selection>>"):
        text.bind(name, lambda event, name=name: events.append(name))
    return events
def seen(events):
    t.update()
    told = sorted(set(events))
    events.clear()
    return told
def plain(value):
    if type(value).__name__ == "Tcl_Obj": return str(value)
    if isinstance(value, dict): return {key: plain(part) for key, part in value.items()}
    if isinstance(value, (tuple, list)): return type(value)(map(plain, value))
    return value
def answer(probe):
    *done, asked = ast.parse(probe).body
    names = {**globals()}
    try:
        exec(compile(ast.Module(done, []), probe, "exec"), names)
        return repr(plain(eval(compile(ast.Expression(asked.value), probe, "eval"), names)))
    except Exception as error:
        return type(error).__name__
answers = []
for probe in json.load(sys.stdin):
    root = Tk() if sys.argv[1] == "tkinter" else World()
    t = Text(root, undo=True)
    t.insert("1.0", "one two\\nthree-four five\\nsix")
    t.tag_add("a", "1.4", "1.7")
    t.mark_set("m", "2.2")
    answers.append(answer(probe))
    if sys.argv[1] == "tkinter": root.destroy()
json.dump(answers, sys.stdout)
"""


def probes():
    return [f't.index("{place}")' for place in PLACES] + OTHERS


def can_run(python):
    """Whether both can be run."""
    if shutil.which("xvfb-run") is None or shutil.which(python) is None:
        return False
    return subprocess.run([python, "-c", "import tkinter"], capture_output=True).returncode == 0


def answers(words, module, which):
    """What each probe gives."""
    environment = dict(os.environ, PYTHONPATH=module, PYTHONIOENCODING="utf-8")
    done = subprocess.run(
        [*words, "-c", RUNNER, which], input=json.dumps(probes()).encode(), capture_output=True, env=environment,
        timeout=LONG_TIMEOUT_SECONDS,
    )
    if done.returncode:
        sys.exit(done.stderr.decode("utf-8", "replace"))
    return json.loads(done.stdout)


def check(module, python, tally):
    """Compares each probe's answers."""
    if not can_run(python):
        print(f"skipped: probes aren't compared with tkinter's, which wants {WANTED}")
        return
    theirs = answers(["xvfb-run", "-a", python], module, "tkinter")
    ours = answers([python], module, "tktext")
    for probe, their, our in zip(probes(), theirs, ours):
        tally.check(our == OTHERWISE.get(probe, their), f"{probe}: {our}, and by tkinter {their}")


if __name__ == "__main__":
    sys.exit(run_checks("compares our Text with tkinter's", check, module=MODULE, python=PYTHON))
