#!/usr/bin/env python3
"""Two peers of one text, and a dump of each: what examples/peers.c does, in the manner of tkinter.

    python3 examples/peers.py        where the package is installed by `pip install .`
"""

from tktext import TclError, Text

text = Text(name=".a", undo=True)
text.insert("1.0", "one\ntwo\nthree")
peer = text.peer_create(".b", startline=2)
peer.tag_add("bold", "1.0", "1.end")
peer.insert("1.0", "number ")
for widget in (text, peer):
    print(widget, *widget.dump("1.0", "end"), sep="\n  ")
try:
    peer.index("nowhere")
except TclError as error:
    print(error)
