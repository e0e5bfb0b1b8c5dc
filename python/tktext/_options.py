"""The options of a widget and of a tag that are of drawing: they are taken, kept and given back."""

from __future__ import annotations

from typing import NamedTuple

# Those of the core, with the names by which Tk's database of options has them, and their defaults there.
CORE = {
    "autoseparators": ("autoSeparators", "AutoSeparators", "1"), "endline": ("", "", ""),
    "maxundo": ("maxUndo", "MaxUndo", "0"), "startline": ("", "", ""), "state": ("state", "State", "normal"),
    "undo": ("undo", "Undo", "0"),
}
SYNONYMS = {"bd": "borderwidth", "bg": "background", "fg": "foreground"}


class Drawn(NamedTuple):
    """An option of drawing: its names in Tk's database, and its value at first as tkinter describes it."""

    database_name: str
    database_class: str
    first: object


DRAWN = {
    "background": Drawn("background", "Background", "#ffffff"),
    "blockcursor": Drawn("blockCursor", "BlockCursor", 0),
    "borderwidth": Drawn("borderWidth", "BorderWidth", "1"),
    "cursor": Drawn("cursor", "Cursor", "xterm"),
    "exportselection": Drawn("exportSelection", "ExportSelection", 1),
    "font": Drawn("font", "Font", "TkFixedFont"),
    "foreground": Drawn("foreground", "Foreground", "#000000"),
    "height": Drawn("height", "Height", "24"),
    "highlightbackground": Drawn("highlightBackground", "HighlightBackground", "#d9d9d9"),
    "highlightcolor": Drawn("highlightColor", "HighlightColor", "#000000"),
    "highlightthickness": Drawn("highlightThickness", "HighlightThickness", "1"),
    "inactiveselectbackground": Drawn("inactiveSelectBackground", "Foreground", "#c3c3c3"),
    "insertbackground": Drawn("insertBackground", "Foreground", "#000000"),
    "insertborderwidth": Drawn("insertBorderWidth", "BorderWidth", "0"),
    "insertofftime": Drawn("insertOffTime", "OffTime", 300),
    "insertontime": Drawn("insertOnTime", "OnTime", 600),
    "insertunfocussed": Drawn("insertUnfocussed", "InsertUnfocussed", "none"),
    "insertwidth": Drawn("insertWidth", "InsertWidth", "2"),
    "padx": Drawn("padX", "Pad", "1"),
    "pady": Drawn("padY", "Pad", "1"),
    "relief": Drawn("relief", "Relief", "sunken"),
    "selectbackground": Drawn("selectBackground", "Foreground", "#c3c3c3"),
    "selectborderwidth": Drawn("selectBorderWidth", "BorderWidth", "0"),
    "selectforeground": Drawn("selectForeground", "Background", "#000000"),
    "setgrid": Drawn("setGrid", "SetGrid", 0),
    "spacing1": Drawn("spacing1", "Spacing", "0"),
    "spacing2": Drawn("spacing2", "Spacing", "0"),
    "spacing3": Drawn("spacing3", "Spacing", "0"),
    "tabs": Drawn("tabs", "Tabs", ""),
    "tabstyle": Drawn("tabStyle", "TabStyle", "tabular"),
    "takefocus": Drawn("takeFocus", "TakeFocus", ""),
    "width": Drawn("width", "Width", 80),
    "wrap": Drawn("wrap", "Wrap", "char"),
    "xscrollcommand": Drawn("xScrollCommand", "ScrollCommand", ""),
    "yscrollcommand": Drawn("yScrollCommand", "ScrollCommand", ""),
}
NAMES = sorted([*CORE, *DRAWN, *SYNONYMS])
OF_TAGS = (
    "background", "bgstipple", "borderwidth", "elide", "fgstipple", "font", "foreground", "justify", "lmargin1",
    "lmargin2", "lmargincolor", "offset", "overstrike", "overstrikefg", "relief", "rmargin", "rmargincolor",
    "selectbackground", "selectforeground", "spacing1", "spacing2", "spacing3", "tabs", "tabstyle", "underline",
    "underlinefg", "wrap",
)
