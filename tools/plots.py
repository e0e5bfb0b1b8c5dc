#!/usr/bin/env python3
"""Tells at the head of docs/performance.md what its tables say, and draws them.

    python3 tools/plots.py docs/performance.md

`make versus` does so after it has measured; alone this measures nothing.  Between the page's first two marks it writes
what is gained over real Tk, and then which goals are missed.  Beside the page stand performance.svg (the instructions
and the time of each workload over Tk's) and memory.svg (its memory over Tk's, and what a long text takes).  The
pictures want matplotlib (Debian's python3-matplotlib); where it isn't installed that is said, and they stay as they
are.
"""

import os
import re
import subprocess
import sys
from typing import NamedTuple

# At most so much of Tk's instructions and time; of undo, of the widget's own part in Tk, which moves its view there.
GOAL, UNDO_GOAL = 1 / 3, 1 / 3 * 0.15
MEMORY_GOAL = 2 / 3
BEGIN, END = "<!-- gains: begin -->", "<!-- gains: end -->"
TOLD_SIZE = re.compile(r"resident size over `load-100000`: Tk (\d+) MB, `tktext` (\d+) MB")
LONG_TEXT = re.compile(r"^\| 400,000 lines, ([\d,]+) characters ", re.MULTILINE)
DEBIAN_PYTHON = "/usr/bin/python3"
WANTED = "the pictures aren't drawn: they want matplotlib (Debian: apt-get install python3-matplotlib)"
BLUE, ORANGE, GREY = "#35689c", "#d98a3c", "#777777"


class Workload(NamedTuple):
    """How much a workload takes of Tk's instructions (no number where they weren't counted), and of its time."""

    name: str
    instructions: float
    seconds: float

    def goal(self):
        return UNDO_GOAL if self.name.startswith("undo") else GOAL

    def parts(self):
        """Those that were measured."""
        return [part for part in (self.instructions, self.seconds) if part == part]

    def is_missed(self):
        return max(self.parts()) > self.goal()


def cells_of(page):
    """The cells of each row of a table of the page."""
    return [[cell.strip() for cell in line.split("|")[1:-1]] for line in page.splitlines() if line.startswith("| ")]


def workloads_of(page):
    """The rows of the first table."""
    rows = [row for row in cells_of(page) if len(row) == 10 and row[0].startswith("`")]
    return [Workload(row[0].strip("`"), float(row[4]), float(row[7])) for row in rows]


def sizes_of(page):
    """The megabytes of Tk and of ours, by workload: those of the table of memory, or else of the one that is named."""
    rows = [row for row in cells_of(page) if len(row) == 4 and row[0].startswith("`")]
    told = TOLD_SIZE.search(page)
    named = {"load-100000": (float(told[1]), float(told[2]))} if told else {}
    return {row[0].strip("`"): (float(row[1]), float(row[2])) for row in rows} or named


def long_text_of(page):
    """What a long text takes, in megabytes, from one part of the script to the next; and how many characters it has."""
    begin = LONG_TEXT.search(page)
    if begin is None:
        return [], ""
    rows = cells_of(page[begin.start() :].split("\n\n")[0])[1:]
    return [(row[0].replace("`", ""), float(row[3])) for row in rows if row[3][:1].isdigit()], begin[1]


# ---- what is told


def span(values):
    """The least and the greatest of some parts."""
    return f"{min(values):.2f} to {max(values):.2f}"


def times_less(rows):
    """How many times less time some workloads take than Tk."""
    least, most = (round(1 / edge(row.seconds for row in rows)) for edge in (max, min))
    return f"{least} to {most}" if least != most else f"{least}"


def slower_words(rows):
    """Which workloads take more time than Tk."""
    slower = [f"`{row.name}` ({row.seconds:.2f})" for row in rows if row.seconds > 1]
    return f", but for {' and '.join(slower)}" if slower else ""


def gained(rows, sizes):
    """What one gains over Tk, in sentences."""
    fewer = [row.instructions for row in rows if row.instructions < 1]
    faster = [row.seconds for row in rows if row.seconds < 1]
    said = []
    if fewer:
        all_of_them = f"Each of {len(rows)} workloads takes"
        some = f"Of {len(rows)} workloads {len(fewer)} take"
        takes = all_of_them if len(fewer) == len(rows) else some
        said.append(f"{takes} fewer instructions than Tk's own widget: {span(fewer)} of them.")
    if faster:
        said.append(f"Of its time it is {span(faster)}{slower_words(rows)}.")
    for kind, words in (("undo", "Undo and redo take"), ("longline", "Edits of one long line take")):
        some = [row for row in rows if row.name.startswith(kind)]
        if some:
            said.append(f"{words} {times_less(some)} times less time than in Tk.")
    if "load-100000" in sizes:
        theirs, ours = sizes["load-100000"]
        said.append(f"A text of 100,000 lines takes {ours:.0f} MB where Tk takes {theirs:.0f}.")
    return " ".join(said)


def missed(rows, sizes):
    """Which goals are missed, the worst first, as the lines of a table."""
    found = sorted((row for row in rows if row.is_missed()), key=lambda row: -max(row.parts()))
    met = f"{len(rows) - len(found)} of {len(rows)} meet it"
    said = [f"The goal is a third of Tk's instructions and time on every workload; {met}."]
    said += ["What misses it, the farthest first:", ""]
    said += ["| Workload | of Tk's instructions | of Tk's time |", "|---|---|---|"]
    said += [f"| `{row.name}` | {shown(row.instructions, row)} | {shown(row.seconds, row)} |" for row in found]
    for name, (theirs, ours) in sizes.items():
        if name == "load-100000" and ours > MEMORY_GOAL * theirs:
            said += ["", f"The goal of memory is two thirds of Tk's; `{name}` takes {ours / theirs:.2f} of it."]
    return said if found else said[:1]


def shown(part, row):
    """A part of Tk's, heavy where it misses its goal."""
    return f"**{part:.2f}**" if part > row.goal() else f"{part:.2f}"


def head_of(page):
    """What stands between the first two marks."""
    rows, sizes = workloads_of(page), sizes_of(page)
    return [
        *fill(gained(rows, sizes)), "",
        "![The instructions and the time of each workload over Tk's, with the goal as a line](performance.svg)", "",
        "![The memory of each workload over Tk's, and what a long text takes](memory.svg)", "",
        "## Goals that are missed", "", *missed(rows, sizes),
    ]


def fill(text, width=120):
    """A text in lines."""
    lines = [""]
    for word in text.split():
        if len(lines[-1]) + 1 + len(word) > width:
            lines.append("")
        lines[-1] = f"{lines[-1]} {word}".strip()
    return lines


# ---- what is drawn


def draw_bars(axes, names, series, goals):
    """Bars beside one another for each name, with Tk's own part and the goal as lines."""
    thick = 0.8 / len(series)
    for number, (label, colour, values) in enumerate(series):
        places = [place + (number - (len(series) - 1) / 2) * thick for place in range(len(names))]
        axes.barh(places, values, height=thick, color=colour, label=label)
    axes.axvline(1, color=GREY, linewidth=1)
    axes.axvline(max(goals), color="black", linewidth=1, linestyle="--", label="goal")
    for place, goal in enumerate(goals):
        if goal < max(goals):
            axes.plot([goal, goal], [place - 0.45, place + 0.45], color="black", linewidth=1, linestyle="--")
    axes.set_xticks([0, 1 / 3, 2 / 3, 1], ["0", "1/3", "2/3", "1 (Tk)"])
    axes.set_yticks(range(len(names)), names)
    axes.set_ylim(len(names) - 0.4, -0.6)
    axes.spines[["top", "right"]].set_visible(False)


def draw_costs(pyplot, rows, path):
    """Instructions and time."""
    figure, axes = pyplot.subplots(figsize=(8, 0.3 * len(rows) + 1.4), layout="constrained")
    series = [
        ("instructions", BLUE, [row.instructions for row in rows]), ("time", ORANGE, [row.seconds for row in rows]),
    ]
    draw_bars(axes, [row.name for row in rows], series, [row.goal() for row in rows])
    axes.set_title("tktext over Tk's own text widget: less is better")
    axes.legend(loc="lower right", frameon=False)
    save(pyplot, figure, path)


def draw_memory(pyplot, page, path):
    """Memory over Tk's, and what a long text takes."""
    sizes, (text, characters) = sizes_of(page), long_text_of(page)
    heights = [max(len(sizes), 1) + 0.5, len(text) + 0.5]
    figure, both = pyplot.subplots(
        2, figsize=(8, 0.3 * sum(heights) + 1.4), layout="constrained", gridspec_kw={"height_ratios": heights}
    )
    parts = [ours / theirs for theirs, ours in sizes.values()] or [0]
    draw_bars(both[0], list(sizes) or ["not measured"], [("memory", BLUE, parts)], [MEMORY_GOAL] * len(parts))
    both[0].set_title("memory of tktext over Tk's own text widget (goal: 2/3)")
    names, megabytes = zip(*text) if text else ((), ())
    both[1].barh(names, megabytes, color=BLUE)
    both[1].invert_yaxis()
    both[1].spines[["top", "right"]].set_visible(False)
    both[1].set_title(f"MB of tktext: 400,000 lines of {characters} characters")
    save(pyplot, figure, path)


def save(pyplot, figure, path):
    """Writes a picture, with the same bytes each time."""
    figure.savefig(path, metadata={"Date": None}, facecolor="white")
    pyplot.close(figure)


def draw(page, folder):
    """Draws both pictures."""
    import matplotlib

    matplotlib.use("svg")
    matplotlib.rcParams.update({"svg.fonttype": "none", "svg.hashsalt": "tktext", "font.size": 9})
    from matplotlib import pyplot

    draw_costs(pyplot, workloads_of(page), os.path.join(folder, "performance.svg"))
    draw_memory(pyplot, page, os.path.join(folder, "memory.svg"))


def has_matplotlib(python):
    return subprocess.run([python, "-c", "import matplotlib"], capture_output=True, check=False).returncode == 0


def draw_by_some(path):
    """Draws both pictures by the Python that has what it takes, this one or Debian's."""
    found = next(filter(has_matplotlib, filter(os.path.exists, (sys.executable, DEBIAN_PYTHON))), None)
    if found is None:
        print(WANTED, file=sys.stderr)
    else:
        subprocess.run([found, os.path.abspath(__file__), "--draw", path], check=True)


def retell(path):
    """Writes the head of a page anew, by its own tables, and the pictures beside it."""
    with open(path, encoding="utf-8") as file:
        page = file.read()
    before, _, rest = page.partition(BEGIN)
    _, _, after = rest.partition(END)
    told = "\n".join([before + BEGIN, "", *head_of(after), "", END + after])
    with open(path, "w", encoding="utf-8") as file:
        file.write(told)
    draw_by_some(path)


def main(words):
    if words[:1] == ["--draw"]:
        with open(words[1], encoding="utf-8") as file:
            draw(file.read().partition(END)[2], os.path.dirname(os.path.abspath(words[1])))
        return 0
    if len(words) != 1:
        print(__doc__)
        return 2
    retell(words[0])
    return 0


if __name__ == "__main__":
    sys.exit(main(sys.argv[1:]))
