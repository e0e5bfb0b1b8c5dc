"""By which power of a size real Tk's time grows, by its clock: what `tools/orders.py` shows beside the program's."""

import math
import os
import shutil
import subprocess
import tempfile

import tk_real

# Where Tk takes less, its clock tells nothing; a row may take so many seconds.
LEAST_MICROSECONDS = 3_000
PATIENCE = 120
TIMED = """
wm withdraw .
foreach {before commands} $argv {
    foreach child [winfo children .] { destroy $child }
    source $before
    update idletasks
    set start [clock microseconds]
    source $commands
    puts [expr {[clock microseconds] - $start}]
}
exit
"""


def write_script(path, commands):
    """A script in which a refused command doesn't end what follows."""
    with open(path, "w", encoding="utf-8") as file:
        file.write("".join(f"catch {{\n{command}\n}}\n" for command in commands))


def times(row, sizes, display, folder):
    """The microseconds that Tk takes for a row's commands at each size, or None where it gives up."""
    with tempfile.TemporaryDirectory(dir=folder) as place:
        paths = []
        for size in sizes:
            for name, commands in (("before", row.before(size)), ("commands", row.commands(size))):
                paths.append(os.path.join(place, f"{name}{size}"))
                write_script(paths[-1], commands)
        driver = os.path.join(place, "timed.tcl")
        with open(driver, "w", encoding="utf-8") as file:
            file.write(TIMED)
        try:
            done = subprocess.run(
                [tk_real.find_wish(), driver, "--", *paths], env={**os.environ, "DISPLAY": display.name},
                stdin=subprocess.DEVNULL, capture_output=True, timeout=PATIENCE, check=False,
            )
        except subprocess.TimeoutExpired:
            return None
    found = [int(word) for word in done.stdout.split()]
    return found if len(found) == len(sizes) else None


def told(found):
    """The power of the last doubling in words."""
    if found is None:
        return "?"
    if found[-1] < LEAST_MICROSECONDS:
        return "-"
    return f"{math.log2(found[-1] / max(found[-2], 1)):.2f}"


def orders(rows, factors):
    """Tk's order for each row, by its two greatest sizes; nothing where Tk or a display for it isn't installed."""
    if tk_real.find_wish() is None or shutil.which("Xvfb") is None:
        return ["" for _ in rows]
    display = tk_real.Display()
    try:
        with tempfile.TemporaryDirectory() as folder:
            return [told(times(row, [row.least * factor for factor in factors[-2:]], display, folder)) for row in rows]
    finally:
        display.close()
