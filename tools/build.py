#!/usr/bin/env python3
"""Proves and builds the program, and reports its progress on standard error: what `make build` calls.

    python3 tools/build.py [--crate NAME]

Proves the crates below the program (or another crate), lowest first, and it last, each over what earlier runs kept.
Crates that share no crate below are proved side by side, since the kit's `rt` lets one run at a time work in a folder;
what is left is proved one crate after the other, each by as many processes as there are cores.  About how long the rest
takes is reckoned from the table of docs/working.md, scaled by what the first crates took.  What `rt` says is kept in
out/build.log, and shown where a crate fails; the exit status is then 1.
"""

import argparse
import os
import re
import subprocess
import sys
import threading
import time
from concurrent.futures import ThreadPoolExecutor

TOP = os.path.dirname(os.path.dirname(os.path.abspath(__file__)))
LOG = os.path.join(TOP, "out", "build.log")
# The page that says what the check of a crate takes, in seconds of processor, and one of its rows.
COSTS_PAGE = os.path.join(TOP, "docs", "working.md")
COST_ROW = re.compile(r"^\| `(\w+)` \| ([\d,]+) \|", re.MULTILINE)
# What a crate is reckoned to take that isn't in the table; one that was ready within so many seconds was kept before.
SOME_COST, KEPT_SECONDS = 60, 5
CORES = len(os.sched_getaffinity(0))
# The memory that the check of a crate may need, in kB.
CHECK_KILOBYTES = 4_000_000
# With up to so many cores `rt` chooses its processes by itself, and looks at the memory that is free.
CHOSEN_CORES, MOST_JOBS = 4, 8
# How often a terminal is told that the proof goes on, in seconds.
BEAT = 1.0
# How much is shown of what `rt` says of a crate that isn't proved.
SHOWN_LINES = 40


def read_crates(path):
    """Each crate of the list with the crates of the list that its line names, in the order of the list."""
    lines = {}
    with open(path, encoding="utf-8") as file:
        for line in file:
            name, colon, needs = line.partition(":")
            if colon and not line.startswith("#"):
                lines[name.split()[0]] = needs.split()
    return {name: [need for need in needs if need in lines] for name, needs in lines.items()}


def crates_below(crates, name):
    """The crates below one."""
    found = set(crates[name])
    for need in crates[name]:
        found |= crates_below(crates, need)
    return found


def available_kilobytes():
    """The memory that is free for programs."""
    with open("/proc/meminfo", encoding="ascii") as file:
        return int(re.search(r"^MemAvailable: *(\d+) kB", file.read(), re.MULTILINE)[1])


def jobs():
    """How many crates to check at once, by the cores and by the memory that is free."""
    return max(1, min(CORES, available_kilobytes() // CHECK_KILOBYTES))


def plan(crates, program):
    """Groups of crates, each after those that it needs; those of a group share no crate."""
    wanted = [name for name in crates if name in crates_below(crates, program)]
    first = [name for name in wanted if not crates_below(crates, name)]
    return [first] + [[name] for name in wanted if name not in first] + [[program]]


def is_program(name):
    """Whether a crate is a program, and no library for the crates above it or for C."""
    return os.path.exists(os.path.join(TOP, "crates", name, "src", "main.rt"))


def rt_words(runs, share):
    """The command that proves a crate and keeps it for those above or for C, or proves, links and runs the program.

    `share` is how many cores it has for itself.
    """
    is_chosen = share == CORES <= CHOSEN_CORES
    jobs = [] if is_chosen else ["--jobs", str(min(share, MOST_JOBS))]
    return ["rt", "run" if runs else "lib", *jobs]


def read_costs():
    """What each crate's check takes, by the table."""
    with open(COSTS_PAGE, encoding="utf-8") as file:
        return {name: int(cost.replace(",", "")) for name, cost in COST_ROW.findall(file.read())}


class Progress:
    """Counts the crates that are done, and shows it: on a terminal in one line that changes."""

    def __init__(self, names):
        costs = read_costs()
        self.costs = {name: costs.get(name, SOME_COST) for name in names}
        self.total = len(names)
        self.done = 0
        # The costs of the crates that are still to do, and of those that were proved in this run.
        self.left = sum(self.costs.values())
        self.proved = 0
        self.running = []
        self.began = time.monotonic()
        self.lock = threading.Lock()
        self.is_live = sys.stderr.isatty()

    def seconds(self):
        return time.monotonic() - self.began

    def remains(self):
        """About how long the rest takes, in words; nothing before a crate was proved."""
        if not self.proved or not self.left:
            return ""
        minutes = self.seconds() * self.left / self.proved / 60
        return f", about {minutes:.0f} min to go" if minutes >= 1 else ", about a minute to go"

    def say(self, text):
        """A line that stays."""
        start = "\r\033[K" if self.is_live else ""
        print(f"{start}{text}", file=sys.stderr, flush=True)

    def tell(self):
        """Shows the line that changes, as long as the program runs."""
        while self.is_live:
            time.sleep(BEAT)
            with self.lock:
                if self.running:
                    so_far = f"{self.seconds():.0f} s{self.remains()}"
                    text = f"[{self.done}/{self.total}] {' '.join(self.running)}, {so_far}"
                    print(f"\r\033[K{text[:79]}", end="", file=sys.stderr, flush=True)

    def start(self, name):
        with self.lock:
            self.running.append(name)

    def end(self, name, seconds, is_proved):
        with self.lock:
            self.running.remove(name)
            self.done += is_proved
            self.left -= self.costs[name]
            self.proved += self.costs[name] if seconds > KEPT_SECONDS else 0
            word = "proved" if is_proved else "NOT PROVED"
            so_far = f"{self.seconds():.0f} s in all{self.remains()}"
            self.say(f"[{self.done}/{self.total}] {name} {word} in {seconds:.0f} s, {so_far}")


def prove(name, runs, share, progress, log):
    """Proves one crate, and returns whether it is proved."""
    progress.start(name)
    began = time.monotonic()
    done = subprocess.run(
        rt_words(runs, share),
        cwd=os.path.join(TOP, "crates", name),
        stdin=subprocess.DEVNULL,
        stdout=subprocess.DEVNULL if runs else subprocess.PIPE,
        stderr=subprocess.PIPE if runs else subprocess.STDOUT,
    )
    said = done.stderr if runs else done.stdout
    # A program that is proved is run at once, on an empty script, which ends with status 0.
    is_proved = done.returncode == 0
    progress.end(name, time.monotonic() - began, is_proved)
    log.write(f"== {name}\n".encode() + said)
    if not is_proved:
        lines = said.decode("utf-8", "replace").splitlines()
        print(*lines[-SHOWN_LINES:], f"(the whole log is in {LOG})", sep="\n", file=sys.stderr)
    return is_proved


def prove_all(groups, progress, log):
    """Proves group after group, and returns whether all are proved."""
    with ThreadPoolExecutor(CORES) as pool:
        for group in groups:
            share = max(CORES // len(group), 1)
            made = pool.map(lambda name: prove(name, is_program(name), share, progress, log), group)
            if not all(list(made)):
                return False
    return True


def main():
    parser = argparse.ArgumentParser(description="proves and builds a program, and reports its progress")
    parser.add_argument("--crate", default="tktext")
    program = parser.parse_args().crate
    groups = plan(read_crates(os.path.join(TOP, "crates.txt")), program)
    progress = Progress([name for group in groups for name in group])
    progress.say(f"proving {progress.total} crates; the first time this takes over an hour")
    threading.Thread(target=progress.tell, daemon=True).start()
    os.makedirs(os.path.dirname(LOG), exist_ok=True)
    try:
        with open(LOG, "wb") as log:
            is_proved = prove_all(groups, progress, log)
    except KeyboardInterrupt:
        is_proved = False
    except OSError:
        progress.say("there is no `rt` on the path: install the Rattle kit (docs/install.md)")
        is_proved = False
    return 0 if is_proved else 1


if __name__ == "__main__":
    sys.exit(main())
