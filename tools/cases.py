#!/usr/bin/env python3
"""Writes random and worked scripts into a folder, each with what the model prints, for a program that isn't proved yet.

    python3 tools/cases.py FOLDER [--seeds N] [--first K]
    cd crates/tktext && rt try --cases FOLDER

Each script is a file, and what it has to print stands beside it in a file of the same name with `.stdout` behind it.
"""

import argparse
import os

import model
import scripts
import worked


def write_case(folder, name, script):
    """One script, and what the model prints for it."""
    for ending, content in (("", script), (".stdout", model.run_output(script).output)):
        with open(os.path.join(folder, name + ending), "wb") as file:
            file.write(content)


def main():
    parser = argparse.ArgumentParser(description="writes scripts with what they print")
    parser.add_argument("folder")
    parser.add_argument("--seeds", type=int, default=300)
    parser.add_argument("--first", type=int, default=0)
    options = parser.parse_args()
    os.makedirs(options.folder, exist_ok=True)
    for number, (_, script) in enumerate(worked.program_scripts()):
        write_case(options.folder, f"worked{number}", script)
    for seed in range(options.first, options.first + options.seeds):
        write_case(options.folder, f"seed{seed}", scripts.script(seed))


if __name__ == "__main__":
    main()
