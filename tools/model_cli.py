#!/usr/bin/env python3
"""The model as a program: reads a script on standard input and answers as tktext does.

    python3 tools/model_cli.py [--lines] < SCRIPT

It stands in for the program where the tools themselves are tried.  With `--lines` each line is answered as it comes,
for scripts in which each line is a command.
"""

import sys

import model


def answer_lines(lines, output):
    """Answers line by line; gives the exit status."""
    world, was_refused = model.World(), False
    for line in lines:
        for words in model.reads_script(line)[0]:
            world, written, is_refused = model.piece(world, words, False)
            was_refused = was_refused or is_refused
            output.write(written.encode("utf-8"))
        output.flush()
    return model.exit_status(was_refused, None)


def main():
    if sys.argv[1:] == ["--lines"]:
        return answer_lines(sys.stdin.buffer, sys.stdout.buffer)
    run = model.run_output(sys.stdin.buffer.read())
    sys.stdout.buffer.write(run.output)
    return run.status


if __name__ == "__main__":
    sys.exit(main())
