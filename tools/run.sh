#!/bin/sh
# Runs a program on a script: the third argument, else standard input, and at a terminal the example.
# usage: run.sh PROGRAM EXAMPLE [SCRIPT]
program=$1 script=${3:-}
if [ -z "$script" ]; then
    script=$2
    if [ -p /dev/stdin ] || [ -f /dev/stdin ]; then
        piped=$(mktemp)
        trap 'rm -f "$piped"' EXIT
        cat > "$piped"
        [ -s "$piped" ] && script=$piped
    fi
fi
if ! [ -r "$script" ]; then
    echo "make run: cannot open '$script'" >&2
    exit 2
fi
"$program" < "$script"
status=$?
case $status in
0) ;;
1) echo "make run: status 1: a command was refused (docs/tktext.1.md)" >&2 ;;
2) echo "make run: status 2: a parse error or a failed read or write ended the run (docs/tktext.1.md)" >&2 ;;
*) echo "make run: status $status: the program failed" >&2 ;;
esac
exit "$status"
