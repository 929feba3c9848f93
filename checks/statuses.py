#!/usr/bin/env python3
"""checks/statuses.py [PROGRAM]: with which status the program ends, and what it writes then.

PROGRAM is crates/triangulate as the gate has built it. It is run on input that it answers and on
none, with a reader and with a writer of which each call fails, and with all other arguments than
one letter of a sheet.
"""
import os
import subprocess
import sys

from project import built

PROGRAM = built("triangulate")
INPUT = b"insert 0 1\ninsert 1 1\ncounts\n"
OUTPUT = b"vertex 0\nvertex 1\n2 1 0 0\n"
USAGE = b"usage: triangulate G|B|R|L|X\n"
# Each read of a folder fails, and each write to this device.
UNREADABLE, FULL = "/", "/dev/full"
# The name under which the program is called and its arguments: no letter, two, and one of no sheet.
NO_LETTER = [[b""], [b"triangulate"], [b"triangulate", b""], [b"triangulate", b"g"]]
NO_LETTER += [[b"triangulate", b"Q"], [b"triangulate", b"GB"], [b"triangulate", b"G", b"G"]]
NO_LETTER += [[b"triangulate", b"\xff"], [b"triangulate", b"G", b"\xff"]]


def run(program, words, given, to=subprocess.PIPE):
    """The status, standard output and standard error of a run on these bytes or this open file."""
    how = {"executable": program, "stdout": to, "stderr": subprocess.PIPE, "timeout": 60}
    how["input" if isinstance(given, bytes) else "stdin"] = given
    ran = subprocess.run(words, **how)
    return ran.returncode, ran.stdout, ran.stderr


def look(what, found, wanted):
    if found != wanted:
        sys.exit(f"{what}: {found} and not {wanted}")


def main(program):
    words = [b"triangulate", b"G"]
    look("input", run(program, words, INPUT), (0, OUTPUT, b""))
    look("no input", run(program, words, b""), (0, b"", b""))
    folder = os.open(UNREADABLE, os.O_RDONLY)
    look("reads fail", run(program, words, folder), (1, b"", b"triangulate: read failed\n"))
    with open(FULL, "wb") as full:
        found = run(program, words, INPUT, full)
    look("writes fail", found, (1, None, b"triangulate: write failed\n"))
    # Nothing is read, so that the reader fails does not show.
    for words in NO_LETTER:
        look(words, run(program, words, folder), (2, b"", USAGE))
    print(f"statuses 0 and 1, each of two runs, and 2 of {len(NO_LETTER)}")


main(os.path.realpath(sys.argv[1] if len(sys.argv) > 1 else PROGRAM))
