#!/usr/bin/env python3
"""checks/c_script.py [--seed SEED] [--lists LISTS] [LIBRARY]: what the calls for C answer, beside
brute force.

LIBRARY is c/libtevasulim.so, which is made where it is not there. The scripts of checks/scripts are
played, and then random lists of edits: on points that are near each other, on one line, at the
limits of coordinates, or anywhere, of both kinds, with refusals. After each edit all there is is
compared with lists of points and constraints (for_c/beside.py), and queries are asked and worked
out (for_c/queries.py). Where four points are on one circle, either diagonal may be there. The same
seed makes the same lists.

A line of a script is the name of an edit or of a query and numbers (c_lines.py). One that begins
with a space goes on with the line before it.
"""
import argparse
import ctypes
import glob
import os
import random
import subprocess
import sys

from for_c.calls import Difference, Library
from for_c.lines import Lines
from for_c.lists import play_list, triangulate
from debian import alone
from project import CHECKS, ROOT

LIBRARY = f"{ROOT}/c/libtevasulim.so"
SEED, LISTS = 20261201, 1000


def play_scripts(library):
    """How many edits and queries the scripts have."""
    edits, queries = 0, 0
    for name in sorted(glob.glob(f"{CHECKS}/scripts/*")):
        lines = Lines(library)
        with open(name, encoding="utf-8") as script:
            text = script.read().replace("\n  ", " ")
        for line in text.splitlines():
            try:
                lines.play(line)
            except Difference as error:
                sys.exit(f"{os.path.relpath(name)}, {line}: {error}")
        lines.close()
        edits, queries = edits + lines.edits, queries + lines.queries
    return edits, queries


def play_lists(library, seed, count):
    """Plays random lists, and tells how many edits they have."""
    edits = 0
    for place in range(count):
        chance, said = random.Random(f"{seed} {place}"), []
        try:
            edits += play_list(library, chance, said)
            triangulate(library, chance, said)
        except Difference as error:
            sys.exit("\n".join([f"list {place} of the seed {seed}:", *said, str(error)]))
    return edits


def main():
    words = argparse.ArgumentParser(description=__doc__)
    words.add_argument("--seed", type=int, default=SEED)
    words.add_argument("--lists", type=int, default=LISTS)
    words.add_argument("library", nargs="?")
    given = words.parse_args()
    if given.library is None:
        # Other checkers make it, too.
        with alone("library"):
            subprocess.run(["make", "-s", "-C", f"{ROOT}/c"], check=True)
    library = Library(os.path.realpath(given.library or LIBRARY))
    edits, queries = play_scripts(library)
    print(f"scripts: {edits} edits and {queries} queries, all as brute force says")
    count = play_lists(library, given.seed, given.lists)
    print(f"{count} random edits in {given.lists} lists, seed {given.seed}: all as lists say")


main()
