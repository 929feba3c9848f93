#!/usr/bin/env python3
"""checks/script.py [PROGRAM]: works out what crates/test_calls has to print, and plays it the
scripts of the calls for C, with hints of each kind.

PROGRAM is crates/test_calls as the gate has built it. It uses no code of the library: session.py
has lists of points and constraints, edges are found by trying all circles, and numbers are exact.
The program is asked for its whole state after each line that changes something (told.py): where
four points are on one circle either diagonal may be there, and the rest follows it.

First each line of the crate's own script is worked out and compared with what is stored. Some are
passed over: of data, of what generators by themselves are told and give, of what values derive.
Then each script of checks/scripts is played ten times. Its edits are made by calls that C does not
reach, and after each the places near all vertices are looked for from each vertex and from none,
and the constraints between vertices are asked for (other_calls.py).
"""
import glob
import os
import sys

from model.other_calls import OtherCalls
from model.told import HINTS, PROGRAM, Difference, Told
from project import CHECKS, ROOT

CRATE = f"{ROOT}/crates/test_calls"


def compare_stored(program):
    """Compares what is stored with what is worked out."""
    with open(f"{CRATE}/stdin") as script, open(f"{CRATE}/stdout") as stored:
        lines, left = script.read().splitlines(), stored.read().splitlines()
    told = Told(program, 0)
    for line in lines:
        said = told.ask(line) if line.split() and line[0] != "#" else [line]
        if said != left[: len(said)]:
            sys.exit("\n".join([f"{line}:", *said, "stored:", *left[: len(said)]]))
        left = left[len(said) :]
    told.end()
    if left:
        sys.exit("\n".join(["more is stored:", *left]))
    print(f"the stored script: {told.asked} answers worked out, {told.passed} passed over")


def play_scripts(program, hints):
    """How many answers were worked out with hints of one kind."""
    asked = 0
    for name in sorted(glob.glob(f"{CHECKS}/scripts/*")):
        calls = OtherCalls(program, hints)
        with open(name, encoding="utf-8") as script:
            for line in script.read().replace("\n  ", " ").splitlines():
                calls.play(line)
        calls.told.end()
        asked += calls.told.asked
    return asked


def main(words):
    program = os.path.realpath(words[0] if words else PROGRAM)
    try:
        compare_stored(program)
        asked = sum(play_scripts(program, hints) for hints in HINTS)
    except Difference as error:
        sys.exit(str(error))
    print(f"scripts with {len(HINTS)} kinds of hints: {asked} answers, all as worked out")


main(sys.argv[1:])
