#!/usr/bin/env python3
"""checks/refused_commands.py [PROGRAM]: refuses each growth of each command of the program in turn,
and looks at what is there then.

PROGRAM is crates/triangulate as the gate has built it; a `malloc` refuses growths of a command
(faults/refusing.py). Each command of DIALOGUE is given with its first growth
refused, in another run with its second, up to its last. The reply has to be `refused OutOfMemory`,
and counts and faces have to be those of before. Given again, it has to be answered as it is where
nothing was refused, and no reply may be a refusal then. Commands that take no memory have to be
answered so with every growth refused.

Which type the program has shows in the growths that the first `constrain` takes: with the plain
type they are those of making constraints possible and of the path, and with the other type those of
the path alone. So a program that was refused the Nth growth of its first `constrain` is given it
again, and the growths of that are counted.
"""
import sys
import tempfile

from faults.refusing import ALL, library
from faults.trial import Trial, ask_without_memory, sweep
from project import named_or_built

# Five points, four of them round the first, and constraints through it.
POINTS = ["insert 0 0", "insert 1 0", "insert -1 0", "insert 0 1", "insert 0 -1", "insert 1 1"]
POINTS += ["insert -1 -1", "insert 1 -1"]
DIALOGUE = POINTS + [
    "faces",
    "constrain 1 2",
    "constrain 5 6",
    "faces",
    "insert -1 1",
    "release 0 1",
    "release 0 5",
    "constrain 7 8",
    "remove 0",
    "release 2 1",
    "remove 3",
    "constrain 1 2",
    "remove 1",
    "faces",
]
# The middle of a straight constraint goes, and comes again.
JOINED = POINTS + ["constrain 1 2", "remove 0", "faces", "insert 0 0", "release 1 7", "remove 7"]
# With every growth refused: known positions, points and vertices that are not there, and questions.
WITHOUT_MEMORY = ["insert 1 0", "insert 9 9", "remove 9", "constrain 1 1", "constrain 1 9"]
WITHOUT_MEMORY += ["release 0 1", "locate 0 0", "nearest 1 1", "line -1 0 1 0", "counts"]
WITHOUT_MEMORY += ["insert 536870913 0", "release 9 1", "remove", "hello", "", "locate 9 9"]
# What was done before these: nothing, a vertex, a line of three, all points, and constraints.
BEFORE = [[], POINTS[:1], POINTS[:3], POINTS, POINTS + ["constrain 5 6"]]
REFUSED = ["refused OutOfMemory"]


class CommandTrial(Trial):
    """A run of the program over the sheet G, which has taken its buffer for reading."""

    def __init__(self, command, lines):
        super().__init__([*command, "G"], ["counts", *lines])

    def is_last(self, line, reply):
        return line != "faces" or reply in ("end", *REFUSED)

    def is_refusal(self, reply):
        return reply == REFUSED

    def state(self):
        return self.ask("counts")[0] + self.ask("faces")[0]


def run_dialogues(command):
    calls, total = 0, 0
    for dialogue in DIALOGUE, JOINED:
        for place, line in enumerate(dialogue):
            growths = sweep(CommandTrial, command, dialogue[:place], line)
            calls, total = calls + bool(growths), total + growths
    print(f"{calls} commands, {total} growths refused: counts and faces are those of before")


def takes_none(lines, line):
    """Whether a command takes no memory after others: a point has to be known, and constraints to
    be possible already."""
    needed = {"insert 1 0": POINTS[1], "constrain 1 1": "constrain 5 6"}
    return line not in needed or needed[line] in lines


def run_without_memory(command):
    count = 0
    for lines in BEFORE:
        for line in filter(lambda it: takes_none(lines, it), WITHOUT_MEMORY):
            ask_without_memory(CommandTrial, command, lines, line)
            count += 1
    trial = CommandTrial(command, [])
    reply, growths, refused = trial.ask("insert 0 0", ALL)
    trial.end()
    if reply != REFUSED or refused != growths or not refused:
        sys.exit("with every growth refused a first point is not refused")
    print(f"{count} commands are answered with every growth refused, and a first point is refused")


def first_constrain(command, number):
    """The growths of a first `constrain` with this one refused, and what a second one gives."""
    trial = CommandTrial(command, POINTS)
    before = trial.state()
    reply, growths, refused = trial.ask("constrain 1 2", (number, number))
    if refused and (reply != REFUSED or trial.state() != before):
        sys.exit(f"first constrain, growth {number}: {reply} {trial.state()}")
    again = trial.ask("constrain 1 2")
    trial.end()
    return growths, refused, again


def run_types(command):
    whole, _, _ = first_constrain(command, 0)
    types = []
    for number in range(1, whole + 1):
        _, refused, (reply, second, _) = first_constrain(command, number)
        if not refused or reply != ["edges 1-0 0-2"]:
            sys.exit(f"first constrain, growth {number}: {refused} refused, then {reply}")
        types.append("plain" if second == whole else "constrained")
    if types != sorted(types, reverse=True) or len(set(types)) != 2:
        sys.exit(f"first constrain, by the growth refused: {types}")
    print(f"a first constrain takes {whole} growths; by the one refused, the type is then {types}")


def main():
    with tempfile.TemporaryDirectory() as folder:
        command = [library(folder), named_or_built("triangulate")]
        run_dialogues(command)
        run_without_memory(command)
        run_types(command)


main()
