"""Runs of a program some of whose growths are refused, and the one sweep over the growths of a
call.

A growth is a call of `malloc` or `realloc` (faults/refusing.py). A call is made again and again,
each time in a run of its own that begins with the lines before it: with its first growth refused,
with its second, up to its last. Each time the reply has to be a refusal and the state that of
before; made again, the call has to give what it gives where nothing was refused.
"""
import re
import sys

from faults.refusing import ALL, NONE, Program

# What a call of test_calls says that was refused for memory.
REFUSAL = re.compile(
    r"(.* > )?(Some\(\(?)?Err\((AllocError|OutOfMemory|(Insertion|NoRoom)\(OutOfMemory\))\)"
    r"(\)|, \d+\)\))?|.* > OutOfMemory"
)
# Calls of several steps.
CHAINS = "add_constraint_edge", "add_constraint_edges", "add_closed_edges"


class Trial:
    """A run of a program that has made the calls of some lines, with nothing refused. Each kind of
    program has a class of its own, which says how it is spoken to."""

    # Whether growths count always: else only behind a line `begin` of the program's own.
    counts_always = True

    def __init__(self, command, lines):
        made, *words = command
        self.program = Program(made, words, self.counts_always)
        for line in lines:
            self.ask(line)

    def ask(self, line, numbers=NONE):
        """What a line's call gives, its growths, and how many of them were refused."""
        reading = self.reads(line)
        refused = numbers if numbers == NONE else tuple(reading + it for it in numbers)
        lines, growths, refused = self.program.ask(line, refused, lambda it: self.is_last(line, it))
        return self.told(line, lines), growths - reading, refused

    def reads(self, line):
        """How many growths come before those of the call."""
        return 0

    def is_last(self, line, reply):
        """Whether a line of a reply is its last."""
        return True

    def told(self, line, lines):
        """What the lines of a reply say."""
        return lines

    def is_refusal(self, reply):
        raise NotImplementedError

    def state(self):
        """All that the program tells of what it holds."""
        raise NotImplementedError

    def end(self):
        self.program.end()


class CallsTrial(Trial):
    """A run of test_calls."""

    counts_always = False

    def ask(self, line, numbers=NONE):
        reply, growths, refused = super().ask(line, numbers)
        if not refused and reply and REFUSAL.fullmatch(reply[0]):
            sys.exit(f"{line}: {reply[0]}, with no growth refused")
        return reply, growths, refused

    def is_last(self, line, reply):
        return reply == "end"

    def told(self, line, lines):
        return [it for it in lines if it not in ("begin", "ready", "end")]

    def is_refusal(self, reply):
        return len(reply) == 1 and bool(REFUSAL.fullmatch(reply[0]))

    def state(self):
        """All vertices, edges and faces with their links and data, and which edges are
        constraints."""
        return self.ask("state")[0]

    def hints(self, positions):
        return [self.ask(f"hint {x} {y}")[0][0].split(" > ")[1] for x, y in positions]


def fail(lines, line, number, *why):
    sys.exit("\n".join([*lines, f"{line}, growth {number}:", *map(str, why)]))


def known_of(kind, command, lines, line):
    """Of a call where nothing is refused: the state before it, what it gives, its growths, and the
    state after it."""
    trial = kind(command, lines)
    before = trial.state()
    reply, growths, _ = trial.ask(line)
    after = trial.state()
    trial.end()
    if trial.is_refusal(reply):
        fail(lines, line, "none", reply)
    return before, reply, growths, after


def refuse(kind, command, lines, line, number, before, wanted, after):
    """Looks at a call with this growth refused, and at the same call afterwards."""
    trial = kind(command, lines)
    reply, _, refused = trial.ask(line, (number, number))
    found = trial.state()
    if refused != 1 or not trial.is_refusal(reply):
        fail(lines, line, number, f"{refused} refused", reply)
    if found != before:
        fail(lines, line, number, before, "and then", found)
    again, then = trial.ask(line)[0], trial.state()
    # What a chain gives begins with the steps that were done already.
    if then != after or (again != wanted and not line.startswith("add_constraint_edge ")):
        fail(lines, line, number, "made again:", again, then, "in place of", wanted, after)
    trial.end()


def sweep(kind, command, lines, line):
    """Refuses the growths of a call of one step in turn, and gives how many there are."""
    before, wanted, growths, after = known_of(kind, command, lines, line)
    for number in range(1, growths + 1):
        refuse(kind, command, lines, line, number, before, wanted, after)
    return growths


def ask_without_memory(kind, command, lines, line):
    """What a call gives that takes no memory: it is answered with every growth refused as it is
    where none is."""
    trials = [kind(command, lines) for _ in range(2)]
    replies = [trial.ask(line, numbers) for trial, numbers in zip(trials, (NONE, ALL))]
    states = [trial.state() for trial in trials]
    if states[0] != states[1] or replies[0] != replies[1] or replies[1][1:] != (0, 0):
        fail(lines, line, "all", *replies, *states)
    for trial in trials:
        trial.end()
    return replies[0][0]


def steps_of(command, lines, line, look):
    """What a look at a trial gives between the steps of a call, and the growths of each step. Most
    calls have one."""
    trial = CallsTrial(command, lines)
    seen, growths = [look(trial)], []

    def step(line):
        reply, found, _ = trial.ask(line)
        growths.append(found)
        seen.append(look(trial))
        return reply[0]

    name, *words = line.split()
    if name not in CHAINS:
        step(line)
        trial.end()
        return seen, growths
    ends = list(zip(words[::2], words[1::2]))
    indexes = []

    def join(first, last):
        """Joins two vertices of the chain, which get their numbers back."""
        step(" ".join(["add_constraint_edge", *ends[first], *ends[last]]))
        for place in first, last:
            trial.ask(f"replace_vertex {indexes[place]} {place}")
        seen[-1] = look(trial)

    for place, (x, y) in enumerate(ends):
        indexes.append(re.search(r"index: (\d+)", step(f"insert {x} {y} {place}"))[1])
        if place:
            join(place - 1, place)
    if name == "add_closed_edges":
        join(len(ends) - 1, 0)
    trial.end()
    return seen, growths
