#!/usr/bin/env python3
"""checks/refused_calls.py [PROGRAM]: refuses each growth of each public call that takes memory in
turn, and looks at all there is.

PROGRAM is crates/test_calls as the gate has built it: it makes the call of each line that it
reads, and prints vertices, edges and faces with their links, their data and the marks of
constraints. A `malloc` (faults/refusing.py) refuses growths of a call.

Each line of SCRIPT (faults/script.py) is run again and again, each time in a run of its own that
begins with the lines before it: with its first growth refused, with its second, up to its last; and
so on a copy, whose lists are full. The reply has to be a refusal for memory, and the whole state
that of before; of a call of several steps, that after the steps that were done. Made again, the
call has to give what it gives where nothing was refused, and then no reply may be a refusal.

A copy of vertices with names, so that the copy of each takes memory, is refused too. Of a list
of edits (REPLAYED) one that is refused has to be as if it were left out, or the list is refused
before its first edit. The calls of QUIET and of WITHOUT_MEMORY take no memory: they have to
be answered as ever with every growth refused, those of QUIET beside a hierarchy of hints too.
"""
import sys
import tempfile

from faults.refusing import ALL, library
from faults.script import QUIET, QUIET_STATES, REPLAYED, SCRIPT, WITHOUT_MEMORY
from faults.trial import CallsTrial, ask_without_memory, fail, known_of, refuse, steps_of
from project import named_or_built


def sweep_steps(command, lines, line):
    """How many growths of a call were refused, one after another. The state is then that of before,
    or that which the steps before the refused one left."""
    states, steps = steps_of(command, lines, line, CallsTrial.state)
    _, wanted, growths, after = known_of(CallsTrial, command, lines, line)
    if after != states[-1] or growths != sum(steps):
        fail(lines, line, "none", f"{growths} growths, {steps} in steps", states[-1], after)
    if line == "from_delaunay" and states[0] != after:
        fail(lines, line, "none", "it has other vertices, edges or faces", after)
    if line == "try_clone":
        look_at_copy(command, lines, states[0])
    before = [state for state, count in zip(states, steps) for _ in range(count)]
    for number in range(1, growths + 1):
        refuse(CallsTrial, command, lines, line, number, before[number - 1], wanted, after)
    return growths


def look_at_copy(command, lines, wanted):
    trial = CallsTrial(command, [*lines, "try_clone", "swap"])
    if trial.state() != wanted:
        fail(lines, "try_clone", "none", "the copy differs", trial.state())
    trial.end()


def run_script(command):
    calls, total = 0, 0
    for place, line in enumerate(SCRIPT):
        if not line.startswith("write_data"):
            before = SCRIPT[:place]
            counts = [sweep_steps(command, it, line) for it in (before, [*before, "try_clone", "swap"])]
            calls, total = calls + 2, total + sum(counts)
    print(f"{calls} calls, {total} growths refused: the state is as before, or as steps left it")


def replay_without(command, lines, edits, place):
    """What a list of edits gives without one of them, and the state then."""
    trial = CallsTrial(command, [*lines, *edits[:place], *edits[place + 1 :]])
    (_, *outcomes), _, _ = trial.ask("replay")
    state = trial.state()
    trial.end()
    return outcomes, state


def refuse_replay(command, lines, edits, number, before):
    """Looks at a list of edits with this growth refused: which edit it was, or nothing."""
    trial = CallsTrial(command, [*lines, *edits])
    (first, *outcomes), _, refused = trial.ask("replay", (number, number))
    state = trial.state()
    trial.end()
    if refused != 1:
        fail([*lines, *edits], "replay", number, f"{refused} refused")
    if first == "replay > Err(AllocError)" and state == before:
        return None
    places = [place for place, it in enumerate(outcomes) if "OutOfMemory" in it]
    if len(places) != 1 or len(outcomes) != len(edits):
        fail([*lines, *edits], "replay", number, first, *outcomes)
    wanted = replay_without(command, lines, edits, places[0])
    if wanted != (outcomes[: places[0]] + outcomes[places[0] + 1 :], state):
        fail([*lines, *edits], "replay", number, *outcomes, state, "in place of", *wanted)
    return places[0]


def run_replay(command):
    total, places = 0, set()
    for lines, edits in REPLAYED:
        trial = CallsTrial(command, lines)
        before = trial.state()
        for line in edits:
            trial.ask(line)
        growths = trial.ask("replay")[1]
        trial.end()
        for number in range(1, growths + 1):
            places.add(refuse_replay(command, lines, edits, number, before))
        total += growths
    if None not in places or len(places) < 4:
        sys.exit(f"lists of edits: only {places} were refused")
    count = len(REPLAYED)
    print(f"{count} lists of edits, {total} growths refused: the list, or one edit as if left out")


def run_named(command):
    """A copy of vertices whose own copies take memory: with a growth refused there is none."""
    trial = CallsTrial(command, [])
    wanted, growths, _ = trial.ask("copy_named")
    first = wanted[wanted.index("first") :]
    for number in range(1, growths + 1):
        found, _, refused = trial.ask("copy_named", (number, number))
        if refused != 1 or found != ["Err(AllocError)", *first]:
            fail([], "copy_named", number, found)
    if wanted != ["copy", *first[1:], *first] or trial.ask("copy_named")[0] != wanted:
        fail([], "copy_named", "none", wanted)
    trial.end()
    count = len(first) - 1
    print(f"a copy of {count} vertices with names, {growths} growths refused: there is none")


def run_without_memory(command):
    trial = CallsTrial(command, [])
    before = trial.state()
    reply, _, _ = trial.ask("insert 0 0 1", ALL)
    after = trial.state()
    if reply != ["insert 0 0 1 > Err(OutOfMemory)"] or after != before or "vertex" in str(after):
        fail([], "insert 0 0 1", "all", reply, after)
    trial.end()
    for count, line, wanted in WITHOUT_MEMORY:
        reply = ask_without_memory(CallsTrial, command, SCRIPT[:count], line)
        if reply != [f"{line} > {wanted}"]:
            fail(SCRIPT[:count], line, "all", reply)
    count = len(WITHOUT_MEMORY)
    print(f"with every growth refused, an insertion is refused, and {count} edits are answered")


def run_quiet(command):
    """How many calls took no memory."""
    count = 0
    for lines, is_constrained in QUIET_STATES:
        for line in QUIET["both"] + QUIET["constrained" if is_constrained else "plain"]:
            reply = ask_without_memory(CallsTrial, command, lines, line)
            if "no such call" in str(reply):
                fail(lines, line, "all", "there is no such call")
            count += 1
    return count


def main():
    with tempfile.TemporaryDirectory() as folder:
        program = [library(folder), named_or_built("test_calls")]
        command, hinted = [*program, "0"], [*program, "5"]
        run_script(command)
        run_replay(command)
        run_named(command)
        run_without_memory(command)
        count = run_quiet(command) + run_quiet(hinted)
        print(f"{count} calls that take no memory are answered with every growth refused")


main()
