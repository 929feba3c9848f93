#!/usr/bin/env python3
"""checks/refused_hints.py [PROGRAM]: refuses each growth of each edit beside a hierarchy of hints
in turn, and looks at all there is and at the hints.

PROGRAM is crates/test_calls as the gate has built it; a `malloc` refuses growths of a call
(faults/refusing.py). Each line of HINTED (faults/script.py) is run again and again, each time in a
run of its own that begins with the lines before it, with hierarchies by 0, 1, 2, 3 and 16; and so
on a copy. Either the call is refused, and the state and all hints are those of before, or as the
steps of a chain left them; or it is done, with the state as where nothing was refused, and the
hierarchy gives hint 0 until it is made anew.

Of a list of edits (REPLAYED) one that is refused has to be as if it were left out, or the list is
refused before its first edit. A hierarchy that is made for positions, and a copy of one, give hint
0 where a growth was refused.
"""
import re
import sys
import tempfile
from collections import Counter

from faults.refusing import library
from faults.script import CROWD, FACTORS, HINTED, POSITIONS
from faults.trial import CHAINS, CallsTrial, fail, known_of, steps_of
from model.mesh_state import MeshState
from project import named_or_built

# A list of edits behind the first nine lines of HINTED.
REPLAYED = ["list_insert 11 12", "list_remove 3", "list_insert -44 60", "list_remove 0"]
REPLAYED += [f"list_insert {60 + i} {-9 * i}" for i in range(5)]
ZEROS = ["Some(0)"] * len(POSITIONS)


def look(trial):
    return trial.state(), trial.hints(POSITIONS)


def look_at_copy(trial, lines, line, number, reply, before):
    """A copy was made that has no hints: the first has them still."""
    if look(trial) != before:
        fail(lines, line, number, reply, "the first differs")
    trial.ask("swap")
    if trial.state() != before[0] or trial.hints(POSITIONS) != ZEROS:
        fail(lines, line, number, reply, "the copy differs", trial.hints(POSITIONS))


def is_same(line, first, second):
    """Whether two states are one. Where hints are forgotten within a chain or a list, the next step
    searches from elsewhere, and its edges may come in another order."""
    if line.split()[0] not in (*CHAINS, "replay"):
        return first == second
    first, second = MeshState(first), MeshState(second)
    names = {tuple(sorted(it.ends)): it.is_constraint for it in first.edges}
    others = {tuple(sorted(it.ends)): it.is_constraint for it in second.edges}
    faces = sorted(first.faces.values()) == sorted(second.faces.values())
    return faces and names == others and (first.points, first.tags) == (second.points, second.tags)


def look_at_done(trial, lines, line, number, reply, known):
    """An edit was made, and the hierarchy forgot its hints until it is made anew."""
    _, wanted, after, anew = known
    found, hints = look(trial)
    if reply != wanted or not is_same(line, found, after) or hints != ZEROS:
        fail(lines, line, number, reply, wanted, found, after, hints)
    trial.ask("insert 7 -8 1")
    if trial.hints(POSITIONS) != ZEROS:
        fail(lines, line, number, "it has hints before it is made anew")
    for it in ["clear", *anew]:
        trial.ask(it)
    if trial.hints(POSITIONS) == ZEROS:
        fail(lines, line, number, "it has no hints when it is made anew")


def refuse(command, lines, line, number, known):
    """Whether a call was refused with this growth: else it is done, and hints are forgotten."""
    steps, wanted = known[:2]
    trial = CallsTrial(command, lines)
    reply, _, refused = trial.ask(line, (number, number))
    if refused != 1:
        fail(lines, line, number, f"{refused} refused")
    was_refused = trial.is_refusal(reply)
    if was_refused:
        if look(trial) not in steps:
            fail(lines, line, number, "refused, but not as before", *look(trial))
        if trial.ask(line)[0] != wanted and not line.startswith("add_constraint_edge "):
            fail(lines, line, number, "made again, it gives something else")
    elif line == "try_clone":
        look_at_copy(trial, lines, line, number, reply, steps[0])
    else:
        look_at_done(trial, lines, line, number, reply, known)
    trial.end()
    return was_refused


def sweep(command, lines, line, anew):
    """Whether a call was refused, of each growth. The lines make the hierarchy anew."""
    steps, _ = steps_of(command, lines, line, look)
    _, wanted, growths, after = known_of(CallsTrial, command, lines, line)
    known = steps[:-1], wanted, after, anew
    if after != steps[-1][0]:
        fail(lines, line, "none", "other steps give something else")
    for number in range(1, growths + 1):
        yield refuse(command, lines, line, number, known)


def run_hinted(command, factor, first):
    """Edits beside a hierarchy, behind these first lines."""
    counts = {True: 0, False: 0}
    for place, line in enumerate(HINTED):
        before = [*first, *HINTED[:place]]
        for lines in before, [*before, "try_clone", "swap"]:
            for was_refused in sweep(command, lines, line, [*first, *HINTED[:9]]):
                counts[was_refused] += 1
    if (counts[False] == 0) != (factor < 2):
        sys.exit(f"a hierarchy by {factor}: {counts[False]} growths refused its hints")
    calls = f"{2 * len(HINTED)} edits with a hierarchy by {factor}"
    print(f"{calls}: {counts[True]} growths refused them, {counts[False]} their hints")


def replayed(command, edits):
    """What a list of edits gives behind the first vertices, and the state then."""
    trial = CallsTrial(command, [*HINTED[:9], *edits])
    (_, *outcomes), growths, _ = trial.ask("replay")
    state = trial.state()
    trial.end()
    return outcomes, state, growths


def refuse_list(command, number, before):
    """What a growth refused: the list, one of its edits, or hints."""
    trial = CallsTrial(command, [*HINTED[:9], *REPLAYED])
    (first, *outcomes), _, refused = trial.ask("replay", (number, number))
    found, hints = look(trial)
    trial.end()
    if first == "replay > Err(AllocError)" and (found, hints) == before and refused == 1:
        return "list"
    places = [place for place, it in enumerate(outcomes) if "OutOfMemory" in it]
    edits = [it for place, it in enumerate(REPLAYED) if place not in places]
    wanted, state, _ = replayed(command, edits)
    kept = [it for place, it in enumerate(outcomes) if place not in places]
    is_told = len(places) == 1 or hints == ZEROS
    if refused != 1 or not is_told or kept != wanted or not is_same("replay", found, state):
        fail([*HINTED[:9], *REPLAYED], "replay", number, first, *outcomes, found, hints)
    return "edit" if places else "hints"


def run_list(command, factor):
    """A list of edits beside a hierarchy."""
    trial = CallsTrial(command, HINTED[:9])
    before = look(trial)
    trial.end()
    growths = replayed(command, REPLAYED)[2]
    counts = Counter(refuse_list(command, number, before) for number in range(1, growths + 1))
    if not counts["list"] or not counts["edit"]:
        sys.exit(f"a list of edits with a hierarchy by {factor}: {counts}")
    found = ", ".join(f"{name} {counts[name]}" for name in ("list", "edit", "hints"))
    print(f"a list of edits with a hierarchy by {factor}, growths by what they refused: {found}")


def run_generators(command):
    """A hierarchy that is made for positions, and a copy: with a growth refused it gives hint 0."""
    for line in "initialize", "duplicate":
        trial = CallsTrial(command, [])
        wanted, growths, _ = trial.ask(line)
        first = wanted[wanted.index("first") :] if "first" in wanted else []
        for number in range(1, growths + 1):
            found, _, refused = trial.ask(line, (number, number))
            zeros = [re.sub(r"\d+$", "0", it) for it in wanted[: len(wanted) - len(first)]] + first
            if refused != 1 or found != zeros or trial.ask(line)[0] != wanted or zeros == wanted:
                fail([], line, number, found, zeros)
        trial.end()
        print(f"{line}: {growths} growths refused: hint 0 alone, until it is made anew")


def main():
    with tempfile.TemporaryDirectory() as folder:
        command = [library(folder), named_or_built("test_calls")]
        for hints, factor in FACTORS:
            run_hinted([*command, hints], factor, CROWD if factor > 3 else [])
            run_list([*command, hints], factor)
        run_generators([*command, "5"])


main()
