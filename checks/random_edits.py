#!/usr/bin/env python3
"""checks/random_edits.py [--seed SEED] [--steps STEPS] [PROGRAM]: random edits and questions.

PROGRAM is crates/test_calls as the gate has built it: it makes the call of each line that it reads.
Rounds of edits begin with nothing, first without constraints and then with them, at small
coordinates, on one line, at the limits of coordinates and anywhere, with hints of each kind. After
each edit all vertices, edges and faces with their links are compared with what lists of points and
constraints say (told.py), and some questions are asked (questions.py). Where four points are on one
circle, either diagonal may be there. The same seed makes the same steps.
"""
import argparse
import os
import random
import sys

from model.plain_state import LIMIT
from model.points_drawn import points_to_draw
from model.told import HINTS, PROGRAM, Difference, Told

SEED, STEPS = 20261128, 9000
# Edits in a round, without constraints and with them.
ROUND = 60
# How many vertices there may be in a round: brute force looks at all pairs of pairs of them.
MANY = (6, 10, 14, 18)
# Edits of both types and of one with constraints, each as often as it stands here.
EDITS = ["insert"] * 4 + ["insert_with_hint"] * 8 + ["remove"] * 2 + ["locate_and_remove"] * 3
EDITS += ["replace_vertex", "try_clone", "swap", "replay", "insert_all", "insert_in_steps"]
OF_PLAIN_EDITS = ["insert_counting"] * 3
OF_CONSTRAINTS = ["try_add_constraint"] * 5 + ["add_constraint_unless_crossed"] * 3
OF_CONSTRAINTS += ["remove_constraint_edge"] * 3
OF_CONSTRAINTS += ["add_constraint_edge"] * 3 + ["add_constraint_edges", "add_closed_edges"]
# What a line of each call has after its name: positions, indexes of vertices, or a number.
WORDS = {
    "insert": "pt",
    "insert_counting": "pt",
    "insert_with_hint": "pti",
    "remove": "i",
    "locate_and_remove": "p",
    "replace_vertex": "it",
    "add_constraint_edge": "pp",
    "add_constraint_edges": "ppp",
    "add_closed_edges": "pppp",
    "insert_all": "ppp",
    "insert_in_steps": "ppppp",
}
WORDS.update({name: "" for name in ("try_clone", "swap", "clear", "from_delaunay")})
WORDS.update({name: "ii" for name in OF_CONSTRAINTS if name not in WORDS})
# Edits of lists that are replayed.
LISTED = {"list_insert": "p", "list_remove": "i", "list_replace": "ip", "list_add": "ii"}
LISTED["list_release"] = "ii"
QUESTIONS = {"locate_with_hint": "pi", "locate_vertex": "p", "line_of_handles": "ii"}
QUESTIONS.update({"counts": "", "elements": "", "names": "", "hull": "", "position": "i"})
QUESTIONS.update({"ends": "i", "corners": "i"})
OF_CONSTRAINED = {"conflicts": "pp", "intersects_constraint": "pp", "conflicts_of_handles": "ii"}
OF_CONSTRAINED.update({"exists_constraint": "ii", "is_constraint_edge": "ii"})


class Round:
    """A run of the program, and the points and indexes that it draws."""

    def __init__(self, program, draw):
        self.draw, self.points = draw, points_to_draw(draw)
        self.told, self.most = Told(program, draw.choice(list(HINTS))), draw.choice(MANY)

    def word(self, kind):
        """A position, now and then one out of range; an index; or what a vertex carries."""
        if kind == "p":
            x, y = self.draw.choice(self.points)
            return f"{LIMIT + 1} {y}" if self.draw.random() < 0.01 else f"{x} {y}"
        if kind == "i":
            return str(self.draw.randrange(len(self.told.session.state().points) + 1))
        return str(self.draw.randrange(100))

    def make(self, name, kinds):
        self.told.ask(" ".join([name, *(self.word(kind) for kind in kinds)]))

    def edit(self, name):
        if name == "replay":
            for _ in range(self.draw.randrange(6)):
                listed = self.draw.choice(list(LISTED))
                self.make(listed, LISTED[listed])
        self.make(name, WORDS.get(name, ""))
        if name == "swap" and self.told.session.is_constrained != self.is_constrained:
            self.make(name, "")

    def run(self):
        """How many edits and questions there were."""
        for step in range(ROUND):
            self.is_constrained = step >= ROUND // 2
            edits, names = EDITS + OF_PLAIN_EDITS, QUESTIONS
            if self.is_constrained:
                edits, names = EDITS + OF_CONSTRAINTS, {**QUESTIONS, **OF_CONSTRAINED}
            if step == ROUND // 2:
                self.edit("from_delaunay")
            is_many = len(self.told.session.state().points) >= self.most
            self.edit("remove" if is_many else self.draw.choice(edits))
            for _ in range(2):
                name = self.draw.choice(list(names))
                self.make(name, names[name])
        self.told.end()
        return self.told.asked


def main():
    words = argparse.ArgumentParser(description=__doc__)
    words.add_argument("--seed", type=int, default=SEED)
    words.add_argument("--steps", type=int, default=STEPS)
    words.add_argument("program", nargs="?", default=PROGRAM)
    given = words.parse_args()
    draw, steps, rounds = random.Random(given.seed), 0, 0
    while steps < given.steps:
        try:
            steps += Round(os.path.realpath(given.program), draw).run()
        except Difference as error:
            sys.exit(str(error))
        rounds += 1
    print(f"{steps} edits and questions in {rounds} rounds, seed {given.seed}: all as lists say")


main()
