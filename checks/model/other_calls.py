"""The scripts of the calls for C (c_lines.py), played by calls that C does not reach."""
from itertools import cycle, product

from model.plain_state import LIMIT
from model.told import HINTS, Told

# How many points are looked for after an edit, and how many vertices are asked for in pairs.
PLACES, PAIRS = 12, 5
NONE = 1000


def numbers_of(points):
    return " ".join(f"{x} {y}" for x, y in points)


class OtherCalls:
    """A run of the program with hints of one kind, to which a script is played. Lines that ask for
    points or shapes make no call here: what is asked is asked after each edit."""

    def __init__(self, program, hints):
        self.told, self.hints = Told(program, hints), hints
        self.turn, self.edits = cycle(range(4)), 0

    @property
    def points(self):
        return self.told.session.state().points

    def play(self, line):
        name, *words = line.split() or ["#"]
        edit = getattr(self, f"edit_{name}", None)
        if not edit:
            return
        for call in edit(*words):
            self.told.ask(call)
        self.edits += 1
        self.look()

    def look(self):
        self.told.ask(("counts", "elements", "names", "hull")[self.edits % 4])
        if len(self.points) > 30:
            return
        for x, y in self.near():
            self.told.ask(f"locate_vertex {x} {y}")
            for hint in self.starts():
                self.told.ask(f"locate_with_hint {x} {y} {hint}")
        if HINTS[self.hints] is not None:
            for x, y in self.points:
                self.told.ask(f"hint {x} {y}")
        count = min(len(self.points), PAIRS if self.hints == 0 else 2)
        for i, j in product(range(count), repeat=2):
            self.pair(i, j)

    def starts(self):
        """Where searches begin that are told it: no hint of a generator's own is asked for then."""
        return (*range(min(len(self.points), 9)), NONE) if self.hints == 0 else ()

    def near(self):
        """Vertices, what is beside them, and what is half way between two, some at a time."""
        found = set()
        for (x, y), (u, v) in product(self.points[:9], repeat=2):
            found |= {(x, y), (x + 1, y), (x, y - 1), ((x + u) // 2, (y + v) // 2)}
        found = [p for p in sorted(found) if max(map(abs, p)) <= LIMIT]
        step = max(len(found) // (PLACES if self.hints == 0 else 4), 1)
        return found[self.edits % step :: step]

    def pair(self, i, j):
        """What there is between two vertices, in turn by one call or another."""
        turn = next(self.turn)
        if turn == 0 or not self.told.session.is_constrained:
            self.told.ask(f"line_of_handles {i} {j}")
        elif turn == 1:
            self.told.ask(f"conflicts_of_handles {i} {j}")
            self.told.ask(f"exists_constraint {i} {j}")
        else:
            ends = numbers_of([self.points[i], self.points[j]])
            self.told.ask(f"{('conflicts', 'intersects_constraint')[turn - 2]} {ends}")
            self.told.ask(f"is_constraint_edge {i} {j}")

    # -- Edits

    def edit_open(self, kind):
        yield f"begin {self.hints}"
        if kind == "constrained":
            yield "from_delaunay"

    def edit_insert(self, x, y, number=0):
        turn = next(self.turn)
        if turn == 0:
            yield f"insert {x} {y} {number}"
        elif turn == 1 and not self.told.session.is_constrained:
            yield f"insert_counting {x} {y} {number}"
        else:
            hint = NONE if turn == 2 else self.edits % (len(self.points) + 1)
            yield f"insert_with_hint {x} {y} {number} {hint}"

    def edit_number(self, i, number):
        yield f"replace_vertex {i} {number}"

    def edit_insert_all(self, *numbers):
        name = ("insert_all", "insert_in_steps")[self.edits % 2]
        yield " ".join([name, *numbers])

    def edit_fill(self):
        points = ((i * 85 % 324 % 18, i * 85 % 324 // 18) for i in range(324))
        yield f"insert_all {numbers_of(points)}"

    def edit_thin(self, removals):
        """Removes the same vertices as the calls for C do, a few of them at once by a list."""
        for first in range(0, int(removals), 20):
            count = len(self.points)
            for i in range(first, min(first + 20, int(removals))):
                yield f"list_remove {i * 37 % 101 % max(count, 1)}"
                count = max(count - 1, 0)
            yield "replay"

    def edit_insert_row(self, first, last):
        yield f"insert_in_steps {numbers_of((x, 0) for x in range(int(first), int(last)))}"

    def edit_remove(self, i):
        if int(i) < len(self.points) and self.edits % 2:
            x, y = self.points[int(i)]
            yield f"locate_and_remove {x} {y}"
        else:
            yield f"remove {i}"

    def edit_constrain(self, i, j):
        count = len(self.points)
        if self.edits % 2 and max(int(i), int(j)) < count:
            yield f"add_constraint_edge {numbers_of(self.points[int(k)] for k in (i, j))}"
        else:
            name = ("try_add_constraint", "add_constraint_unless_crossed")[self.edits // 2 % 2]
            yield f"{name} {i} {j}"

    def edit_chain(self, *vertices):
        yield f"add_constraint_edges {numbers_of(self.points[int(k)] for k in vertices)}"

    def edit_closed_chain(self, *vertices):
        yield f"add_closed_edges {numbers_of(self.points[int(k)] for k in vertices)}"

    def edit_release(self, i, j):
        yield f"remove_constraint_edge {i} {j}"

    def edit_clear(self):
        yield "clear"

    def edit_allow_constraints(self):
        yield "from_delaunay"

    def edit_copy(self):
        yield "try_clone"

    def edit_swap(self):
        yield "swap"
