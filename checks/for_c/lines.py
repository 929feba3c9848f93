"""The lines of a script for the calls for C. `open` opens a triangulation, plain or constrained;
other edits are made of it, and after each all there is is compared with lists. A query is asked of
one or more points or shapes. `copy` keeps a copy aside, and `swap` goes on with the one that is
kept aside. A line that begins with `#` is a remark."""
from itertools import product

from for_c.beside import Beside
from for_c.calls import MOST, Difference

# The points of which shapes are made in turn.
NINE = list(product((-1, 0, 1), repeat=2))


def points(numbers):
    return list(zip(numbers[::2], numbers[1::2]))


class Lines:
    """A triangulation, and one that is kept aside."""

    def __init__(self, library):
        self.library, self.edits, self.queries = library, 0, 0
        self.beside, self.aside, self.asked = Beside(library, False), None, None
        self.look()

    def look(self):
        self.asked = self.beside.look()
        self.asked.locate(self.near())

    def near(self):
        """Each vertex with its neighbours of the grid, and what is half way between two."""
        found = set()
        vertices = self.beside.state.points
        for x, y in vertices[:40]:
            found |= {(x, y), (x + 1, y), (x - 1, y), (x, y + 1), (x, y - 1)}
        for (x, y), (u, v) in product(vertices[:12], repeat=2):
            found.add(((x + u) // 2, (y + v) // 2))
        return [p for p in sorted(found) if max(map(abs, p)) <= MOST]

    def play(self, line):
        name, *words = line.split() or ["#"]
        if name == "#":
            return
        edit, query = (getattr(self, f"{kind}_{name}", None) for kind in ("edit", "query"))
        if not edit and not query:
            raise Difference(f"there is no call {name}")
        (edit or query)(*(int(it) if it.lstrip("-").isdigit() else it for it in words))
        if edit:
            self.edits += 1
            self.look()

    def close(self):
        for it in filter(None, (self.beside, self.aside)):
            it.close()
        self.aside = None

    # -- Edits

    def edit_open(self, kind):
        self.close()
        self.beside = Beside(self.library, {"plain": False, "constrained": True}[kind])

    def edit_insert(self, x, y, number=0):
        """Inserts a vertex, and gives it a number."""
        self.beside.insert((x, y))
        points = self.beside.state.points
        if number and (x, y) in points:
            self.beside.number([points.index((x, y))], [number])

    def edit_number(self, i, number):
        self.beside.number([i], [number])

    def edit_insert_all(self, *numbers):
        self.beside.insert_all(points(numbers))

    def edit_fill(self):
        """Eighteen rows of eighteen points in a scattered order."""
        for i in range(324):
            k = i * 85 % 324
            self.beside.insert((k % 18, k // 18))

    def edit_thin(self, removals):
        """Removes vertices of scattered indexes."""
        for i in range(removals):
            self.beside.remove(i * 37 % 101 % max(len(self.beside.state.points), 1))

    def edit_insert_row(self, first, last):
        for x in range(first, last):
            self.beside.insert((x, 0))

    def edit_remove(self, i):
        self.beside.remove(i)

    def edit_constrain(self, i, j):
        self.beside.constrain(i, j)

    def edit_chain(self, *vertices):
        self.beside.chain(vertices, False)

    def edit_closed_chain(self, *vertices):
        self.beside.chain(vertices, True)

    def edit_release(self, i, j):
        self.beside.release(i, j)

    def edit_clear(self):
        self.beside.clear()

    def edit_allow_constraints(self):
        self.beside.allow_constraints()

    def edit_copy(self):
        if self.aside:
            self.aside.close()
        self.aside = self.beside.copy()

    def edit_swap(self):
        self.beside, self.aside = self.aside, self.beside

    # -- Queries

    def query_locate(self, *numbers):
        for p in points(numbers):
            self.asked.locate([p])
            self.queries += 1

    def query_line(self, x, y, u, v):
        self.asked.line((x, y), (u, v))
        self.queries += 1

    def query_lines(self, *numbers):
        """The segments from each of some points to each."""
        for p, q in product(points(numbers), repeat=2):
            self.query_line(*p, *q)

    def query_row_of_lines(self, first, last):
        """The segments between points of the line y = 0."""
        self.query_lines(*(it for x in range(first, last) for it in (x, 0)))

    def query_ways(self, *numbers):
        """The ways from each of some points to each, through all faces, and through those but each
        third."""
        count = len(self.asked.corners)
        for marks in [1] * count, [int(k % 3 > 0) for k in range(count)]:
            for p, q in product(points(numbers), repeat=2):
                self.asked.way(p, q, marks)
                self.queries += 1

    def query_wide(self, *widths_2):
        """Which faces are wide, by some squared widths, and which of them ways join: of all faces,
        and of those but each third."""
        count = len(self.asked.corners)
        for marks in [1] * count, [int(k % 3 > 0) for k in range(count)]:
            for width_2 in widths_2:
                self.asked.wide(marks, width_2)
                self.queries += 1

    def query_circle(self, x, y, radius_2):
        self.asked.circle((x, y), radius_2)
        self.queries += 1

    def query_rectangle(self, x, y, u, v):
        self.asked.rectangle((x, y), (u, v))
        self.queries += 1

    def query_shapes(self):
        """The rectangles with two of nine points as corners, in either order, and the circles
        round one with a squared radius from 0 to 8."""
        for p, q in product(NINE, repeat=2):
            self.query_rectangle(*p, *q)
        for p, radius_2 in product(NINE, range(9)):
            self.query_circle(*p, radius_2)
