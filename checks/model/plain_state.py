"""Points and constraints as lists, what edits make of them, and which edges and faces they have,
found by trying all."""
from itertools import combinations

from model.geometry import (
    are_on_line,
    carries,
    cross,
    edges_of,
    faces_of,
    in_circle,
    side,
    twice_hull,
)

LIMIT = 2**29
# Above so many vertices, not all on one line, edges are not compared with all circles.
MANY = 30


class PlainState:
    """Vertices are a list in which the last one takes the place of one that goes; constraints are
    pairs of indexes, the least first."""

    def __init__(self, points):
        self.points, self.walls = points, set()

    def insert(self, p):
        """The index of the vertex at a point, or nothing where that is out of range."""
        if max(map(abs, p)) > LIMIT:
            return None
        if p not in self.points:
            self.points.append(p)
            new = len(self.points) - 1
            for i, j in sorted(self.walls):
                if carries(self.points[i], self.points[j], p):
                    self.walls = self.walls - {(i, j)} | {(i, new), (j, new)}
        return self.points.index(p)

    def halves(self, i):
        """The far ends of the two constraints at vertex i, as a pair, where these are halves of a
        straight one."""
        far = [k if m == i else m for k, m in self.walls if i in (k, m)]
        is_straight = len(far) == 2 and carries(*(self.points[k] for k in far), self.points[i])
        return [tuple(far)] if is_straight else []

    def remove(self, i):
        """The point of a vertex, which goes."""
        last, gone = len(self.points) - 1, self.points[i]
        kept = [wall for wall in self.walls if i not in wall] + self.halves(i)
        self.walls = {tuple(sorted(i if k == last else k for k in wall)) for wall in kept}
        self.points[i] = self.points[last]
        self.points.pop()
        return gone

    def is_free(self, i, j):
        """Whether no constraint crosses the segment between two vertices."""
        ends = [(self.points[k], self.points[m]) for k, m in self.walls]
        return not any(cross(self.points[i], self.points[j], *wall) for wall in ends)

    def path(self, i, j):
        a, b = self.points[i], self.points[j]
        within = [k for k, p in enumerate(self.points) if carries(a, b, p)]
        within.sort(key=lambda k: sum((self.points[k][n] - a[n]) ** 2 for n in (0, 1)))
        order = [i] + within + [j]
        return list(zip(order, order[1:]))

    def join(self, i, j):
        """The edges of the path, and whether one of them was no constraint."""
        if i == j or not self.is_free(i, j):
            return [], False
        path = self.path(i, j)
        pairs = {tuple(sorted(pair)) for pair in path}
        made = not self.walls.issuperset(pairs)
        self.walls |= pairs
        return [list(pair) for pair in path], made

    def edges(self, listed=()):
        """The edges; of two diagonals that are open, the listed one."""
        return edges_of(self.points, sorted(self.walls), listed) if len(self.points) > 1 else []

    def faces(self, listed):
        """The faces, by the same edges."""
        return self.faces_by(self.edges(listed))

    def faces_by(self, edges):
        return set(faces_of(self.points, edges))

    def counts(self):
        v, e = len(self.points), len(self.edges())
        is_line = v < 3 or are_on_line(self.points)
        return [v, e, 0 if is_line else 1 - v + e, len(self.walls)]


def pairs_of(triples):
    return {tuple(sorted(pair)) for triple in triples for pair in combinations(triple, 2)}


def tiling_fault(points, faces, free):
    """The first way in which faces are no triangulation, or nothing: each turns left, together
    they have the area of the hull, so they lie beside each other, and no vertex opposite a free
    edge, given in either direction, is inside the circle on its other side."""
    area, opposite = 0, {}
    for corners in faces:
        turn = side(*(points[i] for i in corners))
        if turn <= 0:
            return f"face {corners} does not turn left"
        area += turn
        opposite.update({(corners[k - 2], corners[k - 1]): corners[k] for k in range(3)})
    if len(opposite) != 3 * len(faces) or area != twice_hull(points):
        return "the faces overlap or leave out some of the hull"
    for (i, j), k in opposite.items():
        other = opposite.get((j, i))
        if other is not None and ((i, j) in free or (j, i) in free):
            if in_circle(*(points[m] for m in (i, j, k, other))) > 0:
                return f"vertex {other} is inside the circle of the face {i}, {j}, {k}"
    return None
