"""What a triangulation behind a handle answers, beside brute force."""
from for_c.calls import FAR, NONE, expect, points_of, shape_of
from model.floor import is_in_sight
from model.geometry import (
    carries,
    distance_2,
    is_inside,
    meets_circle,
    meets_rectangle,
    met_by_segment,
)
from model.places import outer_sides, place_of
from model.session import in_range
from model.ways import Sight, fault, is_wide, labels_of, shortest

# Where a point is, and what a line meets, by number.
VERTEX, EDGE, FACE, OUTSIDE, NOWHERE = range(5)
MET = "veo"


def pair(i, j):
    return (min(i, j), max(i, j))


class Queries:
    """Queries of a triangulation that was compared with points and constraints, whose edges and
    faces are these rows."""

    def __init__(self, kept, state, is_constrained, edges, faces):
        self.kept, self.is_constrained = kept, is_constrained
        self.points, self.walls = state.points, state.walls
        self.pairs = [pair(i, j) for i, j, _ in edges]
        self.corners = [it[:3] for it in faces]
        self.room = len(edges) + len(self.points) + 9

    def list(self, name, width, *words):
        """A status and the rows that a query gives."""
        status, rows, _ = self.kept.all(name, width, *words, room=self.room)
        return status, rows

    # -- Points

    def locate(self, asked):
        """Where points are, and which vertex is nearest."""
        status, places = self.kept.locate("locate", asked, 2)
        expect(status, "OK" if in_range(*asked) else "TOO_LARGE", f"locate {asked}")
        if status == "OK":
            for p, (kind, index) in zip(asked, places):
                self.place(p, kind, index)
        self.nearest(asked)

    def place(self, p, kind, index):
        if p in self.points:
            expect((kind, index), (VERTEX, self.points.index(p)), f"the place of {p}")
        elif len(self.points) < 2:
            expect((kind, index), (NOWHERE, NONE), f"the place of {p}")
        elif kind == EDGE:
            i, j = self.pairs[index]
            is_there = carries(self.points[i], self.points[j], p)
            expect(is_there, True, f"{p} on the edge {i}, {j}")
        elif kind == FACE:
            corners = (self.points[i] for i in self.corners[index])
            expect(is_inside(*corners, p), True, f"{p} in the face {self.corners[index]}")
        else:
            expect(kind, OUTSIDE, f"the place of {p}")
            beside = {pair(i, j) for i, j in outer_sides(self.points, self.pairs, p)}
            expect(self.pairs[index] in beside, True, f"{p} outside the edge {self.pairs[index]}")
            found = place_of(self.points, self.pairs, self.corners, p)
            expect(found, [], f"what {p} is on, which is outside")

    def nearest(self, asked):
        status, near = self.kept.locate("nearest", asked, 1)
        wanted = "OK" if in_range(*asked) else "TOO_LARGE"
        expect(status, "IS_CONSTRAINED" if self.is_constrained else wanted, f"nearest {asked}")
        if status == "OK":
            for p, (i,) in zip(asked, near):
                ways = [distance_2(q, p) for q in self.points]
                found = NONE if i == NONE else ways[i]
                expect(found, min(ways, default=NONE), f"the way from {p} to the nearest vertex")

    # -- Segments

    def line(self, p, q):
        """What a segment meets, and which constraints it crosses."""
        ends = points_of([p])[0], points_of([q])[0]
        status, found = self.list("line", 4, *ends)
        other, crossed = self.list("conflicts", 2, *ends)
        wanted = "OK" if in_range(p, q) else "TOO_LARGE"
        expect((status, other), (wanted, wanted), f"line {p} {q}")
        if wanted != "OK":
            return
        met = met_by_segment(p, q, self.points, self.pairs)
        told = [("v", i) if kind == 0 else (MET[kind], i, j) for kind, i, j, _ in found]
        if p == q:
            told = [("o", *pair(*it[1:])) if it[0] == "o" else it for it in told]
        expect(told, met, f"the line from {p} to {q}")
        marks = [int(it[0] != "v" and pair(*it[1:]) in self.walls) for it in met]
        expect([it[3] for it in found], marks, f"the marks of the line from {p} to {q}")
        wanted = [it[1:] for it in met if it[0] == "e" and pair(*it[1:]) in self.walls]
        expect(crossed, wanted, f"the conflicts from {p} to {q}")

    def sight(self, p, q, marks):
        """Whether a segment stays in the faces with marks, or is refused."""
        status, seen = self.kept.in_sight(p, q, marks)
        if len(marks) != len(self.corners):
            expect(status, "UNEQUAL_LENGTHS", "in_sight")
        elif not in_range(p, q):
            expect(status, "TOO_LARGE", "in_sight")
        else:
            wanted = "OK", int(is_in_sight(p, q, self.free(marks)))
            expect((status, seen), wanted, f"the sight from {p} to {q}")

    def way(self, p, q, marks):
        """A way through the faces with marks, or none exactly where no chain joins its ends."""
        status, way = self.kept.way(p, q, marks, self.room)
        if len(marks) != len(self.corners):
            expect(status, "UNEQUAL_LENGTHS", "way")
        elif not in_range(p, q):
            expect(status, "TOO_LARGE", "way")
        else:
            sees, vertices = Sight(self.free(marks)), set(self.points)
            what = f"the way from {p} to {q}"
            is_joined = shortest(p, q, vertices, sees) is not None
            expect((status, bool(way)), ("OK", is_joined), what)
            expect(fault(way, p, q, vertices, sees) if way else None, None, f"{what}: {way}")

    def wide(self, marks, width_2):
        """Which faces with marks are wide, and the labels of these and of all with marks."""
        status, flags = self.kept.wide_faces(marks, width_2, self.room)
        if len(marks) != len(self.corners):
            expect(status, "UNEQUAL_LENGTHS", "wide_faces")
            expect(self.kept.reachable(marks, self.room)[0], "UNEQUAL_LENGTHS", "reachable")
            return
        self.labels(marks)
        if width_2 < 0:
            expect(status, "NEGATIVE", "wide_faces")
            return
        faces = [[self.points[i] for i in c] for c in self.corners]
        wanted = [int(mark and is_wide(it, width_2)) for it, mark in zip(faces, marks)]
        expect((status, flags), ("OK", wanted), f"the faces of the squared width {width_2}")
        self.labels(flags)

    def labels(self, marks):
        """The label of each face, which tells what faces with marks share corners."""
        wanted = [NONE if it is None else it for it in labels_of(self.corners, marks)]
        expect(self.kept.reachable(marks, self.room), ("OK", wanted), f"the labels by {marks}")

    def free(self, marks):
        """The corners of each face with a mark."""
        return [[self.points[i] for i in c] for c, mark in zip(self.corners, marks) if mark]

    # -- Shapes

    def shape(self, kind, first, second, radius_2):
        """The vertices and the edges in a shape, or why there are none."""
        what = kind, first, second, radius_2
        shape, wrong = shape_of(*what), self.wrong_with(*what)
        vertices, edges = self.list("vertices_in", 1, shape), self.list("edges_in", 1, shape)
        for status in vertices[0], edges[0]:
            expect(status in (wrong or ["OK"]), True, f"{status} in the shape {what}")
        if not wrong:
            inside = [self.meets(a, a, what) for a in self.points]
            expect(sorted(vertices[1]), [(i,) for i, it in enumerate(inside) if it], f"in {what}")
            ends = [(self.points[i], self.points[j]) for i, j in self.pairs]
            inside = [self.meets(a, b, what) for a, b in ends]
            expect(sorted(edges[1]), [(e,) for e, it in enumerate(inside) if it], f"in {what}")

    @staticmethod
    def wrong_with(kind, first, second, radius_2):
        """The statuses that a shape may be refused with."""
        if kind not in (0, 1):
            return ["NO_SUCH_KIND"]
        far = not in_range(first) or kind == 1 and not in_range(second)
        return ["TOO_LARGE"] * far + ["NEGATIVE"] * (kind == 0 and radius_2 < 0)

    @staticmethod
    def meets(a, b, shape):
        kind, first, second, radius_2 = shape
        if kind == 1:
            return meets_rectangle(a, b, first, second)
        return meets_circle(a, b, first, radius_2)

    def circle(self, center, radius_2):
        self.shape(0, center, (FAR, FAR), radius_2)

    def rectangle(self, lower, upper):
        self.shape(1, lower, upper, -1)
