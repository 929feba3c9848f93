"""A triangulation behind a handle beside lists of points and constraints: each edit is made of
both, and what the call gives is compared."""
from copy import deepcopy
from ctypes import c_int32, c_uint8, c_uint32, c_uint64

from for_c.calls import NONE, Kept, expect, points_of, words_of
from for_c.queries import Queries, pair
from model.floor import layers_of
from model.geometry import NOWHERE, are_on_line, passes
from model.plain_state import MANY, pairs_of, tiling_fault
from model.session import Tagged, in_range


class Beside:
    """A triangulation, and what lists say of it."""

    def __init__(self, library, is_constrained):
        self.library, self.is_constrained = library, is_constrained
        self.kept, self.state = Kept(library, int(is_constrained)), Tagged()
        expect(self.kept.opened, "OK", "open")

    def are_vertices(self, *indexes):
        return all(i < len(self.state.points) for i in indexes)

    # -- Edits

    def insert(self, p):
        status, vertex = self.kept.insert(*p)
        wanted = self.state.put(p, 0)
        expect(status, "TOO_LARGE" if wanted is None else "OK", f"insert {p}")
        expect(vertex, NONE if wanted is None else wanted, f"the vertex of {p}")

    def insert_all(self, points, room=None):
        """All points at once. The room may be too short."""
        status, vertices = self.kept.insert_all(points, room)
        if room is not None and room < len(points):
            expect(status, "TOO_SHORT", f"insert_all with room for {room}")
        elif not in_range(*points):
            expect(status, "TOO_LARGE", f"insert_all {points}")
        else:
            expect(status, "OK", f"insert_all {points}")
            wanted = [vertex for _, vertex in sorted(self.state.put_all(points))]
            expect(vertices, wanted, f"the vertices of {points}")
            for i in wanted:
                self.state.tags[i] = 0

    def remove(self, i):
        is_there = self.are_vertices(i)
        expect(self.kept.call("remove", i), "OK" if is_there else "NO_SUCH_VERTEX", f"remove {i}")
        if is_there:
            self.state.take(i)

    def joined(self, i, j):
        """What joining two vertices has to say, and does."""
        if not self.is_constrained:
            return "IS_PLAIN"
        if not self.are_vertices(i, j):
            return "NO_SUCH_VERTEX"
        if i != j and not self.state.is_free(i, j):
            return "CROSSING"
        self.state.join(i, j)
        return "OK"

    def constrain(self, i, j):
        status = self.kept.call("constrain", i, j)
        expect(status, self.joined(i, j), f"constrain {i} {j}")

    def chain(self, vertices, closed):
        """Joins each vertex to the next one, up to a segment that is refused."""
        status, made = self.kept.constrain_chain(vertices, closed)
        wanted, count = "OK", 0
        if not self.is_constrained:
            wanted = "IS_PLAIN"
        elif not self.are_vertices(*vertices):
            wanted = "NO_SUCH_VERTEX"
        else:
            ends = list(zip(vertices, vertices[1:]))
            for i, j in ends + ([(vertices[-1], vertices[0])] if closed and vertices else []):
                wanted = self.joined(i, j)
                if wanted != "OK":
                    break
                count += 1
        expect(status, wanted, f"constrain_chain {vertices}")
        if wanted in ("OK", "CROSSING"):
            expect(made, count, f"the segments of the chain {vertices}")

    def release(self, i, j):
        wanted = "OK" if pair(i, j) in self.state.walls else "NO_CONSTRAINT"
        wanted = wanted if self.are_vertices(i, j) else "NO_SUCH_VERTEX"
        wanted = wanted if self.is_constrained else "IS_PLAIN"
        expect(self.kept.call("release", i, j), wanted, f"release {i} {j}")
        if wanted == "OK":
            self.state.walls.remove(pair(i, j))

    def number(self, vertices, numbers):
        words = (*words_of(vertices), *words_of(numbers, c_uint64))
        wanted = "OK" if self.are_vertices(*vertices) else "NO_SUCH_VERTEX"
        wanted = wanted if len(numbers) == len(vertices) else "UNEQUAL_LENGTHS"
        expect(self.kept.call("set_numbers", *words), wanted, f"set_numbers {vertices}")
        if wanted == "OK":
            for i, number in zip(vertices, numbers):
                self.state.tags[i] = number

    def clear(self):
        expect(self.kept.call("clear"), "OK", "clear")
        self.state = Tagged()

    def allow_constraints(self):
        """The indexes of all elements stay."""
        before, wanted = self.parts(), "IS_CONSTRAINED" if self.is_constrained else "OK"
        expect(self.kept.call("allow_constraints"), wanted, "allow_constraints")
        expect(self.parts(), before, "what allow_constraints leaves")
        self.is_constrained = True

    def copy(self):
        """A copy, which is the same by all indexes."""
        other = Beside.__new__(Beside)
        other.library, other.is_constrained = self.library, self.is_constrained
        other.kept, other.state = self.kept.copy(), deepcopy(self.state)
        expect(other.kept.opened, "OK", "copy")
        expect(other.parts(), self.parts(), "a copy")
        return other

    def close(self):
        self.kept.close()

    # -- All of it

    def parts(self):
        return self.kept.parts(6 * len(self.state.points) + 9)

    def rows(self, name, width, kind=c_uint32):
        """The rows of a list of all elements."""
        room = 6 * len(self.state.points) + 9
        status, rows, count = self.kept.all(name, width, room=room, kind=kind)
        expect((status, count), ("OK", len(rows)), name)
        return rows

    def look(self):
        """Compares all that is there with lists, and gives what may be asked of it. Where four
        points are on one circle, either diagonal may be there."""
        points = self.state.points
        expect(self.rows("positions", 2, c_int32), points, "positions")
        numbers = [number for (number,) in self.rows("numbers", 1, c_uint64)]
        expect(numbers, self.state.tags, "numbers")
        edges, faces = self.rows("edges", 3), self.rows("faces", 9)
        walls = {pair(i, j) for i, j, mark in edges if mark}
        expect(walls, self.state.walls, f"the constraints of {points}")
        self.look_at_edges([pair(i, j) for i, j, _ in edges], [it[:3] for it in faces])
        self.look_at_sides(faces)
        counts = (len(points), len(edges), len(faces), len(walls))
        expect(self.kept.counts(), ("OK", counts), "count")
        layers = [layer for (layer,) in self.rows("face_layers", 1)]
        expect(layers, layers_of(faces, NONE), "the layers of faces")
        self.look_at_disks([it[:3] for it in faces])
        return Queries(self.kept, self.state, self.is_constrained, edges, faces)

    def look_at_disks(self, corners):
        """Which disks of faces pass the sides of some boxes: round a third of the vertices, with
        one side alone, turned over, and with no side."""
        points = self.state.points
        some = points[::3] or [(0, 0)]
        (left, right), (bottom, top) = ((min(it), max(it)) for it in zip(*some))
        boxes = [(left, bottom, right, top), (-NOWHERE, -NOWHERE, right, NOWHERE - 1)]
        boxes += [(right, bottom, left - 1, top), (left - 1, bottom - 9, right + 9, top + 1)]
        boxes += [(-NOWHERE, -NOWHERE, NOWHERE - 1, NOWHERE - 1)]
        for box in boxes:
            words = (points_of([box[:2], box[2:]])[0],)
            room = 6 * len(points) + 9
            status, rows, count = self.kept.all("faces_beyond", 1, *words, room=room, kind=c_uint8)
            expect((status, count), ("OK", len(rows)), "faces_beyond")
            wanted = [int(passes(*(points[i] for i in it), box)) for it in corners]
            expect([flag for (flag,) in rows], wanted, f"the disks of {points} beyond {box}")

    def look_at_edges(self, listed, corners):
        """Of many points, faces are compared with their neighbours alone."""
        points = self.state.points
        if len(points) > MANY and not are_on_line(points):
            fault = tiling_fault(points, corners, set(listed) - self.state.walls)
            expect(fault, None, f"the faces of {len(points)} points")
            expect(sorted(listed), sorted(pairs_of(corners)), "the edges of faces")
            return
        wanted = self.state.edges(set(listed))
        expect(sorted(listed), wanted, f"the edges of {points}")
        turned = sorted(c[c.index(min(c)) :] + c[: c.index(min(c))] for c in corners)
        expect(turned, sorted(self.state.faces_by(wanted)), f"the faces of {points}")

    def look_at_sides(self, faces):
        """Each face has the faces beyond its edges beside it, and the marks of these edges."""
        sides = {(row[k], row[(k + 1) % 3]): f for f, row in enumerate(faces) for k in range(3)}
        for row in faces:
            corners, near, marks = row[:3], row[3:6], row[6:]
            for k in range(3):
                a, b = corners[k - 2], corners[k - 1]
                expect(near[k], sides.get((b, a), NONE), f"a neighbour of {corners}")
                expect(marks[k], int(pair(a, b) in self.state.walls), f"a mark of {corners}")
