"""What is asked of a triangulation at points, along lines and in shapes."""
from __future__ import annotations

import heapq
from ctypes import byref
from enum import IntEnum
from typing import Any, List, NamedTuple, Optional, Tuple

import numpy as np

from . import _library as library
from ._arrays import Arrays, Floats
from ._faces import faces_of_edges, keys_of
from ._grid import WHOLE, Asked
from ._kept import Ints, Kept
from ._numbers import numbers_of, single
from ._types import NDArray
from ._walk import distances_to_segments_2, meets_box, nearer, turns, walk
from .errors import NegativeError

MOST = library.MOST


class Place(IntEnum):
    """Where a point is."""

    ON_VERTEX = 0
    ON_EDGE = 1
    IN_FACE = 2
    OUTSIDE = 3
    NOWHERE = 4


class Places(NamedTuple):
    """Where some points are: a `Place` for each, and an index. The index is the number of the point
    that is a vertex there (ON_VERTEX), a row in `edges` (ON_EDGE), a row in `simplices` (IN_FACE),
    the row in `edges` of an edge that is seen from there (OUTSIDE), or -1 (NOWHERE)."""

    kind: Any
    index: Any


class Met(IntEnum):
    """What a line meets."""

    AT_VERTEX = 0
    ACROSS_EDGE = 1
    ALONG_EDGE = 2


class Meeting(NamedTuple):
    """What a line meets: a vertex, which is both `start` and `end`, or an edge. An edge that it
    crosses has the line's end on its left; one that it runs along has the line's direction."""

    kind: Met
    start: int
    end: int
    is_constraint: bool


class Queries(Arrays):
    """Questions. The points that they are about may be off the grid, and anywhere."""

    def _asked(self, array: NDArray[Any]) -> Asked:
        return self._grid_now().asked(array.reshape(-1, 2))

    # Where points are.

    def locate(self, xi: Any) -> Places:
        """What each point of an array of the shape (.., 2) lies on, as arrays of the shape (..). If
        the triangulation's points are whole numbers, or have a `scale`, a point that you ask about
        is not rounded. Otherwise it is rounded to the grid as they were.

        >>> import tevasulim
        >>> tri = tevasulim.Triangulation([(0, 0), (4, 0), (0, 4)])
        >>> kind, index = tri.locate([(1, 1), (4, 0)])
        >>> [(tevasulim.Place(k).name, int(i)) for k, i in zip(kind, index)]
        [('IN_FACE', 0), ('ON_VERTEX', 1)]
        """
        array = numbers_of(xi)
        shape = array.shape[:-1]
        with self._lock:
            self._ready()
            asked = self._asked(array)
            found = self._near("locate", asked.steps, 2)
            kinds, index = found[:, 0].astype(np.int8), found[:, 1].astype(np.int32)
            at_vertex = kinds == Place.ON_VERTEX
            index[at_vertex] = self._named(found[at_vertex, 1])
            if asked.rest is not None and self._grid_now().is_whole:
                self._locate_between(asked, found, kinds, index)
            if asked.is_far is not None:
                self._locate_far(array.reshape(-1, 2), asked, kinds, index)
        return Places(kinds.reshape(shape)[()], index.reshape(shape)[()])

    def _locate_between(
        self, asked: Asked, found: NDArray[np.uint32], kinds: NDArray[np.int8], index: Ints
    ) -> None:
        """Where points between those of the grid are, over where the nearest of it are."""
        assert asked.rest is not None
        rows = np.flatnonzero((asked.rest != 0).any(1))
        if not len(self.simplices):
            # All are on one line, where hardly a point off the grid is.
            kinds[rows] = Place.OUTSIDE if self._count > 1 else Place.NOWHERE
            index[rows] = 0 if self._count > 1 else -1
            return
        steps, rest = asked.steps[rows], asked.rest[rows]
        faces = self._walked(found[rows], steps, rest)
        inside = faces >= 0
        kinds[rows] = np.where(inside, Place.IN_FACE, Place.OUTSIDE)
        outside = rows[~inside]
        index[rows[inside]] = faces[inside]
        index[outside] = self._seen_from(steps[~inside], rest[~inside])
        corners = self._points[self.simplices[faces[inside]]].astype(np.int64)
        row, side = np.nonzero(np.abs(turns(corners, steps[inside], rest[inside])) <= 2.0**-18)
        at = rows[inside][row]
        kinds[at] = Place.ON_EDGE
        of_face = self.simplices[faces[inside][row]]
        ends = [of_face[np.arange(len(row)), (side + k) % 3] for k in (1, 2)]
        index[at] = self._rows_of_edges(ends[0], ends[1])

    def _locate_far(
        self, array: NDArray[Any], asked: Asked, kinds: NDArray[np.int8], index: Ints
    ) -> None:
        """Points out of range are outside; what is no number is nowhere."""
        assert asked.is_far is not None and asked.rest is not None
        rows = np.flatnonzero(asked.is_far)
        if self._count > 1:
            kinds[rows] = Place.OUTSIDE
            index[rows] = self._seen_from(asked.steps[rows], asked.rest[rows])
        else:
            kinds[rows], index[rows] = Place.NOWHERE, -1
        floats = array[rows].astype(np.float64)
        is_none = np.isnan(floats).any(1)
        kinds[rows[is_none]], index[rows[is_none]] = Place.NOWHERE, -1

    def _seen_from(self, steps: Ints, rest: Floats) -> Ints:
        """For points outside a row in `edges` of one of the hull that is seen from there."""
        sides = self.convex_hull
        if not len(sides):
            return np.zeros(len(steps), np.int32)
        seen = np.empty(len(steps), np.int64)
        ends = self._points[sides].astype(np.float64)
        for row, point in enumerate(steps + rest):
            a, b = ends[:, 0], ends[:, 1]
            vector, to = b - a, point - a
            seen[row] = np.argmin(vector[:, 0] * to[:, 1] - vector[:, 1] * to[:, 0])
        return self._rows_of_edges(sides[seen, 0], sides[seen, 1])

    def _rows_of_edges(self, starts: Ints, ends: Ints) -> Ints:
        """The rows in `edges` of pairs of points."""

        def make() -> Tuple[NDArray[np.int64], NDArray[np.int64]]:
            keys = keys_of(self.edges[:, 0], self.edges[:, 1])
            order = np.argsort(keys)
            return keys[order], order

        keys, order = self._once("edge_keys", make)
        return order[np.searchsorted(keys, keys_of(starts, ends))].astype(np.int32)

    def find_simplex(self, xi: Any) -> Any:
        """A face that each point of an array of the shape (.., 2) is in, or on the border of; -1 if
        it is outside. Points that you ask about are not rounded to the grid.

        >>> import tevasulim
        >>> tri = tevasulim.Triangulation([(0, 0), (4, 0), (0, 4)])
        >>> tri.find_simplex([(1, 1), (2, 2), (0.1, 3.9), (9, 9)])
        array([ 0,  0,  0, -1], dtype=int32)
        """
        array = numbers_of(xi)
        with self._lock:
            self._ready()
            faces = self._find(self._asked(array))
        return faces.reshape(array.shape[:-1])[()]

    def _find(self, asked: Asked) -> Ints:
        found = self._near("locate", asked.steps, 2)
        if asked.rest is None:
            return self._faces_at(found, asked.steps)
        between = (asked.rest != 0).any(1)
        faces = np.empty(len(found), np.int32)
        faces[~between] = self._faces_at(found[~between], asked.steps[~between])
        faces[between] = self._walked(found[between], asked.steps[between], asked.rest[between])
        if not self._grid_now().is_whole:
            # What is on the border as its points were rounded is no less so as it came.
            beside = between & (faces < 0)
            faces[beside] = self._faces_at(found[beside], asked.steps[beside])
        if asked.is_far is not None:
            faces[asked.is_far] = -1
        return faces

    def _walked(self, found: NDArray[np.uint32], steps: Ints, rest: Floats) -> Ints:
        """The faces of points off the grid, from where the nearest of the grid are."""
        starts = self._faces_at(found, steps)
        outside = (starts < 0) & (found[:, 0] == Place.OUTSIDE)
        if outside.any() and len(self.simplices):
            starts[outside] = faces_of_edges(self.simplices, self.edges[found[outside, 1]])
        return walk(self._points, self.simplices, self.neighbors, starts, steps, rest)

    def _faces_at(self, found: NDArray[np.uint32], steps: Ints) -> Ints:
        """A face at each place that the library gave."""
        kinds, index = found[:, 0], found[:, 1].astype(np.int32)
        faces = np.where(kinds == Place.IN_FACE, index, np.int32(-1))
        at_border = np.flatnonzero(kinds <= Place.ON_EDGE)
        if "faces" not in self._made and 0 < len(at_border) <= FEW:
            for row in at_border.tolist():
                face = self._face_beside(steps[row])
                if face is None:
                    break
                faces[row] = face
            else:
                return faces
        at_vertex, on_edge = kinds == Place.ON_VERTEX, kinds == Place.ON_EDGE
        if at_vertex.any():
            faces[at_vertex] = self._vertex_faces()[self._named(found[at_vertex, 1])]
        if on_edge.any():
            faces[on_edge] = faces_of_edges(self.simplices, self.edges[index[on_edge]])
        return faces

    def _face_beside(self, step: Ints) -> Optional[int]:
        """A face at a vertex or on an edge, without the arrays of all: what a short line from there
        meets next makes one with what is there. `None` where none is found so."""
        counts = self._counts()
        if not counts.faces:
            return -1
        numbers = self._numbers[: self._count]
        spread = np.ptp(self._points[numbers[:: max(1, len(numbers) // 64)]], axis=0).max()
        long = int(4 * spread / max(1.0, counts.vertices**0.5)) + 4
        for x, y in ((1, 2), (-2, 1), (-1, -2), (2, -1)):
            end = np.clip(step + np.array((x, y)) * long, -MOST, MOST)
            met = self._line(library.POINT(*step.tolist()), library.POINT(*end.tolist()))
            corners = {*met[:2, 1].tolist(), *met[:2, 2].tolist()}
            if len(met) > 1 and met[0, 0] != Met.ALONG_EDGE and len(corners) == 3:
                middle = self._points[self._numbers[list(corners)]].mean(0)
                (place,) = self._of_each("locate", np.rint(middle).astype(np.int32)[None], 2)
                inside = self._is_inside(np.rint(middle), self._numbers[list(corners)])
                if place[0] == Place.IN_FACE and inside:
                    return int(place[1])
        return None

    def _is_inside(self, middle: Floats, corners: Ints) -> bool:
        """Whether a point of the grid is strictly in a triangle."""
        at = self._points[corners][None].astype(np.int64)
        found = np.sign(turns(at, middle.astype(np.int32)[None], None)[0])
        return bool((found == found[0]).all() and found[0] != 0)

    # What is near.

    def _plain(self) -> "Queries":
        """A plain triangulation of the vertices, whose numbers are those of the library."""
        if not self._has_kind:
            return self

        def make() -> Queries:
            plain = Queries(False)
            plain._insert(self._points[self._numbers[: self._count]], WHOLE, 0.0)
            return plain

        return self._once("plain", make)

    def _nearest(self, asked: Asked) -> Ints:
        """The number of the nearest vertex, by distances of points off the grid as they are."""
        plain = self._plain()
        found = plain._named(plain._near("nearest", asked.steps, 1)[:, 0])
        if asked.rest is not None and plain._count:
            rows = np.flatnonzero((asked.rest != 0).any(1))
            lists = plain.vertex_neighbor_vertices
            words = found[rows], asked.steps[rows], asked.rest[rows]
            found[rows] = nearer(plain._points, lists, *words)
        return self._renamed(plain, found)

    def _renamed(self, plain: "Queries", found: Ints) -> Ints:
        """Numbers of the plain triangulation as this one's."""
        if plain is self or not len(found) or not self._count:
            return found
        return np.where(found < 0, np.int32(-1), self._numbers[np.maximum(found, 0)])

    def nearest(self, xi: Any, k: int = 1) -> Any:
        """The number of the nearest point, for each point of an array of the shape (.., 2): an
        array of the shape (..). With `k` above 1 the numbers of the `k` nearest, of the shape
        (.., k), nearest first, and -1 where there are no more. Of equally far points any may come
        first. Points that you ask about are not rounded to the grid.

        >>> import tevasulim
        >>> tri = tevasulim.Triangulation([(0, 0), (4, 0), (0, 4)])
        >>> tri.nearest((3, -1)), tri.nearest((2.9, 1.1), k=2).tolist()
        (1, [1, 0])
        """
        array = numbers_of(xi)
        if k < 1:
            raise ValueError(f"k is {k}, but has to be 1 or more")
        with self._lock:
            self._ready()
            asked = self._asked(array)
            found = self._nearest(asked) if k == 1 else self._nearest_many(asked, k)
        if array.dtype.kind == "f":
            found[np.isnan(array.reshape(-1, 2)).any(1)] = -1
        return found.reshape(array.shape[:-1] if k == 1 else (*array.shape[:-1], k))[()]

    def _nearest_many(self, asked: Asked, k: int) -> Ints:
        plain = self._plain()
        first = plain._near("nearest", asked.steps, 1)[:, 0]
        rest = np.zeros((len(first), 2)) if asked.rest is None else asked.rest
        given = np.full((len(first), k), -1, np.int32)
        if plain._count:
            lists = plain.vertex_neighbor_vertices
            begins, others = (it.tolist() for it in lists)
            start = nearer(plain._points, lists, plain._named(first), asked.steps, rest)
            places = plain._points[: plain._size].tolist()
            points = zip(start.tolist(), asked.steps.tolist(), rest.tolist())
            for row, (at, (x, y), (u, v)) in enumerate(points):
                near = nearest_few(begins, others, places, at, (x, y, u, v), k)
                given[row, : len(near)] = near
        return self._renamed(plain, given)

    # Lines.

    def line(self, start: Any, end: Any) -> List[Meeting]:
        """What the segment from one point to another meets, in order along it. Its ends are rounded
        to the grid, and a part of it that is out of range meets nothing.

        >>> import tevasulim
        >>> square = [(0, 0), (4, 0), (5, 5), (0, 4)]
        >>> tri = tevasulim.Triangulation(square, segments=[(0, 2)])
        >>> [(met.kind.name, met.is_constraint) for met in tri.line((4, 0), (0, 4))]
        [('AT_VERTEX', False), ('ACROSS_EDGE', True), ('AT_VERTEX', False)]
        """
        corners = [single(numbers_of(it)) for it in (start, end)]
        with self._lock:
            self._ready()
            words = self._ends(np.stack([it.astype(np.float64) for it in corners]))
            if words is None:
                return []
            found = self._line(*words)
            named = self._named(found[:, 1:3]).tolist()
        flags = (found[:, 3] != 0).tolist()
        return [
            Meeting(Met(kind), begin, end, flag)
            for kind, (begin, end), flag in zip(found[:, 0].tolist(), named, flags)
        ]

    def _line(self, start: Any, end: Any) -> NDArray[np.uint32]:
        words = byref(start), byref(end)
        return library.found(4, lambda *out: self._call("line", *words, *out))

    def _ends(self, ends: Floats) -> Optional[Tuple[Any, Any]]:
        """The ends of a segment as the library is handed them: of that part that is in range, or
        `None` where none is."""
        grid = self._grid_now()
        asked = grid.asked(ends)
        steps = asked.steps
        if asked.is_far is not None:
            clipped = clip((ends * grid.scale) - grid.first)
            if clipped is None:
                return None
            steps = np.clip(np.rint(clipped), -MOST, MOST).astype(np.int32)
        return library.POINT(*steps[0].tolist()), library.POINT(*steps[1].tolist())

    # Shapes.

    def in_circle(self, center: Any, radius_2: Any) -> Ints:
        """The numbers of the vertices in a closed circle, whose squared radius is `radius_2` square
        units. Nothing is rounded.

        >>> import tevasulim
        >>> tri = tevasulim.Triangulation([(0, 0), (4, 0), (5, 5), (0, 4)])
        >>> tri.in_circle((1, 1), 10).tolist(), tri.in_circle((0.5, 0.5), 0.5).tolist()
        ([0, 1, 3], [0])
        """
        point = single(numbers_of(center))
        with self._lock:
            self._ready()
            asked, square = self._asked(point), self._grid_now().squared(radius_2)
            found = self._named(self._in_shape("vertices", circle(asked, square)))
            if asked.rest is not None:
                vector = self._points[found] - asked.steps[0] - asked.rest[0]
                found = found[(vector * vector).sum(1) <= square]
        return np.sort(found)

    def within(self, center: Any, radius: float) -> Ints:
        """The numbers of the vertices that are at most `radius` units from a point.

        >>> import tevasulim
        >>> tevasulim.Triangulation([(0, 0), (4, 0), (5, 5), (0, 4)]).within((0, 0), 4.5).tolist()
        [0, 1, 3]
        """
        if radius < 0:
            raise NegativeError(f"the radius is {radius}, but must not be negative")
        return self.in_circle(center, radius * radius)

    def edges_in_circle(self, center: Any, radius_2: Any) -> Ints:
        """The rows in `edges` of the edges that a closed circle meets, given as for `in_circle`."""
        point = single(numbers_of(center))
        with self._lock:
            self._ready()
            asked, square = self._asked(point), self._grid_now().squared(radius_2)
            found = self._in_shape("edges", circle(asked, square)).astype(np.int32)
            if asked.rest is not None:
                a, b = self._ends_of_edges(found)
                far = distances_to_segments_2(a, b, asked.steps[0] + asked.rest[0])
                found = found[far <= square]
        return np.sort(found)

    def in_rectangle(self, lower: Any, upper: Any) -> Ints:
        """The numbers of the vertices in a closed rectangle; none if `upper` is left of `lower` or
        below it.

        >>> import tevasulim
        >>> tri = tevasulim.Triangulation([(0, 0), (4, 0), (5, 5), (0, 4)])
        >>> tri.in_rectangle((0, 0), (4, 4)).tolist()
        [0, 1, 3]
        """
        with self._lock:
            self._ready()
            low, high = self._box(lower, upper)
            shape = rectangle(np.ceil(low), np.floor(high))
            return np.sort(self._named(self._in_shape("vertices", shape)))

    def edges_in_rectangle(self, lower: Any, upper: Any) -> Ints:
        """The rows in `edges` of the edges that a closed rectangle meets."""
        with self._lock:
            self._ready()
            low, high = self._box(lower, upper)
            if (low > high).any():
                return np.empty(0, np.int32)
            shape = rectangle(np.floor(low), np.ceil(high))
            found = np.sort(self._in_shape("edges", shape).astype(np.int32))
            if (low != np.floor(low)).any() or (high != np.floor(high)).any():
                found = found[meets_box(*self._ends_of_edges(found), low, high)]
            return found

    def _box(self, lower: Any, upper: Any) -> Tuple[Floats, Floats]:
        """The corners of a rectangle, in steps."""
        grid = self._grid_now()
        corners = np.stack([single(numbers_of(it)).astype(np.float64) for it in (lower, upper)])
        if np.isnan(corners).any():
            raise ValueError(f"the corners are {corners.tolist()}, but have to be numbers")
        asked = grid.asked(corners)
        exact = asked.steps + (np.zeros((2, 2)) if asked.rest is None else asked.rest)
        return exact[0], exact[1]

    def _ends_of_edges(self, rows: Ints) -> Tuple[Floats, Floats]:
        ends = self._points[self.edges[rows]].astype(np.float64)
        return ends[:, 0], ends[:, 1]

    def _in_shape(self, of: str, shape: Optional[library.Shape]) -> NDArray[np.uint32]:
        if shape is None:
            return np.empty(0, np.uint32)
        ask = lambda *out: self._call(f"{of}_in", byref(shape), *out)  # noqa: E731
        return library.found(1, ask)[:, 0]


# So few points at a border are worth a line each.
FEW = 8


def circle(asked: Asked, square: float) -> library.Shape:
    """A circle of the library: the one around a point off the grid has room for the rest."""
    if asked.rest is not None and square >= 0:
        reach = min(square**0.5 + float(np.hypot(*asked.rest[0])), 2.0**31)
        square = reach**2 * (1 + 1e-12) + 2
    radius_2 = int(max(-1, min(square, 2**62) // 1))
    return library.Shape(library.CIRCLE, library.POINT(*asked.steps[0].tolist()), radius_2=radius_2)


def rectangle(low: Floats, high: Floats) -> Optional[library.Shape]:
    """A rectangle of the library, or `None` where it has no point in range."""
    if (low > high).any() or (low > MOST).any() or (high < -MOST).any():
        return None
    ends = np.clip([low, high], -MOST, MOST).astype(int).tolist()
    return library.Shape(library.RECTANGLE, *(library.POINT(*it) for it in ends))


def clip(ends: Floats) -> Optional[Floats]:
    """The part of a segment that is in range, or `None`."""
    begin, stop = 0.0, 1.0
    if not np.isfinite(ends).all():
        return None
    for k in (0, 1):
        start, extent = float(ends[0, k]), float(ends[1, k] - ends[0, k])
        if extent == 0:
            if abs(start) > MOST:
                return None
            continue
        at = sorted(((-MOST - start) / extent, (MOST - start) / extent))
        begin, stop = max(begin, at[0]), min(stop, at[1])
    if begin > stop:
        return None
    given: Optional[Floats] = ends[0] + np.array([[begin], [stop]]) * (ends[1] - ends[0])
    return given


def nearest_few(
    begins: List[int],
    others: List[int],
    places: List[List[int]],
    at: int,
    point: Tuple[int, int, float, float],
    k: int,
) -> List[int]:
    """The `k` vertices nearest to a point, from the nearest on: the next one always has an edge to
    one of those before it."""
    x, y, u, v = point

    def far(number: int) -> Tuple[float, int]:
        dx, dy = places[number][0] - x, places[number][1] - y
        rest = 2 * (dx * u + dy * v)
        return (dx * dx + dy * dy - rest if rest else dx * dx + dy * dy), number

    heap, seen = [far(at)], {at}
    found: List[int] = []
    while heap and len(found) < k:
        _, number = heapq.heappop(heap)
        found.append(number)
        for other in others[begins[number] : begins[number + 1]]:
            if other not in seen:
                seen.add(other)
                heapq.heappush(heap, far(other))
    return found
