"""A triangulation that the library holds, of points by number, with edits that happen completely or
not at all.

An edit leaves a note before it calls the library, and removes the note as its last step. So a call
that finds a note comes after an edit that an exception broke off: a signal, a failed allocation, an
error of the library. The call then reads from the library what is there. It undoes an insertion
that was broken off; each other edit is one call of the library, which was made or was not. So a
triangulation is always as it was before an edit or as it is after it.

The library stores the number of each vertex's point, plus one: 0 is what an insertion gives."""
from __future__ import annotations

import operator
import os
import threading
import weakref
from ctypes import byref, c_size_t, c_uint32
from typing import Any, Callable, Dict, List, NamedTuple, Optional, Tuple, Type, TypeVar, Union

import numpy as np

from . import _library as library
from ._grid import WHOLE, Grid, chosen
from ._order import near_order
from ._types import NDArray
from .errors import (
    ClosedError,
    CrossingError,
    IsConstrainedError,
    IsPlainError,
    NoConstraintError,
    NoSuchVertexError,
    OutOfIndexesError,
    OutOfMemoryError,
    TevasulimError,
)

Ints = NDArray[np.int32]
T = TypeVar("T")
# How many points can have numbers, as `int32`.
MANY = 2**31 - 1


class Insertion(NamedTuple):
    """An insertion that has begun, and what was before: how many points and vertices there were,
    their grid, and how far the points had been moved."""

    size: int
    vertices: int
    grid: Optional[Grid]
    rounding: float


class Change(NamedTuple):
    """Another edit that has begun."""

    name: str


class Kept:
    """Points by number, as whole numbers, over what the library holds."""

    def __init__(self, is_constrained: bool) -> None:
        self._blank(is_constrained)
        kind = library.CONSTRAINED if is_constrained else library.PLAIN
        library.call("open", byref(self._mesh), kind)

    def _blank(self, is_constrained: bool) -> None:
        """Begins with nothing, also not of the library."""
        self._mesh = library.Mesh()
        self._lock = threading.RLock()
        self._made: Dict[str, Any] = {}
        # The edit that has begun and not ended.
        self._edit: Union[Insertion, Change, None] = None
        # Whether it was made for constraints or got one, and whether the library's is for them.
        self._is_constrained = self._has_kind = is_constrained
        self._forget()

    def _register(self) -> None:
        """A process that forks waits for this one. One that another keeps for itself need not be
        here: the other's lock serves for it."""
        with CREATING:
            ALL.add(self)

    def _forget(self) -> None:
        """Knows no point."""
        self._made = {}
        self._size = self._count = 0
        # Of each point its coordinates and the first one that is equal; of that one the vertex.
        self._points = np.empty((0, 2), np.int32)
        self._firsts = np.empty(0, np.int32)
        self._vertices = np.empty(0, np.int32)
        # Of each vertex the number of its point.
        self._numbers = np.empty(0, np.int32)
        self._grid: Optional[Grid] = None
        self._rounding = 0.0

    def __del__(self) -> None:
        # Python may be ending, and the module gone.
        if getattr(self, "_mesh", None) is not None and library is not None:
            library.LIBRARY.tevasulim_close(byref(self._mesh))

    def close(self) -> None:
        """Frees the memory. Every later call raises `ClosedError`, except another `close`.

        >>> import tevasulim
        >>> tri = tevasulim.Triangulation()
        >>> tri.close()
        >>> tri.insert((1, 2))
        Traceback (most recent call last):
        ...
        tevasulim.errors.ClosedError: the triangulation is closed: make a new one
        """
        with self._lock:
            library.LIBRARY.tevasulim_close(byref(self._mesh))
            self._forget()

    def clear(self) -> None:
        """Removes all points and constraints. Numbers begin with 0 again, and the next points
        choose a new grid."""
        with self._lock:
            self._ready()
            self._edit = Change("clear")
            self._call("clear")
            self._forget()
            self._edit = None

    def _ready(self) -> None:
        """Each method begins with this: it refuses a closed triangulation, and puts in order what
        an exception broke off."""
        if not self._mesh.is_open:
            raise ClosedError("the triangulation is closed: make a new one")
        if self._edit is not None:
            self._settle(self._edit)
            self._edit = None

    def _call(self, name: str, *words: Any) -> None:
        library.call(name, byref(self._mesh), *words)

    def _of_each(self, name: str, points: Ints, columns: int) -> NDArray[np.uint32]:
        """What a call of the library gives for each of some points, of so many 32-bit columns."""
        points = np.ascontiguousarray(points)
        given = np.empty((max(len(points), 1), columns), np.uint32)
        self._call(name, *library.rows(points), given.ctypes.data, len(points))
        return given[: len(points)]

    def _near(self, name: str, points: Ints, columns: int) -> NDArray[np.uint32]:
        """The same of points which the library is handed in near order."""
        order = near_order(points)
        given = np.empty((len(points), columns), np.uint32)
        given[order] = self._of_each(name, points[order], columns)
        return given

    def _list(self, name: str, columns: int, room: int) -> NDArray[np.uint32]:
        return library.found(columns, lambda *words: self._call(name, *words), room)

    def _counts(self) -> library.Counts:
        counts = library.Counts()
        self._call("count", byref(counts))
        return counts

    def _once(self, name: str, make: Callable[[], T]) -> T:
        """What follows from all points, made once between edits."""
        with self._lock:
            self._ready()
            if name not in self._made:
                made = make()
                for it in made if isinstance(made, tuple) else (made,):
                    if isinstance(it, np.ndarray):
                        it.flags.writeable = False
                self._made[name] = made
            found: T = self._made[name]
            return found

    # What an exception broke off.

    def _settle(self, edit: Union[Insertion, Change]) -> None:
        """Puts in order what an edit left. It may be broken off itself, and begin again."""
        self._made = {}
        if isinstance(edit, Insertion):
            self._take_back(edit)
        elif edit.name == "remove":
            self._read_numbers()
        elif edit.name == "clear":
            if not self._counts().vertices:
                self._forget()
        elif not self._is_constrained:
            self._has_kind = self._is_for_constraints()
            self._is_constrained = self._counts().constraints > 0

    def _take_back(self, edit: Insertion) -> None:
        """Removes the vertices that an insertion made, the last one first: then no other moves.
        Those that it met have lost their numbers in the library, and get them again."""
        for vertex in range(self._counts().vertices - 1, edit.vertices - 1, -1):
            self._call("remove", vertex)
        self._size, self._count = edit.size, edit.vertices
        self._grid, self._rounding = edit.grid, edit.rounding
        self._set_numbers(np.arange(edit.vertices), self._numbers[: edit.vertices])

    def _set_numbers(self, vertices: NDArray[Any], numbers: NDArray[Any]) -> None:
        """Gives the library the numbers of the points that some vertices are."""
        named = np.ascontiguousarray(vertices, np.uint32), numbers.astype(np.uint64) + np.uint64(1)
        self._call("set_numbers", *library.rows(named[0]), *library.rows(named[1]))

    def _read_numbers(self) -> None:
        """Takes from the library which point each vertex is."""
        count, length = self._counts().vertices, c_size_t()
        numbers = np.empty(max(count, 1), np.uint64)
        self._call("numbers", numbers.ctypes.data, count, byref(length))
        points = numbers[:count].astype(np.int64) - 1
        self._vertices[: self._size] = -1
        self._vertices[points] = np.arange(count)
        self._numbers[:count] = points
        self._count = count

    def _is_for_constraints(self) -> bool:
        """Whether the library has a constrained triangulation: it asks such ones for no nearest
        vertex, also of no point."""
        try:
            self._of_each("nearest", np.empty((0, 2), np.int32), 1)
        except IsConstrainedError:
            return True
        return False

    # Edits.

    def _reserve(self, count: int) -> None:
        """Makes room for so many points more."""
        room = self._size + count
        if room > MANY:
            raise OutOfIndexesError(
                f"there would be {room} points, but a triangulation numbers at most {MANY}: "
                "tevasulim.tiles takes more"
            )
        for name in "_points", "_firsts", "_vertices", "_numbers":
            old = getattr(self, name)
            if room > len(old):
                wide = max(room, min(2 * self._size, MANY))
                new = np.empty((wide, *old.shape[1:]), old.dtype)
                new[: self._size] = old[: self._size]
                setattr(self, name, new)

    def _insert(self, steps: Ints, grid: Grid, rounding: float) -> Ints:
        """Inserts points of a grid, and gives the first number at each."""
        self._reserve(len(steps))
        self._edit = Insertion(self._size, self._count, self._grid, self._rounding)
        vertices = self._of_each("insert_all", steps, 1)[:, 0]
        firsts = self._note(steps, vertices)
        self._set_numbers(vertices, firsts)
        self._grid, self._rounding = grid, max(self._rounding, rounding)
        self._edit = None
        return firsts

    def _insert_one(self, step: Ints, grid: Grid, rounding: float) -> int:
        """The same of one point, faster."""
        self._reserve(1)
        self._edit = Insertion(self._size, self._count, self._grid, self._rounding)
        vertex, size = c_uint32(), self._size
        self._call("insert", int(step[0]), int(step[1]), byref(vertex))
        at = vertex.value
        self._made = {}
        if at == self._count:
            self._numbers[at] = size
            self._count = at + 1
        first = int(self._numbers[at])
        self._points[size], self._firsts[size], self._vertices[size] = step, first, at
        self._call("set_numbers", byref(vertex), 1, byref(library.NUMBER(first + 1)), 1)
        self._size = size + 1
        self._grid, self._rounding = grid, max(self._rounding, rounding)
        self._edit = None
        return first

    def _note(self, points: Ints, vertices: NDArray[np.uint32]) -> Ints:
        """Notes that points were inserted, which are at these vertices. Gives the first numbers
        there."""
        self._made = {}
        places = vertices.astype(np.int64)
        numbers = np.arange(self._size, self._size + len(points))
        is_new = places >= self._count
        # Of several points at a new vertex the first one is written last.
        self._numbers[places[is_new][::-1]] = numbers[is_new][::-1]
        firsts = self._numbers[places]
        rows = slice(self._size, self._size + len(points))
        self._points[rows], self._firsts[rows], self._vertices[rows] = points, firsts, places
        self._size += len(points)
        self._count = max(self._count, int(places.max(initial=-1)) + 1)
        return firsts

    def remove(self, number: int) -> None:
        """Removes a point and all points that are equal, with the constraints that end there. If
        exactly two constraints end there, and the point is strictly between their other ends, one
        constraint joins these ends afterwards.

        >>> import tevasulim
        >>> tri = tevasulim.Triangulation([(0, 0), (4, 0), (5, 5), (0, 4)])
        >>> tri.remove(1)
        >>> sorted(map(sorted, tri))
        [[0, 2, 3]]
        """
        with self._lock:
            self._ready()
            vertex = self._vertex(number)
            self._edit = Change("remove")
            self._made = {}
            self._call("remove", vertex)
            # The last vertex takes the index.
            moved, last = self._numbers[self._count - 1], self._count - 1
            self._vertices[self._numbers[vertex]] = -1
            if vertex != last:
                self._numbers[vertex] = moved
                self._vertices[moved] = vertex
            self._count = last
            self._edit = None

    def add_constraint(self, start: int, end: int) -> None:
        """Makes the edges along the segment between two points constraints. A point strictly within
        the segment cuts it into two constraints. From a point to itself there is none.

        Raises `CrossingError` if a constraint crosses the segment. The message names the first one,
        and `conflicts` gives all.

        >>> import tevasulim
        >>> tri = tevasulim.Triangulation([(0, 0), (4, 0), (5, 5), (0, 4)])
        >>> tri.add_constraint(0, 2)
        >>> tri.add_constraint(1, 3)  # doctest: +NORMALIZE_WHITESPACE
        Traceback (most recent call last):
        ...
        tevasulim.errors.CrossingError: the segment from point 1 at (4, 0) to point 3 at (0, 4)
        crosses the constraint between point 0 at (0, 0) and point 2 at (5, 5)
        """
        with self._lock:
            self._ready()
            words = self._vertex(start), self._vertex(end)
            try:
                self._change("constrain", *words)
            except CrossingError:
                raise self._crossing(*words) from None

    def release(self, start: int, end: int) -> None:
        """Makes the constraint between two points a free edge.

        Raises `NoConstraintError` if no constraint joins them, or `IsPlainError` if the
        triangulation has never had a constraint.

        >>> import tevasulim
        >>> tri = tevasulim.Triangulation([(0, 0), (4, 0), (5, 5), (0, 4)], segments=[(0, 2)])
        >>> tri.release(2, 0)
        >>> len(tri.constraints)
        0
        """
        with self._lock:
            self._ready()
            words = self._vertex(start), self._vertex(end)
            self._edit = Change("release")
            self._made = {}
            try:
                self._call("release", *words)
            except (NoConstraintError, IsPlainError) as error:
                ends = [self._point_text(it) for it in (start, end)]
                raise type(error)(f"no constraint joins {ends[0]} and {ends[1]}") from None
            self._edit = None

    def _change(self, name: str, *words: Any) -> None:
        """An edit of constraints, after which the triangulation may have some."""
        self._edit = Change(name)
        self._made = {}
        if not self._has_kind:
            self._call("allow_constraints")
            self._has_kind = True
        self._call(name, *words)
        self._is_constrained = True
        self._edit = None

    def _chain(self, vertices: NDArray[Any], closed: bool, begin: int) -> None:
        """A chain of vertices, whose first segment has the index `begin` in an error."""
        made, array = c_size_t(), np.ascontiguousarray(vertices, np.uint32)
        try:
            self._change("constrain_chain", *library.rows(array), closed, byref(made))
        except TevasulimError as error:
            if isinstance(error, CrossingError):
                ends = vertices[made.value], vertices[(made.value + 1) % len(vertices)]
                raise self._crossing(*ends, begin + made.value) from None
            if isinstance(error, OutOfMemoryError):
                raise library.error_of(15, begin + made.value) from None
            raise

    # Numbers and vertices.

    def _vertex(self, number: int) -> int:
        """The vertex of a point."""
        number = operator.index(number)
        vertex = self._vertices[self._firsts[number]] if 0 <= number < self._size else -1
        if vertex < 0:
            raise NoSuchVertexError(self._absence(number))
        return int(vertex)

    def _absence(self, number: int) -> str:
        """Why there is no point of a number."""
        if 0 <= number < self._size:
            return f"point {number} was removed"
        if not self._size:
            return f"there is no point {number}: the triangulation has no points"
        return f"there is no point {number}: points are numbered from 0 to {self._size - 1}"

    def _point_text(self, number: int) -> str:
        """A point with its coordinates."""
        x, y = self._grid_now().points(self._points[number : number + 1])[0].tolist()
        return f"point {number} at ({x:.15g}, {y:.15g})"

    def _grid_now(self) -> Grid:
        return WHOLE if self._grid is None else self._grid

    def _crossing(self, start: int, end: int, index: Optional[int] = None) -> CrossingError:
        """The exception for a segment between two vertices that a constraint crosses, with the
        first such constraint; `index` is that of the segment in a list."""
        self._ready()
        numbers = [int(self._numbers[it]) for it in (start, end)]
        words = [byref(library.POINT(*self._points[it].tolist())) for it in numbers]
        ask = lambda *out: self._call("conflicts", *words, *out)  # noqa: E731
        numbers += self._named(library.found(2, ask))[0].tolist()
        here, there, first, second = map(self._point_text, numbers)
        which = "the segment" if index is None else f"segment {index}"
        crossed = f"crosses the constraint between {first} and {second}"
        return CrossingError(f"{which} from {here} to {there} {crossed}", index)

    def _vertices_of(
        self, numbers: NDArray[np.int64], error: Type[TevasulimError]
    ) -> NDArray[np.int64]:
        """The vertices of points; `error` is raised for the first that is not there."""
        is_known = (numbers >= 0) & (numbers < self._size)
        vertices = np.full(numbers.shape, -1, np.int64)
        vertices[is_known] = self._vertices[self._firsts[numbers[is_known]]]
        wrong = np.argwhere(vertices < 0)
        if len(wrong):
            value = int(numbers[tuple(wrong[0])])
            # A number that an `int64` does not hold came as -1.
            why = "it is no number of a point" if value < 0 else self._absence(value)
            place = ", ".join(map(str, wrong[0]))
            raise error(f"the number at [{place}] is wrong: {why}", int(wrong[0][0]))
        return vertices

    def _named(self, vertices: NDArray[np.uint32]) -> Ints:
        """The numbers of vertices, and -1 for none."""
        if not self._count:
            return np.full(vertices.shape, -1, np.int32)
        is_none = vertices == library.NONE
        numbers = self._numbers[np.where(is_none, 0, vertices)]
        return np.where(is_none, np.int32(-1), numbers)


# A process that forks waits until no triangulation is in an edit: so the child's are whole, and
# none of their locks is held by a thread that the child has not.
CREATING = threading.Lock()
ALL: "weakref.WeakSet[Kept]" = weakref.WeakSet()
HELD: List[Kept] = []


def before_fork() -> None:
    CREATING.acquire()
    HELD.extend(ALL)
    for it in HELD:
        it._lock.acquire()


def after_fork() -> None:
    while HELD:
        HELD.pop()._lock.release()
    CREATING.release()


os.register_at_fork(before=before_fork, after_in_parent=after_fork, after_in_child=after_fork)
