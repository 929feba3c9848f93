"""What constraints and polygons enclose, what is seen past them, and ways round them."""
from __future__ import annotations

from ctypes import byref, c_size_t, c_uint32
from typing import Any, Iterable, Iterator, List, Optional

import numpy as np

from . import _library as library
from ._arrays import Floats
from ._kept import Ints
from ._numbers import numbers_of, single, unmasked
from ._queries import Queries
from ._types import NDArray


class Regions(Queries):
    """Faces by what encloses them, segments by what they cross, and ways."""

    @property
    def layers(self) -> Ints:
        """int32 array of shape (f,): the least number of constraints between each face and the
        outside. `tri.simplices[tri.layers % 2 == 1]` are the faces inside closed chains, without
        those in their holes.

        >>> import tevasulim
        >>> square = [(0, 0), (9, 0), (9, 9), (0, 9), (3, 3), (6, 3), (5, 6)]
        >>> tri = tevasulim.Triangulation(square, [(4, 5), (5, 6), (6, 4)])
        >>> tri.layers.sum(), len(tri)
        (1, 8)
        """

        def make() -> Ints:
            return self._list("face_layers", 1, 2 * self._count)[:, 0].astype(np.int32)

        return self._once("layers", make)

    def faces_inside(self, polygons: Any) -> NDArray[np.bool_]:
        """bool array of shape (f,): whether the middle of each face is inside a polygon. If the
        rings of the polygons are constraints, each face is completely inside or outside.

        Parameters
        ----------
        polygons : array_like of shape (k, 2), a polygon of shapely, or a sequence of either
            An array is a ring. Several rings count together: a point is inside if an odd number of
            them enclose it, so a ring inside a ring is a hole.

        Examples
        --------
        >>> import tevasulim
        >>> tri = tevasulim.Triangulation([(0, 0), (4, 0), (4, 4), (0, 4)], [(0, 2)])
        >>> inside = tri.faces_inside([(0, 0), (4, 0), (4, 4)])
        >>> sorted(tri.simplices[inside][0].tolist())
        [0, 1, 2]
        """
        rings = list(rings_of(polygons))
        with self._lock:
            middles = self.points[self.simplices].mean(1)
        return odd_crossings(middles, rings)

    def is_in_sight(self, start: Any, end: Any, free: Any = None) -> bool:
        """Whether the segment from one point to another stays in free faces. It may run along their
        sides and through their corners.

        Parameters
        ----------
        start, end : array_like of shape (2,)
            The ends, which are rounded to the grid.
        free : array_like of bool, of shape (f,), optional
            Which faces are free. Without it all are, and only a segment that leaves the hull is
            blocked.

        Examples
        --------
        >>> import tevasulim
        >>> tri = tevasulim.Triangulation([(0, 0), (4, 0), (4, 4), (0, 4)], [(0, 2)])
        >>> tri.is_in_sight((1, 2), (3, 2)), tri.is_in_sight((1, 2), (3, 2), [True, False])
        (True, False)
        """
        ends = ends_of(start, end)
        with self._lock:
            self._ready()
            flags, words, seen = self._flags(free), self._words(ends), c_uint32()
            if words is None:
                return False
            self._call("in_sight", *words, *library.rows(flags), byref(seen))
            return bool(seen.value)

    def way(
        self, start: Any, end: Any, free: Any = None, radius: Optional[float] = None
    ) -> Optional[NDArray[Any]]:
        """A way from one point to another through free faces.

        Parameters
        ----------
        start, end : array_like of shape (2,)
            The ends, which are rounded to the grid.
        free : array_like of bool, of shape (f,), optional
            Which faces are free. Without it all are.
        radius : float, optional
            Only those of them are free that `wide_faces` gives for this radius. For many ways, call
            `wide_faces` once, and hand in what it gives as `free`.

        Returns
        -------
        array of shape (n, 2) or None
            The points of the way from `start` to `end`, as `points` has them. There are 2 at least.
            Each is in sight of the next by `is_in_sight`, those between are points of the
            triangulation, and none of them can be left out. The way is the shortest among those
            close to it, but not always the shortest of all. The answer is `None` exactly where no
            chain of points, each in sight of the next, joins the two. One such case is an end that
            is in no free face.

        Raises
        ------
        ValueError
            `free` does not have one bool for each face.
        NegativeError
            The radius is negative.

        Notes
        -----
        A way may run along the sides of free faces and through their corners, also past a corner
        at which two free faces only meet. A radius does not change this: there the disc has to
        keep away from the corner by itself.

        Examples
        --------
        >>> import tevasulim
        >>> square = [(0, 0), (9, 0), (9, 9), (0, 9), (4, 0), (5, 0), (5, 6), (4, 6)]
        >>> tri = tevasulim.Triangulation(square, [(4, 7), (7, 6), (6, 5)])
        >>> free = ~tri.faces_inside([(4, 0), (5, 0), (5, 6), (4, 6)])
        >>> tri.way((1, 1), (8, 1), free).tolist()
        [[1, 1], [4, 6], [5, 6], [8, 1]]
        >>> tri.way((1, 1), (8, 1), free, radius=2) is None
        True
        """
        ends = ends_of(start, end)
        with self._lock:
            self._ready()
            flags, words = self._flags(free, radius), self._words(ends)
            if words is None:
                return None
            given = (*words, *library.rows(flags))
            steps = library.found(2, lambda *out: self._call("way", *given, *out))
            return self._grid_now().points(steps.view(np.int32)) if len(steps) else None

    def reachable(self, free: Any = None, radius: Optional[float] = None) -> Ints:
        """int32 array of shape (f,): a label for each face, and -1 for a face that is not free. Two
        free faces have the same label exactly where `way` joins each point of the one with each
        point of the other. The labels are 0, 1 and so on, in the order of the first faces that have
        them.

        Parameters
        ----------
        free : array_like of bool, of shape (f,), optional
            Which faces are free, as for `way`.
        radius : float, optional
            As for `way`.

        Raises
        ------
        ValueError
            `free` does not have one bool for each face.
        NegativeError
            The radius is negative.

        Examples
        --------
        >>> import tevasulim
        >>> tri = tevasulim.Triangulation([(0, 0), (9, 0), (9, 1), (0, 1)], [(0, 2)])
        >>> tri.reachable().tolist(), tri.reachable(radius=3).tolist()
        ([0, 0], [-1, -1])
        """
        with self._lock:
            self._ready()
            flags = self._flags(free, radius)
            ask = lambda *out: self._call("reachable", *library.rows(flags), *out)  # noqa: E731
            return library.found(1, ask, len(flags))[:, 0].view(np.int32).copy()

    def wide_faces(self, radius: float, free: Any = None) -> NDArray[np.bool_]:
        """bool array of shape (f,): which free faces are wide enough for a disc: those each of
        whose heights is at least its diameter. `way`, `reachable` and `is_in_sight` take
        the array as `free`.

        Parameters
        ----------
        radius : float
            The radius of the disc, in the units of the points. Heights are compared exactly with
            its diameter. For this the square of the diameter, in square steps of the grid, is
            rounded up if it is no whole number.
        free : array_like of bool, of shape (f,), optional
            Which faces are free, as for `way`.

        Raises
        ------
        ValueError
            `free` does not have one bool for each face.
        NegativeError
            The radius is negative.

        Notes
        -----
        A disc whose centre goes straight from the middle of one side of such a face to the middle
        of another covers no corner of the face. That is all: a way through wide faces still goes
        along sides and past corners, also where two wide faces have only a corner in common. And a
        face that is not wide may let the disc pass where no closed face is near.

        Examples
        --------
        >>> import tevasulim
        >>> tri = tevasulim.Triangulation([(0, 0), (4, 0), (4, 3), (0, 3)], [(0, 2)])
        >>> tri.wide_faces(1).tolist(), tri.wide_faces(1.5).tolist()
        ([True, True], [False, False])
        """
        with self._lock:
            self._ready()
            return self._wide(self._flags(free), radius).astype(bool)

    def _flags(self, free: Any, radius: Optional[float] = None) -> NDArray[np.uint8]:
        """A flag for each face: whether it is free, and wide enough for a disc."""
        count = self._counts().faces
        mask = np.ones(count, bool) if free is None else unmasked(free, "the face")
        if mask.dtype != bool or mask.shape != (count,):
            raise ValueError(
                f"free has the type {mask.dtype} and the shape {mask.shape}, but needs one "
                f"bool for each of the {count} faces: make it anew after each edit"
            )
        flags = np.ascontiguousarray(mask, np.uint8)
        return flags if radius is None else self._wide(flags, radius)

    def _wide(self, flags: NDArray[np.uint8], radius: float) -> NDArray[np.uint8]:
        """A flag for each face: whether it has one of these, and is wide enough for a disc."""
        given = (*library.rows(flags), self._grid_now().width_2(radius))
        wide, length = np.empty_like(flags), c_size_t()
        self._call("wide_faces", *given, *library.rows(wide), byref(length))
        return wide

    def _words(self, ends: Floats) -> Optional[List[Any]]:
        """Two points for the library, or none where one is out of range."""
        asked = self._grid_now().asked(ends)
        if asked.is_far is not None:
            return None
        return [byref(library.POINT(*it)) for it in asked.steps.tolist()]

    def conflicts(self, start: int, end: int) -> Ints:
        """int32 array of shape (c, 2): the constraints that the segment between two points crosses,
        in order along it. `add_constraint` refuses the segment if there are any.

        >>> import tevasulim
        >>> tri = tevasulim.Triangulation([(0, 0), (4, 0), (4, 4), (0, 4)], [(0, 2)])
        >>> sorted(tri.conflicts(1, 3)[0].tolist())
        [0, 2]
        """
        with self._lock:
            self._ready()
            ends = [self._points[self._numbers[self._vertex(it)]] for it in (start, end)]
            words = [byref(library.POINT(*it.tolist())) for it in ends]
            ask = lambda *out: self._call("conflicts", *words, *out)  # noqa: E731
            return self._named(library.found(2, ask))


def ends_of(start: Any, end: Any) -> Floats:
    """Two points as rows of an array."""
    return np.stack([single(numbers_of(it)).astype(np.float64) for it in (start, end)])


def rings_of(polygons: Any) -> Iterator[Floats]:
    """The rings of polygons."""
    if hasattr(polygons, "geom_type"):
        if polygons.geom_type == "Polygon":
            if not polygons.is_empty:
                yield np.asarray(polygons.exterior.coords, np.float64)[:, :2]
                for it in polygons.interiors:
                    yield np.asarray(it.coords, np.float64)[:, :2]
        elif hasattr(polygons, "geoms"):
            for it in polygons.geoms:
                yield from rings_of(it)
        else:
            raise TypeError(f"a {polygons.geom_type} encloses nothing: hand in polygons or rings")
        return
    parts: List[Any] = list(polygons)
    if parts and not hasattr(parts[0], "geom_type") and np.ndim(parts[0]) == 1:
        yield np.asarray(numbers_of(parts), np.float64)
        return
    for it in parts:
        yield from rings_of(it)


def odd_crossings(points: Floats, rings: Iterable[Floats]) -> NDArray[np.bool_]:
    """Whether a ray to the right of each point crosses the rings an odd number of times."""
    order = np.argsort(points[:, 1])
    x, y = points[order].T
    is_odd = np.zeros(len(points), bool)
    for ring in rings:
        for (x0, y0), (x1, y1) in zip(ring, np.roll(ring, -1, 0)):
            if y0 == y1:
                continue
            begin, end = np.searchsorted(y, sorted((y0, y1)))
            at = x0 + (y[begin:end] - y0) / (y1 - y0) * (x1 - x0)
            is_odd[begin:end] ^= x[begin:end] < at
    given = np.empty_like(is_odd)
    given[order] = is_odd
    return given
