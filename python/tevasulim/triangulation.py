"""A triangulation that one edits and asks, over the calls of the shared library."""
from __future__ import annotations

from ctypes import byref
from typing import Any, Dict, Optional, Tuple, Type, TypeVar

import numpy as np

from . import _library as library
from ._grid import Grid, checked_bounds, chosen
from ._kept import Ints, Kept
from ._numbers import checked_scale, index_array, listed, numbers_of, single
from ._plot import Pictures
from ._queries import Meeting, Met, Place, Places
from ._regions import Regions
from ._types import NDArray
from ._values import Contour, Raster
from ._voronoi import Voronoi, VoronoiCells
from .errors import NoSuchPointError, NoSuchVertexError

__all__ = [
    "Triangulation",
    "Place",
    "Places",
    "Met",
    "Meeting",
    "Raster",
    "Contour",
    "Voronoi",
]
Self = TypeVar("Self", bound="Triangulation")


class Triangulation(Pictures, Regions, VoronoiCells):
    """A Delaunay triangulation of points of the plane, with constraints if you want them.

    Parameters
    ----------
    points : array_like of shape (n, 2), optional
        Finite numbers of any size. Whole numbers from -2**29 to 2**29 are never changed.
    segments : array_like of shape (m, 2), optional
        Pairs of numbers of points. Each pair becomes a constraint: an edge that stays. Segments
        may not cross. With `None` the triangulation is plain until its first constraint.
    scale : int, optional
        How many parts a unit has, from 1 to 2**29. A coordinate `c` becomes `c * scale`, which has
        to be a whole number. A float has to be the one nearest to `k / scale` for a whole number
        `k`, so that `tri.points / tri.scale` gives the floats back. Later calls use the same scale.
    exact : bool
        Whether points that would be rounded are an error.
    bounds : sequence of 4 floats, optional
        x and y from, x and y to: the box in which later points may be. Without it, floats have as
        much room around the first points as these are wide.

    Notes
    -----
    **The grid.** The library computes with whole numbers. The first points choose a grid that maps
    floats to them: `rint((p - origin) * scale)`. If all points are decimals and the range allows
    it, the scale is a power of ten, and no point moves (`is_exact`). Otherwise it is the power of
    two that uses the range. Then a point moves by less than 2**-28 of the width of all points
    (`rounding` says how far), and points that become equal count as repeated points. Whole numbers
    are never rounded. Points that you ask about may be off the grid and out of its range.

    **Numbers.** The number of a point is its row in `points`, as in `scipy.spatial.Delaunay`. Later
    points get the next rows. A number never changes, whatever you remove. Of equal points the first
    stands for all of them: `representatives` says which.

    **Arrays** that are properties (`simplices`, ..) are made when you first ask for them, and made
    anew after an edit. They are read-only; `.copy()` gives an array that you can write to.

    **Errors.** A method raises an exception of `tevasulim.errors` before it changes anything,
    unless its text says otherwise. After any exception, also `KeyboardInterrupt` and `MemoryError`
    in the middle of an edit, the triangulation is as it was before that edit or as it is after it.

    **Threads** may share one triangulation: their calls wait for each other.

    Examples
    --------
    >>> tri = Triangulation([(0, 0), (4, 0), (5, 5), (0, 4)], segments=[(0, 2)])
    >>> sorted(map(sorted, tri.simplices.tolist()))
    [[0, 1, 2], [0, 2, 3]]
    >>> tri.neighbors.shape, tri.neighbors.max(axis=1).tolist()
    ((2, 3), [1, 0])
    >>> Triangulation([(0.25, 0.5), (1, 0.1), (1, 1)]).points.tolist()
    [[0.25, 0.5], [1.0, 0.1], [1.0, 1.0]]
    >>> with Triangulation([(0.25, 0.5), (1, 0), (1, 1)], scale=100) as small:
    ...     small.points.tolist()
    [[25, 50], [100, 0], [100, 100]]
    """

    def __init__(
        self,
        points: Any = (),
        segments: Any = None,
        *,
        scale: Optional[int] = None,
        exact: bool = False,
        bounds: Any = None,
    ) -> None:
        self._parts = checked_scale(scale)
        self._exact, self._bounds = bool(exact), checked_bounds(bounds)
        super().__init__(segments is not None)
        try:
            self.insert_all(points)
            if segments is not None:
                self._add_segments(segments)
        except BaseException:
            self.close()
            raise
        self._register()

    # Its life.

    def __enter__(self: Self) -> Self:
        return self

    def __exit__(self, *_: Any) -> None:
        self.close()

    def __repr__(self) -> str:
        if not self._mesh.is_open:
            return "<Triangulation, closed>"
        with self._lock:
            self._ready()
            counts = self._counts()
        return f"<Triangulation of {counts.vertices} vertices and {counts.faces} faces>"

    def copy(self: Self) -> Self:
        """A triangulation of the same points, numbers, edges and constraints. From then on each of
        the two is edited by itself.

        >>> tri = Triangulation([(0, 0), (4, 0), (0, 4)])
        >>> other = tri.copy()
        >>> other.remove(0)
        >>> len(tri), len(other)
        (1, 0)
        """
        other = type(self).__new__(type(self))
        with self._lock:
            self._ready()
            other._settings(self._parts, self._exact, self._bounds)
            self._call("copy", byref(other._mesh))
            other._is_constrained, other._has_kind = self._is_constrained, self._has_kind
            other._size, other._count = self._size, self._count
            other._points, other._firsts = self._points.copy(), self._firsts.copy()
            other._vertices, other._numbers = self._vertices.copy(), self._numbers.copy()
            other._grid, other._rounding = self._grid, self._rounding
        other._register()
        return other

    __copy__ = copy

    def __deepcopy__(self: Self, _: Any) -> Self:
        return self.copy()

    def _settings(self, parts: Optional[int], exact: bool, bounds: Any) -> None:
        """Begins with no triangulation of the library."""
        self._parts, self._exact, self._bounds = parts, exact, bounds
        self._blank(False)

    def __reduce__(self) -> Any:
        return restored, (type(self), self._state())

    def _state(self) -> Dict[str, NDArray[Any]]:
        """Points, constraints and numbers, as arrays."""
        with self._lock:
            self._ready()
            grid = self._grid
            return {
                "steps": self._points[: self._size].copy(),
                "firsts": self._firsts[: self._size].copy(),
                "is_there": self.representatives >= 0,
                "constraints": self.constraints.copy(),
                "is_constrained": np.array(self._is_constrained),
                "grid": np.array(() if grid is None else (grid.scale, *grid.first, grid.is_whole)),
                "rounding": np.array(self._rounding),
                "parts": np.array(self._parts or 0),
                "exact": np.array(self._exact),
                "bounds": np.empty(0) if self._bounds is None else self._bounds,
            }

    def save(self, file: Any) -> None:
        """Writes points, constraints and numbers to a .npz, which `load` reads.

        Parameters
        ----------
        file : str, path or file object
            As for `numpy.savez`, which adds `.npz` to a name without it.
        """
        np.savez(file, tevasulim=np.array(1), **self._state())

    @classmethod
    def load(cls: Type[Self], file: Any) -> Self:
        """Reads what `save` wrote: a triangulation with the same points, numbers and constraints.
        Four or more points on one circle may have other edges between them.

        Raises `ValueError` if `save` did not write the file.
        """
        with np.load(file, allow_pickle=False) as state:
            if not hasattr(state, "files") or "tevasulim" not in state.files:
                raise ValueError(f"{file} was not written by Triangulation.save")
            return restored(cls, dict(state))

    # Edits.

    def _mapped(self, array: NDArray[Any]) -> Tuple[Ints, Grid, float]:
        """Points on the grid, which is that of the points before, or chosen by these."""
        grid = self._grid
        if grid is None or not self._size:
            grid = chosen(array.reshape(-1, 2), self._parts, self._bounds)
        steps, rounding = grid.placed(array, self._exact)
        return steps, grid, rounding

    def insert(self, point: Any) -> int:
        """Inserts a point and gives its number, or the number of the first point that is equal.

        >>> tri = Triangulation([(0, 0), (4, 0)])
        >>> tri.insert((1, 3)), tri.insert((4, 0)), len(tri.points)
        (2, 1, 4)
        """
        array = single(numbers_of(point))
        with self._lock:
            self._ready()
            return self._insert_one(*self._mapped(array))

    def insert_all(self, points: Any) -> Ints:
        """Inserts many points, faster than one by one. Gives for each its number, or the number of
        the first point that is equal.

        >>> Triangulation().insert_all([(0, 0), (4, 0), (0, 0), (1, 3)]).tolist()
        [0, 1, 0, 3]
        """
        array = listed(numbers_of(points))
        with self._lock:
            self._ready()
            if not len(array):
                return np.empty(0, np.int32)
            return self._insert(*self._mapped(array))

    add_points = insert_all

    def add_chain(self, numbers: Any, closed: bool = False) -> None:
        """Adds a constraint from each point of a list to the next, and from the last to the first
        if `closed`.

        After `CrossingError` or `OutOfMemoryError` the segments before the one at the error's
        `index` stay.

        >>> tri = Triangulation([(0, 0), (4, 0), (5, 5), (0, 4), (2, 1)])
        >>> tri.add_chain([0, 1, 2, 3], closed=True)
        >>> len(tri.constraints)
        4
        """
        array = index_array(numbers, "the numbers of a chain")
        if array.ndim != 1:
            raise ValueError(f"a chain has the shape {array.shape}, but is a list of points, (n,)")
        with self._lock:
            self._ready()
            vertices = self._vertices_of(array, NoSuchVertexError)
            self._chain(vertices, bool(closed), 0)

    def add_segments(self, segments: Any) -> None:
        """Adds a constraint for each pair of numbers, as `segments` of a new triangulation.

        After `CrossingError` or `OutOfMemoryError` the segments before the one at the error's
        `index` stay.

        >>> tri = Triangulation([(0, 0), (4, 0), (5, 5), (0, 4)])
        >>> tri.add_segments([(0, 2), (3, 0)])
        >>> len(tri.constraints)
        2
        """
        with self._lock:
            self._ready()
            self._add_segments(segments)

    def _add_segments(self, segments: Any) -> None:
        """Neighbouring pairs that join go as one chain."""
        array = index_array(segments, "segments")
        if array.shape == (0,):
            return
        if array.ndim != 2 or array.shape[1] != 2:
            raise ValueError(f"segments have the shape {array.shape}, but are pairs, (m, 2)")
        vertices = self._vertices_of(array, NoSuchPointError)
        begins = np.flatnonzero(vertices[1:, 0] != vertices[:-1, 1]) + 1
        for part, begin in zip(np.split(vertices, begins), [0, *begins.tolist()]):
            if len(part):
                self._chain(np.append(part[:, 0], part[-1, 1]), False, begin)


def restored(kind: Type[Self], state: Dict[str, NDArray[Any]]) -> Self:
    """The triangulation that a state is of."""
    self = kind.__new__(kind)
    bounds = state["bounds"] if len(state["bounds"]) else None
    self._parts, self._exact = int(state["parts"]) or None, bool(state["exact"])
    self._bounds = bounds
    Kept.__init__(self, bool(state["is_constrained"]))
    steps, firsts, is_there = state["steps"], state["firsts"], state["is_there"]
    grid = None
    if len(state["grid"]):
        scale, x, y, is_whole = state["grid"].tolist()
        whole_scale = int(scale) if scale >= 1 else scale
        grid = Grid(whole_scale, (x, y), bool(is_whole), self._parts)
    alive = np.flatnonzero(is_there & (firsts == np.arange(len(firsts))))
    self._reserve(len(steps))
    vertices = self._of_each("insert_all", np.ascontiguousarray(steps[alive]), 1)[:, 0]
    size = len(steps)
    self._points[:size], self._firsts[:size] = steps, firsts
    self._vertices[:size] = -1
    self._vertices[alive] = vertices
    self._numbers[vertices] = alive
    self._size, self._count = size, len(alive)
    self._grid, self._rounding = grid, float(state["rounding"])
    self._set_numbers(vertices, alive)
    self._add_segments(state["constraints"])
    self._register()
    return self
