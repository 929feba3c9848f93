"""Values at points: between them, their slopes, rasters and contour lines."""
from __future__ import annotations

from typing import Any, List, NamedTuple, Optional, Tuple

import numpy as np

from ._arrays import Floats
from ._natural import natural
from ._needs import needed
from ._numbers import numbers_of, unmasked
from ._queries import Queries
from ._types import NDArray
from ._walk import turns

# So many points are looked up at once; of natural neighbours, which take more memory, fewer.
AT_ONCE, FEWER = 500_000, 50_000
METHODS = "linear", "natural", "mean", "nearest"


class Raster(NamedTuple):
    """Values at the nodes of a grid: `values[i, j]` is at `x[j]`, `y[i]`, and `y` rises. So it is
    drawn by `pcolormesh(*raster[1:], raster.values)`."""

    values: Floats
    x: Floats
    y: Floats


class Contour(NamedTuple):
    """The lines of one level, each an array of shape (k, 2); a closed one ends where it begins."""

    level: float
    lines: List[Floats]


class Values(Queries):
    """What values at all points, by number, make elsewhere."""

    def _checked(self, values: Any) -> Floats:
        array = unmasked(values, "the value").astype(np.float64)
        if array.ndim < 1 or len(array) != self.npoints:
            raise ValueError(
                f"values have the shape {array.shape}, but need one row for each of the "
                f"{self.npoints} points"
            )
        return array

    def interpolate(self, values: Any, xi: Any, method: str = "linear") -> Any:
        """Values between those of the points.

        Parameters
        ----------
        values : array_like of shape (n,) or (n, ..)
            A value for each of `points`. Those of removed and repeated points are ignored.
        xi : array_like of shape (.., 2)
            The points at which to interpolate.
        method : str
            "linear": on the plane through the face's corners; "natural": from the natural
            neighbours (Sibson), which is smooth except at the points and ignores constraints;
            "mean": the mean of the face's corners; or "nearest": the value of the nearest point.

        Returns
        -------
        float64 array of shape (.., ) or (.., ..): NaN outside of all faces.

        Examples
        --------
        >>> import tevasulim
        >>> tri = tevasulim.Triangulation([(0, 0), (4, 0), (0, 4)])
        >>> tri.interpolate([10, 30, 20], [(1, 0.5), (5, 5)]).tolist()
        [16.25, nan]
        """
        if method not in METHODS:
            raise ValueError(f"method is {method!r}, but has to be one of {', '.join(METHODS)}")
        array = numbers_of(xi)
        with self._lock:
            self._ready()
            heights = self._checked(values)
            flat = array.reshape(-1, 2)
            found = np.full((len(flat), *heights.shape[1:]), np.nan)
            many = FEWER if method == "natural" else AT_ONCE
            for begin in range(0, len(flat), many):
                part = slice(begin, begin + many)
                self._fill(heights, flat[part], method, found[part])
        return found.reshape(array.shape[:-1] + heights.shape[1:])[()]

    def _fill(self, heights: Floats, points: NDArray[Any], method: str, found: Floats) -> None:
        """Writes the values at some points."""
        asked = self._asked(points)
        if method == "nearest":
            near = self._nearest(asked)
            is_there = (near >= 0) & ~np.isnan(points.astype(np.float64)).any(1)
            found[is_there] = heights[near[is_there]]
            return
        tri: Queries = self
        if method == "natural" and self._has_kind:
            tri = self._plain()
            heights = heights[self._renamed(tri, np.arange(tri._size, dtype=np.int32))]
        faces = tri._find(asked)
        rows = np.flatnonzero(faces >= 0)
        corners = tri.simplices[faces[rows]]
        if method == "mean":
            found[rows] = heights[corners].mean(1)
            return
        steps, rest = asked.steps[rows], None if asked.rest is None else asked.rest[rows]
        areas = turns(tri._points[corners].astype(np.int64), steps, rest)
        parts = areas / areas.sum(1, keepdims=True)
        found[rows] = np.einsum("ij,ij...->i...", parts, heights[corners])
        if method == "natural":
            rest = np.zeros(steps.shape) if rest is None else rest
            points = tri._points[: tri._size].astype(np.int64)
            words = points, tri.simplices, tri.neighbors, steps.astype(np.int64), rest, faces[rows]
            of = natural(*words)
            found[rows[of.is_sure]] = 0
            np.add.at(found, rows[of.rows], (of.weights * heights[of.vertices].T).T)

    def gradient(self, values: Any) -> Floats:
        """float64 array of shape (f, 2): for each face the slope of the plane through its corners,
        along x and along y.

        >>> import tevasulim
        >>> tri = tevasulim.Triangulation([(0, 0), (4, 0), (0, 4)])
        >>> tri.gradient([10, 30, 20]).tolist()
        [[5.0, 2.5]]
        """
        with self._lock:
            heights = self._checked(values)
            if heights.ndim != 1:
                raise ValueError(f"values have the shape {heights.shape}, but need (n,)")
            z = heights[self.simplices]
            rise = z[:, :2] - z[:, 2:]
            given: Floats = np.einsum("fi,fij->fj", rise, self.transform[:, :2])
            return given

    def grid(
        self, values: Any, step: float, bounds: Any = None, method: str = "linear"
    ) -> Raster:
        """A raster of values: what `interpolate` gives at each node of a grid.

        Parameters
        ----------
        values, method
            As for `interpolate`.
        step : float
            The distance between neighbouring nodes, in both directions.
        bounds : sequence of 4 floats, optional
            x and y from, x and y to. The first node is at the first corner, and no node is beyond
            the second. Without it, the bounds of all points.

        Examples
        --------
        >>> import tevasulim
        >>> tri = tevasulim.Triangulation([(0, 0), (4, 0), (0, 4), (4, 4)])
        >>> tri.grid([0, 4, 0, 4], 2).values.tolist()
        [[0.0, 2.0, 4.0], [0.0, 2.0, 4.0], [0.0, 2.0, 4.0]]
        """
        if not step > 0:
            raise ValueError(f"step is {step}, but has to be above 0")
        with self._lock:
            if bounds is None:
                if not self.num_vertices:
                    return Raster(np.empty((0, 0)), np.empty(0), np.empty(0))
                bounds = [*self.min_bound, *self.max_bound]
            low_x, low_y, high_x, high_y = map(float, np.asarray(bounds).ravel())
            x, y = nodes(low_x, high_x, step), nodes(low_y, high_y, step)
            at = np.stack(np.meshgrid(x, y), -1)
            return Raster(self.interpolate(values, at, method), x, y)

    def contours(self, values: Any, levels: Any = 10) -> List[Contour]:
        """The contour lines of values at points, as matplotlib traces them over the faces.

        Parameters
        ----------
        values : array_like of shape (n,)
            A value for each of `points`.
        levels : int or array_like of floats
            The levels, or about how many levels; these are then round numbers.

        Raises
        ------
        ImportError
            Where matplotlib is not installed.
        """
        needed("matplotlib")
        from matplotlib.figure import Figure

        axes = Figure().add_subplot()
        heights = self._checked(values)
        if np.ndim(levels):
            levels = np.unique(np.asarray(levels, np.float64))
        lines = axes.tricontour(self.to_matplotlib(), heights, levels)
        return [
            Contour(float(level), [np.asarray(it) for it in parts if len(it) > 1])
            for level, parts in zip(lines.levels, lines.allsegs)
        ]

    def to_matplotlib(self) -> Any:
        """A `matplotlib.tri.Triangulation` of the same points and faces."""
        needed("matplotlib")
        from matplotlib.tri import Triangulation

        points = self.points
        return Triangulation(points[:, 0], points[:, 1], self.simplices)


def nodes(low: float, high: float, step: float) -> Floats:
    """Numbers from the low one on, so far apart, up to the high one."""
    # The last one is not lost to a rounding.
    return low + step * np.arange(int((high - low) / step * (1 + 1e-12) + 1e-9) + 1)
