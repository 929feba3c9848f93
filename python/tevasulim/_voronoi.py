"""The Voronoi diagram of the vertices, as `scipy.spatial.Voronoi` gives it."""
from __future__ import annotations

from typing import Any, Dict, List, NamedTuple, Optional, Tuple

import numpy as np

from ._arrays import Floats
from ._circles import Faces, disks, joined, spread_over
from ._kept import Ints
from ._needs import needed
from ._queries import Queries
from ._types import NDArray


class Voronoi(NamedTuple):
    """The arrays of `scipy.spatial.Voronoi`. Points are the rows of the triangulation's `points`.

    vertices : float64 array of shape (v, 2)
        The corners of the cells. One corner serves for all points on one circle.
    ridge_points : int32 array of shape (r, 2)
        The two points that each ridge is between.
    ridge_vertices : list of r pairs
        The corners at its ends; -1 is one at infinity.
    regions : list of lists
        The corners of each cell, counterclockwise; -1 where it is open.
    point_region : int array of shape (n,)
        The region of each point, or -1 for those that were removed or repeat another.
    """

    points: NDArray[Any]
    vertices: Floats
    ridge_points: Ints
    ridge_vertices: List[List[int]]
    regions: List[List[int]]
    point_region: NDArray[np.intp]


class Diagram(NamedTuple):
    """A Voronoi diagram of the points of a plain triangulation: the corner in each face, and those
    of each cell in order."""

    vertices: Floats
    corner: NDArray[np.intp]
    order: List[List[int]]


class VoronoiCells(Queries):
    """The cells of points that no other is nearer to."""

    def voronoi(self) -> Voronoi:
        """The Voronoi diagram of the vertices, whatever the constraints.

        >>> import tevasulim
        >>> tri = tevasulim.Triangulation([(0, 0), (4, 0), (0, 4), (4, 4), (2, 2)])
        >>> diagram = tri.voronoi()
        >>> sorted(diagram.vertices.tolist())
        [[0.0, 2.0], [2.0, 0.0], [2.0, 4.0], [4.0, 2.0]]
        """
        with self._lock:
            self._ready()
            plain = self._plain()
            diagram = self._diagram()
            faces, sides = np.nonzero(plain.neighbors < np.arange(len(plain))[:, None])
            ends = [plain.simplices[faces, (sides + k) % 3] for k in (1, 2)]
            others = plain.neighbors[faces, sides]
            here = diagram.corner[faces] if len(faces) else faces
            there = np.where(others < 0, -1, diagram.corner[others] if len(faces) else 0)
            is_ridge = here != there
            pairs = np.stack([there, here], 1)[is_ridge].tolist()
            between = np.stack(ends, 1)[is_ridge]
            if not len(plain):
                between = plain.edges
                pairs = [[-1, -1] for _ in between]
            regions, of_point = self._regions(diagram)
            between = self._renamed(plain, between.ravel()).reshape(-1, 2)
            return Voronoi(self.points, diagram.vertices, between, pairs, regions, of_point)

    def _diagram(self) -> Diagram:
        def make() -> Diagram:
            plain = self._plain()
            grid = self._grid_now()
            faces, points = plain.simplices, plain._points[: plain._size].astype(np.int64)
            if not len(faces):
                return Diagram(np.empty((0, 2)), np.empty(0, np.intp), [])
            corners, neighbors = faces.T, plain.neighbors.T
            found = disks(points, corners)
            free = np.zeros(corners.shape, bool)
            pairs = joined(Faces(points, corners, neighbors, free))
            root = spread_over(np.arange(len(faces)), np.minimum, pairs)
            kept, corner = np.unique(root, return_inverse=True)
            centers = found[kept, :2]
            order = cells_in_order(points, plain, centers, corner)
            return Diagram(grid.floats(centers), corner, order)

        return self._once("diagram", make)

    def _regions(self, diagram: Diagram) -> Tuple[List[List[int]], NDArray[np.intp]]:
        """The regions, and for each point which is its own."""
        plain = self._plain()
        of_point = np.full(self._size, -1, np.intp)
        numbers = np.unique(plain.representatives)
        named = self._renamed(plain, numbers[numbers >= 0].astype(np.int32))
        regions = [list(diagram.order[it]) if diagram.order else [-1] for it in
                   numbers[numbers >= 0].tolist()]
        of_point[named] = np.arange(len(named))
        return regions, of_point

    def cells(self, within: Any = None) -> Dict[int, Any]:
        """The Voronoi cell of each vertex, by the number of its point, as a polygon of shapely.

        Parameters
        ----------
        within : a polygon of shapely, or x and y from, x and y to, optional
            The area to which cells are clipped. Without it, the bounds of all points and a tenth
            more on each side.

        Raises
        ------
        ImportError
            Where shapely is not installed.
        """
        geometry = needed("shapely.geometry")
        with self._lock:
            self._ready()
            if not len(self._plain()):
                raise ValueError("there are no cells: fewer than three points, or all on one line")
            low, high = self.min_bound.astype(float), self.max_bound.astype(float)
            if within is None:
                more = 0.1 * float((high - low).max())
                within = [*(low - more), *(high + more)]
            window = within if hasattr(within, "geom_type") else geometry.box(*map(float, within))
            ends = np.array(window.bounds).reshape(2, 2)
            far = 100 * float(np.ptp(np.vstack([ends, low, high]), axis=0).max())
            outlines = self._outlines(far)
            return {
                number: geometry.Polygon(outline).intersection(window)
                for number, outline in outlines.items()
            }

    def _outlines(self, far: float) -> Dict[int, Floats]:
        """The corners of each cell; an open one goes so far beyond."""
        plain, diagram = self._plain(), self._diagram()
        points = self._grid_now().floats(plain._points[: plain._size])
        after = {start: end for start, end in plain.convex_hull.tolist()}
        before = {end: start for start, end in after.items()}
        outlines = {}
        names = self._renamed(plain, np.arange(plain._size, dtype=np.int32)).tolist()
        for number, region in enumerate(diagram.order):
            corners = diagram.vertices[[it for it in region if it >= 0]]
            if not len(corners):
                continue
            if number in after:
                here = points[number]
                last, first = points[before[number]], points[after[number]]
                vectors = [outward(last, here), outward(here, first)]
                middle = vectors[0] + vectors[1]
                if np.hypot(*middle) < 1e-9:
                    middle = np.array((-vectors[0][1], vectors[0][0]))
                reach = far + np.abs(corners - here).max()
                beyond = [
                    corners[-1] + vectors[0] * reach,
                    here + middle / np.hypot(*middle) * 4 * reach,
                    corners[0] + vectors[1] * reach,
                ]
                corners = np.vstack([corners, *beyond])
            outlines[names[number]] = corners
        return outlines


def outward(start: Floats, end: Floats) -> Floats:
    """The direction away from a side of the hull, which has all points on its left."""
    vector = end - start
    length = float(np.hypot(*vector)) or 1.0
    found: Floats = np.array((vector[1], -vector[0])) / length
    return found


def cells_in_order(
    points: NDArray[np.int64], plain: Queries, centers: Floats, corner: NDArray[np.intp]
) -> List[List[int]]:
    """The corners of each point's cell, counterclockwise around it; an open cell begins with -1,
    and then goes from the face beside its outgoing side of the hull to that beside its incoming
    one."""
    faces = plain.simplices
    pairs = np.unique(np.stack([faces.ravel(), np.repeat(corner, 3)], 1), axis=0)
    vector = centers[pairs[:, 1]] - points[pairs[:, 0]]
    order = np.lexsort((np.arctan2(vector[:, 1], vector[:, 0]), pairs[:, 0]))
    pairs = pairs[order]
    begins = np.searchsorted(pairs[:, 0], np.arange(len(points) + 1))
    lists = [pairs[a:b, 1].tolist() for a, b in zip(begins, begins[1:])]
    at, sides = np.nonzero(plain.neighbors < 0)
    for face, start in zip(at.tolist(), faces[at, (sides + 1) % 3].tolist()):
        first = lists[start].index(int(corner[face]))
        lists[start] = [-1] + lists[start][first:] + lists[start][:first]
    return lists
