"""All points, faces and edges of a triangulation as arrays, named as `scipy.spatial.Delaunay`
names them."""
from __future__ import annotations

from typing import Any, Iterator, NamedTuple, Optional, Tuple

import numpy as np

from ._faces import outline, vertex_faces, vertex_neighbors
from ._kept import Ints, Kept
from ._types import NDArray

Floats = NDArray[np.float64]


class Neighbors(NamedTuple):
    """The neighbours of the point `k` are `indices[indptr[k]:indptr[k + 1]]`."""

    indptr: Ints
    indices: Ints


class Arrays(Kept):
    """What is asked of all points. Each array is made when it is asked for first, and is a new one
    after the next edit. None can be written to."""

    def _faces(self) -> Tuple[Ints, Ints, NDArray[np.bool_]]:
        def make() -> Tuple[Ints, Ints, NDArray[np.bool_]]:
            faces = self._list("faces", 9, 2 * self._count)
            corners = self._numbers[faces[:, :3]] if self._count else np.empty((0, 3), np.int32)
            return corners, faces[:, 3:6].astype(np.int32), faces[:, 6:] != 0

        return self._once("faces", make)

    def _edges(self) -> Ints:
        def make() -> Ints:
            edges = self._list("edges", 3, 3 * self._count)
            if len(edges):
                edges[:, :2] = self._numbers[edges[:, :2]]
            return edges.view(np.int32)

        return self._once("edges", make)

    # Points.

    @property
    def points(self) -> NDArray[Any]:
        """array of shape (n, 2): all points by number, removed ones too, rounded to the grid if
        that was needed. float64; or whole numbers, if the points were whole numbers; or whole
        numbers of parts, if you gave a `scale`."""

        def make() -> NDArray[Any]:
            steps = self._points[: self._size]
            return steps.copy() if self._grid is None else self._grid.points(steps)

        return self._once("points", make)

    @property
    def representatives(self) -> Ints:
        """int32 array of shape (n,): for each point the number of the first point that is equal,
        which stands for it in all other arrays; or -1 if it was removed."""

        def make() -> Ints:
            firsts = self._firsts[: self._size]
            return np.where(self._vertices[firsts] < 0, np.int32(-1), firsts)

        return self._once("representatives", make)

    @property
    def coplanar(self) -> Ints:
        """int32 array of shape (r, 3), a row for each point that repeats an earlier one: its
        number, a face at it or -1, and the number of the earlier one. `scipy.spatial.Delaunay` has
        the points that it leaves out in this form."""

        def make() -> Ints:
            firsts = self.representatives
            rows = np.flatnonzero((firsts >= 0) & (firsts != np.arange(len(firsts))))
            faces = self._vertex_faces()[firsts[rows]]
            return np.stack([rows.astype(np.int32), faces, firsts[rows]], 1)

        return self._once("coplanar", make)

    @property
    def scale(self) -> float:
        """How many steps of the grid are in a unit: 1 for whole numbers."""
        with self._lock:
            self._ready()
            return 1 if self._grid is None else self._grid.scale

    @property
    def origin(self) -> Floats:
        """float64 array of shape (2,): the point where the steps of the grid are 0."""
        with self._lock:
            self._ready()
            return np.zeros(2) if self._grid is None else self._grid.origin()

    @property
    def rounding(self) -> float:
        """The largest distance between a point as you handed it in and the point on the grid."""
        with self._lock:
            self._ready()
            return self._rounding

    @property
    def is_exact(self) -> bool:
        """Whether all points are exactly where you handed them in: none was rounded."""
        return self.rounding == 0

    def _places(self) -> NDArray[Any]:
        """Where each vertex is, as `points` has it."""
        found: NDArray[Any] = self.points[self._numbers[: self._count]]
        return found

    @property
    def min_bound(self) -> NDArray[Any]:
        """array of shape (2,): the least x and the least y of the vertices."""

        def make() -> NDArray[Any]:
            found: NDArray[Any] = self._places().min(0)
            return found

        return self._once("min_bound", make)

    @property
    def max_bound(self) -> NDArray[Any]:
        """array of shape (2,): the largest x and the largest y of the vertices."""

        def make() -> NDArray[Any]:
            found: NDArray[Any] = self._places().max(0)
            return found

        return self._once("max_bound", make)

    # Faces.

    @property
    def simplices(self) -> Ints:
        """int32 array of shape (f, 3): the corners of each face, counterclockwise."""
        return self._faces()[0]

    @property
    def neighbors(self) -> Ints:
        """int32 array of shape (f, 3): the face opposite each corner, or -1."""
        return self._faces()[1]

    @property
    def constraint_sides(self) -> NDArray[np.bool_]:
        """bool array of shape (f, 3): whether the edge opposite each corner is a constraint."""
        return self._faces()[2]

    @property
    def transform(self) -> Floats:
        """float64 array of shape (f, 3, 2): the affine map of each face to barycentric
        coordinates. With `b = t[:2] @ (x - t[2])` the point x is `b[0]` of the first corner,
        `b[1]` of the second and `1 - b.sum()` of the third."""

        def make() -> Floats:
            corners = self.points[self.simplices].astype(np.float64)
            sides = (corners[:, :2] - corners[:, 2:]).transpose(0, 2, 1)
            inverse = np.linalg.inv(sides) if len(sides) else np.empty((0, 2, 2))
            return np.concatenate([inverse, corners[:, 2:]], 1)

        return self._once("transform", make)

    def _vertex_faces(self) -> Ints:
        return self._once("vertex_faces", lambda: vertex_faces(self.simplices, self._size))

    @property
    def vertex_to_simplex(self) -> Ints:
        """int32 array of shape (n,): for each point a face that has it as a corner; -1 if the point
        was removed or all points are on one line."""

        def make() -> Ints:
            firsts = self.representatives
            return np.where(firsts < 0, np.int32(-1), self._vertex_faces()[firsts])

        return self._once("vertex_to_simplex", make)

    # Edges.

    @property
    def edges(self) -> Ints:
        """int32 array of shape (e, 2): the ends of each edge.

        >>> import tevasulim
        >>> tri = tevasulim.Triangulation([(0, 0), (4, 0), (9, 0)])
        >>> sorted(map(sorted, tri.edges.tolist()))
        [[0, 1], [1, 2]]
        """
        return self._edges()[:, :2]

    @property
    def constraints(self) -> Ints:
        """int32 array of shape (c, 2): the ends of each edge that is a constraint."""

        def make() -> Ints:
            edges = self._edges()
            return edges[edges[:, 2] != 0, :2]

        return self._once("constraints", make)

    @property
    def vertex_neighbor_vertices(self) -> Neighbors:
        """The points that edges join to each point, as two int32 arrays `indptr` and `indices`.

        >>> import tevasulim
        >>> tri = tevasulim.Triangulation([(0, 0), (4, 0), (0, 4)])
        >>> indptr, indices = tri.vertex_neighbor_vertices
        >>> sorted(indices[indptr[0] : indptr[1]].tolist())
        [1, 2]
        """
        make = lambda: Neighbors(*vertex_neighbors(self.edges, self._size))  # noqa: E731
        return self._once("vertex_neighbors", make)

    @property
    def convex_hull(self) -> Ints:
        """int32 array of shape (h, 2): the edges along the hull, counterclockwise; none where all
        points are on one line."""
        return self._once("outline", lambda: outline(self.simplices, self.neighbors))

    @property
    def hull(self) -> Ints:
        """int32 array of shape (h,): the points along the hull, counterclockwise, also those
        between two corners; where all points are on one line, its ends.

        >>> import tevasulim
        >>> tevasulim.Triangulation([(0, 0), (4, 0), (5, 5), (0, 4), (2, 1)]).hull.tolist()
        [0, 1, 2, 3]
        """

        def make() -> Ints:
            if len(self.simplices) or not self._count:
                return self.convex_hull[:, 0]
            numbers = self._numbers[: self._count]
            ordered = numbers[np.lexsort(self._points[numbers].T[::-1])]
            given: Ints = ordered[[0, -1] if self._count > 1 else [0]]
            return given

        return self._once("hull", make)

    # How many there are.

    def _number(self, name: str) -> int:
        with self._lock:
            self._ready()
            return int(getattr(self._counts(), name))

    @property
    def num_vertices(self) -> int:
        """How many different points there are."""
        return self._number("vertices")

    @property
    def num_edges(self) -> int:
        """How many edges there are."""
        return self._number("edges")

    @property
    def num_faces(self) -> int:
        """How many faces there are."""
        return self._number("faces")

    @property
    def num_constraints(self) -> int:
        """How many edges are constraints."""
        return self._number("constraints")

    @property
    def npoints(self) -> int:
        """How many points you handed in: the rows of `points`."""
        with self._lock:
            self._ready()
            return self._size

    @property
    def nsimplex(self) -> int:
        """How many faces there are."""
        return self.num_faces

    @property
    def ndim(self) -> int:
        """The dimension, 2."""
        return 2

    @property
    def is_constrained(self) -> bool:
        """Whether it may have constraints: it was made with segments, or has had a constraint."""
        with self._lock:
            self._ready()
            return self._is_constrained

    def __len__(self) -> int:
        """How many faces there are."""
        return self.num_faces

    def __iter__(self) -> Iterator[Tuple[int, int, int]]:
        """The corners of each face.

        >>> import tevasulim
        >>> [sorted(face) for face in tevasulim.Triangulation([(0, 0), (4, 0), (0, 4)])]
        [[0, 1, 2]]
        """
        return iter([(a, b, c) for a, b, c in self.simplices.tolist()])
