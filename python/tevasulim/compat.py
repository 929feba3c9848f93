"""`Delaunay` in place of scipy's, and `delaunay` in place of matplotlib's own.

>>> tri = Delaunay([(0, 0), (0, 1), (1, 0)])
>>> sorted(tri.simplices[0].tolist()), tri.neighbors.tolist()
([0, 1, 2], [[-1, -1, -1]])
"""
from __future__ import annotations

from typing import Any, Optional, Tuple

import numpy as np

from ._types import NDArray
from .triangulation import Triangulation

SAME = "transform vertex_to_simplex vertex_neighbor_vertices convex_hull min_bound max_bound"

class Delaunay:
    """What `scipy.spatial.Delaunay` has, of points of the plane. Arrays may be written to.

    `qhull_options` are not looked at. `furthest_site` is refused. After `add_points` all points are
    triangulated anew: `tevasulim.Triangulation` inserts them in place."""

    def __init__(
        self, points: Any, furthest_site: bool = False, incremental: bool = False,
        qhull_options: Optional[str] = None,
    ) -> None:  # fmt: skip
        if furthest_site:
            raise NotImplementedError("furthest_site=True is not supported: leave it out")
        self.ndim, self.furthest_site = 2, False
        self._make(points)

    def _make(self, points: Any) -> None:
        self._tri = tri = Triangulation(np.asanyarray(points, np.float64))
        if not len(tri):
            refusal = RuntimeError if tri.num_vertices > 2 else ValueError
            raise refusal("there is no face: fewer than three points, or all on one line")
        self.points, self.npoints, self.nsimplex = np.array(points, float), tri.npoints, len(tri)
        self.simplices, self.neighbors = tri.simplices.copy(), tri.neighbors.copy()
        self.coplanar = tri.coplanar.copy()

    def add_points(self, points: Any, restart: bool = False) -> None:
        self._make(np.concatenate([self.points, np.asarray(points, np.float64)]))

    def close(self) -> None:
        """scipy's users call it after the last `add_points`."""

    def find_simplex(self, xi: Any, bruteforce: bool = False, tol: Optional[float] = None) -> Any:
        return self._tri.find_simplex(xi)

    def __getattr__(self, name: str) -> Any:
        if name in SAME.split():
            return getattr(self._tri, name)
        raise AttributeError(f"{type(self).__name__!r} object has no attribute {name!r}")


def delaunay(x: Any, y: Any) -> Tuple[NDArray[np.int32], NDArray[np.int32]]:
    """Faces and neighbours as `matplotlib.tri` has them: each beyond the side from that corner."""
    tri = Delaunay(np.ma.stack([x, y], -1))
    return tri.simplices, tri.neighbors[:, [2, 0, 1]]
