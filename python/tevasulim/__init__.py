"""Delaunay triangulations of points of the plane, over a library whose calls are proved.

>>> import tevasulim
>>> hill = tevasulim.Triangulation([(0, 0), (4, 0), (5, 5), (0, 4)])
>>> sorted(map(sorted, hill.simplices.tolist()))
[[0, 1, 3], [1, 2, 3]]
>>> sorted(hill.simplices[hill.find_simplex((1, 1))].tolist())
[0, 1, 3]
"""
from ._library import is_proved, library_version
from .errors import *  # noqa: F401,F403
from .errors import __all__ as _errors
from .triangulation import (
    Contour,
    Meeting,
    Met,
    Place,
    Places,
    Raster,
    Triangulation,
    Voronoi,
)

__all__ = [
    "Triangulation",
    "Place",
    "Places",
    "Met",
    "Meeting",
    "Raster",
    "Contour",
    "Voronoi",
    "is_proved",
    "library_version",
    *_errors,
]
__version__ = "0.1.0"
