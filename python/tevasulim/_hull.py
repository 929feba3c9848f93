"""Corners of the convex hull of points, exactly."""
from __future__ import annotations

from typing import Any, List, Tuple

import numpy as np

from ._types import NDArray

# Fewer points are taken as they are.
FEW = 100


def turn(a: Tuple[int, ...], b: Tuple[int, ...], c: Tuple[int, ...]) -> int:
    """Positive where c is left of the line from a to b, 0 where it is on it."""
    return (b[0] - a[0]) * (c[1] - a[1]) - (b[1] - a[1]) * (c[0] - a[0])


def extremes(points: NDArray[Any]) -> List[int]:
    """Rows of points that are furthest in eight directions, counterclockwise."""
    x, y = points[:, 0], points[:, 1]
    along, across = x + y, x - y
    ends = [(it.argmin(), it.argmax()) for it in (x, along, y, across)]
    (west, east), (south_west, north_east), (south, north), (north_west, south_east) = ends
    return [west, south_west, south, south_east, east, north_east, north, north_west]


def maybe_corners(points: NDArray[Any]) -> NDArray[Any]:
    """Rows of points, as int64 up to 2**29, but for those inside of a polygon of extreme ones. All
    products stay below 2**63."""
    rows = [int(it) for it in extremes(points)]
    x, y = points[:, 0], points[:, 1]
    is_inside = np.ones(len(points), bool)
    for start, end in zip(rows, rows[1:] + rows[:1]):
        dx, dy = points[end] - points[start]
        if dx or dy:
            is_inside &= dx * (y - y[start]) - dy * (x - x[start]) > 0
    return np.flatnonzero(~is_inside)


def without_dents(points: NDArray[Any], rows: NDArray[Any]) -> NDArray[Any]:
    """Rows of points in order by x and y, or the other way round, without most of those that are
    not on the right of the line from the one before to the one behind: these are no corners of the
    chain."""
    while len(rows) > FEW:
        vectors = points[rows[1:]] - points[rows[:-1]]
        (ax, ay), (bx, by) = vectors[:-1].T, vectors[1:].T
        is_corner = np.ones(len(rows), bool)
        np.greater(ax * by, ay * bx, out=is_corner[1:-1])
        count, rows = len(rows), rows[is_corner]
        if 50 * len(rows) > 49 * count:
            break
    return rows


def chain(places: List[Any]) -> List[Any]:
    """The corners on the right of a way through places in order, but the last one."""
    corners: List[Any] = []
    for place in places:
        while len(corners) > 1 and turn(corners[-2], corners[-1], place) <= 0:
            corners.pop()
        corners.append(place)
    return corners[:-1]


def hull_rows(points: NDArray[Any]) -> NDArray[Any]:
    """Rows of different points that are corners of their hull; of points on one line its ends.

    >>> hull_rows(np.array([(0, 0), (2, 0), (4, 0), (4, 4), (0, 4), (1, 1)])).tolist()
    [0, 2, 3, 4]
    >>> hull_rows(np.array([(3, 3), (1, 1), (2, 2)])).tolist()
    [1, 0]
    """
    points = points.astype(np.int64)
    rows = maybe_corners(points) if len(points) > FEW else np.arange(len(points))
    if len(rows) < 2:
        return rows
    rows = rows[np.lexsort(points[rows].T[::-1])]
    found: List[int] = []
    for way in rows, rows[::-1]:
        some = without_dents(points, way)
        found += [place[2] for place in chain(list(zip(*points[some].T.tolist(), some.tolist())))]
    return np.array(found)


def are_inside(boxes: NDArray[Any], polygon: NDArray[Any]) -> NDArray[Any]:
    """Which boxes, rows of x and y from, x and y to, lie strictly inside of a polygon of corners of
    a hull, counterclockwise. None lies inside of fewer than three.

    >>> are_inside(np.array([(1, 1, 2, 2), (0, 1, 2, 2)]), np.array([(0, 0), (4, 0), (0, 9)]))
    array([ True, False])
    """
    is_inside = np.full(len(boxes), len(polygon) > 2)
    boxes, polygon = boxes.astype(np.int64), polygon.astype(np.int64)
    for start, end in zip(polygon, np.roll(polygon, -1, axis=0)):
        dx, dy = end - start
        # The corner of each box that is least on the side's left.
        x, y = boxes[:, 2 if dy > 0 else 0], boxes[:, 1 if dx > 0 else 3]
        is_inside &= dx * (y - start[1]) - dy * (x - start[0]) > 0
    return is_inside
