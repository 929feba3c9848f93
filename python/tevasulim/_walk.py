"""Points off the grid among faces and vertices. A point is a whole one and a rest of less than a
step: products of whole numbers are exact, so that only the rest's part is rounded, by far less than
a millionth of a square step."""
from __future__ import annotations

from typing import Optional, Tuple

import numpy as np

from ._types import NDArray

Ints = NDArray[np.int32]
Wide = NDArray[np.int64]
Floats = NDArray[np.float64]
# A side that a point is less far beyond, in square steps, is one that it is on.
NEAR = 2.0**-18
# After more steps from face to face than these, all faces are looked at.
FAR = 2000


def turns(corners: Wide, steps: Ints, rest: Optional[Floats]) -> Floats:
    """For faces of the shape (m, 3, 2) and a point each: twice the area, in square steps, of the
    triangle that the point makes with the side opposite each corner. It is negative where the point
    is beyond that side."""
    to = corners - steps[:, None, :].astype(np.int64)
    found = np.empty((len(to), 3))
    for k in range(3):
        a, b = to[:, (k + 1) % 3], to[:, (k + 2) % 3]
        found[:, k] = a[:, 0] * b[:, 1] - a[:, 1] * b[:, 0]
        if rest is not None:
            vector = (a - b).astype(np.float64)
            found[:, k] -= vector[:, 0] * rest[:, 1] - vector[:, 1] * rest[:, 0]
    return found


def walk(
    points: Ints, simplices: Ints, neighbors: Ints, faces: Ints, steps: Ints, rest: Floats
) -> Ints:
    """The face that each of some points is in, or on the border of, from a face near it on; -1
    where it is outside, or where it began with none."""
    faces = faces.copy()
    open_ones = np.flatnonzero(faces >= 0)
    for _ in range(FAR):
        if not len(open_ones):
            return faces
        at = faces[open_ones]
        corners = points[simplices[at]].astype(np.int64)
        found = turns(corners, steps[open_ones], rest[open_ones])
        side = found.argmin(1)
        is_beyond = found[np.arange(len(side)), side] < -NEAR
        open_ones, at, side = open_ones[is_beyond], at[is_beyond], side[is_beyond]
        faces[open_ones] = neighbors[at, side]
        open_ones = open_ones[faces[open_ones] >= 0]
    corners = points[simplices].astype(np.int64)
    for row in open_ones.tolist():
        many = np.broadcast_to(steps[row], (len(corners), 2))
        found = turns(corners, many, np.broadcast_to(rest[row], (len(corners), 2)))
        inside = np.flatnonzero(found.min(1) >= -NEAR)
        faces[row] = inside[0] if len(inside) else -1
    return faces


def distances_2(points: Ints, steps: Ints, rest: Floats) -> Tuple[Wide, Floats]:
    """Squared distances of points, in square steps but for the square of the rest: the whole part
    and what the rest makes of it."""
    vector = points.astype(np.int64) - steps
    return (vector * vector).sum(1), -2 * (vector * rest).sum(1)


def nearer(
    points: Ints, lists: Tuple[Ints, Ints], at: Ints, steps: Ints, rest: Floats
) -> Ints:
    """From a vertex near each of some points to the nearest one, by edges of a Delaunay
    triangulation: a vertex that is not the nearest has a neighbour that is nearer."""
    begins, neighbors = lists
    at = at.copy()
    open_ones = np.flatnonzero(at >= 0)
    while len(open_ones):
        here = at[open_ones]
        count = begins[here + 1] - begins[here]
        has_some = count > 0
        open_ones, here, count = open_ones[has_some], here[has_some], count[has_some]
        if not len(open_ones):
            break
        first = np.cumsum(count) - count
        rows = np.repeat(np.arange(len(here)), count)
        others = neighbors[np.arange(count.sum()) - first[rows] + begins[here][rows]]
        asked = open_ones[rows]
        whole, part = distances_2(points[others], steps[asked], rest[asked])
        own, own_part = distances_2(points[here], steps[open_ones], rest[open_ones])
        less = (whole - own[rows]).astype(np.float64) + (part - own_part[rows])
        least = np.minimum.reduceat(less, first)
        is_least = np.flatnonzero(less == least[rows])
        best = np.empty(len(here), np.int64)
        best[rows[is_least][::-1]] = is_least[::-1]
        is_nearer = least < 0
        at[open_ones[is_nearer]] = others[best[is_nearer]]
        open_ones = open_ones[is_nearer]
    return at


def distances_to_segments_2(a: Floats, b: Floats, p: Floats) -> Floats:
    """Squared distances of a point from segments."""
    vector, to = b - a, p - a
    along = np.clip((vector * to).sum(1) / np.maximum((vector * vector).sum(1), 1e-300), 0, 1)
    rest = to - along[:, None] * vector
    found: Floats = (rest * rest).sum(1)
    return found


def meets_box(a: Floats, b: Floats, low: Floats, high: Floats) -> NDArray[np.bool_]:
    """Whether segments have a point in a closed box: their bounds do, and the box's corners are not
    all on one side."""
    is_beside = (np.maximum(a, b) < low).any(1) | (np.minimum(a, b) > high).any(1)
    vector = b - a
    corners = [(x, y) for x in (low[0], high[0]) for y in (low[1], high[1])]
    sides = np.stack(
        [vector[:, 0] * (y - a[:, 1]) - vector[:, 1] * (x - a[:, 0]) for x, y in corners], 1
    )
    is_one_side: NDArray[np.bool_] = (sides > 0).all(1) | (sides < 0).all(1)
    given: NDArray[np.bool_] = ~is_beside & ~is_one_side
    return given
