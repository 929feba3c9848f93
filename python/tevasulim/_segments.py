"""Segments of a plane of tiles: rows of the x and y of both ends, the numbers of both, and the row
in all segments that were handed in."""
from __future__ import annotations

from typing import Any, List, Tuple

import numpy as np

from ._types import NDArray

# Columns of a row.
ENDS, NUMBERS, ROW = slice(0, 4), slice(4, 6), 6
NONE = np.empty((0, 7), np.int64)


def bounds_of(segments: NDArray[Any]) -> NDArray[Any]:
    """The bounds of each, as rows of x and y from, x and y to."""
    starts, ends = segments[:, 0:2], segments[:, 2:4]
    return np.hstack([np.minimum(starts, ends), np.maximum(starts, ends)])


def meet(bounds: NDArray[Any], box: NDArray[Any]) -> NDArray[Any]:
    """Which bounds have a point in a box, both as x and y from, x and y to."""
    beside = (bounds[:, 2] < box[0]) | (bounds[:, 0] > box[2])
    given: NDArray[Any] = ~(beside | (bounds[:, 3] < box[1]) | (bounds[:, 1] > box[3]))
    return given


def side(ax: Any, ay: Any, bx: Any, by: Any, px: Any, py: Any) -> NDArray[Any]:
    """Above 0 where p is left of the line from a to b, 0 on it. Differences of coordinates are at
    most 2**30, so that nothing passes 64 bits."""
    given: NDArray[Any] = (bx - ax) * (py - ay) - (by - ay) * (px - ax)
    return given


def crossing(segments: NDArray[Any], one: NDArray[Any]) -> NDArray[Any]:
    """Which segments cross another: both are parted strictly by the line of the other."""
    ax, ay, bx, by = segments[:, ENDS].T
    cx, cy, dx, dy = (int(it) for it in one[ENDS])
    first = np.sign(side(ax, ay, bx, by, cx, cy)) * np.sign(side(ax, ay, bx, by, dx, dy))
    second = np.sign(side(cx, cy, dx, dy, ax, ay)) * np.sign(side(cx, cy, dx, dy, bx, by))
    given: NDArray[Any] = (first < 0) & (second < 0)
    return given


def common_points(segments: NDArray[Any], one: NDArray[Any]) -> NDArray[Any]:
    """Where segments cross another: those of these points that are whole, rows of int64."""
    found: List[Tuple[int, int]] = []
    cx, cy, dx, dy = (int(it) for it in one[ENDS])
    for ax, ay, bx, by in segments[crossing(segments, one)][:, ENDS].tolist():
        # Python's whole numbers, which have no bound.
        before = (dx - cx) * (ay - cy) - (dy - cy) * (ax - cx)
        behind = (dx - cx) * (by - cy) - (dy - cy) * (bx - cx)
        x, far_x = divmod((bx - ax) * before, before - behind)
        y, far_y = divmod((by - ay) * before, before - behind)
        if not far_x and not far_y:
            found.append((ax + x, ay + y))
    return np.array(sorted(set(found)), np.int64).reshape(-1, 2)


def may_enter(
    segments: NDArray[Any], corners: NDArray[Any], boxes: NDArray[Any]
) -> NDArray[Any]:
    """Of faces, corners of shape (3, f, 2) and their bounds, and segments, which may have a point
    inside of which, of shape (f, m): the bounds meet, and the corners are not all on one side."""
    bounds = bounds_of(segments)
    low, high = bounds[None, :, :2], bounds[None, :, 2:]
    given: NDArray[Any] = ((low < boxes[:, None, 2:]) & (high > boxes[:, None, :2])).all(2)
    # A segment along an axis has bounds of no width, which lie within those of a face or do not.
    row, column = np.nonzero(given)
    ends, at = segments[column, ENDS].T, corners[:, row]
    places = np.stack([side(*ends, *corner.T) for corner in at])
    given[row, column] = (places < 0).any(0) & (places > 0).any(0)
    return given


def longest_of(segments: NDArray[Any]) -> NDArray[Any]:
    """Those that are likely to hide most."""
    lengths = np.hypot(*(segments[:, 2:4] - segments[:, 0:2]).T.astype(np.float64))
    given: NDArray[Any] = segments[np.argsort(-lengths, kind="stable")[:AMONG]]
    return given


# How many segments, the longest, may hide points from a face, and of how many these are chosen.
HIDERS, AMONG = 3, 200


def hiders_of(
    segments: NDArray[Any], corners: NDArray[Any], boxes: NDArray[Any]
) -> NDArray[Any]:
    """For faces, corners of shape (3, f, 2), and boxes round their disks: segments that may hide
    points of the disks from them, of shape (HIDERS, f, 4): the ends of each, with the face on its
    left or on it. Where there are fewer, both ends are 0."""
    ends = longest_of(segments)[:, ENDS]
    ax, ay, bx, by = ends.T
    at_x, at_y = corners[..., 0, None], corners[..., 1, None]
    places = side(ax, ay, bx, by, at_x, at_y)
    is_left = (places >= 0).all(0) & (places > 0).any(0)
    is_right = (places <= 0).all(0) & (places < 0).any(0)
    low, high = np.minimum(ends[:, 0:2], ends[:, 2:4]), np.maximum(ends[:, 0:2], ends[:, 2:4])
    is_near = (low[None] <= boxes[:, None, 2:4]) & (high[None] >= boxes[:, None, 0:2])
    may_hide = is_near.all(2) & (is_left | is_right)
    found = np.zeros((HIDERS, corners.shape[1], 4), np.int64)
    ranks = np.where(may_hide, -angles_of(ends, corners.mean(0)), np.inf)
    chosen = np.argsort(ranks, axis=1, kind="stable")[:, :HIDERS]
    for number, of_face in enumerate(chosen.T):
        rows = np.flatnonzero(may_hide[np.arange(len(boxes)), of_face])
        some = ends[of_face[rows]]
        swapped = is_right[rows, of_face[rows]]
        some[swapped] = some[swapped][:, [2, 3, 0, 1]]
        found[number, rows] = some
    return found


def angles_of(ends: NDArray[Any], places: NDArray[Any]) -> NDArray[Any]:
    """How wide each of some segments looks from each place, of shape (f, m)."""
    ux, uy = (ends[:, k] - places[:, k, None] for k in (0, 1))
    vx, vy = (ends[:, k + 2] - places[:, k, None] for k in (0, 1))
    given: NDArray[Any] = np.arctan2(np.abs(ux * vy - uy * vx), ux * vx + uy * vy)
    return given


def are_hidden(
    ends: NDArray[Any], corners: NDArray[Any], x: NDArray[Any], y: NDArray[Any]
) -> NDArray[Any]:
    """Which points, one for each face, a segment on whose left or line the face is hides from it:
    they are beyond it, and the ways to them from all three corners cross it, and so those
    from each point of the face. These points are a convex set."""
    ux, uy, vx, vy = ends.T
    is_hidden = side(ux, uy, vx, vy, x, y) < 0
    rows = np.flatnonzero(is_hidden)
    ux, uy, vx, vy = ends[rows].T
    x, y = x[rows], y[rows]
    is_between = np.ones(len(rows), bool)
    for cx, cy in (corner[rows].T for corner in corners):
        is_between &= side(cx, cy, x, y, ux, uy) <= 0
        is_between &= side(cx, cy, x, y, vx, vy) >= 0
    is_hidden[rows] = is_between
    given: NDArray[Any] = is_hidden
    return given


def split(plan: Any, bounds: NDArray[Any], rows: NDArray[Any]) -> List[NDArray[Any]]:
    """For each tile of a plan the rows of the bounds that reach it."""
    if plan is None:
        return [rows]
    axis, at, low, high = plan
    below = rows[bounds[rows, axis] < at]
    above = rows[bounds[rows, axis + 2] >= at]
    return split(low, bounds, below) + split(high, bounds, above)
