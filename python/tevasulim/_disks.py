"""The closed disks of faces, points in them, and what constraints hide of them."""
from __future__ import annotations

from functools import cached_property
from typing import Any, Iterator, Tuple

import numpy as np

from ._circles import circle_test, disks
from ._segments import are_hidden, hiders_of, side
from ._types import NDArray


def keys_of(points: NDArray[Any]) -> NDArray[Any]:
    """A number for each position."""
    given: NDArray[Any] = (points[:, 0].astype(np.int64) << 32) + points[:, 1]
    return given


def are_listed(keys: NDArray[Any], points: NDArray[Any]) -> NDArray[Any]:
    """Which points are those of sorted keys."""
    if not len(keys):
        return np.zeros(len(points), bool)
    wanted = keys_of(points)
    given: NDArray[Any] = keys[np.minimum(np.searchsorted(keys, wanted), len(keys) - 1)] == wanted
    return given


def are_in(points: NDArray[Any], region: NDArray[Any]) -> NDArray[Any]:
    """Which points a region has, given as x and y from, x and y to."""
    x, y = points[:, 0], points[:, 1]
    x0, y0, x1, y1 = region.tolist()
    given: NDArray[Any] = (x >= x0) & (x <= x1) & (y >= y0) & (y <= y1)
    return given


class Disks:
    """The closed disks of some faces, corners of shape (3, f), and what constraints hide of
    them."""

    def __init__(
        self,
        points: NDArray[Any],
        corners: NDArray[Any],
        is_constraint: NDArray[Any],
        segments: NDArray[Any],
    ):
        self.points, self.rows, found = points, corners, disks(points, corners)
        self.is_constraint = is_constraint
        self.centers, self.radii = found[:, :2], found[:, 3]
        self.axes = np.ascontiguousarray(self.centers.T)
        # So that no box which a disk reaches is passed over.
        self.reaches_2 = self.radii * self.radii * (1 + 1e-12)
        self.hiders = np.zeros((0, len(found), 4), np.int64)
        if len(segments):
            wide = self.radii[:, None]
            boxes = np.hstack([self.centers - wide, self.centers + wide])
            self.hiders = hiders_of(segments, self.corners, boxes)
        # Those of which something may be hidden.
        self.is_cut = is_constraint.any(0)
        if len(self.hiders):
            self.is_cut |= self.hiders.any((0, 2))

    def __len__(self) -> int:
        return len(self.radii)

    @cached_property
    def corners(self) -> NDArray[Any]:
        """The corners of their faces, of shape (3, f, 2)."""
        given: NDArray[Any] = self.points[self.rows]
        return given

    def ranks(self, rows: NDArray[Any], bounds: NDArray[Any]) -> NDArray[Any]:
        """For some of them and each box: below 0 where something of the box may be in the disk and
        not be hidden, and lower the nearer it is to the centre."""
        ranks = self.distances(rows[:, None], bounds)
        if self.is_cut[rows].any():
            row, box = np.nonzero(ranks < 0)
            all_hidden = self.hide(rows[row], bounds[box])
            ranks[row[all_hidden], box[all_hidden]] = np.inf
        return ranks

    def are_reached(self, rows: NDArray[Any], bounds: NDArray[Any]) -> NDArray[Any]:
        """For pairs of one of them and a box whether something of the box may be in the disk and
        not be hidden."""
        given: NDArray[Any] = self.distances(rows, bounds) < 0
        if self.is_cut.any():
            pairs = np.flatnonzero(given & self.is_cut[rows])
            given[pairs] = ~self.hide(rows[pairs], bounds[pairs])
        return given

    def distances(self, rows: NDArray[Any], bounds: NDArray[Any]) -> NDArray[Any]:
        """The squared distance of boxes from centres, less the squared radius: below 0 where
        something of the box may be in the disk."""
        x, y = (it.take(rows) for it in self.axes)
        dx = np.maximum(np.maximum(bounds[..., 0] - x, x - bounds[..., 2]), 0)
        dy = np.maximum(np.maximum(bounds[..., 1] - y, y - bounds[..., 3]), 0)
        given: NDArray[Any] = dx * dx + dy * dy - self.reaches_2.take(rows)
        return given

    def hide(self, rows: NDArray[Any], bounds: NDArray[Any]) -> NDArray[Any]:
        """For pairs of one of them and a box whether constraints hide all of the box: what hides
        its four corners does."""
        is_hidden = np.ones((3 + len(self.hiders), len(rows)), bool)
        for k, m in (0, 1), (2, 1), (2, 3), (0, 3):
            is_hidden &= np.stack(list(self.hidden(rows, bounds[:, k], bounds[:, m])))
        given: NDArray[Any] = is_hidden.any(0)
        return given

    def hidden(
        self, rows: NDArray[Any], x: NDArray[Any], y: NDArray[Any]
    ) -> Iterator[NDArray[Any]]:
        """For points of their disks, each of the disk of a row, which of them each side that is a
        constraint, and each segment that may hide some, hides."""
        corners = self.corners[:, rows]
        for k in range(3):
            # All of a disk that is beyond a side is seen from the face through that side.
            start, end = corners[(k + 1) % 3], corners[(k + 2) % 3]
            (ax, ay), (bx, by) = start.T, end.T
            yield self.is_constraint[k, rows] & (side(ax, ay, bx, by, x, y) < 0)
        for ends_of_hider in self.hiders[:, rows]:
            yield are_hidden(ends_of_hider, corners, x, y)

    def depths(self, rows: NDArray[Any], points: NDArray[Any]) -> Tuple[NDArray[Any], NDArray[Any]]:
        """For some of them and some points each: 1 for points inside, 0 for those on the circle, -1
        for others and those that are hidden; and how deep."""
        x, y = (points[..., k] - self.centers[rows, k, None] for k in (0, 1))
        near = np.nonzero(x * x + y * y <= self.reaches_2[rows, None])
        a, b, c = self.corners[:, rows[near[0]]]
        signs, depths = np.full(points.shape[:2], -1, np.int8), np.zeros(points.shape[:2])
        signs[near], depths[near] = circle_test(a, b, c, points[near].astype(np.int64))
        is_cut = self.is_cut[rows]
        if is_cut.any():
            row, place = np.nonzero((signs >= 0) & is_cut[:, None])
            x, y = points[row, place].astype(np.int64).T
            is_hidden = np.logical_or.reduce(list(self.hidden(rows[row], x, y)))
            signs[row[is_hidden], place[is_hidden]] = -1
        return signs, depths
