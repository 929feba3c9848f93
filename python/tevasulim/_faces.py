"""What follows from the corners and neighbours of all faces."""
from __future__ import annotations

from typing import Tuple

import numpy as np

from ._types import NDArray

Ints = NDArray[np.int32]


def vertex_faces(simplices: Ints, count: int) -> Ints:
    """For each of so many points a face with that corner, or -1."""
    faces = np.full(count, -1, np.int32)
    faces[simplices.ravel()] = np.repeat(np.arange(len(simplices), dtype=np.int32), 3)
    return faces


def vertex_neighbors(edges: Ints, count: int) -> Tuple[Ints, Ints]:
    """For each of so many points where its neighbours begin in the second list, and where the last
    one's end."""
    starts, ends = edges.T.ravel(), edges[:, ::-1].T.ravel()
    begins = np.zeros(count + 1, np.int32)
    np.cumsum(np.bincount(starts, minlength=count), out=begins[1:])
    return begins, ends[np.argsort(starts, kind="stable")]


def keys_of(start: Ints, end: Ints) -> NDArray[np.int64]:
    """A number for each pair of points, in either order."""
    low, high = np.minimum(start, end).astype(np.int64), np.maximum(start, end)
    given: NDArray[np.int64] = (low << 32) + high
    return given


def faces_of_edges(simplices: Ints, edges: Ints) -> Ints:
    """For each edge a face beside it, or -1."""
    wanted, places = np.unique(keys_of(edges[:, 0], edges[:, 1]), return_inverse=True)
    faces = np.full(len(wanted), -1, np.int32)
    for k in range(3):
        keys = keys_of(simplices[:, k], simplices[:, (k + 1) % 3])
        found = np.minimum(np.searchsorted(wanted, keys), len(wanted) - 1)
        is_there = wanted[found] == keys
        faces[found[is_there]] = np.flatnonzero(is_there)
    return faces[places]


def outline(simplices: Ints, neighbors: Ints) -> Ints:
    """The sides with nothing beyond, as pairs of points, each with the faces on its left, and each
    beginning where the one before it ends."""
    faces, corners = np.nonzero(neighbors < 0)
    starts = simplices[faces, (corners + 1) % 3]
    ends = simplices[faces, (corners + 2) % 3]
    if not len(starts):
        return np.empty((0, 2), np.int32)
    following = dict(zip(starts.tolist(), ends.tolist()))
    at = min(following)
    walk = []
    for _ in range(len(following)):
        walk.append((at, following[at]))
        at = following[at]
    return np.array(walk, np.int32)
