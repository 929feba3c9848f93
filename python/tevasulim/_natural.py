"""Natural neighbours: how much each vertex near a point loses of its Voronoi cell to the point's
own, if that were a vertex too. These areas are Sibson's weights."""
from __future__ import annotations

from typing import Any, NamedTuple, Tuple

import numpy as np

from ._circles import ERROR, determinant, size_of
from ._types import NDArray

# Arrays of indexes, points and faces; of 32 bits or 64.
Ints = NDArray[Any]
Floats = NDArray[np.float64]


class Weights(NamedTuple):
    """Weights of vertices, by rows of the points that they are for; those of one point have the sum
    1. `is_sure` says which points have weights: a vertex has none, nor has a point
    on the hull, nor where rounding hides which faces a point changes."""

    rows: Ints
    vertices: Ints
    weights: Floats
    is_sure: NDArray[np.bool_]


def vectors(
    points: Ints, simplices: Ints, steps: Ints, rest: Floats, pairs: Ints, at: Ints
) -> Floats:
    """The corners of faces `at` as seen from the points `pairs`: of shape (m, 3, 2)."""
    corners = points[simplices[at]] - steps[pairs][:, None]
    found: Floats = corners - rest[pairs][:, None]
    return found


def changed(
    points: Ints, simplices: Ints, neighbors: Ints, steps: Ints, rest: Floats, faces: Ints
) -> Ints:
    """Each face whose circle has a point inside of it, as row * number of faces + face, in order.
    They are found from the faces that have the points on, which are among them, over their
    sides."""
    count = len(simplices)
    wave = np.arange(len(steps)) * count + faces
    found, before = [wave], wave
    while len(wave):
        rows, at = np.divmod(wave, count)
        near = neighbors[at].astype(np.int64)
        keys = (rows * count)[:, None] + near
        # A face beside one of this wave is in it, or in the wave before or after it.
        keys = np.setdiff1d(keys[near >= 0], before)
        seen = vectors(points, simplices, steps, rest, *np.divmod(keys, count))
        columns = [seen[:, k, axis] for k in range(3) for axis in (0, 1)]
        before = np.union1d(wave, keys)
        wave = keys[determinant(columns) > ERROR * size_of(columns)]
        found.append(wave)
    given: Ints = np.unique(np.concatenate(found))
    return given


def center(u: Floats, v: Floats) -> Floats:
    """The centre of the circle through 0 and two points."""
    uu, vv = (u * u).sum(-1), (v * v).sum(-1)
    twice = 2 * cross(u, v)
    found: Floats = np.stack([v[..., 1] * uu - u[..., 1] * vv, u[..., 0] * vv - v[..., 0] * uu], -1)
    return found / twice[..., None]


def cross(u: Floats, v: Floats) -> Floats:
    found: Floats = u[..., 0] * v[..., 1] - u[..., 1] * v[..., 0]
    return found


def ends_of_ridges(seen: Floats, near: Ints, keys: Ints) -> Tuple[Floats, Floats, Ints]:
    """Of changed faces the centres; for each side a point of the ridge across it that is lost,
    where the face beyond is changed too, and else where the new cell begins; and which sides are
    such borders."""
    middle = seen[:, 0] + center(seen[:, 1] - seen[:, 0], seen[:, 2] - seen[:, 0])
    across = np.empty(seen.shape)
    place = np.searchsorted(keys, near)
    place[place == len(keys)] = 0
    is_border = (near < 0) | (keys[place] != near)
    for k in range(3):
        new = center(seen[:, (k + 1) % 3], seen[:, (k + 2) % 3])
        both = (middle + middle[place[:, k]]) / 2
        across[:, k] = np.where(is_border[:, k, None], new, both)
    return middle, across, is_border


def lost(seen: Floats, near: Ints, keys: Ints, corners: Ints) -> Tuple[Ints, Floats, Ints]:
    """Which corners of changed faces lose areas, as keys of a point and a vertex, and what they
    lose; and the keys of corners where the border of a point's faces is not one way around."""
    middle, across, is_border = ends_of_ridges(seen, near, keys)
    parts = [
        cross(across[:, (k + 2) % 3], middle) + cross(middle, across[:, (k + 1) % 3])
        for k in range(3)
    ]
    # At each corner of the border a side begins and one ends: between both is the new cell's.
    begins, ends = np.roll(corners, -1, 1)[is_border], np.roll(corners, -2, 1)[is_border]
    first, last = np.argsort(begins), np.argsort(ends)
    parts.append(cross(across[is_border][last], across[is_border][first]))
    keys, place = np.unique(np.concatenate([corners.T.ravel(), begins[first]]), return_inverse=True)
    areas: Any = np.bincount(place.ravel(), np.concatenate(parts), len(keys))
    broken: Ints = begins[first][begins[first] != ends[last]]
    return keys, areas, broken


def natural(
    points: Ints, simplices: Ints, neighbors: Ints, steps: Ints, rest: Floats, faces: Ints
) -> Weights:
    """The weights of points, each a whole one and a rest, that are in these faces."""
    count, size = len(simplices), len(points)
    keys = changed(points, simplices, neighbors, steps, rest, faces)
    rows, at = np.divmod(keys, count)
    near = neighbors[at].astype(np.int64)
    near = np.where(near < 0, -1, rows[:, None] * count + near)
    # Of a vertex, and on the hull, a centre is nowhere.
    with np.errstate(all="ignore"):
        seen = vectors(points, simplices, steps, rest, rows, at)
        of_both, areas, broken = lost(seen, near, keys, rows[:, None] * size + simplices[at])
        row, vertices = np.divmod(of_both, size)
        weights = areas / np.bincount(row, areas, len(steps))[row]
    is_sure = np.ones(len(steps), bool)
    is_sure[row[~(weights >= -1e-9)]] = False
    is_sure[broken // size] = False
    kept = is_sure[row]
    return Weights(row[kept], vertices[kept], weights[kept], is_sure)
