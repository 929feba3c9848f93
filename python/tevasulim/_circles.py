"""Circles of many faces at once. What decides is exact: by floats where their error cannot matter,
by Python's whole numbers elsewhere. What only narrows a search errs on the safe side."""
from __future__ import annotations

from typing import Any, Callable, List, NamedTuple, Tuple

import numpy as np

from ._types import NDArray

# Of floats of this size or below, whole numbers are exact.
EXACT = 2.0**53
# A rounded determinant is off by less than this part of the sum of its products' sizes: ten
# roundings and some, of 2**-53 each.
ERROR = 2e-15


def determinant(columns: List[Any]) -> NDArray[Any]:
    """The circle test of differences to the fourth point: floats, or whole numbers of Python."""
    ax, ay, bx, by, cx, cy = columns
    given: NDArray[Any] = (
        (ax * ax + ay * ay) * (bx * cy - by * cx)
        + (bx * bx + by * by) * (cx * ay - cy * ax)
        + (cx * cx + cy * cy) * (ax * by - ay * bx)
    )
    return given


def size_of(columns: List[Any]) -> NDArray[Any]:
    """The same with each product's absolute value."""
    ax, ay, bx, by, cx, cy = map(np.abs, columns)
    given: NDArray[Any] = (
        (ax * ax + ay * ay) * (bx * cy + by * cx)
        + (bx * bx + by * by) * (cx * ay + cy * ax)
        + (cx * cx + cy * cy) * (ax * by + ay * bx)
    )
    return given


def circle_test(
    a: NDArray[Any], b: NDArray[Any], c: NDArray[Any], d: NDArray[Any]
) -> Tuple[NDArray[Any], NDArray[Any]]:
    """Of triples a, b, c that turn left and points d, rows of int64: 1 where d is inside of the
    circle, 0 where it is on it, -1 where it is outside; and about how deep, to order by."""
    a, b, c, d = np.broadcast_arrays(a, b, c, d)
    whole = [(p - d)[..., k] for p in (a, b, c) for k in (0, 1)]
    floats = [it.astype(np.float64) for it in whole]
    depth, size = determinant(floats), size_of(floats)
    sign = np.sign(depth).astype(np.int8)
    open_ones = np.nonzero((size >= EXACT) & (np.abs(depth) <= ERROR * size))
    if len(open_ones[0]):
        exact = determinant([it[open_ones].astype(object) for it in whole])
        sign[open_ones] = [(it > 0) - (it < 0) for it in exact]
    return sign, depth


# How many faces are looked at together, so that what they need stays in a processor's cache.
TOGETHER = 1 << 14


def disks(points: NDArray[Any], corners: NDArray[Any]) -> NDArray[Any]:
    """The circles of faces that turn left, as floats: rows of the centre's x and y, the radius, and
    the radius of a disk with this centre that surely holds that of the face. The difference of both
    radii is more than a coordinate of the centre can be off.

    Points are rows of int64, corners of shape (3, f)."""
    found = np.empty((corners.shape[1], 4))
    x, y = points[:, 0], points[:, 1]
    for begin in range(0, len(found), TOGETHER):
        some = slice(begin, begin + TOGETHER)
        found[some] = circles(*(axis[corners[k, some]] for k in range(3) for axis in (x, y))).T
    return found


def circles(
    ax: NDArray[Any],
    ay: NDArray[Any],
    bx: NDArray[Any],
    by: NDArray[Any],
    cx: NDArray[Any],
    cy: NDArray[Any],
) -> NDArray[Any]:
    """The same for corners as columns of int64, with the results as columns."""
    ux, uy, vx, vy = bx - ax, by - ay, cx - ax, cy - ay
    twice = (ux * vy - uy * vx).astype(np.float64) * 2
    wx, wy = ux - vx, uy - vy
    uu, vv = (ux * ux + uy * uy).astype(np.float64), (vx * vx + vy * vy).astype(np.float64)
    across = (wx * wx + wy * wy).astype(np.float64)
    x, y = (vy * uu - uy * vv) / twice, (ux * vv - vx * uu) / twice
    # The products above are exact but for three roundings, and the radius is |u| |v| |u - v| / 2
    # area: so each coordinate of the centre is off by less than 4e-16 (|u| + |v|) / |u - v| of the
    # radius.
    sides = (np.sqrt(uu) + np.sqrt(vv)) / np.sqrt(across)
    radii = np.sqrt(x * x + y * y)
    wide = radii * (1 + 4e-15 * (sides + 1)) + 1e-6
    return np.stack([ax + x, ay + y, radii, wide])


# Primes below 2**31. Their product times 2**64 is above 2**126, and what `are_zero` is asked about
# is below 2**124 in absolute value: so it is 0 exactly where it leaves 0 by all three.
PRIMES = 2**31 - 1, 2**31 - 19
# A whole number that leaves 0 by 2**64 and is nearer to 0 than that is 0.
WRAPS = 2.0**63


def are_zero(a: NDArray[Any], b: NDArray[Any], c: NDArray[Any], d: NDArray[Any]) -> NDArray[Any]:
    """Where a b + c d is exactly 0, of columns of int64 of at most 2^61."""
    # A product that passes 64 bits keeps what it leaves by 2^64.
    are_0: NDArray[Any] = a * b + c * d == 0
    rows = np.flatnonzero(are_0)
    largest = [max(int(it.max(initial=0)), -int(it.min(initial=0))) for it in (a, b, c, d)]
    if largest[0] * largest[1] + largest[2] * largest[3] < WRAPS or not len(rows):
        return are_0
    a, b, c, d = (it.take(rows) for it in (a, b, c, d))
    ab, cd = a.astype(np.float64) * b, c.astype(np.float64) * d
    sums, errors = np.abs(ab + cd), ERROR * (np.abs(ab) + np.abs(cd))
    are_0[rows] = sums <= errors
    some = np.flatnonzero((sums <= errors) & (sums + errors >= WRAPS))
    for prime in PRIMES if len(some) else ():
        a_b, c_d = ((x[some] % prime) * (y[some] % prime) % prime for x, y in ((a, b), (c, d)))
        are_0[rows[some]] &= (a_b + c_d) % prime == 0
    return are_0


class Faces(NamedTuple):
    """All faces of a triangulation: its points, rows of int64; and corners, the face opposite each
    corner and whether the side there is a constraint, each of shape (3, f)."""

    points: NDArray[Any]
    corners: NDArray[Any]
    neighbors: NDArray[Any]
    is_constraint: NDArray[Any]


class Angles(NamedTuple):
    """Of faces that turn left: for each corner the scalar product of the vectors to the two others,
    of shape (3, f); the sum of these three; and twice the area: each by what it leaves by 2^32. The
    cotangent of the angle at a corner is its scalar product by twice the area."""

    products: NDArray[Any]
    sums: NDArray[Any]
    areas: NDArray[Any]


def angles_in(points: NDArray[Any], corners: NDArray[Any]) -> Angles:
    count = corners.shape[1]
    found = Angles(np.empty((3, count), np.int32), *np.empty((2, count), np.int32))
    x, y = (it.astype(np.int32) for it in points.T)
    for begin in range(0, count, TOGETHER):
        some = slice(begin, begin + TOGETHER)
        a, b, c = corners[:, some].astype(np.intp)
        ax, ay = x.take(a), y.take(a)
        ux, uy, vx, vy = x.take(b) - ax, y.take(b) - ay, x.take(c) - ax, y.take(c) - ay
        at_a = ux * vx + uy * vy
        at_b, at_c = ux * ux + uy * uy - at_a, vx * vx + vy * vy - at_a
        for column, values in zip(found.products, (at_a, at_b, at_c)):
            column[some] = values
        found.sums[some] = at_a + at_b + at_c
        found.areas[some] = ux * vy - uy * vx
    return found


class Pairs(NamedTuple):
    """Pairs of faces with a side between them that is no constraint and with the same circle: the
    first of both and the other, and the place of the corner opposite that side in each."""

    faces: NDArray[Any]
    others: NDArray[Any]
    places: NDArray[Any]
    backs: NDArray[Any]


def joined(faces_of: Faces) -> Pairs:
    """All such pairs, each once."""
    angles = angles_in(faces_of.points, faces_of.corners)
    found = [(np.empty(0, np.intp), np.empty(0, np.intp), np.empty(0, np.intp))]
    for begin in range(0, faces_of.corners.shape[1], TOGETHER):
        for k in range(3):
            faces, others = maybe_pairs(faces_of, angles, begin, k)
            if len(faces):
                found.append((faces, others, np.full(len(faces), k)))
    faces, others, places = (np.concatenate(it) for it in zip(*found))
    second, third = (it.take(others) == faces for it in faces_of.neighbors[1:])
    pairs = Pairs(faces, others, places, second + 2 * third)
    is_on, axes = np.zeros(len(faces), bool), np.ascontiguousarray(faces_of.points.T)
    for begin in range(0, len(faces), TOGETHER):
        some = slice(begin, begin + TOGETHER)
        is_on[some] = are_on_circle(faces_of, axes, Pairs(*(it[some] for it in pairs)))
    return Pairs(*(it.compress(is_on) for it in pairs))


def maybe_pairs(
    faces_of: Faces, angles: Angles, begin: int, k: int
) -> Tuple[NDArray[Any], NDArray[Any]]:
    """Some faces from `begin` on, and those opposite the corner k of each, where both may have the
    same circle, as is known by what is left by 2^32: the angles opposite their side are 180 degrees
    together, so that the cotangents add up to 0."""
    some = slice(begin, begin + TOGETHER)
    others = faces_of.neighbors[k, some].astype(np.intp)
    here = angles.products[k, some]
    # The scalar product at the far corner is the sum there less the squared length of the side.
    there = angles.sums.take(others, mode="wrap") - (angles.sums[some] - here)
    sums = here * angles.areas.take(others, mode="wrap") + there * angles.areas[some]
    rows = np.flatnonzero(sums == 0)
    others = others.take(rows)
    is_first = (others > rows + begin) & ~faces_of.is_constraint[k, some].take(rows)
    return rows.compress(is_first) + begin, others.compress(is_first)


def are_on_circle(faces_of: Faces, axes: NDArray[Any], pairs: Pairs) -> NDArray[Any]:
    """Which pairs have the same circle, by x and y of all points."""
    apex, start, end = turned(faces_of.corners, pairs.faces, pairs.places)
    (far,) = turned(faces_of.corners, pairs.others, pairs.backs, 1)
    words = []
    for at, first, second in (apex, start, end), (far, end, start):
        x, y = (axis.take(at) for axis in axes)
        ux, uy, vx, vy = (axis.take(it) for it in (first, second) for axis in axes)
        ux, uy, vx, vy = ux - x, uy - y, vx - x, vy - y
        words += [ux * vx + uy * vy, ux * vy - uy * vx]
    here, area, there, area_there = words
    return are_zero(here, area_there, there, area)


def turned(
    corners: NDArray[Any], faces: NDArray[Any], places: NDArray[Any], count: int = 3
) -> List[NDArray[Any]]:
    """So many corners of some faces from the one at a place on, as columns."""
    flat, begins = corners.ravel(), np.arange(3) * corners.shape[1]
    return [
        flat.take(np.roll(begins, -k).take(places) + faces).astype(np.intp) for k in range(count)
    ]


def from_least_pairs(corners: NDArray[Any], keys: NDArray[Any], pairs: Pairs) -> NDArray[Any]:
    """The corners of all faces, where each pair is cut from its corner with the least key."""
    apex, start, end = turned(corners, pairs.faces, pairs.places)
    (far,) = turned(corners, pairs.others, pairs.backs, 1)
    across = np.minimum(keys.take(apex), keys.take(far))
    is_other = np.flatnonzero(across < np.minimum(keys.take(start), keys.take(end)))
    apex, start, end, far = (it.take(is_other) for it in (apex, start, end, far))
    given, faces, others = corners.copy(), pairs.faces.take(is_other), pairs.others.take(is_other)
    for column, here, there in zip(given, (apex, start, far), (far, end, apex)):
        column[faces], column[others] = here, there
    return given


def spread_over(
    values: NDArray[Any], join: Callable[[Any, Any], Any], pairs: Pairs
) -> NDArray[Any]:
    """For each face what a function, as the least of two, makes of its value and those of all faces
    that it is joined with, over others too."""
    found, steps = values.copy(), []
    for k in range(3):
        # A face stands in each list once.
        here, back = pairs.places == k, pairs.backs == k
        steps.append((pairs.faces[here], pairs.others[here]))
        steps.append((pairs.others[back], pairs.faces[back]))
    while len(pairs.faces):
        before = found.copy()
        for faces, others in steps:
            found[faces] = join(found.take(faces), found.take(others))
        # A face with this value knows one that has it.
        if np.array_equal(found, before):
            break
    return found


class Wanted(NamedTuple):
    """Which cells are wanted, by their points: those whose least point is of some, and that have a
    corner, or have none, of others. Each array says it of each point."""

    is_least: NDArray[Any]
    is_corner: NDArray[Any]
    has_corner: bool

    def rows(self, corners: List[Any]) -> NDArray[Any]:
        """Those of cells, their corners from the least on as columns, as rows of three."""
        is_wanted = self.is_least.take(corners[0])
        if self.has_corner or self.is_corner.any():
            a, b, c = (self.is_corner.take(it) for it in corners)
            is_wanted &= (a | b | c) == self.has_corner
        some = np.flatnonzero(is_wanted)
        rows = np.empty((len(some), 3), corners[0].dtype)
        for column, corner in enumerate(corners):
            rows[:, column] = corner.take(some)
        return rows


def from_least(corners: NDArray[Any], keys: NDArray[Any]) -> List[NDArray[Any]]:
    """The corners of faces, each from the one with the least key on, as three columns."""
    count = corners.shape[1]
    twice = np.concatenate([corners, corners[:2]]).astype(np.intp)
    of_a, of_b, of_c = (keys.take(it) for it in twice[:3])
    places = (of_b < np.minimum(of_a, of_c)).astype(np.intp)
    places += 2 * (of_c < np.minimum(of_a, of_b))
    places *= count
    places += np.arange(count)
    return [twice[k:].ravel().take(places) for k in range(3)]


def least_of(corners: NDArray[Any], keys: NDArray[Any]) -> NDArray[Any]:
    """The corner of each face that has the least key."""
    a, b, c = corners.astype(np.intp)
    of_a, of_b, of_c = keys.take(a), keys.take(b), keys.take(c)
    first = np.where(of_b < of_a, b, a)
    given: NDArray[Any] = np.where(of_c < np.minimum(of_a, of_b), c, first)
    return given


def polygons(
    corners: NDArray[Any], keys: NDArray[Any], pairs: Pairs, is_joined: NDArray[Any], wanted: Wanted
) -> NDArray[Any]:
    """The polygons that joined faces make, each cut from its point with the least key."""
    some = np.flatnonzero(is_joined.any(0))
    first = np.zeros(corners.shape[1], np.intp)
    first[some] = least_of(corners.take(some, axis=1), keys)
    lesser = lambda a, b: a + (b - a) * (keys.take(b) < keys.take(a))  # noqa: E731
    first = spread_over(first, lesser, pairs)
    some = some.compress(wanted.is_least.take(first.take(some)))
    apex, rows = first.take(some), []
    of_all = [it.take(some).astype(np.intp) for it in corners]
    for k in range(3):
        start, end = of_all[(k + 1) % 3], of_all[(k + 2) % 3]
        is_side = np.flatnonzero(~is_joined[k].take(some) & (start != apex) & (end != apex))
        rows.append(wanted.rows([it.take(is_side) for it in (apex, start, end)]))
    return np.concatenate(rows)


def cells(faces_of: Faces, wanted: Wanted) -> NDArray[Any]:
    """The faces of a constrained Delaunay triangulation that are wanted, but each polygon of points
    on one circle that no constraint cuts is cut from its least point, by x and then y: rows of
    three, counterclockwise from that on."""
    points, corners = faces_of[:2]
    keys = (points[:, 0] << 32) + points[:, 1]
    pairs = joined(faces_of)
    count = corners.shape[1]
    joins = np.bincount(pairs.faces, minlength=count) + np.bincount(pairs.others, minlength=count)
    is_alone = (joins.take(pairs.faces) == 1) & (joins.take(pairs.others) == 1)
    corners = from_least_pairs(corners, keys, Pairs(*(it.compress(is_alone) for it in pairs)))
    pairs = Pairs(*(it.compress(~is_alone) for it in pairs))
    is_joined = np.zeros(corners.shape, bool)
    is_joined[pairs.places, pairs.faces] = is_joined[pairs.backs, pairs.others] = True
    rows = [np.empty((0, 3), np.intp)]
    for begin in range(0, count, TOGETHER):
        some = corners[:, begin : begin + TOGETHER]
        if len(pairs.faces):
            some = some.compress(~is_joined[:, begin : begin + TOGETHER].any(0), axis=1)
        rows.append(wanted.rows(from_least(some, keys)))
    if len(pairs.faces):
        rows.append(polygons(corners, keys, pairs, is_joined, wanted))
    return np.concatenate(rows)
