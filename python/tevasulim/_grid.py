"""The map between the user's numbers and whole ones: a grid of an origin and a scale.

A coordinate `c` becomes the whole number nearest to `(c - origin) * scale`, and a whole number `k`
stands for the float nearest to `k / scale + origin`. Both axes have one scale, so that circles stay
circles."""
from __future__ import annotations

import math
from fractions import Fraction
from typing import Any, NamedTuple, Optional, Tuple, Union

import numpy as np

from ._library import MOST
from ._numbers import coordinates, finite, in_range, index_text, number, row_of
from ._types import NDArray
from .errors import NegativeError, NotWholeError, TooLargeError

# Floats up to here are multiplied by a power of ten and divided again without loss.
SURE = 2.0**52
# How many digits after the point are tried.
DIGITS = 15
# How many times as wide as the points a grid is, so that later ones beyond them find room.
ROOM = 2.0
# What is farther out is taken to be so far: its square is still a float.
HUGE = 1e150
# No face has a height of so many steps.
WIDE = 2**31
# A sample of so many rows rules out most powers of ten.
SAMPLE = 64


class Asked(NamedTuple):
    """Points that are asked about: the nearest whole numbers, clipped to the range; how far each
    is from there, in steps, or `None` where none is; and which are out of range, or `None`."""

    steps: NDArray[np.int32]
    rest: Optional[NDArray[np.float64]]
    is_far: Optional[NDArray[np.bool_]]


class Grid(NamedTuple):
    """How many steps a unit has, and which step the origin is."""

    scale: float
    first: Tuple[float, float]
    # Points are handed out as whole numbers: they came so, or `scale=` was given.
    is_whole: bool
    parts: Optional[int] = None

    def origin(self) -> NDArray[np.float64]:
        return np.array(self.first) / self.scale

    def steps(self, floats: NDArray[np.float64]) -> NDArray[np.float64]:
        """The whole numbers nearest to floats, as floats; far ones are not in range."""
        with np.errstate(over="ignore", invalid="ignore"):
            found: NDArray[np.float64] = np.rint(floats * self.scale)
            found -= self.first
        return found

    def floats(self, steps: NDArray[Any]) -> NDArray[np.float64]:
        """What whole numbers stand for."""
        found: NDArray[np.float64] = (steps + np.array(self.first)) / self.scale
        return found

    def points(self, steps: NDArray[np.int32]) -> NDArray[Any]:
        """Points as they are handed out."""
        if not self.is_whole:
            return self.floats(steps)
        if self.parts is None and any(self.first):
            return steps + np.array(self.first).astype(np.int64)
        return steps.copy()

    def placed(self, array: NDArray[Any], exact: bool) -> Tuple[NDArray[np.int32], float]:
        """Points that are to be inserted, as whole numbers, and the largest move of one."""
        if self.parts is not None:
            return coordinates(array, self.parts), 0.0
        if self.is_whole and array.dtype.kind != "f" and not any(self.first):
            return coordinates(array, None), 0.0
        if array.dtype.kind != "f" and self.is_whole:
            return in_range(whole_numbers(array) - np.array(self.first).astype(np.int64)), 0.0
        floats = finite(array)
        steps = self.steps(floats)
        self.stop_if_far(array, steps)
        back = self.floats(steps)
        if np.array_equal(back, array):
            return steps.astype(np.int32), 0.0
        if exact or self.is_whole:
            raise off_grid(array, back, self)
        move = np.abs(back - floats)
        return steps.astype(np.int32), float(np.hypot(move[..., 0], move[..., 1]).max())

    def stop_if_far(self, array: NDArray[Any], steps: NDArray[np.float64]) -> None:
        wrong = np.flatnonzero((np.abs(steps) > MOST).ravel())
        if len(wrong):
            value, where = array.ravel()[wrong[0]], index_text(array, int(wrong[0]))
            low, high = self.floats(np.array([[-MOST] * 2, [MOST] * 2])).tolist()
            message = (
                f"the coordinate [{where}] is {value}, but the grid that the first points chose "
                f"goes from {low} to {high}: make the triangulation with bounds= around all points "
                "to come"
            )
            raise TooLargeError(message, row_of(array, int(wrong[0])))

    def asked(self, array: NDArray[Any]) -> Asked:
        """Points that are asked about. They may be off the grid, out of range or not finite."""
        factor = self.parts if self.is_whole and self.parts else 1
        if array.dtype.kind in "iu" and self.is_whole and not any(self.first):
            small = MOST // factor
            if not array.size or -small <= int(array.min()) <= int(array.max()) <= small:
                return Asked(array.astype(np.int32) * np.int32(factor), None, None)
        floats = array.astype(np.float64)
        with np.errstate(over="ignore", invalid="ignore"):
            scaled = floats * self.scale
            nearest = np.rint(scaled)
            rest = np.where(nearest / self.scale == floats, 0.0, scaled - nearest)
            steps = nearest - self.first
            is_far = ~(np.abs(steps) <= MOST)
            if is_far.any():
                # What is not finite is nowhere; the rest is measured from the border.
                clipped = np.clip(np.nan_to_num(steps), -MOST, MOST)
                beyond = np.clip(np.nan_to_num(scaled - self.first - clipped), -HUGE, HUGE)
                rest = np.where(is_far, beyond, rest)
                return Asked(clipped.astype(np.int32), rest, is_far.any(-1))
        return Asked(steps.astype(np.int32), rest if rest.any() else None, None)

    def width_2(self, radius: Any) -> int:
        """The squared diameter of a disc in square steps, rounded up to a whole number where it is
        none."""
        value = number(radius, "the radius")
        if value < 0:
            raise NegativeError(f"the radius is {value}, but must not be negative")
        width = 2 * min(value, HUGE)
        if width * self.scale >= WIDE:
            return WIDE**2
        # A width of 0.3 is three steps of a tenth, although neither is such a float.
        nearest = round(width * self.scale)
        is_nearest = nearest / self.scale == width
        steps = Fraction(nearest) if is_nearest else Fraction(width) * Fraction(self.scale)
        return math.ceil(steps * steps)

    def squared(self, radius_2: Any) -> float:
        """A squared radius in square steps."""
        value = number(radius_2, "the squared radius")
        if value < 0:
            raise NegativeError(f"the squared radius is {value}, but must not be negative")
        if isinstance(value, int) and float(self.scale).is_integer():
            return value * int(self.scale) ** 2
        return float(value) * self.scale * self.scale


def whole_numbers(array: NDArray[Any]) -> NDArray[np.int64]:
    """Whole numbers of any type as `int64`; each is to be from -2**53 to 2**53."""
    wrong = np.flatnonzero(((array < -(2**53)) | (array > 2**53)).ravel())
    if len(wrong):
        value, where = array.ravel()[wrong[0]], index_text(array, int(wrong[0]))
        message = (
            f"the coordinate [{where}] is {value}, but whole numbers go from -2**53 to 2**53 here: "
            "subtract an offset from all points, or make them floats"
        )
        raise TooLargeError(message, row_of(array, int(wrong[0])))
    return array.astype(np.int64)


def off_grid(array: NDArray[Any], back: NDArray[np.float64], grid: Grid) -> NotWholeError:
    """The exception for the first point that is not on a grid."""
    wrong = int(np.flatnonzero((back != array).ravel())[0])
    value, where = array.ravel()[wrong], index_text(array, wrong)
    if grid.is_whole:
        message = (
            f"the coordinate [{where}] is {value}, but the points before it are whole numbers: "
            "make the triangulation with floats, or with scale="
        )
    else:
        message = (
            f"the coordinate [{where}] is {value} and would be rounded to {back.ravel()[wrong]}, "
            "which exact=True refuses: round the points first, or leave exact out"
        )
    return NotWholeError(message, row_of(array, wrong))


WHOLE = Grid(1, (0.0, 0.0), True)


def checked_bounds(bounds: Any) -> Optional[NDArray[np.float64]]:
    """Bounds as rows of the least and the largest x and y, or none."""
    if bounds is None:
        return None
    array = np.asarray(bounds, np.float64)
    if array.shape not in ((4,), (2, 2)):
        raise ValueError(f"bounds have the shape {array.shape}, but are x and y from, x and y to")
    array = array.reshape(2, 2)
    if not np.isfinite(array).all() or (array[0] > array[1]).any():
        raise ValueError(
            f"bounds are {array.tolist()}, but have to be finite, with the least x and y first"
        )
    return array


def chosen(
    array: NDArray[Any], scale: Optional[int], bounds: Optional[NDArray[np.float64]]
) -> Grid:
    """The grid for points: that of `scale`; whole numbers where they are; else the finest power of
    ten that has all of them, or the power of two that uses the range."""
    if scale is not None:
        return Grid(scale, (0.0, 0.0), True, scale)
    if array.dtype.kind != "f":
        return grid_of_wholes(array, bounds)
    floats = finite(array)
    low, high = ends_of(floats)
    is_one = bounds is None and bool((low == high).all())
    if bounds is not None:
        low, high = np.minimum(low, bounds[0]), np.maximum(high, bounds[1])
    middle = low / 2 + high / 2
    half = float(np.max(high / 2 - low / 2))
    # Around a single position there is room for others as large.
    wide = max(1.0, float(np.abs(middle).max())) if is_one else half
    room = wide if bounds is not None else min(ROOM * wide, 2.0**1022)
    decimals = digits_of(floats, max(half, 1e-300))
    if decimals is not None:
        while decimals < DIGITS and fits(floats, room, decimals + 1):
            decimals += 1
        factor: float = 10**decimals
    else:
        factor = power_of_two(room)
    return Grid(factor, tuple(np.rint(middle * factor).tolist()), False)  # type: ignore[arg-type]


def ends_of(array: NDArray[Any]) -> Tuple[NDArray[Any], NDArray[Any]]:
    """The least and the largest x and y of points. One column after the other is faster."""
    columns = array[:, 0], array[:, 1]
    return np.array([it.min() for it in columns]), np.array([it.max() for it in columns])


def power_of_two(room: float) -> float:
    """The largest power of two that keeps so much room on each side in range."""
    power = 29 - int(np.frexp(max(room, 5e-324))[1])
    return float(np.ldexp(1.0, int(np.clip(power, -1022, 1023))))


def fits(floats: NDArray[np.float64], room: float, decimals: int) -> bool:
    """Whether points with so much room around keep in range with so many digits."""
    most = max(-float(floats.min()), float(floats.max()))
    return bool(room * 10.0**decimals < MOST - 1 and most * 10.0**decimals < SURE)


def digits_of(floats: NDArray[np.float64], half: float) -> Optional[int]:
    """How many digits after the point all of some floats have as decimals, where so many are in
    range."""
    # What sums of decimals lose, but no more than a power of two would round.
    lost = min(float(np.abs(floats).max()) * 2.0**-50, half * 2.0**-31)
    part, decimals = floats[:SAMPLE], 0
    while fits(floats, half, decimals) and decimals <= DIGITS:
        if are_decimals(part, decimals, lost):
            if part is floats or are_decimals(floats, decimals, lost):
                return decimals
            part = floats
        decimals += 1
    return None


def are_decimals(floats: NDArray[np.float64], decimals: int, lost: float) -> bool:
    """Whether floats are decimals of so many digits, but for what is lost."""
    factor = 10.0**decimals
    off = np.rint(floats * factor) / factor - floats
    return bool(max(-off.min(), off.max()) <= lost)


def grid_of_wholes(array: NDArray[Any], bounds: Optional[NDArray[np.float64]]) -> Grid:
    """Whole numbers stay as they are; where they are out of range, the origin moves."""
    ends = [int(it) for end in ends_of(array) for it in end]
    if bounds is not None:
        ends += [int(it) for it in bounds.ravel()]
    low = [min(ends[k::2]) for k in (0, 1)]
    high = [max(ends[k::2]) for k in (0, 1)]
    is_near, most = min(low) >= -MOST and max(high) <= MOST, max(-min(ends), max(ends))
    is_wide = max(high[k] - low[k] for k in (0, 1)) > 2 * MOST
    if is_near or is_wide or most > 2**53:
        return WHOLE
    middle = [(low[k] + high[k]) // 2 for k in (0, 1)]
    return Grid(1, (float(middle[0]), float(middle[1])), True)
