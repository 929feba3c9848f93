"""What users hand in, as arrays of numbers. Nothing wraps, and no mask is passed over."""
from __future__ import annotations

import operator
from typing import Any, Optional

import numpy as np

from ._library import MOST
from ._types import NDArray
from .errors import NotFiniteError, NotWholeError, TooLargeError

# Each whole number up to this is a float.
FLOAT_MOST = 2**53


def unmasked(array: Any, name: str) -> NDArray[Any]:
    """An array of what was handed in. A masked element is refused, since no mask is kept."""
    if isinstance(array, np.ma.MaskedArray):
        hidden = np.flatnonzero(np.broadcast_to(array.mask, array.shape).ravel())
        if len(hidden):
            where = index_text(array, int(hidden[0]))
            raise ValueError(f"{name} [{where}] is masked: leave out rows with masked numbers")
        return np.asarray(array.data)
    return np.asarray(array)


def checked_scale(scale: Any) -> Optional[int]:
    """A scale, which is a whole number from 1 on, or none."""
    if scale is None:
        return None
    if isinstance(scale, (bool, np.bool_)):
        raise TypeError("scale is a bool, but has to be a whole number")
    number = operator.index(scale)
    if not 1 <= number <= MOST:
        raise ValueError(f"scale is {number}, but has to be from 1 to 2**29")
    return number


def index_text(array: NDArray[Any], place: int) -> str:
    """The index of the element that stands at a place of a flattened array, as Python writes it."""
    return ", ".join(map(str, np.unravel_index(place, array.shape)))


def row_of(array: NDArray[Any], place: int) -> int:
    """The row of the point at a place of a flattened array of points."""
    return int(place) // max(array.shape[-1], 1)


def whole(array: NDArray[Any], scale: int) -> NDArray[np.float64]:
    """The whole numbers `k` for which the floats of an array are those nearest to `k / scale`."""
    floats = array.astype(np.float64)
    with np.errstate(all="ignore"):
        wholes = np.rint(floats * scale)
        is_whole = (wholes / scale == floats) & (np.abs(wholes) <= FLOAT_MOST) & (floats == array)
    wrong = np.flatnonzero(~is_whole.ravel())
    if len(wrong):
        value, where = array.ravel()[wrong[0]], index_text(array, wrong[0])
        if np.isfinite(value) and abs(float(value)) * scale > MOST:
            raise too_large(where, value, scale, row_of(array, wrong[0]))
        message = (
            f"the coordinate [{where}] is {value}, which is no multiple of 1/{scale}: take a "
            "larger scale, or round the points first"
        )
        raise NotWholeError(message, row_of(array, wrong[0]))
    given: NDArray[np.float64] = wholes
    return given


def too_large(where: str, value: Any, scale: int, row: int) -> TooLargeError:
    """The exception for a coordinate that is out of range, at so many parts a unit."""
    most, hint = "2**29", "subtract an offset from all points, or divide them"
    if scale > 1:
        most, hint = f"2**29 / {scale}", "take a smaller scale, or subtract an offset"
    message = f"the coordinate [{where}] is {value}, but has to be from -{most} to {most}: {hint}"
    return TooLargeError(message, row)


def in_range(array: NDArray[Any], scale: int = 1) -> NDArray[np.int32]:
    """The same whole numbers, which have so many parts a unit, as `int32`; each is to be from
    -2**29 to 2**29."""
    wrong = np.flatnonzero(((array < -MOST) | (array > MOST)).ravel())
    if len(wrong):
        value, where = array.ravel()[wrong[0]], index_text(array, wrong[0])
        value = value // scale if scale > 1 else value
        raise too_large(where, value, scale, row_of(array, wrong[0]))
    return np.ascontiguousarray(array, np.int32)


def numbers_of(points: Any) -> NDArray[Any]:
    """Points of any shape (.., 2) as whole numbers or `float64`. A list without elements is one of
    no points."""
    array = unmasked(points, "the coordinate")
    if array.shape == (0,):
        return np.empty((0, 2), np.int32)
    if array.ndim < 1 or array.shape[-1] != 2:
        raise ValueError(f"points have the shape {array.shape}, but need (.., 2): x and y each")
    if array.dtype == object and all(type(it) is int for it in array.flat):
        return array
    if array.dtype.kind == "f":
        if not isinstance(points, np.ndarray) and np.abs(array).max(initial=0) >= 2.0**63:
            # numpy makes floats of some whole numbers that are as large.
            objects = np.asarray(points, object)
            if all(type(it) is int for it in objects.flat):
                return objects
        return array if array.dtype == np.longdouble else array.astype(np.float64, copy=False)
    if array.dtype.kind not in "iu":
        raise TypeError(f"coordinates are {array.dtype}, but have to be numbers")
    return array


def finite(array: NDArray[Any]) -> NDArray[np.float64]:
    """Points as `float64`, each coordinate finite."""
    with np.errstate(over="ignore"):
        floats = array.astype(np.float64, copy=False)
    if not np.isfinite(floats).all():
        wrong = int(np.flatnonzero(~np.isfinite(floats).ravel())[0])
        message = f"the coordinate [{index_text(array, wrong)}] is {array.ravel()[wrong]}, but has "
        raise NotFiniteError(f"{message}to be finite: leave that point out", row_of(array, wrong))
    return floats


def coordinates(points: Any, scale: Optional[int]) -> NDArray[np.int32]:
    """Points of any shape (.., 2) as whole numbers, which are never rounded."""
    array = numbers_of(points)
    if array.dtype.kind == "f":
        if scale is None:
            raise NotWholeError(
                f"coordinates are {array.dtype}, but have to be whole numbers here: say with "
                "scale= how many parts a unit has, as 100 for two decimals"
            )
        return in_range(whole(array, scale))
    if array.dtype == object:
        return in_range(array if scale is None else array * scale, scale or 1)
    if scale is not None and scale > 1:
        # So that no product wraps.
        return in_range(in_range(array).astype(np.int64) * scale, scale)
    return in_range(array)


def listed(array: NDArray[Any]) -> NDArray[Any]:
    """The same points, which are to be of the shape (n, 2)."""
    if array.ndim != 2:
        raise ValueError(f"points have the shape {array.shape}, but a list of them has (n, 2)")
    return array


def single(array: NDArray[Any]) -> NDArray[Any]:
    """The same point, which is to be of the shape (2,)."""
    if array.shape != (2,):
        raise ValueError(f"a point has the shape (2,), but this one has {array.shape}")
    return array


def point_list(points: Any, scale: Optional[int]) -> NDArray[np.int32]:
    """Points of the shape (n, 2) as whole numbers, which are never rounded."""
    return listed(coordinates(points, scale))


def index_array(numbers: Any, name: str) -> NDArray[np.int64]:
    """Numbers of points as they came, of any shape, but as `int64`: none wraps, and -1 stands for
    each that is beyond."""
    array = unmasked(numbers, name)
    if array.size == 0:
        return np.empty(array.shape, np.int64)
    if array.dtype.kind == "u":
        return np.where(array > np.uint64(2**62), -1, array).astype(np.int64)
    if array.dtype == object and all(type(it) is int for it in array.flat):
        return np.where((array < 0) | (array > 2**62), -1, array).astype(np.int64)
    if array.dtype.kind != "i":
        raise TypeError(f"{name} are {array.dtype}, but have to be whole numbers, those of points")
    return array.astype(np.int64)


def number(value: Any, name: str) -> float:
    """One number that is handed in, as it is; a bool or a text is refused."""
    if isinstance(value, (float, np.floating)):
        if np.isnan(value):
            raise ValueError(f"{name} is {value}, but has to be a number")
        return float(value)
    if isinstance(value, (bool, np.bool_)):
        raise TypeError(f"{name} is a bool, but has to be a number")
    return operator.index(value)
