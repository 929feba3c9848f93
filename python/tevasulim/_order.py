"""Orders of points in which each search begins near its end."""
from __future__ import annotations

from typing import Any

import numpy as np

from ._library import MOST
from ._types import NDArray

# Fewer points are taken in their own order.
FEW = 32
MASKS = (
    (16, 0x0000_FFFF_0000_FFFF),
    (8, 0x00FF_00FF_00FF_00FF),
    (4, 0x0F0F_0F0F_0F0F_0F0F),
    (2, 0x3333_3333_3333_3333),
    (1, 0x5555_5555_5555_5555),
)


def spread(numbers: NDArray[Any], of_type: Any = np.uint64, width: int = 32) -> NDArray[Any]:
    """Numbers of so many bits with a 0 between each two of these."""
    bits = numbers.astype(of_type)
    for shift, mask in MASKS:
        if shift < width:
            few = of_type(mask & (2 ** (2 * width) - 1))
            bits = (bits | (bits << of_type(shift))) & few
    return bits


def near_keys(points: NDArray[Any]) -> NDArray[Any]:
    """A number for each position, rows of shape (n, 2): near positions mostly have near ones."""
    moved = points.astype(np.int64) + MOST
    given: NDArray[Any] = spread(moved[:, 0]) | spread(moved[:, 1]) << np.uint64(1)
    return given


def near_order(points: NDArray[Any]) -> NDArray[Any]:
    """Rows of points of shape (n, 2) in an order in which most stand beside near ones: quarters of
    the plane one after another, and in each of them the same.

    >>> near_order(np.array([(0, 0), (9, 9)] * 20))[:3]
    array([0, 2, 4])
    """
    if len(points) < FEW:
        return np.arange(len(points))
    return np.argsort(near_keys(points), kind="stable")


def near_order_of_all(points: NDArray[Any]) -> NDArray[Any]:
    """The same of points as `int32`, soonest where they are many. Equal points stand beside each
    other, in the order of their rows."""
    if not len(points):
        return np.arange(0)
    lows, highs = ([int(end(it)) for it in points.T] for end in (np.min, np.max))
    wide = max(high - low for low, high in zip(lows, highs))
    # A curve through cells of 16 bits each way: numbers of 16 bits are sorted soonest.
    shift = max(wide.bit_length() - 16, 0)
    x, y = (spread((it - low) >> shift, np.uint32, 16) for it, low in zip(points.T, lows))
    keys = x | y << np.uint32(1)
    order = np.argsort(keys.astype(np.uint16), kind="stable")
    high = (keys >> np.uint32(16)).astype(np.uint16).take(order)
    order = order.take(np.argsort(high, kind="stable"))
    keys = keys.take(order)
    is_same = keys[1:] == keys[:-1]
    is_shared = np.append(is_same, False)
    is_shared[1:] |= is_same
    shared = np.flatnonzero(is_shared)
    rows = order.take(shared)
    order[shared] = rows.take(np.lexsort((near_keys(points.take(rows, axis=0)), keys.take(shared))))
    return order
