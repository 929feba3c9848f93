"""Which blocks of other tiles the disks of many faces reach."""
from __future__ import annotations

from typing import TYPE_CHECKING, Any, Dict, Iterator, List, NamedTuple, Tuple

import numpy as np

from ._disks import Disks
from ._order import spread
from ._segments import meet
from ._types import NDArray

if TYPE_CHECKING:
    from ._tile import Part

# How many boxes near each other are looked at together.
GROUP = 256
# How many disks near each other are one at first, and how many blocks; how many of these disks are
# looked at together, and how many pairs of both.
NEAR_ONES, RUN, GROUPS, PAIRS = 32, 8, 256, 4096
# A disk that reaches more blocks is that of a face for which a few points are lacking.
NEAR = 16


class Reached(NamedTuple):
    """Which disks reach a block, and the blocks of each tile that are reached: by any of the disks,
    or by those that do not reach many."""

    is_reached: NDArray[Any]
    by_any: Dict[int, NDArray[Any]]
    by_near: Dict[int, NDArray[Any]]

    def blocks(self, most: int) -> Dict[int, NDArray[Any]]:
        """At most so many blocks: all, or those by near disks, or none."""
        for blocks in self.by_any, self.by_near:
            if sum(map(len, blocks.values())) <= most:
                return blocks
        return {}


def groups_of(boxes: NDArray[Any]) -> Iterator[Tuple[NDArray[Any], NDArray[Any]]]:
    """Rows of boxes in groups of near ones, and the bounds of each group."""
    order = box_order(boxes)
    begins = np.arange(0, len(order), GROUP)
    low = np.minimum.reduceat(boxes[:, :2][order], begins) if len(order) else boxes[:, :2]
    high = np.maximum.reduceat(boxes[:, 2:][order], begins) if len(order) else boxes[:, 2:]
    for begin, bounds in zip(begins.tolist(), np.hstack([low, high])):
        yield order[begin : begin + GROUP], bounds


def box_order(boxes: NDArray[Any]) -> NDArray[Any]:
    """Rows of boxes in an order in which most stand beside near ones: by 2^16 cells of the middle
    half of them."""
    if not len(boxes):
        return np.arange(0)
    middles = (boxes[:, :2] + boxes[:, 2:]) / 2
    low, high = np.quantile(middles, [0.05, 0.95], axis=0)
    parts = (middles - low) / np.maximum(high - low, 1) * 200 + 28
    cells = spread(np.clip(parts, 0, 255).astype(np.uint16), np.uint16, 8)
    return np.argsort(cells[:, 0] | cells[:, 1] << np.uint16(1), kind="stable")


def reach(asked: Disks, part: Part, tiles: NDArray[Any]) -> Reached:
    """Which of many disks may have something that the part does not know and that is not hidden,
    and the blocks of some tiles in which it may be."""
    wide = np.sqrt(asked.reaches_2)[:, None]
    bounds = np.hstack([asked.centers - wide, asked.centers + wide])
    order = box_order(bounds)
    # The last group may have its last disk often.
    groups = order[np.minimum(np.arange(-(-len(order) // NEAR_ONES) * NEAR_ONES), len(order) - 1)]
    groups = groups.reshape(-1, NEAR_ONES)
    bounds = np.hstack([bounds[groups, :2].min(1), bounds[groups, 2:].max(1)])
    found, boxes = {}, [np.empty((0, 4), np.int64)]
    for tile in tiles.tolist():
        if meet(bounds, part.tile.bounds[tile]).any():
            found[tile] = np.flatnonzero(part.are_open(tile))
            boxes.append(part.tile.tiles[tile].boxes()[found[tile]])
    disk, block = hits_of(asked, groups, bounds, np.concatenate(boxes))
    counts = np.bincount(disk, minlength=len(asked))
    is_near = counts.take(disk) <= NEAR
    return Reached(counts > 0, blocks_of(found, block), blocks_of(found, block.compress(is_near)))


def blocks_of(found: Dict[int, NDArray[Any]], some: NDArray[Any]) -> Dict[int, NDArray[Any]]:
    """Of some tiles' blocks those that stand at some places of all of them, tile by tile."""
    ends = np.cumsum([0, *map(len, found.values())])
    is_some = np.bincount(some, minlength=int(ends[-1])) > 0
    each = {
        tile: blocks.compress(is_some[begin : begin + len(blocks)])
        for (tile, blocks), begin in zip(found.items(), ends.tolist())
    }
    return {tile: blocks for tile, blocks in each.items() if len(blocks)}


def runs_of(boxes: NDArray[Any]) -> NDArray[Any]:
    """The bounds of each few boxes that stand beside each other."""
    begins = np.arange(0, len(boxes), RUN)
    if not len(begins):
        return boxes
    low = np.minimum.reduceat(boxes[:, :2], begins)
    return np.hstack([low, np.maximum.reduceat(boxes[:, 2:], begins)])


def hits_of(
    asked: Disks, groups: NDArray[Any], bounds: NDArray[Any], boxes: NDArray[Any]
) -> Tuple[NDArray[Any], NDArray[Any]]:
    """Which boxes the disks of groups may reach, as pairs of a disk and a box. Each group has
    bounds."""
    runs = runs_of(boxes)
    found = [(np.empty(0, np.intp), np.empty(0, np.intp))]
    for begin in range(0, len(groups), GROUPS):
        some = bounds[begin : begin + GROUPS, None]
        is_met = (some[..., 0] <= runs[:, 2]) & (some[..., 2] >= runs[:, 0])
        is_met &= (some[..., 1] <= runs[:, 3]) & (some[..., 3] >= runs[:, 1])
        group, run = np.nonzero(is_met)
        group += begin
        for at in range(0, len(group), PAIRS):
            pairs = slice(at, at + PAIRS)
            found.append(hits_in(asked, groups, group[pairs], runs, run[pairs], boxes))
    disk, box = (np.concatenate(it) for it in zip(*found))
    return disk, box


def hits_in(
    asked: Disks,
    groups: NDArray[Any],
    group: NDArray[Any],
    runs: NDArray[Any],
    run: NDArray[Any],
    boxes: NDArray[Any],
) -> Tuple[NDArray[Any], NDArray[Any]]:
    """The same of pairs of a group and a run of boxes."""
    rows = groups[group]
    pair, place = np.nonzero(asked.distances(rows, runs[run, None]) < 0)
    # The last group has its last disk but once.
    is_first = group[pair] * NEAR_ONES + place < len(asked)
    pair, place = pair.compress(is_first), place.compress(is_first)
    disk = rows[pair, place].repeat(RUN)
    box = (RUN * run[pair, None] + np.arange(RUN)).ravel()
    is_there = box < len(boxes)
    disk, box = disk.compress(is_there), box.compress(is_there)
    is_hit = asked.are_reached(disk, boxes.take(box, axis=0))
    return disk.compress(is_hit), box.compress(is_hit)
