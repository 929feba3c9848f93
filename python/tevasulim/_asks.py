"""What a tile asks other tiles: for points in the disks of its faces that it does not know."""
from __future__ import annotations

from typing import TYPE_CHECKING, Any, List, NamedTuple, Tuple

import numpy as np

from ._disks import Disks
from ._segments import meet
from ._tile_files import BLOCK, Neighbour
from ._types import NDArray

if TYPE_CHECKING:
    from ._tile import Part

# How many blocks of points are looked at together, and how many circles.
BLOCKS_AT_ONCE, AT_ONCE = 4096, 1024


class Given:
    """Points that tiles gave, with their numbers, and which of the disks that were asked about got
    any."""

    def __init__(self, count: int):
        self.is_given = np.zeros(count, bool)
        # Nothing more is asked about a disk with a point inside.
        self.is_done = np.zeros(count, bool)
        self._points, self._numbers = [np.empty((0, 2), np.int64)], [np.empty(0, np.int64)]

    def take(self, points: NDArray[Any], numbers: NDArray[Any]) -> None:
        self._points.append(points)
        self._numbers.append(numbers)

    def points(self) -> Tuple[NDArray[Any], NDArray[Any]]:
        """The points, each once, and their numbers."""
        numbers, first = np.unique(np.concatenate(self._numbers), return_index=True)
        return np.concatenate(self._points)[first], numbers


class Pairs(NamedTuple):
    """Disks, blocks of tiles that each may reach, and these tiles, the nearest block of each disk
    first."""

    rows: NDArray[Any]
    tiles: NDArray[Any]
    blocks: NDArray[Any]

    def some(self, are_some: NDArray[Any]) -> Pairs:
        return Pairs(*(it.compress(are_some) for it in self))


def pairs_at(tile: Neighbour, part: Part, asked: Disks, rows: NDArray[Any]) -> List[NDArray[Any]]:
    """Some disks and the blocks of a tile that each may reach, as columns of both, and how near
    the block is."""
    wide = asked.radii[rows, None]
    low, high = (asked.centers[rows] - wide).min(0), (asked.centers[rows] + wide).max(0)
    near = part.are_open(tile.tile) & meet(tile.boxes(), np.concatenate([low, high]))
    is_open = np.flatnonzero(near)
    ranks = asked.ranks(rows, tile.boxes()[is_open])
    row, block = np.nonzero(ranks < 0)
    return [rows[row], is_open[block], ranks[row, block]]


def pairs_of(
    tiles: List[Neighbour], part: Part, asked: Disks, rows: NDArray[Any], at: NDArray[Any]
) -> Pairs:
    """The same of disks and a tile each."""
    found = [[np.empty(0, np.intp), np.empty(0, np.intp), np.empty(0)]]
    of_tiles = [np.empty(0, np.intp)]
    for tile in np.unique(at).tolist():
        asking = rows[at == tile]
        for begin in range(0, len(asking), AT_ONCE):
            found.append(pairs_at(tiles[tile], part, asked, asking[begin : begin + AT_ONCE]))
            of_tiles.append(np.full(len(found[-1][0]), tile))
    row, block, rank = (np.concatenate(it) for it in zip(*found))
    order = np.lexsort((rank, row))
    return Pairs(row[order], np.concatenate(of_tiles)[order], block[order])


def ask_tiles(
    tiles: List[Neighbour], part: Part, asked: Disks, pairs: Pairs, given: Given, deepest: int
) -> None:
    """The same of the blocks of these pairs, the nearest of each disk first, and then ever more."""
    # Which of its row's blocks each one is.
    turn = np.arange(len(pairs.rows)) - np.searchsorted(pairs.rows, pairs.rows)
    first, width = 0, 1
    while len(turn):
        is_asked = turn < first + width
        some = pairs.some(is_asked)
        ask_blocks(tiles, part, asked, some, given, deepest)
        count = max(len(np.unique(some.rows)), 1)
        first, width = first + width, min(4 * width, max(BLOCKS_AT_ONCE // count, 1))
        is_left = ~is_asked & ~given.is_done[pairs.rows]
        pairs, turn = pairs.some(is_left), turn.compress(is_left)


def ask_blocks(
    tiles: List[Neighbour], part: Part, asked: Disks, pairs: Pairs, given: Given, deepest: int
) -> None:
    """The same of pairs of a disk and a block."""
    if not len(pairs.rows):
        return
    points = np.empty((len(pairs.rows), BLOCK, 2), np.int32)
    numbers = np.empty(points.shape[:2], np.int64)
    for tile in np.unique(pairs.tiles).tolist():
        rows = np.flatnonzero(pairs.tiles == tile)
        points[rows], numbers[rows] = tiles[tile].blocks(pairs.blocks[rows])
    signs, depths = asked.depths(pairs.rows, points)
    # Without constraints a known point is never inside.
    maybe = np.nonzero(signs >= 0 if len(part.segments) else signs == 0)
    is_known = part.is_known(points[maybe])
    signs[maybe[0][is_known], maybe[1][is_known]] = -1
    take_inside(points, numbers, signs, depths, pairs.rows, given, deepest)
    take_border(points, numbers, signs, pairs.rows, given)


def take_inside(
    points: NDArray[Any],
    numbers: NDArray[Any],
    signs: NDArray[Any],
    depths: NDArray[Any],
    rows: NDArray[Any],
    given: Given,
    most: int,
) -> None:
    """Takes the deepest points of each pair that are inside of its disk."""
    pair, place = np.nonzero(signs > 0)
    order = np.lexsort((-depths[pair, place], pair))
    pair, place = pair[order], place[order]
    is_taken = np.arange(len(pair)) - np.searchsorted(pair, pair) < most
    pair, place = pair[is_taken], place[is_taken]
    given.take(points[pair, place], numbers[pair, place])
    given.is_given[rows[pair]] = given.is_done[rows[pair]] = True


def take_border(
    points: NDArray[Any],
    numbers: NDArray[Any],
    signs: NDArray[Any],
    rows: NDArray[Any],
    given: Given,
) -> None:
    """Takes the points of each row that are on its circle."""
    row, place = np.nonzero(signs == 0)
    given.take(points[row, place], numbers[row, place])
    given.is_given[rows[row]] = True
