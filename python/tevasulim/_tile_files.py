"""The files of a plane of tiles, in a folder that each worker reaches: what was handed in, cut by
tile, and each tile's points in blocks of neighbouring ones. A file is written whole or not at all,
and a task that runs again writes the same."""
from __future__ import annotations

import os
from typing import Any, Dict, List, NamedTuple, Optional, Tuple

import numpy as np

from ._hull import are_inside, hull_rows
from ._library import MOST
from ._memory import freed_is_kept
from ._numbers import point_list
from ._order import near_keys, near_order_of_all
from ._segments import bounds_of, longest_of, split
from ._tile_parts import Reading, points_in
from ._types import NDArray
from .errors import NoSuchPointError, TevasulimError

# How many points a block has, how many a task surveys and cuts, and how many are looked at for each
# tile before the plane is cut.
BLOCK, PIECE, FOR_TILE = 128, 250_000, 2_000
# How many times as many points as on average a tile may have where a gap in the points that is so
# wide, as a part of their spread, is where the plane is cut.
UNEVEN, GAP = 1.25, 0.03
Box = Tuple[Tuple[float, float], Tuple[float, float]]
PLANE: Box = ((-np.inf, np.inf), (-np.inf, np.inf))


def load(name: str) -> NDArray[Any]:
    """An array of which only what is looked at is read."""
    given: NDArray[Any] = np.load(name, mmap_mode="r", allow_pickle=False)
    return given


def save(name: str, array: NDArray[Any]) -> None:
    """Writes a .npy in one step."""
    part = f"{name}.{os.getpid()}"
    with open(part, "wb") as file:
        np.save(file, array)
    os.replace(part, name)


# What the files of a run hold, which have nothing but rows: the kind of number, and how many a row.
ROWS: Dict[str, Tuple[Any, int]] = {
    "cut-points": (np.int32, 2),
    "cut-numbers": (np.int64, 1),
    "points": (np.int32, 2),
    "numbers": (np.int64, 1),
    "keys": (np.uint64, 1),
    "boxes": (np.int32, 4),
    "segments": (np.int64, 7),
}


def plan_of(sample: NDArray[Any], tiles: int) -> Any:
    """How the plane is cut, by halves of about as many sampled points for each tile: a tile is
    None, and a cut is an axis, the coordinate from which on points are in the second part, and both
    parts."""
    return cut_of(sample, tiles, UNEVEN * len(sample) / tiles)


def cut_of(sample: NDArray[Any], tiles: int, most: float) -> Any:
    """The same where a tile is to have at most so many of the sampled points."""
    if tiles > 1:
        spread = np.ptp(sample.astype(np.int64), axis=0) if len(sample) else np.zeros(2)
        axis = int(spread[1] > spread[0])
        values, half = sample[:, axis], tiles // 2
        larger = values[values > values.min(initial=MOST)]
        if len(larger):
            count, middle, each = len(values), len(values) * half // tiles, len(values) / tiles
            first = max(count - most * (tiles - half), each * half / UNEVEN)
            last = min(most * half, count - each * (tiles - half) / UNEVEN)
            at = gap_in(np.sort(values), int(np.ceil(first)), int(last), middle)
            if at is None:
                at = max(int(np.partition(values, middle)[middle]), int(larger.min()))
            low = values < at
            below = cut_of(sample[low], half, most)
            return axis, at, below, cut_of(sample[~low], tiles - half, most)
    return None


def gap_in(values: NDArray[Any], first: int, last: int, middle: int) -> Optional[int]:
    """The upper end of a wide gap in values in order, before one of some places, or None: few
    circles reach over a wide gap. Of several it is the one that is nearest to the middle."""
    some = values[max(first, 1) - 1 : last + 1].astype(np.int64)
    gaps = some[1:] - some[:-1]
    least = max(GAP * (int(values[-1]) - int(values[0])), int(gaps.max(initial=0)) // 2)
    wide = np.flatnonzero(gaps > least)
    # A grid has as wide a gap everywhere.
    if not len(wide) or least < 4 * np.median(gaps[gaps > 0]):
        return None
    nearest = wide[np.abs(wide + max(first, 1) - middle).argmin()]
    return int(some[1 + nearest])


def boxes_in(plan: Any, box: Box = PLANE) -> List[Box]:
    """The part of the plane of each tile; lower sides belong to it."""
    if plan is None:
        return [box]
    axis, at, low, high = plan
    below, above = (box[axis][0], at), (at, box[axis][1])
    parts = ((below, box[1]), (above, box[1])) if axis == 0 else ((box[0], below), (box[0], above))
    return boxes_in(low, parts[0]) + boxes_in(high, parts[1])


def some_of(plan: Any, begin: int, end: int) -> Any:
    """How the plane is cut, with False in the place of all tiles but those from `begin` up to
    `end`."""
    if end <= 0 or begin >= len(boxes_in(plan)):
        return False
    if plan is None:
        return None
    axis, at, low, high = plan
    tiles = len(boxes_in(low))
    return axis, at, some_of(low, begin, end), some_of(high, begin - tiles, end - tiles)


def rows_by_tile(plan: Any, points: NDArray[Any]) -> List[NDArray[np.int64]]:
    """For each tile the rows of its points, in their order."""
    x, y = np.ascontiguousarray(points.T)
    return parted(plan, (x, y), np.arange(len(points)))


def parted(plan: Any, axes: Tuple[NDArray[Any], ...], rows: NDArray[Any]) -> List[NDArray[Any]]:
    """The same of some rows of points, of which both coordinates are given as columns."""
    if plan is None:
        return [rows]
    axis, at, *both = plan
    is_high = axes[axis].take(rows) >= at
    found = []
    for half, are_in in zip(both, (~is_high, is_high)):
        if half is not False:
            found += parted(half, axes, rows.compress(are_in))
    return found


class Chunk(NamedTuple):
    """Some rows of a .npy of points, up to one that is no more among them; or all of them."""

    part: str
    begin: int = 0
    end: Optional[int] = None

    def points(self) -> NDArray[Any]:
        """Its rows, of which only what is looked at is read."""
        return load(self.part)[self.begin : self.end]


def chunks_of(part: str) -> List[Chunk]:
    """A part in chunks, so that several tasks share a large one. One that only the workers reach is
    not parted."""
    try:
        count = len(load(part))
    except (OSError, TypeError, ValueError):
        return [Chunk(part)]
    begins = range(0, max(count, 1), PIECE)
    return [Chunk(part, begin, min(begin + PIECE, count)) for begin in begins]


def is_plain(part: str, reading: Reading) -> bool:
    """Whether a part is the name of a .npy of points as they are, which this process reaches."""
    if not part.endswith(".npy") or reading != Reading():
        return False
    try:
        return not load(part).dtype.names
    except (OSError, ValueError):
        return False


def survey(chunk: Chunk, count: int, tile_size: int) -> Tuple[int, NDArray[Any]]:
    """How many points a chunk has, and of so many of them those that tiles of a size need, picked
    blindly but always the same. A part with anything but points in range is refused."""
    try:
        try:
            points = point_list(chunk.points(), None)
        except (TevasulimError, TypeError, ValueError, IndexError):
            # It is told of the whole part what is wrong with it.
            point_list(load(chunk.part), None)
            raise
    except (TevasulimError, TypeError, ValueError) as error:
        error.args = (f"{chunk.part}: {error.args[0]}", *error.args[1:])
        raise
    count = min(count, max(FOR_TILE * len(points) // tile_size, FOR_TILE))
    if len(points) <= count:
        return len(points), points
    picked = np.random.default_rng(0).choice(len(points), count, replace=False)
    return len(points), points[np.sort(picked)]


def boxes_of(points: NDArray[Any]) -> NDArray[Any]:
    """The bounds of each block, as rows of x and y from, x and y to."""
    begins = np.arange(0, len(points), BLOCK)
    low, high = np.minimum.reduceat(points, begins), np.maximum.reduceat(points, begins)
    return np.hstack([low, high])


def segment_list(part: str, count: int) -> NDArray[Any]:
    """A part of the segments: pairs of numbers of points, of which there are so many."""
    array = np.asarray(load(part))
    if array.shape == (0,):
        array = array.reshape(0, 2).astype(np.int64)
    if array.ndim != 2 or array.shape[1] != 2:
        raise ValueError(f"{part}: segments have the shape {array.shape}, but need (m, 2)")
    if array.dtype.kind not in "iu":
        raise TypeError(f"{part}: segments are {array.dtype}, but have to be numbers of points")
    wrong = np.flatnonzero(((array < 0) | (array >= count)).any(1))
    if len(wrong):
        row = int(wrong[0])
        message = f"{part}: segment {row} is {array[row].tolist()}, but "
        message += f"points are numbered from 0 to {count - 1}" if count else "there are no points"
        raise NoSuchPointError(message, row)
    return array.astype(np.int64)


def positions_of(numbers: NDArray[Any], parts: List[str], firsts: List[int]) -> NDArray[Any]:
    """Where points are, by their numbers, in parts that begin with these numbers."""
    found = np.empty((len(numbers), 2), np.int32)
    part = np.searchsorted(firsts, numbers, "right") - 1
    for it in np.unique(part).tolist():
        rows = np.flatnonzero(part == it)
        found[rows] = point_list(np.asarray(load(parts[it])[numbers[rows] - firsts[it]]), None)
    return found


class Gathered(NamedTuple):
    """A tile's points: how many there are, their bounds as x and y from, x and y to, and the
    corners of their hull with their numbers and rows."""

    size: int
    bounds: NDArray[Any]
    corners: NDArray[Any]
    numbers: NDArray[Any]
    rows: NDArray[Any]


class TileFiles:
    """The files of one folder. It is handed to each task."""

    def __init__(self, folder: str):
        self.folder = folder

    def name(self, kind: str, number: int) -> str:
        ending = "rows" if kind in ROWS else "pickle" if kind == "plan" else "npy"
        return os.path.join(self.folder, f"{kind}-{number}.{ending}")

    def write(self, kind: str, number: int, rows: NDArray[Any]) -> None:
        """Writes rows in one step."""
        name = self.name(kind, number)
        part = f"{name}.{os.getpid()}"
        np.ascontiguousarray(rows, ROWS[kind][0]).tofile(part)
        os.replace(part, name)

    def rows(self, kind: str, number: int) -> NDArray[Any]:
        """Rows that were written, of which only what is looked at is read."""
        name, (of_type, columns) = self.name(kind, number), ROWS[kind]
        count = os.path.getsize(name) // (np.dtype(of_type).itemsize * columns)
        shape = (count, columns) if columns > 1 else (count,)
        if not count:
            return np.empty(shape, of_type)
        return np.asarray(np.memmap(name, of_type, "r", shape=shape))

    def take(self, part: Any, number: int, reading: Reading) -> str:
        """The name of a .npy of the points of a part that was handed in: the part itself where it
        is the name of one."""
        if isinstance(part, str) and part.endswith(".npy") and reading == Reading():
            if not load(part).dtype.names:
                return part
        name = self.name("given", number)
        save(name, points_in(part, reading))
        return name

    @freed_is_kept()
    def cut(self, chunk: Chunk, number: int, first: int, plan: Any) -> List[int]:
        """Cuts a chunk of what was handed in by tile: the points in the order of their tiles, and
        their numbers, from `first` on. Gives where each tile begins."""
        points = np.ascontiguousarray(chunk.points(), np.int32).reshape(-1, 2)
        rows = rows_by_tile(plan, points)
        order = np.concatenate(rows)
        self.write("cut-points", number, points.take(order, axis=0))
        self.write("cut-numbers", number, first + order)
        given: List[int] = np.cumsum([0, *map(len, rows)]).tolist()
        return given

    @freed_is_kept()
    def gather(
        self, tile: int, parts: List[Tuple[int, int, int]], polygon: NDArray[Any], has_keys: bool
    ) -> Gathered:
        """Gathers the points of a tile from what was cut: parts with a begin and an end."""
        points, numbers = (
            np.concatenate([self.rows(kind, part)[begin:end] for part, begin, end in parts])
            if parts
            else empty
            for kind, empty in (
                ("cut-points", np.empty((0, 2), np.int32)),
                ("cut-numbers", np.empty(0, np.int64)),
            )
        )
        return self.keep(tile, points, numbers, polygon, has_keys)

    @freed_is_kept()
    def gather_from(
        self, chunks: List[Chunk], first: int, plan: Any, polygon: NDArray[Any], has_keys: bool
    ) -> List[Gathered]:
        """The same of the tiles from `first` on that a plan has, straight from all chunks."""
        parts = [np.asarray(it.points(), np.int32).reshape(-1, 2) for it in chunks]
        points = np.concatenate([np.empty((0, 2), np.int32), *parts])
        each = enumerate(rows_by_tile(plan, points), first)
        words = polygon, has_keys
        return [self.keep(tile, points.take(rows, axis=0), rows, *words) for tile, rows in each]

    def keep(
        self,
        tile: int,
        points: NDArray[Any],
        numbers: NDArray[Any],
        polygon: NDArray[Any],
        has_keys: bool,
    ) -> Gathered:
        """Writes the points of a tile, each once with its least number, and their keys where points
        are looked up by them. Points come in the order of their numbers. Corners of a polygon are
        given, so that what lies inside is no corner of the hull of all."""
        # Of equal points the least number is first.
        keys = near_keys(points) if has_keys else np.empty(0, np.uint64)
        order = np.argsort(keys, kind="stable") if has_keys else near_order_of_all(points)
        points = points.take(order, axis=0)
        places = points.view(np.int64).ravel()
        is_first = np.ones(len(places), bool)
        np.not_equal(places[1:], places[:-1], out=is_first[1:])
        numbers = numbers.take(order)
        if not is_first.all():
            points, numbers = points.compress(is_first, axis=0), numbers.compress(is_first)
        boxes = boxes_of(points) if len(points) else np.empty((0, 4), np.int32)
        files = [("points", points), ("numbers", numbers), ("boxes", boxes)]
        if has_keys:
            files.append(("keys", keys[order[is_first]]))
        for kind, array in files:
            self.write(kind, tile, array)
        low, high = boxes[:, :2].min(0, initial=MOST), boxes[:, 2:].max(0, initial=-MOST)
        is_outer = np.repeat(~are_inside(boxes, polygon), BLOCK)[: len(points)]
        outer = np.flatnonzero(is_outer)
        rows = outer[hull_rows(points[outer])]
        bounds = np.concatenate([low, high])
        return Gathered(len(points), bounds, points[rows], numbers[rows], rows)

    def numbers_at(self, tile: int, points: NDArray[Any]) -> NDArray[Any]:
        """The numbers of a tile's points at some positions, or -1 where none is."""
        keys, numbers = self.rows("keys", tile), self.rows("numbers", tile)
        if not len(keys):
            return np.full(len(points), -1, np.int64)
        wanted = near_keys(points)
        at = np.minimum(np.searchsorted(keys, wanted), len(keys) - 1)
        return np.where(keys[at] == wanted, numbers[at], -1)

    def place(
        self, part: str, number: int, first: int, points: List[str], firsts: List[int], plan: Any
    ) -> Tuple[List[int], NDArray[Any]]:
        """Finds the ends of the segments of a part, whose rows begin with `first`, in the parts of
        the points, and sorts the segments by the tiles that they may meet. Gives where each tile
        begins, and the longest segments."""
        numbers = segment_list(part, firsts[-1])
        ends = positions_of(numbers.ravel(), points, firsts)
        known = np.empty(len(ends), np.int64)
        for tile, some in enumerate(rows_by_tile(plan, ends)):
            if len(some):
                known[some] = self.numbers_at(tile, ends[some])
        rows = np.arange(first, first + len(numbers))[:, None]
        segments = np.hstack([ends.reshape(-1, 4), known.reshape(-1, 2), rows]).astype(np.int64)
        # A point and itself are joined by nothing.
        segments = segments[segments[:, 4] != segments[:, 5]]
        each = split(plan, bounds_of(segments), np.arange(len(segments)))
        self.write("segments", number, segments[np.concatenate(each)])
        return np.cumsum([0, *map(len, each)]).tolist(), longest_of(segments)

    def segments(self, tile: int, begins: List[List[int]]) -> NDArray[Any]:
        """The segments that a tile may meet, by their rows."""
        found = [
            self.rows("segments", number)[begin[tile] : begin[tile + 1]]
            for number, begin in enumerate(begins)
        ]
        return np.concatenate(found)

    def points(self, tile: int) -> Tuple[NDArray[Any], NDArray[Any]]:
        """The points of a tile and their numbers."""
        return self.rows("points", tile), self.rows("numbers", tile)


class Neighbour:
    """Another tile, of which only those blocks are read that are asked for."""

    def __init__(self, files: TileFiles, tile: int):
        self.files, self.tile = files, tile
        self._boxes: Any = None
        self._firsts = 0

    def boxes(self) -> NDArray[Any]:
        """The bounds of its blocks."""
        if self._boxes is None:
            self._boxes = self.files.rows("boxes", self.tile).astype(np.int64)
            self._points, self._numbers = self.files.points(self.tile)
            self._is_read = np.zeros(len(self._boxes), bool)
        given: NDArray[Any] = self._boxes
        return given

    @property
    def bytes(self) -> int:
        """How many bytes were read of it."""
        if self._boxes is None:
            return 0
        each = self._points.itemsize * 2 + self._numbers.itemsize
        points = self._firsts + int(self._is_read.sum()) * BLOCK
        given: int = self._boxes.nbytes // 2 + points * each
        return given

    def blocks(self, numbers: NDArray[Any]) -> Tuple[NDArray[Any], NDArray[Any]]:
        """The points of some blocks, and their numbers, block by block: the last point of a block
        that is shorter stands there often."""
        self._is_read[numbers] = True
        places = numbers[:, None] * BLOCK + np.arange(BLOCK)
        np.minimum(places, len(self._points) - 1, out=places)
        return self._points[places], self._numbers[places]

    def are_whole(self, counts: NDArray[Any]) -> NDArray[Any]:
        """Which blocks have at most as many points as is said of the first ones."""
        sizes = np.full(len(self.boxes()), BLOCK)
        sizes[-1:] = len(self._points) - BLOCK * (len(sizes) - 1)
        of_all = np.append(counts, np.zeros(len(sizes), np.intp))[: len(sizes)]
        given: NDArray[Any] = of_all >= sizes
        return given

    def firsts(self, blocks: NDArray[Any]) -> Tuple[NDArray[Any], NDArray[Any]]:
        """The first point of some blocks, and their numbers."""
        self.boxes()
        self._firsts += len(blocks)
        return self._points[blocks * BLOCK], self._numbers[blocks * BLOCK]

    def rows(self, blocks: NDArray[Any]) -> Tuple[NDArray[Any], NDArray[Any]]:
        """The points of some blocks, and their numbers."""
        self.boxes()
        self._is_read[blocks] = True
        places = (blocks[:, None] * BLOCK + np.arange(BLOCK)).ravel()
        places = places[places < len(self._points)]
        return self._points[places], self._numbers[places]
