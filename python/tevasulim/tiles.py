"""The Delaunay triangulation of points that no machine need hold all of, tile by tile and exactly.

    from distributed import Client
    from tevasulim.tiles import triangulate_tiles

    client = Client("scheduler:8786")
    tiles = triangulate_tiles(["north.npy", "south.npy"], 100_000, client, "/shared/hill")
    for name in tiles.cells:
        triangles = numpy.load(name)  # three numbers of points a row

The plane is cut into tiles. Each triangulates its own points with a halo of others, the corners of
the hull of all points and the segments that may meet these. It asks the other tiles only for points
in circles of its faces that reach past what it knows, and writes the cells that it owns: those
whose least point is its own.

It is exact by laws that the library proves (docs/SCALE.md): a face of some of the points and
segments is a face of all where no other point that is seen from inside it lies in its closed disk,
and no other segment enters it; and where this holds for each face at a point, no face at the point
is missing. Of four or more points on one circle, the polygon that they make is cut from its least
point in all tiles."""
from __future__ import annotations

import json
import operator
import os
import pickle
import shutil
import tempfile
from typing import Any, Dict, List, NamedTuple, Optional, Sequence, Tuple

import numpy as np

from ._hull import hull_rows
from ._runner import Runner
from ._segments import NONE, longest_of
from ._tile import Plan, TileReport, cells_of_tile
from ._tile_files import (
    Box,
    Gathered,
    Chunk,
    TileFiles,
    boxes_in,
    is_plain,
    chunks_of,
    plan_of,
    some_of,
    survey,
)
from ._tile_parts import TABLES, Reading, ending, parts_of, segments_in
from ._types import NDArray
from .errors import CrossingError, TevasulimError

__all__ = ["triangulate_tiles", "neighbors", "TiledCells", "TileReport"]

# How many points of all are looked at at most before the plane is cut, and of these for their hull,
# of which so many corners are taken or somewhat more.
SAMPLE, FOR_HULL, CORNERS = 200_000, 2_000, 64
# How many points are few: this process surveys them by itself, and each worker reads all of them
# and gathers the points of some tiles.
AT_ONCE = 2_000_000
# How many points a tile has at least where there would be no tile for some workers.
LEAST = 50_000
# Of how many tiles a worker waits long for the others at the end.
FEW = 5


class TiledCells(NamedTuple):
    """The cells of each tile, as an array or the name of a .npy: int64 of shape (k, 3), the numbers
    of the corners counterclockwise from the least point on; what each tile did; and the name of the
    run's index, a JSON file that names the files of its cells, and those of the parts in the order
    in which points are numbered, or `None` without a folder.

    A number is the row of a point in all parts, one after another. So `heights[cells]` gives the
    heights of the corners."""

    cells: List[Any]
    reports: List[TileReport]
    index_file: Optional[str] = None


def neighbors(cells: Sequence[Any]) -> List[NDArray[np.int64]]:
    """The cell beyond the side opposite each corner, over the borders of tiles too: for each tile
    an array of shape (k, 3), where a cell is its row in all tiles after each other, or -1 for none.
    All cells are held at once.

    >>> tiles = triangulate_tiles([[(0, 0), (4, 0)], [(5, 5), (0, 4)]], 2)
    >>> [it.tolist() for it in neighbors(tiles.cells)]
    [[[-1, -1, 1], [0, -1, -1]], []]
    """
    arrays = [np.load(it) if isinstance(it, str) else np.asarray(it) for it in cells]
    rows = np.concatenate([np.empty((0, 3), np.int64), *arrays])
    base = int(rows.max(initial=0)) + 1
    starts, ends = np.roll(rows, -1, axis=1).ravel(), np.roll(rows, -2, axis=1).ravel()
    there, back = starts * base + ends, ends * base + starts
    order = np.argsort(there, kind="stable")
    at = np.minimum(np.searchsorted(there, back, sorter=order), max(len(there) - 1, 0))
    found = order[at] if len(there) else at
    beyond = np.where(there[found] == back, found // 3, -1).reshape(-1, 3)
    return np.split(beyond, np.cumsum([len(it) for it in arrays])[:-1])


def names_of(
    parts: List[Any], files: TileFiles, runner: Runner, reading: Reading
) -> List[str]:
    """The parts of the points, as names of .npy files. Workers read what is named, and this process
    writes what it holds."""
    tasks = [(part, i, reading) for i, part in enumerate(parts)]
    named = [it for it in tasks if isinstance(it[0], str) and not is_plain(it[0], reading)]
    named += [it for it in tasks if hasattr(it[0], "compute")]
    found = dict(zip((it[1] for it in named), runner.run(files.take, named)))
    return [found.get(it[1]) or files.take(*it) for it in tasks]


def segments_of(given: Any, files: TileFiles) -> List[str]:
    """The segments that were handed in, as names of .npy files."""
    names = []
    for i, part in enumerate(parts_of(given)):
        is_array = not isinstance(part, str)
        names.append(part if not is_array else files.name("given-segments", i))
        if is_array or ending(part) in TABLES:
            names[-1] = files.name("given-segments", i)
            np.save(names[-1], part if is_array else segments_in(part))
    return names


def cut_plane(
    names: List[str], of_segments: List[str], tile_size: int, runner: Runner, files: TileFiles
) -> Plan:
    """Cuts the plane into tiles, and gathers the points of each and the segments that may meet it:
    what each tile knows of all."""
    chunks, workers = [chunk for name in names for chunk in chunks_of(name)], runner.workers()
    counts, sample = survey_of(chunks, tile_size, runner)
    cuts = plan_of(sample, tile_count(sum(counts), tile_size, workers))
    boxes = boxes_in(cuts)
    firsts = np.cumsum([0, *counts]).tolist()
    some = sample[:: max(len(sample) // FOR_HULL, 1)].astype(np.int64)
    polygon = some[hull_rows(some)]
    polygon = polygon[:: max(len(polygon) // CORNERS, 1)]
    words = polygon, bool(of_segments)
    if firsts[-1] <= AT_ONCE:
        # Each worker gathers the points of as many tiles.
        ends = sorted({len(boxes) * i // workers for i in range(workers + 1)})
        tasks = [(chunks, i, some_of(cuts, i, k), *words) for i, k in zip(ends, ends[1:])]
        gathered = [it for some in runner.run(files.gather_from, tasks) for it in some]
    else:
        gathered = cut_and_gather(chunks, firsts, cuts, words, runner, files)
    of_names = [first for chunk, first in zip(chunks, firsts) if chunk.begin == 0]
    of_names.append(firsts[-1])
    placed = place_segments(of_segments, names, of_names, cuts, runner, files)
    return plan_from(boxes, gathered, placed)


def survey_of(
    chunks: List[Chunk], tile_size: int, runner: Runner
) -> Tuple[List[int], NDArray[Any]]:
    """How many points each chunk has, and a sample of all."""
    each = max(SAMPLE // max(len(chunks), 1), 1)
    tasks = [(chunk, each, tile_size) for chunk in chunks]
    if sum(AT_ONCE if it.end is None else it.end - it.begin for it in chunks) < AT_ONCE:
        # This process has done it before others were asked.
        found = [survey(*words) for words in tasks]
    else:
        found = runner.run(survey, tasks)
    sample = np.concatenate([np.empty((0, 2), np.int32), *(some for _, some in found)])
    return [count for count, _ in found], sample


def cut_and_gather(
    chunks: List[Chunk],
    firsts: List[int],
    cuts: Any,
    words: Tuple[Any, ...],
    runner: Runner,
    files: TileFiles,
) -> List[Gathered]:
    """Sorts each chunk by tile, and gathers the points of each tile."""
    tasks = [(chunk, i, firsts[i], cuts) for i, chunk in enumerate(chunks)]
    begins = runner.run(files.cut, tasks)
    parts = [
        [
            (i, part[tile], part[tile + 1])
            for i, part in enumerate(begins)
            if part[tile] < part[tile + 1]
        ]
        for tile in range(len(boxes_in(cuts)))
    ]
    gathered = runner.run(files.gather, [(tile, part, *words) for tile, part in enumerate(parts)])
    for i in range(len(chunks)):
        os.remove(files.name("cut-points", i))
        os.remove(files.name("cut-numbers", i))
    return gathered


def plan_from(
    boxes: List[Box], gathered: List[Gathered], placed: List[Tuple[List[int], NDArray[Any]]]
) -> Plan:
    """What each tile knows of all, from what was gathered of each tile, and of the segments of each
    part where those of each tile begin and the longest."""
    corners = np.concatenate([it.corners for it in gathered]).astype(np.int64)
    numbers = np.concatenate([it.numbers for it in gathered])
    rows = hull_rows(corners)
    bounds = np.stack([it.bounds for it in gathered])
    longest = longest_of(np.concatenate([NONE, *(some for _, some in placed)]))
    of_boxes = np.array([[x[0], y[0], x[1], y[1]] for x, y in boxes])
    begins = [it for it, _ in placed]
    # How many points of each tile are corners of the hull of all.
    tile_of = np.repeat(np.arange(len(boxes)), [len(it.numbers) for it in gathered])
    known = np.bincount(tile_of[rows], minlength=len(boxes))
    has_others = np.array([it.size for it in gathered]) > known
    places = np.stack([tile_of, np.concatenate([it.rows for it in gathered])], 1)[rows]
    return Plan(of_boxes, bounds, corners[rows], numbers[rows], places, begins, longest, has_others)


def tile_count(points: int, tile_size: int, workers: int) -> int:
    """How many tiles to cut. If each worker gets only a few, all workers get as many, but no tile is
    smaller than is worth a task.

    >>> [tile_count(points, 100_000, 4) for points in (60_000, 200_000, 1_000_000, 3_000_000)]
    [1, 4, 12, 30]
    """
    tiles = max(-(-points // tile_size), min(points // LEAST, workers), 1)
    return -(-tiles // workers) * workers if workers < tiles <= FEW * workers else tiles


def place_segments(
    parts: List[str],
    names: List[str],
    firsts: List[int],
    cuts: Any,
    runner: Runner,
    files: TileFiles,
) -> List[Tuple[List[int], NDArray[Any]]]:
    """Sorts the segments of each part by the tiles that they may meet: where each tile begins, and
    the longest segments."""
    counts = [len(np.load(part, mmap_mode="r")) for part in parts]
    rows = np.cumsum([0, *counts]).tolist()
    tasks = [(part, i, rows[i], names, firsts, cuts) for i, part in enumerate(parts)]
    return runner.run(files.place, tasks)


def stop_where_crossed(reports: List[TileReport]) -> None:
    """Raises the error of the first segment that crosses an earlier one, as one triangulation of
    all does."""
    crossed = [it.crossing for it in reports if it.crossing]
    if crossed:
        row, other = min(crossed)
        message = f"segment {row} crosses segment {other} of all parts: segments may only meet at "
        raise CrossingError(f"{message}points, so leave out one or add a point of both", row)


def triangulate_tiles(
    points: Any,
    tile_size: int,
    client: Any = None,
    folder: Optional[str] = None,
    *,
    segments: Any = (),
    scale: Optional[int] = None,
    columns: Optional[str] = None,
    header: bool = False,
    layer: Any = None,
    resources: Optional[Dict[str, float]] = None,
    progress: bool = False,
) -> TiledCells:
    """The constrained Delaunay triangulation of points and segments in parts, as the cells of each
    tile.

    Parameters
    ----------
    points : list of array_like, frame or str, or a frame of dask.dataframe
        Parts: an array of shape (n, 2), or one with names for its columns, as LAS has; a frame of
        pandas or geopandas; or the name of a file that each worker reaches: a .npy of such an
        array, a table (.csv, .tsv; .txt, .xyz: columns apart by spaces), a .parquet, or what
        geopandas reads. A folder stands for all its files, as `to_csv` and `to_parquet` of
        dask.dataframe write them, and a pattern ("hill-*.csv") for those that it fits, by the
        numbers in their names. The number of a point is its row in all parts after each other, and
        the index has their names in this order. Coordinates are whole numbers from -2**29 to 2**29.
    tile_size : int
        About how many points a tile has; fewer where there would be no tile for some workers. A
        worker needs about 1000 bytes for each.
    client : distributed.Client or concurrent.futures.Executor, optional
        What runs the tasks; without one, this process. A task that failed is run again. If a pool
        of processes breaks, a new one is made.
    folder : str, optional
        A folder that each worker reaches. A folder for this run is made in it, in which the files
        with cells are left, and an index that names them. Without one, a folder of this machine is
        used, and arrays are given.
    segments : list of array_like or str
        Parts, each an array of shape (m, 2) or the name of such a .npy or table: pairs of numbers
        of points, which are joined by constraints. They may overlap and meet at points, and may not
        cross.
    scale : int, optional
        How many parts a unit has, as 100 for coordinates with two decimals: others are refused.
    columns : str, optional
        The columns of x and y, by names ("east,north") or by indexes ("0,1"). Without it they are
        those named x and y, or the first two of a table that has no such names.
    header : bool
        Whether the first row of a table has names, which `columns` by names says too.
    layer : str or int, optional
        The layer of a file with several.
    resources : dict, optional
        What a task needs of the resources that the workers of a Dask cluster were started with, as
        `{"memory": 2e8}`, so that not too many run at once.
    progress : bool, optional
        Whether Dask shows its own progress bar.

    Returns
    -------
    TiledCells
        All rows together, in any order, depend on the points alone. Of equal points the first
        stands for all. A polygon of four or more points on one circle that no constraint cuts is
        cut from its least point, by x and then y.

    Raises
    ------
    CrossingError
        Where a segment crosses an earlier one; `index` is its row in all parts after each other,
        and the message names both rows.
    TevasulimError, TypeError, ValueError
        Where a part is refused; `index` is the row of the point or segment in that part.
    ImportError
        Where a part needs pandas, geopandas or another package that is not installed.

    Examples
    --------
    >>> tiles = triangulate_tiles([[(0, 0), (4, 0)], [(5, 5), (0, 4)]], 2)
    >>> [sorted(cells.tolist()) for cells in tiles.cells]
    [[[0, 1, 3], [3, 1, 2]], []]
    """
    tile_size = operator.index(tile_size)
    if tile_size < 1:
        raise ValueError(f"tile_size is {tile_size}, but a tile needs at least one point")
    room = tempfile.mkdtemp(prefix="tiles-", dir=folder)
    runner = Runner(client, resources, progress)
    try:
        files = TileFiles(room)
        reading = Reading(columns, header, layer, scale)
        parts = list(parts_of(points))
        given = names_of(parts, files, runner, reading), segments_of(segments, files)
        plan = cut_plane(*given, tile_size, runner, files)
        with open(files.name("plan", 0), "wb") as file:
            pickle.dump(plan, file)
        tiles = range(len(plan.boxes))
        reports = runner.run(cells_of_tile, [(files, tile) for tile in tiles])
        stop_where_crossed(reports)
        names = [files.name("cells", tile) for tile in tiles]
        if folder is None:
            return TiledCells([np.load(name) for name in names], reports)
        index = write_index(files, parts, names, reports)
    except BaseException:
        shutil.rmtree(room, ignore_errors=True)
        raise
    finally:
        runner.close()
        if folder is None:
            shutil.rmtree(room, ignore_errors=True)
    return TiledCells(names, reports, index)


def write_index(
    files: TileFiles, parts: List[Any], names: List[str], reports: List[TileReport]
) -> str:
    """Removes all files of a run but its cells, and writes the run's index beside these: the parts
    of the points in their order, or null for one that was no file, and the tiles."""
    kept = {os.path.basename(name) for name in names}
    for name in set(os.listdir(files.folder)) - kept:
        os.remove(os.path.join(files.folder, name))
    tiles = [
        {"file": os.path.basename(name), **it._asdict()} for name, it in zip(names, reports)
    ]
    for tile in tiles:
        del tile["crossing"]
    index = os.path.join(files.folder, "index.json")
    with open(f"{index}.part", "w", encoding="utf-8") as file:
        of_parts = [it if isinstance(it, str) else None for it in parts]
        json.dump({"version": 1, "parts": of_parts, "tiles": tiles}, file, indent=1)
    os.replace(f"{index}.part", index)
    return index
