"""One tile of a plane: it triangulates what it has, and asks the others about faces that reach past
it, until each cell at a point of its own is sure."""
from __future__ import annotations

import pickle
import time
from functools import lru_cache
from typing import Any, Dict, List, NamedTuple, Optional, Tuple

import numpy as np

from ._asks import Given, ask_tiles, pairs_of
from ._circles import Faces, Wanted, cells, disks
from ._disks import Disks, are_in, are_listed, keys_of
from ._library import MOST
from ._memory import freed_is_kept
from ._mesh import Mesh
from ._reach import Reached, groups_of, reach
from ._segments import ENDS, NONE, NUMBERS, ROW, bounds_of, common_points, crossing, may_enter
from ._segments import meet
from ._tile_files import BLOCK, Neighbour, TileFiles, save
from ._types import NDArray
from .errors import CrossingError

# How wide a halo is at first, in mean distances of the tile's points, and about how many points it
# has at most on each side, by the square root of theirs.
HALO, AT_SIDE = 6.0, 400
# Where more faces than this part of a tile's points may have more in their disks than the tile
# knows, it takes whole blocks: so often, and with at most so many times its own points, or so many
# where these are few. Where they are more than a larger part, it first takes some of each block.
ASKED, MANY, TAKEN, MOST_KNOWN, FEW = 0.01, 0.05, 4, 8, 1 << 15
# Of how many faces one is looked at to find whether they are many, and to find the first blocks;
# and what part of a tile its blocks cover at most where many are to be expected.
LOOKED, SAMPLED, COVERED = 32, 16, 0.1
# How many points are taken at first for one circle, those deepest inside. Each time that something
# was given twice as many are taken: many points may be inside and hidden.
DEEPEST, MOST_AT_ONCE = 8, 4096
# How many tiles are asked together at first.
TILES_AT_ONCE = 4
# The sides of a box that are nowhere.
FAR = np.array([-(2**31), -(2**31), 2**31 - 1, 2**31 - 1])


class TileReport(NamedTuple):
    """What a tile did: its points, those of its halo and those fetched later, how many circles it
    asked other tiles about, bytes that it read of theirs, how often it triangulated, processor
    seconds, and cells; and the rows of two segments that cross, or none."""

    points: int
    halo: int
    fetched: int
    asked: int
    bytes: int
    rounds: int
    seconds: float
    cells: int
    crossing: Tuple[int, ...] = ()


class Plan(NamedTuple):
    """What each tile knows of all: the part of the plane of each, and the bounds of its points, as
    rows of x and y from, x and y to; the corners of the hull of all points, with their numbers, and
    the tile and row in it of each; for each part of the segments where those of a tile begin; the
    longest segments of all; and which tiles have points that are not corners of that hull, which
    all tiles know."""

    boxes: NDArray[Any]
    bounds: NDArray[Any]
    corners: NDArray[Any]
    numbers: NDArray[Any]
    places: NDArray[Any]
    segments: List[List[int]]
    longest: NDArray[Any]
    has_others: NDArray[Any]


# The sides of a region that has no point at all.
NOWHERE = np.array([0, 0, -1, -1])


def region_round(box: NDArray[Any], widths: NDArray[Any]) -> NDArray[Any]:
    """A box and so much beyond each side, in whole numbers. A side beyond which no point can be is
    far."""
    sides = np.rint(np.clip(box + widths * (-1, -1, 1, 1), -MOST, MOST))
    is_far = np.concatenate([sides[:2] <= -MOST, sides[2:] >= MOST])
    given: NDArray[Any] = np.where(is_far, FAR, sides.astype(np.int64))
    return given


class Crossing(Exception):
    """The rows of a segment, and of one before it that it crosses."""


class Part:
    """Some of all points, rows of int64 with their numbers and whether they are a tile's own, and
    their triangulation, with the segments between them that are known. A point's row is that of its
    vertex. It has all points of a region."""

    def __init__(
        self,
        tile: Tile,
        points: NDArray[Any],
        numbers: NDArray[Any],
        segments: NDArray[Any],
        region: NDArray[Any] = NOWHERE,
    ):
        self.tile, self.region = tile, region
        self.points, self.numbers = np.empty((0, 2), np.int64), np.empty(0, np.int64)
        self.segments = NONE
        self._keys: Optional[NDArray[Any]] = None
        self._open: Dict[int, NDArray[Any]] = {}
        self.mesh = Mesh()
        try:
            self.insert_all(points, numbers)
            self.constrain(segments)
        except BaseException:
            self.close()
            raise

    def close(self) -> None:
        self.mesh.close()

    def look(self) -> None:
        """Reads the faces as they are now."""
        self.corners, self.neighbors, self.is_constraint = self.mesh.faces()
        self.is_own = self.tile.are_own(self.points)

    def faces_at(self, is_asked: NDArray[Any]) -> NDArray[Any]:
        """The faces with a corner of some points."""
        a, b, c = (is_asked.take(it) for it in self.corners)
        return np.flatnonzero(a | b | c)

    def own_faces(self, step: int) -> NDArray[Any]:
        """The faces at own points, of so many one."""
        given: NDArray[Any] = np.flatnonzero(self.is_own[self.corners[:, ::step]].any(0)) * step
        return given

    def own_faces_past(self) -> NDArray[Any]:
        """The faces at own points whose closed disks have something beyond the region."""
        past = np.flatnonzero(self.mesh.faces_beyond(self.corners.shape[1], self.region))
        given: NDArray[Any] = past[self.is_own[self.corners[:, past]].any(0)]
        return given

    def are_open(self, tile: int) -> NDArray[Any]:
        """Which blocks of another tile may have points that are not known."""
        if tile not in self._open:
            boxes, (x0, y0, x1, y1) = self.tile.tiles[tile].boxes(), self.region.tolist()
            is_in = (boxes[:, 0] >= x0) & (boxes[:, 1] >= y0)
            is_in &= (boxes[:, 2] <= x1) & (boxes[:, 3] <= y1)
            self._open[tile] = ~(is_in | self.tile.are_corners(tile))
        return self._open[tile]

    def reached(self, faces: NDArray[Any]) -> Reached:
        """Which of many faces may have something in their disks that is not known, and the blocks
        in which it may be."""
        asked = Disks(self.points, self.corners[:, faces], self.is_constraint[:, faces], NONE)
        return reach(asked, self, self.tile.others())

    def count_past(self, faces: NDArray[Any]) -> int:
        """About how many of some faces have disks that reach past the region."""
        x, y, _, wide = disks(self.points, self.corners[:, faces]).T
        x0, y0, x1, y1 = self.region.tolist()
        is_in = (x - wide >= x0) & (x + wide <= x1) & (y - wide >= y0) & (y + wide <= y1)
        return len(faces) - int(is_in.sum())

    def take_firsts(self, blocks: Dict[int, NDArray[Any]]) -> None:
        """Takes the first point of each of some tiles' blocks."""
        self.take([self.tile.tiles[it].firsts(some) for it, some in blocks.items()], NONE)

    def take_blocks(self, blocks: Dict[int, NDArray[Any]], segments: NDArray[Any]) -> None:
        """Takes all points of some tiles' blocks, and segments."""
        self.take([self.tile.tiles[it].rows(some) for it, some in blocks.items()], segments)
        for tile, some in blocks.items():
            self.are_open(tile)[some] = False

    def take(self, given: List[Tuple[Any, Any]], segments: NDArray[Any]) -> None:
        points = [np.empty((0, 2), np.int64), *(some for some, _ in given)]
        numbers = [np.empty(0, np.int64), *(of_them for _, of_them in given)]
        self.add(np.concatenate(points), np.concatenate(numbers), segments)

    def disks_of(self, faces: NDArray[Any]) -> Disks:
        words = self.corners[:, faces], self.is_constraint[:, faces]
        longest = self.tile.plan.longest
        is_new = ~np.isin(longest[:, ROW], self.segments[:, ROW])
        return Disks(self.points, *words, np.concatenate([self.segments, longest[is_new]]))

    def is_known(self, points: NDArray[Any]) -> NDArray[Any]:
        if not len(points):
            return np.empty(0, bool)
        if self._keys is None:
            others = self.points[~are_in(self.points, self.region)]
            self._keys = np.sort(keys_of(others))
        given: NDArray[Any] = are_in(points, self.region) | are_listed(self._keys, points)
        return given

    def rows_of(self, numbers: NDArray[Any]) -> NDArray[Any]:
        """The rows of points that are known, by their numbers."""
        order = np.argsort(self.numbers, kind="stable")
        return order[np.searchsorted(self.numbers, numbers, sorter=order)]

    def insert_all(self, points: NDArray[Any], numbers: NDArray[Any]) -> None:
        """Inserts further points, none of which is known."""
        rows = self.mesh.insert_all(points)
        self.points = np.concatenate([self.points, points.take(rows, axis=0)])
        self.numbers = np.concatenate([self.numbers, numbers.take(rows)])
        self._keys = None

    def constrain(self, segments: NDArray[Any]) -> None:
        """Makes constraints along further segments, whose ends are known. Where one crosses an
        earlier one at a point of all that is not known yet, that point is inserted first."""
        while len(segments):
            try:
                self.mesh.constrain(self.rows_of(segments[:, NUMBERS].ravel()).reshape(-1, 2))
                self.segments = np.concatenate([self.segments, segments])
                return
            except CrossingError as error:
                self.segments = np.concatenate([self.segments, segments[: error.index]])
                segments = segments[error.index :]
                self.insert_meeting_points(segments[0])

    def insert_meeting_points(self, segment: NDArray[Any]) -> None:
        """Inserts the points at which a segment crosses those before it, and refuses it where it
        crosses one elsewhere."""
        points = common_points(self.segments, segment)
        points = points[~self.is_known(points)]
        numbers = self.tile.numbers_at(points)
        is_there = numbers >= 0
        if not is_there.any():
            others = self.segments[crossing(self.segments, segment), ROW].tolist()
            # It may come after segments that stand behind it in the list.
            rows = int(segment[ROW]), min(others, default=int(segment[ROW]))
            raise Crossing(max(rows), min(rows))
        self.insert_all(points[is_there], numbers[is_there])

    def add(
        self, points: NDArray[Any], numbers: NDArray[Any], segments: NDArray[Any]
    ) -> None:
        """Takes further points, and segments with their ends."""
        ends, of_them = ends_of(segments)
        numbers, first = np.unique(np.concatenate([numbers, of_them]), return_index=True)
        points = np.concatenate([points, ends])[first]
        is_new = ~self.is_known(points)
        self.insert_all(points[is_new], numbers[is_new])
        self.constrain(segments)

    def cells(self, is_open: NDArray[Any], are_at: bool) -> NDArray[Any]:
        """The cells whose least point is the tile's own, by the numbers of their corners: those at
        points that are open, or all others."""
        faces = Faces(self.points, self.corners, self.neighbors, self.is_constraint)
        given: NDArray[Any] = self.numbers.take(cells(faces, Wanted(self.is_own, is_open, are_at)))
        return given


def ends_of(segments: NDArray[Any]) -> Tuple[NDArray[Any], NDArray[Any]]:
    """The ends of segments, and their numbers."""
    return segments[:, ENDS].reshape(-1, 2), segments[:, NUMBERS].ravel()


class Tile:
    """A tile's own points and what it may ask: all tiles, of which it has the bounds."""

    def __init__(self, files: TileFiles, tile: int, plan: Plan):
        self.files, self.tile, self.plan = files, tile, plan
        self.points, self.numbers = files.points(tile)
        self.points = self.points.astype(np.int64)
        self.tiles = [Neighbour(files, it) for it in range(len(plan.bounds))]
        self.bounds = plan.bounds.astype(np.int64)
        self.is_there = plan.has_others
        # Tiles without points have bounds of nothing.
        self.is_other = self.bounds[:, 0] <= self.bounds[:, 2]
        self.is_other[tile] = False
        self.region, self.is_sparse = self.first_region(), self.leaves_gaps()
        self.asked, self.deepest = 0, DEEPEST
        self._segments: Dict[int, Any] = {}

    def first_region(self) -> NDArray[Any]:
        """The tile's part of the plane and so much round it that at most sides some rows of points
        are had of the tiles beyond."""
        x0, y0, x1, y1 = self.bounds[self.tile].tolist()
        box, count = self.plan.boxes[self.tile], len(self.points)
        width = HALO * float(np.sqrt(max(x1 - x0, 1) * max(y1 - y0, 1) / count))
        widths = np.full(4, width)
        for side in range(4):
            of_side = np.arange(4) == side
            while widths[side] > 1:
                if self.size_of(region_round(box, widths * of_side)) <= AT_SIDE * np.sqrt(count):
                    break
                widths[side] /= 2
        return region_round(box, widths)

    def size_of(self, region: NDArray[Any]) -> int:
        """About how many points of other tiles a region has."""
        met = np.flatnonzero(meet(self.bounds, region) & self.is_other)
        return BLOCK * sum(int(meet(self.tiles[i].boxes(), region).sum()) for i in met)

    def others(self) -> NDArray[Any]:
        """The other tiles that have points which not all tiles know."""
        return np.flatnonzero(self.is_there & self.is_other)

    def are_corners(self, tile: int) -> NDArray[Any]:
        """Which blocks of a tile have nothing but corners of the hull of all points."""
        rows = self.plan.places[self.plan.places[:, 0] == tile, 1]
        return self.tiles[tile].are_whole(np.bincount(rows // BLOCK))

    def leaves_gaps(self) -> bool:
        """Whether the tile's blocks leave most of it empty, as where points lie on lines: then
        disks are wide."""
        x0, y0, x1, y1 = self.bounds[self.tile].tolist()
        boxes = self.files.rows("boxes", self.tile).astype(np.float64)
        areas = (boxes[:, 2] - boxes[:, 0]) * (boxes[:, 3] - boxes[:, 1])
        return float(areas.sum()) < COVERED * float(x1 - x0) * float(y1 - y0)

    def near_blocks(self) -> Dict[int, NDArray[Any]]:
        """The blocks of other tiles round the tile, about as many as it may take."""
        x0, y0, x1, y1 = self.bounds[self.tile].tolist()
        width, most = float(max(x1 - x0, y1 - y0, 1)), self.most_known()
        region = self.region_of(width)
        while width > 1 and self.size_of(region) > most:
            width /= 2
            region = self.region_of(width)
        while width < MOST and self.size_of(self.region_of(2 * width)) <= most:
            width *= 2
            region = self.region_of(width)
        met = np.flatnonzero(meet(self.bounds, region) & self.is_other)
        return {i: np.flatnonzero(meet(self.tiles[i].boxes(), region)) for i in met.tolist()}

    def most_known(self) -> int:
        """About how many points of other tiles it may take at most."""
        return max(MOST_KNOWN * len(self.points), FEW)

    def region_of(self, width: float) -> NDArray[Any]:
        return region_round(self.plan.boxes[self.tile], np.full(4, width))

    def are_own(self, points: NDArray[Any]) -> NDArray[Any]:
        """Which points lie in the tile's part of the plane; lower sides belong to it."""
        x0, y0, x1, y1 = self.plan.boxes[self.tile].tolist()
        x, y = points[:, 0], points[:, 1]
        given: NDArray[Any] = (x >= x0) & (x < x1) & (y >= y0) & (y < y1)
        return given

    def numbers_at(self, points: NDArray[Any]) -> NDArray[Any]:
        """The numbers of the points at some positions, or -1 where none is."""
        numbers = np.full(len(points), -1, np.int64)
        boxes = self.plan.boxes
        for row, (x, y) in enumerate(points.tolist()):
            is_in = (boxes[:, 0] <= x) & (x < boxes[:, 2]) & (boxes[:, 1] <= y) & (y < boxes[:, 3])
            (tile,) = np.flatnonzero(is_in)
            numbers[row] = self.files.numbers_at(int(tile), points[row : row + 1])[0]
        return numbers

    def segments_in(self, box: NDArray[Any]) -> NDArray[Any]:
        """The segments whose bounds meet a box, by their rows."""
        if not self.plan.segments:
            return NONE
        found = [NONE]
        for tile in np.flatnonzero(meet(self.plan.boxes, box)).tolist():
            if tile not in self._segments:
                segments = self.files.segments(tile, self.plan.segments)
                self._segments[tile] = segments, bounds_of(segments)
            segments, bounds = self._segments[tile]
            found.append(segments[meet(bounds, box)])
        every = np.concatenate(found)
        return every[np.unique(every[:, ROW], return_index=True)[1]]

    def halo(self) -> Tuple[NDArray[Any], NDArray[Any]]:
        """The points of other tiles in the region."""
        points, numbers = [np.empty((0, 2), np.int64)], [np.empty(0, np.int64)]
        is_asked = meet(self.bounds, self.region) & self.is_other
        for i in np.flatnonzero(is_asked):
            boxes = self.tiles[i].boxes()
            some, of_them = self.tiles[i].rows(np.flatnonzero(meet(boxes, self.region)))
            is_in = are_in(some, self.region)
            points.append(some[is_in].astype(np.int64))
            numbers.append(of_them[is_in])
        return np.concatenate(points), np.concatenate(numbers)

    def part(self) -> Part:
        """The tile's own points, its halo, the segments that may meet both, and the corners of the
        hull of all points: with these no cell at an own point is beyond what is known."""
        points, numbers = self.halo()
        points, numbers = np.concatenate([self.points, points]), np.append(self.numbers, numbers)
        segments = self.segments_in(self.region)
        # All points in the region are known. Of those round it some are where disks would be wider
        # without them than those of all points.
        blocks = self.near_blocks() if self.is_sparse else {}
        given = [self.tiles[it].firsts(some) for it, some in blocks.items()]
        given += [ends_of(segments), (self.plan.corners, self.plan.numbers)]
        more, of_them = (np.concatenate(it) for it in zip(*given))
        of_them, first = np.unique(of_them, return_index=True)
        more = more[first].astype(np.int64)
        is_new = ~are_in(more, self.region)
        points = np.concatenate([points, more[is_new]])
        numbers = np.append(numbers, of_them[is_new])
        return Part(self, points, numbers, segments, self.region)

    def part_at(self, part: Part, is_open: NDArray[Any], given: Given, more: NDArray[Any]) -> Part:
        """A smaller part: some points of a part, their neighbours in it, what was given, the
        segments that may meet these faces, and more segments, and the corners of the hull of all
        points."""
        faces = part.faces_at(is_open)
        rows = np.unique(part.corners[:, faces])
        segments = part.segments
        if len(segments):
            at = part.points[rows]
            box = np.concatenate([at.min(0), at.max(0)])
            segments = segments[meet(bounds_of(segments), box)]
        segments = np.concatenate([segments, more])
        segments = segments[np.unique(segments[:, ROW], return_index=True)[1]]
        ends, of_ends = ends_of(segments)
        points, numbers = given.points()
        points = np.concatenate([part.points[rows], points, ends, self.plan.corners])
        numbers = np.concatenate([part.numbers[rows], numbers, of_ends, self.plan.numbers])
        numbers, first = np.unique(numbers, return_index=True)
        return Part(self, points[first], numbers, segments)

    def lacking(self, part: Part, faces: NDArray[Any]) -> Tuple[NDArray[Any], NDArray[Any]]:
        """Which faces of a part a segment may enter that the part does not know, and these
        segments."""
        is_lacking = np.zeros(len(faces), bool)
        if not self.plan.segments or not len(faces):
            return is_lacking, NONE
        corners = part.points[part.corners[:, faces]]
        boxes = np.hstack([corners.min(0), corners.max(0)])
        segments = self.segments_in(np.concatenate([boxes[:, :2].min(0), boxes[:, 2:].max(0)]))
        segments = segments[~np.isin(segments[:, ROW], part.segments[:, ROW])]
        is_needed, bounds = np.zeros(len(segments), bool), bounds_of(segments)
        for rows, box in groups_of(boxes) if len(segments) else ():
            near = np.flatnonzero(meet(bounds, box))
            may = may_enter(segments[near], corners[:, rows], boxes[rows])
            is_lacking[rows] = may.any(1)
            is_needed[near] |= may.any(0)
        return is_lacking, segments[is_needed]

    def ask(self, part: Part, faces: NDArray[Any], tiles: NDArray[Any]) -> Given:
        """Points of some tiles, unknown to a part, inside of the disks of its faces or, for those
        with none, all on their circles, but for those beyond a constraint at the face's side. Each
        disk asks first the tile that is nearest to its centre."""
        asked, given = part.disks_of(faces), Given(len(faces))
        ranks = asked.ranks(np.arange(len(asked)), self.bounds[tiles])
        order, reached = np.argsort(ranks, axis=1, kind="stable"), (ranks < 0).sum(1)
        first, width = 0, TILES_AT_ONCE
        while first < reached.max(initial=0):
            turns = np.arange(first, min(first + width, len(tiles)))
            is_asking = (turns < reached[:, None]) & ~given.is_done[:, None]
            rows, places = np.nonzero(is_asking)
            at = tiles[order[rows, turns[places]]]
            self.asked += len(rows)
            pairs = pairs_of(self.tiles, part, asked, rows, at)
            ask_tiles(self.tiles, part, asked, pairs, given, self.deepest)
            first, width = first + width, 2 * width
        self.deepest = min(2 * self.deepest, MOST_AT_ONCE)
        return given


class Work:
    """What a tile does, step by step."""

    def __init__(self, files: TileFiles, tile: int, plan: Plan):
        self.tile = Tile(files, tile, plan)
        self.rounds = self.known = self.fetched = 0
        self.before = np.empty((3, 0), np.int32)

    def rows(self) -> NDArray[Any]:
        """The cells whose least point is the tile's own. A face of a part is sure where the part
        has each point of all that may be seen in its closed disk, and each segment that may enter
        it. Where a face at an own point is not, the cells at that point come of a smaller part, in
        which all faces at it are made sure."""
        part = self.tile.part()
        try:
            past, is_reached = self.take_more(part)
            self.known = len(part.points)
            given = self.tile.ask(part, past[is_reached], self.tile.others())
            is_unsure, segments = self.tile.lacking(part, past)
            is_unsure[np.flatnonzero(is_reached)[given.is_given]] = True
            is_open = np.zeros(len(part.points), bool)
            is_open[part.corners[:, past[is_unsure]]] = True
            is_open &= part.is_own
            rows = part.cells(is_open, False)
            if not is_unsure.any():
                return rows
            smaller = self.tile.part_at(part, is_open, given, segments)
            asked = part.numbers[is_open]
        finally:
            part.close()
        try:
            return np.concatenate([rows, self.sure_cells(smaller, asked)])
        finally:
            smaller.close()

    def take_more(self, part: Part) -> Tuple[NDArray[Any], NDArray[Any]]:
        """The faces at own points whose disks reach past the part's region, and which of them may
        have something in their disks that the part does not know. Where these are not few the part
        takes the blocks that they reach."""
        few = ASKED * len(self.tile.points)
        self.look(part)
        if LOOKED * part.count_past(part.own_faces(LOOKED)) > MANY * len(self.tile.points):
            self.take_roughly(part)
        faces = part.own_faces_past()
        if len(faces) <= few:
            return faces, np.ones(len(faces), bool)
        found = part.reached(faces)
        for _ in range(TAKEN):
            blocks = found.blocks(max(len(self.tile.points) // 3, FEW) // BLOCK)
            if found.is_reached.sum() <= few or not blocks:
                break
            self.take_blocks(part, faces, blocks)
            # A face within the region that is as it was needs no more.
            is_asked = ~are_same(part.corners, self.before)
            is_asked[faces] = True
            own = part.faces_at(part.is_own)
            faces = own[is_asked[own]]
            found = part.reached(faces)
        return faces, found.is_reached

    def look(self, part: Part) -> None:
        part.look()
        self.rounds += 1

    def take_roughly(self, part: Part) -> None:
        """Takes a point of each of many blocks round the tile, and then the blocks that some of its
        faces reach."""
        if not self.tile.is_sparse:
            part.take_firsts(self.tile.near_blocks())
            part.look()
        faces = part.own_faces(SAMPLED)
        blocks = part.reached(faces).blocks(self.tile.most_known() // BLOCK)
        if blocks:
            self.take_blocks(part, faces, blocks)

    def take_blocks(self, part: Part, faces: NDArray[Any], blocks: Dict[int, Any]) -> None:
        """Takes blocks that some faces reach, and what segments may enter these. `before` has the
        corners of all faces as they were."""
        self.before = part.corners
        part.take_blocks(blocks, self.tile.lacking(part, faces)[1])
        self.look(part)

    def sure_cells(self, smaller: Part, asked: NDArray[Any]) -> NDArray[Any]:
        """The cells at some own points, after each face there is made sure."""
        tiles, looked = np.flatnonzero(self.tile.is_there), np.empty((3, 0), np.int32)
        again = np.empty(0, np.int64)
        while True:
            self.look(smaller)
            is_asked = np.isin(smaller.numbers, asked)
            # A face that nothing was given for, and that is as it was, is sure already.
            is_new = ~are_same(smaller.corners, looked)
            is_new[again] = True
            faces, looked = smaller.faces_at(is_asked), smaller.corners
            faces = faces[is_new[faces]]
            given = self.tile.ask(smaller, faces, tiles)
            is_lacking, segments = self.tile.lacking(smaller, faces)
            again = faces[given.is_given | is_lacking]
            if not len(again):
                return smaller.cells(is_asked, True)
            points, numbers = given.points()
            self.fetched += len(numbers)
            smaller.add(points, numbers, segments)


def are_same(corners: NDArray[Any], before: NDArray[Any]) -> NDArray[Any]:
    """Which faces have the corners that stood in their places before."""
    is_same = np.zeros(corners.shape[1], bool)
    count = min(len(is_same), before.shape[1])
    is_same[:count] = (corners[:, :count] == before[:, :count]).all(0)
    return is_same


@lru_cache(maxsize=1)
def plan_in(name: str) -> Plan:
    """The plan of a run, which a process reads once."""
    with open(name, "rb") as file:
        given: Plan = pickle.load(file)
    return given


@freed_is_kept()
def cells_of_tile(files: TileFiles, tile: int) -> TileReport:
    """Writes the cells of a tile, by the plan that was left in the folder."""
    begin, plan = time.process_time(), plan_in(files.name("plan", 0))
    # Where all points are on one line there is no cell at all.
    if len(plan.corners) < 3 or plan.bounds[tile, 0] > plan.bounds[tile, 2]:
        save(files.name("cells", tile), np.empty((0, 3), np.int64))
        count = len(files.points(tile)[1])
        return TileReport(count, 0, 0, 0, 0, 0, time.process_time() - begin, 0)
    work = Work(files, tile, plan)
    own = len(work.tile.points)
    crossed: Tuple[int, ...] = ()
    try:
        rows = work.rows()
    except Crossing as found:
        rows, crossed = np.empty((0, 3), np.int64), found.args
    save(files.name("cells", tile), rows)
    read = sum(it.bytes for it in work.tile.tiles) + plan.corners.nbytes + plan.numbers.nbytes
    seconds = time.process_time() - begin
    words = own, work.known - own, work.fetched, work.tile.asked, read, work.rounds, seconds
    return TileReport(*words, len(rows), crossed)
