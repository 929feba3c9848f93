"""Cells of tiles beside those of one triangulation of all points. It is run by checks/tiles.py, in
Debian's Python. """
import glob
import json
import os
import shutil
import signal
import subprocess
import sys
import tempfile
import threading
import time
from concurrent.futures import ProcessPoolExecutor, ThreadPoolExecutor
from concurrent.futures.process import BrokenProcessPool

import dask
import numpy as np
from distributed import Client, LocalCluster

import tevasulim.tiles
from model.geometry import in_circle
from tevasulim import CrossingError, NoSuchPointError, NotWholeError, TooLargeError, Triangulation
from tevasulim._circles import are_zero
from tevasulim.tiles import neighbors, triangulate_tiles
from tiles_parts import check_parts

MOST = 2**29
COUNT, ON_LINE, WORKERS, TILES = 100_000, 3_990, 4, (1, 4, 25, 100)
FEWER = 20_000
NO_SEGMENTS = np.empty((0, 2), np.int64)
FEW_POINTS = tevasulim.tiles.AT_ONCE
# One tile is one, however many workers there are.
tevasulim.tiles.LEAST = 2 * COUNT
SQUARE = [(0, 0), (4, 0), (5, 5), (0, 4)]


def random_points(draw):
    return draw.integers(-MOST, MOST, (COUNT, 2))


def clustered(draw):
    """Sixty clusters of widths that differ 2^16-fold."""
    centers, widths = draw.integers(-(2**28), 2**28, (60, 2)), 2.0 ** draw.uniform(10, 26, 60)
    which = draw.integers(0, 60, COUNT)
    points = centers[which] + draw.normal(size=(COUNT, 2)) * widths[which][:, None]
    return np.clip(np.rint(points), -MOST, MOST).astype(np.int64)


def grid(draw):
    """Each square has its corners on one circle. Steps are so long that floats do not see it."""
    side = int(COUNT**0.5)
    x, y = np.meshgrid(np.arange(side), np.arange(side))
    return (np.stack([x, y], -1).reshape(-1, 2) - side // 2) * (2 * MOST // side - 1)


def line(draw):
    return np.arange(-ON_LINE // 2, ON_LINE // 2)[:, None] * (3, 2) + (0, 1)


def legal_segments(draw, points, tries, near=None):
    """Segments between points that cross none before, to one of the nearest points where it is said
    how many these are."""
    found = []
    with Triangulation(points, segments=[]) as triangulation:
        for _ in range(tries):
            start, end = draw.integers(0, len(points), 2).tolist()
            if near:
                far = ((points - points[start]).astype(float) ** 2).sum(1)
                end = int(np.argpartition(far, near)[draw.integers(near)])
            try:
                triangulation.add_constraint(start, end)
                found.append((start, end))
            except CrossingError:
                continue
    return np.array(found, np.int64).reshape(-1, 2)


def random_segments(draw):
    """Short segments everywhere, and some long ones."""
    points = np.unique(draw.integers(-MOST, MOST, (FEWER, 2)), axis=0)
    near, far = legal_segments(draw, points, 600, 12), legal_segments(draw, points, 20)
    with Triangulation(points, near) as triangulation:
        added = []
        for start, end in far.tolist():
            try:
                triangulation.add_constraint(start, end)
                added.append((start, end))
            except CrossingError:
                continue
    return points, np.concatenate([near, np.array(added, np.int64).reshape(-1, 2)])


def contours(draw):
    """Rings round a hill, one inside another."""
    turn = np.linspace(0, 2 * np.pi, FEWER // 20, endpoint=False)
    rings = [np.stack([np.cos(turn), np.sin(turn)], 1) * radius * 25e6 for radius in range(1, 21)]
    points = np.rint(np.concatenate(rings)).astype(np.int64)
    at = np.arange(len(points)).reshape(20, -1)
    return points, np.stack([at, np.roll(at, -1, axis=1)], -1).reshape(-1, 2)


def parcels(draw):
    """Borders as long lines that cross at stones, and points in the parcels."""
    side, step = 30, 30_000
    x, y = np.meshgrid(np.arange(side) * step, np.arange(side) * step)
    stones = np.stack([x, y], -1).reshape(-1, 2)
    others = draw.integers(0, (side - 1) * step, (FEWER, 2))
    points = np.unique(np.concatenate([stones, others]), axis=0)
    keys = points[:, 0] * 2**31 + points[:, 1]
    last = (side - 1) * step
    lines = [((0, at), (last, at)) for at in range(0, last + 1, step)]
    lines += [((at, 0), (at, last)) for at in range(0, last + 1, step)]
    ends = np.array(lines).reshape(-1, 2)
    rows = np.searchsorted(keys, ends[:, 0] * 2**31 + ends[:, 1])
    return points, rows.reshape(-1, 2)


def one_wall(draw):
    """One constraint through all tiles."""
    points = np.unique(draw.integers(-MOST + 1, MOST, (FEWER, 2)), axis=0)
    ends = [(-MOST, -MOST + 5), (MOST, MOST - 3)]
    return np.concatenate([points, ends]), np.array([[len(points), len(points) + 1]])


def survey_lines(draw):
    """Twelve lines far from each other: each circle reaches from one to the next."""
    y = draw.integers(0, 12, FEWER) * 80_000_000 - 450_000_000 + draw.integers(-3, 4, FEWER)
    return np.stack([draw.integers(-MOST, MOST, FEWER), y], 1), NO_SEGMENTS


def survey_segments(draw):
    """The same with segments along the lines."""
    points, _ = survey_lines(draw)
    return points, legal_segments(draw, points, 60, 12)


def most_on_circle(draw):
    """Corners of the hull but for a few: each circle passes near all of them."""
    turns, radii = draw.uniform(0, 2 * np.pi, FEWER // 4), np.full(FEWER // 4, 2.0**28)
    radii[:10] *= draw.uniform(0.5, 0.999999, 10)
    points = np.stack([np.cos(turns) * radii, np.sin(turns) * radii], 1)
    return np.rint(points).astype(np.int64), NO_SEGMENTS


def rows_in_order(rows):
    return rows[np.lexsort(rows.T[::-1])]


def cells_of_all(points, segments=None):
    """The cells of one triangulation: each face that is alone on its circle, and of the others the
    polygons that they make past no constraint, cut from their least corner. By sets and Python's
    whole numbers."""
    with Triangulation(points, segments) as triangulation:
        faces = triangulation.simplices.tolist()
        neighbors = triangulation.neighbors.tolist()
        is_constraint = triangulation.constraint_sides.tolist()
    places = [tuple(it) for it in points.tolist()]
    parts = list(range(len(faces)))

    def root(i):
        while parts[i] != i:
            parts[i] = parts[parts[i]]
            i = parts[i]
        return i

    for i, across in enumerate(neighbors):
        for side, j in enumerate(across):
            if i < j and not is_constraint[i][side]:
                (far,) = set(faces[j]) - set(faces[i])
                if in_circle(*(places[k] for k in faces[i]), places[far]) == 0:
                    parts[root(i)] = root(j)
    polygons = {}
    for i, face in enumerate(faces):
        polygons.setdefault(root(i), []).append(face)
    cells = []
    for polygon in polygons.values():
        sides = {side for a, b, c in polygon for side in ((a, b), (b, c), (c, a))}
        least = min((k for face in polygon for k in face), key=lambda k: places[k])
        cells += [(least, a, b) for a, b in sides if (b, a) not in sides and least not in (a, b)]
    return rows_in_order(np.array(cells, np.int64).reshape(-1, 3))


def check_neighbors(rows, beyond):
    """The cell beyond each side of each cell is the one that has the side the other way round."""
    sides = {}
    for place, (a, b, c) in enumerate(rows.tolist()):
        sides.update({(a, b): place, (b, c): place, (c, a): place})
    for (a, b, c), found in zip(rows.tolist(), beyond.tolist()):
        assert found == [sides.get(it, -1) for it in ((c, b), (a, c), (b, a))]


def check(points, tiles, client, folder, wanted, segments=NO_SEGMENTS):
    """Runs tiles over the points in three parts, one of them a file, and compares their cells. 25
    tiles are cut and gathered as those of many points are."""
    tevasulim.tiles.AT_ONCE = 0 if tiles == 25 else FEW_POINTS
    parts = np.array_split(points, 3)
    np.save(f"{folder}/part.npy", parts[1])
    parts[1] = f"{folder}/part.npy"
    words = parts, -(-len(points) // tiles), client, folder
    found = triangulate_tiles(*words, segments=np.array_split(segments, 2))
    # Where a worker has few tiles, the number is rounded up to a multiple of the workers there are.
    assert tiles <= len(found.cells) == len(found.reports) < tiles + WORKERS
    rows = np.concatenate([np.load(name) for name in found.cells])
    assert np.array_equal(rows_in_order(rows), wanted)
    if len(rows) < 5000:
        check_neighbors(rows, np.concatenate(neighbors(found.cells)))
    assert sum(it.points for it in found.reports) == len(np.unique(points, axis=0))
    with open(found.index_file) as file:
        named = [it["file"] for it in json.load(file)["tiles"]]
    assert named == [os.path.basename(it) for it in found.cells]
    room = os.path.dirname(found.index_file)
    assert sorted(os.listdir(room)) == sorted([*named, "index.json"])
    # Others may have run in the same folder.
    shutil.rmtree(room)


def check_zero():
    """What decides whether points are on one circle, beside Python's whole numbers: sums of two
    products that are 0, nearly 0, or multiples of 2^64."""
    draw, most = np.random.default_rng(6), 2**61
    a, b = (draw.integers(-9, 10, 4000) << draw.integers(0, 58, 4000) for _ in range(2))
    a[:1000], b[:1000] = draw.integers(-most, most + 1, (2, 1000))
    a[:20], b[10:30] = most, -most
    which = draw.integers(0, 4, 4000)
    c = np.choose(which, [-a, b, a, draw.integers(-9, 10, 4000) << draw.integers(0, 58, 4000)])
    d = np.choose(draw.integers(0, 4, 4000), [b, -a, b + (np.abs(b) < most), a])
    rows = zip(*(it.tolist() for it in (a, b, c, d)))
    wanted = [w * x + y * z == 0 for w, x, y, z in rows]
    for some in slice(0, 4000), slice(500, 510), slice(0, 0):
        assert are_zero(*(it[some] for it in (a, b, c, d))).tolist() == wanted[some]
    assert 500 < sum(wanted) < 3500
    print("sums of products are 0 where whole numbers say so")


def check_few():
    """Few points, many of them on one circle or one line or equal, in tiles of few, in this
    process."""
    draw, count = np.random.default_rng(7), 0
    for reach in (1, 2, 3, 5, MOST) * 30:
        points = draw.integers(-reach, reach + 1, (draw.integers(0, 25), 2))
        if draw.integers(3) == 0:
            points[:, 1] = points[:, 0]
        wanted = cells_of_all(points)
        parts = np.array_split(points, draw.integers(1, 4))
        found = triangulate_tiles(parts, int(draw.integers(1, 8)))
        assert np.array_equal(rows_in_order(np.concatenate(found.cells)), wanted), points.tolist()
        count += len(wanted)
    assert count > 1000
    print(f"few points: {count} cells as in one")


def check_few_segments():
    """The same with segments between the points, many of which overlap or meet on points."""
    draw, count = np.random.default_rng(11), 0
    for reach in (1, 2, 3, 5, 9, MOST) * 15:
        points = draw.integers(-reach, reach + 1, (draw.integers(1, 30), 2))
        if draw.integers(6) == 0:
            points[:, 1] = points[:, 0]
        segments = legal_segments(draw, points, draw.integers(0, 20))
        wanted = cells_of_all(points, segments)
        words = np.array_split(points, draw.integers(1, 4)), int(draw.integers(1, 8))
        found = triangulate_tiles(*words, segments=np.array_split(segments, draw.integers(1, 4)))
        rows = np.concatenate(found.cells)
        check_neighbors(rows, np.concatenate(neighbors(found.cells)))
        rows = rows_in_order(rows)
        assert np.array_equal(rows, wanted), (points.tolist(), segments.tolist())
        count += len(wanted)
    assert count > 500
    print(f"few points and segments: {count} cells as in one")


def check_crossing():
    """The first segment that crosses an earlier one is told with both rows, whatever the tiles."""
    draw = np.random.default_rng(12)
    for _ in range(20):
        points = draw.integers(-50, 51, (40, 2))
        segments = draw.integers(0, 40, (12, 2))
        try:
            Triangulation(points, segments).close()
            wanted = None
        except CrossingError as error:
            wanted = error.index
        for size in 5, 50:
            try:
                triangulate_tiles([points], size, segments=np.array_split(segments, 3))
                found = None
            except CrossingError as error:
                found = error.index
                assert f"segment {found} crosses segment" in str(error)
            assert found == wanted, (points.tolist(), segments.tolist(), found, wanted)
    print("segments that cross are told as in one")


def check_refusals():
    """What is handed in wrongly is refused, and nothing is left."""
    with tempfile.TemporaryDirectory() as folder:
        np.save(f"{folder}/far.npy", [(0, 0), (MOST + 1, 0)])
        np.save(f"{folder}/floats.npy", [(0.5, 0)])
        np.save(f"{folder}/three.npy", [(0, 0, 0)])
        with open(f"{folder}/text.npy", "w") as file:
            file.write("no array")
        kept = sorted(os.listdir(folder))
        for name, error in ("far", TooLargeError), ("floats", NotWholeError), ("three", ValueError):
            try:
                triangulate_tiles([[(0, 0)], f"{folder}/{name}.npy"], 10, None, folder)
            except error as found:
                assert name in str(found) and (name != "far" or found.index == 1)
            else:
                raise AssertionError(name)
        for part in f"{folder}/text.npy", f"{folder}/nowhere.npy", 3, [(0, 2**64)], ["a"]:
            try:
                triangulate_tiles([part], 10, None, folder)
            except (ValueError, TypeError, OSError):
                pass
            else:
                raise AssertionError(part)
        for size in 0, -1:
            try:
                triangulate_tiles([[(0, 0)]], size)
            except ValueError:
                continue
            raise AssertionError(size)
        assert sorted(os.listdir(folder)) == kept
        # Two runs in one folder leave the files of both.
        found = [triangulate_tiles([it], 2, None, folder) for it in (SQUARE, SQUARE[:3])]
        assert [sum(len(np.load(name)) for name in it.cells) for it in found] == [2, 1]
    for segments, error in (
        ([(0, 2)], NoSuchPointError),
        ([(-1, 0)], NoSuchPointError),
        ([(0.0, 1.0)], TypeError),
        ([(0, 1, 2)], ValueError),
    ):
        try:
            triangulate_tiles([[(0, 0), (4, 0)]], 5, segments=[segments])
        except error as found:
            assert error is not NoSuchPointError or found.index == 0
        else:
            raise AssertionError(segments)
    assert triangulate_tiles([], 5).cells[0].shape == (0, 3)
    print("what is handed in wrongly is refused")


class Ending(threading.Thread):
    """Ends a worker as soon as some cells are there and others are not."""

    def __init__(self, client, folder, tiles):
        super().__init__()
        self.pid = list(client.run(os.getpid).values())[0]
        self.folder, self.tiles, self.found = folder, tiles, None

    def run(self):
        begin = time.monotonic()
        while time.monotonic() < begin + 600:
            self.found = len(glob.glob(f"{self.folder}/tiles-*/cells-*.npy"))
            if self.found > self.tiles // 10:
                os.kill(self.pid, signal.SIGKILL)
                return
            time.sleep(0.002)


def check_ending(points, client, folder, wanted, segments=NO_SEGMENTS):
    """The same where a worker is ended in the middle."""
    ending = Ending(client, folder, 100)
    ending.start()
    check(points, 100, client, folder, wanted, segments)
    ending.join()
    assert 10 < ending.found < 100
    assert ending.pid not in client.run(os.getpid).values()
    print(f"the same where a worker was ended after {ending.found} of 100 tiles")


def keys_of(dask_scheduler):
    """The names of tasks that the dashboard shows."""
    return set(dask_scheduler.task_prefixes)


def check_habits(client, folder):
    """What a user of Dask expects: names of tasks on the dashboard; the command's progress, on
    standard error; tasks that need memory, of which workers were begun with so much; and two runs
    at the same time."""
    names = {"survey", "cut", "gather", "gather_from", "cells_of_tile"}
    assert names <= client.run_on_scheduler(keys_of)
    points = np.random.default_rng(40).integers(0, 10**6, (3000, 2))
    np.save(f"{folder}/few.npy", points)
    wanted = cells_of_all(points)
    words = "tiles", f"{folder}/few.npy", "--tile-size", "1000", "-o", f"{folder}/out"
    command = [sys.executable, "-m", "tevasulim", *words, "--scheduler", client.scheduler.address]
    for more in [], ["-q"], ["-q", "--memory", "1e8"]:
        run = subprocess.run([*command, *more], capture_output=True, text=True)
        assert not run.returncode, run.stderr
        rows = np.concatenate([np.load(name) for name in run.stdout.split()])
        assert np.array_equal(rows_in_order(rows), wanted)
        assert ("Completed" in run.stderr) == (not more), run.stderr
    # Two runs in one folder at the same time, one of them with segments.
    segments = legal_segments(np.random.default_rng(42), points, 40, 12)
    of_both = [((), wanted), ([segments], cells_of_all(points, segments))]
    with ThreadPoolExecutor(2) as pool:
        words = [points], 500, client, folder
        runs = [pool.submit(triangulate_tiles, *words, segments=some) for some, _ in of_both]
        found = [it.result() for it in runs]
    assert not set(found[0].cells) & set(found[1].cells)
    for it, (_, wanted) in zip(found, of_both):
        rows = np.concatenate([np.load(name) for name in it.cells])
        assert np.array_equal(rows_in_order(rows), wanted)
        shutil.rmtree(os.path.dirname(it.index_file))
    print("tasks have names, progress is shown, and two runs share a folder")


def check_broken_pool():
    """A pool of which a process was ended is begun again."""
    points = np.random.default_rng(41).integers(0, 10**6, (FEWER, 2))
    wanted = cells_of_all(points)
    with tempfile.TemporaryDirectory() as folder, ProcessPoolExecutor(2) as pool:
        pid = pool.submit(os.getpid).result()
        with ThreadPoolExecutor(1) as other:
            run = other.submit(triangulate_tiles, [points], 200, pool, folder)
            begin = time.monotonic()
            while time.monotonic() < begin + 600:
                if len(glob.glob(f"{folder}/tiles-*/cells-*.npy")) > 10:
                    break
                time.sleep(0.002)
            os.kill(pid, signal.SIGKILL)
            found = run.result()
        rows = np.concatenate([np.load(name) for name in found.cells])
        assert np.array_equal(rows_in_order(rows), wanted)
        try:
            pool.submit(os.getpid)
        except BrokenProcessPool:
            print("the same where a process of a pool was ended")
            return
    raise AssertionError("the pool was not broken")


def check_segments(client, folder):
    """Tiles with constraints of each kind beside one triangulation."""
    for number, make in enumerate((random_segments, contours, parcels, one_wall)):
        points, segments = make(np.random.default_rng(20 + number))
        wanted = cells_of_all(points, segments)
        for tiles in TILES:
            check(points, tiles, client, folder, wanted, segments)
        print(f"{make.__name__}: {len(wanted)} cells, {len(segments)} segments", flush=True)
        if make is parcels:
            check_ending(points, client, folder, wanted, segments)


def check_far_reaching(client, folder):
    """Points whose circles reach far past their tiles."""
    for number, make in enumerate((survey_lines, survey_segments, most_on_circle)):
        points, segments = make(np.random.default_rng(30 + number))
        wanted = cells_of_all(points, segments)
        for tiles in 4, 25:
            check(points, tiles, client, folder, wanted, segments)
        print(f"{make.__name__}: {len(wanted)} cells, {len(segments)} segments", flush=True)


def main():
    check_zero()
    check_few()
    check_few_segments()
    check_crossing()
    check_refusals()
    check_parts()
    # A machine that is busy with other things is no reason to give up.
    waits = {"distributed.comm.timeouts.connect": "600s", "distributed.comm.timeouts.tcp": "600s"}
    dask.config.set({**waits, "distributed.scheduler.worker-ttl": None})
    room = tempfile.TemporaryDirectory()
    folder = f"{room.name}/tiles"
    os.mkdir(folder)
    local = {"host": "127.0.0.1", "dashboard_address": "127.0.0.1:0", "local_directory": room.name}
    local.update({"n_workers": WORKERS, "threads_per_worker": 1, "silence_logs": 50})
    local["resources"] = {"memory": 1.5e8}
    with room, LocalCluster(**local) as cluster, Client(cluster) as client:
        for number, make in enumerate((random_points, clustered, grid, line)):
            draw = np.random.default_rng(number)
            points = draw.permutation(make(draw))
            # Some stand twice.
            points = np.concatenate([points, points[:10]])
            wanted = cells_of_all(points)
            for tiles in TILES:
                check(points, tiles, client, folder, wanted)
            print(f"{make.__name__}: {len(wanted)} cells in {TILES} tiles as in one", flush=True)
            if make is clustered:
                check_ending(points, client, folder, wanted)
        check_segments(client, folder)
        check_far_reaching(client, folder)
        check_habits(client, folder)
    with tempfile.TemporaryDirectory() as folder, ProcessPoolExecutor(2) as pool:
        check(points, 25, pool, folder, wanted)
        check(points, 25, None, folder, wanted)
    check_broken_pool()


if __name__ == "__main__":
    main()
