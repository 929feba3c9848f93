"""benchmark_tiles.py KIND N TILE_SIZE [WORKERS..]: what tiles over a Dask cluster of processes on
this machine cost beside one triangulation (Debian: python3-numpy python3-distributed).

KIND is random, clustered, grid or lines. Points are made in files of 10^6. WORKERS are numbers of
workers, 0 1 2 4 where none is given; 0 is this process alone, without a cluster. Beside each one
triangulation is made anew, since a shared machine is not as fast at all times. It prints the clock,
points a second, processor seconds beside those of one triangulation, everything counted from the
first read to the last cell written, what the tiles did on average and at most, and the most
resident memory that a worker had. At last it prints the least number of workers whose clock beats
one triangulation, how much faster four are than two, and how busy the machine was.
"""
import os
import sys
import tempfile
import time

import numpy as np
from distributed import Client, LocalCluster

from tevasulim import Triangulation
from tevasulim.tiles import TileReport, triangulate_tiles

MOST, PART = 2**29, 10**6


def points_of(kind, count, all_of_them, number):
    """A part of so many points, of a number of all."""
    draw = np.random.default_rng(number)
    if kind == "random":
        return draw.integers(-MOST, MOST, (count, 2))
    if kind == "clustered":
        same = np.random.default_rng(0)
        centers, widths = same.integers(-(2**28), 2**28, (60, 2)), 2.0 ** same.uniform(10, 26, 60)
        which = draw.integers(0, 60, count)
        points = centers[which] + draw.normal(size=(count, 2)) * widths[which][:, None]
        return np.clip(np.rint(points), -MOST, MOST).astype(np.int64)
    if kind == "grid":
        side = int(np.ceil(all_of_them**0.5))
        at = np.arange(PART * number, PART * number + count)
        return np.stack([at % side, at // side], 1) * (2 * MOST // side) - MOST
    if kind == "lines":
        y = draw.integers(0, 12, count) * 80_000_000 - 450_000_000 + draw.integers(-3, 4, count)
        return np.stack([draw.integers(-MOST, MOST, count), y], 1)
    sys.exit(__doc__)


def memory():
    """The most resident MiB that this process has had. What `getrusage` says has those of the
    process that began it too."""
    with open("/proc/self/status", encoding="ascii") as file:
        (most,) = [int(line.split()[1]) for line in file if line.startswith("VmHWM:")]
    return most / 1024


def parts_in(folder, kind, count):
    names = []
    for number, begin in enumerate(range(0, count, PART)):
        names.append(f"{folder}/part-{number}.npy")
        some = points_of(kind, min(PART, count - begin), count, number)
        np.save(names[-1], some.astype(np.int32))
    return names


def is_ready():
    """Whether this process has imported what tiles need, as `one_process` has before its clock."""
    return bool(TileReport)


def one_process(names, folder):
    """The clock and processor seconds of one triangulation, from the files to a file of faces."""
    clock, processor = time.monotonic(), time.process_time()
    points = np.concatenate([np.load(name) for name in names])
    with Triangulation(points) as triangulation:
        np.save(f"{folder}/faces.npy", triangulation.simplices)
    return time.monotonic() - clock, time.process_time() - processor


def without_cluster(names, size, folder):
    """The same of tiles in this process, what they did, and the most memory that it had."""
    clock, processor = time.monotonic(), time.process_time()
    tiles = triangulate_tiles(names, size, None, folder)
    took = time.monotonic() - clock, time.process_time() - processor
    for name in tiles.cells:
        os.remove(name)
    return *took, tiles.reports, memory()


def stolen():
    """Seconds that processors of this machine had, and those that the host took away."""
    with open("/proc/stat", encoding="ascii") as file:
        ticks = list(map(int, file.readline().split()[1:9]))
    return sum(ticks) / 100, ticks[7] / 100


def with_workers(names, size, workers, folder):
    """The same of tiles with so many workers, what the tiles did, and the most memory of a
    worker."""
    local = {"host": "127.0.0.1", "dashboard_address": "127.0.0.1:0", "local_directory": folder}
    local.update({"n_workers": workers, "threads_per_worker": 1, "silence_logs": 50})
    with LocalCluster(**local) as cluster, Client(cluster) as client:
        assert all(client.run(is_ready).values())
        before = sum(client.run(time.process_time).values()) + time.process_time()
        begin = time.monotonic()
        tiles = triangulate_tiles(names, size, client, folder)
        clock = time.monotonic() - begin
        after = sum(client.run(time.process_time).values()) + time.process_time()
        most = max(client.run(memory).values())
    for name in tiles.cells:
        os.remove(name)
    return clock, after - before, tiles.reports, most


def tell(clock, of_tiles, reports, most, of_one):
    """Prints what a run took and what its tiles did."""
    count = sum(it.points for it in reports)
    print(f"{clock:.2f} s, {count / clock:.0f} points a second, {of_tiles:.2f} processor seconds,")
    print(f"  {of_tiles / of_one:.2f} of one triangulation, at most {most:.0f} MiB a worker")
    columns = dict(zip(TileReport._fields[:-1], zip(*(it[:-1] for it in reports))))
    for name, column in columns.items():
        print(f"  {name}: {np.mean(column):.6g} a tile, at most {max(column):.6g}")
    sys.stdout.flush()


def main(words):
    if len(words) < 3:
        sys.exit(__doc__)
    kind, count, size = words[0], int(float(words[1])), int(float(words[2]))
    before, beating, clocks = stolen(), [], {}
    with tempfile.TemporaryDirectory() as folder:
        names = parts_in(folder, kind, count)
        for workers in list(map(int, words[3:])) or [0, 1, 2, 4]:
            alone, of_one = one_process(names, folder)
            print(f"{kind}, {count} points: one triangulation takes {alone:.2f} s,", end=" ")
            print(f"{of_one:.2f} processor seconds", flush=True)
            if workers:
                found = with_workers(names, size, workers, folder)
            else:
                found = without_cluster(names, size, folder)
            clocks[workers] = found[0]
            beating += [workers] if workers and found[0] < alone else []
            print(f"{len(found[2])} tiles, {workers or 'no'} workers:", end=" ")
            tell(*found, of_one)
    print(f"the least number of workers that beats one: {min(beating, default='none')}")
    if {2, 4} <= set(clocks):
        print(f"four workers are {clocks[2] / clocks[4]:.2f} times as fast as two")
    every, taken = (now - then for now, then in zip(stolen(), before))
    print(f"load {os.getloadavg()[0]:.1f}, steal {taken / every:.1%}")


if __name__ == "__main__":
    main(sys.argv[1:])
