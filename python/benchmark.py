"""benchmark.py [TIMES [N ..]]: processor time a point, beside scipy.spatial.Delaunay (Debian:
python3-numpy python3-scipy), for each N of 10^5 and 10^6 points.

The points are random: int64 or, with scale=1000, float64. What is measured begins with that array
and ends with the arrays `simplices` and `neighbors`. Medians of TIMES runs, 3 where none is given.
What both find is compared. """
import statistics
import sys
import time

import numpy as np
from scipy.spatial import Delaunay, cKDTree

from tevasulim import Triangulation


def timed(call):
    """What a call gives, and its processor seconds."""
    begin = time.process_time()
    given = call()
    return given, time.process_time() - begin


def ours(points, scale):
    def made():
        triangulation = Triangulation(points, scale=scale)
        return triangulation, triangulation.simplices, triangulation.neighbors

    return timed(made)


def theirs(points):
    def made():
        triangulation = Delaunay(points)
        return triangulation, triangulation.simplices, triangulation.neighbors

    return timed(made)


def measure(count, times):
    draw = np.random.default_rng(count)
    points, asked = (draw.integers(-(2**29), 2**29, (count, 2)) for _ in range(2))
    seconds = {}

    def note(name, found):
        given, took = found
        seconds.setdefault(name, []).append(took)
        return given

    for _ in range(times):
        triangulation, simplices, _ = note("int64", ours(points, None))
        note("float64, scale=1000", ours(points / 1000, 1000))
        other, its_simplices, _ = note("scipy", theirs(points.astype(float)))
        assert len(simplices) == len(its_simplices)
        near = note("nearest", timed(lambda: triangulation.nearest(asked)))
        found = note("find_simplex", timed(lambda: triangulation.find_simplex(asked)))
        tree = note("cKDTree, built", timed(lambda: cKDTree(points)))
        _, its_near = note("cKDTree, asked", timed(lambda: tree.query(asked)))
        assert (near == its_near).mean() > 0.999
        part = asked[:1000]
        its_found = note("scipy find_simplex, 1000", timed(lambda: other.find_simplex(part * 1.0)))
        assert ((found[:1000] < 0) == (its_found < 0)).all()
    print(f"{count} points: nanoseconds a point")
    for name, took in seconds.items():
        each = statistics.median(took) / (
            1000 if name.endswith("1000") and "scale" not in name else count
        )
        print(f"  {name}: {each * 1e9:.0f}")
    ratio = statistics.median(seconds["int64"]) / statistics.median(seconds["scipy"])
    print(f"  int64 / scipy: {ratio:.3f}", flush=True)


def main(words):
    times = int(words[0]) if words else 3
    for count in map(int, words[1:] or [10**5, 10**6]):
        measure(count, times)


main(sys.argv[1:])
