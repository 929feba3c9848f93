#!/usr/bin/env python3
"""checks/bench/ways.py LIBRARY [PAIRS]: ways through free faces, by the library for C (LIBRARY is
the folder of libtevasulim.so, as c/trial), beside a search by A* and a funnel in floats
(checks/bench/funnel.h), and beside scipy and, where it is there, networkx (Debian: g++
python3-scipy python3-networkx).

The floors are rooms with doors and pillars, and a maze, of 10^5 faces each. Between the same PAIRS
random places (101 where no number is given) each finds a way, three times in turn, networkx once.
It prints the milliseconds of a way: the median of all, below what nine of ten are, and the
greatest; and how many times as long as the shortest of all ways each is, in the middle and at most.
All must find ways between the same places.

scipy and networkx search among faces alone, by the distances of their centroids: their time has no
funnel, but their ways are pulled taut by one. scipy's search goes over all faces.

`checks/bench/ways.py count LIBRARY [PAIRS]` counts the machine's instructions a way by callgrind
(Debian: valgrind), on average of 15 pairs where no number is given. Those of scipy's search are the
difference of two runs.
"""
import os
import re
import statistics
import subprocess
import sys
import tempfile
import time
from math import dist

import numpy as np
from scipy.sparse import csr_array
from scipy.sparse.csgraph import dijkstra

try:
    import networkx
except ImportError:
    networkx = None

HERE = os.path.dirname(os.path.realpath(__file__))
FLAGS = ["-O3", "-DNDEBUG", "-std=c++17", f"-I{HERE}/../../include"]
# How many rooms or cells there are along each side: 10^5 faces.
FLOORS = {"rooms": "44", "maze": "111"}
ROUNDS = 3


class Faces:
    """The faces of a floor, and pairs of ends, as checks/bench/ways.cpp writes them."""

    def __init__(self, path):
        numbers = np.fromfile(path, np.int64)
        count, pairs = numbers[:2]
        faces = numbers[2 : 2 + 10 * count].reshape(count, 10)
        self.corners = faces[:, :6].reshape(count, 3, 2)
        self.neighbors, self.is_free = faces[:, 6:9], faces[:, 9] != 0
        self.pairs = numbers[2 + 10 * count :].reshape(pairs, 2, 3).tolist()
        self.middles = self.corners.mean(axis=1)
        self.graph = self.joined()

    def joined(self):
        """Which free faces share an edge, by the distance of their centroids."""
        first, which = np.nonzero(self.neighbors >= 0)
        second = self.neighbors[first, which]
        both = self.is_free[first] & self.is_free[second]
        first, second = first[both], second[both]
        far = np.hypot(*(self.middles[first] - self.middles[second]).T)
        return csr_array((far, (first, second)), shape=[len(self.neighbors)] * 2)

    def edges(self, path):
        """The ends of the edge between each face of a path and the next: the left, the right."""
        for here, there in zip(path, path[1:]):
            k = self.neighbors[here].tolist().index(there)
            yield [tuple(self.corners[here][(k + turn) % 3].tolist()) for turn in (2, 1)]


def area(a, b, c):
    return (b[0] - a[0]) * (c[1] - a[1]) - (b[1] - a[1]) * (c[0] - a[0])


def pulled(start, end, edges):
    """The shortest way from start to end through edges, by a funnel: its left and its right side
    are chains from the last place that is sure."""
    way, left, right = [start], [start], [start]
    for edge in [*edges, (end, end)]:
        for side, other, at, sign in ((left, right, edge[0], 1), (right, left, edge[1], -1)):
            if side[-1] == at:
                continue
            while len(side) > 1 and sign * area(side[-2], side[-1], at) <= 0:
                side.pop()
            while len(side) == 1 and len(other) > 1 and sign * area(side[0], other[1], at) <= 0:
                way.append(other[1])
                del other[0]
                side[0] = other[0]
            side.append(at)
    return [*way, *left[1:]]


def search_scipy(faces, start, end):
    """The faces of a shortest path by scipy, from the last to the first one."""
    _, before = dijkstra(faces.graph, indices=start, return_predecessors=True)
    path = [end]
    while path[-1] != start and path[-1] >= 0:
        path.append(int(before[path[-1]]))
    return path[::-1] if path[-1] == start else None


def search_networkx(graph, faces, start, end):
    """The same by networkx, by A*."""
    ahead = lambda here, there: dist(faces.middles[here], faces.middles[there])
    try:
        return networkx.astar_path(graph, start, end, ahead)
    except networkx.NetworkXNoPath:
        return None


def tell_path(faces, pair, search):
    """The nanoseconds and the length of a way."""
    (*start, first), (*end, last) = pair
    begin = time.thread_time_ns()
    path = search(faces, first, last)
    took = time.thread_time_ns() - begin
    if path is None:
        return took, -1
    way = pulled(tuple(start), tuple(end), faces.edges(path))
    return took, sum(map(dist, way, way[1:]))


def build(folder, library):
    program = f"{folder}/ways"
    linked = [f"-L{library}", f"-Wl,-rpath,{os.path.realpath(library)}", "-ltevasulim"]
    subprocess.run(["g++", *FLAGS, f"{HERE}/ways.cpp", "-o", program, *linked], check=True)
    return program


def ran(program, what, kind, pairs):
    """How many faces there are, and of each pair the nanoseconds and the length."""
    words = [program, what, kind, FLOORS[kind], str(pairs)]
    said = subprocess.run(words, capture_output=True, text=True, check=True).stdout
    first, *lines = said.splitlines()
    return int(first), [tuple(map(float, line.split())) for line in lines]


def written(program, folder, kind, pairs):
    """The file with the faces of a floor."""
    path = f"{folder}/{kind}"
    with open(path, "wb") as file:
        words = [program, "faces", kind, FLOORS[kind], str(pairs)]
        subprocess.run(words, stdout=file, check=True)
    return path


def measure(program, folder, kind, pairs):
    faces = Faces(written(program, folder, kind, pairs))
    searches = {"scipy": search_scipy}
    if networkx:
        graph = networkx.from_scipy_sparse_array(faces.graph)
        searches["networkx"] = lambda *words: search_networkx(graph, *words)
    found = {}
    for number in range(ROUNDS):
        for what in ("ours", "funnel"):
            count, ways = ran(program, what, kind, pairs)
            found.setdefault(what, []).append(ways)
        for name, search in searches.items():
            if name == "networkx" and number:
                continue
            ways = [tell_path(faces, pair, search) for pair in faces.pairs]
            found.setdefault(name, []).append(ways)
    print(f"## {kind}, {count} faces, {int(faces.is_free.sum())} of them free\n")
    tell(found)


def tell(found):
    """Prints a row for each that found ways: of each pair, the median of its rounds."""
    lengths = {name: [length for _, length in it[0]] for name, it in found.items()}
    if len({tuple(length < 0 for length in it) for it in lengths.values()}) > 1:
        sys.exit("they found ways between different places")
    least = [min(it) for it in zip(*lengths.values())]
    print("| | ms | of ten, nine | at most | length | at most | is the shortest |")
    print("|---" * 7 + "|")
    for name, it in found.items():
        times = [statistics.median(took / 1e6 for took, _ in ways) for ways in zip(*it)]
        longer = [own / low for own, low in zip(lengths[name], least) if low > 0]
        cells = [statistics.median(times), np.quantile(times, 0.9), max(times)]
        cells += [statistics.median(longer), max(longer)]
        shortest = sum(ratio < 1 + 1e-6 for ratio in longer)
        print(f"| {name} | " + " | ".join(f"{cell:.3f}" for cell in cells), f"| {shortest} |")
    print(flush=True)


def events(folder, words, *options):
    """How many instructions a run takes."""
    command = ["valgrind", "--tool=callgrind", f"--callgrind-out-file={folder}/counts", *options]
    said = subprocess.run([*command, *words], capture_output=True, text=True, check=True).stderr
    return int(re.search(r"Collected : (\d+)", said)[1])


def count(program, folder, kind, pairs):
    for what in ("ours", "funnel"):
        words = [program, what, kind, FLOORS[kind], str(pairs)]
        total = events(folder, words, f"--toggle-collect=counted_{what}*")
        print(f"{kind}, {what}: {total / pairs:.0f} instructions a way", flush=True)
    path = written(program, folder, kind, 4)
    run = lambda times: events(folder, [sys.executable, __file__, "search", path, str(times)])
    print(f"{kind}, scipy: {(run(4) - run(1)) / 3:.0f} instructions a way", flush=True)


def main(words):
    if words[:1] == ["search"]:
        faces = Faces(words[1])
        for (*_, first), (*_, last) in faces.pairs[: int(words[2])]:
            search_scipy(faces, first, last)
        return
    call, words = (count, words[1:]) if words[:1] == ["count"] else (measure, words)
    pairs = int(words[1]) if words[1:] else 15 if call == count else 101
    with tempfile.TemporaryDirectory() as folder:
        program = build(folder, words[0])
        for kind in FLOORS:
            call(program, folder, kind, pairs)


if __name__ == "__main__":
    main(sys.argv[1:])
