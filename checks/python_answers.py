"""The Python package's answers: beside scipy's on points of which no four are on one circle, and
beside those of brute force after random edits, with constraints and without, on points of which
many are.

It is run by checks/python_package.py, in Debian's Python.
"""
import random
from itertools import product

import numpy as np
from scipy.spatial import Delaunay, cKDTree

from model.geometry import (
    carries,
    distance_2,
    is_inside,
    meets_circle,
    meets_rectangle,
    met_by_segment,
    side,
)
from model.plain_state import LIMIT, PlainState
from tevasulim import CrossingError, Met, NoConstraintError, Place, Triangulation

SEED, ROUNDS, EDITS = 20261128, 120, 25


def triples(simplices):
    """Triangles from their least corner on, in order."""
    rows = np.sort(simplices, axis=1)
    return rows[np.lexsort(rows.T[::-1])]


def beside_scipy(draw, reach, count):
    """All faces, all neighbours, the hull and where points are, at random points in a wide range:
    four on one circle are too unlikely to matter, and the seed is fixed."""
    points = np.unique(draw.integers(-reach, reach, (count, 2)), axis=0)
    points = points[draw.permutation(len(points))]
    theirs = Delaunay(points.astype(float))
    with Triangulation(points) as ours:
        assert np.array_equal(triples(ours.simplices), triples(theirs.simplices))
        assert ours.simplices.dtype == theirs.simplices.dtype
        assert ours.neighbors.dtype == theirs.neighbors.dtype
        check_neighbors(ours.simplices, ours.neighbors)
        assert set(ours.hull.tolist()) == set(theirs.convex_hull.ravel().tolist())
        questions = draw.integers(-reach, reach, (1000, 2))
        found, wanted = ours.find_simplex(questions), theirs.find_simplex(questions.astype(float))
        assert np.array_equal(found < 0, wanted < 0)
        inside = found >= 0
        same = np.sort(ours.simplices[found[inside]]) == np.sort(theirs.simplices[wanted[inside]])
        assert same.all()
        near, (way, _) = ours.nearest(questions), cKDTree(points).query(questions)
        ways = np.sqrt(((points[near] - questions).astype(float) ** 2).sum(1))
        assert np.allclose(ways, way)
    return len(theirs.simplices)


def floats_beside_scipy(draw):
    """Random floats of every magnitude: all faces are scipy's of the points as they are rounded,
    brought to one size. Qhull gives up far from 1."""
    count = 0
    for power in range(-270, 301, 30):
        points = (draw.random((300, 2)) - draw.random(2)) * 10.0**power
        with Triangulation(points) as ours:
            assert np.abs(ours.points - points).max() <= ours.rounding <= 10.0**power * 2**-28
            theirs = Delaunay((ours.points - ours.origin) * ours.scale)
            assert np.array_equal(triples(ours.simplices), triples(theirs.simplices)), power
            check_neighbors(ours.simplices, ours.neighbors)
            count += len(theirs.simplices)
            questions = ours.points[draw.integers(0, 300, (100, 3))].mean(1)
            # On an edge either face may be given.
            questions = questions[ours.locate(questions).kind != Place.ON_EDGE]
            found = ours.find_simplex(questions)
            wanted = theirs.find_simplex((questions - ours.origin) * ours.scale)
            assert np.array_equal(triples(ours.simplices[found]), triples(theirs.simplices[wanted]))
    return count


def check_neighbors(simplices, neighbors):
    """The face opposite a corner has the other two corners, and only sides of the hull have
    none."""
    for k in range(3):
        there = np.flatnonzero(neighbors[:, k] >= 0)
        sides = np.stack([simplices[there, (k + 1) % 3], simplices[there, (k + 2) % 3]], 1)
        others = simplices[neighbors[there, k]]
        assert (others[:, :, None] == sides[:, None, :]).any(1).all()
        assert (neighbors[neighbors[there, k]] == there[:, None]).any(1).all()


class Round:
    """Edits of a triangulation, and of lists that say what it has to be."""

    def __init__(self, draw, positions, has_constraints):
        self.draw, self.positions, self.has_constraints = draw, positions, has_constraints
        self.state = PlainState([])
        self.ours = Triangulation(segments=[] if has_constraints else None)

    def place(self, number):
        """The index in the lists of a point's number."""
        return self.state.points.index(tuple(self.ours.points[number].tolist()))

    def numbers(self):
        """The numbers that stand for points."""
        ours = self.ours.representatives
        return sorted(set(ours[ours >= 0].tolist()))

    def point(self):
        return self.draw.choice(self.positions)

    def edit(self):
        kinds = ["insert", "insert", "insert_all", "remove"]
        kinds += ["add_constraint", "add_constraint", "release"] * self.has_constraints
        getattr(self, self.draw.choice(kinds))()
        self.check()

    def insert(self):
        point = self.point()
        number = self.ours.insert(point)
        self.state.insert(point)
        assert tuple(self.ours.points[number].tolist()) == point

    def insert_all(self):
        points = [self.point() for _ in range(self.draw.randint(0, 4))]
        # Beside constraints the lists need the order in which they were inserted only for its
        # indexes.
        numbers = self.ours.insert_all(points)
        for point in points:
            self.state.insert(point)
        assert [tuple(self.ours.points[it].tolist()) for it in numbers] == points

    def remove(self):
        if self.numbers():
            number = self.draw.choice(self.numbers())
            self.state.remove(self.place(number))
            self.ours.remove(number)

    def pair(self):
        numbers = self.numbers()
        return [self.draw.choice(numbers) for _ in "ab"] if numbers else None

    def add_constraint(self):
        pair = self.pair()
        if pair:
            i, j = map(self.place, pair)
            is_free = self.state.is_free(i, j)
            try:
                self.ours.add_constraint(*pair)
                assert is_free
            except CrossingError:
                assert not is_free
            self.state.join(i, j)

    def release(self):
        pair = self.pair()
        if pair:
            wall = tuple(sorted(map(self.place, pair)))
            try:
                self.ours.release(*pair)
                assert wall in self.state.walls
            except NoConstraintError:
                assert wall not in self.state.walls
            self.state.walls.discard(wall)

    def indexes(self, pairs):
        """Pairs of numbers as sorted pairs of the lists' indexes."""
        return sorted(tuple(sorted(map(self.place, it))) for it in pairs.tolist())

    def check(self):
        ours, state = self.ours, self.state
        assert ours.num_vertices == len(state.points) == len(self.numbers())
        self.edges = self.indexes(ours.edges)
        assert self.edges == state.edges(set(self.edges))
        assert self.indexes(ours.constraints) == sorted(state.walls)
        faces = {self.turned(list(map(self.place, it))) for it in ours}
        assert faces == state.faces_by(self.edges) and len(faces) == len(ours)
        check_neighbors(ours.simplices, ours.neighbors)
        sides = ours.simplices[:, [1, 2, 0]], ours.simplices[:, [2, 0, 1]]
        walls = {tuple(sorted(map(self.place, it))) for it in ours.constraints.tolist()}
        for start, end, is_wall in zip(
            *(it.ravel().tolist() for it in (*sides, ours.constraint_sides))
        ):
            assert is_wall == (tuple(sorted(map(self.place, (start, end)))) in walls)
        self.ask()

    @staticmethod
    def turned(face):
        least = face.index(min(face))
        return tuple(face[least:] + face[:least])

    def ask(self):
        ours, points = self.ours, self.state.points
        p, q = self.point(), self.point()
        self.check_place(p)
        near = ours.nearest(p)
        assert (near < 0) == (not points)
        if points:
            way = min(distance_2(it, p) for it in points)
            assert distance_2(tuple(ours.points[near].tolist()), p) == way
        if p != q:
            self.check_line(p, q)
        radius_2 = self.draw.choice([0, 1, 2, 5, 8, 2**40])
        named = lambda numbers: sorted(
            tuple(it) for it in ours.points[numbers].tolist()
        )  # noqa: E731
        assert named(ours.in_circle(p, radius_2)) == sorted(
            it for it in points if distance_2(it, p) <= radius_2
        )
        low, high = (min(p[0], q[0]), min(p[1], q[1])), (max(p[0], q[0]), max(p[1], q[1]))
        assert named(ours.in_rectangle(low, high)) == sorted(
            it for it in points if low[0] <= it[0] <= high[0] and low[1] <= it[1] <= high[1]
        )
        ends = [[points[i] for i in edge] for edge in map(self.indexes_of, ours.edges.tolist())]
        in_circle = [i for i, edge in enumerate(ends) if meets_circle(*edge, p, radius_2)]
        assert ours.edges_in_circle(p, radius_2).tolist() == in_circle
        in_rectangle = [i for i, edge in enumerate(ends) if meets_rectangle(*edge, low, high)]
        assert ours.edges_in_rectangle(low, high).tolist() == in_rectangle

    def indexes_of(self, pair):
        return list(map(self.place, pair))

    def check_place(self, p):
        ours, points = self.ours, self.state.points
        kind, index = ours.locate(p)
        face = ours.find_simplex(p)
        on = [it for it in self.edges if carries(*(points[i] for i in it), p)]
        inside = [k for k, it in enumerate(ours) if self.holds(it, p)]
        if len(points) < 2 and p not in points:
            assert kind == Place.NOWHERE and index == face == -1
        elif p in points:
            assert kind == Place.ON_VERTEX and tuple(ours.points[index].tolist()) == p
        elif on:
            assert (
                kind == Place.ON_EDGE and tuple(sorted(self.indexes_of(ours.edges[index]))) == on[0]
            )
        elif inside:
            assert kind == Place.IN_FACE and inside == [index]
        else:
            assert kind == Place.OUTSIDE and 0 <= index < len(ours.edges)
        assert face in inside if inside else face == -1

    def holds(self, face, p):
        """Whether a point is in a face or on its border."""
        corners = [tuple(self.ours.points[i].tolist()) for i in face]
        turns = [side(corners[i], corners[(i + 1) % 3], p) for i in range(3)]
        return min(turns) >= 0

    def check_line(self, p, q):
        kinds = {Met.AT_VERTEX: "v", Met.ACROSS_EDGE: "e", Met.ALONG_EDGE: "o"}
        met = self.ours.line(p, q)
        said = [(kinds[it.kind], *map(self.place, {it.start: 0, it.end: 0})) for it in met]
        wanted = met_by_segment(p, q, self.state.points, self.edges)
        assert said == wanted, (said, wanted)
        for it in met:
            wall = tuple(sorted(map(self.place, (it.start, it.end))))
            assert it.is_constraint == (wall in self.state.walls)


def positions_to_draw(draw):
    """Positions near each other, of one line, of one line and some more, or at the limits."""
    near = list(product(range(-draw.choice((1, 2, 3)), 4), repeat=2))
    line = [(2 * k, 3 * k + 1) for k in range(-4, 5)]
    ends = list(product([-LIMIT, -LIMIT + 1, 0, LIMIT], repeat=2))
    return draw.choice([near, near, line, line + near[:4], ends])


def main():
    count = 0
    for seed, (reach, many) in enumerate(
        [(2**29, 40), (2**29, 1000), (10**6, 3000), (2**29, 20000)]
    ):
        count += beside_scipy(np.random.default_rng(SEED + seed), reach, many)
    count += floats_beside_scipy(np.random.default_rng(SEED))
    print(f"{count} faces as scipy has them")
    for number in range(ROUNDS):
        draw = random.Random(SEED + number)
        trial = Round(draw, positions_to_draw(draw), number % 2 == 1)
        try:
            for _ in range(EDITS):
                trial.edit()
                if len(trial.state.points) > 12:
                    trial.ours.clear()
                    trial.state = PlainState([])
        except AssertionError:
            print(f"round {number}: {trial.state.points} {trial.state.walls}")
            raise
        trial.ours.close()
    print(f"{ROUNDS * EDITS} edits as by brute force")


main()
