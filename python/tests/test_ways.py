"""Ways through free faces, beside brute force in fractions."""
import itertools
import random
import unittest
from fractions import Fraction

import numpy as np
from tevasulim import Triangulation
from tevasulim.errors import ClosedError, NegativeError

# A hall of 9 by 9, and a wall from below.
HALL = [(0, 0), (9, 0), (9, 9), (0, 9), (4, 0), (5, 0), (5, 6), (4, 6)]
WALL = [(4, 7), (7, 6), (6, 5)]


def turn(a, b, p):
    return int((b[0] - a[0]) * (p[1] - a[1]) - (b[1] - a[1]) * (p[0] - a[0]))


def part_within(p, q, corners):
    """The part of a segment in a closed triangle that turns left, as two fractions of it."""
    first, last = Fraction(0), Fraction(1)
    for a, b in zip(corners, np.roll(corners, -1, 0)):
        start, end = turn(a, b, p), turn(a, b, q)
        if start < 0 and end < 0:
            return None
        if start < 0:
            first = max(first, Fraction(-start, end - start))
        elif end < 0:
            last = min(last, Fraction(start, start - end))
    return (first, last) if first <= last else None


def sees(p, q, triangles):
    """Whether each point of a segment is in one of some closed triangles."""
    parts, reached = [part_within(p, q, it) for it in triangles], Fraction(0)
    for first, last in sorted(filter(None, parts)):
        if first > reached:
            return False
        reached = max(reached, last)
        if reached == 1:
            return True
    return False


def are_joined(start, end, points, triangles):
    """Whether a chain over some points, each in sight of the next, leads from one to another."""
    if not sees(start, start, triangles):
        return False
    reached, left = {start}, [start]
    while left:
        here = left.pop()
        for there in {*points, end} - reached:
            if sees(here, there, triangles):
                reached.add(there)
                left.append(there)
    return end in reached


def are_wide(triangles, width_2):
    """Whether the square of each height of each triangle is at least so much."""
    longest_2 = ((triangles - np.roll(triangles, 1, 1)) ** 2).sum(2).max(1)
    return np.array([turn(*it) ** 2 for it in triangles]) >= width_2 * longest_2


def labels(corners, free):
    """The label of each face, where free faces are joined over corners that they share."""
    found = np.full(len(corners), -1)
    for face in np.flatnonzero(free):
        if found[face] < 0:
            reached = np.isin(np.arange(len(corners)), face)
            while True:
                more = free & np.isin(corners, corners[reached]).any(1)
                if (more == reached).all():
                    break
                reached = more
            found[reached] = found.max() + 1
    return found


class Ways(unittest.TestCase):
    def check(self, tri, start, end, free):
        """One way beside brute force, and whether there is one."""
        triangles = tri.points[tri.simplices[free]]
        points = set(map(tuple, tri.points.tolist()))
        found = tri.way(start, end, free)
        self.assertEqual(found is not None, are_joined(start, end, points, triangles))
        if found is None:
            return False
        way = list(map(tuple, found.tolist()))
        self.assertEqual((way[0], way[-1]), (start, end))
        self.assertLessEqual(set(way[1:-1]), points)
        self.assertTrue(all(sees(p, q, triangles) for p, q in zip(way, way[1:])), way)
        self.assertFalse(any(sees(p, q, triangles) for p, q in zip(way, way[2:])), way)
        return True

    def check_parts(self, tri, free, radius):
        """The labels of free faces and of those that are wide, beside brute force."""
        self.assertEqual(tri.reachable(free).tolist(), labels(tri.simplices, free).tolist())
        wide = free & are_wide(tri.points[tri.simplices], 4 * radius**2)
        self.assertEqual(tri.wide_faces(radius, free).tolist(), wide.tolist())
        wanted = labels(tri.simplices, wide).tolist()
        self.assertEqual(tri.reachable(free, radius).tolist(), wanted)

    def test_random_rooms(self):
        chance, found = random.Random(94), []
        places = list(itertools.product(range(0, 9, 2), repeat=2))
        near = list(itertools.product(range(-1, 10), repeat=2))
        for _ in range(80):
            with Triangulation(chance.sample(places, chance.randrange(3, 12))) as tri:
                free = np.array([chance.random() < 0.85 for _ in range(len(tri))], bool)
                ends = [chance.choice(near if chance.random() < 0.3 else places) for _ in range(2)]
                found.append(self.check(tri, *ends, free))
                self.check_parts(tri, free, chance.choice([0, 0.5, 1, 1.5, 2]))
        self.assertTrue(15 < sum(found) < 65, f"{sum(found)} ways")

    def test_round_a_wall(self):
        with Triangulation(HALL, WALL) as tri:
            free = ~tri.faces_inside(HALL[4:])
            way = tri.way((1, 1), (8, 1), free)
            self.assertEqual(way.tolist(), [[1, 1], [4, 6], [5, 6], [8, 1]])
            self.assertEqual(way.dtype, tri.points.dtype)
            self.assertEqual(tri.way((1, 1), (8, 1)).tolist(), [[1, 1], [8, 1]])
            self.assertEqual(tri.way((1, 1), (1, 1)).tolist(), [[1, 1], [1, 1]])
            self.assertIsNone(tri.way((1, 1), (8, 1), np.zeros(len(tri), bool)))

    def test_units(self):
        for named in {}, {"scale": 10}:
            with Triangulation(np.array(HALL) / 10, WALL, **named) as tri:
                free = ~tri.faces_inside(np.array(HALL[4:]) / 10 * (10 if named else 1))
                way = tri.way((0.1, 0.1), (0.8, 0.1), free)
                unit = 1 if named else 0.1
                wanted = np.array([(1, 1), (4, 6), (5, 6), (8, 1)]) * unit
                np.testing.assert_allclose(way, wanted)

    def test_a_gap_and_discs(self):
        """Each face beside the gap between the wall and the hall's side is 3 high at least."""
        gap = [(0, 0), (9, 0), (9, 9), (0, 9), (4, 0), (5, 0), (5, 6), (4, 6)]
        with Triangulation(gap, WALL) as tri:
            free = ~tri.faces_inside(gap[4:])
            self.assertEqual(set(tri.reachable(free).tolist()), {-1, 0})
            for radius, is_open in (0, True), (0.25, True), (5, False), (float("inf"), False):
                way = tri.way((1, 1), (8, 1), free, radius=radius)
                self.assertEqual(way is not None, is_open, radius)
                wide = tri.wide_faces(radius, free)
                self.assertEqual(wide.dtype, bool)
                self.assertEqual(bool(wide.any()), is_open)
                self.assertEqual(tri.reachable(wide).max(), 0 if is_open else -1)

    def test_units_of_a_radius(self):
        """A height of 0.3 is wide enough for a radius of 0.15, and not for the next float."""
        strip = np.array([(0, 0), (9, 0), (3, 3)]) / 10
        for named in {}, {"scale": 10}:
            with Triangulation(strip, **named) as tri:
                self.assertEqual(tri.wide_faces(0.15).tolist(), [True])
                self.assertEqual(tri.wide_faces(np.nextafter(0.15, 1)).tolist(), [False])
                self.assertEqual(tri.reachable(radius=0.16).tolist(), [-1])
        with Triangulation([(0, 0), (9, 0), (3, 3)]) as tri:
            self.assertEqual(tri.wide_faces(1).tolist(), [True])
            self.assertEqual(tri.wide_faces(10**400).tolist(), [False])

    def test_no_faces(self):
        with Triangulation([(0, 0), (4, 0)]) as tri:
            self.assertEqual(tri.reachable().tolist(), [])
            self.assertEqual(tri.reachable(radius=2).dtype, np.int32)
            self.assertEqual(tri.wide_faces(2, np.zeros(0, bool)).tolist(), [])

    def test_ends_that_are_nowhere(self):
        with Triangulation(HALL, WALL) as tri:
            for end in (10, 1), (1e30, 1), (float("nan"), 1):
                self.assertIsNone(tri.way((1, 1), end))
                self.assertIsNone(tri.way(end, (1, 1)))
        self.assertIsNone(Triangulation().way((0, 0), (0, 0)))

    def test_refusals(self):
        with Triangulation(HALL, WALL) as tri:
            for wrong in [True], np.ones(len(tri)), np.ones((len(tri), 1), bool):
                with self.assertRaisesRegex(ValueError, "one bool for each of the 8 faces"):
                    tri.way((1, 1), (8, 1), wrong)
                with self.assertRaisesRegex(ValueError, "one bool for each of the 8 faces"):
                    tri.reachable(wrong)
            for ask in tri.reachable, tri.wide_faces, lambda **it: tri.way((1, 1), (8, 1), **it):
                with self.assertRaisesRegex(NegativeError, "the radius is -0.5"):
                    ask(radius=-0.5)
                with self.assertRaisesRegex(TypeError, "the radius is a bool"):
                    ask(radius=True)
                with self.assertRaisesRegex(ValueError, "the radius is nan"):
                    ask(radius=float("nan"))
            with self.assertRaises(TypeError):
                tri.wide_faces(None)
            for wrong in (1, 2, 3), ["a", "b"], [(1, 2)]:
                with self.assertRaises((TypeError, ValueError)):
                    tri.way(wrong, (1, 1))
        with self.assertRaises(ClosedError):
            tri.way((1, 1), (8, 1))


if __name__ == "__main__":
    unittest.main()
