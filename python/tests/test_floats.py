"""Floats: the grid that they choose, what is rounded, and questions between its points."""
import unittest
from fractions import Fraction

import numpy as np

from tevasulim import NotWholeError, Place, TooLargeError, Triangulation

DRAW = np.random.default_rng(8)
UNIT = DRAW.random((400, 2))
SQUARE = [(0, 0), (4, 0), (5, 5), (0, 4)]


def orientation(a, b, c):
    """Whether c is left of the way from a to b, exactly."""
    (ax, ay), (bx, by), (cx, cy) = (map(Fraction, map(float, it)) for it in (a, b, c))
    return (bx - ax) * (cy - ay) - (by - ay) * (cx - ax)


class Grids(unittest.TestCase):
    def test_decimals_stay_as_they_are(self):
        for points in (
            np.round(UNIT * 1e6, 2),
            np.round(np.round(UNIT * 8e5, 2) + (500_000, 5_400_000), 2),
            np.round(np.round(UNIT * 20, 7) + (8, 46), 7),
            np.round(UNIT * 1000),
            UNIT.astype(np.float16),
        ):
            with Triangulation(points, exact=True) as tri:
                self.assertTrue(tri.is_exact and tri.rounding == 0)
                self.assertEqual(tri.points.dtype, np.float64)
                self.assertTrue((tri.points == points).all())

    def test_others_are_rounded_to_the_nearest(self):
        for size in 1e-300, 1e-30, 1e-7, 1.0, 1e7, 1e30, 1e300:
            for middle in 0, 3 * size, min(1e9, 1e305 / size) * size:
                points = UNIT * size + middle
                with Triangulation(points) as tri:
                    move = np.abs(tri.points - points).max()
                    self.assertLess(move, size * 2.0**-27)
                    self.assertLessEqual(move, tri.rounding)
                    self.assertEqual(tri.is_exact, tri.rounding == 0)
                    steps = (tri.points - tri.origin) * tri.scale
                    self.assertTrue(np.allclose(steps, np.rint(steps), atol=1e-3))
                    self.assertEqual(tri.num_vertices, len(points))

    def test_exact_refuses_with_the_row(self):
        points = np.round(UNIT, 3)
        points[7] = 1 / 3, 0.5
        with self.assertRaises(NotWholeError) as caught:
            Triangulation(np.vstack([points, UNIT[:50]]), exact=True)
        tri = Triangulation(points[:7], exact=True)
        with self.assertRaises(NotWholeError):
            tri.insert(points[7])
        with self.assertRaises(NotWholeError) as caught:
            tri.insert_all(points[5:9])
        self.assertEqual((caught.exception.index, tri.npoints), (2, 7))

    def test_what_becomes_equal_is_repeated(self):
        with Triangulation([(0.0, 0.1), (1 / 3, 1e-15), (1e9, 1e9), (1 / 3 + 1e-15, 0)]) as tri:
            self.assertEqual(tri.representatives.tolist(), [0, 0, 2, 0])
            self.assertFalse(tri.is_exact)

    def test_later_points_have_room(self):
        with Triangulation(UNIT) as tri:
            for point in (-0.4, 0.5), (1.4, 1.4):
                number = tri.insert(point)
                self.assertEqual(number, tri.npoints - 1)
            with self.assertRaisesRegex(TooLargeError, "bounds="):
                tri.insert((7.0, 0.5))
            self.assertEqual(tri.npoints, 402)
        with Triangulation(UNIT, bounds=(-100, -100, 100, 100)) as tri:
            tri.insert_all([(99.0, -99.5), (-100, 100)])
            self.assertEqual(tri.npoints, 402)
        for bounds in (1, 2, 3), (2, 0, 1, 1), (0, 0, np.nan, 1), (0, 0, np.inf, 1):
            with self.assertRaises(ValueError):
                Triangulation(UNIT, bounds=bounds)

    def test_one_by_one(self):
        with Triangulation() as tri:
            for point in np.round(UNIT[:100] * 1000, 2):
                tri.insert(point)
            self.assertTrue(tri.is_exact)
            tri.clear()
            tri.insert((0.5, 1e6))
            tri.insert((1.25, 1e6 + 0.75))
            self.assertTrue(tri.is_exact)

    def test_floats_beside_whole_numbers(self):
        with Triangulation(SQUARE) as tri:
            self.assertEqual(tri.insert((2.0, 1.0)), 4)
            self.assertEqual(tri.points.dtype, np.int32)
            with self.assertRaisesRegex(NotWholeError, "floats, or with scale="):
                tri.insert((2.5, 1.0))

    def test_each_corner_is_on_the_right_side(self):
        for points in UNIT, UNIT**9, UNIT * (1, 1e-9), np.round(UNIT, 1), UNIT * 1e-200:
            with Triangulation(points) as tri:
                for a, b, c in tri.points[tri.simplices[:100]]:
                    self.assertGreater(orientation(a, b, c), 0)


class Questions(unittest.TestCase):
    def test_a_face_has_the_point(self):
        questions = DRAW.random((150, 2)) * 1.2 - 0.1
        for points, asked in (
            (UNIT, questions),
            (np.round(UNIT * 9).astype(int), questions * 9),
            (np.round(UNIT, 2), questions),
        ):
            with Triangulation(points) as tri:
                faces, corners = tri.find_simplex(asked), tri.points[tri.simplices]
                kinds, index = tri.locate(asked)
                for point, face, kind, at in zip(asked, faces, kinds, index):
                    inside = [
                        min(orientation(it[k], it[(k + 1) % 3], point) for k in range(3)) >= 0
                        for it in (corners if len(corners) < 200 else corners[face : face + 1])
                    ]
                    if len(corners) < 200:
                        self.assertEqual(face >= 0, any(inside))
                        self.assertTrue(face < 0 or inside[face])
                    elif face >= 0:
                        self.assertTrue(inside[0])
                    if kind == Place.IN_FACE:
                        self.assertEqual(at, face)
                    self.assertEqual(kind == Place.OUTSIDE, face < 0)

    def test_the_points_themselves_are_at_their_vertices(self):
        with Triangulation(UNIT) as tri:
            kinds, index = tri.locate(UNIT)
            self.assertTrue((kinds == Place.ON_VERTEX).all())
            self.assertEqual(index.tolist(), list(range(400)))
            self.assertTrue((tri.nearest(UNIT) == np.arange(400)).all())
            self.assertTrue((tri.find_simplex(UNIT) >= 0).all())
            self.assertTrue(np.allclose(tri.interpolate(UNIT[:, 0], UNIT), UNIT[:, 0]))

    def test_on_an_edge_between_points_of_the_grid(self):
        with Triangulation([(0, 0), (1, 0), (0, 1), (1, 1)]) as tri:
            for point in (0.5, 0), (0.25, 0.0), (0.5, 0.5):
                kind, index = tri.locate(point)
                self.assertEqual(kind, Place.ON_EDGE)
                a, b = tri.points[tri.edges[index]]
                self.assertEqual(orientation(a, b, point), 0)
            self.assertEqual(tri.locate((0.5, -0.25)).kind, Place.OUTSIDE)
            self.assertEqual(tri.locate((0.3, 0.4)).kind, Place.IN_FACE)

    def test_nearest_is_not_rounded(self):
        for points in np.unique(DRAW.integers(0, 9, (30, 2)), axis=0), UNIT[:60]:
            asked = DRAW.random((200, 2)) * points.max()
            ways = ((asked[:, None] - points) ** 2).sum(2)
            for segments in None, [(0, 1)]:
                with Triangulation(points, segments) as tri:
                    found = tri.nearest(asked)
                    least = ways[np.arange(200), found]
                    self.assertTrue((least <= ways.min(1) * (1 + 1e-6) + 1e-12).all())
                    few = tri.nearest(asked, k=5)
                    wanted = np.sort(ways, axis=1)[:, :5]
                    got = ways[np.arange(200)[:, None], few]
                    self.assertTrue(np.allclose(got, wanted, rtol=1e-6))
                    self.assertEqual(tri.nearest(asked[0], k=99)[-1], -1)

    def test_shapes_are_not_rounded(self):
        points = DRAW.integers(0, 9, (25, 2))
        with Triangulation(points) as tri:
            vertices = np.unique(tri.representatives)
            ends = tri.points[tri.edges].astype(float)
            for _ in range(100):
                p, q = DRAW.random((2, 2)) * 9
                radius_2 = DRAW.random() * 9
                ways = ((tri.points[vertices] - p) ** 2).sum(1)
                found = tri.in_circle(p, radius_2)
                self.assertEqual(found.tolist(), vertices[ways <= radius_2].tolist())
                wanted = [way_2(*it, p) <= radius_2 for it in ends]
                found = tri.edges_in_circle(p, radius_2)
                self.assertEqual(found.tolist(), np.flatnonzero(wanted).tolist())
                low, high = np.minimum(p, q), np.maximum(p, q)
                inside = ((tri.points[vertices] >= low) & (tri.points[vertices] <= high)).all(1)
                self.assertEqual(tri.in_rectangle(low, high).tolist(), vertices[inside].tolist())
                wanted = [meets(*it, low, high) for it in ends]
                found = tri.edges_in_rectangle(low, high)
                self.assertEqual(found.tolist(), np.flatnonzero(wanted).tolist())


def way_2(a, b, p):
    """The squared distance of a point from a segment."""
    along = min(max(np.dot(b - a, p - a) / np.dot(b - a, b - a), 0), 1)
    return ((p - a - along * (b - a)) ** 2).sum()


def meets(a, b, low, high):
    """Whether a segment has a point in a box: what is left of it, cut at each side, is some."""
    begin, end = 0.0, 1.0
    for k in (0, 1):
        way = b[k] - a[k]
        if way == 0:
            if not low[k] <= a[k] <= high[k]:
                return False
            continue
        first, last = sorted(((low[k] - a[k]) / way, (high[k] - a[k]) / way))
        begin, end = max(begin, first), min(end, last)
    return begin <= end


if __name__ == "__main__":
    unittest.main()
