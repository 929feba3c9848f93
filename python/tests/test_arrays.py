"""What users hand in: shapes, types, sizes and scales."""
import unittest
from fractions import Fraction

import numpy as np

from tevasulim import NotWholeError, TooLargeError, Triangulation

MOST = 2**29
SQUARE = [(0, 0), (4, 0), (5, 5), (0, 4)]


class Shapes(unittest.TestCase):
    def test_no_points(self):
        for points in [], (), np.empty((0, 2), int), np.empty((0, 2), np.int32):
            with Triangulation(points) as tri:
                self.assertEqual(tri.points.shape, (0, 2))
                self.assertEqual(tri.simplices.shape, (0, 3))
                self.assertEqual(tri.neighbors.shape, (0, 3))
                self.assertEqual(tri.edges.shape, (0, 2))
                self.assertEqual(tri.constraints.shape, (0, 2))
                self.assertEqual(tri.hull.shape, (0,))
                self.assertEqual(tri.convex_hull.shape, (0, 2))
                self.assertEqual((len(tri), list(tri), tri.num_vertices), (0, [], 0))
                self.assertEqual(tri.nearest((1, 2)), -1)
                self.assertEqual(tri.find_simplex((1, 2)), -1)
                self.assertEqual(tri.locate((1, 2)), (4, -1))
                self.assertEqual(tri.line((0, 0), (3, 3)), [])
                self.assertEqual(tri.in_circle((0, 0), 9).tolist(), [])
                self.assertEqual(tri.insert_all([]).tolist(), [])

    def test_one_point(self):
        with Triangulation([(3, 4)]) as tri:
            self.assertEqual((len(tri), tri.num_vertices, tri.hull.tolist()), (0, 1, [0]))
            self.assertEqual(tri.nearest([(9, 9), (0, 0)]).tolist(), [0, 0])
            self.assertEqual(tri.locate((3, 4)), (0, 0))
            self.assertEqual(tri.find_simplex((3, 4)), -1)
            self.assertEqual(tri.in_circle((0, 0), 25).tolist(), [0])
            self.assertEqual(tri.in_circle((0, 0), 24).tolist(), [])
            tri.remove(0)
            self.assertEqual((tri.num_vertices, tri.representatives.tolist()), (0, [-1]))

    def test_one_line(self):
        with Triangulation([(4, 2), (0, 0), (2, 1), (4, 2)]) as tri:
            self.assertEqual((len(tri), tri.num_edges), (0, 2))
            self.assertEqual(sorted(map(sorted, tri.edges.tolist())), [[0, 2], [1, 2]])
            self.assertEqual(tri.hull.tolist(), [1, 0])
            self.assertEqual(tri.find_simplex([(2, 1), (1, 1), (6, 3)]).tolist(), [-1, -1, -1])

    def test_equal_points(self):
        with Triangulation([(0, 0), (4, 0), (0, 0), (0, 4), (4, 0)]) as tri:
            self.assertEqual(tri.representatives.tolist(), [0, 1, 0, 3, 1])
            self.assertEqual((len(tri.points), tri.num_vertices, len(tri)), (5, 3, 1))
            tri.add_constraint(2, 4)
            self.assertEqual(sorted(tri.constraints[0].tolist()), [0, 1])
            tri.remove(2)
            self.assertEqual(tri.representatives.tolist(), [-1, 1, -1, 3, 1])

    def test_shapes_that_are_refused(self):
        for points in 3, (1, 2), [(1, 2, 3)], [[(1, 2)]], [[]], np.zeros((2, 0), int), "ab":
            with self.assertRaises((ValueError, TypeError), msg=str(points)):
                Triangulation(points)
        with Triangulation(SQUARE) as tri:
            for point in 3, (1,), (1, 2, 3), [(1, 2)], [], None:
                with self.assertRaises((ValueError, TypeError), msg=str(point)):
                    tri.insert(point)
            for segments in [(0,)], [(0, 1, 2)], 3, [[(0, 1)]]:
                with self.assertRaises((ValueError, TypeError), msg=str(segments)):
                    Triangulation(SQUARE, segments)
            with self.assertRaises(ValueError):
                tri.add_chain([[0, 1]])
            self.assertEqual(tri.num_vertices, 4)

    def test_questions_of_any_shape(self):
        with Triangulation(SQUARE) as tri:
            questions = np.array([[[1, 1], [4, 4]], [[9, 9], [-1, 0]]])
            self.assertEqual(tri.find_simplex(questions).shape, (2, 2))
            self.assertEqual(tri.nearest(questions).tolist(), [[0, 2], [2, 0]])
            kind, index = tri.locate(questions)
            self.assertEqual((kind.shape, index.shape), ((2, 2), (2, 2)))
            self.assertEqual(np.shape(tri.find_simplex((1, 1))), ())
            self.assertEqual(tri.find_simplex(np.empty((3, 0, 2), int)).shape, (3, 0))
            self.assertEqual(tri.nearest(np.empty((0, 2), int)).shape, (0,))

    def test_strides(self):
        base = np.arange(60, dtype=np.int64).reshape(10, 6) * np.arange(1, 11)[:, None] % 17
        wanted = base[::2, 1:5:3].tolist()
        for points in (
            base[::2, 1:5:3],
            base[::2, 1:5:3].astype(np.int32),
            np.asfortranarray(base[::2, 1:5:3].astype(np.int32)),
            base[::2, 1:5:3].astype(">i4"),
            base[::2, 1:5:3].astype(np.int32)[::-1][::-1],
            np.broadcast_to(np.array(wanted, np.int8), (5, 2)),
        ):
            with Triangulation(points) as tri:
                self.assertEqual(tri.points.tolist(), wanted)
        turned = np.ascontiguousarray(base[:, :2].T.astype(np.int32)).T
        with Triangulation(turned) as tri:
            self.assertEqual(tri.points.tolist(), base[:, :2].tolist())

    def test_what_was_handed_in_is_copied(self):
        points = np.array(SQUARE, np.int32)
        points.flags.writeable = False
        with Triangulation(points) as tri:
            self.assertFalse(np.shares_memory(points, tri.points))
            before = tri.points
            tri.insert((2, 1))
            self.assertEqual((len(before), len(tri.points)), (4, 5))

    def test_no_array_can_be_written_to(self):
        with Triangulation(SQUARE, [(0, 2)]) as tri:
            names = "points representatives coplanar simplices neighbors constraint_sides edges"
            names += " hull constraints convex_hull transform vertex_to_simplex layers"
            names += " min_bound max_bound"
            for name in names.split():
                array = getattr(tri, name)
                self.assertFalse(array.flags.writeable, name)
                with self.assertRaises(ValueError, msg=name):
                    array[...] = 0
            for array in tri.vertex_neighbor_vertices:
                self.assertFalse(array.flags.writeable)
            with self.assertRaises(ValueError):
                tri.simplices.sort()

    def test_masked_points_are_refused(self):
        hidden = np.ma.array(SQUARE, mask=[[0, 0], [0, 0], [0, 1], [0, 0]])
        for call in Triangulation, Triangulation(SQUARE).nearest, Triangulation().insert_all:
            with self.assertRaisesRegex(ValueError, "2, 1. is masked"):
                call(hidden)
        with Triangulation(np.ma.array(SQUARE)) as tri:
            self.assertEqual(len(tri), 2)
            with self.assertRaisesRegex(ValueError, "masked"):
                tri.interpolate(np.ma.array([1, 2, 3, 4], mask=[1, 0, 0, 0]), (1, 1))
            with self.assertRaisesRegex(ValueError, "masked"):
                tri.add_chain(np.ma.array([0, 1], mask=[0, 1]))


class Types(unittest.TestCase):
    def test_whole_numbers(self):
        for kind in "int8 int16 int32 int64 uint8 uint16 uint32 uint64".split():
            with Triangulation(np.array(SQUARE, kind)) as tri:
                self.assertEqual(tri.points.dtype, np.int32)
                self.assertEqual(tri.points.tolist(), [list(it) for it in SQUARE])

    def test_limits(self):
        corners = [(-MOST, -MOST), (MOST, -MOST), (MOST, MOST), (-MOST, MOST)]
        with Triangulation(corners) as tri:
            self.assertEqual((len(tri), tri.points.tolist()), (2, [list(it) for it in corners]))

    def test_huge_values(self):
        for x in (
            2**31,
            2**32,
            2**32 + 1,
            2**62,
            2**63,
            2**64 - 1,
            2**64,
            2**80,
        ):
            for sign in 1, -1:
                with self.assertRaises((TooLargeError, NotWholeError), msg=sign * x) as caught:
                    Triangulation([(0, 0), (1, 1), (2, sign * x)])
                if isinstance(caught.exception, TooLargeError):
                    self.assertEqual(caught.exception.index, 2)
        for kind, x in ("uint32", 2**32 - 1), ("uint64", 2**64 - 1), ("int64", -(2**63)):
            with self.assertRaises(TooLargeError) as caught:
                Triangulation(np.array([(0, 0), (x, 1)], kind))
            self.assertEqual(caught.exception.index, 1)
        with Triangulation(SQUARE) as tri:
            for point in (0, MOST + 1), (0.0, -1e300), (2**70, 0):
                with self.assertRaises(TooLargeError):
                    tri.insert(point)
            with self.assertRaises(TooLargeError):
                tri.insert_all([(9, 9), (0, -MOST - 1)])
            self.assertEqual((tri.num_vertices, len(tri.points)), (4, 4))

    def test_whole_numbers_far_off(self):
        """They are never rounded: the origin moves."""
        for far in 2**40, -(2**52), MOST + 1:
            with Triangulation(np.array(SQUARE) + far) as tri:
                self.assertEqual(tri.points.tolist(), (np.array(SQUARE) + far).tolist())
                self.assertTrue(tri.is_exact and tri.scale == 1)
                self.assertEqual(tri.nearest((far + 4, far - 1)), 1)
                self.assertEqual(tri.insert((far + 2, far + 1)), 4)

    def test_what_is_asked_out_of_range_is_outside(self):
        for square in SQUARE, np.array(SQUARE) + 0.5:
            with Triangulation(square) as tri:
                for far in 2.0**40, 1e300, MOST + 1, np.inf:
                    self.assertEqual(tri.find_simplex([(0, far), (-far, 1)]).tolist(), [-1, -1])
                    self.assertEqual(tri.locate((far, far)).kind, 3)
                    self.assertTrue(np.isnan(tri.interpolate([1, 2, 3, 4], (0, far))))
                    self.assertEqual(tri.in_circle((0, far), 9).tolist(), [])
                    self.assertEqual(tri.in_rectangle((far, 0), (far, 9)).tolist(), [])
                for far in 2.0**40, 1e12:
                    self.assertEqual(tri.nearest([(far, far), (-far, -far)]).tolist(), [2, 0])
                    self.assertEqual(tri.nearest([(far, 0), (0, far)], k=2)[:, 0].tolist(), [2, 2])
                    met = tri.line((-far, 1), (far, 1))
                    self.assertEqual(len(met), len(tri.line((-9, 1), (9, 1))))
                    found = tri.in_rectangle((-far, -far), (far, far))
                    self.assertEqual(found.tolist(), [0, 1, 2, 3])
                    self.assertEqual(len(tri.edges_in_rectangle((-far, -far), (far, far))), 5)
                    self.assertEqual(tri.in_circle((far, 0), 2 * far * far).tolist(), [0, 1, 2, 3])
                self.assertEqual(tri.find_simplex([np.nan, 1]), -1)
                self.assertEqual(tri.nearest([np.nan, 1]), -1)
                self.assertEqual(tri.locate([1, np.nan]), (4, -1))
                self.assertTrue(np.isnan(tri.interpolate([1, 2, 3, 4], (np.nan, 1), "nearest")))

    def test_types_that_are_refused(self):
        for points in (
            np.array(SQUARE, bool),
            np.array(SQUARE, complex),
            np.array(SQUARE, str),
            np.array(SQUARE, "datetime64[s]"),
            [("0", "1")],
            [(0, None)],
            [(Fraction(1), 2)],
            [(0, 1), (2, "3")],
            {"a": 1},
            None,
        ):
            with self.assertRaises((TypeError, ValueError), msg=str(points)):
                Triangulation(points)
            with self.assertRaises((TypeError, ValueError), msg=str(points)):
                Triangulation(points, scale=100)

    def test_numbers_of_points(self):
        with Triangulation(SQUARE) as tri:
            for number in 0.0, "0", None, [0], (0, 1):
                with self.assertRaises(TypeError, msg=str(number)):
                    tri.remove(number)
                with self.assertRaises(TypeError, msg=str(number)):
                    tri.add_constraint(number, 1)
            tri.remove(np.int8(1))
            tri.add_constraint(np.uint64(0), np.int16(2))
            with self.assertRaises(TypeError):
                tri.add_chain([0.0, 1.0])
            with self.assertRaises(TypeError):
                Triangulation(SQUARE, [("0", "1")])
            tri.add_chain([])
            tri.add_chain([3])


class Scales(unittest.TestCase):
    def test_decimals(self):
        for scale in 10, 100, 1000, 10**6, 7, 8, 365:
            wholes = np.random.default_rng(scale).integers(-MOST, MOST, (1000, 2))
            with Triangulation(wholes / scale, scale=scale) as tri:
                self.assertTrue((tri.points == wholes).all())
                self.assertEqual(tri.scale, scale)
                self.assertTrue((tri.points / tri.scale == wholes / scale).all())

    def test_what_is_no_whole_number(self):
        nearly = np.nextafter(0.29, 1)
        for bad in 0.295, nearly, np.nan, 1e-300, 2**-40, 1 / 3:
            with self.assertRaises(NotWholeError) as caught:
                Triangulation([(0.29, 1), (1, 2), (3, bad)], scale=100)
            self.assertEqual(caught.exception.index, 2)
        for bad in np.inf, -np.inf:
            with self.assertRaises(NotWholeError) as caught:
                Triangulation([(0.29, 1), (1, 2), (3, bad)], scale=100)
        for bad in 1e300, -1e18, MOST / 100 + 0.01, 2.0**53:
            with self.assertRaises(TooLargeError) as caught:
                Triangulation([(0.29, 1), (bad, 2)], scale=100)
            self.assertEqual(caught.exception.index, 1)

    def test_other_floats(self):
        quarters = np.array([(0.25, 0.5), (1, 0), (1, 1)], np.float16)
        with Triangulation(quarters, scale=4) as tri:
            self.assertEqual(tri.points.tolist(), [[1, 2], [4, 0], [4, 4]])
        with self.assertRaises(NotWholeError):
            Triangulation(np.array([(0.1, 0)], np.float32), scale=10)
        with Triangulation(np.array([(0.5, 0)], np.longdouble), scale=2) as tri:
            self.assertEqual(tri.points.tolist(), [[1, 0]])

    def test_whole_numbers_are_scaled_too(self):
        with Triangulation([(0, 0), (4, 0), (0, 4)], scale=100) as tri:
            self.assertEqual(tri.points.tolist(), [[0, 0], [400, 0], [0, 400]])
            self.assertEqual(tri.find_simplex([(0.01, 0.01), (-0.01, 0)]).tolist(), [0, -1])
            self.assertEqual(tri.locate((4, 0)), (0, 1))
            self.assertEqual(tri.insert((1.25, 1)), 3)
            self.assertEqual(tri.in_circle((0, 0), 2.5625).tolist(), [0, 3])
            self.assertEqual(tri.in_circle((0, 0), 2.5624).tolist(), [0])
            self.assertEqual(tri.in_circle((0, 0), 1e300).tolist(), [0, 1, 2, 3])
            self.assertEqual(tri.in_circle((0, 0), 0.00001).tolist(), [0])
            self.assertEqual(tri.in_circle((0, 0), np.inf).tolist(), [0, 1, 2, 3])
            with self.assertRaises(ValueError):
                tri.in_circle((0, 0), np.nan)
        with self.assertRaises(TooLargeError):
            Triangulation([(0, 0), (2**62, 0)], scale=4)

    def test_scales_that_are_refused(self):
        for scale in 0, -1, 2**29 + 1, 2**70:
            with self.assertRaises(ValueError):
                Triangulation(SQUARE, scale=scale)
        for scale in 0.5, 100.0, "100", True, [100]:
            with self.assertRaises(TypeError):
                Triangulation(SQUARE, scale=scale)

    def test_radii(self):
        with Triangulation(SQUARE) as tri:
            self.assertEqual(tri.in_circle((0, 0), np.int64(16)).tolist(), [0, 1, 3])
            self.assertEqual(tri.in_circle((0, 0), 2**200).tolist(), [0, 1, 2, 3])
            self.assertEqual(tri.in_circle((0, 0), 16.0).tolist(), [0, 1, 3])
            self.assertEqual(tri.in_circle((0, 0), 15.99).tolist(), [0])
            for radius_2 in "16", None, True, [16]:
                with self.assertRaises(TypeError):
                    tri.in_circle((0, 0), radius_2)


if __name__ == "__main__":
    unittest.main()
