"""Each status of the library as an exception, and that nothing has changed then."""
import ctypes
import os
import pickle
import subprocess
import sys
import unittest
from ctypes import byref, c_size_t, c_uint32

import numpy as np

import tevasulim
from tevasulim import Triangulation, errors
from tevasulim import _library as library

SQUARE = [(0, 0), (4, 0), (5, 5), (0, 4)]


def state(tri):
    arrays = (
        tri.points,
        tri.representatives,
        tri.simplices,
        tri.neighbors,
        tri.edges,
        tri.constraints,
    )
    return [it.tolist() for it in arrays]


class Statuses(unittest.TestCase):
    def refused(self, error, call, *words, **named):
        """The exception of a call, which is to be of exactly this class."""
        with self.assertRaises(error) as caught:
            call(*words, **named)
        self.assertIs(type(caught.exception), error)
        if error.status is not None:
            text = library.words_of(error.status)[0]
            self.assertTrue(len(text) > 5 and text.isprintable())
        return caught.exception

    def unchanged(self, tri, error, call, *words):
        before = state(tri)
        found = self.refused(error, call, *words)
        self.assertEqual(state(tri), before)
        return found

    def test_each_status_has_a_class(self):
        statuses = sorted(errors.OF_STATUS)
        self.assertEqual(statuses, list(range(1, 17)))
        for error in errors.OF_STATUS.values():
            self.assertTrue(issubclass(error, (ValueError, IndexError, MemoryError)))
            self.assertIs(getattr(tevasulim, error.__name__), error)
        self.assertIs(type(library.error_of(999)), errors.TevasulimError)

    def test_closed(self):
        tri = Triangulation(SQUARE)
        tri.close()
        tri.close()
        for call, words in (
            (tri.insert, [(1, 1)]),
            (tri.insert_all, [[(1, 1)]]),
            (tri.remove, [0]),
            (tri.add_constraint, [0, 1]),
            (tri.add_chain, [[0, 1]]),
            (tri.release, [0, 1]),
            (tri.clear, []),
            (tri.locate, [(1, 1)]),
            (tri.find_simplex, [(1, 1)]),
            (tri.nearest, [(1, 1)]),
            (tri.line, [(1, 1), (2, 2)]),
            (tri.in_circle, [(1, 1), 4]),
            (tri.edges_in_circle, [(1, 1), 4]),
            (tri.in_rectangle, [(1, 1), (2, 2)]),
            (tri.edges_in_rectangle, [(1, 1), (2, 2)]),
            (len, [tri]),
            (iter, [tri]),
        ):
            self.refused(errors.ClosedError, call, *words)
        names = "points representatives simplices neighbors constraint_sides edges constraints"
        for name in names.split():
            self.refused(errors.ClosedError, getattr, tri, name)
        for name in "hull convex_hull num_vertices num_edges num_faces num_constraints".split():
            self.refused(errors.ClosedError, getattr, tri, name)
        self.assertEqual(repr(tri), "<Triangulation, closed>")

    def test_life(self):
        mesh = library.Mesh()
        self.refused(errors.NoSuchKindError, library.call, "open", byref(mesh), 2)
        self.assertFalse(mesh.is_open)
        library.call("open", byref(mesh), library.PLAIN)
        self.refused(errors.AlreadyOpenError, library.call, "open", byref(mesh), library.PLAIN)
        library.call("clear", byref(mesh))
        library.LIBRARY.tevasulim_close(byref(mesh))

    def test_kinds(self):
        with Triangulation(SQUARE) as tri:
            self.unchanged(tri, errors.IsPlainError, tri.release, 0, 1)
            self.assertFalse(tri.is_constrained)
            tri.add_constraint(0, 2)
            self.assertTrue(tri.is_constrained)
            points = np.ones((1, 2), np.int32)
            self.unchanged(tri, errors.IsConstrainedError, tri._of_each, "nearest", points, 1)

    def test_nearest_beside_constraints(self):
        with Triangulation(SQUARE, [(0, 2)]) as tri:
            self.assertEqual(tri.nearest([(3, -1), (9, 9), (-1, -1)]).tolist(), [1, 2, 0])
            tri.remove(0)
            tri.insert((-1, 0))
            self.assertEqual(tri.nearest([(3, -1), (9, 9), (-1, -1)]).tolist(), [1, 2, 4])
            tri.clear()
            self.assertEqual(tri.nearest((3, -1)), -1)

    def test_lists(self):
        with Triangulation(SQUARE) as tri:
            mesh, vertices = byref(tri._mesh), np.arange(4, dtype=np.uint32)
            numbers, length = np.zeros(4, np.uint64), c_size_t()
            words = mesh, *library.rows(vertices), *library.rows(numbers[:3])
            self.refused(errors.UnequalLengthsError, library.call, "set_numbers", *words)
            out = np.empty((3, 2), np.int32)
            words = mesh, *library.rows(out), byref(length)
            self.unchanged(tri, errors.TooShortError, library.call, "positions", *words)
            self.assertEqual(length.value, 4)
            text = (ctypes.c_uint8 * 3)()
            self.refused(
                errors.TooShortError, library.call, "status_text", 0, text, 3, byref(length)
            )

    def test_too_large(self):
        with Triangulation(SQUARE) as tri:
            error = self.unchanged(
                tri, errors.TooLargeError, tri.insert_all, [(1, 1), (2**29 + 1, 0)]
            )
            self.assertEqual(error.index, 1)
            # What the package refuses itself, the library does too.
            vertex = c_uint32()
            words = byref(tri._mesh), 2**29 + 1, 0, byref(vertex)
            self.unchanged(tri, errors.TooLargeError, library.call, "insert", *words)

    def test_negative(self):
        with Triangulation(SQUARE) as tri:
            for radius_2 in -1, -(2**200):
                self.unchanged(tri, errors.NegativeError, tri.in_circle, (1, 1), radius_2)
                self.unchanged(tri, errors.NegativeError, tri.edges_in_circle, (1, 1), radius_2)

    def test_no_such_vertex(self):
        with Triangulation(SQUARE) as tri:
            tri.remove(1)
            for number in 1, 4, -1, 2**32, 2**80, -(2**80):
                self.unchanged(tri, errors.NoSuchVertexError, tri.remove, number)
                self.unchanged(tri, errors.NoSuchVertexError, tri.add_constraint, 0, number)
                self.unchanged(tri, errors.NoSuchVertexError, tri.release, number, 0)
                error = self.unchanged(tri, errors.NoSuchVertexError, tri.add_chain, [0, 2, number])
                self.assertEqual(error.index, 2)
            self.unchanged(
                tri, errors.NoSuchVertexError, tri.add_chain, np.array([0, 2**64 - 1], np.uint64)
            )
            vertex = tri.num_vertices
            self.unchanged(
                tri, errors.NoSuchVertexError, library.call, "remove", byref(tri._mesh), vertex
            )

    def test_no_such_point(self):
        for number in 4, -1, 2**32, 2**80:
            error = self.refused(
                errors.NoSuchPointError, Triangulation, SQUARE, [(0, 1), (2, number)]
            )
            self.assertEqual(error.index, 1)

    def test_crossing(self):
        error = self.refused(
            errors.CrossingError, Triangulation, SQUARE, [(0, 1), (1, 2), (0, 2), (3, 1)]
        )
        self.assertEqual(error.index, 3)
        with Triangulation(SQUARE, [(0, 2)]) as tri:
            self.unchanged(tri, errors.CrossingError, tri.add_constraint, 1, 3)
            error = self.refused(errors.CrossingError, tri.add_chain, [0, 1, 3, 2])
            self.assertEqual(error.index, 1)
            self.assertEqual(sorted(map(sorted, tri.constraints.tolist())), [[0, 1], [0, 2]])

    def test_what_messages_say(self):
        """What was wrong, and where, with coordinates as they were handed in."""
        with Triangulation([(0, 0), (2.5, 0), (3, 3), (0, 2.25)], [(0, 2)]) as tri:
            crossing = "from point 1 at (2.5, 0) to point 3 at (0, 2.25) crosses the constraint"
            joined = "no constraint joins point 0 at (0, 0) and point 3 at (0, 2.25)"
            tri.insert((5, 5))
            tri.remove(4)
            for call, words, wanted in (
                (tri.add_constraint, [1, 3], f"the segment {crossing} between point"),
                (tri.add_chain, [[0, 1, 3]], f"segment 1 {crossing} between point"),
                (tri.add_segments, [[(0, 1), (1, 3)]], f"segment 1 {crossing} between point"),
                (tri.release, [0, 3], joined),
                (tri.remove, [7], "there is no point 7: points are numbered from 0 to 4"),
                (tri.remove, [4], "point 4 was removed"),
                (tri.add_segments, [[(0, 1), (2, 9)]], "the number at [1, 1] is wrong: there"),
                (tri.add_chain, [[0, 2**80]], "the number at [1] is wrong: it is no number"),
                (tri.insert_all, [[(1, 1), (np.inf, 0)]], "the coordinate [1, 0] is inf, but has"),
                (tri.within, [(0, 0), -2], "the radius is -2, but must not be negative"),
                (tri.in_circle, [(0, 0), -2], "the squared radius is -2, but must not be"),
                (tri.interpolate, [[1, 2], (1, 1)], "values have the shape (2,), but need one row"),
            ):
                with self.assertRaises(Exception) as caught:
                    call(*words)
                self.assertIn(wanted, str(caught.exception))
        with self.assertRaises(errors.TooLargeError) as caught:
            Triangulation([(0, 0), (2**24, 1)], scale=100)
        wanted = "the coordinate [1, 0] is 16777216, but has to be from -2**29 / 100 to 2**29 / 100"
        self.assertIn(wanted, str(caught.exception))

    def test_no_constraint(self):
        with Triangulation(SQUARE, [(0, 2)]) as tri:
            self.unchanged(tri, errors.NoConstraintError, tri.release, 0, 1)
            self.unchanged(tri, errors.NoConstraintError, tri.release, 1, 3)

    def test_out_of_memory(self):
        ended = subprocess.run([sys.executable, __file__, "memory"], capture_output=True, text=True)
        self.assertEqual(
            (ended.returncode, ended.stdout.split()[:1]), (0, ["refused"]), ended.stderr
        )

    def test_out_of_indexes(self):
        # So many vertices take more memory than there is: the class alone.
        self.assertIs(type(library.error_of(14)), errors.OutOfIndexesError)

    def test_no_such_status(self):
        self.refused(errors.NoSuchStatusError, library.status_text, 17)

    def test_not_whole(self):
        with Triangulation(SQUARE) as tri:
            self.unchanged(tri, errors.NotWholeError, tri.insert, (1.5, 2))
            self.assertEqual(tri.insert((1.0, 2)), 4)

    def test_not_finite(self):
        for points in [(0, 0), (1, np.nan)], [(0.5, 0), (np.inf, 1)]:
            error = self.refused(errors.NotFiniteError, Triangulation, points)
            self.assertEqual(error.index, 1)
        with Triangulation(SQUARE) as tri:
            self.unchanged(tri, errors.NotFiniteError, tri.insert, (np.nan, 2))

    def test_no_library(self):
        for place in "/nowhere/libtevasulim.so", __file__, "/usr/lib/x86_64-linux-gnu/libc.so.6":
            words = {**os.environ, "TEVASULIM_LIBRARY": place}
            text = "try:\n import tevasulim\nexcept ImportError as error:\n print(repr(error)[:14])"
            ran = subprocess.run(
                [sys.executable, "-c", text], env=words, capture_output=True, text=True
            )
            self.assertEqual(ran.stdout, "NoLibraryError\n", ran.stderr)

    def test_pickle_of_an_error(self):
        error = pickle.loads(pickle.dumps(errors.TooLargeError("far", 7)))
        self.assertEqual((type(error), str(error), error.index), (errors.TooLargeError, "far", 7))


def run_out_of_memory():
    """Inserts points until the library is refused memory. Nothing has changed then, and it goes
    on."""
    import resource

    points = np.random.default_rng(1).integers(-(2**29), 2**29, (400_000, 2)).astype(np.int32)
    with Triangulation(points[:1000]) as tri:
        with open("/proc/self/statm") as file:
            pages = int(file.read().split()[0])
        limit, most = pages * resource.getpagesize() + 40 * 2**20, resource.RLIM_INFINITY
        resource.setrlimit(resource.RLIMIT_AS, (limit, most))
        try:
            tri.insert_all(points)
        except errors.OutOfMemoryError:
            resource.setrlimit(resource.RLIMIT_AS, (most, most))
            assert tri.num_vertices == len(tri.points) == 1000
            assert (tri.points == points[:1000]).all()
            assert tri.representatives.tolist() == list(range(1000))
            tri.insert_all(points)
            assert tri.num_vertices == len(points)
            print("refused")


if __name__ == "__main__":
    if sys.argv[1:] == ["memory"]:
        run_out_of_memory()
    else:
        unittest.main()
