"""Edits that an exception breaks off, at each line of the package, at random moments, in a thread
and by refusals of memory: the triangulation is as before the edit or as after it."""
import ctypes
import os
import random
import signal
import subprocess
import sys
import threading
import time
import unittest

import numpy as np

import tevasulim
from tevasulim import OutOfMemoryError, Triangulation

FOLDER = os.path.dirname(os.path.realpath(tevasulim.__file__))
DRAW = np.random.default_rng(4)
# No four of them are on one circle, and no three on one line.
POINTS = DRAW.integers(-(2**20), 2**20, (40, 2))
MORE = np.concatenate([DRAW.integers(-(2**20), 2**20, (1500, 2)), POINTS[5:9]])


def state(tri):
    """All that there is, in an order of its own."""
    faces = np.sort(tri.simplices, axis=1)
    edges = np.sort(tri.constraints, axis=1)
    return (
        tri.points.tolist(),
        tri.representatives.tolist(),
        sorted(map(tuple, faces.tolist())),
        sorted(map(tuple, edges.tolist())),
        tri.is_constrained,
        (tri.scale, tri.origin.tolist(), tri.rounding),
    )


def plain():
    return Triangulation(POINTS)


def with_walls():
    tri = Triangulation(POINTS, [(0, 1), (2, 3)])
    tri.remove(4)
    tri.remove(39)
    tri.insert(POINTS[4])
    return tri


def floats():
    return Triangulation(POINTS / 7.0)


EDITS = {
    "insert": (plain, lambda tri: tri.insert((3, 5))),
    "insert again": (with_walls, lambda tri: tri.insert(POINTS[7])),
    "insert of floats": (floats, lambda tri: tri.insert((3.3, 5.1))),
    "insert_all": (with_walls, lambda tri: tri.insert_all(MORE)),
    "insert_all of none before": (Triangulation, lambda tri: tri.insert_all(POINTS / 3)),
    "remove": (with_walls, lambda tri: tri.remove(0)),
    "remove the last": (with_walls, lambda tri: tri.remove(38)),
    "add_constraint": (plain, lambda tri: tri.add_constraint(0, 1)),
    "add_chain": (with_walls, lambda tri: tri.add_chain([5, 6])),
    "release": (with_walls, lambda tri: tri.release(*tri.constraints[0])),
    "clear": (with_walls, lambda tri: tri.clear()),
}


class Lines:
    """A trace that breaks off at one line of the package, the `at`-th that is run."""

    def __init__(self, at):
        self.at, self.count = at, 0

    def __call__(self, frame, event, _):
        if not frame.f_code.co_filename.startswith(FOLDER):
            return None
        if event == "line":
            self.count += 1
            if self.count == self.at:
                raise KeyboardInterrupt
        return self

    def run(self, edit, tri):
        """Whether the edit was broken off."""
        sys.settrace(self)
        try:
            edit(tri)
        except KeyboardInterrupt:
            return True
        finally:
            sys.settrace(None)
        return False


class BrokenOff(unittest.TestCase):
    def check(self, tri, befores, edit=None):
        found = state(tri)
        self.assertTrue(found in befores)
        # It goes on: an edit after the broken one is made, and all are right then.
        number = tri.insert((77, 88) if tri.scale == 1 else (7.7, 8.8))
        self.assertEqual(tri.representatives[number], number)
        there = np.unique(tri.points[tri.representatives >= 0], axis=0)
        self.assertEqual(tri.num_vertices, len(there))
        with Triangulation(tri.points[np.unique(tri.simplices)]) as other:
            if not len(tri.constraints):
                self.assertEqual(len(other), len(tri))
        return found

    def test_at_each_line(self):
        for name, (make, edit) in EDITS.items():
            with make() as tri:
                before = state(tri)
                edit(tri)
                after = state(tri)
            self.assertNotEqual(before, after, name)
            at, seen = 1, []
            while True:
                with self.subTest(name=name, line=at), make() as tri:
                    state(tri)
                    is_broken_off = Lines(at).run(edit, tri)
                    seen.append(self.check(tri, [before, after]) == before)
                if not is_broken_off:
                    break
                at += 1
            self.assertGreater(at, 5, name)
            self.assertTrue(seen[0] and not seen[-1], name)

    def test_what_brings_in_order_is_broken_off(self):
        for name in "insert_all", "remove", "insert again":
            make, edit = EDITS[name]
            with make() as tri:
                before = state(tri)
                edit(tri)
                after = state(tri)
            for first in range(20, 45, 2):
                for second in range(1, 12, 2):
                    with make() as tri:
                        state(tri)
                        Lines(first).run(edit, tri)
                        Lines(second).run(lambda it: it.num_faces, tri)
                        self.check(tri, [before, after])

    def test_at_random_moments(self):
        points = DRAW.integers(-(2**29), 2**29, (60_000, 2))
        draw, count = random.Random(5), 0

        def stop(*_):
            raise KeyboardInterrupt

        old = signal.signal(signal.SIGALRM, stop)
        try:
            for _ in range(40):
                with Triangulation(points[:1000], []) as tri:
                    numbers = list(range(1000))
                    signal.setitimer(signal.ITIMER_REAL, draw.uniform(0.0001, 0.05))
                    try:
                        tri.insert_all(points[1000:])
                        for number in draw.sample(numbers, 200):
                            tri.remove(number)
                            tri.insert(points[number])
                    except KeyboardInterrupt:
                        count += 1
                    finally:
                        signal.setitimer(signal.ITIMER_REAL, 0)
                    there = np.unique(tri.points[tri.representatives >= 0], axis=0)
                    self.assertEqual(len(there), tri.num_vertices)
                    self.assertIn(tri.num_vertices, (999, 1000, 59_999, 60_000))
                    self.assertEqual(set(np.unique(tri.simplices)), set(tri.representatives) - {-1})
                    with Triangulation(there) as other:
                        self.assertEqual(len(other), len(tri))
        finally:
            signal.signal(signal.SIGALRM, old)
        self.assertGreater(count, 10)

    def test_in_a_thread(self):
        draw, ended = random.Random(6), threading.Event()
        with Triangulation(POINTS) as tri:

            def work():
                try:
                    for k in range(10**6):
                        tri.remove(tri.insert((k % 1000, 3)))
                        tri.add_constraint(0, 1) if k % 7 == 0 else None
                except KeyboardInterrupt:
                    ended.set()

            for _ in range(30):
                ended.clear()
                thread = threading.Thread(target=work)
                thread.start()
                time.sleep(draw.uniform(0, 0.01))
                while not ended.is_set() and thread.is_alive():
                    raised = ctypes.py_object(KeyboardInterrupt)
                    ctypes.pythonapi.PyThreadState_SetAsyncExc(
                        ctypes.c_ulong(thread.ident), raised
                    )
                    time.sleep(0.001)
                thread.join()
                self.assertIn(tri.num_vertices, (40, 41))
                there = tri.points[tri.representatives >= 0]
                self.assertEqual(len(np.unique(there, axis=0)), tri.num_vertices)
                self.assertEqual(tri.npoints, len(tri.points))
                for number in range(40, tri.npoints):
                    if tri.representatives[number] == number:
                        tri.remove(number)

    def test_memory_is_refused(self):
        words = [sys.executable, os.path.realpath(__file__), "memory"]
        ended = subprocess.run(words, capture_output=True, text=True)
        self.assertEqual(ended.returncode, 0, ended.stderr)
        self.assertGreater(int(ended.stdout), 2)

    def test_a_fork_waits(self):
        points = DRAW.integers(-(2**29), 2**29, (30_000, 2))
        with Triangulation(POINTS) as tri:
            thread = threading.Thread(target=tri.insert_all, args=(points,))
            thread.start()
            time.sleep(0.002)
            child = os.fork()
            if not child:
                status = 1
                try:
                    signal.alarm(20)
                    status = int(tri.num_vertices not in (40, 30_040) or tri.insert((1, 2)) < 0)
                finally:
                    os._exit(status)
            self.assertEqual(os.waitpid(child, 0)[1], 0)
            thread.join()


def refuse_memory():
    """Large insertions under limits of memory: they are made, or nothing is. (test_refused.py
    refuses each allocation of small ones.)"""
    import resource

    most, refused = resource.RLIM_INFINITY, 0
    points = np.random.default_rng(1).integers(-(2**29), 2**29, (200_000, 2)).astype(np.int32)
    for k in range(0, 60, 5):
        with Triangulation(points[:1000], [(0, 1)]) as tri:
            before = state(tri)
            with open("/proc/self/statm") as file:
                pages = int(file.read().split()[0])
            limit = pages * resource.getpagesize() + k * 2**19
            resource.setrlimit(resource.RLIMIT_AS, (limit, most))
            try:
                tri.insert_all(points)
                is_refused = False
            except MemoryError:
                is_refused = True
            finally:
                resource.setrlimit(resource.RLIMIT_AS, (most, most))
            if is_refused:
                assert state(tri) == before, k
                tri.insert_all(points)
            assert tri.num_vertices == len(points) and tri.npoints == 1000 + len(points)
            refused += is_refused
    print(refused)


if __name__ == "__main__":
    if sys.argv[1:] == ["memory"]:
        refuse_memory()
    else:
        unittest.main()
