"""What stays when a triangulation ends, and threads that share one."""
import gc
import threading
import unittest

import numpy as np

from tevasulim import Triangulation


def resident():
    """Bytes of memory that this process has."""
    with open("/proc/self/statm") as file:
        return int(file.read().split()[1]) * 4096


class Life(unittest.TestCase):
    def test_memory_goes_back(self):
        points = np.random.default_rng(1).integers(-(2**29), 2**29, (100_000, 2))

        def once(has_segments):
            with Triangulation(points, [(0, 1)] if has_segments else None) as tri:
                self.assertGreater(len(tri.simplices), 100_000)

        for has_segments in 0, 1, 0, 1:
            once(has_segments)
        gc.collect()
        before = resident()
        for has_segments in [0, 1] * 5:
            once(has_segments)
        gc.collect()
        # One such triangulation has 15 MB.
        self.assertLess(resident() - before, 5_000_000)

    def test_it_ends_without_close(self):
        before = resident()
        points = np.random.default_rng(1).integers(-(2**29), 2**29, (100_000, 2))
        for _ in range(10):
            Triangulation(points)
        gc.collect()
        self.assertLess(resident() - before, 60_000_000)

    def test_threads(self):
        points = np.random.default_rng(2).integers(-1000, 1000, (4000, 2))
        with Triangulation() as tri:
            failed = []

            def work(part):
                try:
                    for point in part:
                        tri.insert(point)
                        tri.nearest(point)
                        tri.find_simplex(point)
                except Exception as error:
                    failed.append(error)

            threads = [threading.Thread(target=work, args=(it,)) for it in np.split(points, 4)]
            for it in threads:
                it.start()
            for it in threads:
                it.join()
            self.assertEqual(failed, [])
            self.assertEqual(tri.num_vertices, len(np.unique(points, axis=0)))
            with Triangulation(points) as other:
                self.assertEqual(tri.num_edges, other.num_edges)


if __name__ == "__main__":
    unittest.main()
