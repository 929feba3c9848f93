"""What scipy's and matplotlib's users look for: copies, values, cells, regions and pictures."""
import copy
import io
import os
import pickle
import tempfile
import unittest
from concurrent.futures import ProcessPoolExecutor

import numpy as np

from tevasulim import Triangulation

DRAW = np.random.default_rng(9)
UNIT = DRAW.random((200, 2))
HILL = np.array([(0, 0), (9, 0), (9, 9), (0, 9), (3, 3), (6, 3), (5, 6)])
WALLS = [(4, 5), (5, 6), (6, 4)]


def has(module):
    try:
        __import__(module)
    except ImportError:
        return False
    return True


def faces_of(tri):
    return sorted(map(tuple, np.sort(tri.simplices, axis=1).tolist()))


def number_of_faces(tri):
    return len(tri)


class Copies(unittest.TestCase):
    def same(self, a, b):
        self.assertEqual(faces_of(a), faces_of(b))
        for name in "points representatives constraint_sides".split():
            x, y = getattr(a, name), getattr(b, name)
            self.assertEqual((x.dtype, x.shape), (y.dtype, y.shape))
        self.assertTrue((a.points == b.points).all())
        self.assertEqual(a.representatives.tolist(), b.representatives.tolist())
        for name in "scale rounding is_constrained num_constraints npoints".split():
            self.assertEqual(getattr(a, name), getattr(b, name), name)

    def each(self):
        walled = Triangulation(HILL, WALLS)
        walled.remove(1)
        walled.insert((9, 0))
        yield walled
        yield Triangulation(UNIT)
        yield Triangulation(UNIT, [(0, 1)])
        yield Triangulation([(0.25, 1), (2, 3), (0, 0)], scale=4)
        yield Triangulation()
        yield Triangulation(HILL + 2**40)
        yield Triangulation(segments=[])

    def test_each_kind_of_copy(self):
        for tri in self.each():
            file = io.BytesIO()
            tri.save(file)
            file.seek(0)
            for other in (
                tri.copy(),
                copy.copy(tri),
                copy.deepcopy(tri),
                pickle.loads(pickle.dumps(tri)),
                Triangulation.load(file),
            ):
                self.same(tri, other)
                before = tri.npoints
                point = other.points.max(0) - 1 if before else (2, 1)
                number = other.insert(np.array(point) / (4 if tri.scale == 4 else 1))
                self.assertTrue(0 <= number <= before)
                self.assertEqual(other.npoints, before + 1)
                self.assertEqual(tri.npoints, before)
                other.close()
            self.assertTrue(tri.num_vertices >= 0)

    def test_a_file(self):
        with tempfile.TemporaryDirectory() as room, Triangulation(HILL, WALLS) as tri:
            tri.save(f"{room}/hill.npz")
            self.same(tri, Triangulation.load(f"{room}/hill.npz"))
            np.savez(f"{room}/other.npz", a=1)
            np.save(f"{room}/other.npy", [1])
            for name in "other.npz", "other.npy":
                with self.assertRaises((ValueError, TypeError, AttributeError)):
                    Triangulation.load(f"{room}/{name}")
            with self.assertRaises(OSError):
                Triangulation.load(f"{room}/nowhere.npz")

    def test_other_processes(self):
        with ProcessPoolExecutor(2) as pool:
            several = [Triangulation(UNIT[:k]) for k in (3, 50, 200)]
            found = list(pool.map(number_of_faces, several))
        self.assertEqual(found, list(map(len, several)))

    def test_memory_goes_back(self):
        with Triangulation(UNIT) as tri:
            for _ in range(3):
                tri.copy().close()


class Names(unittest.TestCase):
    def test_names_of_scipy(self):
        with Triangulation(np.vstack([UNIT, UNIT[:5]])) as tri:
            self.assertEqual((tri.npoints, tri.nsimplex, tri.ndim), (205, len(tri), 2))
            self.assertEqual(tri.coplanar[:, [0, 2]].tolist(), [[200 + k, k] for k in range(5)])
            for point, face, first in tri.coplanar:
                self.assertIn(first, tri.simplices[face])
            self.assertTrue((tri.min_bound == tri.points.min(0)).all())
            self.assertTrue((tri.max_bound == tri.points.max(0)).all())
            for point, face in enumerate(tri.vertex_to_simplex[:200]):
                self.assertIn(point, tri.simplices[face])
            begins, others = tri.vertex_neighbor_vertices
            wanted = [set() for _ in range(205)]
            for a, b in tri.edges.tolist():
                wanted[a].add(b), wanted[b].add(a)
            got = [others[a:b].tolist() for a, b in zip(begins, begins[1:])]
            self.assertEqual(list(map(sorted, got)), list(map(sorted, wanted)))
            middles = tri.points[tri.simplices].mean(1)
            parts = np.einsum("fij,fj->fi", tri.transform[:, :2], middles - tri.transform[:, 2])
            self.assertTrue(np.allclose(parts, 1 / 3))
            self.assertEqual(tri.add_points([(0.5, 0.25)]).tolist(), [205])


class Values(unittest.TestCase):
    def test_planes_are_met(self):
        z = np.stack([UNIT @ (3, -2) + 7, UNIT @ (1, 1)], 1)
        with Triangulation(UNIT) as tri:
            asked = DRAW.random((50, 4, 2))
            found = tri.interpolate(z, asked)
            self.assertEqual(found.shape, (50, 4, 2))
            inside = tri.find_simplex(asked) >= 0
            wanted = asked @ [[3, 1], [-2, 1]] + (7, 0)
            self.assertTrue(np.allclose(found[inside], wanted[inside]))
            self.assertTrue(np.isnan(found[~inside]).all())
            self.assertTrue(np.allclose(tri.gradient(z[:, 0]), (3, -2)))
            mean = tri.interpolate(z[:, 0], asked[inside], "mean")
            corners = tri.simplices[tri.find_simplex(asked[inside])]
            self.assertTrue(np.allclose(mean, z[corners, 0].mean(1)))
            near = tri.interpolate(z[:, 0], asked, "nearest")
            self.assertTrue((near == z[tri.nearest(asked), 0]).all())
            raster = tri.grid(z[:, 0], 0.03)
            self.assertEqual(raster.values.shape, (len(raster.y), len(raster.x)))
            there = ~np.isnan(raster.values)
            self.assertGreater(there.mean(), 0.9)
            wanted = raster.x * 3 - raster.y[:, None] * 2 + 7
            self.assertTrue(np.allclose(raster.values[there], wanted[there]))
            self.assertEqual(tri.grid(z, 0.5, (0, 0, 1, 1)).values.shape, (3, 3, 2))

    def test_natural_neighbours_of_planes(self):
        """A plane is met, and at a vertex and along the hull the values are those of the faces,
        also where many points are on one circle."""
        nodes = np.stack(np.meshgrid(np.arange(6) * 8, np.arange(6) * 8), -1).reshape(-1, 2)
        steps = np.stack(np.meshgrid(np.arange(-1, 42), np.arange(-1, 42)), -1)
        z = np.stack([nodes @ (3, -2) + 7, nodes @ (1, 1)], 1)
        for walls in None, [(0, 35)]:
            with Triangulation(nodes[::-1], walls) as tri:
                tri.remove(tri.insert((11, 13)))
                found = tri.interpolate(np.vstack([z[::-1], [[1e9, 1e9]]]), steps, "natural")
                wanted = steps @ [[3, 1], [-2, 1]] + (7, 0)
                inside = ((steps >= 0) & (steps <= 40)).all(-1)
                self.assertTrue(np.allclose(found[inside], wanted[inside]))
                self.assertTrue(np.isnan(found[~inside]).all())
        values = DRAW.random(36)
        with Triangulation(nodes) as tri:
            self.assertEqual(tri.interpolate(values, nodes, "natural").tolist(), values.tolist())
            border = [(k, 0) for k in range(41)] + [(40, k) for k in range(41)]
            found = tri.interpolate(values, border, "natural")
            self.assertTrue(np.allclose(found, tri.interpolate(values, border)))

    @unittest.skipUnless(has("shapely"), "shapely is not installed")
    def test_natural_neighbours_by_areas(self):
        """Each vertex weighs as much as its cell loses to the point's own."""
        nodes = np.stack(np.meshgrid(np.arange(5) * 4, np.arange(5) * 4), -1).reshape(-1, 2)
        far = [-(2**20), -(2**20), 2**20, 2**20]
        for points, asked in (
            (UNIT[:60], DRAW.random((40, 2)) * 0.8 + 0.1),
            (nodes, DRAW.integers(1, 16, (40, 2))),
            (nodes, DRAW.random((40, 2)) * 16),
        ):
            values = DRAW.random(len(points))
            with Triangulation(points) as tri:
                found, cells = tri.interpolate(values, asked, "natural"), tri.cells(far)
            for point, value in zip(asked, found):
                with Triangulation(np.vstack([points, point[None]])) as more:
                    number = int(more.representatives[-1])
                    own = more.cells(far)[number]
                if number < len(points):
                    self.assertAlmostEqual(value, values[number])
                    continue
                lost = np.array([cells[k].intersection(own).area for k in range(len(points))])
                if not np.isnan(value):
                    self.assertAlmostEqual(value, lost @ values / lost.sum(), places=5)
            self.assertLess(np.isnan(found).mean(), 0.2)

    def test_what_is_refused(self):
        with Triangulation(UNIT) as tri:
            for values in UNIT[:5, 0], 3, UNIT[:199]:
                with self.assertRaises(ValueError):
                    tri.interpolate(values, (0.5, 0.5))
            with self.assertRaises(ValueError):
                tri.interpolate(UNIT[:, 0], (0.5, 0.5), "cubic")
            with self.assertRaises(ValueError):
                tri.grid(UNIT[:, 0], 0)
            with self.assertRaises(ValueError):
                tri.gradient(UNIT)
            with self.assertRaises(ValueError):
                tri.nearest((0, 0), k=0)

    @unittest.skipUnless(has("scipy"), "scipy is not installed")
    def test_beside_scipy(self):
        from scipy.interpolate import LinearNDInterpolator
        from scipy.spatial import Voronoi

        z, asked = DRAW.random(200), DRAW.random((3000, 2))
        with Triangulation(UNIT) as tri:
            ours, theirs = tri.interpolate(z, asked), LinearNDInterpolator(UNIT, z)(asked)
            self.assertTrue(np.allclose(ours, theirs, atol=1e-5, equal_nan=True))
            ours, theirs = tri.voronoi(), Voronoi(UNIT)
            names = {
                k: int(np.argmin(((ours.vertices - it) ** 2).sum(1)))
                for k, it in enumerate(theirs.vertices)
            }
            names[-1] = -1
            self.assertEqual(len(set(names.values())), len(ours.vertices) + 1)
            pairs = zip(theirs.ridge_points.tolist(), theirs.ridge_vertices)
            wanted = {frozenset(a): sorted(names[it] for it in b) for a, b in pairs}
            pairs = zip(ours.ridge_points.tolist(), ours.ridge_vertices)
            self.assertEqual({frozenset(a): sorted(b) for a, b in pairs}, wanted)
            for point in range(200):
                there = [names[it] for it in theirs.regions[theirs.point_region[point]]]
                self.assertEqual(set(ours.regions[ours.point_region[point]]), set(there))

    def test_cells_of_a_grid(self):
        grid = np.stack(np.meshgrid(range(4), range(3)), -1).reshape(-1, 2)
        with Triangulation(grid, [(0, 1)]) as tri:
            diagram = tri.voronoi()
            self.assertEqual((len(diagram.vertices), len(diagram.ridge_points)), (6, 17))
            tri.remove(5)
            self.assertEqual(tri.voronoi().point_region[5], -1)

    @unittest.skipUnless(has("shapely"), "shapely is not installed")
    def test_cells_are_those_of_the_nearest(self):
        import shapely.geometry as geometry

        for points in UNIT, [(0, 0), (1, 0), (0, 1)], HILL / 9:
            with Triangulation(points) as tri:
                cells = tri.cells((-1, -1, 2, 2))
                self.assertAlmostEqual(sum(it.area for it in cells.values()), 9)
                for asked in DRAW.random((100, 2)) * 3 - 1:
                    cell = cells[int(tri.nearest(asked))]
                    self.assertLess(cell.distance(geometry.Point(*asked)), 1e-6)
                window = geometry.Point(0.5, 0.5).buffer(0.4)
                area = sum(it.area for it in tri.cells(window).values())
                self.assertAlmostEqual(area, window.area)


class Regions(unittest.TestCase):
    def test_layers_and_polygons(self):
        with Triangulation(HILL, WALLS) as tri:
            inside = tri.faces_inside(HILL[[4, 5, 6]])
            self.assertEqual((tri.layers == 1).tolist(), inside.tolist())
            self.assertEqual(inside.sum(), 1)
            ring = tri.faces_inside([HILL[:4], HILL[[4, 5, 6]]])
            self.assertEqual(ring.tolist(), (~inside).tolist())
            with self.assertRaises(ValueError):
                tri.layers[0] = 3

    def test_sight(self):
        with Triangulation(HILL, WALLS) as tri:
            free = tri.layers == 0
            self.assertTrue(tri.is_in_sight((1, 1), (8, 1), free))
            self.assertFalse(tri.is_in_sight((1, 4), (8, 4), free))
            self.assertTrue(tri.is_in_sight((1, 3), (8, 3), free))
            self.assertFalse(tri.is_in_sight((1, 1), (10, 1)))
            self.assertFalse(tri.is_in_sight((1, 1), (1e30, 1)))
            for wrong in [True], np.ones(len(tri)), np.ones((len(tri), 1), bool):
                with self.assertRaises(ValueError):
                    tri.is_in_sight((1, 1), (8, 1), wrong)

    def test_conflicts(self):
        with Triangulation(HILL, WALLS) as tri:
            found = [sorted(it) for it in tri.conflicts(0, 2).tolist()]
            self.assertEqual(found, [sorted((5, 6))])
            self.assertEqual(tri.conflicts(0, 1).shape, (0, 2))
            with self.assertRaises(IndexError):
                tri.conflicts(0, 7)


@unittest.skipUnless(has("matplotlib"), "matplotlib is not installed")
class Pictures(unittest.TestCase):
    def draw(self, tri, *words, **named):
        from matplotlib.figure import Figure

        figure = Figure(figsize=(3, 3))
        tri.plot(figure.add_subplot(), *words, **named)
        file = io.BytesIO()
        figure.savefig(file, format="png", dpi=60)
        return len(file.getvalue())

    def test_pictures(self):
        with Triangulation(UNIT, [(0, 1)]) as tri:
            plain = self.draw(tri)
            self.assertGreater(plain, 4000)
            self.assertGreater(self.draw(tri, UNIT[:, 0], points=True), plain)
            self.assertGreater(self.draw(tri, np.arange(len(tri))), plain)
            with self.assertRaises(ValueError):
                self.draw(tri, [1, 2])
            self.assertLess(self.draw(Triangulation()), plain)

    def test_contours(self):
        with Triangulation(UNIT) as tri:
            for level, lines in tri.contours(UNIT @ (3, -2), [0.5, 1]):
                for line in lines:
                    self.assertTrue(np.allclose(line @ (3, -2), level, atol=1e-6))
            self.assertGreater(len(tri.contours(UNIT[:, 0], 5)), 3)
            self.assertEqual(tri.to_matplotlib().triangles.shape, tri.simplices.shape)

    def test_notebooks(self):
        with Triangulation(UNIT, [(0, 1)]) as tri:
            text = tri._repr_svg_()
            self.assertEqual(text.count("M"), tri.num_edges + tri.num_constraints)
            self.assertTrue(text.startswith("<svg") and text.endswith("</svg>"))
        self.assertIsNone(tri._repr_svg_())
        self.assertIsNone(Triangulation()._repr_svg_())


class Missing(unittest.TestCase):
    def test_what_is_missing_is_named(self):
        from tevasulim._needs import needed

        with self.assertRaisesRegex(ImportError, "pip install no_such_module"):
            needed("no_such_module")


if __name__ == "__main__":
    unittest.main()
