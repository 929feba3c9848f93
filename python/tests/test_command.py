"""The command `tevasulim`: files in, files out, and its exit statuses."""
import os
import subprocess
import sys
import tempfile
import unittest

import numpy as np

from test_values import has

TABLE = "x,y,z\n0,0,7\n4,0,8\n5,5,9\n0,4,1\n"
MAPS = has("geopandas") and has("shapely")


class Command(unittest.TestCase):
    def setUp(self):
        self.room = tempfile.TemporaryDirectory()
        self.addCleanup(self.room.cleanup)

    def file(self, name, text):
        path = os.path.join(self.room.name, name)
        with open(path, "w", encoding="utf-8") as file:
            file.write(text)
        return path

    def run_command(self, *words):
        command = [sys.executable, "-m", "tevasulim", *words]
        ran = subprocess.run(command, capture_output=True, text=True, cwd=self.room.name)
        return ran.returncode, ran.stdout, ran.stderr

    def faces(self, *words):
        status, out, said = self.run_command("mesh", *words)
        self.assertEqual((status, said), (0, ""))
        return sorted(sorted(map(int, line.split(","))) for line in out.split())

    def test_help(self):
        for words in [], ["mesh"], ["contours"], ["grid"], ["plot"], ["voronoi"], ["tiles"]:
            status, out, _ = self.run_command(*words, "--help")
            self.assertEqual(status, 0)
            self.assertIn("130", out)
        self.assertIn("proved", self.run_command("--version")[1])

    def test_tables(self):
        points = self.file("points.csv", TABLE)
        self.assertEqual(self.faces(points, "--header"), [[0, 1, 3], [1, 2, 3]])
        self.assertEqual(self.faces(points, "--columns", "x,y"), [[0, 1, 3], [1, 2, 3]])
        self.assertEqual(self.faces(points, "--header", "--columns", "0,1"), [[0, 1, 3], [1, 2, 3]])
        spaces = self.file("points.xyz", "# made by hand\n0 0 7\n4 0 8\n\n5 5 9\n0 4 1\n")
        self.assertEqual(self.faces(spaces), [[0, 1, 3], [1, 2, 3]])
        tabs = self.file("points.tsv", "0\t0\n4\t0.5\n5\t5\n")
        self.assertEqual(self.faces(tabs), [[0, 1, 2]])
        segments = self.file("segments.csv", "0,2\n")
        found = self.faces(points, "--header", "--segments", segments)
        self.assertEqual(found, [[0, 1, 2], [0, 2, 3]])
        self.assertEqual(self.faces(self.file("none.csv", "x,y\n"), "--header"), [])
        self.assertEqual(self.faces(self.file("empty.csv", "")), [])

    def test_no_row_is_lost(self):
        """A byte order mark is no part of a number, and a typo is no row of names."""
        marked = self.file("marked.csv", "\ufeff0,0\n4,0\n0,4\n")
        self.assertEqual(self.faces(marked), [[0, 1, 2]])
        named = self.file("named.csv", "\ufeffx,y\n0,0\n4,0\n0,4\n")
        self.assertEqual(self.faces(named, "--columns", "x,y"), [[0, 1, 2]])
        for first in "O,0", "x,y", "0.0.1,4":
            typo = self.file("typo.csv", f"{first}\n4,0\n5,5\n0,4\n")
            status, out, said = self.run_command("mesh", typo)
            self.assertEqual((status, out), (1, ""))
            self.assertIn("--header", said)

    def test_decimals(self):
        points = self.file("points.csv", "0.29,0\n4,-0.5\n5,5\n")
        self.assertEqual(self.faces(points), [[0, 1, 2]])
        self.assertEqual(self.faces(points, "--scale", "100"), [[0, 1, 2]])
        self.assertEqual(self.faces(points, "--exact"), [[0, 1, 2]])
        self.assertEqual(self.run_command("mesh", points, "--scale", "10")[0], 1)

    def test_arrays(self):
        points = os.path.join(self.room.name, "points.npy")
        np.save(points, np.array([(0, 0), (4, 0), (5, 5), (0, 4)]))
        out = os.path.join(self.room.name, "faces.npy")
        self.assertEqual(self.run_command("mesh", points, "--neighbors", "-o", out), (0, "", ""))
        self.assertEqual(np.load(out).shape, (2, 6))
        kept = os.path.join(self.room.name, "kept.npz")
        self.assertEqual(self.run_command("mesh", points, "-o", kept), (0, "", ""))
        self.assertEqual(self.faces(kept), [[0, 1, 3], [1, 2, 3]])

    def test_what_is_refused(self):
        for text in "0,0\n1\n", "0,0\n1,a\n", "0,0\n1,nan\n", "0,0\n1,\n", "0\n1\n":
            for more in [], ["--scale", "1"]:
                status, out, said = self.run_command("mesh", self.file("points.csv", text), *more)
                self.assertEqual((status, out, len(said.splitlines())), (1, "", 1), (text, said))
        self.assertEqual(self.run_command("mesh", "nowhere.csv")[0], 1)
        self.assertEqual(self.run_command("mesh", self.file("bad.npy", "no array"))[0], 1)
        self.assertEqual(self.run_command("mesh", self.file("bad.gpkg", "no layer"))[0], 1)
        points = self.file("points.csv", "0,0\n1,0\n0,1\n")
        for segment in "0,3\n", "0,-1\n", "0.5,1\n0.5,2\n":
            words = "mesh", points, "--segments", self.file("s.csv", segment)
            status, out, said = self.run_command(*words)
            self.assertEqual((status, out, len(said.splitlines())), (1, "", 1), said)
        for words, status in (
            (["mesh", points, "--scale", "0"], 1),
            (["mesh", points, "--columns", "x,y"], 1),
            (["voronoi", points], 1),
            (["contours", points, "-o", "c.gpkg"], 1),
            (["mesh", points, "--scale", "x"], 2),
            (["mesh"], 2),
            (["grid", points, "-o", "g.npy"], 2),
            (["triangles", points], 2),
            ([], 2),
        ):
            self.assertEqual(self.run_command(*words)[0], status, words)

    def test_a_raster_and_pictures(self):
        points, out = self.file("points.csv", TABLE), os.path.join(self.room.name, "out")
        ran = self.run_command("grid", points, "--header", "--step", "1", "-o", f"{out}.npy")
        self.assertEqual(ran, (0, "", ""))
        values = np.load(f"{out}.npy")
        self.assertEqual((values.shape, values[-1, 0], values[-1, 4]), ((6, 6), 7, 8))
        if has("matplotlib"):
            self.assertEqual(self.run_command("plot", points, "--header", "-o", f"{out}.png")[0], 0)
            self.assertGreater(os.path.getsize(f"{out}.png"), 8000)
        if has("rasterio"):
            words = "--header", "--step", "1", "-o", f"{out}.tif"
            self.assertEqual(self.run_command("grid", points, *words), (0, "", ""))
            ran = self.run_command("grid", f"{out}.tif", "--step", "1", "-o", f"{out}2.npy")
            self.assertEqual(ran, (0, "", ""))
            again = np.load(f"{out}2.npy")
            known = ~np.isnan(values)
            self.assertTrue(np.allclose(again[known], values[known]))
        if has("meshio"):
            for kind in "obj", "stl", "vtk", "msh", "ply":
                ran = self.run_command("mesh", points, "--header", "-o", f"{out}.{kind}")
                self.assertEqual(ran[0], 0, ran)
                self.assertGreater(os.path.getsize(f"{out}.{kind}"), 90)

    @unittest.skipUnless(MAPS, "geopandas is not installed")
    def test_layers(self):
        import geopandas

        points, out = self.file("points.csv", TABLE), os.path.join(self.room.name, "out.gpkg")
        for name, more, rows in (
            ("mesh", [], 2),
            ("voronoi", [], 4),
            ("contours", ["--interval", "2"], 4),
            ("contours", ["--levels", "2.5,3.5"], 2),
        ):
            status, _, said = self.run_command(name, points, "--header", *more, "-o", out)
            self.assertEqual((status, said), (0, ""), name)
            self.assertEqual(len(geopandas.read_file(out)), rows, name)
            os.remove(out)
        self.run_command("mesh", points, "--header", "-o", out)
        self.assertEqual(len(self.faces(out)), 2)

    def test_tiles(self):
        points = os.path.join(self.room.name, "points.npy")
        np.save(points, np.random.default_rng(1).integers(0, 10**6, (5000, 2)))
        out = os.path.join(self.room.name, "cells")
        words = "tiles", points, "--tile-size", "2000", "--workers", "2", "-o", out
        status, names, said = self.run_command(*words)
        self.assertEqual((status, said), (0, ""))
        self.assertGreater(sum(len(np.load(it)) for it in names.split()), 9900)
        # Another run leaves the files of the first.
        status, again, _ = self.run_command(*words)
        self.assertEqual(status, 0)
        self.assertFalse(set(names.split()) & set(again.split()))
        self.assertTrue(all(map(os.path.exists, names.split())))


if __name__ == "__main__":
    unittest.main()
