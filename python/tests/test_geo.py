"""Maps: frames of geopandas in, frames and meshes out."""
import os
import tempfile
import unittest
import warnings

import numpy as np

from tevasulim import CrossingError
from test_values import has

MAPS = has("geopandas") and has("shapely")


@unittest.skipUnless(MAPS, "geopandas is not installed")
class Maps(unittest.TestCase):
    def setUp(self):
        import geopandas
        import shapely.geometry as geometry

        from tevasulim import geo

        self.geo, self.frames, self.shapes = geo, geopandas, geometry
        draw = np.random.default_rng(3)
        places = np.round(draw.random((200, 2)) * 900 + (500_050, 5_400_050), 2)
        points = [geometry.Point(x, y, x / 100 - y / 1000) for x, y in places]
        parcels = [
            geometry.box(500_000 + k * 500, 5_400_000, 500_500 + k * 500, 5_401_000) for k in (0, 1)
        ]
        road = geometry.LineString([(500_100, 5_400_300), (500_450, 5_400_700)])
        self.frame = geopandas.GeoDataFrame(
            {"name": ["a", "b", "road", *["p"] * 200], "size": range(203)},
            geometry=[*parcels, road, *points],
            crs="EPSG:32632",
        )

    def test_a_frame(self):
        found = self.geo.triangulate(self.frame)
        tri = found.triangulation
        self.assertTrue(tri.is_exact)
        self.assertEqual(tri.num_vertices, 200 + 6 + 2)
        faces = found.faces()
        self.assertEqual((len(faces), faces.crs), (len(tri), self.frame.crs))
        self.assertEqual(set(faces["name"]), {"a", "b"})
        for name, parcel in zip("ab", self.frame.geometry[:2]):
            self.assertAlmostEqual(faces[faces["name"] == name].area.sum(), parcel.area, places=3)
        self.assertEqual(len(found.faces(inside=True)), len(faces))
        self.assertEqual(len(found.cells()), 208)

    def test_files(self):
        with tempfile.TemporaryDirectory() as room:
            self.frame[3:].to_file(f"{room}/points.gpkg")
            self.frame[:2].to_file(f"{room}/parcels.shp")
            self.frame[3:].to_file(f"{room}/points.geojson", driver="GeoJSON")
            found = self.geo.triangulate(f"{room}/points.gpkg")
            tri = found.triangulation
            self.assertEqual(tri.num_vertices, 200)
            self.assertTrue(np.allclose(found.heights, tri.points @ (0.01, -0.001)))
            lines = found.contours([-395.5, -395])
            for level, line in zip(lines["level"], lines.geometry):
                self.assertTrue(np.allclose(np.array(line.coords) @ (0.01, -0.001), level))
            raster = found.grid(50)
            there = ~np.isnan(raster.values)
            wanted = raster.x / 100 - raster.y[:, None] / 1000
            self.assertTrue(np.allclose(raster.values[there], wanted[there]))
            by_column = self.geo.triangulate(f"{room}/points.gpkg", height="size")
            self.assertEqual(by_column.heights.tolist(), list(range(3, 203)))
            self.assertEqual(len(self.geo.triangulate(f"{room}/parcels.shp").faces()), 4)
            found.write(f"{room}/faces.gpkg")
            again = self.frames.read_file(f"{room}/faces.gpkg")
            self.assertEqual((len(again), again.crs), (len(tri), self.frame.crs))
            if has("meshio"):
                import meshio

                found.write(f"{room}/hill.vtk")
                mesh = meshio.read(f"{room}/hill.vtk")
                self.assertEqual((len(mesh.points), len(mesh.cells[0].data)), (200, len(tri)))

    def test_degrees_are_told(self):
        with self.assertWarnsRegex(UserWarning, "degrees"):
            self.geo.triangulate(self.frame.to_crs("EPSG:4326"))
        with warnings.catch_warnings():
            warnings.simplefilter("error")
            self.geo.triangulate(self.frame)
            self.geo.triangulate(self.frame.geometry)

    def test_what_is_refused(self):
        line = self.shapes.LineString([(500_400, 5_400_300), (500_600, 5_400_700)])
        more = self.frames.GeoDataFrame({"name": ["x"]}, geometry=[line], crs=self.frame.crs)
        import pandas

        with self.assertRaisesRegex(CrossingError, "feature 3") as caught:
            self.geo.triangulate(pandas.concat([self.frame[:3], more], ignore_index=True))
        self.assertEqual(caught.exception.index, 3)
        with self.assertRaisesRegex(ValueError, "no height"):
            self.geo.triangulate(self.frame).contours(5)
        with self.assertRaises(Exception):
            self.geo.triangulate("nowhere.gpkg")

    def test_empty_and_missing_geometries(self):
        shapes = [None, self.shapes.Point(), self.shapes.Polygon(), self.shapes.Point(1, 2)]
        found = self.geo.triangulate(self.frames.GeoDataFrame(geometry=shapes))
        self.assertEqual(found.triangulation.num_vertices, 1)
        self.assertEqual(len(found.faces()), 0)

    @unittest.skipUnless(has("rasterio"), "rasterio is not installed")
    def test_rasters(self):
        import rasterio
        from rasterio.transform import from_origin

        with tempfile.TemporaryDirectory() as room:
            values = np.arange(12.0).reshape(3, 4)
            values[0, 0] = -9999
            shape = {"width": 4, "height": 3, "count": 1, "dtype": "float64", "nodata": -9999}
            place = from_origin(500_000, 5_400_000, 10, 10)
            words = {"driver": "GTiff", "transform": place, "crs": "EPSG:32632", **shape}
            with rasterio.open(f"{room}/a.tif", "w", **words) as file:
                file.write(values, 1)
            found = self.geo.triangulate(f"{room}/a.tif")
            self.assertEqual(found.triangulation.num_vertices, 11)
            self.assertEqual(found.triangulation.points[0].tolist(), [500_015, 5_399_995])
            self.assertEqual(found.heights.tolist(), list(range(1, 12)))


if __name__ == "__main__":
    unittest.main()
