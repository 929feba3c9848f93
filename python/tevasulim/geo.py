"""Triangulations of geographic data: frames of geopandas and what GDAL reads, and back.

    from tevasulim import geo

    hill = geo.triangulate("survey.gpkg")         # points, breaklines and parcels, with heights
    hill.contours(5).to_file("contours.gpkg")
    hill.faces().to_file("faces.gpkg")            # each with its parcel's columns

Files are read and written by geopandas (vectors), rasterio (rasters) and meshio (meshes), each of
which is only needed where it is used."""
from __future__ import annotations

import os
import warnings
from typing import Any, Iterator, List, NamedTuple, Optional, Tuple

import numpy as np

from ._arrays import Floats
from ._needs import needed
from ._types import NDArray
from ._values import Raster
from .errors import CrossingError
from .triangulation import Triangulation

__all__ = ["triangulate", "triangulate_raster", "Surface"]
RASTERS = ".tif .tiff .vrt .img .asc .dem .hgt".split()
MESHES = ".obj .stl .vtk .vtu .msh .ply .off .mesh .xdmf .nas".split()


class Surface(NamedTuple):
    """A triangulation of points on a map.

    triangulation : Triangulation
    heights : float64 array of shape (n,)
        The height of each of its points, or NaN.
    crs : pyproj.CRS or None
        The reference system.
    polygons : geopandas.GeoDataFrame or None
        The polygons that were handed in, with their columns.
    """

    triangulation: Triangulation
    heights: Floats
    crs: Any = None
    polygons: Any = None

    def _corners(self) -> Floats:
        """The corners of all faces, shape (f, 3, 2), or (f, 3, 3) where there are heights."""
        tri = self.triangulation
        places = tri.points / (tri.scale if tri._parts else 1)
        if not np.isnan(self.heights).all():
            places = np.column_stack([places, self.heights])
        found: Floats = places[tri.simplices]
        return found

    def faces(self, inside: bool = False) -> Any:
        """A GeoDataFrame with a row for each face, in the order of `simplices`, and the columns of
        the polygon that the face is in; of several polygons, the first.

        Parameters
        ----------
        inside : bool
            Whether to leave out the faces that are in no polygon.
        """
        frames, geometry = needed("geopandas"), needed("shapely.geometry")
        corners = self._corners()
        shapes = [geometry.Polygon(it) for it in corners]
        frame = frames.GeoDataFrame({"geometry": shapes}, geometry="geometry", crs=self.crs)
        if self.polygons is None:
            return frame
        middles = frames.points_from_xy(*corners[:, :, :2].mean(1).T)
        asked = frames.GeoDataFrame({"geometry": middles}, geometry="geometry", crs=self.crs)
        found = frames.sjoin(asked, self.polygons, how="left", predicate="within")
        found = found[~found.index.duplicated()]
        if inside:
            frame = frame[found["index_right"].notna()]
        return frame.join(found.drop(columns=["geometry", "index_right"]))

    def contours(self, levels: Any = 10) -> Any:
        """A GeoDataFrame of contour lines, with the column `level`; `levels` as of
        `Triangulation.contours`."""
        frames, geometry = needed("geopandas"), needed("shapely.geometry")
        scale = self.triangulation.scale if self.triangulation._parts else 1
        rows = [
            (contour.level, geometry.LineString(line / scale))
            for contour in self.triangulation.contours(self._known_heights(), levels)
            for line in contour.lines
        ]
        columns = {"level": [it[0] for it in rows], "geometry": [it[1] for it in rows]}
        return frames.GeoDataFrame(columns, geometry="geometry", crs=self.crs)

    def grid(self, step: float, bounds: Any = None) -> Raster:
        """A raster of heights, as of `Triangulation.grid`."""
        return self.triangulation.grid(self._known_heights(), step, bounds)

    def _known_heights(self) -> Floats:
        used = np.unique(self.triangulation.simplices)
        wrong = used[np.isnan(self.heights[used])]
        if len(wrong):
            raise ValueError(
                f"{self.triangulation._point_text(int(wrong[0]))} has no height: heights are Z "
                "coordinates, the third column of a table, or the column that height= names"
            )
        return self.heights

    def cells(self, within: Any = None) -> Any:
        """A GeoDataFrame of Voronoi cells, by the number of each point; `within` as of
        `Triangulation.cells`."""
        frames = needed("geopandas")
        cells = self.triangulation.cells(within)
        columns = {"point": list(cells), "geometry": list(cells.values())}
        return frames.GeoDataFrame(columns, geometry="geometry", crs=self.crs)

    def to_meshio(self) -> Any:
        """A `meshio.Mesh` of all faces, with height 0 where there is none."""
        corners = self._corners().reshape(-1, self._corners().shape[-1])
        flat = np.zeros((len(corners), 3))
        flat[:, : corners.shape[1]] = np.nan_to_num(corners)
        used, rows = np.unique(self.triangulation.simplices.ravel(), return_inverse=True)
        points = np.empty((len(used), 3))
        points[rows] = flat
        return needed("meshio").Mesh(points, [("triangle", rows.reshape(-1, 3))])

    def write(self, path: Any) -> None:
        """Writes the faces: as a mesh by meshio, if the ending of the name is that of a mesh, or
        else as a layer by geopandas."""
        if ending(path) in MESHES:
            self.to_meshio().write(path)
        else:
            self.faces().to_file(path)


def ending(path: Any) -> str:
    """A file's ending, in small letters."""
    given: str = os.path.splitext(os.fspath(path))[1].lower()
    return given


def triangulate(
    source: Any, *, height: Optional[str] = None, layer: Any = None, **settings: Any
) -> Surface:
    """Triangulates the points, lines and polygons of a frame or a file. Lines and the borders of
    polygons are constraints.

    Parameters
    ----------
    source : geopandas.GeoDataFrame, geopandas.GeoSeries, or name of a file
        A file that `geopandas.read_file` reads (GeoPackage, Shapefile, GeoJSON, DXF, ..), or a
        raster that `rasterio` reads, whose cells become points.
    height : str, optional
        The column of heights; without it, the Z coordinates are the heights.
    layer : str or int, optional
        The layer of a file.
    **settings
        `scale`, `exact` and `bounds` of `Triangulation`.

    Returns
    -------
    Surface

    Raises
    ------
    CrossingError
        If two lines or borders cross. `index` is the row of the later feature, and the message has
        the coordinates of both segments.
    ImportError
        Where geopandas is not installed.
    """
    frames = needed("geopandas")
    if isinstance(source, (str, os.PathLike)):
        if ending(source) in RASTERS:
            return triangulate_raster(source, **settings)
        source = frames.read_file(source, **({} if layer is None else {"layer": layer}))
    if isinstance(source, frames.GeoSeries):
        source = frames.GeoDataFrame(geometry=source)
    warn_of_degrees(source.crs)
    places, lines, rows = gathered(source.geometry)
    heights = places[:, 2]
    if height is not None:
        heights = np.asarray(source[height], np.float64)[np.asarray(rows, np.intp)]
    tri = Triangulation(places[:, :2], **settings)
    for row, line in lines:
        try:
            tri.add_chain(line)
        except CrossingError as error:
            name = source.index[row]
            message = f"the feature {name!r} (row {row}) crosses an earlier one: {error}"
            raise CrossingError(message, row) from error
    is_polygon = source.geometry.geom_type.isin(["Polygon", "MultiPolygon"])
    polygons = source[is_polygon].reset_index(drop=True) if is_polygon.any() else None
    return Surface(tri, firsts_of(tri, heights), source.crs, polygons)


def triangulate_raster(source: Any, band: int = 1, **settings: Any) -> Surface:
    """Triangulates the centers of a raster's cells, with the cells' values as heights, and leaves
    out cells without data. `rasterio` reads the raster.

    Parameters
    ----------
    source : name of a file
    band : int
        The band that has the heights, from 1 on.
    """
    rasters = needed("rasterio")
    with rasters.open(source) as raster:
        heights, crs = raster.read(band, masked=True), raster.crs
        rows, columns = np.nonzero(~np.broadcast_to(heights.mask, heights.shape))
        x, y = raster.transform * (columns + 0.5, rows + 0.5)
        warn_of_degrees(crs)
    found = np.asarray(heights[rows, columns], np.float64)
    tri = Triangulation(np.stack([x, y], 1), **settings)
    return Surface(tri, firsts_of(tri, found), crs)


def warn_of_degrees(crs: Any) -> None:
    """Warns where a unit is a degree: then nothing is as long as it seems."""
    # GeoPackage's name for none is that of a system in degrees.
    if crs is not None and crs.is_geographic and "Undefined" not in str(crs):
        warnings.warn(
            "coordinates are degrees, so circles and distances are not those on the ground: "
            "project first, as by frame.to_crs(frame.estimate_utm_crs())",
            stacklevel=3,
        )


def firsts_of(tri: Triangulation, heights: Floats) -> Floats:
    """Heights, where a repeated point has that of the first one which has any."""
    heights = np.array(heights, np.float64)
    firsts, known = tri.representatives, np.flatnonzero(~np.isnan(heights))
    of_first = np.full(len(heights), np.nan)
    of_first[firsts[known[::-1]]] = heights[known[::-1]]
    return of_first[firsts] if len(firsts) else heights


def gathered(geometries: Any) -> Tuple[Floats, List[Tuple[int, NDArray[np.intp]]], List[int]]:
    """All positions as rows of x, y and z or NaN; the lines, each with the row of its geometry, by
    the numbers of the positions; and the row of each position."""
    parts: List[Floats] = [np.empty((0, 3))]
    lines: List[Tuple[int, NDArray[np.intp]]] = []
    rows: List[int] = []
    for row, geometry in enumerate(geometries):
        for is_line, part in positions(geometry):
            if is_line:
                lines.append((row, np.arange(len(rows), len(rows) + len(part))))
            parts.append(part)
            rows += [row] * len(part)
    return np.concatenate(parts), lines, rows


def positions(geometry: Any) -> Iterator[Tuple[bool, Floats]]:
    """The parts of a geometry: whether each is a line, and its positions."""
    if geometry is None or geometry.is_empty:
        return
    if hasattr(geometry, "geoms"):
        for it in geometry.geoms:
            yield from positions(it)
    elif geometry.geom_type == "Polygon":
        for ring in (geometry.exterior, *geometry.interiors):
            yield from positions(ring)
    else:
        coordinates = np.asarray(geometry.coords, np.float64)
        full = np.full((len(coordinates), 3), np.nan)
        full[:, : coordinates.shape[1]] = coordinates
        yield geometry.geom_type != "Point", full
