"""The command `tevasulim`: `python3 -m tevasulim --help`."""
from __future__ import annotations

import argparse
import os
import sys
import warnings
from typing import Any, Callable, Iterator, List, Optional, Tuple

import numpy as np

from . import __version__
from . import _library as library
from ._tables import TABLES, read_segments, read_table, write_table
from .errors import CrossingError, NoSuchPointError, TevasulimError
from .geo import MESHES, Surface, ending, triangulate
from .triangulation import Triangulation

ABOUT = """Delaunay triangulations of the points, lines and polygons of a file.

IN is a table (.csv with commas, .tsv with tabs, .txt and .xyz with spaces, .npy), a .npz that
Triangulation.save wrote, a raster that rasterio reads, or a file that geopandas reads: GeoPackage,
Shapefile, GeoJSON, DXF, .. Lines and the borders of polygons stay edges. The columns of a table
are x, y and, if there is a third one, heights."""
STATUS = """Exit statuses: 0, all went well; 1, a file was refused or a package is missing, and
standard error says why; 2, the command line is wrong; 130, the command was interrupted."""
SCALE = "how many parts a unit has: a coordinate between two parts is refused"
# What -o takes.
LAYER = "a layer (.gpkg, .geojson, ..)"
FACES = """.csv or .npy with the rows of each face's corners; .npz for Triangulation.load; a mesh
(.obj, .stl, .vtk, .msh, .ply, ..); or a layer (.gpkg, .shp, .geojson, ..). Without it, standard
output gets a CSV"""


def add_input(it: argparse.ArgumentParser) -> None:
    it.add_argument("input", metavar="IN", help="the file to triangulate")
    it.add_argument("--header", action="store_true", help="the first row of a table has names")
    it.add_argument(
        "--columns",
        help="the columns of a table for x, y and heights: their names, as x,y,z, or 0,1,2",
    )
    it.add_argument(
        "--segments", help="a table of constraints: the rows of two points each, counted from 0"
    )
    it.add_argument("--height", help="the column of a layer with the heights, instead of Z")
    it.add_argument("--layer", help="the layer of a file with several")
    it.add_argument("--scale", type=int, help=SCALE)
    it.add_argument("--exact", action="store_true", help="refuse coordinates that would be rounded")


def add_tiles(part: argparse.ArgumentParser) -> None:
    """What the command `tiles` takes."""
    about = """a part of the points: a table, a .npy, a .parquet, or a layer that geopandas reads; a
    folder of these, as dask.dataframe writes it; or a pattern, as 'hill-*.csv'"""
    part.add_argument("inputs", metavar="IN", nargs="+", help=about)
    part.add_argument("--header", action="store_true", help="the first row of a table has names")
    part.add_argument("--columns", help="the columns for x and y: their names, as x,y, or 0,1")
    part.add_argument("--layer", help="the layer of a file with several")
    part.add_argument("--scale", type=int, help=SCALE)
    part.add_argument("--tile-size", type=int, default=1_000_000, help="points in a tile, about")
    part.add_argument("--workers", type=int, default=1, help="how many processes")
    part.add_argument("--scheduler", help="the address of a Dask scheduler, instead of processes")
    about = "bytes that a task needs, of Dask workers that were started with the resource memory"
    part.add_argument("--memory", type=float, help=about)
    part.add_argument(
        "--segments", nargs="+", default=[], help="tables or .npy of pairs of numbers of points"
    )


def parser() -> argparse.ArgumentParser:
    """What the command takes."""
    form = argparse.RawDescriptionHelpFormatter
    texts: Any = {"description": ABOUT, "epilog": STATUS}
    it = argparse.ArgumentParser("tevasulim", formatter_class=form, **texts)
    proved = "proved" if library.is_proved() else "not proved: a trial build"
    words = f"tevasulim {__version__}, library {library.library_version()} ({proved})"
    it.add_argument("--version", action="version", version=words)
    commands = it.add_subparsers(dest="command", required=True, metavar="COMMAND")

    def command(name: str, run: Callable[[Any], None], about: str, out: str) -> Any:
        part = commands.add_parser(name, help=about, description=about, epilog=STATUS)
        part.set_defaults(run=run)
        if name != "tiles":
            add_input(part)
        part.add_argument("-o", "--out", help=out)
        part.add_argument("-q", "--quiet", action="store_true", help="show no progress")
        return part

    add_mesh(command("mesh", mesh, "Writes the faces.", FACES))
    add_contours(command("contours", contours, "Writes contour lines.", LAYER))
    part = command("grid", grid, "Writes a raster of heights.", "a .tif or a .npy")
    part.add_argument("--step", type=float, required=True, help="the width of a cell")
    command("plot", plot, "Draws the triangulation.", "a picture: .png, .svg, .pdf")
    command("voronoi", voronoi, "Writes the Voronoi cells.", LAYER)
    about = "Triangulates more points than one process holds."
    add_tiles(command("tiles", tiles, about, "a folder"))
    return it


def add_mesh(part: argparse.ArgumentParser) -> None:
    about = "add three columns: the face opposite each corner"
    part.add_argument("--neighbors", action="store_true", help=about)
    part.add_argument("--inside", action="store_true", help="only faces inside of polygons")


def add_contours(part: argparse.ArgumentParser) -> None:
    part.add_argument("--interval", type=float, help="the height from one line to the next")
    part.add_argument("--levels", help="the levels, with commas between, or about how many")


# What is read.


def surface(given: Any) -> Surface:
    """The triangulation of the file that is named. A refusal names the file that is at fault."""
    try:
        return read(given)
    except TevasulimError as error:
        is_of_segments = isinstance(error, (CrossingError, NoSuchPointError)) and given.segments
        name = given.segments if is_of_segments else given.input
        raise type(error)(f"{name}: {error}", error.index) from None


def read(given: Any) -> Surface:
    name, settings = given.input, {"scale": given.scale, "exact": given.exact}
    if ending(name) == ".npz":
        tri = Triangulation.load(name)
        return Surface(tri, np.full(tri.npoints, np.nan))
    if ending(name) not in TABLES:
        return triangulate(name, height=given.height, layer=given.layer, **settings)
    table = read_table(name, given.columns, given.header)
    if len(table) and table.shape[1] < 2:
        raise ValueError(
            f"{name} has one column, but x and y are two: a .csv has commas between columns, a "
            ".tsv tabs, another table blanks"
        )
    segments = read_segments(given.segments, False) if given.segments else None
    tri = Triangulation(table[:, :2], segments, **settings)
    heights = table[:, 2] if table.shape[1] > 2 else np.full(len(table), np.nan)
    return Surface(tri, heights)


# What is written.


def mesh(given: Any) -> None:
    found = surface(given)
    kind, tri = ending(given.out) if given.out else ".csv", found.triangulation
    if kind == ".npz":
        tri.save(given.out)
    elif kind in (".csv", ".npy"):
        write_table(np.hstack([tri.simplices] + [tri.neighbors] * given.neighbors), given.out)
    elif kind in MESHES:
        found.write(given.out)
    else:
        found.faces(given.inside).to_file(given.out)


def contours(given: Any) -> None:
    found = surface(given)
    levels: Any = 10
    if given.levels:
        numbers = [float(it) for it in given.levels.split(",")]
        levels = numbers if len(numbers) > 1 or "," in given.levels else int(numbers[0])
    if given.interval:
        known = found.heights[~np.isnan(found.heights)]
        first, last = np.ceil(known.min() / given.interval), np.floor(known.max() / given.interval)
        levels = np.arange(first, last + 1) * given.interval
    found.contours(levels).to_file(needs_out(given))


def grid(given: Any) -> None:
    found, out = surface(given), needs_out(given)
    raster = found.grid(given.step)
    # A raster's first row is the one above all others.
    values = raster.values[::-1]
    if ending(out) == ".npy":
        np.save(out, values)
        return
    from ._needs import needed

    rasters, affine = needed("rasterio"), needed("rasterio.transform")
    half, step = given.step / 2, given.step
    place = affine.from_origin(raster.x[0] - half, raster.y[-1] + half, step, step)
    shape = {"height": len(raster.y), "width": len(raster.x), "count": 1, "dtype": "float64"}
    with rasters.open(
        out, "w", driver="GTiff", nodata=np.nan, transform=place, crs=found.crs, **shape
    ) as file:
        file.write(values, 1)


def plot(given: Any) -> None:
    from ._needs import needed

    found, out = surface(given), needs_out(given)
    needed("matplotlib")
    from matplotlib.figure import Figure

    figure = Figure(figsize=(8, 8))
    heights = None if np.isnan(found.heights).any() else found.heights
    found.triangulation.plot(figure.add_subplot(), heights)
    figure.savefig(out, dpi=150, bbox_inches="tight")


def voronoi(given: Any) -> None:
    found = surface(given)
    found.cells().to_file(needs_out(given))


def tiles(given: Any) -> None:
    from concurrent.futures import ProcessPoolExecutor

    from .tiles import triangulate_tiles

    out = needs_out(given)
    os.makedirs(out, exist_ok=True)
    if given.workers < 1:
        raise ValueError(f"--workers is {given.workers}, but has to be 1 or more")
    if given.memory and not given.scheduler:
        raise ValueError("--memory needs --scheduler: only Dask's workers have this resource")
    words = given.inputs, given.tile_size
    names = "segments", "scale", "columns", "header", "layer"
    settings = {it: getattr(given, it) for it in names}
    if given.scheduler:
        from distributed import Client

        connect: Any = Client
        needs = {"memory": given.memory} if given.memory else None
        settings.update(progress=not given.quiet, resources=needs)
        with connect(given.scheduler) as client:
            found = triangulate_tiles(*words, client, out, **settings)
    elif given.workers == 1:
        found = triangulate_tiles(*words, None, out, **settings)
    else:
        with ProcessPoolExecutor(given.workers) as pool:
            found = triangulate_tiles(*words, pool, out, **settings)
    for name in found.cells:
        print(name)


def needs_out(given: Any) -> str:
    if not given.out:
        raise ValueError("the name of the output is missing: give it with -o")
    return str(given.out)


class Progress:
    """A line of tqdm's, where it is installed and someone looks."""

    def __init__(self, name: str, is_quiet: bool):
        self.line: Any = None
        if not is_quiet and sys.stderr.isatty():
            try:
                from tqdm import tqdm
            except ImportError:
                return
            self.line = tqdm(desc=f"tevasulim {name}", total=1, leave=False, delay=1)

    def __enter__(self) -> "Progress":
        return self

    def __exit__(self, *_: Any) -> None:
        if self.line is not None:
            self.line.update()
            self.line.close()


def main(words: Optional[List[str]] = None) -> int:
    """Runs the command, and gives its exit status."""
    given = parser().parse_args(words)
    try:
        with Progress(given.command, given.quiet), warnings.catch_warnings():
            warnings.formatwarning = lambda it, *_, **__: f"tevasulim {given.command}: {it}\n"
            given.run(given)
    except KeyboardInterrupt:
        return 130
    except BrokenPipeError:
        sys.stderr.close()
        return 1
    except Exception as error:
        if not is_told(error):
            raise
        said = str(error)
        if isinstance(error, OSError) and error.filename and error.strerror:
            said = f"{error.filename}: {error.strerror}"
        print(f"tevasulim {given.command}: {said}", file=sys.stderr)
        return 1
    return 0


def is_told(error: Exception) -> bool:
    """Whether an exception is of what was handed in, and not of the program."""
    kinds = (TevasulimError, OSError, ValueError, TypeError, ImportError, KeyError)
    return isinstance(error, kinds) or type(error).__module__.split(".")[0] in (
        "fiona",
        "rasterio",
        "pyogrio",
        "meshio",
    )


if __name__ == "__main__":
    sys.exit(main())
