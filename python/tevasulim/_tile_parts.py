"""What is handed in for tiles, part by part, as arrays of points: files of several kinds, frames of
pandas, geopandas and dask.dataframe, and arrays with names for their columns."""
from __future__ import annotations

import glob
import os
import re
from typing import Any, Iterator, List, NamedTuple, Optional

import numpy as np

from ._needs import needed
from ._numbers import point_list
from ._tables import COMMAS, first_row, read_segments, read_table
from ._types import NDArray
from .errors import TevasulimError

# Dask writes a frame as a folder of tables .part, with commas.
TABLES = ".csv", ".part", ".tsv", ".txt", ".xyz"
PARQUET = ".parquet", ".pq"
# Layers that are one file each, and the files beside these.
LAYERS = ".fgb", ".geojson", ".gml", ".gpkg", ".json", ".kml", ".shp"
BESIDE = ".cpg", ".crc", ".dbf", ".gfs", ".idx", ".prj", ".qix", ".qpj", ".sbn", ".sbx", ".shx"
# Folders that geopandas reads as one file.
FOLDERS = (".gdb",)


class Reading(NamedTuple):
    """How parts are read: the columns of x and y, by names or places with a comma between; whether
    a table's first row has names; the layer of a file; and how many parts a unit has."""

    columns: Optional[str] = None
    header: bool = False
    layer: Any = None
    scale: Optional[int] = None


def parts_of(given: Any) -> Iterator[Any]:
    """What was handed in, part by part: a frame of dask has several, and so have a folder and a
    pattern."""
    alone = isinstance(given, (str, os.PathLike, np.ndarray)) or hasattr(given, "columns")
    for part in [given] if alone else given:
        if hasattr(part, "to_delayed"):
            yield from part.to_delayed()
        elif isinstance(part, (str, os.PathLike)):
            yield from (os.path.abspath(it) for it in named(os.fspath(part)))
        else:
            yield part


def named(name: str) -> List[str]:
    """The files that a name stands for: itself, those of a folder, or those of a pattern; several
    are in the order of their names, by the numbers in these."""
    if os.path.isdir(name) and ending(name) not in FOLDERS:
        return files_in(name)
    if os.path.exists(name) or not glob.has_magic(name):
        return [name]
    found = sorted(glob.glob(name), key=by_numbers)
    if not found:
        raise FileNotFoundError(f"{name}: no file has such a name")
    return [file for it in found for file in named(it)]


def files_in(folder: str) -> List[str]:
    """The files of a folder that are parts. Those that are hidden, that begin with an underscore,
    as Parquet's own, or that belong to a layer are none; others are refused."""
    parts = []
    for name in sorted(os.listdir(folder), key=by_numbers):
        kind = ending(name)
        if name[0] in "._" or kind in BESIDE:
            continue
        if kind not in (".npy", *TABLES, *PARQUET, *LAYERS, *FOLDERS):
            raise ValueError(
                f"{os.path.join(folder, name)} is no part of points that is known by its ending: "
                "name the files that are, as 'folder/*.csv'"
            )
        parts.append(os.path.join(folder, name))
    if not parts:
        raise FileNotFoundError(f"{folder} has no part of points")
    return parts


def by_numbers(name: str) -> List[Any]:
    """A key of names in which 10 comes after 9."""
    words = re.split("([0-9]+)", name)
    return [(int(it), it) if i % 2 else (0, it) for i, it in enumerate(words)]


def ending(name: str) -> str:
    return os.path.splitext(name)[1].lower()


def points_in(part: Any, reading: Reading) -> NDArray[np.int32]:
    """The points of a part, of shape (n, 2). What is refused is told with the part's name."""
    try:
        array, scale = coordinates_in(part, reading), reading.scale
        if isinstance(part, str) and ending(part) != ".npy" or hasattr(part, "columns"):
            # Readers give whole numbers as floats.
            scale = scale or 1
        return point_list(array, scale)
    except (TevasulimError, TypeError, ValueError) as error:
        if isinstance(part, str) and part not in str(error):
            error.args = (f"{part}: {error.args[0]}", *error.args[1:])
        raise


def coordinates_in(part: Any, reading: Reading) -> Any:
    """The same as they are, whole or not."""
    if hasattr(part, "compute"):
        # A part of a frame of dask, which this process computes by itself.
        part = part.compute(scheduler="synchronous")
    if isinstance(part, str):
        kind = ending(part)
        if kind in TABLES:
            columns = reading.columns or (columns_of(part) if reading.header else None)
            return read_table(part, columns, reading.header, 2)
        if kind == ".npy":
            part = np.load(part, mmap_mode="r", allow_pickle=False)
        elif kind in PARQUET:
            part = parquet(part)
        else:
            part = needed("geopandas").read_file(part, layer=reading.layer)
    if hasattr(part, "geom_type"):
        return of_geometry(part)
    if hasattr(part, "columns"):
        names = picked(list(map(str, part.columns)), reading.columns)
        return part[names].to_numpy()
    array = np.asanyarray(part)
    if array.dtype.names:
        return np.stack([array[it] for it in picked(list(array.dtype.names), reading.columns)], 1)
    if reading.columns and array.ndim == 2:
        return array[:, [int(it) for it in reading.columns.split(",")]]
    return array


def columns_of(name: str) -> Optional[str]:
    """The places of x and y in a table whose first row has names: of those that have these names,
    or else of the first two that have a name. A frame's index is written without one."""
    names = first_row(name, COMMAS.get(ending(name)))
    for pair in ("x", "y"), ("X", "Y"):
        if set(pair) <= set(names):
            return ",".join(str(names.index(it)) for it in pair)
    places = [str(place) for place, it in enumerate(names) if it]
    return ",".join(places[:2]) or None


def parquet(name: str) -> Any:
    """A frame of a Parquet file, of geopandas where it has geometry and no x and y."""
    frame = needed("pandas").read_parquet(name)
    if "geometry" in frame.columns and not {"x", "X"} & set(frame.columns):
        frame = needed("geopandas").read_parquet(name)
    return frame


def of_geometry(frame: Any) -> NDArray[np.float64]:
    """The places of a frame of points, row by row."""
    if set(frame.geom_type) - {"Point", "MultiPoint"}:
        raise ValueError(
            f"there are geometries of the types {', '.join(sorted(set(frame.geom_type)))}, but "
            "only points are read here: hand in lines and borders with segments="
        )
    points = frame.geometry
    if (frame.geom_type == "MultiPoint").any():
        points = points.explode(index_parts=False)
    return np.stack([points.x.to_numpy(), points.y.to_numpy()], 1)


def picked(names: List[str], wanted: Optional[str]) -> List[str]:
    """The two columns that are asked for, or x and y, in small or large letters."""
    if wanted:
        chosen = [it.strip() for it in wanted.split(",")]
        if all(map(str.isdigit, chosen)):
            chosen = [names[int(it)] for it in chosen if int(it) < len(names)]
    else:
        chosen = [it for pair in ("xy", "XY") if set(pair) <= set(names) for it in pair][:2]
    if len(chosen) != 2 or set(chosen) - set(names):
        raise ValueError(f"there are no columns {wanted or 'x,y'}: there are {', '.join(names)}")
    return chosen


def segments_in(part: str) -> NDArray[np.int64]:
    """The segments of a table: pairs of numbers of points."""
    return read_segments(part, False)
