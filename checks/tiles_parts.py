"""Parts of each kind that tiles take, beside the same points as one array. A kind whose package is
not there is passed over, which is said. It is run by checks/tiles.py, in Debian's Python."""
import importlib.util
import json
import os
import subprocess
import sys
import tempfile

import numpy as np
from tevasulim import NotWholeError
from tevasulim.tiles import triangulate_tiles

COUNT, FIRST, SIZE = 3_000, 1_200, 1_000


def rows_of(cells):
    rows = np.concatenate([np.load(it) if isinstance(it, str) else it for it in cells])
    return rows[np.lexsort(rows.T[::-1])]


def write_parts(points, folder):
    """The first points as LAS has them, and the others as tables, of hundredths too."""
    first, others = points[:FIRST], points[FIRST:]
    las = np.zeros(len(first), [("Z", "<i4"), ("X", "<i4"), ("Y", "<i4")])
    las["X"], las["Y"] = first.T
    np.save(f"{folder}/las.npy", las)
    np.savetxt(f"{folder}/others.xyz", others, fmt="%d")
    np.savetxt(f"{folder}/named.csv", others, fmt="%d", delimiter=",", header="y,x", comments="")
    words = {"fmt": "%.2f", "delimiter": ",", "header": "x,y", "comments": ""}
    np.savetxt(f"{folder}/first.csv", first / 100, **words)
    np.savetxt(f"{folder}/others.csv", others / 100, **words)


def check_tables(points, folder, wanted):
    names = [f"{folder}/{it}" for it in ("las.npy", "others.xyz", "first.csv", "others.csv")]
    found = triangulate_tiles(names[:2], SIZE)
    assert np.array_equal(rows_of(found.cells), wanted)
    found = triangulate_tiles(names[2:], SIZE, scale=100, header=True)
    assert np.array_equal(rows_of(found.cells), wanted)
    named = triangulate_tiles(f"{folder}/named.csv", SIZE, columns="y,x")
    array = triangulate_tiles(points[FIRST:], SIZE)
    assert np.array_equal(rows_of(named.cells), rows_of(array.cells))
    np.savetxt(f"{folder}/pairs.csv", [(0, 1), (2, 3)], fmt="%d", delimiter=",")
    with_pairs = [
        triangulate_tiles([SQUARE], 9, segments=it)
        for it in ([[(0, 1), (2, 3)]], f"{folder}/pairs.csv")
    ]
    assert np.array_equal(*(rows_of(it.cells) for it in with_pairs))
    for part, settings, error in (
        (names[2], {"header": True}, NotWholeError),
        (names[0], {"columns": "X,east"}, ValueError),
        (f"{folder}/no.gpkg", {}, Exception),
    ):
        try:
            triangulate_tiles([part], SIZE, **settings)
        except error as found:
            assert os.path.basename(part) in str(found) or error is Exception
            continue
        raise AssertionError(part)


SQUARE = [(0, 0), (4, 0), (5, 5), (0, 4)]


def run_command(folder, *words):
    """The names of the cells' files that the command writes, and the index beside them."""
    words = "tiles", *words, "-q", "-o", f"{folder}/out", "--tile-size", str(SIZE)
    command = [sys.executable, "-m", "tevasulim", *words]
    run = subprocess.run(command, capture_output=True, text=True)
    assert not run.returncode, run.stderr
    names = run.stdout.split()
    with open(f"{os.path.dirname(names[0])}/index.json", encoding="utf-8") as file:
        return names, json.load(file)


def refusal_of(folder, *words):
    """What the command says of what it refuses."""
    words = "tiles", *words, "-o", f"{folder}/out"
    command = [sys.executable, "-m", "tevasulim", *words]
    run = subprocess.run(command, capture_output=True, text=True)
    assert run.returncode == 1 and not run.stdout, run
    return run.stderr


def check_folders(points, folder, wanted):
    """A folder of parts, and a pattern: in the order of the numbers in the files' names."""
    room = f"{folder}/room"
    os.mkdir(room)
    for number, part in enumerate(np.array_split(points, 11)):
        rows = np.column_stack([np.arange(len(part)), part])
        words = {"fmt": "%d", "delimiter": ",", "comments": ""}
        np.savetxt(f"{room}/hill-{number}.csv", rows, header=",x,y", **words)
    open(f"{room}/.hidden", "w").close()
    open(f"{room}/_metadata", "w").close()
    for name in room, f"{room}/hill-*.csv", f"{folder}/ro*m":
        found, index = run_command(folder, name, "--header")
        assert np.array_equal(rows_of(found), wanted)
        assert index["parts"] == [f"{room}/hill-{number}.csv" for number in range(11)]
    array = triangulate_tiles([points], SIZE, None, folder)
    with open(array.index_file, encoding="utf-8") as file:
        assert json.load(file)["parts"] == [None]
    # Without x and y the first two columns that have a name are taken.
    with open(f"{room}/hill-0.csv", encoding="utf-8") as file:
        text = file.read()
    with open(f"{folder}/east.csv", "w", encoding="utf-8") as file:
        file.write(text.replace(",x,y", ",east,north", 1))
    one, _ = run_command(folder, f"{folder}/east.csv", "--header")
    two = triangulate_tiles([np.array_split(points, 11)[0]], SIZE)
    assert np.array_equal(rows_of(one), rows_of(two.cells))
    assert "no file has such a name" in refusal_of(folder, f"{room}/vale-*.csv")
    os.mkdir(f"{folder}/empty")
    assert "empty has no part" in refusal_of(folder, f"{folder}/empty")
    open(f"{room}/hill.laz", "w").close()
    assert "hill.laz is no part" in refusal_of(folder, room, "--header")


def check_frames(points, folder, wanted):
    import dask.dataframe
    import pandas

    frame = pandas.DataFrame(points, columns=["x", "y"])
    whole = triangulate_tiles(frame, SIZE)
    parts = triangulate_tiles(dask.dataframe.from_pandas(frame, npartitions=3), SIZE)
    both = triangulate_tiles([frame[:FIRST], f"{folder}/others.xyz"], SIZE)
    for found in whole, parts, both:
        assert np.array_equal(rows_of(found.cells), wanted)
    # What dask.dataframe wrote, with the index of its rows, and what it reads of it.
    room, parts = f"{folder}/frame", dask.dataframe.from_pandas(frame, npartitions=12)
    parts.to_csv(room)
    found, index = run_command(folder, room, "--header")
    assert np.array_equal(rows_of(found), wanted) and len(index["parts"]) == 12
    assert index["parts"][-1] == f"{room}/11.part"
    found, _ = run_command(folder, f"{room}/*.part", "--columns", "x,y")
    assert np.array_equal(rows_of(found), wanted)
    found = triangulate_tiles(dask.dataframe.read_csv(f"{room}/*.part"), SIZE)
    assert np.array_equal(rows_of(found.cells), wanted)
    if not any(map(importlib.util.find_spec, ("pyarrow", "fastparquet"))):
        print("Parquet is passed over: neither pyarrow nor fastparquet is there")
        return
    frame.to_parquet(f"{folder}/all.parquet")
    found = triangulate_tiles(f"{folder}/all.parquet", SIZE)
    assert np.array_equal(rows_of(found.cells), wanted)
    parts.to_parquet(f"{folder}/parquet")
    found, _ = run_command(folder, f"{folder}/parquet")
    assert np.array_equal(rows_of(found), wanted)


def check_layers(points, folder, wanted):
    import geopandas

    places = geopandas.points_from_xy(*(points[:FIRST] / 100).T)
    layer, room = f"{folder}/first.gpkg", f"{folder}/layers"
    geopandas.GeoDataFrame(geometry=places).to_file(layer)
    words = layer, f"{folder}/others.csv", "--scale", "100", "--header"
    assert np.array_equal(rows_of(run_command(folder, *words)[0]), wanted)
    # A folder of layers, where files of one name are one part.
    os.mkdir(room)
    for name, some in ("a.shp", slice(FIRST)), ("b.geojson", slice(FIRST, None)):
        places = geopandas.points_from_xy(*points[some].T)
        geopandas.GeoDataFrame({"number": 0}, geometry=places, index=range(len(places))).to_file(
            f"{room}/{name}", driver={"a.shp": None, "b.geojson": "GeoJSON"}[name]
        )
    found, index = run_command(folder, room)
    assert np.array_equal(rows_of(found), wanted)
    assert index["parts"] == [f"{room}/a.shp", f"{room}/b.geojson"]


def check_parts():
    points = np.random.default_rng(3).integers(0, 10**6, (COUNT, 2))
    wanted = rows_of(triangulate_tiles([points], SIZE).cells)
    with tempfile.TemporaryDirectory() as folder:
        write_parts(points, folder)
        check_tables(points, folder, wanted)
        check_folders(points, folder, wanted)
        for module, check in ("pandas", check_frames), ("geopandas", check_layers):
            if importlib.util.find_spec(module):
                check(points, folder, wanted)
            else:
                print(f"parts of {module} are passed over: it is not there")
    print("parts of each kind give the same cells")
