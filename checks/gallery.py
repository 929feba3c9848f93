#!/usr/bin/env python3
"""checks/gallery.py [write] [PROGRAM [LIBRARY]]: makes the pictures and the README.md of
docs/gallery again, and compares them with what is there; `write` stores them.

PROGRAM is the `mesh` that the gate has built, LIBRARY the shared library, as of
checks/python_package.py. All data are made here, by generators with fixed seeds. The README shows
the body of the function that draws each picture, so what it shows is what was run. The same
packages make the same bytes; where matplotlib is of another version than the README names, pictures
are made and only their sizes are looked at.
"""
import filecmp
import inspect
import os
import re
import shutil
import subprocess
import sys
import tempfile
import textwrap

from project import ROOT, built

GALLERY = f"{ROOT}/docs/gallery"
MODULES = "numpy", "matplotlib", "scipy", "shapely", "geopandas"
MOST = 40_000
# Set where this runs by Debian's Python, which has the modules.
INSIDE = "TEVASULIM_GALLERY"

if INSIDE in os.environ:
    import geopandas
    import matplotlib
    import numpy as np
    from matplotlib.collections import LineCollection, PolyCollection
    from matplotlib.colors import ListedColormap
    from matplotlib.figure import Figure
    from scipy.sparse.csgraph import dijkstra
    from shapely.affinity import translate
    from shapely.geometry import MultiPoint, Polygon, box
    from shapely.ops import polylabel, unary_union

    import tevasulim
    from tevasulim import geo
    from tevasulim.tiles import triangulate_tiles

# The data.


def closed_curve(random, count, center, size, roughness):
    """A closed curve around a center, as a coast has it."""
    angles = np.linspace(0, 2 * np.pi, count, endpoint=False)
    radius = np.ones(count)
    for k in range(2, count // 3):
        wave = np.cos(k * angles + random.uniform(0, 2 * np.pi))
        radius += roughness * random.uniform(0.4, 1) / k**0.9 * wave
    directions = np.stack([np.cos(angles), 0.72 * np.sin(angles)], 1)
    return np.round(center + size * radius[:, None] * directions, 1)


def map_of_islands():
    """A main island with a lake, an islet in the lake, two islands beside it, and points at sea."""
    random = np.random.RandomState(12)
    lake = closed_curve(random, 26, (-14, 6), 17, 0.2)
    main = Polygon(closed_curve(random, 110, (0, 0), 62, 0.3), [lake])
    islet = Polygon(closed_curve(random, 9, (-15, 6), 6, 0.1))
    others = [
        Polygon(closed_curve(random, 20, center, size, 0.25))
        for center, size in [((82, 38), 13), ((84, -38), 9), ((-86, -40), 10)]
    ]
    land = unary_union([main, *others])
    sea = np.round(np.stack([random.uniform(-110, 110, 64), random.uniform(-70, 70, 64)], 1), 1)
    far = [it for it in MultiPoint(sea).geoms if it.distance(land) > 6]
    frame = [(x, y) for x in (-110, 110) for y in (-70, 70)]
    return geopandas.GeoSeries([main, islet, *others, MultiPoint([*far, *frame])])


def survey():
    """Points with heights: two hills and a valley between them."""
    random = np.random.RandomState(4)
    points = np.array([(10 * i, 10 * j) for i in range(16) for j in range(11)], float)
    is_inner = ((points > 0) & (points < (150, 100))).all(1)
    points[is_inner] = np.round(points[is_inner] + random.uniform(-4, 4, (is_inner.sum(), 2)), 1)
    x, y = points.T
    hills = [(48, 56, 44, 20), (104, 40, 56, 19), (124, 84, 18, 12), (18, 16, 16, 12)]
    heights = sum(h * np.exp(-((x - a) ** 2 + (y - b) ** 2) / 2 / w**2) for a, b, h, w in hills)
    return points, np.round(120 + heights, 1)


def floor_plan():
    """The free floor of a flat: rooms, doors and what stands in them."""
    rooms = [box(0, 0, 40, 30), box(42, 0, 80, 18), box(42, 20, 80, 50), box(0, 32, 40, 50)]
    doors = [box(40, 8, 42, 13), box(66, 18, 72, 20), box(6, 30, 12, 32)]
    round_table = [(62 + x, 36 + y) for x, y in [(-6, -2), (-2, -6), (2, -6), (6, -2)]]
    round_table += [(124 - x, 72 - y) for x, y in round_table]
    things = [box(10, 10, 15, 22), box(22, 3, 34, 8), box(24, 16, 29, 26), box(50, 5, 60, 10)]
    things += [box(74, 0, 80, 8), box(16, 38, 30, 44), box(70, 44, 80, 50), Polygon(round_table)]
    return unary_union([*rooms, *doors]).difference(unary_union(things))


def parcels():
    """Parcels around a green, with names."""
    random = np.random.RandomState(31)
    nodes = np.array([[(22 * i, 20 * j) for j in range(6)] for i in range(8)], float)
    nodes = np.round(nodes + random.uniform(-6, 6, nodes.shape), 1)
    names = """Mill Mill Brook Brook Long Hazel Hazel
               Mill Weir Brook Church Long Hazel Moor
               Lane Weir Green Church Long Moor Moor
               Lane Weir Green Church Tithe Tithe Fold
               Lane Combe Combe Combe Oak Oak Fold""".split()
    cells = {}
    for k, name in enumerate(names):
        i, j = k % 7, 4 - k // 7
        corners = nodes[[i, i + 1, i + 1, i], [j, j, j + 1, j + 1]]
        cells.setdefault(name, []).append(Polygon(corners))
    shapes = [unary_union(it) for it in cells.values()]
    return geopandas.GeoDataFrame({"name": list(cells)}, geometry=shapes)


def wells():
    """Points that crowd at two places."""
    random = np.random.RandomState(8)
    crowds = [random.normal(c, s, (n, 2)) for c, s, n in [((35, 55), 9, 35), ((108, 38), 13, 40)]]
    spread = random.uniform((0, 0), (150, 100), (45, 2))
    points = np.round(np.vstack([*crowds, spread]), 1)
    return points[((points > 1) & (points < (149, 99))).all(1)]


def cloud(count, seed):
    """Whole-number points of a square, spread evenly."""
    return np.random.RandomState(seed).randint(0, 10_000, (count, 2))


def lattice(name):
    """Writes a table: the points of a square grid with two holes, and in each hole points of one
    circle, 20 and 12. All coordinates are whole."""
    quarters = {25: [(7, 24), (15, 20), (20, 15), (24, 7)], 15: [(9, 12), (12, 9)]}
    centers = {25: (30, 30), 15: (80, 30)}
    rows = {(5 * x, 5 * y) for x, y in np.ndindex(22, 13)}
    for radius, (cx, cy) in centers.items():
        rows = {(x, y) for x, y in rows if (x - cx) ** 2 + (y - cy) ** 2 > radius**2}
        quarter = [(0, radius), *quarters[radius], (radius, 0)]
        rows |= {(cx + a * x, cy + b * y) for x, y in quarter for a in (1, -1) for b in (1, -1)}
    with open(name, "w", encoding="utf-8") as file:
        file.write("".join(f"{x},{y}\n" for x, y in [("x", "y"), *sorted(rows)]))


# The pictures. The first line is the title, the rest what the README says; the body it shows.


def coast(axes):
    """A coast

    Each coastline is a closed chain of constraints, so triangles never mix land and water. The
    colour is the number of shores between a triangle and the open sea: `layers` is 0 at sea, 1 on
    an island, 2 in its lake and 3 on the islet in the lake.
    """
    tri = geo.triangulate(map_of_islands()).triangulation
    colors = ListedColormap(["#b9d9ea", "#dfe6b8", "#8fc1de", "#f2cf8a"])
    tri.plot(axes, tri.layers, cmap=colors, color="#5d7f8f", linewidth=0.35, constraint_color="0.2")


def contours(axes):
    """Contours

    Surveyed points with heights become a terrain. `gradient` gives the slope of each triangle,
    which shades it as if the sun stood in the north-west, and `contours` traces a line every 4
    metres.
    """
    points, heights = survey()
    tri = tevasulim.Triangulation(points)
    x, y = tri.gradient(heights).T
    light = (1 + 0.6 * x - 0.6 * y) / np.sqrt(1 + x**2 + y**2)
    tri.plot(axes, light, cmap=ListedColormap(SHADES), color="#ffffff", linewidth=0.25)
    for contour in tri.contours(heights, np.arange(124, 184, 4)):
        for line in contour.lines:
            is_main = contour.level % 20 == 0
            axes.plot(*line.T, color="#7a4a21", linewidth=1.6 if is_main else 0.7)


def floor(axes):
    """A floor plan with a route

    The free floor of a flat is light, its walls and furniture are dark. The red line is the
    shortest route from the round mark to the square one: it bends only at corners, and
    `is_in_sight` says which corners see each other.
    """
    plan = floor_plan()
    tri = geo.triangulate(geopandas.GeoSeries([plan])).triangulation
    free = tri.faces_inside(plan)
    stops = np.vstack([(35, 46), (75, 40), tri.points])
    length = np.full((len(stops), len(stops)), np.inf)
    for i, here in enumerate(stops):
        for j, there in enumerate(stops[:i]):
            if tri.is_in_sight(here, there, free):
                length[i, j] = length[j, i] = np.hypot(*(here - there))
    _, before = dijkstra(length, indices=0, return_predecessors=True)
    route = [1]
    while route[-1] != 0:
        route.append(before[route[-1]])
    colors = ListedColormap(["#566878", "#f1f4ee"])
    tri.plot(axes, free, cmap=colors, color="#b4c0c9", linewidth=0.5, constraint_color="#3a4855")
    axes.plot(*stops[route].T, color="#cf3a2b", linewidth=2.2)
    axes.plot(*stops[0], "o", *stops[1], "s", color="#cf3a2b", markersize=8)


def names(axes):
    """A parcel map with names

    Neighbouring parcels share their borders, and each border stays an edge. `faces` gives a
    GeoDataFrame in which each triangle has the columns of its parcel, here the name.
    """
    frame = parcels()
    faces = geo.triangulate(frame).faces()
    faces.plot("name", ax=axes, cmap=ListedColormap(PASTELS), edgecolor="#ffffff", linewidth=0.6)
    frame.boundary.plot(ax=axes, color="#5a4632", linewidth=1.4)
    for name, shape in zip(frame.name, frame.geometry):
        middle = polylabel(shape)
        axes.text(middle.x, middle.y, name, ha="center", va="center", fontsize=11, color="#3b2c1c")


def voronoi(axes):
    """Voronoi cells

    The cell of a point has all that is nearer to it than to any other point. `cells` gives each one
    as a polygon of shapely, clipped to a rectangle; small cells are darker.
    """
    points = wells()
    cells = tevasulim.Triangulation(points).cells((0, 0, 150, 100))
    frame = geopandas.GeoDataFrame(geometry=list(cells.values()))
    frame["size"] = np.log(frame.area)
    frame.plot("size", ax=axes, cmap=ListedColormap(GREENS), edgecolor="#ffffff", linewidth=1)
    axes.plot(*points.T, ".", color="#173a2f", markersize=4)


def hierarchy(axes):
    """A hierarchy of points

    The hint generator keeps triangulations of fewer and fewer points, here of each eighth point of
    the layer below. A search finds the nearest point at the top and goes on from there one layer
    down, so it takes only a few steps in each; the red line is one such search.
    """
    points, target = cloud(400, 3), (6800, 6300)
    found = []
    for layer in range(3):
        tri = tevasulim.Triangulation(points[:: 8**layer])
        found.append(in_layer(tri.points[tri.nearest(target)], layer))
        axes.fill(*in_layer(SQUARE, layer).T, color="#f7f5ee", ec="#b8b09a", linewidth=0.6)
        ends = in_layer(tri.points[tri.edges], layer)
        axes.add_collection(LineCollection(ends, color="#47769a", linewidth=0.6))
    axes.plot(*np.transpose(found), "o-", color="#cf3a2b", linewidth=1.4, markersize=5, zorder=3)


def border(axes):
    """A tile border

    `triangulate_tiles` triangulates more points than one machine holds, tile by tile, and each
    colour is what one tile wrote. The triangles fit together over the border exactly as in one
    Delaunay triangulation of all points, of which this is the middle.
    """
    points = cloud(6000, 5)
    tiles = triangulate_tiles([points], 1500)
    for cells, color in zip(tiles.cells, COLORS):
        is_near = (abs(points[cells] - 5000) < 1300).all(2).any(1)
        corners = points[cells[is_near]]
        axes.add_collection(PolyCollection(corners, facecolor=color, edgecolor="#ffffff"))
    axes.set(xlim=(3800, 6200), ylim=(4200, 5800))


# The grid is made by `mesh`, of which the README shows the command.
GRID = """A degenerate grid

The four corners of each square lie on one circle, and so do the points of each of the two rings, 20
and 12: nearly every triangle here could have been cut another way. The library works out all of
these ties exactly, so the triangles cover the area and no two of them overlap.
"""
COMMAND = "mesh -q --size 640 -o grid.svg grid.csv"
SHADES = ["#%02x%02x%02x" % (90 + 11 * i, 104 + 10 * i, 74 + 9 * i) for i in range(14)]
PASTELS = ["#d9e5c3", "#f1e3b9", "#e9cfb4", "#cfe0e2", "#e3d4e4", "#f4d9cf", "#c7dcc4", "#efe9d2"]
GREENS = ["#2f7d64", "#4d957a", "#6fab8f", "#93c1a5", "#b5d5bd", "#d4e7d6", "#ebf4ea"]
COLORS = ["#7fa7c9", "#e2b36b", "#8fbf8a", "#c98f8f", "#a99ac9", "#d7cf85"]
SQUARE = [(0, 0), (10_000, 0), (10_000, 10_000), (0, 10_000)]
PICTURES = coast, contours, floor, names, voronoi, hierarchy, border
ORDER = "coast contours floor names voronoi hierarchy grid border".split()


def in_layer(points, layer):
    """Points of a layer as seen from above and aside."""
    x, y = np.moveaxis(np.asarray(points, float), -1, 0)
    return np.stack([x + 0.45 * y, 0.32 * y + 3500 * layer], -1)


# How they are stored.


def compact(text):
    """A picture with fewer digits, and with all paths of a collection that look alike in one."""
    text = re.sub(r"<metadata>.*?</metadata>|<!--.*?-->|\n\s*(?=\n)", "", text, flags=re.S)
    text = re.sub(r'(?<= d=")[^"]*', lambda it: short(it[0]), text)
    return re.sub(r'(?s)(<g id="\w+Collection_\d+">)(.*?)(</g>)', merged, text)


def short(d):
    """What draws a path, with one digit behind the point and no blanks that nothing needs."""
    d = re.sub(r"-?\d+\.\d+", lambda it: f"{float(it[0]):.1f}".replace(".0", ""), d)
    return re.sub(r"\s*([A-Za-z])\s*", r"\1", d)


def merged(group):
    """A group of paths, of which those of one style are one path."""
    styles = {}
    for d, rest in re.findall(r'<path d="([^"]*)"([^>]*)/>', group[2]):
        styles.setdefault(rest, []).append(d.strip())
    if not styles or "<use" in group[2]:
        return group[0]
    paths = [f'<path d="{"".join(it)}"{rest}/>' for rest, it in styles.items()]
    return group[1] + "\n".join(paths) + group[3]


def draw(picture):
    """Draws a picture into a file with its name."""
    figure = Figure(figsize=(8, 5.4))
    axes = figure.add_axes((0.01, 0.01, 0.98, 0.98))
    picture(axes)
    axes.set_aspect("equal")
    axes.autoscale_view()
    axes.set_axis_off()
    figure.savefig(f"{picture.__name__}.svg", metadata={"Date": None, "Creator": None})
    with open(f"{picture.__name__}.svg", encoding="utf-8") as file:
        text = compact(file.read())
    with open(f"{picture.__name__}.svg", "w", encoding="utf-8") as file:
        file.write(text)


def section(name, text, language, code):
    """What the README says of a picture."""
    title, _, rest = inspect.cleandoc(text).partition("\n\n")
    about = " ".join(rest.split())
    shown = f"![{title}]({name}.svg)\n\n{about}\n\n```{language}\n{code.strip()}\n```"
    return f"## {title}\n\n{shown}\n"


def body(picture):
    """The body of a function below its docstring."""
    source = inspect.getsource(picture)
    return textwrap.dedent(source[source.index('"""', source.index('"""') + 3) + 3 :])


def readme():
    """The README."""
    drawn = {it.__name__: (it.__doc__, "python", body(it)) for it in PICTURES}
    drawn["grid"] = GRID, "", f"$ {COMMAND}"
    sections = [section(name, *drawn[name]) for name in ORDER]
    head = " ".join(HEAD.format(matplotlib.__version__).split())
    return "\n".join([f"# Gallery\n\n{head}\n", *sections])


def make():
    """Makes everything in the current folder, by Debian's Python."""
    matplotlib.rcParams.update({"svg.fonttype": "none", "svg.hashsalt": "gallery"})
    for picture in PICTURES:
        draw(picture)
    lattice("grid.csv")
    subprocess.run(COMMAND.split(), check=True)
    os.remove("grid.csv")
    with open("README.md", "w", encoding="utf-8") as file:
        file.write(readme())


HEAD = """
Eight pictures, each with the command or the lines of Python that make it. `checks/gallery.py` makes
their data, the pictures and this page, with matplotlib {}. In the lines of Python, `np` is numpy
and `axes` are those of matplotlib. Functions without a module before their name give data (`survey`,
`parcels`) or positions on the page (`in_layer`); they stand in the same file, as do the lists of
colours.
"""


def compare(room, writes):
    """Compares what was made with what is stored, or stores it, and gives the faults."""
    faults = []
    heads = []
    for folder in room, GALLERY:
        with open(f"{folder}/README.md", encoding="utf-8") as file:
            heads.append(file.read().partition("##")[0])
    is_same_version = writes or heads[0] == heads[1]
    if not is_same_version:
        print("matplotlib is of another version than docs/gallery/README.md names: sizes alone")
    names = sorted(os.listdir(room))
    for name in names:
        made, stored = f"{room}/{name}", f"{GALLERY}/{name}"
        if os.path.getsize(made) >= MOST:
            faults.append(f"{name} has {os.path.getsize(made)} bytes")
        if writes:
            shutil.copyfile(made, stored)
        elif is_same_version and not filecmp.cmp(made, stored, shallow=False):
            faults.append(f"docs/gallery/{name} is not what is made")
    for name in set(os.listdir(GALLERY)).difference(names):
        faults.append(f"docs/gallery/{name} is not made")
    print(f"{len(names) - 1} pictures, {len(faults)} faults")
    return faults


def main():
    writes = sys.argv[1:2] == ["write"] and bool(sys.argv.pop(1))
    program = os.path.realpath(sys.argv.pop(1) if sys.argv[1:] else built("mesh"))
    # It takes what is then the first word for the library.
    import debian

    debian.prepare(*MODULES)
    with tempfile.TemporaryDirectory() as bin_, tempfile.TemporaryDirectory() as room:
        os.symlink(program, f"{bin_}/mesh")
        words = {**debian.environment(), INSIDE: "1", "PATH": f"{bin_}:{os.environ['PATH']}"}
        subprocess.run([debian.PYTHON, __file__], cwd=room, env=words, check=True)
        faults = compare(room, writes)
    if faults:
        sys.exit("\n".join(faults))


if INSIDE in os.environ:
    make()
else:
    main()
