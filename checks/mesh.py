#!/usr/bin/env python3
"""checks/mesh.py [PROGRAM]: runs the program `mesh` on drawings and on files with faults, and
compares what it writes with what the points and segments alone say.

PROGRAM is crates/mesh as the gate has built it. Faces are found by geometry.py's brute force, with
exact numbers: points are scaled here by Python's fractions, constraints are cut at the points on
them, and which faces lie outside or in a hole is found by a search of this file. Each form that is
written is read back by readers of this file, by the program itself where it reads that form, and by
Debian's python3-meshio, which is installed where that may be done.
"""
import csv
import io
import json
import os
import random
import re
import resource
import stat
import subprocess
import sys
import tempfile
from fractions import Fraction
from itertools import combinations
from xml.etree import ElementTree

import debian
from model.geometry import carries, distance_2, edges_of, faces_of, in_circle, side, twice_hull
from model.ways import Sight, fault, shortest
from project import named_or_built

PROGRAM = named_or_built("mesh")


# ---- the program

def run(words, text=b"", status=0):
    """What the program writes, to both of its outputs, after a look at its exit status."""
    text = text if isinstance(text, bytes) else text.encode()
    ran = subprocess.run([PROGRAM, *words], input=text, capture_output=True, timeout=120)
    if ran.returncode != status:
        sys.exit(f"mesh {' '.join(words)}: status {ran.returncode}, not {status}: {ran.stderr}")
    return ran.stdout.decode(), ran.stderr.decode()


def expect(is_right, told):
    if not is_right:
        sys.exit(told)


# ---- drawings: points as texts, segments by places from 0, points in holes, polygons' rings

class Drawing:
    def __init__(self, points, segments=(), holes=(), polygons=()):
        self.texts, self.segments, self.holes = list(points), list(segments), list(holes)
        self.polygons = list(polygons)
        self.points = [tuple(Fraction(number) for number in point[:2]) for point in self.texts]
        # whole numbers, for all that is worked out
        self.whole, self.inner = ([tuple(int(Fraction(number) * 1000) for number in point[:2])
                                   for point in points] for points in (self.texts, self.holes))

    def csv(self):
        head = "x,y,z"[: 2 * len(self.texts[0]) - 1]
        return "\n".join([head, *(",".join(point) for point in self.texts)]) + "\n"

    def lines(self):
        return "from,to\n" + "".join(f"{a + 1},{b + 1}\n" for a, b in self.segments)

    def poly(self, first=1):
        lines = ["# a drawing", f"{len(self.texts)} 2 {len(self.texts[0]) - 2} 0"]
        lines += [f"{i} {' '.join(p)}" for i, p in enumerate(self.texts, first)]
        lines += ["", f"{len(self.segments)} 0"]
        lines += [f"{i} {a + first} {b + first}  # a constraint"
                  for i, (a, b) in enumerate(self.segments, first)]
        lines += [f"{len(self.holes)}"]
        lines += [f"{i} {' '.join(p)}" for i, p in enumerate(self.holes, first)]
        return "\n".join(lines) + "\n"


def subconstraints(points, segments):
    """Segments cut at the points on them, as pairs of places with the lesser first."""
    found = set()
    for a, b in segments:
        on = [k for k, p in enumerate(points)
              if k in (a, b) or carries(points[a], points[b], p)]
        on.sort(key=lambda k: (points[k], k))
        found |= {tuple(sorted(pair)) for pair in zip(on, on[1:])
                  if points[pair[0]] != points[pair[1]]}
    return found


def is_in(a, b, c, p):
    """Whether p is in a triple that turns left, or on a side of it."""
    return min(side(a, b, p), side(b, c, p), side(c, a, p)) >= 0


def turned(face):
    least = face.index(min(face))
    return tuple(face[least:] + face[:least])


def expected_faces(points, constraints, written):
    """All faces of the triangulation; where four points are on one circle, with the diagonal that
    was written. Many points have no constraints: theirs are the faces with no point in their
    circles."""
    if len(points) > 20:
        faces = {turned(face) for face in written}
        corners = [[points[k] for k in face] for face in faces]
        expect(all(side(*face) > 0 for face in corners), "faces turn left")
        expect(sum(side(*face) for face in corners) == twice_hull(points), "faces tile the hull")
        expect(all(in_circle(*face, p) <= 0 for face in corners for p in points), "empty circles")
        return faces
    listed = {tuple(sorted(pair)) for face in written for pair in combinations(face, 2)}
    edges = edges_of(points, constraints, listed)
    return {turned(list(face)) for face in faces_of(points, edges)}


def is_within(ring, p):
    """Whether p, which is on none of its sides, is within a ring: a ray to the right leaves it."""
    return sum((a[1] > p[1]) != (b[1] > p[1]) and (side(a, b, p) > 0) == (b[1] > a[1])
               for a, b in zip(ring, ring[1:] + ring[:1])) % 2 == 1


def within_holes(drawing, faces):
    """The faces at a side of a ring round a hole, within that ring and no polygon."""
    found = set()
    rings = [[[drawing.whole[k] for k in ring] for ring in polygon] for polygon in drawing.polygons]
    for face in faces:
        corners = [drawing.whole[k] for k in face]
        middle = tuple(Fraction(sum(numbers), 3) for numbers in zip(*corners))
        if any(is_within(outer, middle) and not any(is_within(ring, middle) for ring in holes)
               for outer, *holes in rings):
            continue
        for ring in (ring for _, *holes in drawing.polygons for ring in holes):
            sides = subconstraints(drawing.whole, list(zip(ring, ring[1:] + ring[:1])))
            if is_within([drawing.whole[k] for k in ring], middle) and any(
                    tuple(sorted(pair)) in sides for pair in combinations(face, 2)):
                found.add(face)
    return found


def in_polygons(drawing, faces):
    """The numbers of the polygons, from 1, that the middle of each face is in."""
    rings = [[[drawing.whole[k] for k in ring] for ring in polygon] for polygon in drawing.polygons]
    found = {}
    for face in faces:
        corners = [drawing.whole[k] for k in face]
        middle = tuple(Fraction(sum(numbers), 3) for numbers in zip(*corners))
        found[face] = [number for number, polygon in enumerate(rings, 1)
                       if sum(is_within(ring, middle) for ring in polygon) % 2]
    return found


def kept(points, constraints, faces, holes, within=()):
    """The faces that no way past no constraint leads to, from outside, from a hole or from
    others."""
    sides = {}
    for face in faces:
        for pair in zip(face, face[1:] + face[:1]):
            sides.setdefault(tuple(sorted(pair)), []).append(face)
    left = {face for pair, at in sides.items() if len(at) == 1 and pair not in constraints
            for face in at}
    left |= {face for face in faces for hole in holes
             if is_in(*(points[k] for k in face), hole)}
    left |= set(within)
    todo = list(left)
    while todo:
        face = todo.pop()
        for pair in zip(face, face[1:] + face[:1]):
            if tuple(sorted(pair)) not in constraints:
                for other in sides[tuple(sorted(pair))]:
                    if other not in left:
                        left.add(other)
                        todo.append(other)
    return set(faces) - left


# ---- readers of what is written: points as fractions, faces by places from 0

def read_obj(text):
    points = [tuple(map(Fraction, line.split()[1:])) for line in text.splitlines()
              if line.startswith("v ")]
    return points, [[int(word) - 1 for word in line.split()[1:]] for line in text.splitlines()
                    if line.startswith("f ")]


def read_ply(text):
    head, body = text.split("end_header\n")
    expect(head.startswith("ply\nformat ascii 1.0\n"), "ply: the head")
    count, faces, edges = (int((re.search(rf"element {name} (\d+)", head) or [0, 0])[1])
                           for name in ("vertex", "face", "edge"))
    lines = body.splitlines()
    expect(len(lines) == count + faces + edges, "ply: the number of lines")
    expect(all(line.startswith("3 ") for line in lines[count:count + faces]), "ply: faces")
    return ([tuple(map(Fraction, line.split())) for line in lines[:count]],
            [[int(word) for word in line.split()[1:]] for line in lines[count:count + faces]])


def constraints_of(form, text):
    """The constraints in an OBJ, a PLY or a picture of faces as GeoJSON, as they are written."""
    if form == "obj":
        return [[int(word) - 1 for word in line.split()[1:]] for line in text.splitlines()
                if line.startswith("l ")]
    if form == "ply":
        count = int((re.search(r"element edge (\d+)", text) or [0, 0])[1])
        return [list(map(int, line.split())) for line in text.splitlines()[-count:]] if count else []
    return [[tuple(position[:2]) for position in feature["geometry"]["coordinates"]]
            for feature in json.loads(text, parse_float=Fraction, parse_int=Fraction)["features"]
            if feature["geometry"]["type"] == "LineString"]


def read_table(text):
    head, *lines = text.splitlines()
    expect(f"{head},".startswith(("a,b,c,area,polygon,", "a,b,c,area,")), "csv: the header")
    rows = [line.split(",") for line in lines]
    return [[int(word) - 1 for word in row[:3]] for row in rows], [Fraction(r[3]) for r in rows]


def polygons_of(text):
    """The numbers of the polygons of each face of a table, by the face."""
    rows = [line.split(",") for line in text.splitlines()[1:]]
    return {turned([int(word) - 1 for word in row[:3]]): list(map(int, row[4].split()))
            for row in rows}


def read_numbered(text):
    """A .node or .ele file: its head, and its rows, numbered from 1."""
    head, *lines = (line.split() for line in text.splitlines())
    expect([line[0] for line in lines] == [str(i + 1) for i in range(len(lines))], "numbers")
    expect(int(head[0]) == len(lines), "the number of rows")
    return head, [line[1:] for line in lines]


def read_geojson(text):
    parsed = json.loads(text, parse_float=Fraction, parse_int=Fraction)
    expect(parsed["type"] == "FeatureCollection", "geojson: its type")
    rings = []
    for feature in parsed["features"]:
        if feature["geometry"]["type"] == "LineString":
            continue
        expect(feature["geometry"]["type"] == "Polygon", "geojson: a polygon")
        (ring,) = feature["geometry"]["coordinates"]
        expect(len(ring) == 4 and ring[0] == ring[3], "geojson: a closed ring")
        rings.append([tuple(corner[:2]) for corner in ring[:3]])
    return rings


def read_svg(text):
    """The faces and the constraints of a picture, in its own units, with y upwards."""
    found = []
    for kind in "polygon", "polyline":
        shapes = []
        for shape in ElementTree.fromstring(text).iter("{http://www.w3.org/2000/svg}" + kind):
            pairs = [pair.split(",") for pair in shape.get("points").split()]
            shapes.append([(int(x), -int(y)) for x, y in pairs])
        found.append(shapes)
    return found


# Texts with their forms, and how many points and faces there are, for python3-meshio.
MESHES = []

READ_ALL = """import sys, meshio
for name in sys.argv[1:]:
    mesh = meshio.read(name)
    print(len(mesh.points), sum(len(it.data) for it in mesh.cells if it.type == "triangle"))
"""


def check_by_meshio():
    """The numbers of points and of faces that python3-meshio finds in all texts of its forms."""
    with debian.alone("packages"):
        debian.install([f"python3-{it}" for it in debian.lacking(["meshio"])])
    if debian.lacking(["meshio"]):
        print("python3-meshio is not there, and has read nothing")
        return
    with tempfile.TemporaryDirectory() as folder:
        names = [f"{folder}/{i}.{form}" for i, (_, form, _) in enumerate(MESHES)]
        for name, (text, _, _) in zip(names, MESHES):
            with open(name, "w") as file:
                file.write(text)
        ran = subprocess.run([debian.PYTHON, "-c", READ_ALL, *names], capture_output=True)
    found = [tuple(map(int, line.split())) for line in ran.stdout.decode().splitlines()]
    expect(found == [counts for _, _, counts in MESHES], f"meshio: {found} {ran.stderr.decode()}")


# ---- one drawing, in each form

def same_shapes(name, said, wanted):
    expect(sorted(map(sorted, said)) == sorted(map(sorted, wanted)), f"{name}: other shapes")


def check_forms(name, drawing, constraints, faces, words, text):
    """Each form of the drawing has these faces and these points."""
    points = drawing.points
    wanted = sorted(faces)
    for form, read in ("obj", read_obj), ("ply", read_ply):
        said, _ = run([*words, "--to", form], text)
        at, found = read(said)
        flat = [point[:2] for point in at]
        expect(flat == points, f"{name}: {form} has other points")
        if len(drawing.texts[0]) > 2:
            expect([p[2] for p in at] == [Fraction(t[2]) for t in drawing.texts], f"{name}: heights")
        expect(sorted(turned(f) for f in found) == wanted, f"{name}: {form} has other faces")
        same_shapes(f"{name}: constraints of {form}", constraints_of(form, said), constraints)
        # meshio reads no edges of PLY
        if wanted and not (form == "ply" and constraints):
            MESHES.append((said, form, (len(points), len(wanted))))
    found, areas = read_table(run([*words, "--to", "csv"], text)[0])
    expect(sorted(map(turned, found)) == wanted, f"{name}: csv has other faces")
    for face, area in zip(found, areas):
        expect(2 * area == side(*(points[k] for k in face)), f"{name}: an area")
    head, rows = read_numbered(run([*words, "--to", "ele"], text)[0])
    expect(head[1:] == ["3", "0"], f"{name}: the head of ele")
    expect(sorted(turned([int(w) - 1 for w in row]) for row in rows) == wanted, f"{name}: ele")
    head, rows = read_numbered(run([*words, "--to", "node"], text)[0])
    expect(head[1] == "2" and rows == [list(point) for point in drawing.texts], f"{name}: node")
    said, _ = run([*words, "--to", "geojson"], text)
    rings = read_geojson(said)
    same_shapes(f"{name}: geojson", rings, [[points[k] for k in face] for face in wanted])
    same_shapes(f"{name}: lines", constraints_of("geojson", said),
                [[points[k] for k in pair] for pair in constraints])
    check_read_back(name, rings, said)
    check_picture(name, drawing, constraints, wanted, run([*words, "--to", "svg"], text)[0])


def check_read_back(name, rings, text):
    """Faces that were written as GeoJSON are read as rings, which are faces of their points."""
    points, faces = read_obj(run(["--from", "geojson", "-q"], text)[0])
    corners = [corner for ring in rings for corner in ring]
    expect([p[:2] for p in points][:len(corners)] == corners, f"{name}: other points are read back")
    found = {tuple(sorted(points[k][:2] for k in face)) for face in faces}
    expect(all(tuple(sorted(ring)) in found for ring in rings), f"{name}: a ring is no face")


def check_picture(name, drawing, constraints, faces, said):
    """The picture's faces and constraints are those of the drawing, moved and scaled."""
    shapes, lines = read_svg(said)
    corners = sorted({p for shape in shapes for p in shape})
    wanted = sorted({drawing.points[k] for face in faces for k in face})
    expect(len(corners) == len(wanted), f"{name}: a picture of other points")
    if len(corners) > 1:
        (a, b), (p, q) = (corners[0], corners[-1]), (wanted[0], wanted[-1])
        scale = Fraction(b[0] - a[0] or b[1] - a[1]) / (q[0] - p[0] or q[1] - p[1])
        place = {w: c for w, c in zip(wanted, corners)}
        for w, c in place.items():
            moved = (c[0] - a[0], c[1] - a[1])
            expect(moved == ((w[0] - p[0]) * scale, (w[1] - p[1]) * scale), f"{name}: a place")
        same_shapes(name, shapes, [[place[drawing.points[k]] for k in f] for f in faces])
    expect(len(lines) == len(constraints), f"{name}: {len(lines)} constraints in the picture")


def check_read(name, drawing, words, text):
    """All forms of a drawing, as it is and with only its inside kept, and the faces as written."""
    points, constraints = drawing.whole, subconstraints(drawing.whole, drawing.segments)
    written = read_obj(run(words, text)[0])[1]
    faces = expected_faces(points, constraints, written)
    check_forms(name, drawing, constraints, faces, words, text)
    inside = kept(points, constraints, faces, drawing.inner, within_holes(drawing, faces))
    check_forms(f"{name}, layers", drawing, constraints, inside, [*words, "--keep", "layers"], text)
    if drawing.polygons:
        inside = {face for face, polygons in in_polygons(drawing, faces).items() if polygons}
    check_forms(f"{name}, inside", drawing, constraints, inside, [*words, "--keep", "inside"], text)
    return written


def check(name, drawing):
    """All forms of a drawing, read as .poly, and its faces where it is read from tables."""
    text = drawing.poly()
    written = check_read(name, drawing, ["--from", "poly", "-q"], text)
    nodes = run(["--from", "poly", "-q", "--to", "node"], text)[0]
    expect(run(["--from", "node", "-q", "--to", "node"], nodes)[0] == nodes, f"{name}: node again")
    expect(run(["--from", "poly", "-q"], drawing.poly(0))[0]
           == run(["--from", "poly", "-q"], text)[0], f"{name}: numbered from 0")
    with tempfile.TemporaryDirectory() as folder:
        for file, content in ("points.csv", drawing.csv()), ("lines.csv", drawing.lines()):
            with open(f"{folder}/{file}", "w") as out:
                out.write(content)
        told = ["-q", "-o", f"{folder}/mesh.obj", "--lines", f"{folder}/lines.csv"]
        run([*told, f"{folder}/points.csv"])
        expect(sorted(os.listdir(folder)) == ["lines.csv", "mesh.obj", "points.csv"], "files")
        with open(f"{folder}/mesh.obj") as file:
            found = read_obj(file.read())
    # where four points are on one circle, another diagonal may be chosen
    points, constraints = drawing.whole, subconstraints(drawing.whole, drawing.segments)
    expect({turned(face) for face in found[1]} == expected_faces(points, constraints, found[1])
           and len(found[1]) == len(written), f"{name}: from tables")


# ---- the drawings

def survey():
    """The survey of crates/examples."""
    points = [("0", "0"), ("120", "35"), ("-80", "140"), ("-150", "-60")]
    return Drawing(points, [(0, 2)])


def hundred():
    """A hundred points of a map grid, with heights, below 0 and with fractions."""
    chance = random.Random(7)
    points = []
    while len(points) < 100:
        x, y = chance.randint(-40000, 40000), chance.randint(-30000, 30000)
        point = (f"{x / 100:.2f}", f"{y / 1000:+.3f}", f"{chance.randint(-50, 900) / 10}")
        if all(Fraction(point[0]) != Fraction(p[0]) or Fraction(point[1]) != Fraction(p[1])
               for p in points):
            points.append(point)
    return Drawing(points)


def room():
    """A room with two holes, a constraint inside and a point outside."""
    corners = [(0, 0), (12, 0), (12, 8), (0, 8)]
    first = [(2, 2), (4, 2), (4, 4), (2, 4)]
    second = [(7, 3), (10, 3), (8.5, 6)]
    points = [*corners, *first, *second, (5, 5), (5, 7), (15, 4)]
    rings = [range(4), range(4, 8), range(8, 11)]
    segments = [(ring[i - 1], ring[i]) for ring in rings for i in range(len(ring))]
    texts = [(f"{x}", f"{y}") for x, y in points]
    return Drawing(texts, [*segments, (11, 12)], [("3", "2.5"), ("8.5", "4")])


def manual():
    """A box with a square hole, in the form of Triangle's manual, in other spellings of numbers."""
    box = [("0", "0"), ("3e0", ".0"), ("3.00", "3"), ("-0", "30E-1")]
    hole = [("1", "1"), ("+2", "1."), ("2", "2"), ("1.0", "0.2e1")]
    segments = [(k, (k + 1) % 4) for k in range(4)] + [(4 + k, 4 + (k + 1) % 4) for k in range(4)]
    return Drawing(box + hole, segments, [("1.5", "1.5")])


def cut():
    """Segments over points, along one another and twice."""
    points = [("0", "0"), ("4", "0"), ("8", "0"), ("3", "5"), ("5", "-4"), ("1", "-3")]
    return Drawing(points, [(0, 2), (0, 1), (1, 0), (3, 5)][:3])


# ---- GeoJSON, as this file reads it

def is_same(one, other):
    return len(one) == len(other) and all(Fraction(a) == Fraction(b) for a, b in zip(one, other))


def lines_of(kind, at):
    """The positions of coordinates that stand next to one another."""
    if kind == "Point":
        return [[at]]
    if kind in ("MultiPoint", "LineString"):
        return [at]
    return at if kind in ("MultiLineString", "Polygon") else [ring for part in at for ring in part]


def drawing_of(text):
    """The drawing of GeoJSON: a line that ends where it began has no second point there."""
    points, segments, polygons = [], [], []

    def take(it):
        if it is None:
            return
        kind = it["type"]
        for inner in it.get("features", []) + it.get("geometries", []):
            take(inner)
        if kind == "Feature":
            take(it["geometry"])
        rings = []
        for line in lines_of(kind, it["coordinates"]) if "coordinates" in it else []:
            line = [position[:3] for position in line]
            if "Point" in kind:
                points.extend(line)
                continue
            places = list(range(len(points), len(points) + len(line)))
            if line and is_same(line[0], line[-1]):
                places[-1] = places[0]
                line.pop()
            points.extend(line)
            segments.extend(zip(places, places[1:]))
            rings.append(places[:-1])
        if "Polygon" in kind:
            for part in [it["coordinates"]] if kind == "Polygon" else it["coordinates"]:
                polygons.append(rings[:len(part)])
                del rings[:len(part)]

    take(json.loads(text, parse_float=str, parse_int=str))
    return Drawing([tuple(point) for point in points], segments, polygons=polygons)


# A room with two holes, a constraint and points, with members in any order and numbers
# in any spelling.
HOUSE = """{"features": [
 {"geometry": {"coordinates": [[[0, 0], [1.2e1, 0.0], [12, 8], [0, 80e-1], [-0, 0e5]],
                               [[2, 2], [2, 4], [4, 4], [4, 2], [2.0, 2]],
                               [[7, 3], [10, 3], [8.5, 6], [7, 3]]], "type": "Polygon"},
  "properties": {"coordinates": [[]], "a": {"features": [1, "\\u00e9]}", null]}}, "type": "Feature"},
 {"type": "Feature", "id": 7, "properties": null, "geometry": null},
 {"type": "Feature", "properties": {}, "geometry": {"type": "LineString", "bbox": [5, 5, 5, 7],
  "coordinates": [[5, 5], [5, 7.125]]}},
 {"type": "Feature", "properties": {}, "geometry": {"type": "MultiPoint",
  "coordinates": [[15, 4], [-1.5, -2.25]]}}
], "crs": {"type": "name"}, "type": "FeatureCollection"}
"""

# Two parcels, one with a hole, and paths, of which one is closed; all with heights.
PARCELS = """{"type":"GeometryCollection","geometries":[
{"type":"MultiPolygon","coordinates":[[[[0,0,1],[3,0,2],[3,3,3],[0,3.5,4],[0,0,1.0]],
[[1,1,5],[2,1,5],[1.5,2,5],[1,1,5]]],[[[5,0,1.5],[7,0,-2],[6,2,1E1],[5,0,1.5]]]]},
{"type":"GeometryCollection","geometries":[{"type":"Point","coordinates":[8,8,8.25,9,10]},
{"type":"MultiLineString","coordinates":[[[5,4,0],[6,5,0],[5,6,0]],[[8,4,0],[9,4,0],[8.5,5,0],[8,4,0]]]},
{"type":"LineString","coordinates":[]},{"type":"GeometryCollection","geometries":[]}]}]}"""


# Polygons whose holes touch the outer ring, are cut by points and by a line, hold another polygon,
# are filled by one with other points, or by one with the same points and a further one, or have
# others along parts of their sides, which may fill them together.
HOLES = [
    [[[[0, 0], [9, 0], [9, 9], [0, 9]], [[0, 3], [3, 2], [3, 5]], [[9, 9], [6, 8], [8, 6]]]],
    [[[[0, 0], [9, 0], [9, 9], [0, 9]], [[2, 2], [2, 6], [7, 7], [6, 2]]],
     [[[3, 3], [4, 3], [3, 4]]]],
    [[[[0, 0], [9, 0], [9, 9], [0, 9]], [[2, 2], [7, 2], [7, 7], [2, 7]]],
     [[[2, 2], [7, 2], [7, 7], [2, 7]]]],
    [[[[0, 0], [9, 0], [9, 9], [0, 9]], [[2, 2], [2, 7], [7, 7], [7, 2]]],
     [[[2, 2], [7, 2], [2, 7]]]],
    [[[[0, 0], [0, 2], [3, 2], [3, 0]], [[1, 0], [1, 1], [2, 1]]]],
    [[[[0, 0], [9, 0], [9, 9], [0, 9]], [[2, 2], [7, 2], [7, 7], [2, 7]]],
     [[[2, 2], [4, 2], [4, 7], [2, 7]]]],
    [[[[0, 0], [9, 0], [9, 9], [0, 9]], [[2, 2], [7, 2], [7, 7], [2, 7]]],
     [[[2, 2], [4, 2], [4, 7], [2, 7]]], [[[4, 2], [7, 2], [7, 7], [4, 7]]]],
    [[[[0, 0], [9, 0], [9, 9], [0, 9]], [[2, 2], [4, 2], [7, 2], [7, 7], [2, 7]]],
     [[[2, 2], [7, 2], [2, 7]]]],
    [[[[0, 0], [9, 0], [9, 9], [0, 9]], [[2, 2], [8, 5], [2, 8]]],
     [[[4, 3], [6, 4], [4, 5]]], [[[2, 3], [2, 4], [3, 4]]], [[[2, 5], [2, 7], [3, 5]]]],
]


def multi_polygon(polygons):
    rings = [[ring + ring[:1] for ring in polygon] for polygon in polygons]
    return json.dumps({"type": "MultiPolygon", "coordinates": rings})


def check_inside(name, text):
    """The faces that are kept of GeoJSON where points may repeat others."""
    drawing = drawing_of(text)
    places = [drawing.whole.index(point) for point in drawing.whole]
    once = sorted(set(places))
    number = {place: k for k, place in enumerate(once)}
    drawing = Drawing([drawing.texts[place] for place in once],
                      [[number[places[k]] for k in pair] for pair in drawing.segments], (),
                      [[[number[places[k]] for k in ring] for ring in polygon]
                       for polygon in drawing.polygons])
    words = ["--from", "geojson", "-q"]
    written, layers, inside = ([[number[places[k]] for k in face]
                                for face in read_obj(run([*words, *keep], text)[0])[1]]
                               for keep in ((), ("--keep", "layers"), ("--keep", "inside")))
    constraints = subconstraints(drawing.whole, drawing.segments)
    faces = expected_faces(drawing.whole, constraints, written)
    expect(len(written) == len(faces), f"{name}: all faces")
    wanted = kept(drawing.whole, constraints, faces, (), within_holes(drawing, faces))
    expect(sorted(map(turned, layers)) == sorted(wanted), f"{name}: layers")
    polygons = in_polygons(drawing, faces)
    wanted = {face for face, numbers in polygons.items() if numbers}
    expect(sorted(map(turned, inside)) == sorted(wanted), f"{name}: inside")
    said = polygons_of(run([*words, "--compact", "--to", "csv"], text)[0])
    expect(said == polygons, f"{name}: {said}, not {polygons}")
    features = json.loads(run([*words, "--to", "geojson"], text)[0])["features"]
    said = [feature["properties"]["polygon"] for feature in features
            if feature["geometry"]["type"] == "Polygon"]
    wanted = [polygons[turned(face)] for face in written]
    expect(said == [it[0] if len(it) == 1 else it for it in wanted], f"{name}: properties")


def check_holes():
    """Rings round holes, as they are and the other way round, with points on their sides and a line
    through them."""
    for k, polygons in enumerate(HOLES):
        for turned_round in False, True:
            if turned_round:
                polygons = [[ring[::-1] for ring in polygon] for polygon in polygons]
            check_inside(f"holes {k}, {turned_round}", multi_polygon(polygons))
    ring = '"coordinates":[[[0,0],[9,0],[9,9],[0,9],[0,0]],[[2,2],[6,2],[2,6],[2,2]]]'
    for more in ('{"type":"MultiPoint","coordinates":[[4,2],[2,4],[4,4]]}',
                 '{"type":"LineString","coordinates":[[2,4],[4,2]]}'):
        text = f'{{"type":"GeometryCollection","geometries":[{{"type":"Polygon",{ring}}},{more}]}}'
        check_inside("a cut hole", text)
    # a ring with no area has nothing within
    flat = multi_polygon([[[[0, 0], [9, 0], [9, 9], [0, 9]], [[2, 2], [4, 4], [6, 6]]]])
    words = ["--from", "geojson", "-q"]
    for keep in "inside", "layers":
        expect(run([*words, "--keep", keep], flat) == run(words, flat), "a ring with no area")


def check_geojson():
    """Drawings in GeoJSON, and what of them is left out."""
    for name, text in ("house", HOUSE), ("parcels", PARCELS):
        check_read(name, drawing_of(text), ["--from", "geojson", "-q"], text)
    check_holes()
    said, error = run(["--from", "geojson"], HOUSE)
    expect("mesh: left out: properties\n" in error, error)
    for suffix in ".json", ".geojson":
        with tempfile.NamedTemporaryFile("w", suffix=suffix) as file:
            file.write("\ufeff" + HOUSE)
            file.flush()
            expect(run([file.name, "-q"])[0] == said, f"a file that ends in {suffix}")
    error = run(["--from", "geojson"], PARCELS)[1]
    expect("mesh: left out: numbers of positions behind the third\n" in error, error)
    text = '{"type":"MultiPoint","coordinates":[[0,0],[1,0],[0,1],[0.0,0]]}'
    said, error = run(["--from", "geojson"], text)
    told = "mesh: points that repeat an earlier one, and so are in no face: 1\n"
    expect(len(read_obj(said)[0]) == 4 and told in error, error)
    for text in ('{"type":"FeatureCollection","features":[]}', '{"type":"Point","coordinates":[]}',
                 '{"type":"Feature","geometry":null}'):
        said, error = run(["--from", "geojson"], text)
        expect(not said and "0 vertices, 0 faces" in error, error)


# ---- texts that are not right

FAULTS = [
    # the words, the text, and what is told
    ([], "", "line 1: the file ends where a header is expected"),
    ([], "a,b\n1,2\n", "line 1: there is no column named x: --x gives its name; the header is "),
    ([], "x,z\n1,2\n", "line 1: there is no column named y"),
    ([], "x,y\n1,2\n3\n", "line 3: the row has more or fewer fields than the first: quote"),
    ([], "x,y\n1,2\n3,four\n", "line 3: y is not a decimal number"),
    ([], "x,y\n1,\n", "line 2: y is not a decimal number"),
    ([], "x,y\n--1,0\n", "line 2: x is not a decimal number"),
    ([], "x,y\n1e,0\n", "line 2: x is not a decimal number"),
    ([], "x,y\n.,0\n", "line 2: x is not a decimal number"),
    ([], "x,y\n1_0,0\n", "line 2: x is not a decimal number"),
    ([], "x,y\n123456789012345678901,0\n", "line 2: x has more than 17 digits before the point"),
    ([], "x,y\n1e999,0\n", "line 2: x has more than 17 digits before the point, or a power of ten"),
    ([], "x,y\n123456789012345678.55555,0\n", "line 2: x has more than 17 digits before the point"),
    ([], "x,y,z\n1,0,high\n", "line 2: z is not a decimal number"),
    (["--exact"], "x,y\n0,0\n1,0.000000001\n0,9\n",
     "line 3: y has more digits behind the point than fit: --round 8 keeps as many as do"),
    (["--round", "9"], "x,y\n0,0\n1,0.000000001\n0,9\n",
     "y is too far from the others: with 9 decimals they may span 2^30 units; --round 8 fits\n"),
    ([], "x,y\n0,0\n0,5\n-2000000000,9\n2000000000,9\n",
     "line 4: x is too far from the others: with 0 decimals they may span 2^30 units\n"),
    ([], "x,y\n0,0\n1\0,0\n", "line 3: there is a NUL byte: this is not a text file"),
    ([], "x,y\n0,0\n" + "1" * 70000, "line 3: this line or row is too long: at most 65536"),
    (["--from", "node"], "", "input: the file ends where the number of points is expected"),
    (["--from", "node"], "2 3 0 0\n", "line 1: only points of the plane are read, with"),
    (["--from", "node"], "0 2 0 0\n", "line 1: its points are in a .node file"),
    (["--from", "node"], "2 2 0 0\n1 0 0\n", "line 2: the file ends where a point is expected"),
    (["--from", "node"], "2 2 0 0\n1 0 0\n3 1 1\n", "line 3: this is not the next point: number"),
    (["--from", "node"], "1 2 0 0\n1 0\n", "line 2: y is missing"),
    (["--from", "node"], "1 2 0 0\n1 0 y\n", "line 2: y is not a decimal number"),
    (["--from", "poly"], "2 2 0 0\n1 0 0\n2 1 1\n1 0\n1 1 3\n", "line 5: point 3 is used here"),
    (["--from", "poly"], "2 2 0 0\n1 0 0\n2 1 1\n1 0\n1 1 b\n", "line 5: a segment's end is not"),
    (["--from", "poly", "--crossing", "refuse"],
     "4 2 0 0\n1 0 0\n2 2 2\n3 0 2\n4 2 0\n2 0\n1 1 2\n2 3 4\n0\n",
     "line 8: the segment crosses that of line 7 at 1,1\n"),
    ([], 'x,y,note\n1,2,"a\n3,4,b\n5,6,c\n', "line 2: the quoted field that begins here does not"),
    ([], 'x,y\n0,0\n1,"' + "2\n" * 40000, "line 3: the quoted field that begins here does not end"),
    ([], '\ufeff"x,y\n' + "1,2\n" * 20000, "line 1: the quoted field that begins here does"),
    ([], "x,y\n" + '"\n",1,' * 20000, "this line or row is too long: at most 65536 bytes are read"),
]

GEOJSON_FAULTS = [
    # the text, and what is told
    ("", "line 1: the file ends where more of it is expected"),
    ('{"type":"Point",\n"coordinates":[1,2]\n\n', "line 2: the file ends where more of it"),
    ('{"type":"Point",\n"coordinates":[1 2]}', "line 2: this is not JSON, or it nests"),
    ('{"type":"Point","coordinates":[1,2]}\n{}', "line 2: the object has no member named type"),
    ('{"type":"Point","coordinates":[1,\n"2"]}', "line 2: y is missing"),
    ('{"type":"Point","coordinates":[1]}', "line 1: y is missing"),
    ('{"type":"Point","coordinates":[1,2,"3"]}', "line 1: a number is expected here"),
    ('{"type":"Point","coordinates":[1e999,2]}', "line 1: x has more than 17 digits"),
    ('{"type":"Point","coordinates":[+1,2]}', "line 1: this is not JSON, or it nests"),
    ('{"type":"Point","coordinates":{}}', "line 1: an array of coordinates is expected here"),
    ('{"type":"Point","coordinates":5}', "line 1: an array of coordinates is expected here"),
    ('{"type":"LineString","coordinates":[[1,2],[]]}', "line 1: an array of coordinates is"),
    ('{"type":"LineString","coordinates":[[1,2],3]}', "line 1: an array of coordinates is"),
    ('{"type":"LineString","coordinates":[1,2]}', "line 1: the coordinates are not nested"),
    ('{"type":"Point","coordinates":' + "[" * 100000, "line 1: an array of coordinates is"),
    ('{"type":"Polygon","coordinates":[[[0,0],[1,0]]]}', "line 1: this ring has fewer than three"),
    ('{"type":"Polygon","coordinates":[[[0,0],[1,0],[0,0]]]}', "line 1: this ring has fewer than"),
    ('{"coordinates":[0,0]}', "line 1: the object has no member named type"),
    ('{"type":"Point"}', "line 1: the object has no member named coordinates"),
    ('{"type":"Circle","coordinates":[0,0]}', "line 1: a type of GeoJSON is expected here"),
    ('{"type":5}', "line 1: a type of GeoJSON is expected here"),
    ('{"type":"Feature","coordinates":[0,0]}', "line 1: the object has coordinates, which"),
    ('{"type":"Feature","geometry":null,"features":[]}', "the object has geometry and features"),
    ('{"type":"Feature","geometry":[]}', "line 1: a geometry is expected here"),
    ('{"type":"Feature","geometry":{"type":"Feature","geometry":null}}', "a geometry is expected"),
    ('{"type":"Feature","properties":5}', "line 1: an object of properties is expected here"),
    ('{"type":"FeatureCollection","features":{}}', "line 1: a list is expected here"),
    ('{"type":"FeatureCollection","features":[5]}', "line 1: a member or an object of GeoJSON"),
    ('{"type":"FeatureCollection","features":[{"type":"Feature","geometry":null},\n'
     '{"type":"Point","coordinates":[0,0]}]}', "line 2, feature 2: a feature is expected here"),
    ('{"type":"FeatureCollection","features":[{"type":"Feature","geometry":'
     '{"type":"Point","coordinates":[0,0]}},{"type":"Feature","geometry":'
     '{"type":"Point","coordinates":[2e9,0]}}]}', "line 1, feature 2: x is too far from the others"),
    ("[1,2]", "line 1: an object of GeoJSON is expected here"),
    ('{"a":' + "[" * 100000, "line 1: this is not JSON, or it nests more than 128 deep"),
    ('{"type":"GeometryCollection","geometries":[' * 200, "it nests more than 128 deep"),
    ('{"type":"Point","coordinates":[1,2]}\0', "line 1: there is a NUL byte: this is not"),
    (b'{"type":"\xff"}', "standard input: the file is not UTF-8: iconv"),
]


def check_faults():
    for words, text, told in FAULTS + [(["--from", "geojson"], *row) for row in GEOJSON_FAULTS]:
        said, error = run(words, text, 1)
        expect(told in error and not said, f"mesh {words} on {text[:60]!r}: {error}")
    for words in ["--to", "step"], ["--nowhere"], ["a", "b"], ["--round", "x"], ["--keep", "out"]:
        said, error = run(words, "", 2)
        expect(not said and error.strip(), f"mesh {words}: {error}")
    for words in ["--help"], ["--version"]:
        expect("mesh" in run(words)[0], f"mesh {words}")
    said, error = run(["/nowhere/at/all.csv"], "", 1)
    expect("/nowhere/at/all.csv" in error, error)


def check_choices():
    """Crossing segments that are left out, rounded numbers, repeated points, few points."""
    text = "4 2 0 0\n1 0 0\n2 2 2\n3 0 2\n4 2 0\n2 0\n1 1 2\n2 3 4\n0\n"
    said, error = run(["--from", "poly", "--crossing", "skip", "--to", "svg"], text)
    expect("line 8: the segment crosses that of line 7 at 1,1, and is left out" in error, error)
    expect(len(read_svg(said)[1]) == 1, "one of two crossing segments")
    said, error = run(["--round", "1"], "x,y\n0.04,0\n1.25,-1.25\n0,7e-30\n")
    expect("standard input: rounded 4 numbers to 1 digits behind the point, by at most 0.05\n"
           in error, error)
    expect([p[:2] for p in read_obj(said)[0]] == [(0, 0), (Fraction("1.3"), Fraction("-1.3")),
                                                (0, 0)], said)
    said, error = run([], "x,y\n0,0\n1,0\n0,0\n0,1\n")
    told = "mesh: points that repeat an earlier one, and so are in no face: 1\n"
    expect(told in error and len(read_obj(said)[1]) == 1, error)
    for text, count in ("x,y\n", 0), ("x,y\n1,1\n", 1), ("x,y\n0,0\n1,1\n2,2\n", 3):
        said, error = run([], text)
        expect(len(read_obj(said)[0]) == count and not read_obj(said)[1], said)
    far = "x,y\n" + "".join(f"{500000 + k}.{k},{5400000 + k * k}.5\n" for k in range(9))
    expect(len(read_obj(run([], far)[0])[1]) == 7, "a map grid's points")
    rings = "x,y,ring\n0,0,a\n4,0,a\n4,4,a\n0,4,a\n9,9,\n"
    said, _ = run(["--keep", "inside", "-q"], rings)
    expect(len(read_obj(said)[1]) == 2, "a ring of a table")
    check_columns()
    text = "3 2 2 1\n1 0 0 5 6 1\n2 1 0 5 6 1\n3 0 1 5 6 1\n"
    error = run(["--from", "node"], text)[1]
    told = "mesh: left out: attributes of points behind the first, markers of points"
    expect(told + "\n" in error, error)
    error = run(["--from", "poly"], text + "1 1\n1 1 2 7\n0\n1\n1 0.5 0.5 7 0.1\n")[1]
    expect(told + ", markers of segments, attributes of regions\n" in error, error)
    expect("left out" not in run(["--from", "poly"], room().poly())[1], "nothing is left out")
    with tempfile.TemporaryDirectory() as folder:
        with open(f"{folder}/old.obj", "w") as file:
            file.write("old")
        run(["-o", f"{folder}/old.obj"], "x,y\n1\n", 1)
        with open(f"{folder}/old.obj") as file:
            expect(file.read() == "old", "a fault leaves the old file")
        run(["-o", f"{folder}/none/mesh.obj"], "x,y\n", 1)
        os.mkdir(f"{folder}/folder")
        run(["-o", f"{folder}/folder"], "x,y\n", 1)
        expect(sorted(os.listdir(folder)) == ["folder", "old.obj"], "a fault leaves nothing")


def crossing_poly(segments):
    """Four corners of a square, its middle, three points on its upper half, and segments."""
    points = [(0, 0), (4, 4), (0, 4), (4, 0), (2, 2), (0, 3), (4, 3), (2, 3)]
    return Drawing([tuple(map(str, point)) for point in points], segments).poly()


# Segments, in lines 13, 14 and on, and which crosses that of which. Diagonals meet in the middle.
CROSSED = [
    ([(0, 1), (2, 3), (5, 6)], [(15, 13)]),
    ([(0, 4), (2, 3), (5, 6)], [(15, 14)]),
    ([(5, 6), (0, 1), (2, 3)], [(14, 13), (15, 13)]),
    ([(2, 3), (5, 6), (0, 1), (6, 5)], [(14, 13), (16, 13)]),
    ([(0, 1), (5, 7), (2, 3)], [(15, 14)]),
]


def check_crossings():
    """The segment that is in the way of another, by its file, line and feature: not one that was
    left out itself, nor one that is met in a point."""
    words = ["--from", "poly", "--to", "ele"]
    for segments, pairs in CROSSED:
        text = crossing_poly(segments)
        told = [f"mesh: standard input: line {line}: the segment crosses that of line {other} at "
                for line, other in pairs]
        error = run([*words, "--crossing", "refuse"], text, 1)[1]
        expect(re.fullmatch(re.escape(told[0]) + r"\d,\d\n", error), error)
        error = run([*words, "--crossing", "skip"], text)[1]
        lines = [line for line in error.splitlines() if "crosses" in line]
        expect([re.sub(r"\d,\d, and is left out$", "", line) for line in lines] == told, error)
        expect(not run([*words, "--crossing", "skip", "-q"], text)[1], "--quiet")
    with tempfile.TemporaryDirectory() as folder:
        for name, text in (("points.csv", "x,y,line\n0,0,a\n4,4,a\n0,4,\n4,0,\n"),
                           ("lines.csv", "from,to\n3,4\n")):
            with open(f"{folder}/{name}", "w") as file:
                file.write(text)
        words = ["--crossing", "refuse", "--lines", f"{folder}/lines.csv"]
        error = run([*words, f"{folder}/points.csv"], status=1)[1]
        expect(f"{folder}/lines.csv: line 2: the segment crosses that of line 3 of "
               f"{folder}/points.csv at 2,2\n" in error, error)
    line = '{"type":"Feature","geometry":{"type":"LineString","coordinates":%s}}'
    text = ('{"type":"FeatureCollection","features":[' + line % "[[0,0],[2,2]]" + ",\n"
            + line % "[[0,2],[2,0]]" + "]}")
    error = run(["--from", "geojson", "--crossing", "refuse"], text, 1)[1]
    expect("line 2, feature 2: the segment crosses that of line 1, feature 1 at 1,1\n" in error,
           error)


# Segments a list, points a side of the grid, words, and how far a path may go from its segment.
SPLITS = [
    (80, 5, 4, ["--round", "0"], Fraction(3, 2)), (60, 9, 8, ["--round", "0"], Fraction(2)),
    (20, 20, 20, ["--round", "0"], Fraction(5, 2)), (60, 6, 9, [], Fraction(1, 10 ** 7)),
    (20, 16, 1000, [], Fraction(1, 10 ** 5)),
]


def are_joined(pairs, start, end):
    """Whether a path of these pairs leads from one position to another."""
    seen, due = {start}, [start]
    while due:
        at = due.pop()
        for pair in pairs:
            if at in pair:
                other = pair[pair[0] == at]
                if other not in seen:
                    seen.add(other)
                    due.append(other)
    return end in seen


def off_2(a, b, p):
    """The squared distance of a point from a segment."""
    way, to = (b[0] - a[0], b[1] - a[1]), (p[0] - a[0], p[1] - a[1])
    part, whole = way[0] * to[0] + way[1] * to[1], way[0] ** 2 + way[1] ** 2
    if part <= 0 or part >= whole:
        return min(distance_2(a, p), distance_2(b, p))
    return Fraction(side(a, b, p) ** 2, whole)


def check_split(text, told, ends, heights, words, reach):
    """No constraint of a mesh crosses another or goes over a vertex; a path of constraints near to
    each segment joins its ends; faces tile the hull of the points; new heights are between
    others."""
    said, error = run([*words, "--to", "obj"], text)
    points, faces = read_obj(said)
    at = [point[:2] for point in points]
    expect(at[:len(told)] == told, f"{told}: the points that there were")
    constraints = [(at[a], at[b]) for a, b in constraints_of("obj", said)]
    for (a, b), (c, d) in combinations(constraints, 2):
        crosses = side(a, b, c) * side(a, b, d) < 0 and side(c, d, a) * side(c, d, b) < 0
        expect(not crosses, f"{told}: {a} {b} crosses {c} {d}")
    expect(not any(carries(a, b, p) for a, b in constraints for p in at),
           f"{told}: a constraint over a point")
    for a, b in ends:
        near = [pair for pair in constraints if all(off_2(a, b, p) <= reach ** 2 for p in pair)]
        expect(a == b or are_joined(near, a, b), f"{told}: {a} and {b} are not joined")
    corners = [[at[k] for k in face] for face in faces]
    expect(all(side(*face) > 0 for face in corners), f"{told}: faces turn left")
    expect(sum(side(*face) for face in corners) == twice_hull(at), f"{told}: faces tile the hull")
    expect(all(min(heights) <= point[2] <= max(heights) for point in points), f"{told}: heights")
    found = re.search(r"; both are split there \((\d+) such, by at most (\S+)\)\n", error)
    expect(bool(found) == (len(at) > len(told) or "split" in error), error)
    expect(not found or Fraction(found[2]) <= reach, error)


def check_splits():
    """Random segments that cross, split: on whole numbers, and with all digits that there are."""
    for lists, count, grid, words, reach in SPLITS:
        for seed in range(lists):
            chance = random.Random(seed)
            told = [(chance.randint(0, grid), chance.randint(0, grid)) for _ in range(2 * count)]
            heights = [chance.randint(-9, 9) for _ in told]
            text = "x,y,z,line\n" + "".join(f"{x},{y},{z},{k // 2}\n" for k, ((x, y), z)
                                            in enumerate(zip(told, heights)))
            check_split(text, told, list(zip(told[::2], told[1::2])), heights, words, reach)
    text = "x,y,z,line\n0,0,0,a\n4,4,8,a\n0,4,1,b\n4,0,3,b\n1,0,5,c\n1,4,5,c\n"
    said, error = run([], text)
    told = "standard input: line 5: the segment crosses that of line 3 at 2,2; both are split there"
    expect(f"mesh: {told} (3 such, by at most 0)\n" in error, error)
    expect(read_obj(said)[0][6:] == [(2, 2, 2), (1, 1, 5), (1, 3, 5)], said)
    expect(not run(["-q"], text)[1], "--quiet")
    said = run(["-q", "--to", "node"], "x,y,line\n0,0,a\n3,1,a\n0,1,b\n3,0,b\n1,2,\n")[0]
    expect(said.splitlines()[-1] == "6 1.5 0.5", said)
    said = run(["-q", "--to", "node", "--round", "0"], "x,y,line\n0,0,a\n3,1,a\n0,1,b\n3,0,b\n")[0]
    expect(said.splitlines()[-1] == "5 2 1", said)


# A hole that a line cuts a corner off, polygons that overlap, and one that crosses itself; by
# features, and how many times the area of a unit each number has, doubled.
CROSSED_POLYGONS = [
    ([[[[0, 0], [9, 0], [9, 9], [0, 9]], [[3, 3], [6, 3], [3, 6]]]], [[2, 4], [5, 1]], {1: 153}),
    ([[[[0, 0], [6, 0], [6, 6], [0, 6]]], [[[3, 3], [9, 3], [9, 9], [3, 9]]]], [[1, 8], [8, 1]],
     {1: 72, 2: 72}),
    ([[[[0, 0], [8, 8], [8, 0], [0, 8]]]], [[-1, 2], [9, 3]], {1: 64}),
    ([[[[0, 0], [7, 0], [7, 7], [0, 7]], [[2, -1], [3, -1], [3, 8], [2, 8]]]], [[1, 1], [6, 5]],
     {1: 88}),
]


def check_polygons():
    """Faces of polygons that segments cross: their areas, by the numbers of their polygons."""
    for polygons, line, doubled in CROSSED_POLYGONS:
        features = [{"type": "Polygon", "coordinates": [ring + ring[:1] for ring in polygon]}
                    for polygon in polygons] + [{"type": "LineString", "coordinates": line}]
        text = json.dumps({"type": "FeatureCollection", "features": [
            {"type": "Feature", "properties": None, "geometry": it} for it in features]})
        for rule in "split", "skip":
            words = ["-q", "--crossing", rule, "--to", "csv", "--compact"]
            found = {}
            said = run(words, text)[0]
            faces, areas = read_table(said)
            for face, area in zip(faces, areas):
                for number in polygons_of(said)[turned(face)]:
                    found[number] = found.get(number, 0) + 2 * area
            near = all(abs(found[number] - doubled[number]) < Fraction(1, 10 ** 6)
                       for number in doubled)
            expect(found.keys() == doubled.keys() and (near or rule == "skip"), f"{text}: {found}")
            inside = read_table(run([*words, "--keep", "inside"], text)[0])[0]
            wanted = [face for face in faces if polygons_of(said)[turned(face)]]
            expect(inside == wanted, f"{text}: inside")
    layers = read_table(run(["-q", "--keep", "layers", "--to", "csv"], text)[0])[0]
    expect(layers and len(layers) >= len(inside), "layers")
    rings = "x,y,ring\n0,0,a\n4,0,a\n4,4,a\n0,4,a\n2,2,b\n6,2,b\n6,6,b\n2,6,b\n"
    said = polygons_of(run(["-q", "--to", "csv", "--keep", "inside"], rings)[0])
    expect(sorted(map(tuple, said.values())).count((1, 2)) == 2, said)


def check_compact():
    """Points that repeat others are left out, and those that are left are numbered."""
    text = "x,y,z,ring\n0,0,1,a\n0,0,2,\n4,0,3,a\n4,0,4,\n4,4,5,a\n"
    points, faces = read_obj(run(["--compact"], text)[0])
    expect(points == [(0, 0, 1), (4, 0, 3), (4, 4, 5)] and list(map(turned, faces)) == [(0, 1, 2)],
           "compact")
    expect(run(["--compact", "-q", "--to", "node"], text)[0]
           == "3 2 1 0\n1 0 0 1\n2 4 0 3\n3 4 4 5\n", "compact nodes")


def check_columns():
    """Columns that are left out, and quoted fields with line ends, quotes and commas in them."""
    text = 'x,y,note,,size\n0,0,"a\nb, c",1,\n"1",0,"d""e",2,5" pipe\n0,1,"",3,\n'
    said, error = run([], text)
    expect("mesh: left out: note, column 4, size\n" in error, error)
    points, faces = read_obj(said)
    expect(points == [(0, 0, 0), (1, 0, 0), (0, 1, 0)], said)
    expect(list(map(turned, faces)) == [turned([0, 1, 2])], said)
    expect(not run(["-q"], text)[1], "--quiet")
    expect("left out" not in run([], "y,x,z,line,ring\n0,0,0,,\n")[1], "no column is left out")
    with tempfile.TemporaryDirectory() as folder:
        for name, table in ("points.csv", text), ("lines.csv", "kind,from,to\nwall,1,2\n"):
            with open(f"{folder}/{name}", "w") as file:
                file.write(table)
        error = run(["--lines", f"{folder}/lines.csv", f"{folder}/points.csv"])[1]
    expect("mesh: left out: note, column 4, size, kind\n" in error, error)


def asking(words, option, asked, text):
    """What the program answers about points, as rows of a table, and what it tells."""
    with tempfile.NamedTemporaryFile("w", suffix=".csv") as file:
        file.write(asked)
        file.flush()
        said, error = run([*words, option, file.name], text)
    return list(csv.reader(io.StringIO(said))), error


def square(x, y, size=4):
    return [[[x, y], [x + size, y], [x + size, y + size], [x, y + size], [x, y]]]


def feature(polygon, properties):
    return {"type": "Feature", "properties": properties,
            "geometry": {"type": "Polygon", "coordinates": polygon}}


def collection(*features):
    return json.dumps({"type": "FeatureCollection", "features": features})


# two squares that overlap in another of side 2, and one beside them
STATES = [feature(square(0, 0), {"name": "Berlin", "of": [1, {"a": "}"}], "size": 12.5}),
          feature(square(2, 2), {"size": None, "name": 'B "ü"\\, x'}),
          feature(square(10, 0), None)]


def check_properties():
    """Faces have the numbers and properties of their polygons, and answers those of what they
    name."""
    text = collection(*STATES)
    first, second = ({key: value for key, value in state["properties"].items() if value is not None}
                     for state in STATES[:2])
    said, error = run(["--to", "geojson"], text)
    expect("left out" not in error, error)
    found = [one["properties"] for one in json.loads(said)["features"]
             if one["geometry"]["type"] == "Polygon"]
    expect({"polygon": 1, **first} in found and {"polygon": 2, **second} in found, said)
    expect({"polygon": [1, 2], "properties": [first, second]} in found, said)
    expect({"polygon": 3} in found and {"polygon": []} in found, said)
    expect(len({json.dumps(one) for one in found}) == 5, said)
    table = list(csv.reader(io.StringIO(run(["-q", "--to", "csv"], text)[0])))
    expect(table[0] == ["a", "b", "c", "area", "polygon", "name", "of", "size"], table)
    quoted = 'B "ü"\\, x'
    expect({tuple(row[4:]) for row in table[1:]} == {
        ("1", "Berlin", '[1, {"a": "}"}]', "12.5"), ("2", quoted, "", ""), ("3", "", "", ""),
        ("1 2", f"Berlin;{quoted}", '[1, {"a": "}"}];', "12.5;"), ("", "", "", "")}, table)
    asked = "x,y\n1,0.7\n3.1,3.3\n8,1.1\n50,50\n0,2\n11,1.3\n"
    rows, error = asking([], "--locate", asked, text)
    expect("left out" not in error and rows[0]
           == ["x", "y", "on", "a", "b", "c", "z", "polygon", "name", "of", "size"], rows)
    expect([(row[2], row[7], row[8]) for row in rows[1:]] == [
        ("face", "1", "Berlin"), ("face", "1 2", f"Berlin;{quoted}"), ("face", "", ""),
        ("outside", "", ""), ("edge", "1", "Berlin"), ("face", "3", "")], rows)
    rows, _ = asking(["-q"], "--nearest", "x,y\n1,0.7\n2.1,2.2\n", text)
    expect([(row[2], row[5]) for row in rows[1:]] == [("1", "Berlin"), ("5", quoted)], rows)
    clash = collection(feature(square(0, 0), {"polygon": "P"}))
    expect('"polygon_number":1,"polygon":"P"' in run(["-q", "--to", "geojson"], clash)[0], "a clash")
    alone = json.dumps(feature(square(0, 0), {"name": "alone"}))
    expect('"polygon":1,"name":"alone"' in run(["-q", "--to", "geojson"], alone)[0], "one feature")
    own = '{"properties":{"name":"all"},' + text[1:]
    expect(run(["-q", "--to", "csv"], own)[0] == run(["-q", "--to", "csv"], text)[0], "of all")
    sequence = "\n".join(map(json.dumps, STATES))
    expect(run(["-q", "--to", "csv"], sequence)[0] == run(["-q", "--to", "csv"], text)[0], "sequence")
    expect("left out: properties" in run([], text)[1], "properties are told where nothing has them")


def check_records():
    """Answers have the columns of the table, and faces those of their ring's first row."""
    places = 'name,x,y,note\nBerlin,0,0,"a, ""b"""\nPotsdam,4,0,\n\nRom,0,4,7\n'
    rows, error = asking([], "--nearest", "x,y\n1,0\n0,5\n", places)
    expect(rows == [["x", "y", "point", "distance", "distance_2", "name", "note"],
                    ["1", "0", "1", "1", "1", "Berlin", 'a, "b"'],
                    ["0", "5", "3", "1", "1", "Rom", "7"]] and "left out" not in error, rows)
    rows, _ = asking(["-q"], "--locate", "x,y\n4,0\n1,1\n", places)
    expect([row[2:] for row in rows[1:]] == [["point", "2", "", "", "", "Potsdam", ""],
                                            rows[2][2:6] + ["", "", ""]], rows)
    spaced = "x;y;name\n0,5;0;a b\n4;0;c\n"
    rows, _ = asking(["-q"], "--nearest", "x,y\n0,0\n", spaced)
    expect(rows[1] == ["0", "0", "1", "0.5", "0.25", "a b"], rows)
    rings = "x,y,ring,owner\n0,0,a,Ann\n4,0,a,\n4,4,a,\n6,0,b,Bo\n9,0,b,\n9,3,b,\n"
    table = list(csv.reader(io.StringIO(run(["-q", "--keep", "inside", "--to", "csv"], rings)[0])))
    expect(table[0] == ["a", "b", "c", "area", "polygon", "ring", "owner"]
           and sorted(row[3:] for row in table[1:])
           == [["4.5", "2", "b", "Bo"], ["8", "1", "a", "Ann"]], table)
    expect("left out: owner" in run([], rings)[1], "columns that no face has")
    said = json.loads(run(["-q", "--to", "geojson", "--keep", "inside"], rings)[0])["features"]
    expect({"polygon": 2, "ring": "b", "owner": "Bo"} in [one["properties"] for one in said], said)
    latin = b"x,y,name\n0,0,K\xf6ln\n1,0,b\n"
    rows, _ = asking(["-q"], "--nearest", "x,y\n0,0\n", latin)
    expect(rows[1][5] == "K\ufffdln", rows)
    back = "x,y,ring\n0,0,a\n4,0,a\n4,4,a\n6,0,b\n9,0,b\n9,3,b\n0,9,a\n4,9,a\n4,12,a\n"
    error = run([], back)[1]
    expect("line 8: the ring a ended before; this is another (1 such)" in error, error)
    expect("ended before" not in run([], rings)[1], "no ring comes back")


def check_regions():
    """Regions of a .poly file are polygons, with their attributes."""
    regions = "2\n1 1 0.7 7.5 0.1\n2 3.1 2.5 -3\n"
    text = room().poly() + regions
    said, error = run(["--from", "poly", "--to", "csv"], text)
    table = list(csv.reader(io.StringIO(said)))
    expect(table[0][3:] == ["area", "polygon", "attribute"] and "regions" not in error, error)
    found = {}
    for row in table[1:]:
        found[tuple(row[4:])] = found.get(tuple(row[4:]), 0) + Fraction(row[3])
    # the room without its holes, the first hole, and the rest: the second hole and what is outside
    expect(found == {("1", "7.5"): Fraction(96 - 4) - Fraction(9, 2), ("2", "-3"): 4,
                     ("", ""): Fraction(9, 2) + 12}, found)
    inside = run(["-q", "--from", "poly", "--to", "csv", "--keep", "inside"], text)[0]
    expect({row[4] for row in csv.reader(io.StringIO(inside))} == {"polygon", "1", "2"}, inside)
    rows, _ = asking(["-q", "--from", "poly"], "--locate", "x,y\n3.1,2.5\n0,0\n8.5,4.1\n", text)
    expect([row[7:] for row in rows[1:]] == [["2", "-3"], ["1", "7.5"], ["", ""]], rows)
    expect("left out: attributes of regions" in run(["--from", "poly"], text)[1], "regions")


def check_overlaps():
    """Overlaps of polygons and gaps between them, with their areas and places."""
    states = [feature(square(0, 0), {"name": "A"}), feature(square(2, 2), {"name": "B"}),
              feature([*square(10, 0, 8), *square(12, 2)], {"name": "C"}),
              feature(square(13, 3, 2), {"name": "D"})]
    said, error = run(["--overlaps"], collection(*states))
    rows = list(csv.reader(io.StringIO(said)))
    expect(rows[0] == ["kind", "polygon", "area", "x", "y", "name"], rows)
    # D is within the hole of C, and leaves a gap round it
    expect(sorted(row[:3] + row[5:] for row in rows[1:])
           == [["gap", "3 4", "12", "C;D"], ["overlap", "1 2", "4", "A;B"]], rows)
    for kind, numbers, _, x, y, _ in rows[1:]:
        p = Fraction(x), Fraction(y)
        found = [number for number, it in enumerate(states, 1)
                 if sum(is_within(ring[:-1], p) for ring in it["geometry"]["coordinates"]) % 2]
        expect(found == ([] if kind == "gap" else [1, 2]), f"{kind} at {p}: {found}")
    expect("mesh: 1 overlaps, 1 gaps" in error, error)
    expect(run(["-q", "--overlaps"], collection(states[0]))[0] == f"{','.join(rows[0])}\n", "one")
    expect("--overlaps: the input has no polygons" in run(["--overlaps"], "x,y\n0,0\n", 1)[1], "no")
    # squares of a board: every second one is missing, and those within are gaps
    board = "x,y,ring\n" + "".join(
        f"{x},{y},r{i}{j}\n" for i in range(7) for j in range(7) if (i + j) % 2 == 0
        for x, y in ((i, j), (i + 1, j), (i + 1, j + 1), (i, j + 1)))
    rows = list(csv.reader(io.StringIO(run(["-q", "--overlaps"], board)[0])))[1:]
    expect({(row[0], row[2], len(row[1].split())) for row in rows} == {("gap", "1", 4)}, rows)
    within = [(i, j) for i in range(1, 6) for j in range(1, 6) if (i + j) % 2]
    expect(sorted((int(float(row[3])), int(float(row[4]))) for row in rows) == within, rows)


def geometry(kind, coordinates):
    return {"type": kind, "coordinates": coordinates}


ROOM = geometry("Polygon", [[[0, 0], [9, 0], [9, 9], [0, 9], [0, 0]],
                            [[3, 3], [6, 3], [6, 6], [3, 6], [3, 3]]])
GRID = [(x, y) for y in range(3) for x in range(3)]
PARTS = """9 2 0 0
1 0 0
2 9 0
3 9 9
4 0 9
5 3 3
6 6 3
7 6 6
8 3 6
9 1 5
8 0
1 1 2
2 2 3
3 3 4
4 4 1
5 5 6
6 6 7
7 7 8
8 8 5
1
1 4 5
1
1 1 2 17 0.5
"""

# The smallest of each kind of file that people have: the words, the text, and how many vertices and
# faces come of it. With n vertices, h of them on the hull, all faces are 2 n - 2 - h.
KINDS = {
    "a coast whose ring is open":
        ([], json.dumps(geometry("Polygon", [[[0, 0], [4, 1], [5, 5], [1, 4]]])), 4, 2),
    "two countries with one border": ([], collection(
        feature(square(0, 0), {"name": "A"}), feature(square(4, 0), {"name": "B"})), 6, 4),
    "two countries that overlap": ([], collection(*STATES[:2]), 10, 12),
    "tracts with more digits than fit": ([], "x,y\n-122.419416612345678901,37.774929512345678901\n"
                                         "-122.42,37.78\n-122.41000000000000000001,37.8\n", 3, 1),
    "a building with a court": (["--keep", "inside"], json.dumps(ROOM), 8, 8),
    "a building whose court is a garden": (["--keep", "inside"], collection(
        feature(ROOM["coordinates"], None), feature(square(3, 3, 3), None)), 8, 10),
    "an elevation grid": ([], "".join(f"{x}   {y} {x + y}.5\n" for x, y in GRID), 9, 8),
    "an elevation grid without data in the middle": (["--nodata", "-9999"], "".join(
        f"{x} {y} {-9999 if (x, y) == (1, 1) else 5}\n" for x, y in GRID), 8, 6),
    "survey points with tabs": ([], "name\tx\ty\tz\na b\t0\t0\t1\nc\t4\t0\t2\nd\t0\t4\t3\n", 3, 1),
    "decimal commas": ([], "x;y;z\n0,5;0;1,25\n4,5;0;2\n0,5;4;3\n", 3, 1),
    "longitudes and latitudes": ([], "id,lat,lon\n1,52.5,13.4\n2,48.1,11.6\n3,50.9,6.9\n", 3, 1),
    "eastings in millimetres": ([], "easting,northing,height\n32500000.123,5700000.456,1.5\n"
                                "32500100.124,5700000.457,2\n32500000.125,5700100.458,3\n", 3, 1),
    "columns of other names": (["--x", "e", "--y", "n", "--z", "h"],
                               "p,n,e,h\n1,0,0,1\n2,0,4,1\n3,4,0,1\n", 3, 1),
    "no header": ([], "0,0,1\n4,0,1\n0,4,1\n4,4,2\n", 4, 2),
    "a header with a comma at its end": ([], "x,y,\n0,0,\n4,0,\n0,4,\n", 3, 1),
    "a byte order mark and other line ends": ([], "\ufeffx,y\r\n0,0\r\n4,0\r\n0,4\r\n", 3, 1),
    "contours": ([], json.dumps(geometry("MultiLineString", [
        [[0, 0, 10], [9, 1, 10]], [[0, 5, 20], [9, 6, 20]]])), 4, 2),
    "a table of geometries": ([], 'id;wkt\n1;"POLYGON((0 0,4 0,4 4,0 4,0 0))"\n2;POINT(9 9)\n', 5, 4),
    "a sequence of features": ([], "\n".join(map(json.dumps, STATES)), 14, 18),
    "a sequence with separators": ([], "".join(
        f"\x1e{json.dumps(state)}\n" for state in STATES[2:]), 4, 2),
    "a collection of geometries": ([], json.dumps({"type": "GeometryCollection", "geometries": [
        geometry("Point", [9, 9]), geometry("LineString", [[0, 0], [4, 0]]), ROOM]}), 9, 11),
    "a feature without geometry": ([], collection(
        {"type": "Feature", "geometry": None, "properties": {}}, STATES[0]), 4, 2),
    "parts of Triangle": (["--from", "poly", "--keep", "inside"], PARTS, 9, 10),
    "points of Triangle": (["--from", "node"], "3 2 1 0\n0 0 0 5\n1 4 0 5\n2 0 4 6\n", 3, 1),
    "a ring that crosses itself": ([], "x,y,ring\n0,0,a\n4,4,a\n4,0,a\n0,4,a\n", 5, 4),
    "segments that cross, touch and repeat": ([],
        "x,y,line\n0,0,a\n4,4,a\n4,0,b\n0,4,b\n0,0,c\n4,4,c\n"
                                           "2,2,d\n2,0,d\n", 6, 5),
    "a bad row": (["--skip-bad"], "x,y\n0,0\n4,0\nn/a,n/a\n0,4\n", 3, 1),
}


def check_nested():
    """Segments of one line that overlap are the subconstraints that they cover; many of them take
    time in proportion."""
    chance = random.Random(3)
    for _ in range(60):
        points = [(chance.randint(0, 9), chance.choice((0, 0, 5))) for _ in range(8)]
        segments = [(chance.randrange(8), chance.randrange(8)) for _ in range(7)]
        texts = [(f"{x}", f"{y}") for x, y in points]
        text = Drawing(texts, [(a, b) for a, b in segments if points[a][1] == points[b][1]]).poly()
        first = {}
        for place, point in enumerate(points):
            first.setdefault(point, place)
        wanted = {tuple(sorted(first[points[k]] for k in pair))
                  for pair in subconstraints(points, [(a, b) for a, b in segments
                                              if points[a][1] == points[b][1]])}
        found = constraints_of("obj", run(["--from", "poly", "-q"], text)[0])
        expect({tuple(sorted(pair)) for pair in found} == wanted, f"{text}: {found}, not {wanted}")
    times = []
    for count in 1000, 8000:
        lines = "".join(f"{count - k},0,a{k}\n{9 * count + k},0,a{k}\n" for k in range(count))
        before = resource.getrusage(resource.RUSAGE_CHILDREN).ru_utime
        error = run([], f"x,y,line\n{lines}5,7,\n")[1]
        times.append(resource.getrusage(resource.RUSAGE_CHILDREN).ru_utime - before)
        expect(f"{2 * count + 1} vertices, {2 * count - 1} faces, {2 * count - 1} constraints" in error,
               error)
    expect(times[1] < 24 * times[0] + 0.5, f"nested segments: {times}")


def check_kinds():
    """Each kind of file goes in, and has the vertices and faces that it should have."""
    for name, (words, text, vertices, faces) in KINDS.items():
        error = run(words, text)[1]
        expect(f"mesh: {vertices} vertices, {faces} faces, " in error, f"{name}: {error}")


def check_kept_answers():
    """Questions are answered for the faces that are kept."""
    room_text = room().poly()
    words = ["-q", "--from", "poly", "--keep", "layers"]
    asked = "x,y\n3.1,2.5\n0.5,0.7\n2,2\n3,2\n-1,0\n13,4.1\n15,4\n"
    rows, _ = asking(words, "--locate", asked, room_text)
    expect([row[2] for row in rows[1:]]
           == ["outside", "face", "point", "edge", "outside", "outside", "outside"], rows)
    rows, _ = asking(["-q", "--from", "poly"], "--locate", asked, room_text)
    expect([row[2] for row in rows[1:]]
           == ["face", "face", "point", "edge", "outside", "face", "point"], rows)
    way = ["--line", "1", "2.6", "5", "3.5"]
    every = run(["-q", "--from", "poly", *way], room_text)[0].splitlines()
    some = run([*words, *way], room_text)[0].splitlines()
    left = [line for line in every if line not in some]
    expect(some == [line for line in every if line not in left] and len(left) == 1, left)
    expect(set(left[0].split(",")[1:]) in ({"5", "7"}, {"6", "8"}), left)


def check_heights():
    """Points without heights beside others: they are told of, have 0 in forms that need a number,
    and give no height to what is between them and others."""
    table = "x,y,z,line\n0,0,1,\n4,0, ,a\n4,4,3,a\n0,4,,\n8,2,7,\n"
    heights = {(0, 0): 1, (4, 4): 3, (8, 2): 7}
    told = "this point has no height, though others have one: where the output needs one it is 0"
    said, error = run([], table)
    expect(f"mesh: standard input: line 3: {told} (2 such)\n" in error, error)
    points = read_obj(said)[0]
    expect(points == [(0, 0, 1), (4, 0, 0), (4, 4, 3), (0, 4, 0), (8, 2, 7)], said)
    expect(read_ply(run(["-q", "--to", "ply"], table)[0])[0] == points, "ply")
    head, rows = read_numbered(run(["-q", "--to", "node"], table)[0])
    expect(head == ["5", "2", "1", "0"] and rows[1] == ["4", "0", "0"], rows)
    corners = {tuple(corner) for feature in json.loads(run(["-q", "--to", "geojson"], table)[0])
               ["features"] if feature["geometry"]["type"] == "Polygon"
               for corner in feature["geometry"]["coordinates"][0]}
    expect(corners == {(x, y, heights[x, y]) if (x, y) in heights else (x, y)
                       for x, y, _ in points}, corners)
    rows, _ = asking(["-q"], "--locate", "x,y\n4,4\n4,0\n4,2\n6,2\n0,0\n", table)
    expect([(row[2], row[6]) for row in rows[1:]] == [
        ("point", "3"), ("point", ""), ("edge", ""), ("face", ""), ("point", "1")], rows)
    said, error = run(["--to", "node"], "x,y,z\n0,0,\n1,0,\n0,1,\n")
    expect(said.startswith("3 2 0 0\n1 0 0\n") and told not in error, "no point has a height")
    said, error = run([], '{"type":"MultiPoint","coordinates":[[0,0],\n[1,0,3],[0,1]]}')
    expect([point[2] for point in read_obj(said)[0]] == [0, 3, 0], said)
    expect(f"line 1: {told} (2 such)" in error, error)
    # a point at a crossing is between the ends of the later segment
    for ends, height in (("0,4,2,b\n4,0,4,b\n", 3), ("0,4,,b\n4,0,4,b\n", 0)):
        said, _ = run(["-q"], f"x,y,z,line\n0,0,1,a\n4,4,9,a\n{ends}")
        expect(read_obj(said)[0][4] == (2, 2, height), said)
    said, error = run(["--nodata", "-1"], "x,y,z\n0,0,5\n1,0,-1\n2,0,\n")
    expect(read_obj(said)[0] == [(0, 0, 5), (2, 0, 0)] and "1 points without data" in error, error)


def check_skipping():
    """Bad rows and features are errors, or are left out and told of."""
    table = 'x,y,note\n0,0,\n4,zero,\n4,0,"a\nb"\n0,1e999,\n5,5,6,7\n0,4,\n'
    expect("line 3: y is not a decimal number" in run([], table, 1)[1], "a bad row")
    said, error = run(["--skip-bad"], table)
    expect(read_obj(said)[0] == [(0, 0, 0), (4, 0, 0), (0, 4, 0)], said)
    for told in ("line 3: y is not a decimal number; left out", "line 6: y has more than 17 digits",
                 "line 7: the row has more or fewer fields"):
        expect(f"standard input: {told}" in error, error)
    expect(not run(["-q", "--skip-bad"], table)[1], "--quiet")
    clean = "x,y\n0,0\n4,0\n0,4\n"
    expect(run(["--skip-bad"], clean) == run([], clean), "nothing is bad")
    expect("no column named y" in run(["--skip-bad"], "x\n0\n", 1)[1], "a bad header")
    bad = feature([[[0, 0], [1, 1], [0, 0]]], None)
    text = collection(STATES[0], bad, STATES[2]).replace('{"type": "Feature"', '\n{"type": "Feature"')
    expect("line 3, feature 2: this ring has fewer than three corners" in run([], text, 1)[1], "ring")
    said, error = run(["--skip-bad", "--to", "csv", "--keep", "inside"], text)
    expect("line 3, feature 2: this ring has fewer than three corners" in error
           and "; left out\n" in error, error)
    expect({row[4] for row in csv.reader(io.StringIO(said))} == {"polygon", "1", "3"}, said)
    expect("the file ends where more of it is expected" in run(["--skip-bad"], text[:-3], 1)[1],
           "broken JSON")
    grid = "x,y,z\n0,0,5\n1,0,-9999\n2,0,6.5\n0,2,-9999.0\n1,3,7\n"
    said, error = run(["--nodata", "-9999"], grid)
    expect(read_obj(said)[0] == [(0, 0, 5), (2, 0, Fraction(13, 2)), (1, 3, 7)], said)
    expect("2 points without data are left out" in error, error)
    expect("--nodata: none is not a decimal number" in run(["--nodata", "none"], grid, 1)[1], "nodata")


# geometries as text, and what GeoJSON calls them
GEOMETRIES = [
    ("POINT (30 10)", "Point", [30, 10]), ("point z(3 1 7)", "Point", [3, 1, 7]),
    ("LINESTRING (3 1,1 3, 4 4)", "LineString", [[3, 1], [1, 3], [4, 4]]),
    ("SRID=4326;POLYGON((0 0,8 0,8 8,0 8,0 0),(1 1,1 2,2 2,1 1))", "Polygon",
     [[[0, 0], [8, 0], [8, 8], [0, 8], [0, 0]], [[1, 1], [1, 2], [2, 2], [1, 1]]]),
    ("MULTIPOINT (1 4, 4 3)", "MultiPoint", [[1, 4], [4, 3]]),
    ("MULTIPOINT ((1 4), (4 3))", "MultiPoint", [[1, 4], [4, 3]]),
    ("MULTILINESTRING ((1 1, 2 2),(4 4, 3 3.))", "MultiLineString",
     [[[1, 1], [2, 2]], [[4, 4], [3, 3.0]]]),
    ("MULTIPOLYGON (((0 0,4 0,0 4,0 0)),((9 9,9 8,8 9,9 9)))", "MultiPolygon",
     [[[[0, 0], [4, 0], [0, 4], [0, 0]]], [[[9, 9], [9, 8], [8, 9], [9, 9]]]]),
    ("POLYGON ZM ((0 0 1 5,4 0 2 6,0 4 .5 7,0 0 1 8))", "Polygon",
     [[[0, 0, 1], [4, 0, 2], [0, 4, 0.5], [0, 0, 1]]]),
    ("LINESTRING M (0 0 1,+4 -.5 2)", "LineString", [[0, 0], [4, -0.5]]),
]


def check_geometries():
    """Tables with a column of geometries are read as GeoJSON of them."""
    for text, kind, coordinates in GEOMETRIES:
        for table in f'id,WKT\n7,"{text}"\n', f'id\tWKT\n7\t{text}\n':
            shape = {"type": kind, "coordinates": coordinates}
            wanted = collection({"type": "Feature", "properties": {"id": 7}, "geometry": shape})
            for form in "obj", "geojson":
                found, error = run(["--to", form, "--keep", "layers"], table)
                named = [re.sub(r"\.0\b", "", it)
                         for it in (found, run(["-q", "--to", form, "--keep", "layers"], wanted)[0])]
                expect(named[0] == named[1], f"{table!r}: {named}")
    states = "wkt;name\nPOLYGON((0 0,4 0,4 4,0 4,0 0));Berlin\n\nPOINT EMPTY;\n;\n" \
             '"POLYGON((9 0,9 4,5 4,9 0))";"Po;ts"\n'
    rows, _ = asking(["-q"], "--locate", "x,y\n1,2\n8,3\n", states)
    expect([(row[7], row[8]) for row in rows[1:]] == [("1", "Berlin"), ("4", "Po;ts")], rows)
    rows, _ = asking(["-q"], "--nearest", "x,y\n0,0\n", b"wkt,K\xf6rper\nPOINT (0 0),K\xf6ln\n")
    expect((rows[0][5], rows[1][5]) == ("K\ufffdrper", "K\ufffdln"), rows)
    for wrong in "CURVE (0 0)", "POINT", "POINT (1)", "POINT (1 x)", "POLYGON ((0 0,1 1)", "POINT(1,)":
        table = f'wkt,a\n"POINT (0 0)",1\n"{wrong}",2\n'
        error = run([], table, 1)[1]
        expect("line 3: a point, a line or a polygon of WKT is expected" in error, error)
        said, error = run(["--skip-bad"], table)
        expect(read_obj(said)[0] == [(0, 0, 0)] and "line 3: a point, a line" in error, error)
    # some programs end the header with a separator, and no row
    for table in 'WKT,\n"POINT (1 2)"\n', 'wkt;\nPOINT (1 2);\n', 'a;wkt;;\n7;POINT (1 2);\n':
        expect(read_obj(run([], table)[0])[0] == [(1, 2, 0)], f"{table!r}")
    error = run([], 'wkt,a\nPOINT (1 2),1\nPOINT (1 2)\n', 1)[1]
    expect("line 3: the row has more or fewer fields than the first" in error, error)
    error = run([], 'wkt,a\n"POLYGON((0 0,1 1,0 0))",1\n', 1)[1]
    expect("line 2, feature 1: this ring has fewer than three corners" in error, error)


def check_degrees():
    """Degrees are told of where distances come out."""
    for text, is_told in (("lon,lat\n13.4,52.5\n", True), ("x,y\n13.4,52.5\n", False),
                          ("Longitude;Latitude\n181;0\n", False),
                          (collection(feature(square(0, 0), None)), True),
                          (collection(feature(square(0, 0), None))[:-1]
                           + ', "crs": {"type": "name", "properties": {"name": "EPSG:32632"}}}', False),
                          (collection(feature(square(300, 0), None)), False)):
        told = asking([], "--nearest", "x,y\n0,0\n", text)[1]
        line = "mesh: coordinates look like degrees: distances are in degrees\n"
        expect(told.count(line) == is_told, f"{text}: {told}")
        expect("degrees" not in run([], text)[1], text)


def check_lines_of_input():
    """Segments of a table beside points from standard input."""
    with tempfile.TemporaryDirectory() as folder:
        with open(f"{folder}/lines.csv", "w") as file:
            file.write("from,to\n1,2\n2,3\n")
        _, error = run(["--lines", f"{folder}/lines.csv"], "x,y\n0,0\n4,0\n0,4\n")
        expect("mesh: 3 vertices, 1 faces, 2 constraints" in error, error)
        _, error = run(["--lines", f"{folder}/lines.csv"], "x,y\n0,0\n4,0\n", 1)
        expect(f"{folder}/lines.csv: line 3: point 3 is used here" in error, error)
        for text in ("from;to;\n1;2;\n2;3\n", "kind\tto\tfrom\nw\t2\t1\nw\t3\t2\n", "1 2\n2 3\n",
                     "\ufeff1,2\r\n2,3\r\n"):
            with open(f"{folder}/other.csv", "w") as file:
                file.write(text)
            _, error = run(["--lines", f"{folder}/other.csv"], "x,y\n0,0\n4,0\n0,4\n")
            expect("mesh: 3 vertices, 1 faces, 2 constraints" in error, f"{text!r}: {error}")


# ---- points in holes

# A square, a constraint along a diagonal of it, and a point that is on none of its sides.
SQUARE = [("0", "0"), ("4", "0"), ("4", "4"), ("0", "4")]
SIDES = [(0, 1), (1, 2), (2, 3), (3, 0)]
WALL = [*SIDES, (0, 2)]
OUT_OF_FACES = "the hole's point is in no face: move it into the hole"
ON_SEGMENT = "the hole's point is on a segment: move it into the hole"
HOLE_FAULTS = [
    # points, segments, points in holes, and which of these is refused for what
    (SQUARE, SIDES, [("4", "4")], 0, OUT_OF_FACES),
    (SQUARE, (), [("4", "4")], 0, OUT_OF_FACES),
    (SQUARE, SIDES, [("2", "0")], 0, ON_SEGMENT),
    (SQUARE, WALL, [("2", "2")], 0, ON_SEGMENT),
    (SQUARE, WALL, [("3", "1"), ("9", "9"), ("1", "1"), ("0", "0")], 2, ON_SEGMENT),
    (SQUARE, WALL, [("3", "1"), ("0", "0"), ("1", "1")], 1, OUT_OF_FACES),
    (SQUARE, SIDES, [("2000000000", "0")], 0, "x is too far from the others"),
    ([("0", "0"), ("4", "0")], (), [("4", "0")], 0, OUT_OF_FACES),
    ([("0", "0"), ("4", "0")], [(0, 1)], [("1", "0")], 0, ON_SEGMENT),
    ([("0", "0")], (), [("1", "1")], 0, OUT_OF_FACES),
]
TAKEN_HOLES = [
    # points, segments and points in holes that are taken, and how many faces are kept
    (SQUARE, SIDES, [], 2),
    (SQUARE, SIDES, [("9", "9"), ("-1", "2")], 2),
    (SQUARE, SIDES, [("3", "1")], 0),
    (SQUARE, SIDES, [("2", "2")], 0),
    (SQUARE, WALL, [("3", "1")], 1),
    (SQUARE, WALL, [("3", "1"), ("3.5", "0.5")], 1),
    (SQUARE, WALL, [("3", "1"), ("1", "3")], 0),
    ([("0", "0"), ("4", "0")], (), [("1", "1")], 0),
    ([("0", "0"), ("4", "0")], (), [("1", "0")], 0),
]


def poly_of(points, segments, holes):
    """A drawing as .poly, and the line of the first point in a hole."""
    lines = [f"{len(points)} 2 0 0", *(f"{k} {x} {y}" for k, (x, y) in enumerate(points)),
             f"{len(segments)} 0", *(f"{k} {a} {b}" for k, (a, b) in enumerate(segments)),
             f"{len(holes)}", *(f"{k} {x} {y}" for k, (x, y) in enumerate(holes))]
    return "\n".join(lines) + "\n", len(lines) - len(holes) + 1


def check_hole_points():
    """A point in a hole is refused, with its line, where it is on a vertex, on a constraint or in
    no triangulation; in a face, on an edge that is no constraint and outside it is taken."""
    words = ["--from", "poly", "--to", "obj", "-q", "--keep", "inside"]
    for points, segments, holes, place, told in HOLE_FAULTS:
        text, first = poly_of(points, segments, holes)
        said, error = run(words, text, 1)
        expect(f"line {first + place}: {told}" in error and not said, f"{holes}: {error}")
    for points, segments, holes, count in TAKEN_HOLES:
        text, _ = poly_of(points, segments, holes)
        faces = read_obj(run(words, text)[0])[1]
        expect(len(faces) == count, f"{holes}: {len(faces)} faces, not {count}")


# ---- how numbers are spelled

# Each number in several spellings. All have at most four digits behind the point.
SPELLINGS = [
    ["0", "-0", "+0.0", ".0", "0.", "0e7", "-0E-2", "000"],
    ["7", "+7", "7.", "007.000", "0.7e1", "70E-1", "7e0", "7e+0", "7000e-3", ".0007e4"],
    ["-12.5", "-12.50", "-1.25e1", "-125E-1", "-0.125e+2", "-012.5", "-.125e2", "-1250e-02"],
    ["0.0625", ".0625", "+.0625", "625e-4", "6.25E-2", "0.00000625e4", "0000.062500"],
    ["399.9375", "3999375e-4", "3.999375e2", "+399.937500", "0.3999375E+03"],
    ["-1024", "-1.024e3", "-1024.0000", "-10240e-1", "-.01024e5", "-001024."],
]


def spelled_texts(x, y):
    """Two numbers as they are spelled, as the second of three points of each form that is read."""
    yield "csv", f"x,y\n5000,5000\n{x},{y}\n5000,-5000\n"
    yield "csv", f'y,x\n5000,5000\n"{y}", {x} \n-5000,5000\n'
    yield "node", f"3 2 0 0\n1 5000 5000\n2 {x} {y}\n3 5000 -5000\n"
    yield "poly", f"3 2 0 0\n1 5000 5000\n2 {x} {y}\n3 5000 -5000\n0 0\n0\n"
    if all(re.fullmatch(r"-?(0|[1-9]\d*)(\.\d+)?([eE][-+]?\d+)?", number) for number in (x, y)):
        yield "geojson", ('{"type":"MultiPoint","coordinates":'
                          f"[[5000,5000],[{x},{y}],[5000,-5000]]}}")


def check_spellings():
    """A number that is read is the one that its text writes: the point that is read is told at the
    place that Python's fractions tell, and one unit of the last digit beside it no point is."""
    unit = Fraction(1, 10 ** 4)
    with tempfile.TemporaryDirectory() as folder:
        path = f"{folder}/asked.csv"
        for spellings, others in zip(SPELLINGS, SPELLINGS[1:] + SPELLINGS[:1]):
            for k, x in enumerate(spellings):
                y = others[k % len(others)]
                p = Fraction(x), Fraction(y)
                asked = [p, (p[0] + unit, p[1]), (p[0], p[1] - unit)]
                with open(path, "w") as file:
                    file.write("x,y\n" + "".join(f"{float(a):.4f},{float(b):.4f}\n"
                                                 for a, b in asked))
                for form, text in spelled_texts(x, y):
                    rows = rows_of(run(["--from", form, "-q", "--nearest", path], text)[0],
                                   "x,y,point,distance,distance_2")
                    found = [(row[2], Fraction(row[4])) for row in rows]
                    expect(found == [("2", 0), ("2", unit ** 2), ("2", unit ** 2)],
                           f"{x}, {y} as {form}: {rows}")


# ---- numbers with more digits than fit

def rounded(number, digits):
    """A number rounded to so many digits behind the point, away from 0 where two are as near."""
    units = abs(number) * 10 ** digits
    return Fraction(int(units + Fraction(1, 2)), 10 ** digits) * (1 if number > 0 else -1)


def fitting(points):
    """The most digits behind the point to which numbers can be rounded and be within 2^30."""
    axes = list(zip(*points))
    for digits in range(60, -1, -1):
        units = [[rounded(number, digits) * 10 ** digits for number in axis] for axis in axes]
        if all(max(axis) - min(axis) <= 2 ** 30 and max(map(abs, axis)) <= 2 ** 62
               for axis in units):
            return digits
    return None


# Long numbers as people's programs write them, and some whose digits are cut where that decides.
LONG = [
    [("529393.498863390879706", "180.00000000000000000000000001"), ("529394", "181.5"),
     ("529500.25", "250.99999999999999999999999999")],
    [("0.1000000000000000055511151231257827021181583404541015625", "-0.5"),
     ("0.5", "1e-30"), ("0.75", "0.25000000000000000000000000000000")],
    [("-122.41941550000001", "37.77492950000000000001"), ("2.3522219000000177", "48.856614"),
     ("151.20699020000002", "-33.867486900000004")],
    [("0.049999999999999999999999999", "0.05"), ("0.95", "0.04999999999999999999999999999"),
     ("1073741823.9499999999999999999999", "7")],
    [("1.0e19", "10000000000000000001"), ("10000000000000000002", "10000000000000000007"),
     ("10000000000000000009.0000", "10000000000000000003")],
    [("10000000.50000000000000000000001", "0"), ("10000000", "1"),
     ("10000000.4999999999999999999999999", "1.000")],
]


def check_long_numbers():
    """Numbers of any length are rounded as Python's fractions tell, once, to as many digits as fit,
    which is told; `--exact` refuses them, and `--round` takes fewer digits."""
    for texts in LONG:
        points = [tuple(map(Fraction, text)) for text in texts]
        most = fitting(points)
        if most is None:
            run([], "x,y\n" + "".join(f"{x},{y}\n" for x, y in texts), 1)
            continue
        for form, text in (("csv", "x,y\n" + "".join(f"{x},{y}\n" for x, y in texts)),
                           ("node", "3 2 0 0\n" + "".join(f"{k} {x} {y}\n" for k, (x, y)
                                                          in enumerate(texts)))):
            for words, digits in [([], most)] + [(["--round", str(k)], k) for k in range(most)]:
                said, error = run(["--from", form, *words], text)
                wanted = [tuple(rounded(n, digits) for n in point) for point in points]
                expect([p[:2] for p in read_obj(said)[0]] == wanted, f"{texts}: {digits}: {said}")
                moved = [abs(a - b) for p, q in zip(points, wanted) for a, b in zip(p, q)]
                check_told_moves(texts, error, digits, moved)
            status = any(point != tuple(rounded(n, most) for n in point) for point in points)
            error = run(["--from", form, "--exact"], text, int(status))[1]
            expect(not status or f"--round {most} keeps as many as do" in error, error)


def check_told_moves(texts, error, digits, moved):
    """What is told of rounded numbers: how many, and how far they went, rounded up."""
    told = re.search(r"rounded (\d+) numbers? to (\d+) digits behind the point, by at most (\S+)\n",
                     error)
    if not told:
        expect(not any(moved), f"{texts}: {error}")
        return
    most = Fraction(told[3])
    expect(int(told[2]) == digits and int(told[1]) >= sum(map(bool, moved)), f"{texts}: {error}")
    # numbers with more than 18 digits are taken to be off by one in the last that is kept
    more = Fraction(2, 10 ** (digits + 1)) + Fraction(1, 10 ** (digits + 3))
    expect(max(moved) <= most <= max(moved) + more, f"{texts}: {error}")


FAR = ["1e9,1e9", "-12345678901.5,99999999999", "0,3000000000", "-3e9,0.25", "4.6e14,-4.6e14"]


# Tables of the same three points in other forms, and the words that they are read with.
TABLES = [
    ("x;y;z\n1,5;2,25;10\n-3;4,0;11,5\n0;0;1\n", []),
    ('"x";"y";"z"\r\n"1,5";"2,25";"10"\r\n"-3";"4,0";"11,5"\r\n"0";"0";"1"\r\n', []),
    ("x\ty\tz\n1.5\t2.25\t10\n-3\t4\t11.5\n0\t0\t1\n", []),
    ("1.5 2.25  10\n -3\t4 11.5 \n0 0 1\n", []),
    ("1.5,2.25,10\n-3,4,11.5\n0,0,1\n", []),
    ("x,y,z,\n1.5,2.25,10\n-3,4,11.5,\n0,0,1,\n", []),
    ("lon,lat,z\n1.5,2.25,10\n-3,4,11.5\n0,0,1\n", []),
    ("Longitude,Latitude,z\n1.5,2.25,10\n-3,4,11.5\n0,0,1\n", []),
    ("northing,easting,z\n2.25,1.5,10\n4,-3,11.5\n0,0,1\n", []),
    ("E;N;H;x\n1,5;2,25;10;9\n-3;4;11,5;9\n0;0;1;9\n",
     ["--x", "e", "--y", "N", "--z", "H"]),
    ("\ufeffx;y;z\n1,5;2,25;10\n-3;4;11,5\n0;0;1", []),
    ("\ufeff1.5,2.25,10\n-3,4,11.5\n0,0,1\n", []),
    ('x;y;note;z;\r\n1,5;2,25;5" pipe;10;\r\n-3;4;"a "";"" b";11,5;\r\n0;0;;1;', []),
    ('\n {"type":"MultiPoint","coordinates":[[1.5,2.25,10],[-3,4,11.5],[0,0,1]]}', []),
]
TABLE_POINTS = [(Fraction(3, 2), Fraction(9, 4), 10), (-3, 4, Fraction(23, 2)), (0, 0, 1)]

FOREIGN = [
    (b"\0\0\x27\x0a\0\0", "a Shapefile"), (b"SQLite format 3\0", "a GeoPackage"),
    (b"LASF\0\0", "a LAS file"), (b"II*\0\x08", "a GeoTIFF"), (b"MM\0*\0", "a GeoTIFF"),
    (b"  0\nSECTION\n  2\n", "a DXF file"), (b"0\r\nSECTION\r\n", "a DXF file"),
    (b"PK\3\4\0", "an archive"), (b"\x1f\x8b\x08", "a compressed file"),
    (b"<?xml version='1.0'?>", "an XML file"),
]

# What names end in, and what such a file is, of which the first bytes tell nothing.
FOREIGN_ENDINGS = [("shp", "a Shapefile"), ("GPKG", "a GeoPackage"), ("dxf", "a DXF file"),
                   ("Laz", "a LAZ file"), ("kml", "a KML file"), ("parquet", "a Parquet file")]


# A point, a closed line and a feature with a polygon, as sequences of GeoJSON in several spellings.
PARTS = [
    '{"type":"Feature","properties":{"a":"}{"},"geometry":{"type":"Point","coordinates":[5,5]}}',
    '{ "type" : "Feature", "geometry" :\n {"type":"LineString","coordinates":[[0,0],[1,0],[0,1]]}}',
    '{"properties":null,"type":"Feature","geometry":{"type":"Polygon","coordinates":'
    '[[[2,0],[4,0],[2,2],[2,0]]]}}',
]


def check_sequences():
    """Sequences of GeoJSON objects are read as collections of them, however they are parted."""
    wanted = run(["--from", "geojson"], '{"type":"FeatureCollection","features":[%s]}'
                 % ",".join(PARTS))
    for text in ("\n".join(PARTS), "\n\n".join(PARTS) + "\n", "".join(PARTS),
                 "".join(f"\x1e{part}\n" for part in PARTS)):
        for words in [], ["--from", "geojson"]:
            expect(run(words, text) == wanted, f"{text!r}")
    geometries = [json.dumps(json.loads(part)["geometry"]) for part in PARTS]
    expect(run([], "\n".join(geometries))[0] == wanted[0], "a sequence of geometries")
    # a first feature that is longer than what is looked at
    line = [[k, k * k] for k in range(3000)]
    long = json.dumps({"type": "Feature", "properties": None,
                       "geometry": {"type": "LineString", "coordinates": line}})
    points, _ = read_obj(run(["-q"], f"{long}\n{PARTS[0]}\n")[0])
    expect(len(points) == 3001, "a long feature")
    with tempfile.NamedTemporaryFile("w", suffix=".geojsonl") as file:
        file.write(PARTS[2].replace("null", '{"a":"%s"}' % ("b" * 9000)) + PARTS[1])
        file.flush()
        expect(len(read_obj(run(["-q", file.name])[0])[0]) == 6, "a name that ends in geojsonl")
    error = run([], PARTS[0] + "\n" + PARTS[1].replace("[0,1]", "[0]"), 1)[1]
    expect("line 3, feature 2: y is missing" in error, error)


def check_tables():
    """Tables of other separators, with decimal commas, without a header, with columns of other
    names; files of other programs; the lines that faults are told of."""
    for text, words in TABLES:
        said, _ = run([*words, "-"], text)
        points, faces = read_obj(said)
        expect(points == TABLE_POINTS and len(faces) == 1, f"{text!r}: {said}")
    for text, told in (("x;y\n1;2\n1;z\n", "line 3: y is not a decimal number"),
                       ("1 2\n1 z\n", "line 2: y is not a decimal number"),
                       ("1,2\n1,z\n", "line 2: y is not a decimal number"),
                       ("x;y\n1,5,2;1\n", "line 2: x is not a decimal number"),
                       ("x;y\n1;2\n1;2;3\n", "line 3: the row has more or fewer fields"),
                       ("1 2\n3\n", "line 2: the row has more or fewer fields"),
                       ("1,2,3,4\n", "line 1: the row has more or fewer fields")):
        error = run([], text, 1)[1]
        expect(told in error, f"{text!r}: {error}")
    with tempfile.NamedTemporaryFile("w", suffix=".csv") as asked:
        asked.write("lon,lat\n1,1\n")
        asked.flush()
        said, _ = run(["-q", "--x", "lon", "--y", "lat", "--z", "height", "--locate", asked.name],
                      "lat,lon,height\n0,0,1\n0,3,1\n3,0,4\n")
        row = said.splitlines()[1].split(",")
        expect((row[2], {*row[3:6]}, Fraction(row[6])) == ("face", {"1", "2", "3"}, 2),
               f"questions have no height: {said}")
    error = run([], "\ufeffeast; north;h\n1;2;3\n", 1)[1]
    expect(error.endswith("; the header is east; north;h\n"), error)
    error = run(["--x", "q"], "x,y\n", 1)[1]
    expect(error.endswith("; the header is x,y\n"), error)
    expect("line 1: no column has the name that --x gives" in error, error)
    for text, told in FOREIGN:
        error = run([], text, 1)[1]
        expect(f"standard input: this is {told}" in error and "GDAL" in error, error)
    with tempfile.TemporaryDirectory() as folder:
        for ending, told in FOREIGN_ENDINGS:
            path = f"{folder}/points.{ending}"
            with open(path, "w") as file:
                file.write("x,y\n0,0\n4,0\n0,4\n")
            error = run([path], status=1)[1]
            expect(f"{path}: this is {told}: convert it" in error, error)
            expect("\nf " in run(["--from", "csv", path])[0], f"--from of a .{ending}")
        os.rename(path, f"{folder}/points.xyz")
        expect("\nf " in run([f"{folder}/points.xyz"])[0], "an ending that is not foreign")
    big = "".join(f"{k / 4:.2f}; {k % 7},50\n" for k in range(20000)).replace(".", ",")
    points = read_obj(run(["-q"], "x;y\n" + big)[0])[0]
    expect(points == [(Fraction(k, 4), Fraction(2 * (k % 7) + 1, 2), 0) for k in range(20000)],
           "a long table of semicolons")


def check_more_forms():
    """STL, segments of .poly and OBJ, neighbours, rings that are closed, and endings of outputs."""
    text = '{"type":"Polygon","coordinates":[[[0,0],[4,0],[4,4],[0,3]],[[1,1],[2,1],[2,2],[1,1]]]}'
    said, error = run([], text)
    told = "standard input: line 1: a ring does not end where it began"
    expect(f"mesh: {told}, and is closed (1 such)\n" in error, error)
    expect(run(["--exact"], text, 1)[1] == f"mesh: {told}: repeat its first point at the end\n",
           "an open ring")
    points, faces = read_obj(said)
    constraints = {(k, (k + 1) % 4) for k in range(4)} | {(4, 5), (5, 6), (6, 4)}
    lines = {tuple(int(word) - 1 for word in line.split()[1:]) for line in said.splitlines()
             if line.startswith("l ")}
    expect({frozenset(pair) for pair in lines} == {frozenset(pair) for pair in constraints}, said)
    poly, _ = run(["-q", "--to", "poly"], text)
    again = read_obj(run(["-q", "--from", "poly"], poly)[0])
    expect(again[0] == points and {frozenset(map(int, line.split()[1:])) for line in
                                   poly.splitlines()[9:-1]}
           == {frozenset((a + 1, b + 1)) for a, b in constraints}, poly)
    facets = re.findall(r"facet normal 0 0 0\nouter loop\n((?:vertex .*\n){3})endloop\nendfacet\n",
                        run(["-q", "--to", "stl"], text)[0])
    expect([[tuple(map(Fraction, line.split()[1:])) for line in facet.splitlines()]
            for facet in facets] == [[points[k] for k in face] for face in faces], "stl")
    rows = [list(map(int, line.split()))[1:]
            for line in run(["-q", "--to", "neigh"], text)[0].splitlines()[1:]]
    for face, row in zip(faces, rows):
        for k in range(3):
            pair = {face[k - 1], face[k - 2]}
            wanted = [i for i, other in enumerate(faces, 1) if other != face and pair <= set(other)]
            expect([row[k]] == (wanted or [-1]), f"neighbours of {face}: {row}")
    with tempfile.TemporaryDirectory() as folder:
        error = run(["-o", f"{folder}/mesh.step"], "x,y\n0,0\n", 1)[1]
        told = f"{folder}/mesh.step: no form that is written has this ending"
        expect(told in error and not os.listdir(folder), error)
        os.mkdir(f"{folder}/out.d")
        run(["-q", "-o", f"{folder}/out.d/hill"], text)
        with open(f"{folder}/out.d/hill") as file:
            expect(file.read() == said, "a name without an ending, in a folder with a point")
        with open(f"{folder}/real.obj", "w") as file:
            file.write("old")
        os.chmod(f"{folder}/real.obj", 0o640)
        os.symlink("real.obj", f"{folder}/link.obj")
        run(["-q", "-o", f"{folder}/link.obj"], text)
        expect(os.path.islink(f"{folder}/link.obj"), "a link stays one")
        expect(stat.S_IMODE(os.stat(f"{folder}/real.obj").st_mode) == 0o640, "the old file's mode")
        with open(f"{folder}/real.obj") as file:
            expect(file.read() == said, "what a link leads to is written")
    with open("/dev/full", "w") as full:
        ran = subprocess.run([PROGRAM], input=text.encode(), stdout=subprocess.PIPE, stderr=full,
                             timeout=120)
    expect(ran.returncode == 0 and ran.stdout.decode() == said, "a full standard error")


def check_far_questions():
    """Points that are asked about outside the range of coordinates: they are outside, and what is
    nearest to them, and how far it is, is as Python's whole numbers tell."""
    chance = random.Random(5)
    points = [(chance.randint(-10 ** 6, 10 ** 6), chance.randint(0, 10 ** 6)) for _ in range(60)]
    points = [(x / 4, y / 4) for x, y in points]
    text = "x,y\n" + "".join(f"{x},{y}\n" for x, y in points)
    with tempfile.TemporaryDirectory() as folder:
        path = f"{folder}/asked.csv"
        with open(path, "w") as file:
            file.write("x,y\n" + "".join(f"{row}\n" for row in FAR + ["1e17,1e17"]))
        rows = rows_of(run(["-q", "--nearest", path], text)[0], "x,y,point,distance,distance_2")
        for told, row in zip(FAR, rows):
            asked = tuple(map(Fraction, told.split(",")))
            expect(row[:2] == told.split(","), f"{row}: another question")
            least = min(distance_2(asked, tuple(map(Fraction, p))) for p in points)
            at = tuple(map(Fraction, points[int(row[2]) - 1]))
            expect(Fraction(row[4]) == distance_2(asked, at) == least, f"{row} is not nearest")
            distance, half = Fraction(row[3]), Fraction(1, 2 * 10 ** 5)
            expect((distance - half) ** 2 <= least <= (distance + half) ** 2, f"{row}: how far")
        expect(rows[-1][2:] == ["too far", "", ""], f"{rows[-1]}")
        for row in rows_of(run(["-q", "--locate", path], text)[0], "x,y,on,a,b,c,z"):
            expect(row[2:] == ["outside", "", "", "", ""], f"{row} is outside")
    # just left of a drawing that is far from 0, and just below it
    text = "x,y\n" + "".join(f"{x},{y}\n" for x, y in [(10 ** 9, 10 ** 9), (10 ** 9 + 2, 10 ** 9),
                                                      (10 ** 9, 10 ** 9 + 2)])
    said = run(["-q", "--line", "999999999", "1000000001", "1000000003", "1000000000"], text)[0]
    expect(said.startswith("meets,a,b\ncrosses,"), said)
    rows, _ = asking(["-q"], "--nearest", json.dumps(geometry("MultiPoint", [[5, 5], [9, 1]])),
                     "x,y\n0,0\n6,5\n")
    expect([row[:3] for row in rows[1:]] == [["5", "5", "2"], ["9", "1", "2"]], "GeoJSON that asks")
    error = run(["-q", "--line", "1", "1", "1000000003", "1000000000"], text, 1)[1]
    expect("--line: an end is more than 2^29 units from the middle" in error, error)


# ---- questions

def rows_of(said, head):
    first, *lines = said.splitlines()
    expect(first == head, f"the header {first}")
    return [line.split(",") for line in lines]


def ask(drawing, words, asked):
    """What the program tells of points or of a way, with the drawing read as .poly, and the faces
    of the triangulation that it asked."""
    with tempfile.TemporaryDirectory() as folder:
        if asked:
            with open(f"{folder}/asked.csv", "w") as file:
                file.write("x,y\n" + "".join(f"{x},{y}\n" for x, y in asked))
            words = [*words, f"{folder}/asked.csv"]
        words = ["--from", "poly", "-q", "-o", f"{folder}/mesh.obj", *words]
        said, _ = run(words, drawing.poly())
        with open(f"{folder}/mesh.obj") as file:
            return said, {turned(face) for face in read_obj(file.read())[1]}


def check_nearest(name, drawing, asked):
    said, _ = ask(drawing, ["--nearest"], asked)
    rows = rows_of(said, "x,y,point,distance,distance_2")
    expect(len(rows) == len(asked), f"{name}: {len(rows)} answers")
    for spot, row in zip(asked, rows):
        x, y, number, distance, squared = map(Fraction, row)
        expect([x, y] == list(map(Fraction, spot)), f"{name}: another question")
        least = min(distance_2((x, y), p) for p in drawing.points)
        expect(squared == least == distance_2((x, y), drawing.points[int(number) - 1]),
               f"{name}: {row} is not nearest")
        digits = len(row[3].partition(".")[2])
        half = Fraction(1, 2 * 10 ** digits)
        expect(max(distance - half, 0) ** 2 <= least <= (distance + half) ** 2, f"{name}: {row}")


def is_mean(drawing, corners, weights, said):
    """Whether a height is the mean of those of points, rounded, if they have heights."""
    if len(drawing.texts[0]) < 3:
        return said == ""
    mean = sum(weight * Fraction(drawing.texts[k][2]) for k, weight in zip(corners, weights))
    return abs(Fraction(said) - mean / sum(weights)) <= Fraction(1, 2 * 10 ** 3)


def is_there(drawing, edges, p, kind, corners, height):
    """Whether a point is on the part that is told."""
    at = [drawing.points[k] for k in corners]
    if kind == "point":
        return at == [p] and is_mean(drawing, corners, [1], height)
    if kind == "edge":
        a, b = at
        weights = [abs(b[0] - p[0]) + abs(b[1] - p[1]), abs(a[0] - p[0]) + abs(a[1] - p[1])]
        return (tuple(sorted(corners)) in edges and carries(a, b, p)
                and is_mean(drawing, corners, weights, height))
    if kind == "face":
        weights = [side(p, at[i - 2], at[i - 1]) for i in range(3)]
        return min(weights) > 0 and is_mean(drawing, corners, weights, height)
    return kind in ("outside", "nowhere") and not corners and height == ""


def check_places(name, drawing, asked):
    """Each point is on the part of the triangulation that is told; it is told to be outside only
    where it is in no face."""
    said, faces = ask(drawing, ["--locate"], asked)
    edges = {tuple(sorted(pair)) for face in faces for pair in combinations(face, 2)}
    rows = rows_of(said, "x,y,on,a,b,c,z")
    expect(len(rows) == len(asked), f"{name}: {len(rows)} answers")
    for row in rows:
        p = Fraction(row[0]), Fraction(row[1])
        corners = [int(word) - 1 for word in row[3:6] if word]
        expect(is_there(drawing, edges, p, row[2], corners, row[6]), f"{name}: {row}")
        inside = any(is_in(*(drawing.points[k] for k in face), p) for face in faces)
        expect(inside == (row[2] != "outside"), f"{name}: {row}")
        if row[2] == "face":
            expect(turned(corners) in faces, f"{name}: {row} is no face")


def along(p, q, r):
    """How far r, on the line from p to q, is on the way."""
    way = (q[0] - p[0], q[1] - p[1])
    return Fraction((r[0] - p[0]) * way[0] + (r[1] - p[1]) * way[1], way[0] ** 2 + way[1] ** 2)


def met_at(a, b, p, q):
    """What the way from p to q has in common with the edge from a to b, less the edge's ends: a
    kind, and how far on the way it is."""
    if side(p, q, a) == side(p, q, b) == 0:
        first, last = sorted((along(p, q, a), along(p, q, b)))
        first, last = max(first, Fraction(0)), min(last, Fraction(1))
        return ("along", (first + last) / 2) if first < last else None
    if side(p, q, a) * side(p, q, b) < 0 and side(a, b, p) * side(a, b, q) <= 0:
        whole = side(a, b, p) - side(a, b, q)
        return "crosses", Fraction(side(a, b, p), 1) / whole
    return None


def check_line(name, drawing, p, q):
    """A way meets exactly these points and edges, in order."""
    answer, faces = ask(drawing, ["--line", *(f"{float(n):g}" for n in (*p, *q))], None)
    found = [(along(p, q, r), "point", (k,)) for k, r in enumerate(drawing.points)
             if r in (p, q) or carries(p, q, r)]
    for pair in {tuple(sorted(pair)) for face in faces for pair in combinations(face, 2)}:
        met = met_at(*(drawing.points[k] for k in pair), p, q)
        if met:
            found.append((met[1], met[0], pair))
    rows = rows_of(answer, "meets,a,b")
    said = [(row[0], tuple(int(word) - 1 for word in row[1:] if word)) for row in rows]
    expect([(kind, tuple(sorted(ends))) for kind, ends in said]
           == [(kind, ends) for _, kind, ends in sorted(found)], f"{name}: {said}, not {found}")
    for kind, ends in said:
        if kind == "crosses":
            a, b = (drawing.points[k] for k in ends)
            expect(side(a, b, q) > 0 or side(a, b, q) == 0 > side(a, b, p), f"{name}: a direction")
        if kind == "along":
            a, b = (drawing.points[k] for k in ends)
            expect(along(p, q, a) < along(p, q, b), f"{name}: a direction")


def check_way(name, drawing, p, q):
    """A way is a taut chain over points of the drawing, and there is none exactly where no chain
    joins its ends."""
    ends = [f"{float(n):g}" for n in (*p, *q)]
    answer, faces = ask(drawing, ["--way", *ends], None)
    rows = rows_of(answer, "x,y,point")
    way = [tuple(map(Fraction, row[:2])) for row in rows]
    points = drawing.points
    for row, point in zip(rows, way):
        expect(row[2] == "" or points[int(row[2]) - 1] == point, f"{name}: {row} is another point")
    expect(all(row[2] for row in rows[1:-1]), f"{name}: the way turns at no point of the drawing")
    sees, vertices = Sight([[points[k] for k in face] for face in faces]), set(points)
    is_joined = shortest(p, q, vertices, sees) is not None
    expect(bool(way) == is_joined, f"{name}: a way from {p} to {q}: {way}")
    wrong = fault(way, p, q, vertices, sees) if way else None
    expect(wrong is None, f"{name}: the way from {p} to {q}: {way}: {wrong}")


def check_questions(name, drawing):
    """Questions about the points themselves, means of them, and points all round."""
    chance = random.Random(11)
    known = [text[:2] for text in drawing.texts[:12]]
    means = [[f"{float((a[i] + b[i]) / 2):g}" for i in (0, 1)]
             for a, b in zip(drawing.points[:12], drawing.points[1:])]
    low, high = (f(n for p in drawing.points for n in p) for f in (min, max))
    round_all = [[f"{chance.uniform(float(low) - 1, float(high) + 1):.2f}" for _ in "xy"]
                 for _ in range(20)]
    asked = known + means + round_all
    check_nearest(name, drawing, asked)
    check_places(name, drawing, asked)
    spots = [tuple(map(Fraction, spot)) for spot in asked]
    for p, q in [*zip(spots, spots[5:]), (spots[0], spots[1]), (spots[1], spots[0])]:
        if p != q:
            check_line(name, drawing, p, q)
    if len(drawing.points) < 30:
        for p, q in zip(spots[::9], spots[5::9]):
            check_way(name, drawing, p, q)


# A hall of 9 by 9 with a constraint from below.
HALL = {"type": "Polygon", "coordinates": [
    [[0, 0], [4, 0], [4, 6], [5, 6], [5, 0], [9, 0], [9, 9.5], [0, 9], [0, 0]]]}


def check_ways_told():
    """A way round a constraint, in each form, and none."""
    text, words = json.dumps(HALL), ["--from", "geojson", "--keep", "inside", "--way"]
    said, _ = run(["-q", *words, "1", "1", "8", "1"], text)
    expect(said == "x,y,point\n1,1,\n4,6,3\n5,6,4\n8,1,\n", said)
    said, _ = run(["-q", "--to", "geojson", *words, "1", "1", "8", "1.5"], text)
    line = {"type": "LineString", "coordinates": [[1, 1], [4, 6], [5, 6], [8, 1.5]]}
    expect(json.loads(said) == {"type": "Feature", "properties": {}, "geometry": line}, said)
    said, error = run([*words, "1", "1", "4.5", "1"], text)
    expect(said == "x,y,point\n" and "mesh: there is no way from the one point" in error, error)
    said, _ = run(["-q", "--to", "geojson", *words, "1", "1", "4.5", "1"], text)
    expect(json.loads(said)["geometry"] is None, said)
    _, error = run([*words, "1", "1", "one", "1"], text, 1)
    expect("--way: x is not a decimal number" in error, error)
    _, error = run([*words, "1", "1", "1000000003", "1000000000"], text, 1)
    expect("--way: an end is more than 2^29 units from the middle" in error, error)
    run(["--line", "1", "1", "2", "2", *words, "1", "1", "2", "2"], text, 2)


ASKED_FAULTS = [
    # the points that are asked about, and what is told of three points from 0 to 4
    ("x,y\n1,1\n1e400,0\n", "line 3: x has more than 17 digits before the point, or a power"),
    ("x,y\n1,one\n", "line 2: y is not a decimal number"),
    ("x\n1\n", "line 1: there is no column named y"),
]


def check_asked_faults():
    """Points that are asked about and have no place, and questions that are none."""
    text = "x,y\n0,0\n4,0\n0,4\n"
    with tempfile.TemporaryDirectory() as folder:
        path, mesh = f"{folder}/asked.csv", f"{folder}/mesh.obj"
        for asked, told in ASKED_FAULTS:
            with open(path, "w") as file:
                file.write(asked)
            for words in ["--nearest"], ["--locate"]:
                said, error = run([*words, path], text, 1)
                expect(f"{path}: {told}" in error and not said, f"mesh {words}: {error}")
        with open(path, "w") as file:
            file.write("x,y,note\n1,0.0000000001,far\n")
        said, error = run(["--round", "1", "--nearest", path], text)
        expect(said.splitlines()[1] == "1,0.0000000001,1,1,1" and "left out: note" in error, said)
        expect(f"{path}: rounded 1 number to 1 digits behind the point, by at most 0.0001\n"
               in error, error)
        for words in ["--nearest"], ["--locate"]:
            said, error = run(["--exact", *words, path], "x,y\n0,0\n40,0\n0,4\n", 1)
            expect(not said and f"{path}: line 2: y has more digits behind the point" in error, error)
        run(["--nearest", path, "--locate", path], text, 2)
        for words, told in ["--nearest", ",,,"], ["--locate", ",nowhere,,,,"]:
            said, _ = run(["--round", "0", "-q", words, path], "x,y\n")
            expect(said.splitlines()[1:] == ["1,0.0000000001" + told], said)
        said, _ = run(["-q", "--line", "1", "1", "1", "-1", "-o", mesh], text)
        expect(said == "meets,a,b\ncrosses,2,1\n" and os.path.exists(mesh), said)
    check_ways_told()
    _, error = run(["--line", "1", "1", "one", "1"], text, 1)
    expect("--line: x is not a decimal number" in error, error)
    run(["--line", "1", "1", "1"], text, 2)
    run(["--nearest", "/nowhere/at/all.csv"], text, 1)


# ---- what is told while it works, and outputs that take nothing

def check_terminal():
    """Progress is told on a terminal, for many points, and not with --quiet."""
    text = "x,y\n" + "".join(f"{k % 400},{k // 400}\n" for k in range(120000))
    for words, is_told in ([], True), (["-q"], False):
        ours, theirs = os.openpty()
        with tempfile.TemporaryFile() as file:
            file.write(text.encode())
            file.seek(0)
            ran = subprocess.run([PROGRAM, *words, "--to", "ele"], stdin=file, stderr=theirs,
                                 stdout=subprocess.DEVNULL, timeout=120)
        os.close(theirs)
        said = b""
        try:
            while more := os.read(ours, 4096):
                said += more
        except OSError:
            pass
        os.close(ours)
        expect(ran.returncode == 0, f"a terminal: status {ran.returncode}")
        expect((b"mesh: 120000 points: triangulating" in said) == is_told, f"a terminal: {said}")
    _, error = run(["--to", "ele"], text)
    expect("triangulating" not in error and "120000 vertices" in error, error)


def limited(what, most):
    """What gives a program no more bytes than so many, of memory or of a file that it writes."""
    return lambda: resource.setrlimit(what, (most, most))


def check_outputs():
    """A full disk, a reader that has gone, and a file that may not be so large."""
    text = "x,y\n" + "".join(f"{k % 100},{k // 100}\n" for k in range(20000))
    with open("/dev/full", "w") as full:
        ran = subprocess.run([PROGRAM, "-q"], input=text.encode(), stdout=full,
                             stderr=subprocess.PIPE, timeout=120)
    expect(ran.returncode == 1 and b"standard output" in ran.stderr, f"a full disk: {ran}")
    reader, writer = os.pipe()
    os.close(reader)
    with open(writer, "w") as gone:
        ran = subprocess.run([PROGRAM, "-q"], input=text.encode(), stdout=gone,
                             stderr=subprocess.PIPE, timeout=120)
    expect(ran.returncode == 1 and b"standard output" in ran.stderr, f"no reader: {ran}")
    with tempfile.TemporaryDirectory() as folder:
        path = f"{folder}/old.obj"
        with open(path, "w") as file:
            file.write("old")
        ran = subprocess.run([PROGRAM, "-q", "-o", path], input=text.encode(), timeout=120,
                             stderr=subprocess.PIPE, restore_signals=False,
                             preexec_fn=limited(resource.RLIMIT_FSIZE, 4096))
        with open(path) as file:
            expect(ran.returncode == 1 and file.read() == "old", f"a refused write: {ran}")
        expect(os.listdir(folder) == ["old.obj"], "a refused write leaves nothing")


def check_long_lines():
    """A line of a gigabyte is refused, and is not kept in memory."""
    chunk = b"1" * 2**20
    for words, start, told in (([], b"x,y\n", "line 2: this line or row is too long: at most 65536"),
                               ([], b'x,y\n0,"', "line 2: the quoted field that begins here does"),
                               (["--from", "node"], b"1 2 0 0\n1 ", "line 2: this line or row")):
        with subprocess.Popen([PROGRAM, *words], bufsize=0, stdin=subprocess.PIPE,
                              stdout=subprocess.DEVNULL, stderr=subprocess.PIPE,
                              preexec_fn=limited(resource.RLIMIT_AS, 2**27)) as ran:
            try:
                ran.stdin.write(start)
                for _ in range(1024):
                    ran.stdin.write(chunk)
            except BrokenPipeError:
                pass
            ran.stdin.close()
            error = ran.stderr.read().decode()
        expect(ran.returncode == 1 and told in error, f"a long line: {error}")


def check_pipe():
    """A pipe with a name is written to itself, and stays."""
    text = "x,y\n0,0\n4,0\n0,4\n"
    with tempfile.TemporaryDirectory() as folder:
        path = f"{folder}/mesh.obj"
        os.mkfifo(path)
        reader = os.open(path, os.O_RDONLY | os.O_NONBLOCK)
        run(["-q", "-o", path], text)
        said = os.read(reader, 4096).decode()
        os.close(reader)
        expect(said == run(["-q"], text)[0], f"a pipe: {said}")
        expect(os.listdir(folder) == ["mesh.obj"], "a pipe has nothing beside it")
        expect(stat.S_ISFIFO(os.stat(path).st_mode), "a pipe stays one")


def main():
    drawings = survey, hundred, room, manual, cut
    for drawing in drawings:
        check(drawing.__name__, drawing())
        check_questions(drawing.__name__, drawing())
    check_geojson()
    check_faults()
    check_choices()
    check_crossings()
    check_splits()
    check_polygons()
    check_compact()
    check_properties()
    check_records()
    check_regions()
    check_overlaps()
    check_nested()
    check_kinds()
    check_kept_answers()
    check_heights()
    check_skipping()
    check_geometries()
    check_degrees()
    check_hole_points()
    check_spellings()
    check_long_numbers()
    check_sequences()
    check_tables()
    check_more_forms()
    check_far_questions()
    check_lines_of_input()
    check_asked_faults()
    check_by_meshio()
    check_terminal()
    check_outputs()
    check_long_lines()
    check_pipe()
    count = sum(map(len, (FAULTS, GEOJSON_FAULTS, ASKED_FAULTS, HOLE_FAULTS)))
    print(f"{len(drawings) + 2} drawings in 7 forms, and {count} faults")


main()
