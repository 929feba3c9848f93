#!/usr/bin/env python3
"""checks/examples.py [PROGRAM]: works out what crates/examples has to print, and compares that with
what the program prints.

PROGRAM is crates/examples as the gate has built it. No triangulation is used: faces are the triples
whose circle has no further point in it or on it, found by trying all; the hull's points are those
on a line that has all others on one side; counts follow from Euler's formula; the nearest is found
by all distances. Numbers are exact. The points are read from the examples' sources.
"""
import ast
import os
import re
import subprocess
import sys
from fractions import Fraction
from itertools import combinations

from model.geometry import cross, distance_2, in_circle, side
from project import ROOT

CRATE = f"{ROOT}/crates/examples"


def constant(file, name):
    source = open(f"{CRATE}/src/{file}.rt").read()
    found = re.search(rf"const {name}: [^=]* = ([\[(].*?[\])]);", source, re.S)
    return ast.literal_eval(found.group(1))


def faces(points):
    for a, b, c in combinations(points, 3):
        if side(a, b, c) < 0:
            b, c = c, b
        if side(a, b, c) > 0:
            tests = [in_circle(a, b, c, d) for d in points if d not in (a, b, c)]
            if all(test < 0 for test in tests):
                yield a, b, c


def hull_size(points):
    on_hull = set()
    for a, b in combinations(points, 2):
        sides = [side(a, b, c) for c in points]
        if min(sides) >= 0 or max(sides) <= 0:
            on_hull |= {a, b}
    return len(on_hull)


def nearest(names, points, place):
    """The name of the nearest point, which has to be the only one."""
    ways = sorted((distance_2(p, place), name) for name, p in zip(names, points))
    assert ways[0][0] < ways[1][0]
    return ways[0][1]


def hill():
    points = [(0, 0), (120, 35), (-80, 140), (-150, -60)]
    n, k = len(points), hull_size(points)
    yield f"{3 * n - 3 - k} edges"
    camp, start, fence = (70, 110), (-100, 20), {(0, 0), (-80, 140)}
    yield f"nearest to the camp: vertex {nearest(range(n), points, camp)}"
    # One point lies within the triangle of the others, so each two are joined, with the fence too.
    assert 3 * n - 3 - k == n * (n - 1) // 2
    crossed = [e for e in combinations(points, 2) if cross(*e, start, camp)]

    def reached(edge):
        return Fraction(side(*edge, start), side(*edge, start) - side(*edge, camp))

    for ends in sorted(crossed, key=reached):
        yield f"the path crosses an edge, fence: {'true' if set(ends) == fence else 'false'}"


def report(heights):
    points = list(heights)
    n, k, triples = len(points), hull_size(points), list(faces(points))
    # Where each face is one of these triples, no other triangulation is right.
    assert len(triples) == 2 * n - 2 - k
    yield f"{n} posts, {3 * n - 3 - k} edges, {2 * n - 2 - k} faces, {k} edges round them"
    for p in constant("terrain", "WALKERS"):
        corners = set()
        for a, b, c in triples:
            sides = [side(a, b, p), side(b, c, p), side(c, a, p)]
            if min(sides) >= 0:
                ends = {(0,): {a, b}, (1,): {b, c}, (2,): {c, a}}
                corners = ends.get(tuple(i for i in range(3) if sides[i] == 0), {a, b, c})
        corners = {p} if p in heights else corners
        metres = [heights[corner] for corner in corners]
        place = f"{min(metres)} to {max(metres)} m" if metres else "outside"
        yield f"walker at {p[0]} {p[1]}: {place}"


def terrain():
    rows = constant("terrain", "HEIGHTS")
    posts = {(100 * c + 50 * (r % 2), 100 * r): (c, r) for r in range(7) for c in range(7)}
    for cloud in True, False:
        seen = {p: at for p, at in posts.items() if not cloud or {*at} - {2, 3, 4}}
        yield from report({p: rows[r][c] for p, (c, r) in seen.items()})


def facilities():
    stations = {name: (x, y) for name, x, y in constant("facilities", "STATIONS")}
    yield f"{len(stations)} stations"
    for closed in None, "Vineyard":
        if stations.pop(closed, None):
            yield f"{closed} closes"
        for fire in constant("facilities", "FIRES"):
            yield f"fire at {fire[0]} {fire[1]}: {nearest(stations, stations.values(), fire)}"


def sides(a, b, c, d):
    """On which sides of a line a, b two points are, as a product: negative where it parts them."""
    return side(a, b, c) * side(a, b, d)


def enters(p, q, pillar):
    """Whether a segment has a point strictly inside a rectangle: clipped by it, some is left."""
    first, last = Fraction(0), Fraction(1)
    for k in (0, 1):
        lower, upper, way = pillar[k], pillar[k + 2], q[k] - p[k]
        if way == 0 and not lower < p[k] < upper:
            return False
        if way != 0:
            parts = sorted((Fraction(lower - p[k], way), Fraction(upper - p[k], way)))
            first, last = max(first, parts[0]), min(last, parts[1])
    return first < last


def walls_seen(hall):
    """Whether the segment of each guard meets a wall in one point strictly within the wall, or
    enters a pillar."""
    for a, b, c, d in constant("navigation", "GUARDS"):
        p, q = (a, b), (c, d)
        met = any(sides(p, q, *wall) < 0 and sides(*wall, p, q) <= 0 for wall in hall)
        met = met or any(enters(p, q, pillar) for pillar in constant("navigation", "PILLARS"))
        yield f"{a} {b} {'does not see' if met else 'sees'} {c} {d}"


def navigation():
    points, hall = set(constant("navigation", "CORNERS")), []
    for w, s, e, n in constant("navigation", "PILLARS"):
        ring = [(w, s), (e, s), (e, n), (w, n)]
        points |= set(ring)
        hall += zip(ring, ring[1:] + ring[:1])
    for a, b, c, d in constant("navigation", "WALLS"):
        wall = (a, b), (c, d)
        points |= set(wall)
        crossed = any(sides(*wall, *other) < 0 and sides(*other, *wall) < 0 for other in hall)
        hall += [] if crossed else [wall]
        yield f"wall from {a} {b} to {c} {d}: {'not built' if crossed else 'built'}"
    # No corner is within a wall, so each is one constraint.
    on = [p for p in points for a, b in hall if side(a, b, p) == 0 and min(a, b) < p < max(a, b)]
    assert not on
    yield f"{2 * len(points) - 2 - hull_size(list(points))} faces, {len(hall)} constraints"
    yield from walls_seen(hall)
    x, y = constant("navigation", "TAKEN")
    hall = [(a, b) for a, b in hall if side(a, b, (x, y)) or not min(a, b) < (x, y) < max(a, b)]
    yield f"wall at {x} {y}: taken down"
    yield from walls_seen(hall)


def around(triples, p):
    """The face that has a place strictly inside it."""
    (found,) = [set(t) for t in triples if all(side(t[i], t[(i + 1) % 3], p) > 0 for i in range(3))]
    return found


def parcels():
    stones, lost = constant("parcels", "STONES"), constant("parcels", "LOST")
    owners = constant("parcels", "OWNERS")
    sold = [(name, around(faces(stones), (x, y))) for name, x, y in owners]
    for gone in None, lost:
        kept = [p for p in stones if p != gone]
        triples = list(faces(kept))
        assert len(triples) == 2 * len(kept) - 2 - hull_size(kept)
        if gone:
            yield f"the stone at {gone[0]} {gone[1]} is lost"
        yield f"{len(triples)} parcels"
        for _, x, y in owners:
            here = around(triples, (x, y))
            names = [name for name, face in sold if face == here]
            yield f"parcel at {x} {y}: " + (names[0] if names else "nobody's")


def crosses(wall, other):
    return sides(*wall, *other) < 0 and sides(*other, *wall) < 0


def walls():
    corners, built = constant("walls", "CORNERS"), []
    for i, j in constant("walls", "WALLS"):
        wall = corners[i], corners[j]
        # No corner is within a wall, so each is one constraint.
        assert not any(side(*wall, p) == 0 and min(wall) < p < max(wall) for p in corners)
        crossed = any(crosses(wall, other) for other in built)
        built += [] if crossed else [wall]
        yield f"wall from corner {i} to corner {j}: {'not built' if crossed else 'built'}"
    yield f"{len(built)} walls"
    edges = {tuple(sorted(ends)) for t in faces(corners) for ends in combinations(t, 2)}
    # All edges of the only Delaunay triangulation, and each wall is one, so no other has the walls.
    assert len(edges) == 3 * len(corners) - 3 - hull_size(corners)
    walls = [tuple(sorted(wall)) for wall in built]
    assert edges.issuperset(walls)
    for a, b, c, d in constant("walls", "WAYS"):
        p, q = (a, b), (c, d)
        yield f"from {a} {b} to {c} {d}:"
        yield from met_by(p, q, corners, edges)
        yield "the way ends: true"
        for line in met_by(p, q, corners, walls):
            if line.startswith("across"):
                yield line.replace("across", "through wall")
        yield "no wall is left: true"


def part_to(p, q, x):
    """Which part of the segment from p to q lies before a point on it."""
    return Fraction((q[0] - p[0]) * (x[0] - p[0]) + (q[1] - p[1]) * (x[1] - p[1]), distance_2(p, q))


def met_by(p, q, points, edges):
    """What the segment from p to q meets, which ends on no edge but at a corner, in order."""
    met = [(part_to(p, q, x), f"at {points.index(x)}") for x in points if is_within((p, q), x)]
    for a, b in edges:
        assert not any(is_within((a, b), x) for x in (p, q) if x not in (a, b))
        if is_within((p, q), a) and is_within((p, q), b):
            ends = sorted((part_to(p, q, x), points.index(x)) for x in (a, b))
            met.append(((ends[0][0] + ends[1][0]) / 2, f"along {ends[0][1]} {ends[1][1]}"))
        elif crosses((a, b), (p, q)):
            start, end = (a, b) if side(a, b, q) > 0 else (b, a)
            part = Fraction(side(a, b, p), side(a, b, p) - side(a, b, q))
            met.append((part, f"across {points.index(start)} {points.index(end)}"))
    return [line for _, line in sorted(met)]


def tolls():
    # What was written is read. Four towns have five roads and two fields.
    for _ in "plain", "walled":
        yield from ("the toll is 7", "a lane takes 5", "the rent is 40")


def reached(centre, reach_2, a, b):
    """Whether a point of a closed segment is in a closed circle."""
    way, to = (b[0] - a[0], b[1] - a[1]), (centre[0] - a[0], centre[1] - a[1])
    part = Fraction(way[0] * to[0] + way[1] * to[1], way[0] ** 2 + way[1] ** 2)
    part = min(max(part, 0), 1)
    return (to[0] - part * way[0]) ** 2 + (to[1] - part * way[1]) ** 2 <= reach_2


def harbour():
    buoys, centre = constant("harbour", "BUOYS"), constant("harbour", "LIGHTHOUSE")
    (reach_2,) = re.findall(r"REACH_2: i64 = (\d+);", open(f"{CRATE}/src/harbour.rt").read())
    reach_2, basin = int(reach_2), constant("harbour", "BASIN")
    triples = [set(t) for t in faces(buoys)]
    assert len(triples) == 2 * len(buoys) - 2 - hull_size(buoys)
    yield f"{len(triples)} areas, corners sum to {sum(buoys.index(p) for t in triples for p in t)}"
    yield f"{hull_size(buoys)} sides come from far away"
    for i, j in constant("harbour", "FAIRWAYS"):
        if any({buoys[i], buoys[j]} <= t for t in triples):
            lit = reached(centre, reach_2, buoys[i], buoys[j])
            yield f"fairway from {i} to {j}, lit: {'true' if lit else 'false'}"
        else:
            yield f"no fairway from {i} to {j}"
    for x, y in constant("harbour", "SHIPS"):
        light = (x - centre[0]) ** 2 + (y - centre[1]) ** 2 - reach_2
        off = (x - min(max(x, basin[0]), basin[2]), y - min(max(y, basin[1]), basin[3]))
        yield f"ship at {x} {y}: {light} past the light, {off[0] ** 2 + off[1] ** 2} past the basin"
        if reached(centre, reach_2, (x, y), (0, 0)):
            yield "its way to the pier is lit"
        if (x, y) in buoys:
            yield f"it is at buoy {buoys.index((x, y))}"
        before = [(a, b) for a in buoys for b in buoys if a != b and side(a, b, (x, y)) < 0]
        outer = [[side(a, b, p) for p in buoys] for a, b in before]
        if any(min(around) >= 0 for around in outer):
            yield "it is off the chart: true"


def is_inside(ring, p):
    """Whether a place is strictly inside a convex ring that goes counterclockwise."""
    return all(side(a, b, p) > 0 for a, b in zip(ring, ring[1:] + ring[:1]))


def is_within(wall, p):
    a, b = wall
    return side(a, b, p) == 0 and min(a, b) <= p <= max(a, b)


def castle():
    """The rings are nested, so a place is behind those that it is inside of and that are closed. A
    hedge closes nothing."""
    rings, breach = constant("castle", "RINGS"), constant("castle", "BREACH")
    a, b, c, d = constant("castle", "HEDGE")
    walls = [wall for ring in rings for wall in zip(ring, ring[1:] + ring[:1])] + [((a, b), (c, d))]
    points = set(constant("castle", "FIELDS")).union(*walls)
    assert not any(is_within(wall, p) and p not in wall for wall in walls for p in points)
    yield f"{2 * len(points) - 2 - hull_size(list(points))} faces, {len(walls)} walls"
    for broken in None, breach:
        if broken:
            yield f"the wall at {broken[0]} {broken[1]} is breached"
        open_ones = [wall for wall in walls if broken and is_within(wall, broken)]
        sides_of = [(ring, list(zip(ring, ring[1:] + ring[:1]))) for ring in rings]
        closed = [ring for ring, of_it in sides_of if not set(of_it) & set(open_ones)]
        for name, x, y in constant("castle", "PLACES"):
            if any(is_within(wall, (x, y)) for wall in walls if wall not in open_ones):
                yield f"{name} is on a wall"
            else:
                yield f"walls before {name}: {sum(is_inside(ring, (x, y)) for ring in closed)}"


EXAMPLES = hill, terrain, facilities, navigation, parcels, walls, tolls, harbour, castle


def main(words):
    lines, asked = [], ""
    for example in EXAMPLES:
        lines += [f"# {example.__name__}", *example()]
        asked += f"{example.__name__}\n"
    program = os.path.realpath(words[0] if words else f"{CRATE}/out/examples")
    how = {"input": asked, "stdout": subprocess.PIPE, "text": True, "check": True}
    said = subprocess.run([program], **how).stdout.splitlines()
    for wanted, line in zip(lines, said):
        if wanted != line:
            sys.exit(f"said: {line}\nwanted: {wanted}")
    if len(lines) != len(said):
        sys.exit("it said another number of lines")
    print(f"{len(lines)} lines agree")


main(sys.argv[1:])
