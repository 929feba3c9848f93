"""Points, segments and circles, and which edges a Delaunay triangulation of few points has, found
by trying all. Numbers are exact."""
from fractions import Fraction
from itertools import combinations, product


def side(a, b, c):
    """Positive where c is left of the line from a to b, 0 where it is on it."""
    return (b[0] - a[0]) * (c[1] - a[1]) - (b[1] - a[1]) * (c[0] - a[0])


def in_circle(a, b, c, d):
    """Positive inside the circle of a triple that turns left, 0 on it."""
    rows = [(x - d[0], y - d[1], (x - d[0]) ** 2 + (y - d[1]) ** 2) for x, y in (a, b, c)]
    (p, q, r), (s, t, u), (v, w, z) = rows
    return p * (t * z - u * w) - q * (s * z - u * v) + r * (s * w - t * v)


def distance_2(a, b):
    return (a[0] - b[0]) ** 2 + (a[1] - b[1]) ** 2


def carries(a, b, p):
    """Whether p is on the segment from a to b, and none of its ends."""
    between = (a[0] - p[0]) * (b[0] - p[0]) + (a[1] - p[1]) * (b[1] - p[1]) < 0
    return side(a, b, p) == 0 and between


def cross(a, b, c, d):
    """Whether two segments meet in one point that is within both."""
    return side(a, b, c) * side(a, b, d) < 0 and side(c, d, a) * side(c, d, b) < 0


def is_inside(a, b, c, p):
    """Whether p is strictly inside a triple that turns left."""
    return side(a, b, p) > 0 and side(b, c, p) > 0 and side(c, a, p) > 0


def are_on_line(points):
    return all(side(points[0], points[1], p) == 0 for p in points[2:])


def twice_hull(points):
    """Twice the area of the convex hull."""
    total = 0
    for ordered in sorted(points), sorted(points, reverse=True):
        chain = []
        for p in ordered:
            while len(chain) > 1 and side(chain[-2], chain[-1], p) <= 0:
                chain.pop()
            chain.append(p)
        total += sum(a[0] * b[1] - a[1] * b[0] for a, b in zip(chain, chain[1:]))
    return total


def worst_circle(points, constraints, a, b):
    """Positive where every circle through a and b has a point inside that is seen from them, 0
    where one has one on it."""
    seen = [p for p in points if not any(cross(p, q, *it) for it in constraints for q in (a, b))]
    left = [p for p in seen if side(a, b, p) > 0]
    right = [p for p in seen if side(a, b, p) < 0]
    worst = -1
    for p, q in product(left, right):
        worst = max(worst, in_circle(a, b, p, q))
        if worst > 0:
            break
    return worst


def sure_and_open(points, constraints):
    """The edges that any triangulation has, and those that it may have, as pairs of indexes."""
    walls = [(points[i], points[j]) for i, j in constraints]
    sure, open_ones = set(constraints), []
    is_line = are_on_line(points)
    for i, j in combinations(range(len(points)), 2):
        a, b = points[i], points[j]
        if any(carries(a, b, p) for p in points) or any(cross(a, b, *wall) for wall in walls):
            continue
        worst = -1 if is_line else worst_circle(points, walls, a, b)
        if worst < 0:
            sure.add((i, j))
        elif worst == 0:
            open_ones.append((i, j))
    return sure, open_ones


def edges_of(points, constraints, listed):
    """The edges as pairs of indexes; of two diagonals that are open, the listed one."""
    sure, open_ones = sure_and_open(points, constraints)
    for i, j in sorted(open_ones, key=lambda edge: edge not in listed):
        if not any(cross(points[i], points[j], points[k], points[m]) for k, m in sure):
            sure.add((i, j))
    return sorted(sure)


def faces_of(points, edges):
    """Triples that are joined with no point within, from the least index on and turning left."""
    edges = set(edges)
    for i, j, k in combinations(range(len(points)), 3):
        turn = side(points[i], points[j], points[k])
        if turn and {(i, j), (j, k), (i, k)} <= edges:
            face = (i, j, k) if turn > 0 else (i, k, j)
            if not any(is_inside(*(points[c] for c in face), p) for p in points):
                yield face


# A left or bottom side of a box below 0 by so much is nowhere, and so is a right or top one of one
# less.
NOWHERE = 2**31


def passes(a, b, c, box):
    """Whether the closed disk of three points' circle has a point beyond a side of a box: its left,
    bottom, right and top."""
    (ux, uy), (vx, vy) = ((p[0] - a[0], p[1] - a[1]) for p in (b, c))
    twice = 2 * (ux * vy - uy * vx)
    u, v = ux * ux + uy * uy, vx * vx + vy * vy
    way = (Fraction(vy * u - uy * v, twice), Fraction(ux * v - vx * u, twice))
    radius_2 = way[0] ** 2 + way[1] ** 2
    for k, side_at in enumerate(box):
        if side_at == (-NOWHERE if k < 2 else NOWHERE - 1):
            continue
        inwards = (a[k % 2] + way[k % 2] - side_at) * (1 if k < 2 else -1)
        if inwards < 0 or inwards**2 < radius_2:
            return True
    return False


def meets_circle(a, b, center, radius_2):
    """Whether a segment has a point in a circle or on it."""
    way = (b[0] - a[0], b[1] - a[1])
    length_2 = way[0] ** 2 + way[1] ** 2
    factor = (center[0] - a[0]) * way[0] + (center[1] - a[1]) * way[1]
    part = max(Fraction(0), min(Fraction(1), Fraction(factor, length_2))) if length_2 else 0
    nearest = [a[k] + part * way[k] for k in (0, 1)]
    return sum((nearest[k] - center[k]) ** 2 for k in (0, 1)) <= radius_2


def meets_rectangle(a, b, lower, upper):
    """Whether a segment has a point in a rectangle or on its border."""
    first, last = Fraction(0), Fraction(1)
    for k in (0, 1):
        way = b[k] - a[k]
        if lower[k] > upper[k] or way == 0 and not lower[k] <= a[k] <= upper[k]:
            return False
        if way != 0:
            parts = sorted((Fraction(lower[k] - a[k], way), Fraction(upper[k] - a[k], way)))
            first, last = max(first, parts[0]), min(last, parts[1])
    return first <= last


def progress(s, e, p):
    """Which part of the way from s to e has been done at p."""
    way = (e[0] - s[0], e[1] - s[1])
    return Fraction((p[0] - s[0]) * way[0] + (p[1] - s[1]) * way[1], way[0] ** 2 + way[1] ** 2)


def met_of_edge(s, e, points, i, j):
    """Where the segment from s to e begins to meet an edge, and how, or nothing."""
    a, b = points[i], points[j]
    first, second = side(s, e, a), side(s, e, b)
    if first == 0 and second == 0:
        (begin, i), (end, j) = sorted([(progress(s, e, a), i), (progress(s, e, b), j)])
        return (max(begin, Fraction(0)), 1, ("o", i, j)) if end > 0 and begin < 1 else None
    if first * second >= 0:
        return None
    start, end = side(a, b, s), side(a, b, e)
    if start * end > 0:
        return None
    along = end > 0 or end == 0 and start < 0
    return Fraction(start, start - end), 0, ("e", i, j) if along else ("e", j, i)


def met_by_segment(s, e, points, edges):
    """What a segment meets, in its order: vertices ("v", index), edges that it crosses or touches
    ("e", from, to) and edges that it runs along ("o", from, to)."""
    if s == e:
        if s in points:
            return [("v", points.index(s))]
        return [("o", i, j) for i, j in edges if carries(points[i], points[j], s)]
    found = [
        (progress(s, e, p), 0, ("v", i))
        for i, p in enumerate(points)
        if side(s, e, p) == 0 and 0 <= progress(s, e, p) <= 1
    ]
    found += [it for it in (met_of_edge(s, e, points, i, j) for i, j in edges) if it]
    return [it[2] for it in sorted(found)]
