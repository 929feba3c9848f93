#!/usr/bin/env python3
"""checks/snap.py PROGRAM [TIMES]: has test_parts join random lists of segments that cross, and looks
that none crosses afterwards, that a path of constraints joins the ends of each, and how far paths go.
TIMES makes so many times as many lists: 11 are more than 10^5.

Points are whole numbers on small grids, so that many segments cross, touch, overlap and repeat.
What comes out is judged by brute force over all pairs of constraints, in whole numbers.
"""
import random
import subprocess
import sys
from collections import defaultdict
from fractions import Fraction

# Lists, segments a list, points a side of the grid, and the farthest that a path may go: units.
KINDS = [
    (6000, 6, 5, Fraction(3, 2)),
    (3000, 12, 9, Fraction(2)),
    (500, 25, 20, Fraction(5, 2)),
    (300, 25, 200, Fraction(5, 2)),
    (100, 20, 2**30, Fraction(5, 2)),
]
STEPS = 100_000


def turn(a, b, c):
    return (b[0] - a[0]) * (c[1] - a[1]) - (b[1] - a[1]) * (c[0] - a[0])


def sign(number):
    return (number > 0) - (number < 0)


def crosses(a, b, c, d):
    """Whether two segments have one point in common, strictly within both."""
    return (sign(turn(a, b, c)) * sign(turn(a, b, d)) < 0
            and sign(turn(c, d, a)) * sign(turn(c, d, b)) < 0)


def are_joined(start, end, neighbours):
    """Whether a path of constraints leads from one point to another."""
    seen, left = {start}, [start]
    while left:
        for point in neighbours[left.pop()]:
            if point not in seen:
                seen.add(point)
                left.append(point)
    return end in seen


def distance_2(point, start, end):
    """The squared distance of a point from a segment."""
    way = (end[0] - start[0], end[1] - start[1])
    to = (point[0] - start[0], point[1] - start[1])
    length_2, along = way[0] ** 2 + way[1] ** 2, way[0] * to[0] + way[1] * to[1]
    if along <= 0 or not length_2:
        return Fraction(to[0] ** 2 + to[1] ** 2)
    if along >= length_2:
        return Fraction((point[0] - end[0]) ** 2 + (point[1] - end[1]) ** 2)
    return Fraction(turn(start, end, point) ** 2, length_2)


def nearest_path_2(start, end, neighbours):
    """Of the paths of constraints from one point to another, the least that one goes from the
    straight segment at most, squared."""
    far = {start: Fraction(0)}
    left = [start]
    while left:
        left.sort(key=lambda it: far[it], reverse=True)
        here = left.pop()
        if here == end:
            return far[here]
        for point in neighbours[here]:
            to = max(far[here], distance_2(point, start, end))
            if point not in far or to < far[point]:
                far[point] = to
                left.append(point)
    return None


def lists(times):
    """Each list of segments, with the farthest that its paths may go."""
    chance = random.Random(20261201)
    for count, many, side, most in KINDS:
        shift = side // 2
        point = lambda: (chance.randrange(side) - shift, chance.randrange(side) - shift)
        for _ in range(times * count):
            yield [(point(), point()) for _ in range(many)], most


def faults(segments, most, head, constraints):
    """What is wrong with what came of a list, if anything is, and how far its paths go, squared."""
    if not head.startswith("Ok(())"):
        return f"it gave {head}", 0
    for at, (a, b) in enumerate(constraints):
        if any(crosses(a, b, c, d) for c, d in constraints[:at]):
            return "two constraints cross", 0
    neighbours = defaultdict(list)
    for a, b in constraints:
        neighbours[a].append(b)
        neighbours[b].append(a)
    far_2 = 0
    for start, end in segments:
        path_2 = nearest_path_2(start, end, neighbours)
        if path_2 is None:
            return f"no path joins {start} and {end}", 0
        far_2 = max(far_2, path_2)
    if far_2 > most**2:
        return f"a path goes {float(far_2) ** 0.5:.2f} units from its segment", far_2
    return None, far_2


def main(program, times=1):
    given = list(lists(int(times)))
    text = "".join(
        f"{STEPS} " + " ".join(f"{a} {b} {c} {d}" for (a, b), (c, d) in segments) + "\n"
        for segments, _ in given
    )
    ran = subprocess.run([program], input=text, capture_output=True, text=True,
                         timeout=1200 * int(times))
    if ran.returncode:
        sys.exit(f"the program gave {ran.returncode}: {ran.stderr}")
    rows, wrong, farthest = iter(ran.stdout.splitlines()), 0, defaultdict(float)
    splits = 0
    for segments, most in given:
        head = next(rows)
        count = int(head.split()[-1])
        ends = [[int(it) for it in next(rows).split()] for _ in range(count)]
        constraints = [((a, b), (c, d)) for a, b, c, d in ends]
        fault, far_2 = faults(segments, most, head, constraints)
        farthest[most] = max(farthest[most], float(far_2) ** 0.5)
        splits += int(head.split()[-2]) - len({it for segment in segments for it in segment})
        if fault:
            wrong += 1
            print(f"{segments}: {fault}")
    far = ", ".join(f"{it:.2f}" for it in farthest.values())
    print(f"{len(given)} lists, {splits} new vertices, {wrong} wrong; farthest paths: {far} units")
    sys.exit(1 if wrong else 0)


if __name__ == "__main__":
    main(*sys.argv[1:])
