#!/usr/bin/env python3
"""checks/ways.py PROGRAM: has test_parts find ways in random rooms, and looks that there is none
exactly where no chain of positions joins the ends, that each way is a taut chain over vertices
which is not shorter where one of them is moved, and how long ways are beside the shortest. It also has faces labelled by the parts that ways join, once
for all free faces and once for those that are wide, and compares.

A room has segments between points of a grid of 5 by 5. Its free faces are those that the program
prints, but each third. What comes out is judged by brute force in fractions: which vertices and
ends see each other, which free faces share a corner, and how high each face is. Some ends are on
vertices, some on edges, some in a face that is not free, and some outside.
"""
import random
import subprocess
import sys
from ast import literal_eval
from fractions import Fraction
from math import dist

from model.ways import Sight, fault, shortest

ROOMS = 10000
# The vertices are on even coordinates, so that ends are often on no vertex and no edge.
SIDE = range(0, 10, 2)
NEAR = range(-1, 10)


def rooms():
    """Each room: the ends of a way, segments, and a squared diameter."""
    chance = random.Random(20261201)
    for _ in range(ROOMS):
        grid = lambda: (chance.choice(SIDE), chance.choice(SIDE))
        near = lambda: (chance.choice(NEAR), chance.choice(NEAR))
        segments = [(grid(), grid()) for _ in range(chance.randrange(2, 15))]
        vertices = [end for segment in segments for end in segment]
        ends = [chance.choice(vertices) if chance.random() < 0.4 else near() for _ in range(2)]
        yield *ends, segments, chance.choice((0, 1, 4, 5, 8, 13))


def judge(room, faces, way):
    """What is wrong with what came of a room, if anything is, and how many times as long as the
    shortest the way is."""
    start, end, segments, _ = room
    vertices = {it for segment in segments for it in segment}
    if not vertices.issuperset(corner for corners in faces for corner in corners):
        return "a face has a corner that is no vertex", 1
    sees = Sight([corners for index, corners in enumerate(faces, 1) if index % 3])
    least = shortest(start, end, vertices, sees)
    if way is None:
        return "none, and yet a chain joins the ends" if least is not None else None, 1
    if least is None:
        return "a way, and yet no chain joins the ends", 1
    length = sum(map(dist, way, way[1:]))
    return fault(way, start, end, vertices, sees), length / least if least else 1


def heights_2(face):
    """The squared heights of a triangle."""
    for k in range(3):
        (a, b), (c, d), (x, y) = face[k:] + face[:k]
        double = (c - a) * (y - b) - (d - b) * (x - a)
        yield Fraction(double * double, (c - a) ** 2 + (d - b) ** 2)


def parts(faces, free):
    """The label of each face: which free faces are joined over corners that they share. A chain may
    go along the sides of a free face to each of its corners."""
    labels, count = [-1] * len(faces), 0
    for first in free:
        if labels[first] >= 0:
            continue
        labels[first], left = count, [first]
        while left:
            here = set(faces[left.pop()])
            for there in free:
                if labels[there] < 0 and here.intersection(faces[there]):
                    labels[there] = count
                    left.append(there)
        count += 1
    return labels


def judge_parts(room, faces, told, told_wide):
    """What is wrong with the labels of faces, if anything is."""
    free = [index for index in range(len(faces)) if (index + 1) % 3]
    if told != parts(faces, free):
        return f"labels {told}"
    wide = [index for index in free if min(heights_2(faces[index])) >= room[3]]
    if told_wide != parts(faces, wide):
        return f"labels of wide faces {told_wide}"
    return None


def ask(program, given):
    """The lines that the program prints for each room."""
    lines = []
    for start, end, segments, width_2 in given:
        numbers = " ".join(f"{a} {b} {c} {d}" for (a, b), (c, d) in segments)
        lines.append(f"way {start[0]} {start[1]} {end[0]} {end[1]} {numbers}\n")
        lines.append(f"reach {width_2} 0 {numbers}\n")
    ran = subprocess.run([program], input="".join(lines), capture_output=True, text=True,
                         timeout=1200)
    if ran.returncode:
        sys.exit(f"the program gave {ran.returncode}: {ran.stderr}")
    rows = [literal_eval(row) if row != "none" else None for row in ran.stdout.splitlines()]
    if len(rows) != 5 * len(given):
        sys.exit(f"the program printed {len(rows)} lines for {len(given)} rooms")
    return zip(given, *(rows[k::5] for k in range(5)))


def main(program):
    given = list(rooms())
    wrong, ratios, turns = 0, [], 0
    for room, faces, way, same_faces, told, told_wide in ask(program, given):
        reason, ratio = judge(room, faces, way)
        reason = reason or judge_parts(room, same_faces, told, told_wide)
        if way:
            ratios.append(ratio)
            turns += len(way) - 2
        if reason:
            wrong += 1
            print(f"{room}: {way}: {reason}")
    print(f"{len(given)} rooms, {len(ratios)} ways that turn {turns} times, {wrong} wrong; of the "
          f"shortest at most {max(ratios):.3f}, on average {sum(ratios) / len(ratios):.4f}")
    sys.exit(1 if wrong else 0)


if __name__ == "__main__":
    main(sys.argv[1])
