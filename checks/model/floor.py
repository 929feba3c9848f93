"""Faces as a floor, by brute force: how many constraints lie round each, and whether a segment
stays in some of them. Numbers are exact."""
from fractions import Fraction

from model.geometry import side


def layers_of(faces, none):
    """How many constraints at least a way from outside to each face crosses. A face is a row of its
    corners, neighbours and marks, as the library gives them."""
    layers = [len(faces)] * len(faces)
    changed = True
    while changed:
        changed = False
        for f, row in enumerate(faces):
            for near, mark in zip(row[3:6], row[6:9]):
                layer = mark + (0 if near == none else layers[near])
                if layer < layers[f]:
                    layers[f], changed = layer, True
    return layers


def part_within(p, q, corners):
    """The part of the segment from p to q that is in a closed triangle that turns left, as a pair
    of fractions of the segment, or None."""
    first, last = Fraction(0), Fraction(1)
    for a, b in zip(corners, corners[1:] + corners[:1]):
        start, end = side(a, b, p), side(a, b, q)
        if start < 0 and end < 0:
            return None
        if start < 0:
            first = max(first, Fraction(-start, end - start))
        elif end < 0:
            last = min(last, Fraction(start, start - end))
    return (first, last) if first <= last else None


def is_in_sight(p, q, triangles):
    """Whether each point of the segment from p to q is in one of these closed triangles."""
    parts = [part_within(p, q, it) for it in triangles]
    reached = Fraction(0)
    for first, last in sorted(it for it in parts if it):
        if first > reached:
            return False
        reached = max(reached, last)
        if reached == 1:
            return True
    return False
