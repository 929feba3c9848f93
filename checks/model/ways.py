"""Ways through free faces, by brute force: which positions see each other, how long the shortest
chain of positions is, what is wrong with a way, which triangles are wide, and which of them ways
join. Numbers are exact, but for lengths."""
import heapq
from math import dist

from model.floor import is_in_sight
from model.geometry import distance_2, side


class Sight:
    """Which positions see each other through free triangles. It is worked out once of each two."""

    def __init__(self, free):
        self.free, self.known = free, {}

    def __call__(self, p, q):
        both = min(p, q), max(p, q)
        if both not in self.known:
            self.known[both] = is_in_sight(*both, self.free)
        return self.known[both]


def shortest(start, end, vertices, sees):
    """How long the shortest chain from one position over vertices to another is, if any joins them.
    An end that sees not even itself is in no closed free face."""
    if not sees(start, start) or not sees(end, end):
        return None
    left, done = [(0.0, start)], set()
    while left:
        length, here = heapq.heappop(left)
        if here == end:
            return length
        if here in done:
            continue
        done.add(here)
        for there in vertices | {end}:
            if there not in done and sees(here, there):
                heapq.heappush(left, (length + dist(here, there), there))
    return None


def can_move(before, here, after, free):
    """Whether a chain that turns at a position is shorter where it is moved a little to the side to
    which it turns: whether each direction within its angle leads into a free triangle."""
    turn = side(before, here, after)
    if not turn:
        return False
    first, last = (after, before) if turn > 0 else (before, after)
    rays = {corner for corners in free if here in corners for corner in corners
            if side(here, first, corner) > 0 > side(here, last, corner)}
    # Against the clock: first those that have the fewest others on their right.
    rays = sorted(rays, key=lambda ray: sum(side(here, other, ray) > 0 for other in rays))
    rays = [first, *rays, last]

    def is_free(ray, other):
        """Whether a free triangle has the direction that is between those of two positions."""
        middle = ray[0] + other[0] - here[0], ray[1] + other[1] - here[1]
        for corners in free:
            if here in corners:
                at = corners.index(here)
                right, left = corners[at - 2], corners[at - 1]
                if side(here, right, middle) > 0 > side(here, left, middle):
                    return True
        return False

    return all(map(is_free, rays, rays[1:]))


def fault(way, start, end, vertices, sees):
    """What is wrong with a way, if anything is."""
    if len(way) < 2 or way[0] != start or way[-1] != end:
        return "its ends are others"
    if not vertices.issuperset(way[1:-1]):
        return "it turns at a position that is no vertex"
    if not all(map(sees, way, way[1:])):
        return "a leg is not in sight"
    if any(map(sees, way, way[2:])):
        return "it is not taut"
    if any(can_move(*turn, sees.free) for turn in zip(way, way[1:], way[2:])):
        return "it is shorter where it is moved"
    return None


def is_wide(corners, width_2):
    """Whether the square of each height of a triangle is at least so much."""
    a, b, c = corners
    longest_2 = max(distance_2(a, b), distance_2(b, c), distance_2(c, a))
    return side(a, b, c) ** 2 >= width_2 * longest_2


def labels_of(faces, marks):
    """The label of each face, by which those with marks are joined that share a corner, and none of
    each other face. The labels are in the order of the first faces that have them."""
    labels, count = [None] * len(faces), 0
    free = [f for f, mark in enumerate(marks) if mark]
    for first in free:
        if labels[first] is not None:
            continue
        labels[first], left = count, [first]
        while left:
            here = set(faces[left.pop()])
            for f in free:
                if labels[f] is None and here.intersection(faces[f]):
                    labels[f] = count
                    left.append(f)
        count += 1
    return labels
