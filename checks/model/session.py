"""What the calls of crates/test_calls give, worked out from lists of points and constraints: the
edits here, and the questions in questions.py."""
from copy import deepcopy

from model.plain_state import LIMIT, PlainState

# How many times a square of all points is quartered until each quarter has one.
LEVELS = 32

TOO_LARGE = "Err(Insertion(TooLarge))"


def truth(value):
    return str(bool(value)).lower()


def in_range(*points):
    return all(abs(number) <= LIMIT for point in points for number in point)


def along_curve(p):
    """How many points a Hilbert curve visits before this one: quarter by quarter of a square that
    begins at the least point."""
    x, y = p[0] + LIMIT, p[1] + LIMIT
    key = 0
    for level in reversed(range(LEVELS)):
        right, upper = x >> level & 1, y >> level & 1
        key = 4 * key + (3 * right ^ upper)
        if not upper:
            x, y = (~y, ~x) if right else (y, x)
    return key


def order_keys(points):
    """The numbers by which a list of points is inserted: those along the curve where all are on one
    line, and else half of them below the number of a round, which a hash chooses: the last of eight
    rounds has about seven in eight of all, the one before it as many of the others, and so on."""
    keys = [along_curve(p) for p in points]
    ways = [(p[0] - points[0][0], p[1] - points[0][1]) for p in points]
    far = next((way for way in ways if way != (0, 0)), (0, 0))
    if all(far[0] * y == far[1] * x for x, y in ways):
        return keys
    hashes = [key * 0x9E37_79B9_7F4A_7C15 % 2**64 for key in keys]
    rounds = [7 - min((64 - it.bit_length()) // 3, 7) for it in hashes]
    return [number << 61 | key >> 1 for number, key in zip(rounds, keys)]


class Tagged(PlainState):
    """Vertices that each carry a number beside their point. A known point takes the new number."""

    def __init__(self):
        super().__init__([])
        self.tags = []

    def put(self, p, tag):
        """The index of a vertex that is inserted, or nothing out of range."""
        index = self.insert(p)
        if index is not None:
            self.tags[index : index + 1] = [tag]
        return index

    def take(self, i):
        """A vertex as it is printed, which goes."""
        tag, last = self.tags[i], self.tags.pop()
        if i < len(self.tags):
            self.tags[i] = last
        return vertex_text(self.remove(i), tag)

    def put_all(self, points):
        """The places of points in a list and their indexes, in the order of their insertion, each
        with its place as its number."""
        keys = order_keys(points)
        places = sorted(range(len(points)), key=lambda i: (keys[i], i))
        return [(place, self.put(points[place], place)) for place in places]

    def join_points(self, p, q):
        """What a constraint between two points gives, which become vertices."""
        i = self.put(p, 0)
        j = None if i is None else self.put(q, 1)
        return TOO_LARGE if j is None else self.join_vertices(i, j)

    def join_vertices(self, i, j):
        return f"Ok({truth(self.join(i, j)[1])})" if self.is_free(i, j) else "Err(Conflict)"

    def join_all(self, path, closed):
        """What a chain of constraints gives, whose vertices carry their places. The steps before a
        refused one stand."""
        indexes = []
        for place, p in enumerate(path):
            indexes.append(self.put(p, place))
            if indexes[-1] is None:
                return TOO_LARGE
            if len(indexes) > 1 and self.join_vertices(*indexes[-2:]) == "Err(Conflict)":
                return "Err(Conflict)"
        if closed and indexes and self.join_vertices(indexes[-1], indexes[0]) == "Err(Conflict)":
            return "Err(Conflict)"
        return "Ok(())"


def vertex_text(p, tag):
    return f"TaggedVertex {{ position: Point2 {{ x: {p[0]}, y: {p[1]} }}, tag: {tag} }}"


def inserted(index):
    return "Err(TooLarge)" if index is None else f"Ok({vertex_handle(index)})"


def vertex_handle(index):
    return f"FixedVertexHandle {{ index: {index} }}"


class Session:
    """A triangulation, plain or with constraints, its last copy, and a list of edits that are still
    to be made."""

    def __init__(self):
        self.points, self.is_constrained = Tagged(), False
        self.copy, self.listed_edits = (Tagged(), False), []

    def state(self):
        return self.points

    def edit(self, name, numbers, edges=()):
        """What a call that changes something gives, or nothing where it is no such call. Where it
        goes by whether two vertices are joined, the edges say that. Of `try_add_constraint` the
        pairs of vertices of its path are given, or nothing is made."""
        call = getattr(self, f"call_{name}", None)
        if name.startswith("list_"):
            self.listed_edits.append((name, *numbers))
            return "Ok(())"
        if call is None:
            return None
        if name == "remove_constraint_edge":
            return call(edges, *numbers)
        return call(*numbers)

    def call_insert(self, x, y, tag=0):
        return inserted(self.points.put((x, y), tag))

    def call_insert_with_hint(self, x, y, tag=0, _hint=0):
        return self.call_insert(x, y, tag)

    call_insert_counting = call_insert

    def put_list(self, numbers):
        """The steps of the insertion of a list of points, or the place of the first one that is out
        of range."""
        points = list(zip(numbers[::2], numbers[1::2]))
        for place, p in enumerate(points):
            if not in_range(p):
                return place, []
        return None, self.points.put_all(points)

    def call_insert_all(self, *numbers):
        outside, steps = self.put_list(numbers)
        if outside is not None:
            return f"Err(Vertex {{ place: {outside}, error: TooLarge }})"
        return f"Ok([{', '.join(vertex_handle(index) for _, index in sorted(steps))}])"

    def steps_told(self, numbers):
        """What an insertion of a list tells of each of its steps."""
        outside, steps = self.put_list(numbers)
        if outside is not None:
            return [f"vertex {outside}: TooLarge"]
        told = [f"place {place}, vertex {index}" for place, index in steps]
        lefts = reversed(range(len(told)))
        return [f"{it}, {left} left" for it, left in zip(told, lefts)] + ["none is left: true"]

    def call_reserve(self, additional):
        full = 6 * (len(self.points.points) + additional) >= 2**32
        return "Err(OutOfIndexes)" if full else "Ok(())"

    def call_replace_vertex(self, i, tag):
        tags = self.points.tags
        if i >= len(tags):
            return "None"
        former, tags[i] = tags[i], tag
        return f"Some({vertex_text(self.points.points[i], former)})"

    def call_remove(self, i):
        is_there = i < len(self.points.points)
        return f"Some(Ok({self.points.take(i)}))" if is_there else "None"

    def call_locate_and_remove(self, x, y):
        points = self.points.points
        if not in_range((x, y)):
            return "None"
        if (x, y) not in points:
            return "Some(Ok(None))"
        return f"Some(Ok(Some({self.points.take(points.index((x, y)))})))"

    def call_clear(self):
        self.points = Tagged()
        return "0"

    def call_with_capacity(self, vertices, edges, faces):
        if vertices >= 2**32 or edges >= 2**31 or faces >= 2**32:
            return "Err(OutOfIndexes)"
        self.points = Tagged()
        return "Ok(())"

    def call_from_delaunay(self):
        self.is_constrained = True
        return "Ok(())"

    def call_begin(self, _hints):
        self.points, self.is_constrained = Tagged(), False
        return "()"

    def call_try_clone(self):
        self.copy = deepcopy(self.points), self.is_constrained
        return "Ok(())"

    def call_swap(self):
        (self.points, self.is_constrained), self.copy = self.copy, (
            self.points,
            self.is_constrained,
        )
        return "()"

    def call_write_data(self, _first):
        return "()"

    # -- Of a triangulation with constraints alone

    def call_try_add_constraint(self, i, j):
        if max(i, j) >= len(self.points.points):
            return "None"
        return self.points.join(i, j)[0]

    def call_add_constraint_unless_crossed(self, i, j):
        if max(i, j) >= len(self.points.points):
            return "None"
        made = self.points.join_vertices(i, j)
        return "Some(Ok(None))" if made == "Err(Conflict)" else f"Some(Ok(Some({made[3:-1]})))"

    def call_add_constraint_edge(self, *numbers):
        points = list(zip(numbers[::2], numbers[1::2]))
        return f"Some({self.points.join_points(*points[:2])})" if len(points) > 1 else "None"

    def join_all(self, numbers, closed):
        """What a chain of constraints gives, or what its error says."""
        said = self.points.join_all(list(zip(numbers[::2], numbers[1::2])), closed)
        return {TOO_LARGE: "TooLarge", "Err(Conflict)": "Conflict"}.get(said, "()")

    def call_add_constraint_edges(self, *numbers):
        return self.join_all(numbers, False)

    def call_add_closed_edges(self, *numbers):
        return self.join_all(numbers, True)

    def call_remove_constraint_edge(self, edges, i, j):
        pair = tuple(sorted((i, j)))
        if pair not in edges:
            return "None"
        was = pair in self.points.walls
        self.points.walls.discard(pair)
        return f"Some(Ok({truth(was)}))"
