"""The calls of include/tevasulim.h by ctypes, and a triangulation behind a handle."""
import ctypes
from ctypes import (
    POINTER,
    c_bool,
    c_char_p,
    c_int32,
    c_int64,
    c_size_t,
    c_uint8,
    c_uint32,
    c_uint64,
    c_void_p,
)

NONE, MOST, FAR = 2**32 - 1, 2**29, 2**31 - 1
# The statuses, by number.
STATUSES = (
    "OK CLOSED ALREADY_OPEN NO_SUCH_KIND IS_PLAIN IS_CONSTRAINED UNEQUAL_LENGTHS TOO_LARGE "
    "NEGATIVE NO_SUCH_VERTEX NO_SUCH_POINT CROSSING NO_CONSTRAINT TOO_SHORT OUT_OF_INDEXES "
    "OUT_OF_MEMORY NO_SUCH_STATUS"
).split()


class Handle(ctypes.Structure):
    _fields_ = [("at", c_void_p), ("is_open", c_bool)]


class Shape(ctypes.Structure):
    _fields_ = [("kind", c_uint32)]
    _fields_ += [(name, c_int32) for name in ("x1", "y1", "x2", "y2")]
    _fields_ += [("radius_2", c_int64)]


# What the calls take. A list is an array of numbers, of which a row is an element.
KEPT, SIZE = POINTER(Handle), POINTER(c_size_t)
POINTS, WORDS = (POINTER(c_int32), c_size_t), (POINTER(c_uint32), c_size_t)
NUMBERS, BYTES = (POINTER(c_uint64), c_size_t), (POINTER(c_uint8), c_size_t)
SEGMENT = (POINTER(c_int32), POINTER(c_int32))
CALLS = {
    "version": (),
    "is_proved": (),
    "status_string": (c_uint32,),
    "status_text": (c_uint32, *BYTES, SIZE),
    "open": (KEPT, c_uint32),
    "close": (KEPT,),
    "copy": (KEPT, KEPT),
    "allow_constraints": (KEPT,),
    "clear": (KEPT,),
    "insert": (KEPT, c_int32, c_int32, POINTER(c_uint32)),
    "insert_all": (KEPT, *POINTS, *WORDS),
    "remove": (KEPT, c_uint32),
    "constrain": (KEPT, c_uint32, c_uint32),
    "constrain_chain": (KEPT, *WORDS, c_bool, SIZE),
    "release": (KEPT, c_uint32, c_uint32),
    "set_numbers": (KEPT, *WORDS, *NUMBERS),
    "count": (KEPT, POINTER(c_uint64)),
    "positions": (KEPT, *POINTS, SIZE),
    "numbers": (KEPT, *NUMBERS, SIZE),
    "edges": (KEPT, *WORDS, SIZE),
    "faces": (KEPT, *WORDS, SIZE),
    "face_layers": (KEPT, *WORDS, SIZE),
    "faces_beyond": (KEPT, POINTER(c_int32), *BYTES, SIZE),
    "locate": (KEPT, *POINTS, *WORDS),
    "nearest": (KEPT, *POINTS, *WORDS),
    "line": (KEPT, *SEGMENT, *WORDS, SIZE),
    "conflicts": (KEPT, *SEGMENT, *WORDS, SIZE),
    "in_sight": (KEPT, *SEGMENT, *BYTES, POINTER(c_uint32)),
    "way": (KEPT, *SEGMENT, *BYTES, *POINTS, SIZE),
    "reachable": (KEPT, *BYTES, *WORDS, SIZE),
    "wide_faces": (KEPT, *BYTES, c_int64, *BYTES, SIZE),
    "vertices_in": (KEPT, POINTER(Shape), *WORDS, SIZE),
    "edges_in": (KEPT, POINTER(Shape), *WORDS, SIZE),
    "triangulate": (*POINTS, *WORDS, *WORDS, SIZE, SIZE),
}
GIVES = {"close": None, "status_string": c_char_p}


class Difference(Exception):
    """Something else was found than is worked out."""


def expect(found, wanted, what):
    if found != wanted:
        raise Difference(f"{what}: {found} and not {wanted}")


class Library:
    """The calls of a library, which notes the statuses that it meets."""

    def __init__(self, file):
        self.calls, self.met = ctypes.CDLL(file), set()
        for name, types in CALLS.items():
            call = getattr(self.calls, f"tevasulim_{name}")
            call.argtypes, call.restype = types, GIVES.get(name, c_uint32)

    def call(self, name, *words):
        """What a call gives that is no status."""
        return getattr(self.calls, f"tevasulim_{name}")(*words)

    def status(self, name, *words):
        status = STATUSES[self.call(name, *words)]
        self.met.add(status)
        return status

    def text(self, status, room=100):
        text, length = (c_uint8 * (room + 1))(), c_size_t()
        said = self.status("status_text", status, text, room, ctypes.byref(length))
        return said, bytes(text).split(b"\0")[0].decode(), length.value


def words_of(rows, kind=c_uint32):
    """Numbers as an array with room for one at least, and a length."""
    flat = [it for row in rows for it in (row if isinstance(row, tuple) else (row,))]
    return (kind * max(len(flat), 1))(*flat), len(rows)


def points_of(rows):
    return words_of(rows, c_int32)


def shape_of(kind, first, second, radius_2):
    return ctypes.byref(Shape(kind, *first, *second, radius_2))


class Kept:
    """A triangulation behind a handle."""

    def __init__(self, library, kind):
        self.library, self.handle = library, Handle()
        self.opened = self.call("open", kind)

    def call(self, name, *words):
        return self.library.status(name, ctypes.byref(self.handle), *words)

    def close(self):
        self.library.call("close", ctypes.byref(self.handle))

    def copy(self):
        """A copy behind another handle, and the status."""
        copy = Kept.__new__(Kept)
        copy.library, copy.handle = self.library, Handle()
        copy.opened = self.call("copy", ctypes.byref(copy.handle))
        return copy

    def insert(self, x, y):
        vertex = c_uint32(NONE)
        return self.call("insert", x, y, ctypes.byref(vertex)), vertex.value

    def insert_all(self, points, room=None):
        room = len(points) if room is None else room
        vertices = (c_uint32 * max(room, 1))()
        status = self.call("insert_all", *points_of(points), vertices, room)
        return status, list(vertices)[: len(points)]

    def constrain_chain(self, vertices, closed):
        made = c_size_t()
        words = (*words_of(vertices), closed, ctypes.byref(made))
        return self.call("constrain_chain", *words), made.value

    def all(self, name, width, *words, room=400, kind=c_uint32):
        """A status, the rows that a call gave, and how many it says there are."""
        found, length = (kind * max(room * width, 1))(), c_size_t(7)
        status = self.call(name, *words, found, room, ctypes.byref(length))
        count = min(length.value, room)
        flat = found[: count * width]
        return status, list(zip(*(flat[k::width] for k in range(width)))), length.value

    def parts(self, room=400):
        """All of it."""
        rows = [self.all("positions", 2, room=room, kind=c_int32)]
        rows += [self.all("edges", 3, room=room)]
        rows += [self.all("numbers", 1, room=room, kind=c_uint64)]
        return [*rows, self.all("faces", 9, room=room), self.counts()]

    def counts(self):
        counts = (c_uint64 * 4)()
        return self.call("count", counts), tuple(counts)

    def locate(self, name, points, width, room=None):
        room = len(points) if room is None else room
        found = (c_uint32 * max(room * width, 1))()
        status = self.call(name, *points_of(points), found, room)
        return status, [tuple(found[i * width : (i + 1) * width]) for i in range(len(points))]

    def in_sight(self, p, q, marks):
        seen = c_uint32(7)
        words = (points_of([p])[0], points_of([q])[0], *words_of(marks, c_uint8))
        return self.call("in_sight", *words, ctypes.byref(seen)), seen.value

    def way(self, p, q, marks, room=400):
        """A status and the points of a way."""
        words = (points_of([p])[0], points_of([q])[0], *words_of(marks, c_uint8))
        return self.all("way", 2, *words, room=room, kind=c_int32)[:2]

    def reachable(self, marks, room=400):
        """A status and the label of each face."""
        status, rows, _ = self.all("reachable", 1, *words_of(marks, c_uint8), room=room)
        return status, [label for (label,) in rows]

    def wide_faces(self, marks, width_2, room=400):
        """A status and the flag of each face."""
        words = *words_of(marks, c_uint8), width_2
        status, rows, _ = self.all("wide_faces", 1, *words, room=room, kind=c_uint8)
        return status, [flag for (flag,) in rows]
