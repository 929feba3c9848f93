"""Random lists of edits and queries for the calls for C, with right and wrong arguments."""
import ctypes
from ctypes import c_size_t, c_uint32

from for_c.beside import Beside
from for_c.calls import FAR, MOST, NONE, expect, points_of, words_of
from for_c.queries import pair
from model.geometry import distance_2
from model.plain_state import PlainState
from model.points_drawn import points_to_draw

# How many vertices there may be: brute force looks at all pairs of pairs of them.
MANY = (5, 8, 11, 14)
EDITS = ["insert"] * 12 + ["insert_all"] * 2 + ["remove"] * 5 + ["set_numbers", "rewrite", "copy"]
EDITS += ["constrain"] * 5 + ["chain"] * 2 + ["release"] * 3


class List:
    """A list that is made, with what it has made so far in words."""

    def __init__(self, library, chance, said):
        self.chance, self.said, self.points = chance, said, points_to_draw(chance)
        self.beside, self.most = Beside(library, chance.random() < 0.6), chance.choice(MANY)
        self.asked = self.beside.look()

    def say(self, *words):
        self.said.append(" ".join(map(str, words)))

    def point(self):
        """Now and then one out of range."""
        if self.chance.random() < 0.03:
            return self.chance.choice([(MOST + 1, 0), (0, -MOST - 1), (FAR, -FAR - 1)])
        return self.chance.choice(self.points)

    def vertex(self):
        count = len(self.beside.state.points)
        if not count or self.chance.random() < 0.05:
            return self.chance.choice([count, count + 1, NONE])
        return self.chance.randrange(count)

    # -- Edits

    def insert(self):
        p = self.point()
        self.say("insert", p)
        self.beside.insert(p)

    def insert_all(self):
        points = [self.point() for _ in range(self.chance.randrange(6))]
        room = len(points) - (self.chance.random() < 0.1 and bool(points))
        self.say("insert_all", points, "with room for", room)
        self.beside.insert_all(points, room)

    def remove(self):
        i = self.vertex()
        self.say("remove", i)
        self.beside.remove(i)

    def constrain(self):
        i, j = self.vertex(), self.vertex()
        self.say("constrain", i, j)
        self.beside.constrain(i, j)

    def chain(self):
        vertices = [self.vertex() for _ in range(self.chance.randrange(5))]
        closed = self.chance.random() < 0.5
        self.say("constrain_chain", vertices, closed)
        self.beside.chain(vertices, closed)

    def release(self):
        walls = sorted(self.beside.state.walls)
        i, j = self.chance.choice(walls) if walls else (self.vertex(), self.vertex())
        if self.chance.random() < 0.3:
            i, j = self.vertex(), self.vertex()
        self.say("release", i, j)
        self.beside.release(*self.chance.choice([(i, j), (j, i)]))

    def set_numbers(self):
        vertices = [self.vertex() for _ in range(self.chance.randrange(4))]
        numbers = [self.chance.getrandbits(64) for _ in vertices]
        numbers += [1] * (self.chance.random() < 0.1)
        self.say("set_numbers", vertices, numbers)
        self.beside.number(vertices, numbers)

    def rewrite(self):
        """The kind or all of it changes."""
        call = self.chance.choice(("allow_constraints", "allow_constraints", "clear"))
        self.say(call)
        getattr(self.beside, call)()

    def copy(self):
        """Each of a triangulation and its copy is edited by itself. The list goes on with one."""
        copy = self.beside.copy()
        self.say("copy")
        again = self.beside.kept.call("copy", ctypes.byref(copy.kept.handle))
        expect(again, "ALREADY_OPEN", "copy")
        ones = [self.beside, copy]
        self.chance.shuffle(ones)
        self.beside, other = ones
        other.insert(self.chance.choice(self.points))
        other.remove(0)
        other.look()
        self.beside.look()
        other.close()

    # -- Queries

    def radius_2(self):
        """One that reaches from one point to another, or not quite, or none."""
        way = distance_2(self.chance.choice(self.points), self.chance.choice(self.points))
        return way - self.chance.randrange(2)

    def ask(self):
        p, q = self.point(), self.point()
        self.say("queries at", p, q)
        self.asked.locate([p, q])
        self.asked.locate([p])
        self.asked.line(p, q)
        self.asked.circle(p, self.radius_2())
        self.asked.rectangle(p, q)
        self.asked.shape(2, p, q, 0)
        marks = [self.chance.choice([0, 1, 255]) for _ in self.asked.corners]
        self.asked.sight(p, q, marks + [1] * (self.chance.random() < 0.05))
        if self.chance.random() < 0.02:
            marks = [self.chance.choice([0, 1, 255, 1]) for _ in self.asked.corners]
            marks += [1] * (self.chance.random() < 0.05)
            width_2 = self.radius_2()
            self.say("a way through", marks, "and the squared width", width_2)
            self.asked.way(p, q, marks)
            self.asked.wide(marks, width_2)

    def run(self):
        """How many edits there were."""
        count = self.chance.randrange(5, 40)
        for _ in range(count):
            is_many = len(self.beside.state.points) >= self.most
            getattr(self, "remove" if is_many else self.chance.choice(EDITS))()
            self.asked = self.beside.look()
            self.ask()
        again = self.beside.kept.call("open", self.chance.randrange(9))
        expect(again, "ALREADY_OPEN", "open")
        self.beside.close()
        self.beside.close()
        expect(self.beside.kept.insert(0, 0)[0], "CLOSED", "a closed one")
        return count


def play_list(library, chance, said):
    return List(library, chance, said).run()


def triangulate(library, chance, said):
    """`triangulate` beside brute force."""
    points = [(chance.randint(-3, 3), chance.randint(-3, 3)) for _ in range(chance.randrange(9))]
    points += [(FAR, 0)] * (chance.random() < 0.1)
    segments = [(chance.randrange(9), chance.randrange(9)) for _ in range(chance.randrange(4))]
    said.append(f"triangulate {points} {segments}")
    room, length, at = 2 * len(points), c_size_t(), c_size_t(NONE)
    faces = (c_uint32 * (9 * room + 9))()
    told = ctypes.byref(length), ctypes.byref(at)
    given = *points_of(points), *words_of(segments), faces, room
    status = library.status("triangulate", *given, *told)
    state, wanted = drawn(points, segments)
    expect((status, at.value) if wanted[0] != "OK" else (status, NONE), wanted, said[-1])
    if status == "OK":
        rows = [tuple(faces[9 * k : 9 * k + 3]) for k in range(length.value)]
        firsts = [points.index(p) for p in state.points]
        sides = [side for c in rows for side in zip(c, c[1:] + c[:1])]
        listed = {pair(firsts.index(a), firsts.index(b)) for a, b in sides}
        found = sorted(tuple(sorted(c)) for c in rows)
        wanted = sorted(tuple(sorted(firsts[i] for i in c)) for c in state.faces(listed))
        expect(found, wanted, said[-1])


def drawn(points, segments):
    """The state of points and segments, and a status with where it is."""
    state = PlainState([])
    for k, p in enumerate(points):
        if state.insert(p) is None:
            return state, ("TOO_LARGE", k)
    for k, (i, j) in enumerate(segments):
        if max(i, j) >= len(points):
            return state, ("NO_SUCH_POINT", k)
        a, b = state.insert(points[i]), state.insert(points[j])
        if a != b and not state.is_free(a, b):
            return state, ("CROSSING", k)
        state.join(a, b)
    return state, ("OK", NONE)
