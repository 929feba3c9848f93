"""What the questions of crates/test_calls give, worked out from a mesh that was compared with
points and constraints."""
import re

from model.geometry import are_on_line, distance_2, meets_circle, meets_rectangle, met_by_segment
from model.places import outer_sides, place_of
from model.session import in_range, truth

# What a hierarchy by 2 is made for, and where it is asked for hints then.
FIVE = [(-1, -1), (0, -1), (1, -1), (-1, 0), (0, 0)]
NEAR_FIVE = [(-1, -1), (1, -1), (0, 0), (0, 0)]
MANY = [(0, 0), (40, 10), (-30, 50), (-60, -20), (10, -70)]
MANY += [(90, 90), (20, 30), (50, -50), (-80, 80)]
NEAR_MANY = [(-30, 50), (10, -70), (20, 30), (-80, 80)]


def hinted(remark, points, places):
    """A remark, and the vertex of even index that is nearest to each place."""
    yield remark
    for x, y in places:
        hint = min(range(0, len(points), 2), key=lambda i: distance_2(points[i], (x, y)))
        yield f"hint at ({x}, {y}): {hint}"


def handle(kind, index):
    return f"Fixed{kind}Handle {{ index: {index} }}"


def positions(points):
    return f"Some([{', '.join(f'Point2 {{ x: {x}, y: {y} }}' for x, y in points)}])"


class Questions:
    """Questions about a mesh. Where hints come from a hierarchy, it has this branch factor."""

    def __init__(self, mesh, state, factor):
        self.mesh, self.factor, self.points = mesh, factor, mesh.points
        self.walls, self.edges = state.walls, sorted(mesh.pairs())
        self.names = {edge.ends: index for index, edge in enumerate(mesh.edges)}

    def ask(self, line, said):
        """The lines that a question has to print, or nothing where it is none of these. What was
        said counts where several answers are right and it is one of them."""
        name, *words = line.split()
        numbers = [int(word) for word in words]
        call = getattr(self, f"ask_{name}", None)
        if call:
            return [f"{line} > {call(*numbers)}"]
        call = getattr(self, f"choose_{name}", None)
        if call:
            answer = said[0].partition(" > ")[2] if said else ""
            wanted = list(call(*numbers))
            return said if answer in wanted else [f"{line} > {wanted[0] if wanted else None}"]
        call = getattr(self, f"list_{name}", None)
        if call:
            return call(line, said, *numbers)
        return None

    # -- Counts and single elements

    def ask_counts(self):
        v, e, f = len(self.points), len(self.edges), len(self.mesh.faces)
        counts = [v, e, 2 * e, f, f + 1, 2 * e - 3 * f]
        return f"({counts}, {truth(are_on_line(self.points))})"

    def ask_elements(self):
        v, e, f = len(self.points), len(self.edges), len(self.mesh.faces)
        return f"({[v, 2 * e, e, f + 1, f]}, {[v, 2 * e, e]})"

    def ask_names(self):
        v, e, f = len(self.points), len(self.edges), len(self.mesh.faces)
        return str([v, 2 * e, e, f + 1, f])

    def ask_position(self, i):
        return f"Some({self.points[i]})" if i < len(self.points) else "None"

    def ask_ends(self, index):
        if index >= len(self.mesh.edges):
            return "None"
        return positions(self.points[i] for i in self.mesh.edges[index].ends)

    def ask_corners(self, index):
        if index not in self.mesh.listed:
            return "None"
        return positions(self.points[i] for i in self.mesh.listed[index])

    def list_hull(self, line, said):
        """The outer edges in an order that is that of their links."""
        outer = [edge.ends for edge in self.mesh.edges if edge.face == 0]
        wanted = [f"hull {ends}" for ends in outer]
        starts = [it.split("(")[1].split(",")[0] for it in said]
        ends = [it.split(", ")[1].rstrip(")") for it in said]
        is_round = starts == ends[-1:] + ends[:-1] or starts == ends[1:] + ends[:1]
        return said if sorted(said) == sorted(wanted) and is_round else wanted

    # -- Places

    def choose_locate_with_hint(self, x, y, _hint):
        """The answers that are right."""
        if not in_range((x, y)):
            return ["None"]
        if len(self.points) < 2 and (x, y) not in self.points:
            return ["Some(NoTriangulation)"]
        corners = self.mesh.faces.values()
        found = place_of(self.points, self.edges, corners, (x, y))
        if len(found) == 1:
            return [f"Some(OnVertex({handle('Vertex', *found)}))"]
        kind, ends = "OnEdge", [found, found[::-1]]
        if len(found) == 3:
            index = next(f for f, it in self.mesh.faces.items() if list(it) == found)
            return [f"Some(OnFace({handle('Face', index)}))"]
        if not found:
            kind, ends = "OutsideOfConvexHull", outer_sides(self.points, self.edges, (x, y))
        names = (self.names[tuple(it)] for it in ends)
        return [f"Some({kind}({handle('DirectedEdge', index)}))" for index in names]

    def choose_locate(self, x, y):
        return self.choose_locate_with_hint(x, y, 0)

    def choose_nearest_neighbor(self, x, y):
        if not in_range((x, y)) or not self.points:
            return ["None"]
        ways = [distance_2(p, (x, y)) for p in self.points]
        return [f"Some({i})" for i, way in enumerate(ways) if way == min(ways)]

    def ask_locate_vertex(self, x, y):
        if not in_range((x, y)):
            return "None"
        there = (x, y) in self.points
        return f"Some(Some({self.points.index((x, y))}))" if there else "Some(None)"

    def choose_hint(self, x, y):
        """A nearest vertex of the first layer, whose indexes are the multiples of the factor, or 0
        where there is none. Of other generators any answer is right."""
        if not in_range((x, y)):
            return ["None"]
        if self.factor is None:
            return [f"Some({i})" for i in range(1001)]
        layer = range(0, len(self.points), self.factor) if self.factor > 1 else ()
        ways = {i: distance_2(self.points[i], (x, y)) for i in layer} or {0: 0}
        return [f"Some({i})" for i, way in ways.items() if way == min(ways.values())]

    # -- Segments

    def between(self, i, j):
        return [self.points[k] for k in (i, j)] if max(i, j) < len(self.points) else None

    def met(self, s, e, crossed):
        """What a segment meets, or which constraints it crosses, as they are printed."""
        met = met_by_segment(s, e, self.points, self.edges)
        if crossed:
            met = [it for it in met if it[0] == "e" and tuple(sorted(it[1:])) in self.walls]
        kinds = {"e": "EdgeIntersection", "o": "EdgeOverlap"}
        for kind, *ends in met:
            if kind == "v":
                yield f"VertexIntersection(VertexHandle {{ index: {ends[0]}, .. }})"
            else:
                name = f"DirectedEdgeHandle {{ index: {self.names[tuple(ends)]}, .. }}"
                yield name if crossed else f"{kinds[kind]}({name})"

    def walk(self, line, said, ends, crossed):
        """The items of a walk behind bounds of how many they are."""
        if ends is None or not in_range(*ends):
            return [f'{line} > "no walk"']
        wanted = list(self.met(*ends, crossed))
        bounds = said[0].partition(" > ")[2].strip("()").split(", ") if said else []
        if len(bounds) != 2 or int(bounds[0]) > len(wanted):
            return [f"{line} > (at most {len(wanted)}, ..)", *wanted]
        if bounds[1] != "None" and int(bounds[1][5:].rstrip(")")) < len(wanted):
            return [f"{line} > (.., at least {len(wanted)})", *wanted]
        return [said[0], *wanted]

    def list_line(self, line, said, x, y, u, v):
        return self.walk(line, said, [(x, y), (u, v)], False)

    def list_line_of_handles(self, line, said, i, j):
        return self.walk(line, said, self.between(i, j), False)

    def list_conflicts(self, line, said, x, y, u, v):
        return self.walk(line, said, [(x, y), (u, v)], True)

    def list_conflicts_of_handles(self, line, said, i, j):
        return self.walk(line, said, self.between(i, j), True)

    def ask_intersects_constraint(self, x, y, u, v):
        if not in_range((x, y), (u, v)):
            return "None"
        return f"Some({truth(list(self.met((x, y), (u, v), True)))})"

    def ask_exists_constraint(self, i, j):
        return truth(tuple(sorted((i, j))) in self.walls)

    def ask_is_constraint_edge(self, i, j):
        pair = tuple(sorted((i, j)))
        return f"Some({truth(pair in self.walls)})" if pair in self.edges else "None"

    # -- Shapes, whose elements may come in any order

    def found(self, line, said, is_shape, of_edges, meets):
        """The indexes of the edges or vertices that meet a shape, if it is one."""
        if not is_shape:
            return [f"{line} > None"]
        ends = [[self.points[i] for i in edge.ends] for edge in self.mesh.edges[::2]]
        ends = ends if of_edges else [(p, p) for p in self.points]
        wanted = [k for k, (a, b) in enumerate(ends) if meets(a, b)]
        answer = said[0].partition(" > ")[2] if said else ""
        listed = [int(it) for it in re.findall(r"\d+", answer)]
        is_same = answer.startswith("Some(Ok([") and sorted(listed) == wanted
        return said if is_same else [f"{line} > Some(Ok({wanted}))"]

    def rectangle(self, line, said, of_edges, x, y, u, v):
        meets = lambda a, b: meets_rectangle(a, b, (x, y), (u, v))
        return self.found(line, said, in_range((x, y), (u, v)), of_edges, meets)

    def circle(self, line, said, of_edges, x, y, radius_2):
        meets = lambda a, b: meets_circle(a, b, (x, y), radius_2)
        return self.found(line, said, in_range((x, y)) and radius_2 >= 0, of_edges, meets)

    def list_edges_in_rectangle(self, line, said, *numbers):
        return self.rectangle(line, said, True, *numbers)

    def list_vertices_in_rectangle(self, line, said, *numbers):
        return self.rectangle(line, said, False, *numbers)

    def list_edges_in_circle(self, line, said, *numbers):
        return self.circle(line, said, True, *numbers)

    def list_vertices_in_circle(self, line, said, *numbers):
        return self.circle(line, said, False, *numbers)

    def ask_asks_fewer(self, x, y, u, v):
        """How many edges a rectangle has. It is not asked of all of them, unless all are in it."""
        if not in_range((x, y), (u, v)):
            return "None"
        ends = [[self.points[i] for i in pair] for pair in self.edges]
        count = sum(meets_rectangle(a, b, (x, y), (u, v)) for a, b in ends)
        return f"Some(({count}, {truth(count < len(ends))}))"

    # -- Generators by themselves

    def list_hierarchy_of_five(self, _line, _said):
        left = [*FIVE[:2], FIVE[4], FIVE[3]]
        return [
            *hinted("told of five vertices", FIVE, NEAR_FIVE),
            *hinted("told that the one at 1 -1 went", left, NEAR_FIVE),
            *hinted("made for the five", FIVE, NEAR_FIVE),
            *hinted("its copy", FIVE, NEAR_FIVE),
        ]

    def list_initialize(self, _line, _said):
        return list(hinted("made", MANY, NEAR_MANY))

    def list_duplicate(self, _line, _said):
        copy, first = (hinted(name, MANY, NEAR_MANY) for name in ("copy", "first"))
        return ["ready", *copy, *first]
