"""The state that crates/test_calls prints: its vertices, edges and faces with their links, and
whether they are those of points and constraints."""
import re
from ast import literal_eval
from collections import namedtuple

from model.geometry import are_on_line
from model.plain_state import MANY, pairs_of, tiling_fault

Edge = namedtuple("Edge", "ends next prev face is_constraint")
VERTEX = re.compile(r"vertex (\d+) (\(.*?\)) (-?\d+) (None|Some\((\d+)\))")
EDGE = re.compile(r"edge (\d+) (\(.*?\)) (\[.*?\]) \d+ \d+ (true|false)")
FACE = re.compile(r"face (\d+) (\[.*?\]) \d+")


class MeshState:
    """What the lines of a state say: vertices by their index, with what the vertex carries and the
    edge that it names; directed edges by theirs; and the corners of each inner face, from the least
    one on and as they are listed."""

    def __init__(self, lines):
        self.points, self.tags, self.out_edges, self.edges = [], [], [], []
        self.faces, self.listed = {}, {}
        indexes = {"vertex": [], "edge": [], "face": []}
        for line in lines:
            vertex, edge, face = (kind.fullmatch(line) for kind in (VERTEX, EDGE, FACE))
            for found in filter(None, (vertex, edge, face)):
                indexes[line.split()[0]].append(int(found[1]))
            if vertex:
                self.points.append(literal_eval(vertex[2]))
                self.tags.append(int(vertex[3]))
                self.out_edges.append(int(vertex[5]) if vertex[5] else None)
            elif edge:
                links = literal_eval(edge[3])
                self.edges.append(Edge(literal_eval(edge[2]), *links, edge[4] == "true"))
            elif face:
                corners = self.listed[int(face[1])] = tuple(literal_eval(face[2]))
                least = corners.index(min(corners))
                self.faces[int(face[1])] = corners[least:] + corners[:least]
        firsts = {"vertex": 0, "edge": 0, "face": 1}
        self.are_in_order = all(
            found == list(range(firsts[kind], firsts[kind] + len(found)))
            for kind, found in indexes.items()
        )

    def pairs(self):
        """The edges as pairs of vertices, the least first."""
        return {tuple(sorted(edge.ends)) for edge in self.edges}

    def wrong_links(self):
        """The first fault of the links, or nothing."""
        edges = self.edges
        for index, edge in enumerate(edges):
            follower = edges[edge.next]
            if edges[index ^ 1].ends != edge.ends[::-1]:
                return f"edge {index}: the other direction has other ends"
            if follower.ends[0] != edge.ends[1] or follower.prev != index:
                return f"edge {index}: the next one does not follow it"
            if follower.face != edge.face or edge.is_constraint != edges[index ^ 1].is_constraint:
                return f"edge {index}: the next one or the other direction has another mark"
        for index, edge in enumerate(self.out_edges):
            is_alone = not any(index in it.ends for it in edges)
            if is_alone != (edge is None) or edge is not None and edges[edge].ends[0] != index:
                return f"vertex {index} names an edge that does not start there"
        return self.wrong_loops()

    def wrong_loops(self):
        """The first fault of the edges round faces, or nothing."""
        for face, corners in self.faces.items():
            found = {edge.ends for edge in self.edges if edge.face == face}
            if found != {(corners[k], corners[k - 2]) for k in range(3)}:
                return f"face {face}: other edges than those of its corners"
        outer = [index for index, edge in enumerate(self.edges) if edge.face == 0]
        place, count = outer[0] if outer else 0, 0
        while outer and (count == 0 or place != outer[0]):
            place, count = self.edges[place].next, count + 1
            if count > len(outer):
                break
        return None if count == len(outer) else "the outer edges are no single round"

    def wrong(self, plain, tags):
        """The first way in which this is not the triangulation of points and constraints, or
        nothing. Of two diagonals that are open either may be there."""
        if not self.are_in_order:
            return "the indexes of some elements are not those from the first on"
        if self.points != plain.points or self.tags != tags:
            return f"other vertices than {list(zip(plain.points, tags))}"
        walls = {tuple(sorted(edge.ends)) for edge in self.edges if edge.is_constraint}
        if walls != plain.walls:
            return f"other constraints than {sorted(plain.walls)}"
        corners = set(self.faces.values())
        if len(self.points) > MANY and not are_on_line(self.points):
            free = {edge.ends for edge in self.edges if not edge.is_constraint}
            return tiling_fault(self.points, corners, free) or self.wrong_links()
        wanted = set(plain.edges(pairs_of(corners)))
        if self.pairs() != wanted or 2 * len(wanted) != len(self.edges):
            return f"other edges than {sorted(wanted)}"
        if corners != plain.faces_by(wanted) or len(corners) != len(self.faces):
            return f"other faces than {sorted(plain.faces_by(wanted))}"
        return self.wrong_links()
