#!/usr/bin/env python3
"""checks/refused_mesh.py [PROGRAM]: refuses each growth of each call of the mesh that takes memory
in turn, and looks at all of the mesh.

PROGRAM is crates/test_mesh as the gate has built it: it makes the call of each line that it reads.
A `malloc` (faults/refusing.py) refuses growths of a line's call; those before them are the growths
of reading the line, and a remark of its length takes as many.

Each line of SCRIPT that takes memory is run again and again, each time in a run of its own that
begins with the lines before it: with its first growth refused, with its second, up to its last; and
so on a copy, whose lists are full. The reply has to be a refusal, and all counts, links and data
those of before. Made again, the call has to give what it gives where nothing was refused. A line
that takes no memory has to be answered as ever with every growth refused.
"""
import sys
import tempfile

from faults.refusing import NONE, library
from faults.trial import Trial, ask_without_memory, known_of, sweep
from project import named_or_built

# What is written to edges and faces before some of the calls.
WRITES = [
    *(f"directed_edge_data_mut {i} {7 * i + 3}" for i in range(42)),
    *(f"undirected_edge_data_mut {i} {70 * i + 30}" for i in range(21)),
    *(f"face_data_mut {i} {9 * i + 1}" for i in range(14)),
]
# A line of vertices; then faces, and each way to grow, to flip and to remove.
SCRIPT = [
    "with_capacity 30 40 20",
    "links_of_a_line",
    "append_unconnected_vertex 1",
    "append_unconnected_vertex 2",
    "setup_initial_two_vertices 0 1",
    "extend_line 1 3",
    "split_edge_when_all_vertices_on_line 0 4",
    "clone",
    "extend_line 2 5",
    "map_undirected_edges",
    "remove_when_degenerate 0",
    "remove_when_degenerate 2",
    "clear",
    "reserve_capacity 1 1 1",
    "append_unconnected_vertex 1",
    "append_unconnected_vertex 2",
    "setup_initial_two_vertices 0 1",
    "create_new_face_adjacent_to_edge 0 6",
    "clone",
    "map_undirected_edges",
    "create_new_face_adjacent_to_edge 3 7",
    "insert_into_triangle 8 1",
    "insert_into_triangle 9 2",
    *WRITES,
    "map_undirected_edges",
    "create_single_face_between_edge_and_next 7",
    "create_single_face_between_edge_and_next 9",
    "split_half_edge 4 11",
    "split_edge 2 12",
    "split_edge 12 13",
    *WRITES,
    "reserve_capacity 40 90 60",
    "append_unconnected_vertex 14",
    "clone",
    "append_unconnected_vertex 15",
    "swap_remove_vertex 9",
    "map_undirected_edges",
    "flip_cw 3",
    "update_vertex 2 90",
    "isolate_vertex_and_fill_hole 8",
    "isolate_vertex_and_fill_hole 7",
    "clear",
    "reserve_capacity 70 150 90",
    "append_unconnected_vertex 1",
    "append_unconnected_vertex 2",
    "setup_initial_two_vertices 0 1",
    "create_new_face_adjacent_to_edge 0 3",
    "create_new_face_adjacent_to_edge 3 4",
    "disconnect_edge_strip 3",
]
# The calls that take memory.
TAKE_MEMORY = {
    *("with_capacity", "reserve_capacity", "clone", "map_undirected_edges", "links_of_a_line"),
    *("append_unconnected_vertex", "setup_initial_two_vertices", "extend_line"),
    *("split_edge_when_all_vertices_on_line", "create_new_face_adjacent_to_edge"),
    *("create_single_face_between_edge_and_next", "insert_into_triangle", "split_half_edge"),
    *("split_edge",),
}
# Questions, and calls that may not be made or take no room: they take no memory.
ASKED = [
    "with_capacity 0 0 0",
    "with_capacity 0 2147483648 0",
    "past_the_limit",
    "reserve_capacity 0 0 0",
    "reserve_capacity 0 2147483648 1",
    "is_full 715827882",
    "get_edge_from_neighbors 0 1",
    *("counts", "lists", "names", "lengths", "lasts", "last_names", "copies", "show", "names_from_two"),
]
OF_ONE = "vertex directed_edge edge_kind undirected_edge edge_data face links out_edges "
OF_ONE += "voronoi_edge undirected_voronoi_edge voronoi_face voronoi_vertex forms"
ASKED += [f"{call} {i}" for call in OF_ONE.split() for i in (0, 1, 3)]
ASKED += [f"compare_{kind} 0 3" for kind in ("edges", "voronoi", "names")]
REFUSED = ("None", "false", "Err(OutOfMemory)", 'Err("OutOfMemory")', "Err(AllocError)")
# A line without room stays empty.
EMPTY_LINE = "Ok(([0, 0, 0], [0, 0, 0], None))"


class MeshTrial(Trial):
    """A run of test_mesh."""

    def reads(self, line):
        """The growths of reading a line: a remark of its length takes as many."""
        return self.program.ask("# " + "." * (len(line) - 2), NONE, lambda reply: True)[1]

    def told(self, line, lines):
        return lines[0][len(line) + 3 :]

    def is_refusal(self, reply):
        return reply in REFUSED or reply == EMPTY_LINE

    def state(self):
        """All counts, links and data."""
        counts = self.ask("counts")[0]
        vertices, directed, undirected, _, faces = map(int, counts.strip("[]").split(", "))
        lines = [f"vertex {i}" for i in range(vertices)]
        for call in "links", "directed_edge", "edge_data":
            lines += [f"{call} {i}" for i in range(directed)]
        lines += [f"undirected_edge {i}" for i in range(undirected)]
        lines += [f"face {i}" for i in range(faces)]
        return [counts, *(f"{line} > {self.ask(line)[0]}" for line in lines)]


def sweep_call(command, lines, line):
    """How many growths of a call were refused, one after another."""
    if line == "clone":
        before, _, _, after = known_of(MeshTrial, command, lines, line)
        if after != before:
            sys.exit("\n".join([*lines, "the copy differs", *after]))
    growths = sweep(MeshTrial, command, lines, line)
    if not growths:
        ask_without_memory(MeshTrial, command, lines, line)
    return growths


def questions(command, lines):
    """How many questions are answered with every growth refused as without."""
    for line in ASKED:
        ask_without_memory(MeshTrial, command, lines, line)
    return len(ASKED)


def main():
    with tempfile.TemporaryDirectory() as folder:
        command = [library(folder), named_or_built("test_mesh")]
        counts = []
        for place, line in enumerate(SCRIPT):
            if line not in WRITES or line.split()[1] == "1":
                for lines in SCRIPT[:place], [*SCRIPT[:place], "clone"]:
                    counts.append((line.split()[0], sweep_call(command, lines, line)))
        asked = questions(command, []) + questions(command, SCRIPT)
    growing = [(name, growths) for name, growths in counts if growths]
    if {name for name, _ in growing} != TAKE_MEMORY:
        sys.exit(f"other calls took memory: {growing}")
    total, quiet = sum(growths for _, growths in growing), len(counts) - len(growing) + asked
    print(f"{len(growing)} calls of the mesh, {total} growths refused in turn: all is as before")
    print(f"{quiet} calls that take no memory are answered with every growth refused")


main()
