"""The calls that checks/refused_calls.py and checks/refused_hints.py make, as lines for test_calls."""
from model.session import vertex_handle, vertex_text

SHAPES = [
    "edges_in_rectangle -50 -30 50 40",
    "vertices_in_rectangle -50 -30 50 40",
    "edges_in_circle 10 10 3000",
    "vertices_in_circle 10 10 3000",
]
# At first nothing is there; three vertices of one line come, and one goes; then those beside the
# line. Data are written to all edges and faces now and then. From `from_delaunay` on there are
# constraints: chains, vertices in and beside them, and releases.
SCRIPT = [
    "with_capacity 100 294 196",
    "insert 0 0 1",
    "insert 40 10 2",
    "insert -40 -10 3",
    "write_data 100",
    "remove 1",
    "insert 40 10 4",
    "insert_with_hint -30 50 5 1",
    "insert_counting 10 -70 6",
    "insert 90 90 7",
    "write_data 200",
    "insert_counting 20 5 8",
    "insert_with_hint 5 25 9 3",
    "insert -60 80 10",
    "insert -80 20 11",
    *SHAPES,
    "write_data 300",
    "remove 3",
    "locate_and_remove 20 5",
    "remove 0",
    "insert 0 0 12",
    "insert 7 -11 13",
    "write_data 400",
    "try_clone",
    "from_delaunay",
    "write_data 500",
    "try_clone",
    "insert 30 60 14",
    "try_add_constraint 2 3",
    "remove_constraint_edge 2 3",
    "add_constraint_unless_crossed 2 3",
    "remove_constraint_edge 2 3",
    "try_add_constraint 6 4",
    "write_data 600",
    "add_constraint_edge -100 0 100 0",
    "insert 50 0 15",
    "insert_with_hint -45 0 16 2",
    "write_data 700",
    "add_constraint_edges -90 -90 0 -90 90 -80 85 -20",
    "add_closed_edges -20 60 20 62 15 80 -10 79",
    *SHAPES,
    "write_data 800",
    "locate_and_remove 50 0",
    "remove 1",
    "remove 5",
    "remove_constraint_edge 5 18",
    "insert -20 -20 17",
    "try_clone",
    "insert_all -70 44 60 -3 61 -4 60 -3",
    "with_capacity 50 150 100",
    "begin 0",
    f"insert_all {' '.join(f'{7 * i} {i * i % 10}' for i in range(23))}",
    "insert_all 3 4 0 50 3 4 11 -9",
    "reserve 200",
    "insert_all 1 99",
]
# Edits that take no memory, each after so many lines of SCRIPT: what it gives.
WITHOUT_MEMORY = [
    (0, "clear", "0"),
    (0, "remove 0", "None"),
    (7, "replace_vertex 1 90", f"Some({vertex_text((-40, -10), 3)})"),
    (0, "insert 536870913 0 1", "Err(TooLarge)"),
    (0, "with_capacity 0 0 0", "Ok(())"),
    (0, "with_capacity 5000000000 0 0", "Err(OutOfIndexes)"),
    (7, "insert 40 10 77", f"Ok({vertex_handle(2)})"),
    (11, "insert 40 10 77", f"Ok({vertex_handle(2)})"),
    (11, "insert_with_hint 40 10 78 0", f"Ok({vertex_handle(2)})"),
    (11, "insert 0 -536870913 1", "Err(TooLarge)"),
    (11, "locate_and_remove 41 10", "Some(Ok(None))"),
    (11, "insert_all 1 1 0 536870913", "Err(Vertex { place: 1, error: TooLarge })"),
    (0, "insert_all", "Ok([])"),
    (11, "reserve 5000000000", "Err(OutOfIndexes)"),
    (SCRIPT.index("try_add_constraint 2 3"), "try_add_constraint 1 1", "Some(Ok([]))"),
    (SCRIPT.index("try_add_constraint 2 3"), "add_constraint_unless_crossed 1 1",
     "Some(Ok(Some(false)))"),
    (SCRIPT.index("remove_constraint_edge 2 3"), "add_constraint_unless_crossed 6 4",
     "Some(Ok(None))"),
    (SCRIPT.index("try_add_constraint 2 3"), "remove_constraint_edge 6 3", "Some(Ok(false))"),
    (SCRIPT.index("remove_constraint_edge 2 3"), "try_add_constraint 6 4", "Some(Ok([]))"),
]
# Lists of edits, each after some lines: of both types, with steps refused for other reasons.
PLACES = [(0, 0), (40, 10), (-30, 50), (10, -70), (90, 90), (20, 5)]
INSERTED = [f"list_insert {x} {y}" for x, y in PLACES]
REPLAYED = [
    ([], INSERTED),
    (
        SCRIPT[: SCRIPT.index("try_clone")],
        [*INSERTED, "list_remove 2", "list_remove 99", "list_add 0 1"],
    ),
    (
        SCRIPT[: SCRIPT.index("try_add_constraint 2 3")],
        ["list_insert 1 60", "list_add 2 3", "list_insert 33 44", "list_add 6 4", "list_remove 7",
         "list_replace 0 1 1", "list_release 2 3", "list_release 0 9", "list_clear", *INSERTED[:2]],
    ),
]
# States at which questions are asked: nothing, a vertex, a line, and more, and with constraints.
QUIET_STATES = [
    ([], False),
    (SCRIPT[:2], False),
    (SCRIPT[:7], False),
    (SCRIPT[: SCRIPT.index("from_delaunay")], False),
    (SCRIPT[: SCRIPT.index("locate_and_remove 50 0")], True),
]
# Questions, and edits that put nothing in: of both types, and of one.
QUIET = {
    "both": [
        *("state", "counts", "elements", "names", "hull", "position 0", "ends 0", "ends 1"),
        *("corners 1", "write_data 50", "swap", "clear", "told", "asked"),
        *(f"{call} {place}" for call in ("locate", "locate_vertex", "hint")
          for place in ("0 0", "11 3", "500 -500", "20 60", "536870913 0")),
        *(f"locate_with_hint {place} {hint}" for hint in (0, 3, 1000)
          for place in ("0 0", "11 3", "500 -500", "20 60", "536870913 0")),
        *("line 0 0 40 10", "line -500 -400 500 300", "line 7 7 7 7", "line 300 0 400 0"),
        *("line_of_handles 0 4", "line_of_handles 2 1", "line_of_handles 0 99"),
        *("replace_vertex 0 99", "replace_vertex 99 0", "remove 99", "locate_and_remove 501 501"),
        *("insert 0 536870913 1", "insert_with_hint -536870913 0 1 0", "with_capacity 0 0 0"),
    ],
    "plain": ["nearest_neighbor 3 4", "nearest_neighbor 500 500"],
    "constrained": [
        *("exists_constraint 0 1", "exists_constraint 3 2", "is_constraint_edge 0 1"),
        *("intersects_constraint 0 0 40 60", "intersects_constraint -500 5 500 5"),
        *("conflicts 0 0 40 60", "conflicts -500 5 500 5", "conflicts_of_handles 0 4"),
        *("conflicts_of_handles 2 6", "try_add_constraint 3 3", "remove_constraint_edge 99 0"),
    ],
}
# Edits and copies with a hierarchy of hints.
HINTED = [
    "insert 0 0 1",
    "insert 40 10 2",
    "insert -30 50 3",
    "insert -60 -20 4",
    "insert 10 -70 5",
    "insert 90 90 6",
    "insert 20 30 7",
    "insert 50 -50 8",
    "insert -80 80 9",
    "try_clone",
    "insert_counting 45 45 12",
    "edges_in_circle 10 10 3000",
    "vertices_in_rectangle -50 -30 50 40",
    "remove 2",
    "remove 0",
    "insert_with_hint 3 3 10 1",
    "locate_and_remove 10 -70",
    "try_clone",
    "from_delaunay",
    "insert 1 60 11",
    "try_add_constraint 1 2",
    "insert 5 5 12",
    "try_add_constraint 3 4",
    "add_constraint_edge -100 -95 100 -95",
    "add_constraint_edges -90 -90 0 -90 95 -80",
    "add_closed_edges -20 160 20 162 15 180",
    "remove_constraint_edge 1 2",
    "remove 3",
    "try_clone",
    "insert_all 12 34 -15 26 50 8",
    "with_capacity 50 150 100",
]
# Where hints are asked for.
POSITIONS = [(40, 10), (-30, 50), (-60, -20), (50, -50), (-80, 80), (20, 30)]
# The hierarchies of test_calls, each by the word that chooses it, with its branch factor.
FACTORS = [("3", 0), ("4", 1), ("5", 2), ("6", 3), ("7", 16)]
# So many vertices before HINTED that a hierarchy by 16 has a vertex beside the first.
CROWD = [f"insert {300 + 7 * i} {200 - i * i} {i}" for i in range(12)]
