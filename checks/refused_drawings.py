#!/usr/bin/env python3
"""checks/refused_drawings.py [PROGRAM]: refuses each growth of runs of `mesh` in turn.

PROGRAM is crates/mesh as the gate has built it; a `malloc` refuses growths (faults/refusing.py).
Each run of RUNS triangulates a drawing, with holes and layers of faces, and writes it or answers a
question. It is made again with its first growth refused, with its second, up to its last, and with
all from the first, the second .. refused. Either it ends with status 1 or 2, tells of memory, and
has written to standard output nothing or a beginning of what it writes where nothing is refused; or
it does without that memory, and writes all of that. A file that was there stays as it was where a
run is refused.
"""
import os
import subprocess
import sys
import tempfile

from faults.refusing import NONE, Page, library
from project import named_or_built

PROGRAM = named_or_built("mesh")
LAST = 2**62
# A square room with a smaller one in it, a wall, a point twice, and a point in a hole.
POLY = """9 2 1 0
1 0 0 1
2 8.5 0 2
3 8.5 8 3
4 0 8 4
5 2 2 5
6 4 2 6
7 3 4.25 7
8 6 6e0 8
9 6 6 8
8 0
1 1 2
2 2 3
3 3 4
4 4 1
5 5 6
6 6 7
7 7 5
8 6 8
1
1 3 2.5
"""
RINGS = "x,y,ring,note\n0,0,a,one\n9,0,a,\n9,9,a,\n0,9,a,\n3,3,b,\n6,3,b,\n4,6,b,\n-7.25,3,,\n"
GEOJSON = """{"type":"FeatureCollection","features":[{"type":"Feature","properties":{"a":1},
"geometry":{"type":"Polygon","coordinates":[[[0,0],[9,0],[9,9],[0,9],[0,0]],[[2,2],[6,2],[2,6],[2,2]]]}},
{"type":"Feature","geometry":{"type":"LineString","coordinates":[[7,7],[8,5.5],[7,3]]}}]}"""
# Lines that cross, with heights; and a sequence of polygons that overlap and repeat a point.
LINES = "x,y,z,line\n0,0,0,a\n4,4,8,a\n0,4,1,b\n4,0,3,b\n1,0,5,c\n1,4,5,c\n"
PARCELS = """{"type":"Polygon","coordinates":[[[0,0],[6,0],[6,6],[0,6],[0,0]]]}
{"type":"Polygon","coordinates":[[[6,6],[3,9],[3,3],[6,6]],[[5,6],[4,6],[4,5],[5,6]]]}
"""
ASKED = "x,y\n1,1\n0,0\n-5,4.125\n4.5,0\n"
# The words, the text and, if any, the table that the words end in.
RUNS = [
    (["--from", "poly", "--keep", "inside", "--to", "obj"], POLY, None),
    (["--from", "poly", "--to", "ele", "--round", "0"], POLY, None),
    (["--from", "csv", "--keep", "inside", "--to", "ply"], RINGS, None),
    (["--from", "geojson", "--keep", "inside", "--to", "svg"], GEOJSON, None),
    (["--from", "geojson", "--to", "geojson"], GEOJSON, None),
    (["--from", "csv", "--to", "obj"], LINES, None),
    (["--from", "geojson", "--keep", "inside", "--compact", "--to", "csv"], PARCELS, None),
    (["--from", "csv", "--to", "node", "--lines"], RINGS, "from,to\n1,5\n8,4\n"),
    (["--from", "csv", "-q", "--nearest"], RINGS, ASKED),
    (["--from", "poly", "-q", "--locate"], POLY, ASKED),
    (["--from", "poly", "-q", "--line", "-1", "1", "9", "7"], POLY, None),
]


def fail(words, number, *why):
    sys.exit("\n".join([f"mesh {' '.join(words)}, growth {number}:", *map(str, why)]))


class Runs:
    """Runs of the program with some words, over a text."""

    def __init__(self, page, words, text):
        self.page, self.words, self.text = page, [PROGRAM, *words], text.encode()

    def run(self, numbers):
        """The status, both outputs, and how many growths were asked for and refused."""
        self.page.refuse(numbers)
        ran = subprocess.run(self.words, input=self.text, capture_output=True, timeout=60,
                             env=self.page.environment)
        return ran.returncode, ran.stdout, ran.stderr.decode(), *self.page.found()

    def refuse(self, numbers, wanted):
        """Whether a run with these growths refused was refused itself."""
        status, said, error, _, refused = self.run(numbers)
        if not refused:
            fail(self.words, numbers, "no growth was refused")
        if status == 0:
            if (said, error) != wanted:
                fail(self.words, numbers, said, error, "and not", *wanted)
            return False
        if status not in (1, 2) or not wanted[0].startswith(said) or "memory" not in error:
            fail(self.words, numbers, f"status {status}", said, error)
        return True


def sweep(page, words, text):
    """How many growths of a run were refused, and how many of these it did without."""
    runs = Runs(page, words, text)
    status, said, error, growths, _ = runs.run(NONE)
    if status or not said:
        fail(words, "none", f"status {status}", said, error)
    trials = [(n, last) for n in range(1, growths + 1) for last in (n, LAST)]
    refused = [runs.refuse(numbers, (said, error)) for numbers in trials]
    return len(refused), refused.count(False)


def check_old_file(page, folder):
    """A refused run leaves the file that it was to write, and nothing beside it."""
    os.mkdir(f"{folder}/out")
    path = f"{folder}/out/old.obj"
    words = [*RUNS[0][0], "-o", path]
    runs = Runs(page, words, POLY)
    growths = runs.run(NONE)[3]
    for number in range(1, growths + 1):
        with open(path, "w", encoding="utf-8") as file:
            file.write("old")
        status, said, error, _, _ = runs.run((number, LAST))
        with open(path, encoding="utf-8") as file:
            kept = file.read()
        if os.listdir(f"{folder}/out") != ["old.obj"] or (status != 0) != (kept == "old"):
            fail(words, number, status, said, error, kept)
    return growths


def main():
    with tempfile.TemporaryDirectory() as folder:
        page = Page(library(folder), True)
        total, without = check_old_file(page, folder), 0
        for words, text, table in RUNS:
            if table is not None:
                with open(f"{folder}/table.csv", "w", encoding="utf-8") as file:
                    file.write(table)
                words = [*words, f"{folder}/table.csv"]
            counts = sweep(page, words, text)
            total, without = total + counts[0], without + counts[1]
    print(f"{len(RUNS) + 1} runs, {total} times refused, {without} of them without harm")


main()
