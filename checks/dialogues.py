#!/usr/bin/env python3
"""checks/dialogues.py [PROGRAM]: whole runs of the program `triangulate`.

PROGRAM is crates/triangulate as the gate has built it. Each dialogue of dialogues.txt is put to it,
and then what no dialogue can say: points in many orders, bytes that are no text, a line that comes
byte by byte, and readers and writers that fail at each of their calls in turn.

In dialogues.txt an empty line is between two dialogues. The first line of each begins with the
letter of a sheet. `> ` stands before a line for the program, `. ` before one without its end, `< `
before a line of its replies. Below a line `or` are all lines of the replies that it may give in
their place.
"""
import os
import select
import subprocess
import sys
import tempfile
from itertools import permutations

from faults.failing import Failing
from project import CHECKS, built

PROGRAM = built("triangulate")
# The points of sheets that are inserted in many orders.
NINE = [(x, y) for y in (-1, 0, 1) for x in (-1, 0, 1)]
MOST = 2**29
SHEETS = {"G": NINE, "B": [(MOST * x, MOST * y) for x, y in NINE]}
SHEETS["R"] = [(x, 0) for x in range(-50, 50)]
# The five sites of L and their faces, counterclockwise, by their numbers; and the faces where a
# constraint joins the first site and the fourth.
SITES = [(-30, 20), (0, -20), (0, 20), (14, 0), (30, 0)]
FACES = [(0, 1, 2), (1, 3, 2), (1, 4, 3), (2, 3, 4)]
BESIDE = [(0, 1, 3), (0, 3, 2), (1, 4, 3), (2, 3, 4)]
# Lines, and what answers each.
ANSWERS = [("insert 0 1", "vertex 0"), ("insert 1 1", "vertex 1"), ("counts", "2 1 0 0")]
ANSWERS += [("insert 1 0", "vertex 2"), ("counts", "3 3 1 0"), ("faces", "0 2 1\nend")]
NO_TEXT = b"counts\xff\ncounts\n\xff\ninsert 0 \xff1\ncounts\n"
NO_TEXT_ANSWERED = b"bad line\n0 0 0 0\nbad line\nbad line\n0 0 0 0\n"


def written(program, sheet, given):
    """What the program writes for an input, where it comes to its end."""
    given = given if isinstance(given, bytes) else given.encode()
    ran = subprocess.run([program, sheet], input=given, capture_output=True, timeout=60)
    if ran.returncode or ran.stderr:
        sys.exit(f"{given}: status {ran.returncode}, {ran.stderr}")
    return ran.stdout


def look(what, found, *wanted):
    if found not in [it if isinstance(it, bytes) else it.encode() for it in wanted]:
        sys.exit("\n".join([f"{what}:", str(found), "and not", *map(str, wanted)]))


def play_dialogues(program):
    with open(f"{CHECKS}/dialogues.txt", encoding="utf-8", newline="") as file:
        dialogues = file.read().rstrip("\n").split("\n\n")
    for dialogue in dialogues:
        heading, *lines = dialogue.split("\n")
        given, replies = "", [""]
        for line in lines:
            mark, _, rest = line.partition(" ")
            given += {">": rest + "\n", ".": rest}.get(mark, "")
            replies[-1] += rest + "\n" if mark == "<" else ""
            replies += [""] if line == "or" else []
        look(heading, written(program, heading[0], given), *replies)
    print(f"{len(dialogues)} dialogues")


def ordered(program, sheet, start, step, counts):
    """Points inserted in an order, counted, and removed again, index 0 first: of those that are
    left the last one takes index 0."""
    points = SHEETS[sheet]
    points = [points[(start + step * k) % len(points)] for k in range(len(points))]
    given = "".join(f"insert {x} {y}\n" for x, y in points) + "counts\n"
    given += "remove 0\n" * len(points) + "counts\n"
    replies = "".join(f"vertex {k}\n" for k in range(len(points))) + f"{counts}\n"
    while points:
        x, y = points[0]
        replies += f"removed {x} {y}\n"
        points = points[-1:] + points[1:-1] if len(points) > 1 else []
    look(f"{sheet} from {start} by {step}", written(program, sheet, given), f"{replies}0 0 0 0\n")


def play_orders(program):
    for sheet in "GB":
        for start in range(9):
            for step in (1, 2, 4, 5, 7, 8):
                ordered(program, sheet, start, step, "9 16 8 0")
    for start, step in (0, 37), (1, 37), (50, 37), (99, 37), (0, 1):
        ordered(program, "R", start, step, "100 99 0 0")
    print("nine points of two sheets in 54 orders each, a hundred points in 5")


class History:
    """Commands for the five sites of L, and what is to be answered: the faces go by the sites that
    stand alone."""

    def __init__(self, sites):
        self.given, self.replies, self.sites = "", "", []
        for site in sites:
            self.insert(site)
        self.tell(FACES)

    def insert(self, site):
        self.given += "insert {} {}\n".format(*SITES[site])
        self.replies += f"vertex {len(self.sites)}\n"
        self.sites.append(site)

    def remove(self, site):
        index = self.sites.index(site)
        self.given += f"remove {index}\n"
        self.replies += "removed {} {}\n".format(*SITES[site])
        self.sites[index] = self.sites[-1]
        self.sites.pop()

    def tell(self, faces):
        """Faces are told with their least index first, in rising order."""
        corners = [[self.sites.index(site) for site in face] for face in faces]
        corners = [c[c.index(min(c)) :] + c[: c.index(min(c))] for c in corners]
        self.given += "faces\n"
        self.replies += "".join(f"{i} {j} {k}\n" for i, j, k in sorted(corners)) + "end\n"

    def constrain(self):
        i, j = self.sites.index(0), self.sites.index(3)
        self.given += f"constrain {i} {j}\n"
        self.replies += f"edges {i}-{j}\n"
        self.tell(BESIDE)
        self.given += f"counts\nrelease {i} {j}\n"
        self.replies += "5 8 4 1\nreleased\n"
        self.tell(FACES)


def play_histories(program):
    for sites in permutations(range(5)):
        history, other = History(sites), History(sites)
        history.constrain()
        for site in range(5):
            other.remove(site)
            other.insert(site)
            other.tell(FACES)
        for it in history, other:
            look(f"the sites {sites}", written(program, "L", it.given), it.replies)
    print("five points in each order: the same faces, also after edits that are taken back")


def answer_bytewise(program):
    """A line that comes byte by byte is answered before more is given."""
    how = {"stdin": subprocess.PIPE, "stdout": subprocess.PIPE, "bufsize": 0}
    with subprocess.Popen([program, "G"], **how) as running:
        for line, reply in ANSWERS:
            for byte in f"{line}\n".encode():
                running.stdin.write(bytes([byte]))
            wanted, found = f"{reply}\n".encode(), b""
            while len(found) < len(wanted):
                if not select.select([running.stdout], [], [], 30)[0]:
                    sys.exit(f"{line}: {found} after 30 seconds, and no more is given")
                found += running.stdout.read(len(wanted) - len(found))
            look(line, found, wanted)
        running.stdin.close()
        look("the end", running.stdout.read(), b"")


def fail_reads(failing):
    """A reader that fails once it has given some bytes: all complete lines are answered."""
    given = "".join(f"{line}\n" for line, _ in ANSWERS).encode()
    for count in range(len(given) + 2):
        lines = given[:count].count(b"\n")
        replies = "".join(f"{reply}\n" for _, reply in ANSWERS[:lines]).encode()
        wanted = (1, replies, b"triangulate: read failed\n")
        if count > len(given):
            wanted = (0, replies, b"")
        found = failing.run(given, read_fails_after=count)[:3]
        if found != wanted:
            sys.exit(f"a reader that fails after {count} bytes: {found} and not {wanted}")


def fail_writes(failing, width, takes_none):
    """A writer that fails at each of its calls in turn, or takes no byte then."""
    given = "".join(f"{line}\n" for line, _ in ANSWERS).encode()
    replies = "".join(f"{reply}\n" for _, reply in ANSWERS).encode()
    for call in range(200):
        found = failing.run(given, width=width, write_fails_at=call, takes_none=takes_none)
        status, out, told, calls = found
        if calls <= call:
            if (status, out, told) != (0, replies, b""):
                sys.exit(f"a writer that does not fail: {found}")
            return
        is_told = (status, told) == (1, b"triangulate: write failed\n")
        if not is_told or calls != call + 1 or not replies.startswith(out):
            sys.exit(f"a writer that fails at its call {call}: {found}")
    sys.exit("a writer was called 200 times")


def main(words):
    program = os.path.realpath(words[0] if words else PROGRAM)
    play_dialogues(program)
    play_orders(program)
    play_histories(program)
    look("lines that are no text", written(program, "G", NO_TEXT), NO_TEXT_ANSWERED)
    answer_bytewise(program)
    with tempfile.TemporaryDirectory() as folder:
        failing = Failing(folder, [program, "G"])
        fail_reads(failing)
        for width in 1, 3, 1000:
            for takes_none in False, True:
                fail_writes(failing, width, takes_none)
    print("readers and writers that fail at each call end the run, and what is due is written")


main(sys.argv[1:])
