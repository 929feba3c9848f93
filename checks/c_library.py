#!/usr/bin/env python3
"""checks/c_library.py: compiles the library for C, and tries it as C programs may use it.

c/Makefile makes c/libtevasulim.so over the libraries that the gate has built. The examples in c/
are compiled with all warnings as errors and with the address sanitizer, and run. Then calls are
made from here, by ctypes: each status is met once, lists may be too short, and the memory that a
closed triangulation had has to be given back. The calls are made in a process of their own, so that
one that crashes is seen. What calls answer is looked at by checks/c_script.py.

With a file before all else, that library is taken as it is: nothing is known of how it was built.
"""
import ctypes
import os
import random
import resource
import subprocess
import sys
import tempfile
from ctypes import c_int32, c_uint8, c_uint32, c_uint64

from faults import c_calls
from for_c.calls import (
    CALLS,
    FAR,
    KEPT,
    MOST,
    NONE,
    STATUSES,
    Difference,
    Kept,
    Library,
    expect,
    points_of,
    shape_of,
    words_of,
)
from debian import alone, prepare_commands
from project import ROOT

WARNINGS = ["-Wall", "-Wextra", "-Wshadow", "-Wconversion", "-Werror", "-pedantic"]
WARNINGS += ["-fsanitize=address", "-g"]
# No machine at hand has the memory for so many vertices.
NOT_MET = {"OUT_OF_INDEXES"}
HILL = "nearest to the camp: point 1\n"
PATH = "the path crosses edge 2-0, fence: yes\nthe path crosses edge 2-1, fence: no\n"
FACES = "face 0 1 2\nface 0 1 3\nface 0 2 3\n"


def queries():
    """Each call that writes a list of its own length: its name, its width, what its numbers are and
    what comes before the list. The shapes have all of a square of side 4 within them, the segment
    crosses it."""
    segment = (points_of([(-1, 1)])[0], points_of([(9, 1)])[0])
    shapes = [shape_of(0, (0, 0), (0, 0), 99), shape_of(1, (0, 0), (9, 9), 0)]
    calls = [("positions", 2, c_int32, ()), ("numbers", 1, c_uint64, ())]
    calls += [("faces", 9, c_uint32, ()), ("edges", 3, c_uint32, ())]
    calls += [("face_layers", 1, c_uint32, ()), ("line", 4, c_uint32, segment)]
    calls += [("conflicts", 2, c_uint32, segment)]
    ends = (points_of([(0, 0)])[0], points_of([(4, 3)])[0])
    free = words_of([1] * 4, c_uint8)
    calls += [("way", 2, c_int32, (*ends, *free)), ("reachable", 1, c_uint32, free)]
    calls += [("wide_faces", 1, c_uint8, (*free, 1))]
    calls += [("faces_beyond", 1, c_uint8, (points_of([(0, 0), (4, 4)])[0],))]
    names = ("vertices_in", "edges_in")
    return calls + [(name, 1, c_uint32, (it,)) for name in names for it in shapes]


def square(library):
    """A square with a vertex inside, of which three sides are constraints."""
    kept = Kept(library, 1)
    kept.insert_all([(0, 0), (4, 0), (4, 4), (0, 4), (1, 2)])
    for k in range(3):
        places = kept.locate("locate", [(0, 0), (4, 0), (4, 4), (0, 4)][k : k + 2], 2)[1]
        expect(kept.call("constrain", places[0][1], places[1][1]), "OK", "constrain")
    return kept


def try_lengths(library):
    """Lists that are too short say what they want."""
    kept = square(library)
    for name, width, kind, words in queries():
        status, rows, length = kept.all(name, width, *words, kind=kind)
        expect((status, length > 0), ("OK", True), name)
        for room in range(length):
            found = kept.all(name, width, *words, room=room, kind=kind)
            expect((found[0], found[2]), ("TOO_SHORT", length), f"{name} with room for {room}")
            if name in ("line", "conflicts", "way", "vertices_in", "edges_in"):
                expect(found[1], rows[:room], f"{name} with room for {room}")
    expect(kept.locate("locate", [(0, 0), (1, 1)], 2, room=1)[0], "TOO_SHORT", "locate")
    kept.close()
    expect(Kept(library, 2).opened, "NO_SUCH_KIND", "open")


def nothing(kind):
    """Zeros of a kind: a pointer to some, a length, a number."""
    return (kind._type_ * 9)() if hasattr(kind, "contents") else kind(0)


def try_closed(library):
    """Each call refuses a closed triangulation, which stays closed."""
    kept = Kept(library, 0)
    kept.close()
    for name, types in CALLS.items():
        if types[:1] == (KEPT,) and name not in ("open", "close"):
            status = kept.call(name, *map(nothing, types[1:]))
            expect(status, "CLOSED", f"{name} of a closed one")
    expect(kept.handle.is_open, False, "a closed one")
    library.call("close", None)


def try_refusals(library):
    """Each status that is told of what is there and what is given."""
    plain, kept = Kept(library, 0), Kept(library, 1)
    for x, y in (0, 0), (4, 0), (4, 4), (0, 4):
        kept.insert(x, y)
    expect(kept.call("constrain", 0, 2), "OK", "constrain")
    far, number = points_of([(FAR, 0)]), ctypes.c_uint64()
    faces, seen = (ctypes.c_uint32 * 9)(), [ctypes.byref(ctypes.c_size_t()) for _ in range(2)]
    drawn = (*points_of([(0, 0)]), *words_of([(0, 1)]), faces, 1, *seen)
    found = [
        ("ALREADY_OPEN", plain.call("open", 0)),
        ("IS_PLAIN", plain.call("constrain", 0, 0)),
        ("IS_CONSTRAINED", kept.call("allow_constraints")),
        ("UNEQUAL_LENGTHS", kept.call("set_numbers", *words_of([0]), ctypes.byref(number), 0)),
        ("TOO_LARGE", kept.insert(0, -MOST - 1)[0]),
        ("TOO_LARGE", kept.locate("locate", [(0, 0), (MOST + 1, 0)], 2)[0]),
        ("NEGATIVE", kept.all("edges_in", 1, shape_of(0, (0, 0), (FAR, FAR), -1))[0]),
        ("NO_SUCH_KIND", kept.all("vertices_in", 1, shape_of(2, (0, 0), (0, 0), 0))[0]),
        ("TOO_LARGE", kept.all("line", 4, far[0], far[0])[0]),
        ("TOO_LARGE", kept.way((0, 0), (0, MOST + 1), [1, 1])[0]),
        ("UNEQUAL_LENGTHS", kept.way((0, 0), (1, 1), [1])[0]),
        ("UNEQUAL_LENGTHS", kept.reachable([1])[0]),
        ("UNEQUAL_LENGTHS", kept.wide_faces([1], 1)[0]),
        ("NEGATIVE", kept.wide_faces([1, 1], -1)[0]),
        ("NO_SUCH_VERTEX", kept.call("remove", 4)),
        ("NO_SUCH_POINT", library.status("triangulate", *drawn)),
        ("CROSSING", kept.call("constrain", 1, 3)),
        ("NO_CONSTRAINT", kept.call("release", 0, 1)),
    ]
    for wanted, status in found:
        expect(status, wanted, "a refused call")
    plain.close()
    kept.close()


def try_texts(library):
    texts = [library.text(status) for status in range(len(STATUSES))]
    expect(len({text for _, text, _ in texts}), len(STATUSES), "texts of statuses")
    strings = [library.call("status_string", s).decode() for s in range(len(STATUSES))]
    expect(strings, [text for _, text, _ in texts], "strings of statuses")
    expect(library.call("status_string", NONE).decode(), strings[16], "of no status")
    for status, (said, text, length) in enumerate(texts):
        expect(said, "NO_SUCH_STATUS" if status == 16 else "OK", "status_text")
        expect(len(text), length, "the length of a text")
        expect(library.text(status, length)[0], "TOO_SHORT", "status_text")


def resident():
    ctypes.CDLL(None).malloc_trim(0)
    return int(open("/proc/self/statm").read().split()[1]) * os.sysconf("SC_PAGE_SIZE")


def try_memory(library):
    """Memory comes back, and where there is too little a call says so."""
    chance = random.Random(7)
    points = [(chance.randrange(MOST), chance.randrange(MOST)) for _ in range(100000)]
    given, room = points_of(points)[0], (ctypes.c_uint32 * len(points))()
    size, held = len(points), resident()
    for _ in range(4):
        kept = Kept(library, 1)
        expect(kept.call("insert_all", given, size, room, size), "OK", "insert_all")
        full = resident()
        kept.close()
    expect(full - held > 5_000_000, True, "memory of 100000 vertices")
    expect(resident() - held < 2_000_000, True, "memory that is given back")
    used = int(open("/proc/self/statm").read().split()[0]) * os.sysconf("SC_PAGE_SIZE")
    resource.setrlimit(resource.RLIMIT_AS, (used + 8_000_000, resource.RLIM_INFINITY))
    kept = Kept(library, 0)
    expect(kept.call("insert_all", given, size, room, size), "OUT_OF_MEMORY", "insert_all")
    kept.close()


def try_calls(file):
    library = Library(file)
    expect(library.call("version"), 100, "version")
    try_texts(library)
    try_lengths(library)
    try_closed(library)
    try_refusals(library)
    try_memory(library)
    expect(set(STATUSES) - library.met, NOT_MET, "statuses that were not met")
    print("met: each status but", *NOT_MET)


def compile_and_run(compiler, source, flags, library, wanted):
    with tempfile.TemporaryDirectory() as folder:
        program = f"{folder}/program"
        words = [compiler, *flags, *WARNINGS, f"-I{ROOT}/include", f"{ROOT}/{source}"]
        subprocess.run([*words, "-o", program, library], check=True)
        how = {"env": {**os.environ, "LD_LIBRARY_PATH": os.path.dirname(library)}}
        said = subprocess.run([program], check=True, capture_output=True, text=True, **how).stdout
        expect(said, wanted, f"what {source} says")


def compile_each(library):
    """The examples, and each call of the header for C++ with and without exceptions. Below C++17
    that header says what it needs."""
    compile_and_run("gcc", "c/hill.c", ["-std=c99"], library, HILL + PATH)
    compile_and_run("g++", "c/hill.cpp", ["-std=c++17"], library, HILL + PATH + FACES)
    is_proved = ctypes.CDLL(library).tevasulim_is_proved()
    said = "proved: yes\n" if is_proved else "proved: no\n"
    source = "checks/for_c/every_call.cpp"
    compile_and_run("g++", source, ["-std=c++17", "-fno-exceptions"], library, said)
    compile_and_run("g++", source, ["-std=c++17"], library, said + "with exceptions\n")
    words = ["g++", "-std=c++14", "-fsyntax-only", f"-I{ROOT}/include", f"{ROOT}/c/hill.cpp"]
    refused = subprocess.run(words, capture_output=True, text=True)
    expect("tevasulim.hpp needs C++17" in refused.stderr, True, "C++14")


def call_with_each_growth_refused(library):
    with tempfile.TemporaryDirectory() as folder:
        shim = f"{folder}/shim.so"
        words = ["gcc", "-std=c11", "-Wall", "-Wextra", "-Werror", "-shared", "-fPIC", "-O1"]
        words += ["-x", "c", "-", "-o", shim, "-ldl"]
        subprocess.run(words, input=c_calls.SHIM, text=True, check=True)
        words = [sys.executable, "-B", __file__, "--refused", library, shim]
        subprocess.run(words, env={**os.environ, "LD_PRELOAD": shim}, check=True)


def main(words):
    if words[:1] == ["--calls"]:
        try_calls(words[1])
        return
    if words[:1] == ["--refused"]:
        c_calls.try_each(Library(words[1]), ctypes.CDLL(words[2]))
        return
    prepare_commands("gcc", "g++", "make")
    library = os.path.realpath(words[0]) if words else f"{ROOT}/c/libtevasulim.so"
    if not words:
        # The checkers of the Python package make it, too.
        with alone("library"):
            subprocess.run(["make", "-s", "-C", f"{ROOT}/c"], check=True)
        expect(ctypes.CDLL(library).tevasulim_is_proved(), 1, "whether the library is proved")
    compile_each(library)
    call_with_each_growth_refused(library)
    subprocess.run([sys.executable, "-B", __file__, "--calls", library], check=True)


if __name__ == "__main__":
    try:
        main(sys.argv[1:])
    except (Difference, subprocess.CalledProcessError) as error:
        sys.exit(f"checks/c_library.py: {error}")
