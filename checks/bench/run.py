#!/usr/bin/env python3
"""checks/bench/run.py [TIMES [CASE]]: measures checks/bench/benchmark beside CGAL (Debian: g++ libcgal-dev
libgmp-dev libmpfr-dev).

CASE is ORDER N [REMOVALS [HINTS [NUMBERS]]], the words of `benchmark`. It proves and builds
`benchmark` as a crate beside copies of the library's crates, in a folder of its own, and takes what
their out/ keeps. `checks/bench/run.py build FOLDER` does that alone and keeps the folder; `checks/bench/run.py with
PROGRAM ..`, before all other words, takes the program that was built so.

It builds checks/bench/cgal.cpp, and runs the three programs in turn, TIMES times (an odd number, 5 where
none is given), on the case that the words name or on each of CASES. What they found must agree. It
prints the median of each figure and how many times CGAL's ours is: below 1 is faster, or smaller.
Our coordinates are of `i32`, the least type that holds all in range, or, by NUMBERS, of `i64`;
CGAL's are of `double`, as its exact tests ask.

`checks/bench/run.py huge [TIMES [CASE]]` does the same where the C library asks the system for huge pages, for all three programs: a
large mesh is then found through fewer entries of the processor's table of pages. Bytes are not to be taken from it, since
they come in steps of 2 MiB.

`checks/bench/run.py instructions [CASE]` counts the machine's instructions a call in place of its time, in one run of each under
valgrind's callgrind (Debian: valgrind). They do not depend on what else the machine does.

`checks/bench/run.py bulk [TIMES [ORDER N]]` measures the insertion of a whole list by one call: ours, beside the last used vertex
and beside a hierarchy by 16, CGAL's insertion of a range, and checks/bench/delaunator.cpp. It prints nanoseconds and peak bytes
a vertex, in one run of each after another, TIMES times, and how many times CGAL's ours takes, of BULK_CASES or one.

`checks/bench/run.py misses [CASE]` counts in the same way the reads and writes of data that miss a simulated cache of 1 MiB, the
size of one core's second level here: each waits for the third level or for memory.

`checks/bench/run.py constraints|lines|shapes [TIMES [CASE]]` measures constraints that are added and released, walks along lines,
and the vertices and edges in circles and squares, beside checks/bench/constrained.cpp: CGAL's constrained triangulation and,
for shapes, its point set. CASE is ORDER N and, of constraints, `rings`, `tree` or `long`, or of shapes, how many vertices
are in each. `instructions` or `misses` in place of TIMES counts these. `checks/bench/run.py beside PROGRAM ..`, before all other
words but `with PROGRAM`, takes part in these too: PROGRAM is run by the words of checks/bench/constrained.cpp, and has to find
and to print the same.

`checks/bench/run.py peers [TIMES [ROW [N]]]` measures what another library was once the fastest in, each row of PEER_ROWS
beside each program that does the same: medians of TIMES rounds in turn, the best peer, and ours divided by it. `peers counts
[ROW [N]]` counts instructions and misses of these in place of nanoseconds, at the least of the row's sizes if none is given.
ROW is the number of a row, from 1; N may be 10000000, which no row has by itself.
"""
import glob
import os
import re
import shutil
import statistics
import subprocess
import sys
import tempfile

HERE = os.path.dirname(os.path.realpath(__file__))
ROOT = os.path.dirname(os.path.dirname(HERE))
# The program's sources, without their endings, so that the gate passes over them.
SOURCES = f"{HERE}/benchmark"
LIBRARIES_OF_OURS = "spade_delaunay exact_predicates anyhow"
# How many circles and squares the benchmark asks for at most.
SHAPES = 1000
# CGAL's plain triangulation is passed over above so many points: in random order its walks take minutes then.
PLAIN_AT_MOST = 200000
FLAGS = ["-O3", "-DNDEBUG", "-std=c++17"]
LIBRARIES = ["-lgmp", "-lmpfr"]
# Without this the C library keeps memory that was freed before the first insertion: it would count as resident before,
# and be taken again unseen. It also spares the lists of ours that were outgrown: docs/PERFORMANCE.md has both.
SETTINGS = "glibc.malloc.mmap_threshold=65536:glibc.malloc.trim_threshold=65536"
ENVIRONMENT = {**os.environ, "GLIBC_TUNABLES": SETTINGS}
# What callgrind is told and which of its events are summed, by the first word.
COUNTED = {
    "instructions": ([], ["Ir"]),
    "misses": (["--cache-sim=yes", "--LL=1048576,16,64"], ["DLmr", "DLmw"]),
}
# Where a case has a third word, so many vertices are removed, else all. The fourth is the branch factor of the hierarchy
# of hints, and the fifth the type of coordinates, `i32` where none is given; CGAL's programs pass over both.
CASES = [
    ["random", "1000"],
    ["random", "10000", "1000"],
    ["random", "100000", "1000"],
    ["hilbert", "10000", "1000"],
    ["hilbert", "100000", "1000"],
    ["rows", "10000", "1000"],
    ["scattered", "10000", "1000"],
    ["random", "10000", "1000", "16"],
    ["random", "100000", "1000", "16"],
]
# Orders and numbers of points that are inserted by one call.
BULK_CASES = [[order, count] for count in ("1000", "10000", "100000", "1000000")
              for order in ("random", "hilbert", "rows", "scattered", "clustered", "circle")]
# What is asked by these words, with all that comes behind the word `benchmark`.
QUESTIONS = {
    "constraints": [["random", count, "constraints", kind] for count in ("10000", "100000", "1000000")
                    for kind in ("rings", "tree", "long")],
    "lines": [[order, count, "lines"] for order in ("random", "clustered", "circle") for count in ("10000", "100000")],
    "shapes": [["random", count, "shapes", elements] for count in ("100000", "1000000")
               for elements in ("10", "1000", "100000") if count != elements],
}

# What is measured, by which figure, at which sizes, and the words of each program, {n} being the size: the programs are
# `benchmark`, and those of checks/bench/*.cpp.
PEER_ROWS = [
    ("remove all after insert_all, last used", "remove", ["100000", "1000000"],
     {"ours": "benchmark random {n} {n} bulk", "CGAL": "cgal range random {n}"}),
    ("remove all after single insertions, last used", "remove", ["10000", "100000"],
     {"ours": "benchmark random {n} {n} only", "CGAL": "cgal only random {n}"}),
    ("remove all, hierarchy by 16", "remove", ["10000", "100000", "1000000"],
     {"ours": "benchmark random {n} {n} 16", "CGAL hierarchy": "cgal hierarchy random {n}"}),
    ("insert sorted points of one line", "insert", ["10000", "1000000"],
     {"ours": "benchmark line {n} 0 only", "CGAL": "cgal only line {n} 0"}),
    *((f"insert_all, {order}", "insert", ["10000", "100000", "1000000"],
       {"ours": f"benchmark {order} {{n}} 0 bulk", "CGAL": f"cgal range {order} {{n}} 0",
        "delaunator": f"delaunator {order} {{n}}"}) for order in ("random", "rows", "hilbert", "clustered")),
    ("a line within a circle of vertices", "inside", ["10000", "100000"],
     {"ours": "benchmark circle {n} lines", "CGAL": "constrained circle {n} lines"}),
    # At 10^6 CGAL's point set takes a quarter of an hour to be filled in this order.
    ("1,000 vertices found, random order", "vertices_in_circle", ["100000"],
     {"ours": "benchmark random {n} shapes 1000", "CGAL": "constrained random {n} shapes 1000"}),
]


def prove(folder):
    """Proves and builds `benchmark` in a folder, with copies of the library's crates."""
    os.makedirs(folder, exist_ok=True)
    if not os.path.exists(f"{folder}/crates"):
        shutil.copytree(f"{ROOT}/crates", f"{folder}/crates")
    shutil.copy(f"{ROOT}/HANDLES", folder)
    with open(f"{ROOT}/crates.txt") as crates, open(f"{folder}/crates.txt", "w") as file:
        file.write(f"{crates.read()}benchmark: {LIBRARIES_OF_OURS}\n")
    crate = f"{folder}/crates/benchmark"
    os.makedirs(f"{crate}/src", exist_ok=True)
    for name in os.listdir(SOURCES):
        part = name if name == "stdout" else f"src/{name}.rt"
        shutil.copy(f"{SOURCES}/{name}", f"{crate}/{part}")
    subprocess.run(["rt", "run"], cwd=crate, stdin=subprocess.DEVNULL, check=True)
    return f"{crate}/out/benchmark"


def build(folder, ours):
    """The three commands, by name."""
    ours = ours or prove(f"{folder}/benchmark")
    cgal = f"{folder}/cgal"
    subprocess.run(["g++", *FLAGS, f"{HERE}/cgal.cpp", "-o", cgal, *LIBRARIES], check=True)
    return {
        "ours": [ours],
        "CGAL plain": [cgal, "plain"],
        "CGAL hierarchy": [cgal, "hierarchy"],
    }


def build_bulk(folder, ours):
    """The commands that insert a whole list, by name, each with the words after its case."""
    programs = build(folder, ours)
    other = f"{folder}/delaunator"
    subprocess.run(["g++", *FLAGS, f"{HERE}/delaunator.cpp", "-o", other], check=True)
    cgal = [programs["CGAL plain"][0], "range"]
    return {
        "ours": (programs["ours"], ["0", "bulk"]),
        "ours, by 16": (programs["ours"], ["0", "bulk16"]),
        "CGAL": (cgal, []),
        "delaunator": ([other], []),
    }


def build_questions(folder, ours, beside):
    """The commands that answer `questions`, by name."""
    cgal = f"{folder}/constrained"
    subprocess.run(["g++", *FLAGS, f"{HERE}/constrained.cpp", "-o", cgal, *LIBRARIES], check=True)
    commands = {"ours": [ours or prove(f"{folder}/benchmark")], "CGAL": [cgal]}
    if beside:
        commands[os.path.basename(beside)] = [beside]
    return commands


def tell_answers(case, figures):
    """A row a figure, by the program: each, and how many times the least of the others ours is."""
    print(f"## {' '.join(case)}\n\n| | " + " | ".join(figures) + " | ours / the least |")
    print("|---" * (len(figures) + 2) + "|")
    for figure, ours in figures["ours"].items():
        all_of = [it.get(figure) for it in figures.values()]
        least = min((it for it in all_of[1:] if it), default=None)
        cells = ["-" if it is None else f"{it:.0f}" for it in all_of]
        print(f"| {figure} | " + " | ".join([*cells, f"{ours / least:.2f}" if least else "-"]) + " |")
    print(flush=True)


def same_answers(case, runs):
    """Stops where programs found different numbers: vertices, constraints and crossings, or edges in shapes."""
    found = {what for what, _ in runs}
    counts = {}
    for _, ran in runs:
        for name, number in re.findall(r"^(\w+) \d+ ns, (\d+) in all", ran, re.M):
            counts.setdefault(name, set()).add(number)
    if len(found) > 1 or any(len(it) > 1 for it in counts.values()):
        sys.exit(f"{' '.join(case)}: they found {found} and {counts}")


def compare_answers(commands, case, times):
    runs, said = {name: [] for name in commands}, []
    for _ in range(times):
        for name, command in commands.items():
            ran = subprocess.run([*command, *case], capture_output=True, text=True, check=True, env=ENVIRONMENT)
            runs[name].append(dict(re.findall(r"^(\w+) (\d+) ns", ran.stderr, re.M)))
            said.append((ran.stdout, ran.stderr))
    same_answers(case, said)
    tell_answers(case, {name: {figure: statistics.median(int(run[figure]) for run in it) for figure in it[0]}
                        for name, it in runs.items()})


def calls_of(figure, found):
    """How many calls a figure of `questions` is of, by what was found."""
    said = {"add": r"(\d+) pairs", "release": r"(\d+) released"}.get(figure, r"(\d+) circles")
    number = re.search(said, found)
    return int(number[1]) if number else 100


def count_answers(commands, case, folder, options, events):
    figures, said = {}, []
    for name, command in commands.items():
        ran, parts = count_parts(command, case, folder, options, events)
        figures[name] = {figure: total / max(calls_of(figure, ran.stdout), 1) for figure, total in parts.items()}
        said.append((ran.stdout, ran.stderr))
    same_answers(case, said)
    tell_answers(case, figures)


def run_questions(words, ours, beside):
    what, *rest = words
    cases = [[*rest[1:3], what, *rest[3:]]] if rest[1:] else QUESTIONS[what]
    with tempfile.TemporaryDirectory() as folder:
        commands = build_questions(folder, ours, beside)
        for case in cases:
            if rest[:1] and rest[0] in COUNTED:
                count_answers(commands, case, folder, *COUNTED[rest[0]])
            else:
                compare_answers(commands, case, int(rest[0]) if rest else 5)


def compare_bulk(commands, case, times):
    runs, found = {name: [] for name in commands}, set()
    for _ in range(times):
        for name, (command, words) in commands.items():
            what, figures = measure(command, [*case, *words])
            found |= {what} if name != "delaunator" else set()
            runs[name].append(figures)
    if len(found) > 1:
        sys.exit(f"{' '.join(case)}: they found {found}")
    middle = {name: {figure: statistics.median(run[figure] for run in it) for figure in it[0]}
              for name, it in runs.items()}
    cells = [f"{it['insert']:.0f} ns, {it['peak']:.0f} bytes" for it in middle.values()]
    ratios = [middle["ours"]["insert"] / middle[name]["insert"] for name in ("CGAL", "delaunator")]
    print("| " + " | ".join([" ".join(case), *cells, *(f"{it:.2f}" for it in ratios)]) + " |", flush=True)


def run_bulk(words, ours):
    times = int(words[0]) if words else 5
    with tempfile.TemporaryDirectory() as folder:
        commands = build_bulk(folder, ours)
        print("| | " + " | ".join(commands) + " | ours / CGAL | ours / delaunator |")
        print("|---|" + "---|" * (len(commands) + 2))
        for case in [words[1:]] if words[1:] else BULK_CASES:
            compare_bulk(commands, case, times)


def compile_peers(folder, ours):
    """The programs of PEER_ROWS by name."""
    programs = {"benchmark": ours or prove(f"{folder}/benchmark")}
    for name, libraries in (("cgal", LIBRARIES), ("constrained", LIBRARIES), ("delaunator", [])):
        programs[name] = f"{folder}/{name}"
        subprocess.run(["g++", *FLAGS, f"{HERE}/{name}.cpp", "-o", programs[name], *libraries], check=True)
    return programs


def peer_cells(figures):
    """A figure of each program, the best peer, and how many times its figure ours is."""
    peers = {name: number for name, number in figures.items() if name != "ours"}
    best = min(peers, key=peers.get)
    shown = ", ".join(f"{name} {number:.4g}" for name, number in figures.items())
    return f"{shown} | {best} | {figures['ours'] / max(peers[best], 1e-9):.2f}"


def time_row(commands, figure, times):
    """The medians of a figure of each program, run in turn."""
    runs = {name: [] for name in commands}
    for _ in range(times):
        for name, (command, *case) in commands.items():
            runs[name].append(measure([command], case)[1][figure])
    return {name: statistics.median(it) for name, it in runs.items()}


def tell_row(name, size, commands, figure, times, folder):
    """Prints a row: nanoseconds a call, or counts of all calls where no number says how often to run."""
    if times:
        print(f"| {name} | {size} | ns | {peer_cells(time_row(commands, figure, times))} |", flush=True)
        return
    for what, (options, events) in COUNTED.items():
        totals = {program: count_parts([command], case, folder, options, events)[1][figure]
                  for program, (command, *case) in commands.items()}
        print(f"| {name} | {size} | {what} | {peer_cells(totals)} |", flush=True)


def run_peers(words, ours):
    times = 0 if words[:1] == ["counts"] else int(words[0]) if words else 5
    chosen = [PEER_ROWS[int(words[1]) - 1]] if words[1:] else PEER_ROWS
    with tempfile.TemporaryDirectory() as folder:
        programs = compile_peers(folder, ours)
        print("| What | Size | Figure | All | The best peer | ours / it |\n|---|---|---|---|---|---|")
        for name, figure, sizes, called in chosen:
            for size in words[2:] or (sizes if times else sizes[:1]):
                lines = {program: line.format(n=size).split() for program, line in called.items()}
                commands = {program: [programs[first], *rest] for program, (first, *rest) in lines.items()}
                tell_row(name, size, commands, figure, times, folder)


def measure(command, case):
    """What a run found, and its figures by name."""
    ran = subprocess.run([*command, *case], capture_output=True, text=True, check=True, env=ENVIRONMENT)
    figures = {}
    for line in ran.stderr.splitlines():
        name, number, *_ = line.split()
        figures[name] = int(number)
    return ran.stdout, figures


def compare(commands, case, times):
    if int(case[1]) > PLAIN_AT_MOST:
        commands = {name: command for name, command in commands.items() if name != "CGAL plain"}
    runs = {name: [] for name in commands}
    found = None
    for _ in range(times):
        for name, command in commands.items():
            what, figures = measure(command, case)
            found = found or what
            if what != found:
                sys.exit(f"{' '.join(case)}: {name} found\n{what}and the others\n{found}")
            runs[name].append(figures)
    print(f"## {' '.join(case)}\n\n| | ours | CGAL plain | ours / it | CGAL hierarchy | ours / it |\n|---|---|---|---|---|---|")
    for figure in runs["ours"][0]:
        ours = statistics.median(run[figure] for run in runs["ours"])
        unit = "bytes a vertex" if figure == "peak" else "ns"
        cells = [f"{ours:.0f}"]
        for name in "CGAL plain", "CGAL hierarchy":
            others = [run[figure] for run in runs.get(name, []) if figure in run]
            theirs = statistics.median(others) if others else 0
            cells += [f"{theirs:.0f}", f"{ours / theirs:.2f}"] if theirs else ["-", "-"]
        print(f"| {figure}, {unit} | " + " | ".join(cells) + " |")
    print(flush=True)


def count_parts(command, case, folder, options, events):
    """A run, and its events by the names of its figures, whose calls stand between two looks at the clock."""
    parts = f"{folder}/parts"
    for old in glob.glob(f"{parts}*"):
        os.remove(old)
    words = ["valgrind", "--tool=callgrind", *options, "--dump-before=clock_gettime*", f"--callgrind-out-file={parts}"]
    ran = subprocess.run([*words, *command, *case], capture_output=True, text=True, check=True)
    totals = {}
    for number, name in enumerate(re.findall(r"^(\w+) \d+ ns", ran.stderr, re.M)):
        with open(f"{parts}.{2 * number + 2}") as part:
            text = part.read()
        names_of = re.search(r"^events: (.*)", text, re.M)[1].split()
        all_of = dict(zip(names_of, map(int, re.search(r"^totals: (.*)", text, re.M)[1].split())))
        totals[name] = sum(all_of.get(event, 0) for event in events)
    return ran, totals


def counts(command, case, folder, options, events):
    """What a run found, and its events a call by name."""
    ran, totals = count_parts(command, case, folder, options, events)
    count = int(case[1])
    removed = int(re.search(r"removed: (\d+)", ran.stdout)[1])
    calls = {"remove": removed, "circle": min(count, SHAPES), "square": min(count, SHAPES)}
    each = {name: total / max(calls.get(name, count), 1) for name, total in totals.items()}
    return ran.stdout, {name: round(it) if events == ["Ir"] else round(it, 1) for name, it in each.items()}


def compare_counts(commands, case, folder, options, events):
    print(f"## {' '.join(case)}\n\n| | " + " | ".join(commands) + " |\n|---|" + "---|" * len(commands))
    runs = [counts(command, case, folder, options, events) for command in commands.values()]
    if any(what != runs[0][0] for what, _ in runs):
        sys.exit(f"{' '.join(case)}: they did not find the same")
    ours = runs[0][1]
    for name in ours:
        others = [theirs.get(name) for _, theirs in runs[1:]]
        cells = [f"{it} ({ours[name] / it:.2f})" if it else "-" for it in others]
        print(f"| {name} | {ours[name]} | " + " | ".join(cells) + " |")
    print(flush=True)


def main(words):
    if words[:1] == ["build"]:
        print(prove(os.path.realpath(words[1])))
        return
    ours, words = (words[1], words[2:]) if words[:1] == ["with"] else (None, words)
    beside, words = (os.path.realpath(words[1]), words[2:]) if words[:1] == ["beside"] else (None, words)
    if words[:1] and words[0] in QUESTIONS:
        run_questions(words, ours, beside)
        return
    if words[:1] and words[0] in COUNTED:
        with tempfile.TemporaryDirectory() as folder:
            commands = build(folder, ours)
            for case in [words[1:]] if words[1:] else CASES:
                compare_counts(commands, case, folder, *COUNTED[words[0]])
        return
    if words[:1] in (["bulk"], ["peers"]):
        (run_bulk if words[0] == "bulk" else run_peers)(words[1:], ours)
        return
    if words[:1] == ["huge"]:
        ENVIRONMENT["GLIBC_TUNABLES"] = f"{SETTINGS}:glibc.malloc.hugetlb=1"
        words = words[1:]
    times = int(words[0]) if words else 5
    if times % 2 == 0:
        sys.exit("an odd number of times has a median")
    with tempfile.TemporaryDirectory() as folder:
        commands = build(folder, ours)
        for case in [words[1:]] if words[1:] else CASES:
            compare(commands, case, times)


main(sys.argv[1:])
