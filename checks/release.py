#!/usr/bin/env python3
"""checks/release.py [--trial] [--whole | --folders]: what ./release makes, made and installed as a
user does.

It tries what ./release refuses, in a clone of its own (faults/release.py). It makes all files
twice, of the programs and the library that the gate has left, and compares them byte by byte. Then
it installs them and tries them out where there is no kit and no clone: `mesh` triangulates a file,
the programs of docs/C.md are compiled by pkg-config and by CMake, threads edit triangulations of
their own, Python imports and plots, manual pages are shown, and a removed package leaves nothing.

It installs the archive and the wheel into empty folders and a virtual environment, and Debian's
packages into a fresh Debian, which debootstrap makes in a folder. Where that cannot be made, since
debootstrap or its mirror is not there, it says so, and Debian's packages go into a folder alone.

With --whole that is a failure, and so is no lintian. With --folders no Debian is made.
With --trial the programs and the library are those of `make -C c trial` and `./trial mesh
triangulate`, of which nothing is proved. ./test and ./release never take these.
"""
import os
import re
import shutil
import subprocess
import sys
import tempfile

from project import CHECKS, ROOT

import debian_packages
from debian import alone, install, prepare, prepare_commands
from installed import Debian, Failed, Folders, NotThere, expect
from packages import NotMade, make, refuse_trial
from faults.release import try_refusals
from trial_build import is_trial as is_trial_build
from versions import version

EPOCH = 1796000000
PROGRAMS_AND_LIBRARIES = ("bin/mesh", "bin/triangulate", "lib/libtevasulim.so.0")
PROGRAMS_AND_LIBRARIES += ("lib/libtevasulim.a",)
FIVE_POINTS = "x,y\\n0,0\\n4,0\\n4,3\\n0,3\\n1,1\\n"
CMAKE = """cmake_minimum_required(VERSION 3.13)
project(hill C CXX)
set(CMAKE_CXX_STANDARD 17)
find_package(tevasulim 0.1 REQUIRED)
foreach(kind tevasulim static)
    add_executable(c_${kind} hill.c)
    add_executable(cpp_${kind} hill.cpp)
    target_link_libraries(c_${kind} tevasulim::${kind})
    target_link_libraries(cpp_${kind} tevasulim::${kind})
endforeach()
"""
PLOT = """
import matplotlib
matplotlib.use("Agg")
import matplotlib.pyplot as plt
import numpy as np
import tevasulim

points = np.array([(0, 0), (4, 0), (4, 3), (0, 3), (1, 1)])
site = tevasulim.Triangulation(points)
plt.triplot(*points.T, site.simplices)
plt.savefig("site.png")
with open("site.png", "rb") as picture:
    print(len(site.simplices), picture.read(4)[1:])
"""
COMMAND = f"printf '{FIVE_POINTS}' > b.csv; tevasulim mesh --header b.csv | wc -l"
ASK = """
import tevasulim

print(len(tevasulim.Triangulation([(0, 0), (4, 0), (4, 3), (0, 3)]).simplices))
"""


def prepare_all():
    """Looks for what is needed, and installs it or says what lacks; some may lack."""
    prepare("numpy", "setuptools", "wheel")
    prepare_commands("gcc", "g++", "make", "pkg-config")
    lacks = {"cmake": "cmake", "man": "man-db"}
    lacks.update({it: it for it in ("debootstrap", "lintian", "git")})
    with alone("packages"):
        install([package for command, package in lacks.items() if not shutil.which(command)])


def make_twice(room, source):
    """Makes all files twice; they are the same."""
    made = []
    # Others that make the shared library wait.
    with alone("library"):
        for name in ("first", "second"):
            os.mkdir(f"{room}/{name}")
            make(f"{room}/{name}", source, EPOCH)
            sums = {}
            for file in sorted(os.listdir(f"{room}/{name}")):
                with open(f"{room}/{name}/{file}", "rb") as content:
                    sums[file] = content.read()
            made.append(sums)
    differ = [name for name in made[0] if made[0][name] != made[1].get(name)]
    expect(differ, [], "files that differ")
    ends = ("-linux-x86_64.tar.gz", ".tar.gz", "-py3-none-linux_x86_64.whl", ".spdx.json")
    wanted = {f"tevasulim-{version()}{end}" for end in ends}
    wanted |= {f"{it}_{version()}-1_amd64.deb" for it in debian_packages.PACKAGES}
    expect(set(made[0]), wanted, "files that are made")


def glibc(file):
    """Which libraries a file needs, and the latest version of the C library's among its words."""
    how = {"capture_output": True, "text": True, "check": True}
    needed = re.findall(r"NEEDED\s+(\S+)", subprocess.run(["objdump", "-p", file], **how).stdout)
    words = subprocess.run(["objdump", "-T", file], **how).stdout
    versions = re.findall(r"GLIBC_([\d.]+)", words)
    return needed, max(tuple(map(int, it.split("."))) for it in versions)


def try_refusal(folder, is_trial):
    """A trial build is known as one, so that no release has it; what the gate left is none."""
    try:
        refuse_trial(folder)
        is_refused = False
    except NotMade:
        is_refused = True
    expect(is_refused, is_trial, "whether these are trial builds")
    known = [is_trial_build(f"{folder}/{it}") for it in PROGRAMS_AND_LIBRARIES]
    expect(known, [is_trial] * len(known), "which are trial builds")


def try_needs(folder):
    """Programs and library need the C library alone, of the age that Debian's packages name."""
    told = {"lib/libtevasulim.so.0": debian_packages.LIBRARY_NEEDS}
    told.update({f"bin/{it}": debian_packages.PROGRAMS_NEED for it in ("mesh", "triangulate")})
    for path, needs in told.items():
        needed, latest = glibc(f"{folder}/{path}")
        expect(needed, ["libc.so.6"], f"what {path} needs")
        most = tuple(map(int, re.search(r"[\d.]+", needs)[0].split(".")))
        expect(latest <= most, True, f"glibc {latest} for {path}")
        print(f"{path} needs the C library alone, glibc {'.'.join(map(str, latest))} or later")


def programs_of_page():
    """The programs in C and C++ of docs/C.md, and what they print."""
    with open(f"{ROOT}/docs/C.md") as file:
        text = file.read()
    in_c, said = re.search(r"```c\n(#include.*?)```\n\n```\n(.*?)```", text, re.S).groups()
    return in_c, re.search(r"```cpp\n(#include.*?)```", text, re.S)[1], said


def try_programs(place):
    said = place.run(f"printf '{FIVE_POINTS}' > a.csv; mesh -q --to ele a.csv")
    expect(said.splitlines()[0], "4 3 0", "the count of faces by mesh")
    said = place.run("mesh -o a.obj a.csv 2>&1; grep -c '^f' a.obj; mesh --version")
    expect(said.splitlines()[:2], ["mesh: 5 vertices, 4 faces, 0 constraints", "4"], "mesh")
    expect(version() in said, True, "the version of mesh")
    said = place.run("printf 'insert 0 1\\ncounts\\n' | triangulate G")
    expect(said, "vertex 0\n1 0 0 0\n", "triangulate")


def try_c(place):
    in_c, in_cpp, wanted = programs_of_page()
    place.write("hill.c", in_c)
    place.write("hill.cpp", in_cpp)
    place.write("CMakeLists.txt", CMAKE)
    with open(f"{CHECKS}/for_c/threads.c") as file:
        place.write("threads.c", file.read())
    flags = "$(pkg-config --cflags --libs tevasulim)"
    place.run(f"gcc -std=c99 -Wall -Wextra hill.c {flags} -o hill_c")
    place.run(f"g++ -std=c++17 -Wall -Wextra hill.cpp {flags} -o hill_cpp")
    place.run(f"gcc -O1 -pthread threads.c {flags} -o threads")
    for name in ("hill_c", "hill_cpp"):
        expect(place.run(f"./{name}"), wanted, name)
    expect(place.run("./threads"), "8 threads\n", "threads")
    if place.has("cmake"):
        place.run("cmake -S . -B built -DCMAKE_BUILD_TYPE=Release && cmake --build built")
        for name in ("c_tevasulim", "cpp_tevasulim", "c_static", "cpp_static"):
            expect(place.run(f"built/{name}"), wanted, name)
        print("docs/C.md's programs by pkg-config and by CMake; threads")
    else:
        print("docs/C.md's programs by pkg-config; threads; there is no cmake")


def try_state(folder):
    """The library has no state of its own, beside a word each that gcc puts there."""
    words = ["size", "-A", f"{folder}/lib/libtevasulim.so.0"]
    said = subprocess.run(words, capture_output=True, text=True, check=True).stdout
    sizes = dict(re.findall(r"^(\.\w+)\s+(\d+)", said, re.M))
    found = [sizes.get(it, "0") for it in (".data", ".bss", ".tdata", ".tbss")]
    expect(found, ["8", "8", "0", "0"], "the sizes of data")


def try_python(place):
    place.write("ask.py", ASK)
    expect(place.run("python3 ask.py"), "2\n", "a square in Python")
    if place.has("tevasulim"):
        expect(place.run(COMMAND).strip(), "4", "the command tevasulim")
    place.write("plot.py", PLOT)
    if place.has_module("matplotlib"):
        expect(place.run("python3 plot.py"), "4 b'PNG'\n", "a plot in Python")
        print("Python imports and plots")
    else:
        print("Python imports; there is no matplotlib")


def options(place, command):
    """The options that a command's help tells of."""
    return set(re.findall(r"--[a-z-]+", place.run(f"COLUMNS=200 {command} --help")))


def words_of_pages(place):
    """The manual pages, and all options, commands or calls that each has to name."""
    with open(f"{ROOT}/include/tevasulim.h") as file:
        header = file.read()
    calls = set(re.findall(r"\b(tevasulim_\w+)\(", header))
    with open(f"{ROOT}/c/man/tevasulim.3") as file:
        others = set(re.findall(r"\b(tevasulim_\w+)", file.read())) - calls
    kinds = {it for it in others if re.search(rf"\b{it};", header)}
    expect(others, kinds, "names in tevasulim(3) that the header has not")
    with open(f"{ROOT}/docs/PROGRAM.md") as file:
        commands = file.read().split("## Commands")[1].split("## ")[0]
    named = {"3 tevasulim": calls, "1 mesh": options(place, "mesh") - {"--help"}}
    named["1 triangulate"] = set(re.findall(r"^`(\w+)", commands, re.M))
    if place.has("tevasulim"):
        parts = re.findall(r"^    (\w+)  ", place.run("tevasulim --help"), re.M)
        found = [options(place, f"tevasulim {it}") for it in ["", *parts]]
        named["1 tevasulim"] = set(parts).union(*found)
    return named


def try_manual(place):
    """Each manual page is shown with no warning, and names all options, commands or calls."""
    if not place.has("man"):
        print("there is no man: no manual page is shown")
        return
    named = words_of_pages(place)
    for page, words in named.items():
        said = place.run(f"MANWIDTH=200 man --nh --warnings {page} 2>&1 | col -b")
        expect("warning" in said, False, f"warnings of man {page}")
        lacks = [it for it in words if it not in said.replace("\u2010", "-")]
        expect(lacks, [], f"words that man {page} lacks")
    print(f"{len(named)} manual pages, with all options, commands and calls")


def try_all(place):
    try_programs(place)
    try_c(place)
    try_python(place)
    try_manual(place)


def try_lintian(made):
    """Lintian finds no error in Debian's packages."""
    debs = [f"{made}/{it}" for it in sorted(os.listdir(made)) if it.endswith(".deb")]
    words = ["lintian", "--allow-root", "--fail-on", "error", *debs]
    ran = subprocess.run(words, stdout=subprocess.PIPE, stderr=subprocess.STDOUT, text=True)
    expect((ran.returncode, ran.stdout if ran.returncode else ""), (0, ""), "lintian")
    print("lintian finds no error")


def try_debian(room, made, is_wanted):
    """Tries all in a fresh Debian; where there is none, that is a failure if it is wanted."""
    with Debian(room, made) as place:
        try:
            place.make()
        except NotThere as error:
            if is_wanted:
                raise Failed(f"no fresh Debian: {error}") from None
            print(f"Debian's packages are tried in a folder alone, not in a fresh Debian: {error}")
            return
        place.install()
        try_all(place)
        place.remove()


def main(words):
    if set(words) - {"--trial", "--whole", "--folders"} or {"--whole", "--folders"} <= set(words):
        sys.exit(__doc__)
    prepare_all()
    if "--whole" in words and not shutil.which("lintian"):
        sys.exit("--whole needs lintian (Debian: lintian)")
    source = "trial" if "--trial" in words else "."
    with tempfile.TemporaryDirectory() as room:
        if shutil.which("git"):
            try_refusals(f"{room}/clone")
        make_twice(room, source)
        made = f"{room}/first"
        folders = Folders(room, made)
        try_refusal(folders.prefix, source == "trial")
        try_needs(folders.prefix)
        try_state(folders.prefix)
        folders.try_packages(made)
        try_all(folders)
        if shutil.which("lintian"):
            try_lintian(made)
        if "--folders" not in words:
            try_debian(room, made, "--whole" in words)


if __name__ == "__main__":
    try:
        main(sys.argv[1:])
    except (Failed, NotMade) as error:
        sys.exit(f"checks/release.py: {error}")
