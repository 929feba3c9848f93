#!/usr/bin/env python3
"""checks/readme.py: proves and runs the program of docs/guide/rattle.md over the libraries that the
gate has left, as whoever has run `./test` may do at once.

A folder beside the repository gets the crate `hill` of that page with the libraries below it,
linked from crates/*/out/rlib with their stamps. `rt run` there has to prove that program alone, and
the program has to print what was worked out by hand. A library that is built once more fails: then
its stamp was not taken (tools/libraries.py). How long it took is told, and fails nothing, since
hours of one machine differ by two and a half.
"""
import os
import re
import resource
import shutil
import subprocess
import sys
import tempfile

from project import ROOT

from libraries import crates  # (of tools/)

PAGE = "docs/guide/rattle.md"
# Four points with one inside the triangle of the others have six edges. Point 1 is 100 and 8100
# away from (70, 110) in squares of x and y, and each other point farther. The way from (-100, 20)
# crosses the fence from 0 to 2, and then the edge from 1 to 2.
WANTED = """6 edges
nearest to the camp: vertex 1
the path crosses an edge, fence: true
the path crosses an edge, fence: false
"""


def program():
    """The line of crates.txt and the source that the page has for the crate `hill`."""
    with open(f"{ROOT}/{PAGE}", encoding="utf-8") as file:
        text = file.read()
    found = re.search(r"```\n(hill: [^\n]+)\n```.*?```\n(//! .*?)```", text, re.S)
    if not found:
        sys.exit(f"{PAGE} has no crate hill")
    return found[1], found[2]


def link(one, other):
    """A file under a second name, or a copy of it on another disk."""
    try:
        os.link(one, other)
    except OSError:
        shutil.copyfile(one, other)


def lay_out(room):
    """Makes a repository with the page's crate and the libraries below it. Gives its libraries."""
    line, source = program()
    below = set()
    named = {it.name: it for it in crates()}
    for name in line.partition(":")[2].split():
        if name in named:
            below |= {name, *(it.name for it in named[name].below())}
    lacking = [name for name in sorted(below) if not named[name].is_built()]
    if lacking:
        sys.exit(f"no proved library with a stamp of {', '.join(lacking)}: ./test lays them")
    for name in below:
        for part in ("src", "specs", "proofs", "out/rlib"):
            at, to = f"{named[name].folder}/{part}", f"{room}/crates/{name}/{part}"
            if os.path.isdir(at):
                shutil.copytree(at, to, copy_function=link)
    with open(f"{ROOT}/crates.txt", encoding="utf-8") as file:
        lines = file.read().splitlines()
    kept = [it for it in lines if it.partition(":")[0] in below]
    os.makedirs(f"{room}/crates/hill/src")
    made = {"crates.txt": "\n".join([*kept, line, ""]), "crates/hill/src/main.rt": source}
    for name, text in made.items():
        with open(f"{room}/{name}", "w", encoding="utf-8") as file:
            file.write(text)
    shutil.copyfile(f"{ROOT}/HANDLES", f"{room}/HANDLES")
    return below


def main():
    # Beside the repository's own files, so that libraries are linked and not copied.
    with tempfile.TemporaryDirectory(dir=os.environ.get("TMPDIR") or "/tmp") as room:
        below = lay_out(room)
        stamps = lambda: {name: os.stat(f"{room}/crates/{name}/out/rlib/stamp") for name in below}
        times = lambda: {name: it.st_mtime_ns for name, it in stamps().items()}
        before = times()
        how = {"cwd": f"{room}/crates/hill", "stdin": subprocess.DEVNULL, "text": True}
        how.update({"stdout": subprocess.PIPE, "stderr": subprocess.PIPE})
        ran = subprocess.run(["rt", "run"], **how)
        used = resource.getrusage(resource.RUSAGE_CHILDREN)
        seconds = used.ru_utime + used.ru_stime
        if ran.returncode or ran.stdout != WANTED:
            said = f"{ran.stdout}\n{ran.stderr[-3000:]}"
            sys.exit(f"status {ran.returncode}\n{said}\nwanted:\n{WANTED}")
        anew = [name for name, time in times().items() if time != before[name]]
        if anew:
            sys.exit(f"built once more: {' '.join(sorted(anew))}")
        print(f"the program is proved over {len(below)} libraries: {seconds:.0f} s of processor")


if __name__ == "__main__":
    main()
