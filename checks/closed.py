#!/usr/bin/env python3
"""checks/closed.py: there is no third type of triangulation. checks/own_marker has a marker of
constraints of a user's own, which is to be refused for the one reason that `EdgeData` is sealed.

The sources are copied beside a crate with that marker, and the kit tries to build it; nothing is
proved. It needs no program of the gate.
"""
import os
import re
import shutil
import subprocess
import sys
import tempfile

from project import CHECKS, ROOT

NAME = "own_marker"


def copy_sources(room):
    """Copies the crates, less what was built of them, and adds the one with the marker."""
    built = shutil.ignore_patterns("out")
    shutil.copytree(f"{ROOT}/crates", f"{room}/crates", ignore=built)
    shutil.copy(f"{ROOT}/HANDLES", room)
    os.makedirs(f"{room}/crates/{NAME}/src")
    shutil.copy(f"{CHECKS}/{NAME}/main", f"{room}/crates/{NAME}/src/main.rt")
    with open(f"{ROOT}/crates.txt") as lines, open(f"{room}/crates.txt", "w") as more:
        more.write(f"{lines.read()}{NAME}: spade_delaunay\n")


def main():
    with tempfile.TemporaryDirectory() as room:
        copy_sources(room)
        how = {"cwd": f"{room}/crates/{NAME}", "stdin": subprocess.DEVNULL, "text": True}
        how.update({"stdout": subprocess.PIPE, "stderr": subprocess.STDOUT})
        said = subprocess.run(["rt", "try"], **how).stdout
    errors = [line for line in said.splitlines() if re.search(r"\berror\b", line)]
    if not errors:
        sys.exit(f"a marker of a user's own is not refused:\n{said}")
    others = [line for line in errors if "Sealed" not in line and "aborting" not in line]
    if others:
        sys.exit("it is refused for another reason:\n" + "\n".join(others))
    print("a marker of a user's own is refused, since `EdgeData` is sealed")


main()
