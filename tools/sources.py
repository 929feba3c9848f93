#!/usr/bin/env python3
"""The sources of the library for C, and one sum of them all.

tools/sources.py FILE: writes the sum to FILE, where that has another one. c/Makefile makes the
library anew then, and links it with the sum (`tevasulim_sources`). By it python/setup.py and
./release know a library that was made of other sources, and refuse it.
"""
import ctypes
import glob
import hashlib
import os
import sys

ROOT = os.path.dirname(os.path.dirname(os.path.realpath(__file__)))
FOLDERS = ("src", "specs", "proofs")
FILES = ("crates.txt", "HANDLES", "include/tevasulim.h", "c/calls.c", "c/exported.map")


def paths_of_sources():
    """The path of each source from the repository's root on, in order."""
    found = [it for it in FILES if os.path.exists(f"{ROOT}/{it}")]
    for folder in FOLDERS:
        for path in glob.glob(f"{ROOT}/crates/*/{folder}/**", recursive=True):
            if os.path.isfile(path):
                found.append(os.path.relpath(path, ROOT))
    return sorted(found)


def sum_of_library():
    """The SHA-256 sum of all sources and their paths."""
    total = hashlib.sha256()
    for path in paths_of_sources():
        with open(f"{ROOT}/{path}", "rb") as file:
            total.update(f"{hashlib.sha256(file.read()).hexdigest()} {path}\n".encode())
    return total.hexdigest()


def sum_in(library):
    """The sum of the sources that a shared library was made of, or None where it tells none."""
    try:
        told = ctypes.c_char.in_dll(ctypes.CDLL(os.path.abspath(library)), "tevasulim_sources")
    except ValueError:
        return None
    return ctypes.string_at(ctypes.addressof(told)).decode()


def main(file):
    has = None
    if os.path.exists(file):
        with open(file) as old:
            has = old.read()
    wanted = sum_of_library()
    if has != wanted:
        with open(file, "w") as new:
            new.write(wanted)


if __name__ == "__main__":
    if len(sys.argv) != 2:
        sys.exit(__doc__)
    main(sys.argv[1])
