"""Debian's packages of the programs, the library, its headers and the Python package."""
import glob
import gzip
import os
import shutil
import subprocess
import tempfile
import time

from archives import files_below, set_times, unzip
from versions import ROOT, version

LIBDIR = "lib/x86_64-linux-gnu"
MAINTAINER = "Tevasulim maintainers <maintainers@users.noreply.tevasulim.example>"
# The version of Debian's packages of this version.
REVISION = "1"
# The least C library that serves programs and library; checks/release.py looks whether it does.
LIBRARY_NEEDS, PROGRAMS_NEED = "libc6 (>= 2.14)", "libc6 (>= 2.34)"

# Of each package: its section, what it depends on, its summary, and what it is.
PACKAGES = {
    "libtevasulim0": (
        "libs",
        LIBRARY_NEEDS,
        "Delaunay triangulations of whole-number points",
        "A library for C and C++ whose calls are proved: after every edit the\n"
        " faces are the constrained Delaunay triangulation of the points.",
    ),
    "libtevasulim-dev": (
        "libdevel",
        "libtevasulim0 (= {version})",
        "Delaunay triangulations of whole-number points (headers)",
        "The headers for C and C++, the static library, manual page and examples,\n"
        " and what pkg-config and CMake need to find the library.",
    ),
    "tevasulim-tools": (
        "science",
        PROGRAMS_NEED,
        "Delaunay triangulations of whole-number points (programs)",
        "The program mesh, which triangulates points, breaklines and borders\n"
        " from tables, GeoJSON and Triangle's files, and the program triangulate,\n"
        " which answers commands.",
    ),
    "python3-tevasulim": (
        "python",
        "libtevasulim0 (>= {upstream}), python3 (>= 3.9), python3-numpy",
        "Delaunay triangulations of whole-number points (Python)",
        "The Python package over the library, with numpy arrays in and out.",
    ),
}
# What the Python package takes for maps, pictures and tiles, where it is there.
SUGGESTED = ", ".join(
    f"python3-{it}"
    for it in "distributed geopandas matplotlib meshio rasterio rtree shapely tqdm".split()
)
CONTROL = """Package: {name}
Source: tevasulim
Version: {version}
Architecture: amd64
Maintainer: {maintainer}
Installed-Size: {size}
Depends: {needs}
{more}Section: {section}
Priority: optional
Description: {summary}
 {text}
"""
COPYRIGHT = """Format: https://www.debian.org/doc/packaging-manuals/copyright-format/1.0/
Upstream-Name: tevasulim

Files: *
Copyright: 2017 The Spade Developers
           2026 The Tevasulim Developers
License: Apache-2.0 or Expat

License: Apache-2.0
 On Debian systems the text is in /usr/share/common-licenses/Apache-2.0.

License: Expat
{expat}
Comment: the compiled library and programs hold parts of the Rattle kit and of crates ported to it;
 their licences are in /usr/share/doc/{name}/licenses.
"""
CHANGELOG = """tevasulim ({version}) unstable; urgency=medium

  * Version {upstream}; changelog.gz says what is new.

 -- {maintainer}  {date}
"""
# The command of the Python package.
COMMAND = """#!/usr/bin/python3
import sys

from tevasulim.__main__ import main

sys.exit(main())
"""
# Compiled modules are written when the package is installed, and go with it.
POSTINST = """#!/bin/sh
set -e
if [ "$1" = configure ] && [ -z "$DPKG_ROOT" ] && command -v py3compile > /dev/null; then
    py3compile -p python3-tevasulim
fi
"""
PRERM = """#!/bin/sh
set -e
if [ -z "$DPKG_ROOT" ] && command -v py3clean > /dev/null; then
    py3clean -p python3-tevasulim
fi
"""
FROM_SHARED = {
    "libtevasulim0": [f"{LIBDIR}/libtevasulim.so.0"],
    "libtevasulim-dev": [f"{LIBDIR}/libtevasulim.so", f"{LIBDIR}/libtevasulim.a", "include"],
    "tevasulim-tools": ["bin", "share/man/man1"],
    "python3-tevasulim": [],
}
FROM_SHARED["libtevasulim-dev"] += [f"{LIBDIR}/pkgconfig", f"{LIBDIR}/cmake", "share/man/man3"]


def write(path, text, mode=0o644):
    os.makedirs(os.path.dirname(path), exist_ok=True)
    with open(path, "w") as file:
        file.write(text)
    os.chmod(path, mode)


def write_packed(path, text, epoch):
    """Writes a text as path.gz, as Debian's policy wants changelogs and manual pages."""
    os.makedirs(os.path.dirname(path), exist_ok=True)
    with open(f"{path}.gz", "wb") as file, gzip.GzipFile("", "wb", 9, file, mtime=0) as packed:
        packed.write(text.encode())


def copy(source, target):
    os.makedirs(os.path.dirname(target), exist_ok=True)
    if os.path.isdir(source):
        shutil.copytree(source, target, symlinks=True)
    else:
        shutil.copy(source, target, follow_symlinks=False)


def pack_manual(folder):
    """Packs the manual pages below a folder."""
    for path in files_below(folder):
        at = f"{folder}/{path}"
        if "share/man/" in path and os.path.isfile(at):
            with open(at) as page:
                write_packed(at, page.read(), 0)
            os.remove(at)


def add_documents(folder, name, documents, epoch):
    """Adds the copyright, the changelogs and what is read with a package."""
    at = f"{folder}/usr/share/doc/{name}"
    words = {"version": f"{version()}-{REVISION}", "upstream": version(), "maintainer": MAINTAINER}
    words["date"] = time.strftime("%a, %d %b %Y %H:%M:%S +0000", time.gmtime(epoch))
    with open(f"{documents}/LICENSE-MIT") as file:
        expat = "".join(f" {line.strip() or '.'}\n" for line in file)
    write(f"{at}/copyright", COPYRIGHT.format(expat=expat.rstrip("\n"), name=name))
    write_packed(f"{at}/changelog.Debian", CHANGELOG.format(**words), epoch)
    with open(f"{documents}/CHANGELOG.md") as file:
        write_packed(f"{at}/changelog", file.read(), epoch)
    copy(f"{documents}/licenses", f"{at}/licenses")
    wanted = {"libtevasulim-dev": ["C.md", "examples"], "tevasulim-tools": ["PROGRAM.md"]}
    wanted["python3-tevasulim"] = ["PYTHON.md"]
    for each in wanted.get(name, []):
        copy(f"{documents}/{each}", f"{at}/{each}")


def add_python(folder, wheel):
    """Adds the wheel's modules, the command and its manual page; the library is the one of its own
    package."""
    modules = f"{folder}/usr/lib/python3/dist-packages"
    unzip(wheel, modules)
    (data,) = glob.glob(f"{modules}/*.data")
    os.rename(f"{data}/data/share", f"{folder}/usr/share")
    shutil.rmtree(data)
    write(f"{folder}/usr/bin/tevasulim", COMMAND, 0o755)
    own = f"{modules}/tevasulim/libtevasulim.so"
    if os.path.exists(own):
        os.remove(own)
    os.symlink("../../../x86_64-linux-gnu/libtevasulim.so.0", own)
    for path in files_below(modules):
        if path.endswith(".dist-info/RECORD"):
            os.remove(f"{modules}/{path}")


def add_control(folder, name):
    """Adds what Debian has to know of a package."""
    section, needs, summary, text = PACKAGES[name]
    files = [it for it in files_below(folder) if os.path.isfile(f"{folder}/{it}")]
    files = [it for it in files if not os.path.islink(f"{folder}/{it}")]
    words = {"name": name, "version": f"{version()}-{REVISION}", "maintainer": MAINTAINER}
    words["needs"] = needs.format(version=words["version"], upstream=version())
    words["size"] = sum(os.path.getsize(f"{folder}/{it}") // 1024 + 1 for it in files)
    words["more"] = "Multi-Arch: same\n" if name.startswith("lib") else ""
    if name == "python3-tevasulim":
        words["more"] = f"Suggests: {SUGGESTED}\n"
    words.update({"section": section, "summary": summary, "text": text})
    how = {"cwd": folder, "capture_output": True, "text": True, "check": True}
    sums = subprocess.run(["md5sum", *files], **how)
    write(f"{folder}/DEBIAN/control", CONTROL.format(**words))
    write(f"{folder}/DEBIAN/md5sums", sums.stdout)
    if name == "libtevasulim0":
        write(f"{folder}/DEBIAN/shlibs", f"libtevasulim 0 libtevasulim0 (>= {version()})\n")
        write(f"{folder}/DEBIAN/triggers", "activate-noawait ldconfig\n")
    if name == "python3-tevasulim":
        write(f"{folder}/DEBIAN/postinst", POSTINST, 0o755)
        write(f"{folder}/DEBIAN/prerm", PRERM, 0o755)


def is_linked(file):
    """Whether a file is a program or a library."""
    with open(file, "rb") as content:
        return content.read(8).startswith((b"\x7fELF", b"!<arch>\n"))


def strip(folder):
    """Takes the symbols that nothing needs out of programs and libraries: no code changes."""
    for path in files_below(folder):
        at = f"{folder}/{path}"
        if os.path.isfile(at) and not os.path.islink(at) and is_linked(at):
            words = ["strip", "--strip-unneeded", "--remove-section=.comment", at]
            subprocess.run(words + (["-D"] if path.endswith(".a") else []), check=True)


def write_package(out, name, room, wheel, epoch):
    with tempfile.TemporaryDirectory() as folder:
        for path in FROM_SHARED[name]:
            copy(f"{room}/usr/{path}", f"{folder}/usr/{path}")
        if name == "python3-tevasulim":
            add_python(folder, wheel)
        pack_manual(folder)
        add_documents(folder, name, f"{room}/documents", epoch)
        set_times(folder, epoch)
        # The shared library is not run by itself.
        library = f"{folder}/usr/{LIBDIR}/libtevasulim.so.0"
        if os.path.exists(library):
            os.chmod(library, 0o644)
        strip(folder)
        add_control(folder, name)
        words = ["dpkg-deb", "--root-owner-group", "-Zxz", "--build", folder]
        own = {**os.environ, "SOURCE_DATE_EPOCH": str(epoch)}
        made = f"{out}/{name}_{version()}-{REVISION}_amd64.deb"
        subprocess.run([*words, made], env=own, check=True, stdout=subprocess.DEVNULL)


def write_all(out, room, wheel, epoch):
    """Writes all packages into the folder OUT, of what is installed below `room`."""
    for name in PACKAGES:
        write_package(out, name, room, wheel, epoch)
