"""Debian's own Python with what a checker of the Python package imports, and the shared library.

The packages are installed where that may be done (as root, by apt-get).
"""
import fcntl
import os
import shutil
import subprocess
import sys
import tempfile

from project import CHECKS, ROOT

PACKAGE = f"{ROOT}/python"
LIBRARY = f"{ROOT}/c/libtevasulim.so"
# Not the first one on the path: Debian's packages are for this one alone.
PYTHON = "/usr/bin/python3"
# The shared library, once it is known.
LIBRARIES = []


def lacking(modules):
    """Those of some modules that cannot be imported."""
    tried = {
        it: subprocess.run([PYTHON, "-c", f"import {it}"], capture_output=True) for it in modules
    }
    return [it for it in modules if tried[it].returncode]


def install(packages):
    """Installs Debian's packages, where that may be done."""
    if packages and not os.geteuid() and shutil.which("apt-get"):
        add = ["apt-get", "install", "-y", "--no-install-recommends", *packages]
        for words in ["apt-get", "update"], add:
            subprocess.run(words, stdout=subprocess.DEVNULL, check=False)


def prepare(*modules):
    """Installs Debian's packages of modules that are not there, or says what lacks."""
    if not os.path.exists(PYTHON):
        sys.exit(f"{PYTHON} is needed (Debian: python3)")
    # Another checker may install at the same time.
    with alone("packages"):
        install([f"python3-{it}" for it in lacking(modules)])
        packages = [f"python3-{it}" for it in lacking(modules)]
    if packages:
        sys.exit(f"{PYTHON} lacks modules (Debian: {' '.join(packages)})")


def prepare_commands(*names):
    """The same of commands whose packages have their names."""
    with alone("packages"):
        install([it for it in names if not shutil.which(it)])
    lacks = [it for it in names if not shutil.which(it)]
    if lacks:
        sys.exit(f"there is no {' '.join(lacks)} (Debian: {' '.join(lacks)})")


def alone(name):
    """A lock that one process of this user has at a time."""
    lock = open(f"{tempfile.gettempdir()}/tevasulim-{name}.{os.getuid()}", "w")
    fcntl.flock(lock, fcntl.LOCK_EX)
    return lock


def shared_library():
    """The shared library: what the first word of the checker or TEVASULIM_LIBRARY names, or else
    the one of this repository, made over the libraries that the gate has built."""
    named = "".join(sys.argv[1:2]) or os.environ.get("TEVASULIM_LIBRARY")
    if not named:
        with alone("library"):
            subprocess.run(["make", "-s", "-C", os.path.dirname(LIBRARY)], check=True)
    library = os.path.realpath(named or LIBRARY)
    if not os.path.exists(library):
        sys.exit(f"there is no {library}")
    return library


def environment():
    """What a process has to have that imports the package from this repository."""
    if not LIBRARIES:
        LIBRARIES.append(shared_library())
    more = {"TEVASULIM_LIBRARY": LIBRARIES[0], "PYTHONPATH": f"{PACKAGE}:{CHECKS}"}
    return {**os.environ, **more, "PYTHONDONTWRITEBYTECODE": "1"}


def run(*words, **more):
    """Runs Debian's Python, and gives whether it was content."""
    sys.stdout.flush()
    return subprocess.run([PYTHON, *words], env=environment(), **more).returncode == 0
