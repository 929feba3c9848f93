#!/usr/bin/env python3
"""checks/python_package.py [LIBRARY]: the Python package over the shared library: the examples in
its docstrings and guides, its unit tests, what pip makes of it with no network, its types, how long
its import takes, scipy's and matplotlib's own tests over its adapter (python_scipy.py), and its
answers beside scipy's and those of brute force (python_answers.py).

c/Makefile makes c/libtevasulim.so over the libraries that the gate has built. LIBRARY is taken as
it is: nothing is known of how it was built. It runs Debian's own Python with the packages of
MODULES.
"""
import glob
import os
import shutil
import subprocess
import sys
import tempfile
import zipfile

sys.dont_write_bytecode = True
from debian import (  # noqa: E402
    PACKAGE,
    PYTHON,
    environment,
    prepare,
    prepare_commands,
    run,
)
from project import CHECKS  # noqa: E402

MODULES = "numpy scipy matplotlib shapely geopandas rtree meshio rasterio pytest".split()
MODULES += ["setuptools", "wheel"]


def pip(*words, **more):
    """Runs pip with no network and Debian's own setuptools, and gives its status and words."""
    offline = ["--no-index", "--no-deps", "--no-build-isolation"]
    offline += ["--root-user-action=ignore"] * (words[0] == "install")
    ran = subprocess.run(
        [PYTHON, "-m", "pip", words[0], *offline, *words[1:]],
        stdout=subprocess.PIPE, stderr=subprocess.STDOUT, text=True, **more,
    )  # fmt: skip
    return ran.returncode, ran.stdout


def is_whole(wheel):
    """Whether a wheel is one of its platform, with the library and the licences in it."""
    with zipfile.ZipFile(wheel) as file:
        names = " ".join(file.namelist())
    parts = "tevasulim/libtevasulim.so", "LICENSE-MIT", "LICENSE-APACHE", "tevasulim/py.typed"
    return "-py3-none-linux_" in wheel and all(it in names for it in parts)


def is_of_these_sources():
    """Whether a wheel can be built in this clone: its library was made of these sources."""
    with tempfile.TemporaryDirectory() as room:
        words = [PYTHON, "setup.py", "-q", "build", "--build-base", room]
        how = {"stdout": subprocess.PIPE, "stderr": subprocess.STDOUT, "text": True}
        ran = subprocess.run(words, cwd=PACKAGE, env=environment(), **how)
    if ran.returncode:
        print(ran.stdout)
    return ran.returncode == 0


def installs():
    """Whether pip makes a wheel, offline, and what it installs works alone; and whether no library
    and one of another kind are refused in words."""
    if subprocess.run([PYTHON, "-m", "pip", "--version"], stdout=subprocess.DEVNULL).returncode:
        print("no pip: not installed")
        return True
    with tempfile.TemporaryDirectory() as room:
        # A build writes beside its sources.
        sources, folder = f"{room}/sources", f"{room}/installed"
        shutil.copytree(PACKAGE, sources, ignore=shutil.ignore_patterns("build", "*.egg-info"))
        named = {**environment(), "TMPDIR": room}
        alone = {k: v for k, v in named.items() if k != "TEVASULIM_LIBRARY"}
        for words, wanted in (
            (alone, "three commands"),
            ({**alone, "TEVASULIM_LIBRARY": "/lib/x86_64-linux-gnu/libc.so.6"}, "another version"),
        ):
            status, said = pip("wheel", "--wheel-dir", room, sources, env=words)
            if not status or wanted not in said:
                print(said)
                return False
        status, said = pip("wheel", "--wheel-dir", room, sources, env=named)
        wheels = glob.glob(f"{room}/*.whl")
        if status or not is_whole(*wheels):
            print(said, wheels)
            return False
        status, said = pip("install", "--target", folder, *wheels, env=named)
        alone["PYTHONPATH"] = folder
        text = "from tevasulim import Triangulation as T; print(*T([(0, 0), (1, 0), (0, 1)]).hull)"
        ran = subprocess.run([PYTHON, "-c", text], env=alone, cwd=folder, stdout=subprocess.PIPE)
        return not status and ran.stdout == b"0 1 2\n"


def types():
    """Whether mypy is content."""
    words = ["mypy", "--strict", "--no-incremental", "--cache-dir", os.devnull, "tevasulim"]
    return subprocess.run(words, cwd=PACKAGE, env={**os.environ, "MYPYPATH": ""}).returncode == 0


def starts_soon():
    """Whether importing the package takes at most 40 milliseconds more than numpy, the least of a
    few times, once it is compiled."""
    text = "import numpy, time; a = time.process_time(); import tevasulim; "
    text += "print(time.process_time() - a)"
    with tempfile.TemporaryDirectory() as room:
        words = {**environment(), "PYTHONPYCACHEPREFIX": room, "PYTHONDONTWRITEBYTECODE": ""}
        took = [
            float(subprocess.check_output([PYTHON, "-c", text], env=words)) for _ in range(9)
        ]
    print(f"import: {min(took) * 1000:.0f} ms beside numpy's")
    return min(took) < 0.04


def main():
    prepare(*MODULES)
    prepare_commands("mypy")
    tests = f"{PACKAGE}/tests"
    parts = {
        "examples": lambda: run(f"{tests}/examples.py"),
        "unit tests": lambda: run("-m", "unittest", "discover", "-q", "-s", tests),
        "sources": is_of_these_sources,
        "pip": installs,
        "types": types,
        "import": starts_soon,
        "tests of scipy and matplotlib": lambda: run(f"{CHECKS}/python_scipy.py"),
        "answers": lambda: run(f"{CHECKS}/python_answers.py"),
    }
    failed, took = [], []
    for name, part in parts.items():
        before = sum(os.times()[:4])
        if not part():
            failed.append(name)
        took.append(f"{name} {sum(os.times()[:4]) - before:.0f}")
    print(f"processor seconds: {', '.join(took)}")
    if failed:
        sys.exit(f"not content: {', '.join(failed)}")


main()
