"""Builds a wheel of this platform, with the shared library in it: the one that TEVASULIM_LIBRARY
names, or ../c/libtevasulim.so. One that lies in the package is taken in an unpacked sdist alone. An
editable installation takes none: the package finds ../c/libtevasulim.so itself.

A library is refused that has another version than the package, or lacks a call of it; in a clone of
the repository, also one that was made of other sources than the clone has."""
import ctypes
import os
import re
import shutil
import sys

from setuptools import Distribution, __version__, setup

# Earlier ones do not read pyproject.toml, and would make a package with no name.
if int(__version__.split(".")[0]) < 61:
    sys.exit(f"setuptools 61 or later is needed, and this is {__version__}")

from setuptools.command.build_py import build_py
from setuptools.command.sdist import sdist
from setuptools.errors import SetupError

try:
    from setuptools.command.bdist_wheel import bdist_wheel
except ImportError:
    from wheel.bdist_wheel import bdist_wheel

HERE = os.path.dirname(os.path.realpath(__file__))
TOOLS = os.path.join(HERE, "..", "tools")
NAME = "libtevasulim.so"
BESIDE = os.path.join(HERE, "tevasulim", NAME)
HOW = """{} was not found as {}. In a clone of the repository three commands make one:
    cd c && make        # proves and builds it; the Rattle kit (`rt`) is needed
    cd ../python
    pip install .
Or set TEVASULIM_LIBRARY to the name of one that is elsewhere. A pip before 21.3 builds in a copy of
these sources and finds no library beside it, so it needs TEVASULIM_LIBRARY."""
OLD = """{} was made of other sources than this clone has. Make a new one in this clone, by
    make -C c           # proves and builds c/libtevasulim.so; the Rattle kit (`rt`) is needed
    make -C c trial     # or builds c/trial/libtevasulim.so with no proof, in two minutes
If the library is not c/libtevasulim.so, set TEVASULIM_LIBRARY to its name."""


def library():
    """Where the library is that goes into the package."""
    named = os.environ.get("TEVASULIM_LIBRARY")
    is_sdist = os.path.exists(os.path.join(HERE, "PKG-INFO"))
    place = named or (BESIDE if is_sdist else os.path.join(HERE, "..", "c", NAME))
    place = os.path.normpath(place)
    if not os.path.exists(place):
        raise SetupError(HOW.format(NAME, place))
    refuse_other_version(place)
    refuse_other_sources(place)
    return place


def refuse_other_version(place):
    """Raises where the library is not of the package's version, or lacks a call of it."""
    with open(os.path.join(HERE, "tevasulim", "_library.py")) as file:
        text = file.read()
    calls = re.search(r"^CALLS = \{\n(.*?)^\}", text, re.M | re.S).group(1)
    wanted = int(re.search(r"^VERSION = (\d+)$", text, re.M).group(1))
    try:
        found = ctypes.CDLL(os.path.abspath(place))
        for name in re.findall(r'^    "(\w+)":', calls, re.M):
            getattr(found, f"tevasulim_{name}")
    except (OSError, AttributeError) as error:
        raise SetupError(f"{place} is of another version: {error}") from None
    has = found.tevasulim_version()
    if has != wanted:
        raise SetupError(f"{place} is of another version: {has} and not {wanted}")


def refuse_other_sources(place):
    """Raises where this is a clone, and the library was made of other sources."""
    if not os.path.exists(os.path.join(TOOLS, "sources.py")):
        return
    sys.path.append(TOOLS)
    from sources import sum_in, sum_of_library

    if sum_in(place) != sum_of_library():
        raise SetupError(OLD.format(place))


class Package(build_py):
    """The package's files, and the library."""

    def run(self):
        super().run()
        if not getattr(self, "editable_mode", False):
            folder = os.path.join(self.build_lib, "tevasulim")
            self.mkpath(folder)
            shutil.copy(library(), os.path.join(folder, NAME))

    def find_data_files(self, package, folder):
        return [it for it in super().find_data_files(package, folder) if not it.endswith(".so")]


class Sources(sdist):
    """The sources, and the library: without it they make no wheel."""

    def make_release_tree(self, base_dir, files):
        super().make_release_tree(base_dir, files)
        shutil.copy(library(), os.path.join(base_dir, "tevasulim", NAME))


class Binary(Distribution):
    """The library is of one platform."""

    def has_ext_modules(self):
        return True


class Wheel(bdist_wheel):
    """A wheel for each Python 3 of this platform."""

    def get_tag(self):
        return "py3", "none", super().get_tag()[2]


COMMANDS = {"build_py": Package, "sdist": Sources, "bdist_wheel": Wheel}
setup(cmdclass=COMMANDS, distclass=Binary)
