"""The version of this repository, and whether each file that has it has the same one."""
import os
import re

ROOT = os.path.dirname(os.path.dirname(os.path.realpath(__file__)))
# The number 10000 * major + 100 * minor + patch, and the version in words.
NUMBERS = {
    "include/tevasulim.h": r"^#define TEVASULIM_VERSION (\d+)\b",
    "crates/tevasulim_c/src/reads.rt": r"^pub const VERSION: u32 = (\d+);",
    "python/tevasulim/_library.py": r"^VERSION = (\d+)$",
}
WORDS = {
    "crates/mesh_io/src/tasks.rt": r'\.version\("([\d.]+)"\)',
    "python/pyproject.toml": r'^version = "([\d.]+)"$',
    "python/tevasulim/__init__.py": r'^__version__ = "([\d.]+)"$',
    "CITATION.cff": r"^version: ([\d.]+)$",
}
PAGES = ("c/man/mesh.1", "c/man/triangulate.1", "c/man/tevasulim.3", "python/tevasulim.1")
WORDS.update({it: r'^\.TH .* "tevasulim ([\d.]+)"' for it in PAGES})
ENTRY = r"^## {} \((\d{{4}}-\d\d-\d\d)\)$"


def found(path, pattern):
    with open(f"{ROOT}/{path}") as file:
        match = re.search(pattern, file.read(), re.M)
    return match and match[1]


def version():
    """The version that include/tevasulim.h has."""
    number = int(found("include/tevasulim.h", NUMBERS["include/tevasulim.h"]))
    return f"{number // 10000}.{number // 100 % 100}.{number % 100}"


def date_of(wanted):
    """The date of a version's entry in CHANGELOG.md, or None."""
    return found("CHANGELOG.md", ENTRY.format(re.escape(wanted)))


def others():
    """The files that have another version, or none; and what they have."""
    wanted = version()
    number = found("include/tevasulim.h", NUMBERS["include/tevasulim.h"])
    told = [(path, found(path, pattern), number) for path, pattern in NUMBERS.items()]
    told += [(path, found(path, pattern), wanted) for path, pattern in WORDS.items()]
    return [f"{path} has the version {has}" for path, has, right in told if has != right]
