"""What the gate leaves when it has passed: a record that says for which sources.

`./test` takes the sum of the sources when it begins, and at its end writes the record, where all
has passed and the sources are still the same. `./release` reads it, and makes nothing of sources or
programs that it does not name. The record lies in git's own folder, so no commit has it.
"""
import hashlib
import json
import os
import shutil
import subprocess

ROOT = os.path.dirname(os.path.dirname(os.path.realpath(__file__)))
NAME = "tevasulim-gate.json"
# What the gate leaves for users; a library that it has not made is none of the release.
MADE = (
    "crates/mesh/out/mesh",
    "crates/triangulate/out/triangulate",
    "c/libtevasulim.so.0",
    "c/libtevasulim.a",
)


def git(*words):
    ran = subprocess.run(["git", "-C", ROOT, *words], capture_output=True, text=True, check=True)
    return ran.stdout.strip()


def sum_of(path):
    """The SHA-256 sum of a file."""
    with open(path, "rb") as file:
        return hashlib.sha256(file.read()).hexdigest()


def sources():
    """The files of the repository: those that git has, and new ones that it does not ignore."""
    listed = git("ls-files", "-z", "--cached", "--others", "--exclude-standard").split("\0")
    return sorted(it for it in set(listed) if it and os.path.lexists(f"{ROOT}/{it}"))


def lines_of_sources():
    """A line for each file of the repository: its sum, x where it may be run and else -, and its
    path."""
    for path in sources():
        file = f"{ROOT}/{path}"
        if os.path.isfile(file):
            yield f"{sum_of(file)} {'x' if os.access(file, os.X_OK) else '-'} {path}\n"


def sum_of_sources():
    """One sum of all files of the repository: that of their lines."""
    return hashlib.sha256("".join(lines_of_sources()).encode()).hexdigest()


def kit():
    """The kit's name, the sum of its logic, and those of itself."""
    said = subprocess.run(["rt", "version"], capture_output=True, text=True, check=True).stdout
    folder = os.path.dirname(os.path.dirname(os.path.realpath(shutil.which("rt"))))
    with open(f"{folder}/WHAT") as file:
        return [said.strip(), *file.read().splitlines()]


def place():
    """Where the record is, or None outside of a clone."""
    try:
        return os.path.join(ROOT, git("rev-parse", "--git-path", NAME))
    except (OSError, subprocess.CalledProcessError):
        return None


def begin():
    """Forgets an earlier gate; gives the sum of the sources that this one is for, or None outside
    of a clone."""
    path = place()
    if path and os.path.exists(path):
        os.remove(path)
    return path and sum_of_sources()


def end(begun, lines):
    """Records that the gate has passed. `begun` is what `begin` gave, `lines` what it said last.
    Gives why nothing is recorded, if it is not."""
    if not begun:
        return "this is no clone"
    if sum_of_sources() != begun:
        return "files have changed since the gate began"
    made = {it: sum_of(f"{ROOT}/{it}") for it in MADE if os.path.exists(f"{ROOT}/{it}")}
    record = {"sources": begun, "kit": kit(), "lines": lines, "made": made}
    with open(place(), "w") as file:
        json.dump(record, file, indent=1)
    return None


def read():
    """The record, or None."""
    path = place()
    if not path or not os.path.exists(path):
        return None
    with open(path) as file:
        return json.load(file)
