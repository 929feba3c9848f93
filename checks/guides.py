#!/usr/bin/env python3
"""checks/guides.py [write] [PROGRAM [LIBRARY]]: follows the guides of docs/guide that PAGES names,
as a reader does, and compares what they show with what comes.

PROGRAM is the `mesh` that the gate has built, LIBRARY the shared library, as in python_package.py.
Each page has a fresh folder. Its fenced blocks are taken in their order:

- a block with a file's name behind its language is written to that file, which the text names too;
- a `console` block has commands behind `$ `, each with all that it prints, to both of its outputs;
- a `python` block is a doctest. All of a page are one, which is run after its commands.

A command is to end with status 0, or else to say `mesh: ` and why. A picture that the page shows is
to be the one that its commands have made, and smaller than MOST bytes. `write` stores pictures in
docs/guide in place of comparing them.
"""
import os
import re
import shutil
import subprocess
import sys
import tempfile

from project import ROOT, built

WRITES = sys.argv[1:2] == ["write"] and bool(sys.argv.pop(1))
PROGRAM = os.path.realpath(sys.argv.pop(1) if sys.argv[1:] else built("mesh"))
# It takes what is then the first word for the library.
import debian  # noqa: E402

GUIDE = f"{ROOT}/docs/guide"
PAGES = "terrain", "navigation", "lookup", "parcels"
# geopandas joins tables by place over rtree, which Debian's package of it does not bring along.
MODULES = "numpy", "shapely", "geopandas", "rtree"
BLOCK = re.compile(r"^```(\w*) ?(\S*)\n(.*?)^```$", re.M | re.S)
MOST = 40_000
# Whole sessions, so that a later block knows the names of those before it.
DOCTEST = """
import doctest, sys
result = doctest.testfile(sys.argv[1], module_relative=False)
print(result.attempted)
sys.exit(bool(result.failed))
"""


def commands_of(text):
    """The commands of a console block, each with what it prints."""
    parts = re.split(r"^\$ ", text, flags=re.M)
    if parts[0]:
        sys.exit(f"a console block begins with no command: {parts[0]}")
    return [part.partition("\n")[::2] for part in parts[1:]]


class Page:
    """A guide, and the folder where it is followed."""

    def __init__(self, name, room):
        self.name, self.room = name, room
        self.faults, self.commands = [], 0
        with open(f"{GUIDE}/{name}.md", encoding="utf-8") as file:
            self.text = file.read()

    def run(self, command, wanted):
        """Runs a command, and compares what it prints and its status."""
        self.commands += 1
        words = {**os.environ, "PATH": f"{self.room}/bin:{os.environ['PATH']}"}
        ran = subprocess.run(
            ["bash", "-c", command], cwd=f"{self.room}/work", env=words, text=True, timeout=120,
            stdin=subprocess.DEVNULL, stdout=subprocess.PIPE, stderr=subprocess.STDOUT,
        )  # fmt: skip
        if ran.stdout != wanted:
            self.faults.append(f"$ {command}\n{ran.stdout}wanted:\n{wanted}")
        elif ran.returncode and "mesh: " not in wanted:
            self.faults.append(f"$ {command}\nstatus {ran.returncode}")

    def take(self, language, name, text):
        """Does what a block asks for."""
        if name:
            if f"`{name}`" not in self.text:
                self.faults.append(f"the text does not name {name}")
            with open(f"{self.room}/work/{name}", "w", encoding="utf-8") as file:
                file.write(text)
        elif language == "console":
            for command, wanted in commands_of(text):
                self.run(command, wanted)
        elif language != "python":
            self.faults.append(f"a block is neither a file nor run:\n{text}")

    def run_python(self):
        """Runs the page's examples in Python, and gives how many there are."""
        if "```python\n" not in self.text:
            return 0
        session = f"{self.room}/session"
        with open(session, "w", encoding="utf-8") as file:
            file.write("\n".join(it[3] for it in BLOCK.finditer(self.text) if it[1] == "python"))
        ran = subprocess.run(
            [debian.PYTHON, "-W", "error::UserWarning", "-c", DOCTEST, session],
            cwd=f"{self.room}/work", env=debian.environment(), stdout=subprocess.PIPE, text=True,
        )  # fmt: skip
        if ran.returncode:
            self.faults.append(ran.stdout)
            return 0
        return int(ran.stdout)

    def compare_picture(self, name):
        """Compares a picture beside the page with the one that was made, or stores that."""
        beside, made = f"{GUIDE}/{name}", f"{self.room}/work/{name}"
        if not os.path.exists(made):
            self.faults.append(f"no command makes {name}")
            return
        if WRITES:
            shutil.copyfile(made, beside)
        if not os.path.exists(beside) or open(beside, "rb").read() != open(made, "rb").read():
            self.faults.append(f"docs/guide/{name} is not the picture that is made")
        if os.path.getsize(made) >= MOST:
            self.faults.append(f"{name} has {os.path.getsize(made)} bytes")

    def follow(self):
        """Follows the page, and gives whether all is as it shows."""
        blocks = BLOCK.findall(self.text)
        if len(re.findall("^```", self.text, re.M)) != 2 * len(blocks):
            self.faults.append("a fence is not closed, or is none that is known")
        for block in blocks:
            self.take(*block)
        examples = self.run_python()
        pictures = re.findall(r"^!\[[^\]]*\]\((\S+)\)", self.text, re.M)
        for name in pictures:
            self.compare_picture(name)
        counts = f"{self.commands} commands, {examples} examples, {len(pictures)} pictures"
        print(f"{self.name}.md: {counts}, {len(self.faults)} faults")
        print("".join(f"{it}\n" for it in self.faults), end="", flush=True)
        return not self.faults


def follow(name):
    with tempfile.TemporaryDirectory() as room:
        os.mkdir(f"{room}/bin")
        os.mkdir(f"{room}/work")
        os.symlink(PROGRAM, f"{room}/bin/mesh")
        return Page(name, room).follow()


def main():
    if not os.path.exists(PROGRAM):
        sys.exit(f"there is no {PROGRAM}")
    debian.prepare(*MODULES)
    wrong = [name for name in PAGES if not follow(name)]
    if wrong:
        sys.exit(f"not as they show: {', '.join(wrong)}")


main()
