#!/usr/bin/env python3
"""checks/api.py [write]: docs/api has every public item, by the signatures, docstrings and
contracts of the sources.

Without a word it compares docs/api with what the sources give, prints nothing and exits 0 where
they agree; else it says which page differs and exits 1. `checks/api.py write` writes the pages. A
type or trait that `spade_delaunay` passes on has to stand under a heading of pages/rattle.py, and
each call of the header on the page for C.
"""
import glob
import os
import re
import sys

from pages import c, python, rattle
from pages.sources import text_of
from project import ROOT

FOLDER = "docs/api"
HEAD = """# Every public item

Made by `checks/api.py write` from the sources. Each page has signatures, what a call does, when \
it refuses, and the records that its contract asks for and promises, which are definitions in \
`specs/`. docs/PROVED.md says in words what these records say.

A call without a `Result` is never refused. A refused call changes nothing, unless its page says \
otherwise. Pass each call only handles of its own triangulation.

- [The calls for C](c.md)
- [The Python package](python.md)
- The programs: docs/PROGRAM.md
"""


def pages():
    """The text of each page by its name."""
    made = rattle.Pages()
    lines = [HEAD]
    for heading, rows in made.index:
        lines += [f"## {heading}", "", "Item | What it is", "---|---"]
        lines += [f"[{name}]({page}) | {said.replace('|', '&#124;')}" for name, page, said in rows]
        lines.append("")
    for_c, calls = c.page()
    for_python, _ = python.page()
    declared = set(re.findall(r"^[\w ]+[ *](tevasulim_\w+)\(", text_of(c.HEADER), re.M))
    if calls != len(declared):
        sys.exit(f"checks/api.py: of {len(declared)} calls for C {calls} have a comment")
    texts = {"README.md": lines, "c.md": for_c, "python.md": for_python, **made.pages}
    return {name: "\n".join(it).rstrip("\n") + "\n" for name, it in texts.items()}


def main():
    lacking = rattle.lacking()
    if lacking:
        sys.exit(f"checks/api.py: spade_delaunay passes on {' '.join(lacking)}, without a heading")
    made = pages()
    there = {os.path.basename(it) for it in glob.glob(f"{ROOT}/{FOLDER}/*.md")}
    if sys.argv[1:] == ["write"]:
        os.makedirs(f"{ROOT}/{FOLDER}", exist_ok=True)
        for name in there - set(made):
            os.remove(f"{ROOT}/{FOLDER}/{name}")
        for name, text in made.items():
            with open(f"{ROOT}/{FOLDER}/{name}", "w", encoding="utf-8") as file:
                file.write(text)
        return
    differs = there ^ set(made)
    differs |= {it for it in there & set(made) if text_of(f"{FOLDER}/{it}") != made[it]}
    if differs:
        print(f"{FOLDER}: {' '.join(sorted(differs))} differ from the sources: checks/api.py write")
        sys.exit(1)


main()
