#!/usr/bin/env python3
"""checks/mutants.py [--list] [NAME..]: has the prover refuse each mutant of the list
mutants.json, or those whose names or crates are given.

A mutant is a function of a library with a mistake put in. The list names, for each, the crate,
the function, the record or clause that has to refuse it, and the changes: of a file, a text that
stands there once, and the text in its place. A copy of the crate with the changes is checked by
`rattle check --only FUNCTION` over the libraries that the gate has left in crates/*/out/rlib.
Several bodies of a crate share one copy where they are of different functions, since reading the
libraries takes most of the time, and a function that merely calls a refused one is told apart.

It prints which goal of the function refused each body. A body that is still proved fails, and so
does one that cannot be applied, compiled or read by the prover, or whose check was cut short.
"""
import argparse
import json
import os
import re
import shutil
import subprocess
import sys
import tempfile
import time
from concurrent.futures import ThreadPoolExecutor

from project import CHECKS, ROOT

from libraries import crates, lanes, rtlib  # (of tools/)

# How many copies are checked at once at most.
LANES = 3
# The most bodies in one copy: more take longer than what they share.
MANY = 6
# A goal that is not proved: in a proof file, or one that was left to the search.
IN_A_FILE = r"(?m)^(?:\./)?proofs/{}/\w+\.antt:\d+:\d+: error: `([^`]+)`: (.*)"
BY_SEARCH = r"`search` did not prove (`[^`]+`(?:, `[^`]+`)*)"


class NotThere(Exception):
    """A change cannot be made."""


class Body:
    """A mutant, and what came of it."""

    def __init__(self, row):
        self.crate, self.name, self.function = row["crate"], row["name"], row["function"]
        self.record, self.changes = row["refused by"], row["changes"]
        self.label = f"{self.crate}/{self.name}"
        self.goal, self.fault = None, None

    def apply(self, room):
        """Makes the changes in a copy of the crate."""
        for change in self.changes:
            file = f"{room}/{change['file']}"
            if not os.path.isfile(file):
                raise NotThere(f"there is no {change['file']}")
            with open(file, encoding="utf-8") as it:
                text = it.read()
            found = text.count(change["old"])
            if found != 1 or change["old"] == change["new"]:
                raise NotThere(f"{change['old']!r} is {found} times in {change['file']}")
            with open(file, "w", encoding="utf-8") as it:
                it.write(text.replace(change["old"], change["new"]))

    def judge(self, said):
        """Looks for the function's own verdict in what the prover said."""
        path = f"{self.crate}::{self.function}"
        verdict = re.search(rf"(?m)^fn {re.escape(path)}: (.*)", said)
        if not verdict:
            self.fault = f"NOT TRIED: the prover says nothing of {path}"
            return
        if verdict[1] == "proved":
            self.fault = "NOT REFUSED: it is still proved"
            return
        folder = re.escape(self.function.replace("::", "/"))
        goals = [it[1] for it in re.finditer(IN_A_FILE.format(folder), said) if is_own(it[2])]
        for names in re.findall(BY_SEARCH, verdict[1]):
            goals += re.findall("`([^`]+)`", names)
        if goals:
            self.goal = goals[0]
        else:
            self.fault = f"NOT TRIED: no goal of it was refused: {verdict[1][:200]}"


def is_own(text):
    """Whether a proof file's error is one of the function, and not of a name that is gone or of a
    declaration that was refused before."""
    return not re.search(r"is not in scope|has no field|was not admitted", text)


def check(crate, bodies):
    """What the prover says of a copy of a crate with these bodies, and the status."""
    kit = rtlib()
    with tempfile.TemporaryDirectory(prefix="wrong-body-") as room:
        for part in kit.PARTS:
            if os.path.isdir(f"{crate.folder}/{part}"):
                shutil.copytree(f"{crate.folder}/{part}", f"{room}/{part}")
        for body in bodies:
            body.apply(room)
        words = [kit.RATTLE, "check", *crate.words(["--jobs", "1"], keeps=False)]
        for body in bodies:
            words += ["--only", body.function]
        how = {"cwd": room, "stdin": subprocess.DEVNULL, "stdout": subprocess.PIPE}
        how.update({"stderr": subprocess.STDOUT, "errors": "replace"})
        ran = subprocess.run([*kit.guarded(), *words], **how)
        return ran.stdout, ran.returncode


def try_bodies(crate, bodies):
    """Tries bodies in one copy; each in a copy of its own where the copy comes to no verdict."""
    begin = time.monotonic()
    try:
        said, status = check(crate, bodies)
        is_told = status == 1 and re.search(r"(?m)^only=\d+ proved=\d+$", said)
    except NotThere as error:
        said, status, is_told = f"it cannot be applied: {error}", None, False
    if not is_told and status != 0 and len(bodies) > 1:
        for body in bodies:
            try_bodies(crate, [body])
        return
    for body in bodies:
        if is_told or status == 0:
            body.judge(said)
        else:
            errors = [it for it in said.splitlines() if "error" in it] or said.splitlines()[-3:]
            said_first = " ".join(errors[:1] if status is not None else [said])
            body.fault = f"NOT TRIED: status {status}: {said_first[:300]}"
    seconds = time.monotonic() - begin
    for body in bodies:
        told = f"refused by {body.record}, at {body.function}, goal {body.goal}"
        share = f"{seconds:.0f} s for {len(bodies)}"
        print(f"{body.label}: {body.fault or told} ({share})", flush=True)


def grouped(bodies):
    """The bodies in lists, each of one crate and of different functions."""
    groups = []
    for body in bodies:
        for group in groups:
            is_new = all(body.function != it.function for it in group)
            if group[0].crate == body.crate and is_new and len(group) < MANY:
                group.append(body)
                break
        else:
            groups.append([body])
    return sorted(groups, key=len, reverse=True)


def main():
    words = argparse.ArgumentParser(description=__doc__)
    words.add_argument("--list", action="store_true", help="names the bodies, and tries none")
    words.add_argument("names", nargs="*", help="names of bodies or crates")
    given = words.parse_args()
    with open(f"{CHECKS}/mutants.json", encoding="utf-8") as file:
        bodies = [Body(row) for row in json.load(file)]
    wanted = lambda it: not given.names or {it.crate, it.name, it.label} & {*given.names}
    bodies = [it for it in bodies if wanted(it)]
    if given.list:
        print(*(f"{it.label}: {it.function}: {it.record}" for it in bodies), sep="\n")
        return 0
    named = {it.name: it for it in crates()}
    # Its first call sets a signal's handler, which only the first thread may.
    rtlib().guarded()
    begin = time.monotonic()
    tried = []
    for body in bodies:
        crate = named.get(body.crate)
        lacking = [it.name for it in crate.below() if not os.path.isdir(it.rlib)] if crate else []
        if not crate or lacking:
            why = f"there is no library {lacking[0]}: ./test builds it" if crate else "no such crate"
            body.fault = f"NOT TRIED: {why}"
            print(f"{body.label}: {body.fault}")
        else:
            tried.append(body)
    below = {it.name: it for body in tried for it in named[body.crate].below()}
    stale = [name for name, it in below.items() if not it.is_built()]
    if stale:
        print(f"note: without a stamp of these files, so perhaps of others: {' '.join(stale)}")
    with ThreadPoolExecutor(lanes(LANES)) as pool:
        list(pool.map(lambda group: try_bodies(named[group[0].crate], group), grouped(tried)))
    refused = sum(it.goal is not None for it in bodies)
    seconds = time.monotonic() - begin
    print(f"{refused} of {len(bodies)} mutants are refused, in {seconds:.0f} s")
    return int(refused < len(bodies))


if __name__ == "__main__":
    rtlib()
    os.chdir(ROOT)
    sys.exit(main())
