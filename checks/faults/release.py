"""What ./release refuses: it is run in a small clone of its own, with a record as the gate leaves
it, of which one thing is wrong each time."""
import hashlib
import json
import os
import shutil
import subprocess
import sys

from installed import expect

from project import ROOT

import versions  # noqa: E402
from gate_record import MADE, NAME  # noqa: E402

GIT = ["git", "-c", "user.name=t", "-c", "user.email=t@example.org", "-c", "commit.gpgsign=false"]
LIBRARY, PROJECT = "c/libtevasulim.so.0", "python/pyproject.toml"


class Clone:
    """A small clone, and the record of a gate."""

    def __init__(self, folder):
        self.folder = folder
        files = ["release", ".gitignore", "CHANGELOG.md", *versions.NUMBERS, *versions.WORDS]
        files += [f"tools/{it}" for it in os.listdir(f"{ROOT}/tools") if it.endswith(".py")]
        for path in files:
            os.makedirs(os.path.dirname(f"{folder}/{path}"), exist_ok=True)
            shutil.copy(f"{ROOT}/{path}", f"{folder}/{path}")
        for path in MADE:
            self.write(path, "as the gate left it")
        self.git("init", "-q")
        self.commit()

    def write(self, path, text):
        os.makedirs(os.path.dirname(f"{self.folder}/{path}"), exist_ok=True)
        with open(f"{self.folder}/{path}", "w") as file:
            file.write(text)

    def read(self, path):
        with open(f"{self.folder}/{path}") as file:
            return file.read()

    def git(self, *words):
        subprocess.run([*GIT, *words], cwd=self.folder, check=True, stdout=subprocess.DEVNULL)

    def commit(self):
        self.git("add", "-A")
        self.git("commit", "-q", "--allow-empty", "-m", "a commit")

    def record(self):
        """Leaves the record of a gate that has passed for what there is."""
        text = "import gate_record; print(gate_record.sum_of_sources())"
        words = [sys.executable, "-B", "-c", text]
        how = {"cwd": f"{self.folder}/tools", "capture_output": True, "text": True, "check": True}
        record = {"sources": subprocess.run(words, **how).stdout.strip(), "kit": [], "lines": []}
        record["made"] = {
            it: hashlib.sha256(self.read(it).encode()).hexdigest() for it in MADE
        }
        self.write(f".git/{NAME}", json.dumps(record))

    def says(self):
        """What ./release says when it makes nothing."""
        ran = subprocess.run([f"{self.folder}/release"], capture_output=True, text=True)
        there = os.path.exists(f"{self.folder}/dist")
        expect((ran.returncode, there), (1, False), "./release of a clone with no sources")
        return ran.stderr


def changed(clone, path, old, new):
    """Commits a change for which the gate has passed, too; then all is as before."""
    text = clone.read(path)
    expect(old in text, True, f"{old!r} in {path}")
    clone.write(path, text.replace(old, new))
    clone.commit()
    clone.record()
    said = clone.says()
    clone.write(path, text)
    clone.commit()
    clone.record()
    return said


def try_refusals(folder):
    """Each refusal of ./release, and that nothing but the missing sources is refused else."""
    clone = Clone(folder)
    told = {"no ./test has passed here": clone.says()}
    clone.record()
    told["failed"] = clone.says()
    clone.write("new.txt", "a file")
    told["the clone has changes"] = clone.says()
    clone.commit()
    told["the last ./test that passed was for other sources"] = clone.says()
    clone.record()
    clone.write(LIBRARY, "another")
    told[f"{LIBRARY} is not what ./test left"] = clone.says()
    os.remove(f"{folder}/{LIBRARY}")
    expect("is not what ./test left" in clone.says(), True, "a library that is not there")
    clone.write(LIBRARY, "as the gate left it")
    now = versions.version()
    other = f"{PROJECT} has the version {now}.1"
    told[other] = changed(clone, PROJECT, f'version = "{now}"', f'version = "{now}.1"')
    date = f"## {now} ({versions.date_of(now)})"
    for new in f"## {now}", f"## {now}.1 ({versions.date_of(now)})":
        said = changed(clone, "CHANGELOG.md", date, new)
        told[f"CHANGELOG.md has no entry `## {now} ("] = said
        expect("has no entry" in said, True, f"CHANGELOG.md with {new}")
    told["make"] = clone.says()
    wrong = {words: said for words, said in told.items() if words not in said}
    expect(wrong, {}, "what ./release says")
    print(f"./release refuses what it has to, in {len(told) - 2} ways")
