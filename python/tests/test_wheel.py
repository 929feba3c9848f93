"""Which library goes into a wheel: one of the package's version with each call, and in a clone one
that was made of the sources that the clone has."""
import os
import shutil
import subprocess
import sys
import tempfile
import unittest

from tevasulim import _library as library

import stub_library

PACKAGE = os.path.join(os.path.dirname(os.path.realpath(__file__)), "..")
TOOL = os.path.join(PACKAGE, "..", "tools", "sources.py")
IN_PACKAGE = "setup.py pyproject.toml README.md LICENSE-MIT LICENSE-APACHE".split()
SOURCE, CALLS = "crates/plane/src/lib.rt", "c/calls.c"


@unittest.skipUnless(os.path.exists(TOOL), "this is no clone of the repository")
@unittest.skipUnless(stub_library.COMPILER, "there is no compiler for C")
class Wheel(unittest.TestCase):
    def setUp(self):
        room = tempfile.TemporaryDirectory()
        self.addCleanup(room.cleanup)
        self.clone = room.name
        files = [f"python/{it}" for it in IN_PACKAGE] + ["tools/sources.py"]
        files += [f"python/tevasulim/{it}" for it in ("__init__.py", "_library.py", "py.typed")]
        for path in files:
            os.makedirs(os.path.dirname(f"{self.clone}/{path}"), exist_ok=True)
            shutil.copy(os.path.join(PACKAGE, "..", path), f"{self.clone}/{path}")
        for path in SOURCE, CALLS:
            self.write(path, "as it was\n")

    def write(self, path, text):
        os.makedirs(os.path.dirname(f"{self.clone}/{path}"), exist_ok=True)
        with open(f"{self.clone}/{path}", "w") as file:
            file.write(text)

    def sum(self):
        """The sum of the sources that the clone has now."""
        subprocess.run([f"{self.clone}/tools/sources.py", f"{self.clone}/sum"], check=True)
        with open(f"{self.clone}/sum") as file:
            return file.read()

    def build(self, place):
        """Why no wheel is built, or nothing."""
        words = [sys.executable, "setup.py", "-q", "build"]
        named = {**os.environ, "TEVASULIM_LIBRARY": place, "PYTHONDONTWRITEBYTECODE": "1"}
        how = {"cwd": f"{self.clone}/python", "env": named, "capture_output": True, "text": True}
        built = f"{self.clone}/python/build"
        shutil.rmtree(built, ignore_errors=True)
        ran = subprocess.run(words, **how)
        has = [it for _, _, files in os.walk(built) for it in files if it.endswith(".so")]
        self.assertEqual((ran.returncode == 0, has), (bool(has), has[:1]), ran.stderr)
        return ran.stderr if ran.returncode else ""

    def refused(self, said, *words):
        for word in words:
            self.assertIn(word, said)

    def test_sources(self):
        place = stub_library.make(self.clone, sources=self.sum())
        self.assertEqual(self.build(place), "")
        for path in SOURCE, CALLS, "crates/plane/proofs/new.antt":
            had = os.path.exists(f"{self.clone}/{path}")
            self.write(path, "changed\n")
            said = self.build(place)
            self.refused(said, "other sources", "make -C c  ", "make -C c trial", place)
            self.write(path, "as it was\n") if had else os.remove(f"{self.clone}/{path}")
        os.rename(f"{self.clone}/{SOURCE}", f"{self.clone}/crates/plane/src/other.rt")
        self.refused(self.build(place), "other sources")

    def test_a_library_that_tells_no_sources(self):
        self.refused(self.build(stub_library.make(self.clone)), "other sources")

    def test_outside_of_a_clone(self):
        os.remove(f"{self.clone}/tools/sources.py")
        self.assertEqual(self.build(stub_library.make(self.clone, sources="any")), "")

    def test_version(self):
        for version in library.VERSION - 1, library.VERSION + 1:
            place = stub_library.make(self.clone, version, sources=self.sum())
            self.refused(self.build(place), "another version", f"{version} and not")
        for name in "version", "in_sight":
            place = stub_library.make(self.clone, lacks=[name], sources=self.sum())
            self.refused(self.build(place), "another version", f"tevasulim_{name}")
        self.refused(self.build(f"{self.clone}/python/setup.py"), "another version")
        self.refused(self.build("/nowhere/libtevasulim.so"), "three commands")


class Loading(unittest.TestCase):
    """What the import of the package says of a library of another version."""

    def load(self, place):
        named = {**os.environ, "TEVASULIM_LIBRARY": place}
        text = "try:\n import tevasulim as it\n"
        text += " print(it.__version__, it.library_version(), it.is_proved())\n"
        text += "except ImportError as error: print(error)"
        words = [sys.executable, "-c", text]
        ran = subprocess.run(words, env=named, capture_output=True, text=True)
        self.assertEqual(ran.returncode, 0, ran.stderr)
        return ran.stdout.strip()

    @unittest.skipUnless(stub_library.COMPILER, "there is no compiler for C")
    def test_version(self):
        own = library.in_words(library.VERSION)
        with tempfile.TemporaryDirectory() as room:
            later = library.VERSION + 1
            said = self.load(stub_library.make(room, later))
            self.assertEqual(said, f"{own} {library.in_words(later)} False")
            for other in library.VERSION - 1, library.VERSION + 10000:
                # One of another version may lack calls, too.
                said = self.load(stub_library.make(room, other, ["in_sight"]))
                self.assertIn(f"tevasulim {own} needs version {own}", said)
                self.assertIn(f"has version {library.in_words(other)}", said)
            said = self.load(stub_library.make(room, lacks=["in_sight"]))
            self.assertIn("tevasulim_in_sight", said)


if __name__ == "__main__":
    unittest.main()
