"""What ./release makes: the archive for Linux, the Python package, and Debian's packages.

It is made of programs and a library that are there already: those of the gate, or for trying this
out those of a trial (`source` is "." or "trial", as c/Makefile's FROM). Each file is the same where
the programs, the library and the sources are, whenever it is made.
"""
import ctypes
import os
import shutil
import subprocess
import sys
import tempfile

import debian_packages
from archives import set_times, write_tar, write_tar_again
from bill import write_bill, write_licenses
from sources import sum_in, sum_of_library
from trial_build import is_trial
from versions import version

ROOT = os.path.dirname(os.path.dirname(os.path.realpath(__file__)))
# Not the first one on the path: Debian's packages are for this one alone.
PYTHON = "/usr/bin/python3"
DOCUMENTS = ("README.md", "CHANGELOG.md", "SECURITY.md", "docs/C.md", "docs/PROGRAM.md")
DOCUMENTS += ("docs/PROVED.md", "docs/PYTHON.md", "LICENSE", "LICENSE-APACHE", "LICENSE-MIT")
EXAMPLES = ("c/hill.c", "c/hill.cpp")


class NotMade(Exception):
    """Why nothing is made."""


def run(words, **how):
    how = {"stdout": subprocess.PIPE, "stderr": subprocess.STDOUT, "text": True, **how}
    ran = subprocess.run(words, **how)
    if ran.returncode:
        raise NotMade(f"{' '.join(words)} failed:\n{ran.stdout[-3000:]}")
    return ran.stdout


def refuse_trial(folder):
    """Raises where a program or the library of an installed folder is not proved."""
    library = f"{folder}/lib/libtevasulim.so.0"
    files = [f"{folder}/bin/{it}" for it in os.listdir(f"{folder}/bin")]
    for file in [*files, library, f"{folder}/lib/libtevasulim.a"]:
        if is_trial(file):
            raise NotMade(f"{os.path.basename(file)} is a trial build")
    if not ctypes.CDLL(library).tevasulim_is_proved():
        raise NotMade("tevasulim_is_proved says that the library is not proved")


def refuse_old(library):
    """Raises where a library was made of other sources than there are."""
    if sum_in(library) != sum_of_library():
        raise NotMade(f"{os.path.basename(library)} was made of other sources than there are now")


def install(folder, source, prefix="", libdir="lib"):
    """Installs programs, library, headers and manual pages below a folder."""
    words = ["make", "-s", "-C", f"{ROOT}/c", "install", "install-programs", f"FROM={source}"]
    words += [f"DESTDIR={folder}", f"PREFIX={prefix}", f"LIBDIR={prefix}/{libdir}"]
    words += ["PC_PREFIX=" + (prefix or "$${pcfiledir}/../..")]
    run([*words, "CC=gcc"])


def add_documents(folder):
    """Adds documents, examples and all licences."""
    os.makedirs(f"{folder}/examples")
    for path in DOCUMENTS:
        shutil.copy(f"{ROOT}/{path}", folder)
    for path in EXAMPLES:
        shutil.copy(f"{ROOT}/{path}", f"{folder}/examples")
    write_licenses(f"{folder}/licenses")


def write_archive(out, source, epoch):
    """Writes the archive for Linux into the folder OUT; gives what it has, unpacked."""
    top = f"tevasulim-{version()}-linux-x86_64"
    with tempfile.TemporaryDirectory() as room:
        install(room, source)
        if source != "trial":
            refuse_trial(room)
        add_documents(f"{room}/share/doc/tevasulim")
        write_tar(f"{out}/{top}.tar.gz", room, top, epoch)


# Builds the wheel and the sources' archive as pip would, but in no environment of its own, so that
# nothing is fetched.
BUILD = """
import importlib, os, re, sys

sys.path.insert(0, os.getcwd())
sys.dont_write_bytecode = True
with open("pyproject.toml") as project:
    name = re.search(r'^build-backend = "(.*)"', project.read(), re.M)[1]
backend, out = importlib.import_module(name), sys.argv[1]
backend.build_wheel(out)
backend.build_sdist(out)
"""


def write_python(out, library, epoch):
    """Writes the wheel, which has the library, and the sources' archive; gives the wheel."""
    with tempfile.TemporaryDirectory() as room:
        # A build writes beside its sources.
        built = shutil.ignore_patterns("build", "*.egg-info", "__pycache__", "*.so")
        shutil.copytree(f"{ROOT}/python", f"{room}/python", ignore=built)
        for name in ("LICENSE", "LICENSE-APACHE", "LICENSE-MIT"):
            shutil.copy(f"{ROOT}/{name}", room)
        set_times(room, epoch)
        os.mkdir(f"{room}/made")
        own = {k: v for k, v in os.environ.items() if k != "PYTHONPATH"}
        own.update({"SOURCE_DATE_EPOCH": str(epoch), "TEVASULIM_LIBRARY": library})
        run([PYTHON, "-c", BUILD, f"{room}/made"], cwd=f"{room}/python", env=own)
        made = {os.path.splitext(it)[1]: it for it in os.listdir(f"{room}/made")}
        write_tar_again(f"{room}/made/{made['.gz']}", f"{room}/again", epoch)
        for name in made.values():
            shutil.copy(f"{room}/made/{name}", out)
        return f"{out}/{made['.whl']}"


def write_sums(out):
    """Writes the sums of all files in the folder OUT."""
    names = sorted(it for it in os.listdir(out) if it != "SHA256SUMS")
    sums = run(["sha256sum", *names], cwd=out)
    with open(f"{out}/SHA256SUMS", "w") as file:
        file.write(sums)


def make(out, source, epoch):
    """Makes all but PROOF.txt and the sums in the empty folder OUT."""
    sys.dont_write_bytecode = True
    os.umask(0o022)
    write_archive(out, source, epoch)
    with tempfile.TemporaryDirectory() as room:
        install(room, source, "/usr", debian_packages.LIBDIR)
        library = f"{room}/usr/{debian_packages.LIBDIR}/libtevasulim.so.0"
        refuse_old(library)
        wheel = write_python(out, library, epoch)
        add_documents(f"{room}/documents")
        debian_packages.write_all(out, room, wheel, epoch)
    write_bill(f"{out}/tevasulim-{version()}.spdx.json", out, epoch)
