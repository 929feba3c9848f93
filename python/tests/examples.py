"""Runs the examples in the docstrings of the package, in README.md and in docs/PYTHON.md, and says
how many there were."""
import doctest
import glob
import importlib
import os
import sys

import tevasulim

HERE = os.path.dirname(os.path.realpath(__file__))
FOLDER = os.path.dirname(os.path.realpath(tevasulim.__file__))
GUIDES = [f"{HERE}/../README.md", f"{HERE}/../../docs/PYTHON.md"]


def main():
    names = sorted(os.path.basename(it)[:-3] for it in glob.glob(f"{FOLDER}/*.py"))
    names = ["tevasulim", *(f"tevasulim.{it}" for it in names if not it.startswith("__"))]
    flags = doctest.ELLIPSIS | doctest.IGNORE_EXCEPTION_DETAIL
    failed = tried = 0
    for name in names:
        result = doctest.testmod(importlib.import_module(name), optionflags=flags)
        failed, tried = failed + result.failed, tried + result.attempted
    for guide in GUIDES:
        result = doctest.testfile(guide, module_relative=False, optionflags=flags)
        failed, tried = failed + result.failed, tried + result.attempted
    print(f"{tried} examples, {failed} of them wrong")
    sys.exit(bool(failed))


main()
