#!/usr/bin/env python3
"""checks/tiles.py [LIBRARY]: whether tiles over a Dask cluster of processes on this machine give,
cell by cell, what one triangulation of all points gives, and still do where a worker is ended in
the middle (tiles_answers.py).

c/Makefile makes c/libtevasulim.so over the libraries that the gate has built. LIBRARY is taken as
it is: nothing is known of how it was built. It runs Debian's own Python with python3-numpy and
python3-distributed.
"""
import sys

sys.dont_write_bytecode = True
from debian import prepare, run  # noqa: E402
from project import CHECKS  # noqa: E402

prepare("numpy", "distributed")
sys.exit(not run(f"{CHECKS}/tiles_answers.py"))
