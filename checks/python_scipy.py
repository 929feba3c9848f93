"""scipy's tests of plane triangulations, and matplotlib's of its own, over the package's adapter
(`tevasulim.compat`), from the installed packages. Each passes but those that are listed here with
their reason; a listed one that passes is told too.

Some of scipy's tests go through several dimensions: of these the plane is tried. It is run by
checks/python_package.py, in Debian's Python.
"""
import os
import sys
import tempfile

import pytest

# What a test's name has that is not to pass, and why.
NOT_PLANE = "it is of another dimension"
OPTIONS = "it is of an option of Qhull"
ORDER = "it wants the faces in Qhull's order"
NO_PICTURE = "it compares with a picture, which Debian's package has not"
LISTED = {
    "scipy": {
        "TestUtilities::test_find_simplex": ORDER + ", and asks by scipy's compiled `tsearch`",
        "TestUtilities::test_convex_hull": ORDER,
        "TestUtilities::test_plane_distance": "it is of planes over the plane, as Qhull has them",
        "TestDelaunay::test_2d_square": ORDER,
        "TestDelaunay::test_joggle": OPTIONS,
        "TestDelaunay::test_furthest_site": OPTIONS,
        "TestDelaunay::test_vertices_deprecation": "it is of a name that scipy has taken away",
        **{f"[random-{k}d": NOT_PLANE for k in range(3, 9)},
    },
    "matplotlib": {
        **dict.fromkeys(["tripcolor[png]", "contouring[png]", "gradient[png]"], NO_PICTURE),
    },
}
# The tests of triangulations; the others are of hulls, half-spaces and cells.
SCIPY = "TestUtilities or TestVertexNeighborVertices or TestDelaunay or test_hull_consistency_tri"
SCIPY += " and not volume_area"


class Watch:
    """Which tests passed and which failed."""

    def __init__(self):
        self.passed, self.failed = [], []

    def pytest_runtest_logreport(self, report):
        if not report.skipped and (report.when == "call" or report.failed):
            (self.passed if report.passed else self.failed).append(report.nodeid)


def run(of, path, *words):
    """How many tests passed; those that fail are to be listed."""
    watch = Watch()
    pytest.main(["-qq", "-p", "no:cacheprovider", "--tb=no", "--no-summary", *words, path], [watch])
    listed = LISTED[of]

    def is_listed(name):
        return any(it in name for it in listed)

    wrong = [name for name in watch.failed if not is_listed(name)]
    more = [name for name in watch.passed if is_listed(name)]
    print(f"{of}: {len(watch.passed)} tests pass, {len(watch.failed)} are listed with a reason")
    for name in wrong:
        print(f"  failed: {name}")
    for name in more:
        print(f"  passed, though listed: {name}")
    return not wrong and not more and len(watch.passed) > 20


def plane_tests(folder):
    """scipy's tests, each loop over dimensions with the plane alone."""
    import scipy.spatial.tests as tests

    place = os.path.dirname(tests.__file__)
    with open(f"{place}/test_qhull.py") as file:
        text = file.read()
    for loop in "range(2, 6)", "range(2, 8)":
        text = text.replace(loop, "range(2, 3)")
    with open(f"{folder}/test_qhull.py", "w") as file:
        file.write(text)
    os.symlink(f"{place}/data", f"{folder}/data")
    return f"{folder}/test_qhull.py"


def main(folder):
    from tevasulim import compat

    # In place of what they have of Qhull.
    import scipy.spatial._qhull

    scipy.spatial._qhull.Delaunay = compat.Delaunay
    is_right = run("scipy", plane_tests(folder), "-k", SCIPY)
    os.environ["MPLBACKEND"] = "agg"
    import matplotlib._qhull
    import matplotlib.tests

    matplotlib._qhull.delaunay = compat.delaunay
    tests = os.path.dirname(matplotlib.tests.__file__)
    os.chdir(folder)
    words = f"{tests}/test_triangulation.py", "-p", "matplotlib.testing.conftest"
    is_right &= run("matplotlib", *words)
    sys.exit(not is_right)


with tempfile.TemporaryDirectory() as room:
    main(room)
