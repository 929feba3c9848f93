"""Edits whose memory is refused at each allocation in turn: the library's, numpy's and Python's
own. The triangulation is as before the edit or as after it, and goes on. Of a chain or a list of
segments some first ones may be there.

The edits run in a process of their own. There a small library stands before the C library, and
Python takes each object from malloc (PYTHONMALLOC). It counts the allocations of one thread, and
refuses one of them, or three in a row. Where numpy or Python end a process that is refused theirs,
since they look at none at some places, the edit goes on in another process at the next allocation.
A fault after a refusal of the library's is one of ours.
"""
import ctypes
import mmap
import os
import subprocess
import sys
import tempfile
import traceback
import unittest

import numpy as np

from tevasulim import Triangulation

import stub_library
from test_edits import state

SHIM = """
#define _GNU_SOURCE
#include <dlfcn.h>
#include <signal.h>
#include <stddef.h>
#include <string.h>
#include <unistd.h>

void *__libc_malloc(size_t);
void *__libc_calloc(size_t, size_t);
void *__libc_realloc(void *, size_t);

static __thread long first, last, count;
static int is_of_library;

/* A fault tells whose memory was refused before it. */
static void fault(int signal) { (void)signal; _exit(is_of_library ? 101 : 100); }

/* Begins to count, and refuses the allocations from one number on to another. */
void begin(long from, long to)
{
    signal(SIGSEGV, fault);
    signal(SIGABRT, fault);
    first = from, last = to, count = is_of_library = 0;
}

/* Ends to count, and gives how many there were. */
long end(void) { last = 0; return count; }

static int is_refused(void *asks)
{
    Dl_info info;
    if (!last || ++count < first || count > last)
        return 0;
    if (dladdr(asks, &info) && strstr(info.dli_fname, "libtevasulim"))
        is_of_library = 1;
    return 1;
}

#define REFUSED is_refused(__builtin_return_address(0))
void *malloc(size_t size) { return REFUSED ? 0 : __libc_malloc(size); }
void *calloc(size_t n, size_t size) { return REFUSED ? 0 : __libc_calloc(n, size); }
void *realloc(void *at, size_t size) { return REFUSED ? 0 : __libc_realloc(at, size); }

/* Whether the library's memory was refused. */
int was_of_library(void) { return is_of_library; }
"""
POINTS = np.array([(0, 0), (90, 7), (101, 95), (-8, 80), (40, 31), (55, 62)])
MORE = np.array([(20, 50), (55, 62), (70, 30), (20, 50)])
# After a refused edit one of so many allocations is refused in the next call.
AFTER = 23
CHAIN, SEGMENTS = [0, 5, 6], [(0, 2), (0, 5)]


def plain():
    return Triangulation(POINTS)


def with_walls():
    tri = Triangulation(POINTS, [(0, 1), (2, 3)])
    tri.remove(4)
    tri.insert((50, 20))
    return tri


def floats():
    return Triangulation(POINTS / 7.0)


# Of each edit the triangulation, and what is made of it: a part of it, or at the end all.
EDITS = {
    "insert": (plain, lambda tri: tri.insert((30, 55))),
    "insert again": (with_walls, lambda tri: tri.insert(POINTS[3])),
    "insert of floats": (floats, lambda tri: tri.insert((3.3, 5.1))),
    "insert_all": (with_walls, lambda tri: tri.insert_all(MORE)),
    "insert_all of none before": (Triangulation, lambda tri: tri.insert_all(POINTS / 3)),
    "remove": (with_walls, lambda tri: tri.remove(0)),
    "remove the last": (with_walls, lambda tri: tri.remove(6)),
    "add_constraint": (plain, lambda tri: tri.add_constraint(0, 2)),
    "add_chain": (
        with_walls,
        lambda tri: tri.add_chain(CHAIN[:2]),
        lambda tri: tri.add_chain(CHAIN),
    ),
    "add_segments": (
        plain,
        lambda tri: tri.add_segments(SEGMENTS[:1]),
        lambda tri: tri.add_segments(SEGMENTS),
    ),
    "release": (with_walls, lambda tri: tri.release(2, 3)),
    "clear": (with_walls, lambda tri: tri.clear()),
}


class Refusing:
    """Refuses allocations of this process."""

    def __init__(self):
        shim = ctypes.PyDLL(None)
        self.begin, self.end, self.was_of_library = shim.begin, shim.end, shim.was_of_library
        self.begin.argtypes, self.begin.restype = [ctypes.c_long] * 2, None
        self.end.restype = ctypes.c_long

    def run(self, edit, tri, at, many):
        """Makes an edit whose memory is refused; gives how it ended and what was counted. The
        modules between the edit and the refusal make errors of their own of it."""
        error = None
        try:
            self.begin(at, at + many - 1)
            edit(tri)
        except Exception as it:
            error = it.with_traceback(None)
        while True:
            try:
                return error, self.end()
            except Exception as it:
                # A part of the refusals was left for this call.
                error = it.with_traceback(None)


def whole_state(tri):
    """The state; and what the library has of it beside the package's arrays is the same."""
    found = state(tri)
    tri._read_numbers()
    tri._made = {}
    assert state(tri) == found
    return found


def states_of(make, edits):
    """What a triangulation is before an edit, after parts of it, and after all."""
    states = []
    for edit in [lambda tri: None, *edits]:
        with make() as tri:
            edit(tri)
            states.append(whole_state(tri))
    assert all(it not in states[:k] for k, it in enumerate(states))
    return states


def try_from(refusing, make, edit, states, at, many, notes):
    """Makes an edit with each allocation refused, from a number on, until none is. Notes what is
    tried, and how many refusals were of the library's memory."""
    tri = make()
    while True:
        notes[0] = at
        error, count = refusing.run(edit, tri, at, many)
        notes[1] += refusing.was_of_library()
        if error is not None:
            # What brings in order what is left is refused some, too.
            refusing.run(lambda it: it.num_faces, tri, 1 + at % AFTER, many)
        found = whole_state(tri)
        if count < at:
            assert error is None and found == states[-1], (at, error)
            return
        assert found in states, (at, many, error)
        if found != states[0]:
            tri.close()
            tri = make()
        at += 1


def try_edit(refusing, name, many):
    """The same from the first on, in as many processes as are needed. Gives what was noted, and how
    many faults there were."""
    make, *edits = EDITS[name]
    states = states_of(make, edits)
    notes, at, faults = (ctypes.c_long * 2).from_buffer(mmap.mmap(-1, 4096)), 1, 0
    while True:
        child = os.fork()
        if not child:
            status = 1
            try:
                try_from(refusing, make, edits[-1], states, at, many, notes)
                status = 0
            except BaseException:
                traceback.print_exc()
            finally:
                os._exit(status)
        status = os.waitpid(child, 0)[1]
        if not status:
            return notes[0] - 1, notes[1], faults
        assert os.WIFEXITED(status) and os.WEXITSTATUS(status) == 100, (name, at, list(notes))
        faults += 1
        at = notes[0] + 1


def main():
    refusing = Refusing()
    for name in EDITS:
        for many in 1, 3:
            print(*try_edit(refusing, name, many))


@unittest.skipUnless(stub_library.COMPILER, "there is no compiler for C")
@unittest.skipUnless(sys.platform == "linux", "it takes glibc's names")
class Refused(unittest.TestCase):
    def test_each_allocation(self):
        with tempfile.TemporaryDirectory() as room:
            words = [stub_library.COMPILER, "-shared", "-fPIC", "-O1", "-Wall", "-Werror"]
            words += ["-x", "c", "-", "-o", f"{room}/refusing.so", "-ldl"]
            subprocess.run(words, input=SHIM, text=True, check=True)
            named = {"LD_PRELOAD": f"{room}/refusing.so", "PYTHONMALLOC": "malloc"}
            words = [sys.executable, os.path.realpath(__file__), "refused"]
            how = {"capture_output": True, "text": True, "env": {**os.environ, **named}}
            ended = subprocess.run(words, **how)
        self.assertEqual(ended.returncode, 0, ended.stderr)
        rows = [list(map(int, it.split())) for it in ended.stdout.splitlines()]
        self.assertEqual(len(rows), 2 * len(EDITS))
        for tried, of_library, faults in rows:
            self.assertTrue(tried > 10 and faults < tried / 4, rows)
        self.assertGreater(sum(it for _, it, _ in rows), 20)


if __name__ == "__main__":
    if sys.argv[1:] == ["refused"]:
        main()
    else:
        unittest.main()
