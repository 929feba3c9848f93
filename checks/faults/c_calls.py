"""Each growth of each call for C that takes memory is refused in turn.

The program runs with a small library before the C library. It counts the calls of malloc and
realloc that the library for C makes, and refuses one of them. The call then has to say so and to
leave all as it was, or, where the header says that a part stays, as after that part; made again it
has to be done. Or the call does without, and is done.
"""
import ctypes

from for_c.calls import Kept, expect, points_of, shape_of, words_of

SHIM = r"""
#define _GNU_SOURCE
#include <dlfcn.h>
#include <stddef.h>
#include <string.h>

static long growths, refused = -1;

/* Begins to count, and refuses the growth with this number. */
void begin(long number) { growths = 0; refused = number; }

/* Ends to count, and gives how many growths there were. */
long end(void) { refused = -1; return growths; }

/* Whether whoever asks is the library, and is to be refused. */
static int is_refused(void *asks)
{
    Dl_info info;
    if (refused < 0 || !dladdr(asks, &info) || !strstr(info.dli_fname, "libtevasulim"))
        return 0;
    return ++growths == refused;
}

void *malloc(size_t size)
{
    static void *(*grow)(size_t);
    if (!grow)
        grow = (void *(*)(size_t))dlsym(RTLD_NEXT, "malloc");
    return is_refused(__builtin_return_address(0)) ? 0 : grow(size);
}

void *realloc(void *place, size_t size)
{
    static void *(*grow)(void *, size_t);
    if (!grow)
        grow = (void *(*)(void *, size_t))dlsym(RTLD_NEXT, "realloc");
    return is_refused(__builtin_return_address(0)) ? 0 : grow(place, size);
}
"""


class Word:
    """A call with the words that it is given."""

    def __init__(self, name, make, keeps_part=False):
        self.name, self.make, self.keeps_part = name, make, keeps_part


def all_free(kept):
    return [1] * kept.counts()[1][2]


def growing_calls():
    """Each call that takes memory, as it is made of a triangulation `kept` and a closed one."""
    room, length, at = (ctypes.c_uint32 * 900)(), ctypes.c_size_t(), ctypes.c_size_t()
    many = [(x, y) for x in range(7, 13) for y in range(7, 13)]
    told = (ctypes.byref(length), ctypes.byref(at))
    drawn = (*points_of(many), *words_of([(0, 35), (6, 11)]), room, 100, *told)
    chain = (*words_of([0, 1, 2]), True, ctypes.byref(at))
    calls = [
        Word("open", lambda kept, other: other.call("open", 1)),
        Word("copy", lambda kept, other: kept.call("copy", ctypes.byref(other.handle))),
        Word("insert", lambda kept, other: kept.insert(30, 9)[0]),
        Word("insert_all", lambda kept, other: kept.insert_all(many)[0], True),
        Word("remove", lambda kept, other: kept.call("remove", 0)),
        Word("constrain", lambda kept, other: kept.call("constrain", 0, 4)),
        Word("constrain_chain", lambda kept, other: kept.call("constrain_chain", *chain), True),
        Word("release", lambda kept, other: kept.call("release", 1, 2)),
        Word("allow_constraints", lambda kept, other: kept.call("allow_constraints")),
        Word("face_layers", lambda kept, other: kept.all("face_layers", 1)[0]),
        Word("way", lambda kept, other: kept.way((0, 0), (8, 8), all_free(kept))[0]),
        Word("reachable", lambda kept, other: kept.reachable(all_free(kept))[0]),
        Word("wide_faces", lambda kept, other: kept.wide_faces(all_free(kept), 1)[0]),
        Word("triangulate", lambda kept, other: kept.library.status("triangulate", *drawn)),
    ]
    for kind in range(2):
        shape = shape_of(kind, (0, 0), (4, 4), 16)
        for what in ("vertices_in", "edges_in"):
            calls.append(Word(what, lambda kept, other, w=(what, shape): kept.all(w[0], 1, w[1])[0]))
    return calls


def prepared(library, word):
    """A triangulation of a square with two vertices inside, and a closed one."""
    kept = Kept(library, int(word.name != "allow_constraints"))
    kept.insert_all([(0, 0), (8, 0), (8, 8), (0, 8), (3, 1), (5, 2)])
    if word.name in ("release", "remove", "face_layers", "copy"):
        expect(kept.call("constrain", 1, 2), "OK", "constrain")
    other = Kept(library, 0)
    other.close()
    return kept, other


def spread(parts):
    """What does not depend on the order of insertion."""
    return sorted(parts[0][1]), parts[-1]


def try_again(word, kept, other, done, what):
    """Makes a refused call again."""
    expect(word.make(kept, other), "OK", f"{what}, and again")
    now = kept.parts()
    same = spread(now) == spread(done) if word.keeps_part else now == done
    expect(same, True, f"{what}, and again")


def try_growth(library, shim, word, number, done):
    """Refuses one growth of a call, and tells whether there is such a growth, and the status."""
    kept, other = prepared(library, word)
    before = kept.parts()
    shim.begin(ctypes.c_long(number))
    status = word.make(kept, other)
    is_there = shim.end() >= number
    what = f"{word.name} with its growth {number} refused"
    if status == "OK":
        expect(kept.parts(), done, what)
    else:
        expect((status, is_there), ("OUT_OF_MEMORY", True), what)
        expect(other.handle.is_open, False, what)
        expect(word.keeps_part or kept.parts() == before, True, what)
        try_again(word, kept, other, done, what)
    kept.close()
    other.close()
    return is_there, status


def try_refused(library, shim, word):
    """Refuses each growth of a call in turn, and tells how many refusals it has told of."""
    kept, other = prepared(library, word)
    expect(word.make(kept, other), "OK", word.name)
    done, number, count = kept.parts(), 1, 0
    while True:
        is_there, status = try_growth(library, shim, word, number, done)
        if not is_there:
            return count
        number, count = number + 1, count + (status != "OK")


def try_each(library, shim):
    """Refuses each growth of each call."""
    counts = [try_refused(library, shim, it) for it in growing_calls()]
    expect(min(counts) > 0, True, f"refusals: {counts}")
    print(f"{sum(counts)} refusals of memory to {len(counts)} calls")
