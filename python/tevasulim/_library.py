"""The shared library: where it is, and its calls with a status each, which become exceptions."""
from __future__ import annotations

import ctypes
import os
from ctypes import (
    POINTER,
    c_bool,
    c_int32,
    c_int64,
    c_size_t,
    c_uint8,
    c_uint32,
    c_uint64,
    c_void_p,
)
from typing import Any, Callable, Optional, Tuple

import numpy as np

from ._types import NDArray
from .errors import OF_STATUS, NoLibraryError, TevasulimError, TooShortError

NAME = "libtevasulim.so"
# The versions of the library that this package knows: this one, and later ones with the same first
# number. They are 10000 * major + 100 * minor + patch.
VERSION = 100
# In place of an index: there is none.
NONE = 0xFFFF_FFFF
MOST = 2**29
PLAIN, CONSTRAINED = 0, 1


class Mesh(ctypes.Structure):
    """A triangulation that the library keeps; none at first."""

    _fields_ = [("at", c_void_p), ("is_open", c_bool)]


class Counts(ctypes.Structure):
    _fields_ = [(name, c_uint64) for name in ("vertices", "edges", "faces", "constraints")]


class Box(ctypes.Structure):
    """The sides of a box. One at an end of these numbers is nowhere."""

    _fields_ = [(name, c_int32) for name in ("left", "bottom", "right", "top")]


POINT = c_int32 * 2
NUMBER = c_uint64


class Shape(ctypes.Structure):
    """A circle by its center and squared radius, or a rectangle by two corners."""

    _fields_ = [("kind", c_uint32), ("first", POINT), ("second", POINT), ("radius_2", c_int64)]


CIRCLE, RECTANGLE = 0, 1
MESH = POINTER(Mesh)
SIZE = POINTER(c_size_t)
LIST = (c_void_p, c_size_t)
FOUND = (*LIST, SIZE)
CALLS = {
    "version": (),
    "is_proved": (),
    "status_text": (c_uint32, POINTER(c_uint8), c_size_t, SIZE),
    "open": (MESH, c_uint32),
    "close": (MESH,),
    "copy": (MESH, MESH),
    "allow_constraints": (MESH,),
    "clear": (MESH,),
    "insert": (MESH, c_int32, c_int32, POINTER(c_uint32)),
    "insert_all": (MESH, *LIST, *LIST),
    "remove": (MESH, c_uint32),
    "constrain": (MESH, c_uint32, c_uint32),
    "constrain_chain": (MESH, *LIST, c_bool, SIZE),
    "release": (MESH, c_uint32, c_uint32),
    "set_numbers": (MESH, *LIST, *LIST),
    "count": (MESH, POINTER(Counts)),
    "positions": (MESH, *FOUND),
    "numbers": (MESH, *FOUND),
    "edges": (MESH, *FOUND),
    "faces": (MESH, *FOUND),
    "face_layers": (MESH, *FOUND),
    "faces_beyond": (MESH, POINTER(Box), *FOUND),
    "locate": (MESH, *LIST, *LIST),
    "nearest": (MESH, *LIST, *LIST),
    "line": (MESH, POINTER(POINT), POINTER(POINT), *FOUND),
    "conflicts": (MESH, POINTER(POINT), POINTER(POINT), *FOUND),
    "in_sight": (MESH, POINTER(POINT), POINTER(POINT), *LIST, POINTER(c_uint32)),
    "way": (MESH, POINTER(POINT), POINTER(POINT), *LIST, *FOUND),
    "reachable": (MESH, *LIST, *FOUND),
    "wide_faces": (MESH, *LIST, c_int64, *FOUND),
    "vertices_in": (MESH, POINTER(Shape), *FOUND),
    "edges_in": (MESH, POINTER(Shape), *FOUND),
    "triangulate": (*LIST, *LIST, *LIST, SIZE, SIZE),
}


# What gives a library to a user who has none.
HOW = """In a clone of the repository three commands make one:
    cd c && make                # proves and builds the library; the Rattle kit (`rt`) is needed
    cd ../python && pip install .
    python3 -m tevasulim --version
Or set TEVASULIM_LIBRARY to the name of one that is elsewhere"""


def places() -> Tuple[str, ...]:
    """Where the library is looked for, in this order."""
    here = os.path.dirname(os.path.realpath(__file__))
    named = os.environ.get("TEVASULIM_LIBRARY")
    beside = (os.path.join(here, NAME), os.path.join(here, "..", "..", "c", NAME))
    return (named,) if named else beside


def in_words(version: int) -> str:
    """A version as `tevasulim.__version__` has it.

    >>> in_words(10203)
    '1.2.3'
    """
    return f"{version // 10000}.{version // 100 % 100}.{version % 100}"


def load() -> ctypes.CDLL:
    """The library with the types of its calls."""
    found = [place for place in places() if os.path.exists(place)]
    if not found:
        looked = " or ".join(os.path.normpath(place) for place in places())
        raise NoLibraryError(f"{NAME} was not found as {looked}. {HOW}")
    try:
        library = ctypes.CDLL(found[0])
        refuse_other(found[0], library.tevasulim_version())
        for name, types in CALLS.items():
            call = getattr(library, f"tevasulim_{name}")
            call.argtypes, call.restype = types, c_uint32
        library.tevasulim_close.restype = None
    except (OSError, AttributeError) as error:
        raise NoLibraryError(f"{found[0]} cannot be used as the library: {error}") from error
    return library


def refuse_other(place: str, version: int) -> None:
    """Raises `NoLibraryError` where the library has a version that this package does not know."""
    if version // 10000 != VERSION // 10000 or version < VERSION:
        raise NoLibraryError(
            f"{place} has version {in_words(version)}, but tevasulim {in_words(VERSION)} needs "
            f"version {in_words(VERSION)} or a later one with the same first number: make the "
            "library and the package from the same clone"
        )


LIBRARY = load()


def words_of(status: int) -> Tuple[str, int]:
    """What a status means, in the library's words, and the status of asking for them."""
    text, length = (c_uint8 * 100)(), c_size_t()
    asked = LIBRARY.tevasulim_status_text(status, text, len(text), ctypes.byref(length))
    return bytes(text[: min(length.value, len(text))]).decode(), asked


def status_text(status: int) -> str:
    """What a status means, in the library's words.

    >>> status_text(0)
    'all went well'
    """
    words, asked = words_of(status)
    if asked:
        raise error_of(asked)
    return words


def error_of(status: int, index: Optional[int] = None) -> TevasulimError:
    """The exception that stands for a status; `index` is that of a point or segment in a list."""
    of_class = OF_STATUS.get(status)
    if of_class is None:
        return TevasulimError(f"the library gave status {status}, which this package does not know")
    where = "" if index is None else f"segment {index} of the list: "
    return of_class(f"{where}{words_of(status)[0]}", index)


def is_proved() -> bool:
    """Whether the library was proved as it was built; nothing is proved of a trial build."""
    return bool(LIBRARY.tevasulim_is_proved())


def library_version() -> str:
    """The version of the library: that of the package, or a later one of the same first number.

    >>> library_version() >= "0.1.0"
    True
    """
    return in_words(LIBRARY.tevasulim_version())


def call(name: str, *words: Any) -> None:
    """Makes a call; a status but 0 becomes an exception."""
    status = getattr(LIBRARY, f"tevasulim_{name}")(*words)
    if status:
        raise error_of(status)


def rows(array: NDArray[Any]) -> Tuple[int, int]:
    """An array as a list of the library: its address, which is never 0, and how many rows it
    has."""
    return array.ctypes.data, len(array)


def found(columns: int, ask: Callable[..., None], room: int = 64) -> NDArray[Any]:
    """What a call finds, each of some 32-bit columns: it is asked again where the room was
    short."""
    length = c_size_t()
    while True:
        array = np.empty((max(room, 1), columns), np.uint32)
        try:
            ask(array.ctypes.data, room, ctypes.byref(length))
            return array[: length.value]
        except TooShortError:
            if length.value <= room:
                raise
            room = length.value
