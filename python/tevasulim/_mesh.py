"""A triangulation of the library with nothing between: points by the vertices that they became."""
from __future__ import annotations

from ctypes import byref, c_size_t
from typing import Any, Tuple

import numpy as np

from . import _library as library
from ._types import NDArray
from .errors import CrossingError

# How many faces are copied together, so that they stay in a processor's cache.
TOGETHER = 1 << 13


class Mesh:
    """A triangulation of different points, and of segments between them where it has any, which
    only grows."""

    def __init__(self) -> None:
        self._handle = library.Mesh()
        library.call("open", byref(self._handle), library.PLAIN)
        self._is_plain = True
        self._count = 0
        self._faces = np.empty((0, 9), np.uint32)

    def close(self) -> None:
        library.LIBRARY.tevasulim_close(byref(self._handle))

    def insert_all(self, points: NDArray[Any]) -> NDArray[Any]:
        """Inserts further points, an array of shape (n, 2), none of which is there, soonest where
        near ones stand beside each other. Gives their rows in the order of their vertices, which
        come after all that were there."""
        some, vertices = points.astype(np.int32, order="C"), np.empty(len(points), np.uint32)
        words = *library.rows(some), vertices.ctypes.data, len(vertices)
        library.call("insert_all", byref(self._handle), *words)
        rows = np.empty(len(points), np.intp)
        rows[vertices - np.uint32(self._count)] = np.arange(len(points))
        self._count += len(points)
        return rows

    def constrain(self, segments: NDArray[Any]) -> None:
        """Makes constraints along further segments, pairs of vertices. Where one crosses an
        earlier one, a `CrossingError` has its place in the list."""
        if len(segments) and self._is_plain:
            library.call("allow_constraints", byref(self._handle))
            self._is_plain = False
        for place, (start, end) in enumerate(segments.tolist()):
            try:
                library.call("constrain", byref(self._handle), start, end)
            except CrossingError as error:
                error.index = place
                raise

    def faces(self) -> Tuple[NDArray[Any], NDArray[Any], NDArray[Any]]:
        """The corners of each face, counterclockwise, as vertices; the face opposite each corner,
        or -1; and whether the side opposite each corner is a constraint. Each array has the shape
        (3, f)."""
        room = 2 * self._count
        if len(self._faces) < room:
            self._faces = np.empty((room + room // 8, 9), np.uint32)
        length = c_size_t()
        words = self._faces.ctypes.data, len(self._faces), byref(length)
        library.call("faces", byref(self._handle), *words)
        found = self._faces[: length.value].view(np.int32)
        columns = np.empty((6, len(found)), np.int32)
        for begin in range(0, len(found), TOGETHER):
            some = slice(begin, begin + TOGETHER)
            columns[:, some] = found[some, :6].T
        is_constraint = np.zeros((3, len(found)), bool)
        if not self._is_plain:
            np.not_equal(found[:, 6:].T, 0, out=is_constraint)
        return columns[:3], columns[3:], is_constraint

    def faces_beyond(self, count: int, sides: NDArray[Any]) -> NDArray[Any]:
        """Which of so many faces have a closed disk that passes a side of a box, given as x and y
        from, x and y to. A side at `FAR` is nowhere."""
        flags, length = np.empty(count, np.uint8), c_size_t()
        box = library.Box(*sides.tolist())
        words = byref(box), flags.ctypes.data, len(flags), byref(length)
        library.call("faces_beyond", byref(self._handle), *words)
        return flags.view(bool)
