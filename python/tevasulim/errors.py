"""The exceptions: one for each status of the library, and those of the package itself."""
from __future__ import annotations

from typing import Optional

__all__ = [
    "TevasulimError",
    "ClosedError",
    "AlreadyOpenError",
    "NoSuchKindError",
    "IsPlainError",
    "IsConstrainedError",
    "UnequalLengthsError",
    "TooLargeError",
    "NegativeError",
    "NoSuchVertexError",
    "NoSuchPointError",
    "CrossingError",
    "NoConstraintError",
    "TooShortError",
    "OutOfIndexesError",
    "OutOfMemoryError",
    "NoSuchStatusError",
    "NotWholeError",
    "NotFiniteError",
    "NoLibraryError",
]


class TevasulimError(Exception):
    """The base class of all exceptions here.

    Attributes
    ----------
    status : int or None
        The status of the library that this class stands for, if there is one.
    index : int or None
        The row of the point or segment that is at fault, if the call took a list.
    """

    status: Optional[int] = None

    def __init__(self, message: str, index: Optional[int] = None):
        super().__init__(message)
        self.index = index


class ClosedError(TevasulimError, ValueError):
    """The triangulation is closed."""

    status = 1


class AlreadyOpenError(TevasulimError, ValueError):
    """The triangulation is already open. No method of `Triangulation` raises it."""

    status = 2


class NoSuchKindError(TevasulimError, ValueError):
    """There is no such kind of triangulation. No method of `Triangulation` raises it."""

    status = 3


class IsPlainError(TevasulimError, ValueError):
    """The call needs a triangulation that may have constraints: add one first."""

    status = 4


class IsConstrainedError(TevasulimError, ValueError):
    """The call needs a triangulation without constraints."""

    status = 5


class UnequalLengthsError(TevasulimError, ValueError):
    """Two lists that belong together differ in length."""

    status = 6


class TooLargeError(TevasulimError, ValueError):
    """A coordinate is out of the range of the grid."""

    status = 7


class NegativeError(TevasulimError, ValueError):
    """A radius or squared radius is negative."""

    status = 8


class NoSuchVertexError(TevasulimError, IndexError):
    """No point has this number, or the point was removed."""

    status = 9


class NoSuchPointError(TevasulimError, IndexError):
    """A segment names a point that does not exist."""

    status = 10


class CrossingError(TevasulimError, ValueError):
    """A constraint crosses the segment. The message names the first one, with coordinates."""

    status = 11


class NoConstraintError(TevasulimError, ValueError):
    """No constraint joins the two points."""

    status = 12


class TooShortError(TevasulimError, ValueError):
    """A list for the answer is too short. No method of `Triangulation` raises it."""

    status = 13


class OutOfIndexesError(TevasulimError, MemoryError):
    """There would be more vertices than the library has indexes for."""

    status = 14


class OutOfMemoryError(TevasulimError, MemoryError):
    """There is too little memory."""

    status = 15


class NoSuchStatusError(TevasulimError, ValueError):
    """The library has no such status in this version."""

    status = 16


class NotWholeError(TevasulimError, ValueError):
    """A coordinate is not on the grid, and must not be rounded."""


class NotFiniteError(TevasulimError, ValueError):
    """A coordinate is infinite or not a number."""


class NoLibraryError(TevasulimError, ImportError):
    """The shared library is missing, or has another version."""


OF_STATUS = {it.status: it for it in TevasulimError.__subclasses__() if it.status is not None}
