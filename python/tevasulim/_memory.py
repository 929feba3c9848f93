"""Memory that a process freed, kept while it works on tiles."""
from __future__ import annotations

import ctypes
import os
import threading
from contextlib import contextmanager
from typing import Any, Iterator, Optional

# Words of glibc's `mallopt`, and how much of its memory a tile may keep.
TRIM_THRESHOLD, MMAP_THRESHOLD = -1, -3
KEPT, LARGEST = 2**30, 2**25
# What glibc begins with.
USUAL = 2**17
# After how many seconds without a tile memory is given back.
WAIT = 0.5


class Memory:
    """The memory of this process, where glibc was told to give each freed byte back at once."""

    def __init__(self) -> None:
        self.threshold = os.environ.get("MALLOC_TRIM_THRESHOLD_", "")
        self.lock, self.users = threading.Lock(), 0
        self.timer: Optional[threading.Timer] = None
        try:
            library = ctypes.CDLL(None)
            self.options: Any = library.mallopt
            self.trim: Any = library.malloc_trim
        except (OSError, TypeError, AttributeError):
            self.threshold = ""  # another C library than glibc

    def keep(self) -> None:
        with self.lock:
            self.users += 1
            if self.timer is not None:
                self.timer.cancel()
                self.timer = None
            elif self.users == 1:
                self.options(TRIM_THRESHOLD, KEPT)
                self.options(MMAP_THRESHOLD, LARGEST)

    def leave(self) -> None:
        with self.lock:
            self.users -= 1
            if not self.users:
                self.timer = threading.Timer(WAIT, self.give_back)
                self.timer.daemon = True
                self.timer.start()

    def give_back(self) -> None:
        with self.lock:
            # Another tile may have begun when the time was up.
            if not self.users:
                self.timer = None
                self.options(TRIM_THRESHOLD, int(self.threshold))
                self.options(MMAP_THRESHOLD, int(os.environ.get("MALLOC_MMAP_THRESHOLD_", USUAL)))
                self.trim(0)


MEMORY = Memory()


@contextmanager
def freed_is_kept() -> Iterator[None]:
    """Dask has its workers give each freed byte back to the system at once. A tile frees and takes
    much the same memory again and again, and so does the next one: so it is kept until no tile was
    begun for a while, and then given back. Elsewhere nothing is changed."""
    if not MEMORY.threshold.isdecimal():
        yield
        return
    MEMORY.keep()
    try:
        yield
    finally:
        MEMORY.leave()
