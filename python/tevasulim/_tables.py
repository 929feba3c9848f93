"""Tables of points and segments, by numpy's readers: a CSV, columns apart by spaces, or a .npy."""
from __future__ import annotations

import csv
import sys
import warnings
from itertools import islice
from typing import Any, List, Optional, Union

import numpy as np

from ._types import NDArray

TABLES = (".csv", ".txt", ".xyz", ".tsv", ".npy")
# What is between columns, by the ending of a table's name; spaces elsewhere.
COMMAS = {".csv": ",", ".part": ",", ".tsv": "\t"}
# A table's first bytes may say that it is Unicode.
ENCODING = "utf-8-sig"


def read_table(
    name: str, columns: Optional[str] = None, has_header: bool = False, at_most: int = 3
) -> NDArray[np.float64]:
    """The columns of a table, as floats.

    `columns` are names, which the first row has then, or places from 0 on, with commas between.
    Without them the first columns are taken, at most so many. `has_header` says that the first row
    has names. Each other row is to be of numbers, so that no row is taken for names by a guess."""
    if name.endswith(".npy"):
        array = np.load(name, allow_pickle=False)
        if array.ndim != 2:
            raise ValueError(f"{name} has the shape {array.shape}, but needs (n, 2) or (n, 3)")
        return np.asarray(array[:, picked(columns, None, name) or slice(at_most)], np.float64)
    comma = COMMAS.get(name[name.rfind(".") :].lower())
    names = first_row(name, comma)
    places = picked(columns, names, name)
    if columns and not all(it.strip().isdigit() for it in columns.split(",")):
        has_header = True
    if places is None:
        places = list(range(min(len(names), at_most)))
    if not names:
        return np.empty((0, 2))
    try:
        with open(name, encoding=ENCODING) as file:
            rows = islice(filter(is_row, file), int(has_header), None)
            words: Any = {"delimiter": comma, "ndmin": 2, "usecols": places}
            with warnings.catch_warnings():
                # Of a table without rows numpy warns.
                warnings.simplefilter("ignore", UserWarning)
                found: NDArray[np.float64] = np.loadtxt(rows, **words)
    except (ValueError, IndexError) as error:
        # An index error is how numpy before 1.23 tells that a row lacks a column.
        hint = "" if has_header else ". If its first row has names, say so with --header"
        raise ValueError(f"{name}: {str(error).rstrip('.')}{hint}") from None
    return found if found.size else np.empty((0, len(places)))


def first_row(name: str, comma: Optional[str]) -> List[str]:
    """The words of the first row that is no comment."""
    with open(name, encoding=ENCODING, newline="") as file:
        for line in filter(is_row, file):
            words = next(csv.reader([line], delimiter=comma)) if comma else line.split()
            return [it.strip() for it in words]
    return []


def is_row(line: str) -> bool:
    """Whether a line is neither empty nor a comment."""
    return bool(line.strip()) and not line.lstrip().startswith("#")


def picked(columns: Optional[str], names: Optional[List[str]], name: str) -> Optional[List[int]]:
    """The places of columns that are asked for."""
    if columns is None:
        return None
    words: List[Union[str, int]] = [it.strip() for it in columns.split(",")]
    if all(str(it).isdigit() for it in words):
        return [int(it) for it in words]
    wrong = [it for it in words if it not in (names or [])]
    if wrong:
        raise ValueError(f"{name} has no column {wrong[0]!r}: it has {', '.join(names or [])}")
    assert names is not None
    return [names.index(str(it)) for it in words]


def read_segments(name: str, has_header: bool) -> NDArray[np.int64]:
    """Pairs of rows of points."""
    floats = read_table(name, None, has_header, 2)
    wholes = floats.astype(np.int64)
    wrong = np.flatnonzero((wholes != floats).any(1))
    if len(wrong):
        row = int(wrong[0])
        raise ValueError(
            f"{name}: row {row} has {floats[row].tolist()}, but a segment is two whole numbers, "
            "the rows of two points counted from 0"
        )
    return wholes


def write_table(rows: NDArray[Any], name: Optional[str], form: str = "%d") -> None:
    """Writes rows as .npy or CSV, or a CSV to standard output."""
    if name and name.endswith(".npy"):
        np.save(name, rows)
    else:
        np.savetxt(name or sys.stdout, rows, fmt=form, delimiter=",")
