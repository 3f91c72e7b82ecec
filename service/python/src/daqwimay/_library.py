"""The proved call through ctypes: the lists that it takes, and how arrays are lent to it."""
from __future__ import annotations

import ctypes
from pathlib import Path
from typing import Any, Iterable, NamedTuple, Optional, Sequence

import numpy as np


class ListRecord(NamedTuple):
    """A lent list: its name, the type of its numbers, and what has `width` numbers in it: a node, a corner or a cell."""

    name: str
    dtype: Any
    per: str
    width: int = 1


# In the order of the call. A list added to the call is a row added here and a field of `Mesh`, or of `Overlay` where the output alone has it.
MESH_LISTS = (
    ListRecord('xy', np.dtype(np.float64), 'node', 2),
    ListRecord('layers', np.dtype(np.uint32), 'node'),
    ListRecord('nodes', np.dtype(np.uint32), 'corner'),
    ListRecord('ends', np.dtype(np.uint32), 'cell'),
    ListRecord('kinds', np.dtype(np.uint8), 'cell'),
    ListRecord('families', np.dtype(np.uint32), 'cell'),
)
OUTPUT_LISTS = (
    *MESH_LISTS,
    ListRecord('parent_meshes', np.dtype(np.uint32), 'cell'),
    ListRecord('parent_cells', np.dtype(np.uint32), 'cell'),
)
NO_GRID = 2 ** 32 - 1       # in the place of a survey grid's K
COUNTS = 4          # pieces; added points that a piece names; 0, once the count of doubled cells; all added points


class Settings(NamedTuple):
    """What is set for a call, in its order. A setting added to the call is a field added here."""

    operation: int
    limit: int
    survey_grid: Optional[int] = None       # K of the grid of 1/2^K metre on which new points are booked, or none

    def numbers(self) -> tuple[int, ...]:
        """As the call takes them. The number of no grid is no K: as a K it is as bad as the one below it."""
        grid = NO_GRID if self.survey_grid is None else min(self.survey_grid, NO_GRID - 1)
        return self._replace(survey_grid=grid)


_call = ctypes.CDLL(str(Path(__file__).with_name('libdaqwimay.so'))).daqwimay_overlay
_call.restype = ctypes.c_uint32
_call.argtypes = [ctypes.c_uint32] * len(Settings._fields) + [ctypes.c_void_p, ctypes.c_size_t] * (2 * len(MESH_LISTS) + len(OUTPUT_LISTS) + 2)


def lendable(values: Any, dtype: np.dtype, name: str) -> np.ndarray:
    """The values as a contiguous, aligned array of the type: the array itself where it is one, otherwise a copy of the same values."""
    given = np.asarray(values)
    if given.dtype == dtype and given.flags.c_contiguous and given.flags.aligned:
        return given
    with np.errstate(invalid='ignore'):
        taken = np.require(given, dtype, 'CA')
    if dtype.kind == 'u' and not np.array_equal(taken, given):
        raise ValueError(f'{name}: whole numbers from 0 to {np.iinfo(dtype).max} are needed')
    return taken


def call(settings: Settings, subject: Sequence[np.ndarray], cutter: Sequence[np.ndarray], output: Sequence[np.ndarray],
         work: np.ndarray) -> tuple[int, np.ndarray]:
    """The refusal's number (0: none) and the counts. Python's lock is free during the call."""
    counts = np.zeros(COUNTS, np.uint32)
    code = _call(*settings.numbers(), *_addresses((*subject, *cutter, *output, work, counts)))
    return code, counts


def _addresses(lists: Iterable[np.ndarray]) -> Iterable[int]:
    for a in lists:
        yield a.ctypes.data
        yield a.size
