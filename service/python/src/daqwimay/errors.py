"""Errors in a user's words; `Refused` (refusals.py) is the library's own."""
from __future__ import annotations

import importlib
from types import ModuleType
from typing import NamedTuple, Sequence


class InputError(ValueError):
    """A file or an option that nothing can be made of."""


class Problem(NamedTuple):
    """Something wrong at a place."""

    what: str
    x: float
    y: float
    cell: int = -1          # in the model's file, counted as there; -1: not in one cell

    @classmethod
    def at(cls, place: Sequence[float], what: str, cell: int = -1) -> Problem:
        return cls(what, float(place[0]), float(place[1]), cell)

    def __str__(self) -> str:
        cell = f'cell {self.cell}, ' if self.cell >= 0 else ''
        return f'{cell}at ({self.x:.10g}, {self.y:.10g}): {self.what}'


class NotClean(ValueError):
    """A model or a map that gives no right strips; `problems` says where."""

    SHOWN = 12

    def __init__(self, headline: str, problems: Sequence[Problem], cure: str = '') -> None:
        self.problems = list(problems)
        lines = [headline, *(f'  {p}' for p in self.problems[:self.SHOWN])]
        if len(self.problems) > self.SHOWN:
            lines.append(f'  and {len(self.problems) - self.SHOWN} more')
        super().__init__('\n'.join(lines + ([cure] if cure else [])))


def extra(module: str, name: str) -> ModuleType:
    """An optional module, or an error that says how to get it."""
    try:
        return importlib.import_module(module)
    except ImportError as e:
        raise InputError(f'this needs {module.split(".")[0]}: pip install "daqwimay[{name}]" ({e})') from e
