"""The surveyors' side of new points: the grid that they are booked on, and how far each may be off (docs/TOLERANCE.md)."""
from __future__ import annotations

import math
from decimal import ROUND_CEILING, Context, Decimal
from fractions import Fraction
from operator import index
from typing import Optional, Union

import numpy as np

from .mesh import Mesh
from .refusals import Refused

FINEST_GRID = 10                # the survey grid of 1/1024 metre
LARGEST = 2.0 ** 40             # of a coordinate
_SHOWN = Context(prec=3, rounding=ROUND_CEILING)


def survey_k(survey_grid: Optional[int]) -> Optional[int]:
    """K of a survey grid, or none; refused where there is no such grid."""
    if survey_grid is None:
        return None
    if not 0 <= index(survey_grid) <= FINEST_GRID:
        raise Refused(13, f'K is {survey_grid}')
    return index(survey_grid)


def survey_grid_said(k: int) -> str:
    return f'the survey grid of {f"1/{2 ** k:,}" if k else 1} metre'


def tolerance(of: Union[Mesh, float], survey_grid: Optional[int] = None) -> float:
    """How far a new point may be off its subject edge in x, and in y, in metres: M x 2^-50 + 2^-1074, on a survey grid half a step more. Rounded
    up: never below what is proved.

    `of` is M, the largest size among the four coordinates of the edge's ends. With the subject in its place M is the largest of all its cells'
    corners, and the answer holds of every new point. Raises `Refused` where an overlay would: 3 above 2^40, 13 for a grid that there is not.
    """
    k = survey_k(survey_grid)
    size = _largest(of) if isinstance(of, Mesh) else abs(of)
    if not size <= LARGEST:
        raise Refused(3, f'the largest size is {size}')
    half_a_step = Fraction(0) if k is None else Fraction(1, 2 ** (k + 1))
    return _rounded_up(Fraction(float(size)) / 2 ** 50 + Fraction(1, 2 ** 1074) + half_a_step)


def _largest(mesh: Mesh) -> float:
    mesh.check()
    return float(np.abs(mesh.xy[mesh.nodes]).max(initial=0.0))


def _rounded_up(exact: Fraction) -> float:
    near = float(exact)
    return near if Fraction(near) >= exact else math.nextafter(near, math.inf)


def tolerance_said(metres: float) -> str:
    """In three digits, rounded up."""
    if metres < 1e-5:
        return f'{_SHOWN.plus(Decimal(metres)):.2e} m'
    unit, power = ('m', 0) if metres >= 0.1 else ('mm', 3)
    return f'{_SHOWN.scaleb(Decimal(metres), power):f} {unit}'
