"""What the proofs do not say, checked after the call with GEOS: every piece is simple, has an area above 0 and lies in one soil."""
from __future__ import annotations

from typing import Any, Optional

import numpy as np

from . import geos
from .errors import Problem
from .mesh import Mesh, following
from .models import Model
from .overlaying import Overlay
from .strips import Progress

_STEP = 500             # pieces between two words on progress


def checked(model: Model, pieces: Overlay, soils: Mesh, names: list[str], progress: Progress,
            survey_grid: Optional[int] = None) -> tuple[np.ndarray, np.ndarray, list[Problem]]:
    """The soil of each piece (the last name: none), the area of each soil in the model by GEOS, and what is wrong."""
    faces, booked = _Faces(soils, names), _by_booking(pieces, survey_grid)
    soil, problems = _pieces(model, pieces, faces, booked, progress)
    if problems:
        return soil, np.zeros(len(names)), problems
    return (soil, *_cells(model, pieces, soil, faces, np.bincount(pieces.parent_cells, booked, len(model.mesh)), progress))


def _by_booking(pieces: Overlay, survey_grid: Optional[int]) -> np.ndarray:
    """How far the area of each piece may be off because its new points moved, each by half a step at most in x and in y."""
    if survey_grid is None:
        return np.zeros(len(pieces))
    far, counts = 2.0 ** -(survey_grid + 0.5), pieces.counts()
    sides = np.hypot(*(pieces.xy[pieces.nodes] - pieces.xy[pieces.nodes[following(counts)]]).T)
    return far * np.bincount(np.repeat(np.arange(len(pieces)), counts), sides + far, len(pieces))


class _Faces:
    """The soil map's faces, ready to be asked."""

    def __init__(self, soils: Mesh, names: list[str]) -> None:
        self.names = names
        self.shapes = geos.polygons(soils)
        self.soils = soils.families.astype(np.int64)
        self.sides = [_side_boxes(soils.xy[c]) for c in soils.cells()]
        self.near = geos.finder(self.shapes)
        self.ready = [geos.prepared(s) for s in self.shapes]

    def around(self, point: Any) -> int:
        """The face that a point lies in, or -1."""
        return next((i for i in self.near(point) if self.ready[i].contains(point)), -1)

    def strays(self, shape: Any, face: int) -> Any:
        """What of the shape lies outside its face; for no face, what lies in any."""
        if face >= 0:
            return geos.geometry.Polygon() if self.ready[face].contains(shape) else shape.difference(self.shapes[face])
        return geos.ops.unary_union([shape.intersection(self.shapes[i]) for i in self.near(shape)])

    def areas_in(self, shape: Any) -> dict[int, float]:
        """The area of each soil in a shape."""
        found: dict[int, float] = {}
        for i in self.near(shape):
            soil = int(self.soils[i])
            area = shape.area if self.ready[i].contains(shape) else shape.intersection(self.shapes[i]).area
            if area > 0:
                found[soil] = found.get(soil, 0.0) + area
        return found

    def slack(self, shape: Any, longest: float) -> float:
        """How far areas in a shape may be off, because the library takes a corner as on a side where it is nearer than 2^-23 of the larger
        component of the two sides that meet, and by rounding. `longest` is that of the cell's sides."""
        x0, y0, x1, y1 = shape.bounds
        for low, high in (self.sides[i] for i in self.near(shape)):
            meet = (low <= (x1, y1)).all(axis=1) & (high >= (x0, y0)).all(axis=1)
            longest = max(longest, (high - low)[meet].max(initial=0.0))
        return shape.length * (2.0 ** -23 * longest + 2.0 ** -48 * max(abs(x0), abs(y0), abs(x1), abs(y1)))


def _side_boxes(ring: np.ndarray) -> tuple[np.ndarray, np.ndarray]:
    """The least and the largest coordinates of each side."""
    after = np.roll(ring, -1, axis=0)
    return np.minimum(ring, after), np.maximum(ring, after)


def _longest_sides(mesh: Mesh) -> list[float]:
    """For each cell the larger component of its sides."""
    boxes = (_side_boxes(mesh.xy[corners]) for corners in mesh.cells())
    return [float((high - low).max()) for low, high in boxes]


def _pieces(model: Model, pieces: Overlay, faces: _Faces, booked: np.ndarray, progress: Progress) -> tuple[np.ndarray, list[Problem]]:
    none = len(faces.names) - 1
    soil = np.full(len(pieces), none)
    problems: list[Problem] = []
    areas, longest = pieces.areas(), _longest_sides(model.mesh)
    for i, (corners, parent) in enumerate(zip(pieces.cells(), pieces.parent_cells.tolist())):
        ring, cell = pieces.xy[corners], model.number(parent)
        why = geos.why_invalid(ring) or ('' if areas[i] > 0 else f'an area of {areas[i]:.3g}')
        if why:
            problems.append(Problem.at(ring[0], f'a piece that is no simple polygon: {why}', cell))
            continue
        shape = geos.geometry.Polygon(ring)
        face = faces.around(shape.representative_point())
        soil[i] = faces.soils[face] if face >= 0 else none
        stray = faces.strays(shape, face)
        if stray.area > 0 and stray.area > faces.slack(shape, longest[parent]) + booked[i]:
            problems.append(_astray(stray, faces, int(soil[i]), cell))
        if i % _STEP == 0:
            progress('pieces checked', i, len(pieces))
    progress('pieces checked', len(pieces), len(pieces))
    return soil, problems


def _astray(stray: Any, faces: _Faces, soil: int, cell: int) -> Problem:
    point = stray.representative_point()
    other = faces.around(point)
    where = f'"{faces.names[int(faces.soils[other])]}"' if other >= 0 else 'no soil'
    return Problem(f'a piece in two soils: {stray.area:.6g} of it in {where}, the rest in "{faces.names[soil]}"', point.x, point.y, cell)


def _cells(model: Model, pieces: Overlay, soil: np.ndarray, faces: _Faces, booked: np.ndarray,
           progress: Progress) -> tuple[np.ndarray, list[Problem]]:
    """The areas of soils in each cell beside GEOS's."""
    mesh, ours, longest = model.mesh, _by_cell(pieces, soil), _longest_sides(model.mesh)
    by_geos, problems = np.zeros(len(faces.names)), []
    for i, shape in enumerate(geos.polygons(mesh)):
        theirs, mine = faces.areas_in(shape), ours.get(i, {})
        bare = len(faces.names) - 1
        theirs[bare] = theirs.get(bare, 0.0) + max(shape.area - sum(theirs.values()), 0.0)
        for number, area in theirs.items():
            by_geos[number] += area
        off, worst = max((abs(theirs.get(s, 0.0) - mine.get(s, 0.0)), s) for s in theirs.keys() | mine.keys())
        if off > 0 and off > faces.slack(shape, longest[i]) + booked[i]:
            what = f'"{faces.names[worst]}" has an area of {mine.get(worst, 0.0):.10g} by the pieces, {theirs.get(worst, 0.0):.10g} by GEOS'
            problems.append(Problem.at(shape.centroid.coords[0], what, model.number(i)))
        if i % _STEP == 0:
            progress('cells checked', i, len(mesh))
    progress('cells checked', len(mesh), len(mesh))
    return by_geos, problems


def _by_cell(pieces: Overlay, soil: np.ndarray) -> dict[int, dict[int, float]]:
    """For each cell the area of each soil."""
    found: dict[int, dict[int, float]] = {}
    for parent, number, area in zip(pieces.parent_cells.tolist(), soil.tolist(), pieces.areas().tolist()):
        cell = found.setdefault(parent, {})
        cell[number] = cell.get(number, 0.0) + area
    return found
