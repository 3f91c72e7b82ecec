"""From a model and a soil map to strips: cut, checked, and added up."""
from __future__ import annotations

from dataclasses import dataclass, field, replace
from typing import Any, Callable, Mapping, NamedTuple, Optional

import numpy as np

from .chunks import overlay_in_chunks
from .errors import InputError, NotClean
from .mesh import Mesh, layers_at
from .models import Model
from .overlaying import Operation, Overlay, settings_of
from .refusals import Refused
from .soils import Box, SoilMap, soil_mesh

Progress = Callable[[str, int, int], None]
BACKGROUND = '(no soil)'
_CURE = 'clean the map first: --grid 0.001 (docs/PRACTICE.md says what a clean map is)'
_FINER = 'where strips are about as thin as a step of the survey grid: take a larger K'


@dataclass
class Strips:
    """The pieces of a model's cells, each in one soil."""

    model: Model
    pieces: Overlay                 #: their parents are cells of the model's mesh
    soil: np.ndarray                #: the soil of each piece: a place in `names`
    names: list[str]                #: the soils; the last is for what no soil covers
    by_geos: np.ndarray             #: the area of each soil in the model, by GEOS
    changes: list[str] = field(default_factory=list)        #: what cleaning changed

    def cells(self) -> np.ndarray:
        """The cell that each piece was cut from: its place in the model's file, from 0."""
        return self.model.mesh.families[self.pieces.parent_cells].astype(np.int64)

    def areas(self) -> np.ndarray:
        """The area of each piece."""
        return self.pieces.areas()

    def by_soil(self) -> np.ndarray:
        """The area of each soil in the model, by its pieces."""
        return np.bincount(self.soil, self.areas(), len(self.names))

    def table(self) -> dict[str, np.ndarray]:
        """One row for each cell and soil: cell (counted as in the file), soil (its name), area, share of the cell."""
        keys, at = np.unique(self.cells() * len(self.names) + self.soil, return_inverse=True)
        areas = np.bincount(at.reshape(-1), self.areas(), len(keys))
        cell = keys // len(self.names)
        whole = np.bincount(cell, areas)
        return {'cell': cell + self.model.first, 'soil': np.array(self.names, object)[keys % len(self.names)],
                'area': areas, 'share': areas / whole[cell]}

    def per_cell(self, rates: Mapping[str, float]) -> np.ndarray:
        """For each cell of the file the mean of its soils' rates, by area: recharge, say. A soil without a rate is an error."""
        table = self.table()
        missing = sorted(set(table['soil']) - set(rates))
        if missing:
            raise InputError(f'no rate for {", ".join(missing)}')
        weighted = np.array([rates[s] for s in table['soil']]) * table['share']
        return np.bincount(table['cell'] - self.model.first, weighted, len(self.model.mesh))


def cut(model: Model, soils: SoilMap, *, grid: Optional[float] = None, survey_grid: Optional[int] = None, background: str = BACKGROUND,
        progress: Optional[Progress] = None) -> Strips:
    """The model's cells cut along the soils (operation 0), and checked. With a grid the map is made clean first. With `survey_grid` K, another
    thing, new points are booked on multiples of 1/2^K metre: no node of the model and no corner of the map moves for that.

    Where soils run along the model's own sides, its nodes may lie a hair beside their lines; if the strips then come out wrong, the
    model's nodes are put on the grid too, and `changes` says so. Raises `NotClean` with the places where the strips would be wrong,
    `Refused` with the refused cell.
    """
    same_crs(model, soils)
    settings_of(Operation.IMPRINT, survey_grid=survey_grid)
    given = _Given(soils, grid, survey_grid, background, progress or (lambda what, done, of: None))
    try:
        return _cut(model, given)
    except (NotClean, Refused) as e:
        if grid is None or getattr(e, 'number', 11) != 11 or _right_without(model, given):
            raise
    moved, change = _on_grid(model, grid)
    strips = _cut(moved, given)
    strips.changes.append(change)
    return strips


def _on_grid(model: Model, grid: float) -> tuple[Model, str]:
    from .cleaning import rounded, step_of, step_said
    mesh, step = model.mesh, step_of(grid)
    xy = rounded(mesh.xy, step)
    far = float(np.hypot(*(xy - mesh.xy).T).max())
    moved = Mesh(xy, mesh.nodes, mesh.ends, mesh.kinds, mesh.families, mesh.layers)
    change = f'soils run along the model\'s sides: its nodes are put on the grid of {step_said(step)} too, moved by at most {far:.3g}'
    return replace(model, mesh=moved), change


def _right_without(model: Model, given: _Given) -> bool:
    """Whether it is the survey grid that spoils the strips."""
    try:
        return given.survey_grid is not None and bool(_cut(model, given._replace(survey_grid=None)))
    except (NotClean, Refused):
        return False


class _Given(NamedTuple):
    soils: SoilMap
    grid: Optional[float]
    survey_grid: Optional[int]
    background: str
    told: Progress


def _cut(model: Model, given: _Given) -> Strips:
    from .checks import checked
    mesh, names, changes = _cutter(model, given.soils, given.grid, given.background)
    mesh.layers = layers_at(model.mesh, mesh.xy)        # a map has none: its corners are of the layer of the model's node that they lie on
    try:
        pieces = overlay_in_chunks(model.mesh, mesh, Operation.IMPRINT, survey_grid=given.survey_grid, parts=True,
                                   progress=lambda done, of: given.told('cells cut', done, of))
    except Refused as e:
        raise _placed(e, model, mesh) from e
    soil, by_geos, problems = checked(model, pieces, mesh, names, given.told, given.survey_grid)
    if problems:
        cures = [_CURE] * (given.grid is None) + [_FINER] * (given.survey_grid is not None)
        raise NotClean(f'{len(problems)} places where the strips are wrong: the map or the model is not clean', problems, '\n'.join(cures))
    return Strips(model, pieces, soil, names, by_geos, changes + _parted(model, pieces))


def _parted(model: Model, pieces: Overlay) -> list[str]:
    if pieces.parted is None or not len(pieces.parted):
        return []
    cells = ', '.join(str(f + model.first) for f in pieces.parted[:NotClean.SHOWN].tolist()) + (' ..' if len(pieces.parted) > NotClean.SHOWN else '')
    return [f'{len(pieces.parted):,} cells have so many soil sides that they were cut in triangles first: {cells}']


def _cutter(model: Model, soils: SoilMap, grid: Optional[float], background: str) -> tuple[Mesh, list[str], list[str]]:
    if background in soils.names:
        raise InputError(f'"{background}" is a soil of the map: choose another name for what no soil covers')
    if grid is None:
        return soil_mesh(soils), [*soils.names, background], []
    from .cleaning import clean
    done = clean(soils, grid, window_of(model), model.mesh.xy, background)
    return done.mesh, done.names, done.changes


def _placed(refused: Refused, model: Model, soils: Mesh) -> Refused:
    """The refusal with the cell's number in the file, and the soil corners that lie a hair beside its nodes."""
    from .defects import between
    if refused.family is None:
        return refused
    cell, _ = model.mesh.take(np.flatnonzero(model.mesh.families == refused.family))
    place = refused.detail.split(', ', 1)[1]
    return Refused(refused.number, '\n'.join([f'cell {refused.family + model.first}, {place}', *map(str, between(cell, soils))]), refused.family)


def window_of(model: Model) -> Box:
    """The model's box, and a little more on every side."""
    low, high = model.mesh.xy.min(axis=0), model.mesh.xy.max(axis=0)
    margin = 0.02 * float(max(high - low))
    return (float(low[0] - margin), float(low[1] - margin), float(high[0] + margin), float(high[1] + margin))


def same_crs(model: Model, soils: SoilMap) -> Any:
    """The reference system of both. Two that differ, or degrees, are an error."""
    known = [(s, crs) for s, crs in ((model.source, model.crs), (soils.source, soils.crs)) if crs is not None]
    for source, crs in known:
        if crs.is_geographic:
            raise InputError(f'{source} is in degrees ({crs.name}), where areas mean nothing: bring it to a reference system in metres')
    if len(known) == 2 and not model.crs.equals(soils.crs, ignore_axis_order=True):
        raise InputError(f'two reference systems: {model.source} is in {model.crs.name}, {soils.source} in {soils.crs.name}; bring one to the other')
    return known[0][1] if known else None
