"""A soil map made clean: noded on a grid, holes and long outlines cut by seams, what no soil covers given to a background soil."""
from __future__ import annotations

import math
from dataclasses import dataclass, field
from typing import Any, Iterable, Optional

import numpy as np

from . import geos
from .errors import InputError
from .mesh import MOST_CORNERS, Mesh
from .soils import Box, SoilMap, faces_mesh

_ROUNDS = 40            # of seams: each halves the longest outline, so a map needs a few
_PLACES = 3             # named in a report


@dataclass
class CleanMap:
    """Faces that tile the window, each in one soil."""

    mesh: Mesh                      #: families are places in `names`
    names: list[str]                #: the soils, the background last
    changes: list[str] = field(default_factory=list)        #: what was changed, in words


def clean(soils: SoilMap, grid: float, window: Box, nodes: Optional[np.ndarray] = None, background: str = '(no soil)') -> CleanMap:
    """The map inside the window with every corner on a grid. `nodes` are the model's: soil lines within a grid step of one run through it.

    The step is the power of two that is not above `grid`. Where polygons overlap, the first in the file has the place.
    """
    grid = step_of(grid)
    changes: list[str] = []
    polygons, owners = _inside(soils, window, changes)
    pins = _Pins(np.zeros((0, 2)) if nodes is None else nodes, grid)
    outline = geos.geometry.box(*rounded(np.array(window).reshape(2, 2), grid).ravel())
    noded = geos.noded([*(p.boundary for p in polygons), outline.boundary], grid)
    tiles, seams = _tiled(geos.noded(map(pins.through, noded), grid), grid, pins)
    names = [*soils.names, background]
    mesh = faces_mesh(tiles, _owned(tiles, polygons, owners, names, changes))
    pinned = pins.restore(mesh)
    changes += _summary(polygons, owners, mesh, names, grid)
    changes += [f'{pinned} corners put on nodes of the model that lie within a step'] * bool(pinned)
    changes += [f'{seams} seams put through holes and long outlines'] * bool(seams)
    return CleanMap(mesh, names, changes)


def step_of(grid: float) -> float:
    """The power of two that is not above a step: 1/1024 for 0.001. Its multiples are exact, so what is in line on the grid is exactly so."""
    if not 0 < grid < math.inf:
        raise InputError(f'a grid of {grid}: a step above 0 is needed, in the unit of the map')
    return 2.0 ** math.floor(math.log2(grid))


def step_said(step: float) -> str:
    return f'1/{round(1 / step):,}' if step < 1 else f'{step:g}'


def rounded(xy: np.ndarray, grid: float) -> np.ndarray:
    """The nearest multiples of a power of two, as GEOS rounds."""
    return np.floor(xy / grid + 0.5) * grid


def _inside(soils: SoilMap, window: Box, changes: list[str]) -> tuple[list[Any], list[int]]:
    """The polygons inside the window, invalid ones repaired."""
    outline = geos.geometry.box(*window)
    polygons, owners, broken = [], [], []
    for shape, soil in zip(soils.shapes, soils.soils):
        if not shape.is_valid:
            broken.append(shape.exterior.coords[0])
        valid = [shape] if shape.is_valid else geos.repaired(shape)
        within = [q for p in valid for q in geos.parts(p if outline.contains(p) else p.intersection(outline)) if q.area > 0]
        polygons += within
        owners += [soil] * len(within)
    if broken:
        changes.append(f'{len(broken)} polygons that cross themselves were repaired, {_named(broken)}')
    if not polygons:
        raise InputError(f'{soils.source}: no soil where the model lies')
    return polygons, owners


def _named(places: Iterable[Any]) -> str:
    places = list(places)
    words = ', '.join(f'({p[0]:.10g}, {p[1]:.10g})' for p in places[:_PLACES])
    return f'at {words}' + (' ..' if len(places) > _PLACES else '')


class _Pins:
    """The model's nodes, rounded to the grid: lines that pass within a step of one are led through it."""

    def __init__(self, nodes: np.ndarray, grid: float) -> None:
        self.grid = grid
        self.exact = dict(zip(map(tuple, rounded(nodes, grid).tolist()), nodes.tolist()))
        if len(self.exact) < len({tuple(p) for p in nodes.tolist()}):
            raise InputError(f'a grid of {step_said(grid)} makes nodes of the model one: take a smaller step')
        self.points = [geos.geometry.Point(p) for p in self.exact]
        self.near = geos.finder(self.points)

    def through(self, line: Any) -> Any:
        """The line with a corner at each pin that lies within a step of it."""
        coords = [tuple(c[:2]) for c in line.coords]
        led = [coords[0]]
        for a, b in zip(coords, coords[1:]):
            led += [*self._between(a, b), b]
        return line if len(led) == len(coords) else geos.geometry.LineString(led)

    def _between(self, a: tuple, b: tuple) -> list[tuple]:
        segment = geos.geometry.LineString([a, b])
        found = [self.points[i] for i in self.near(geos.around(segment, self.grid))]
        close = [p for p in found if (p.x, p.y) not in (a, b) and p.distance(segment) < self.grid]
        along = sorted((segment.project(p), p.x, p.y) for p in close)
        return [(x, y) for at, x, y in along if 0 < at < segment.length]

    def restore(self, mesh: Mesh) -> int:
        """Corners at rounded pins are put where the model's nodes are; answers how many."""
        at = [i for i, p in enumerate(map(tuple, mesh.xy.tolist())) if p in self.exact]
        if at:
            mesh.xy[at] = [self.exact[tuple(p)] for p in mesh.xy[at].tolist()]
        return len(at)


def _tiled(lines: list[Any], grid: float, pins: _Pins) -> tuple[list[Any], int]:
    """Faces without holes and of at most 256 corners, and how many seams that took."""
    count = 0
    for turn in range(_ROUNDS):
        tiles = list(geos.ops.polygonize(lines))
        seams = [s for t in tiles for s in _seams(t, grid, turn % 2 == 1)]
        if not seams:
            return tiles, count
        count += len(seams)
        lines = geos.noded([*lines, *map(pins.through, seams)], grid)
    raise InputError(f'the map has faces that {_ROUNDS} rounds of seams do not cut small enough: is the grid of {step_said(grid)} too coarse?')


def _seams(tile: Any, grid: float, across: bool) -> list[Any]:
    """Lines that cut a tile beside its holes, or in halves where its outline is long, along its longer side or across."""
    if tile.interiors:
        return [s for hole in tile.interiors for s in _beside(tile, hole, grid)]
    corners = np.asarray(tile.exterior.coords)[:-1]
    if len(corners) <= MOST_CORNERS:
        return []
    x0, y0, x1, y1 = tile.bounds
    x, y = rounded(np.median(corners, axis=0), grid)
    upright = (x1 - x0 >= y1 - y0) != across
    return _lines_within(tile, [(x, y0), (x, y1)] if upright else [(x0, y), (x1, y)])


def _beside(tile: Any, hole: Any, grid: float) -> list[Any]:
    """Level lines in the tile, left from the hole's leftmost corner and right from its rightmost."""
    x0, _, x1, _ = tile.bounds
    corners = [tuple(c[:2]) for c in hole.coords]
    ends = ((min(corners), x0 - grid), (max(corners), x1 + grid))
    return [s for corner, far in ends for s in _lines_within(tile, [corner, (far, corner[1])])
            if s.distance(geos.geometry.Point(corner)) < grid / 2]


def _lines_within(tile: Any, ends: list[tuple]) -> list[Any]:
    return geos.parts(geos.geometry.LineString(ends).intersection(tile), 'LineString')


def _owned(tiles: list[Any], polygons: list[Any], owners: list[int], names: list[str], changes: list[str]) -> list[int]:
    """The soil of each tile: that of the first polygon around it, or the background, which comes last in `names`."""
    find = geos.finder(polygons)
    ready = [geos.prepared(p) for p in polygons]
    families, twice, bare = [], _Places(), _Places()
    for tile in tiles:
        inner = tile.representative_point()
        around = [owners[i] for i in find(inner) if ready[i].contains(inner)]
        families.append(around[0] if around else len(names) - 1)
        if len(set(around)) > 1:
            twice.add(tile, f'{names[around[0]]} before {names[next(s for s in around if s != around[0])]}')
        if not around:
            bare.add(tile, '')
    changes += twice.said('lie in two soils, which the first in the file gets')
    changes += bare.said(f'lie in no soil and are given to "{names[-1]}"')
    return families


class _Places:
    """Areas of one sort, for a report."""

    def __init__(self) -> None:
        self.areas: list[tuple[float, Any, str]] = []

    def add(self, tile: Any, words: str) -> None:
        self.areas.append((tile.area, tile.representative_point(), words))

    def said(self, what: str) -> list[str]:
        if not self.areas:
            return []
        self.areas.sort(key=lambda a: -a[0])
        places = [f'({p.x:.10g}, {p.y:.10g})' + (f' {words}' if words else '') for _, p, words in self.areas[:_PLACES]]
        more = ' ..' if len(self.areas) > _PLACES else ''
        return [f'{len(self.areas)} places, {sum(a for a, _, _ in self.areas):.6g} square units, {what}; the largest at {", ".join(places)}{more}']


def _summary(polygons: list[Any], owners: list[int], mesh: Mesh, names: list[str], grid: float) -> list[str]:
    """How far corners and areas moved."""
    corners = np.concatenate([np.asarray(r.coords)[:-1, :2] for p in polygons for r in (p.exterior, *p.interiors)])
    moves = np.hypot(*(rounded(corners, grid) - corners).T)
    before, after = np.zeros(len(names)), np.zeros(len(names))
    np.add.at(before, owners, [p.area for p in polygons])
    np.add.at(after, mesh.families, mesh.areas())
    lost = [n for n, b, a in zip(names, before, after) if b > 0 and a == 0]
    worst = int(np.argmax(np.abs(after - before)[:-1]))
    said = [f'{np.count_nonzero(moves)} of {len(corners)} corners put on the grid of {step_said(grid)}, moved by at most {moves.max():.3g}',
            f'largest change of a soil\'s area: {names[worst]}, {after[worst] - before[worst]:+.6g} of {before[worst]:.6g} square units']
    return said + [f'nothing is left of: {", ".join(lost)} (covered by others, or smaller than the grid)'] * bool(lost)
