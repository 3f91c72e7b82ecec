"""What is not clean in a model or a map, before anything is cut: places, in words."""
from __future__ import annotations

from typing import Iterator

import numpy as np

from . import geos
from .errors import Problem
from .mesh import Mesh, mesh_of_rings
from .soils import SoilMap, unfit

NEAR = 1e-3             # corners nearer than this are meant to be one


def of_outlines(mesh: Mesh, near: float = NEAR) -> list[Problem]:
    """What is wrong among the outlines of one mesh: a model's cells or a map's soils."""
    sides = _Sides(mesh)
    return [*_not_simple(mesh), *_beside_each_other(mesh.xy, mesh.xy, near, 'two corners'), *sides.tees(near), *sides.crossings()]


def of_map(soils: SoilMap, model: Mesh, near: float = NEAR) -> list[Problem]:
    """What is wrong in a map, where the model lies."""
    mesh = mesh_of_rings([np.asarray(r.coords) for s in soils.shapes for r in (s.exterior, *s.interiors)], None)
    low, high = model.xy.min(axis=0), model.xy.max(axis=0)
    found = [*of_outlines(mesh, near), *_lenses(mesh, model), *between(model, mesh, near)]
    return [*unfit(soils.shapes), *(p for p in found if low[0] <= p.x <= high[0] and low[1] <= p.y <= high[1])]


def between(model: Mesh, soils: Mesh, near: float = NEAR) -> list[Problem]:
    """Soil corners that lie a hair beside the model's nodes."""
    return list(_beside_each_other(soils.xy, model.xy, near, 'a soil corner and a node of the model'))


def _not_simple(mesh: Mesh) -> Iterator[Problem]:
    for corners, area in zip(mesh.cells(), mesh.areas()):
        why = geos.why_invalid(mesh.xy[corners]) or ('' if area else 'no area')
        if why:
            yield Problem.at(mesh.xy[corners[0]], f'an outline that is no simple polygon: {why}')


def _beside_each_other(some: np.ndarray, others: np.ndarray, near: float, what: str) -> Iterator[Problem]:
    """Pairs of places that are neither one nor apart; each pair once."""
    squares: dict[tuple[int, int], list[int]] = {}
    for i, (x, y) in enumerate(np.floor(others / near).astype(np.int64).tolist()):
        squares.setdefault((x, y), []).append(i)
    for i, (x, y) in enumerate(np.floor(some / near).astype(np.int64).tolist()):
        for j in (j for a in (-1, 0, 1) for b in (-1, 0, 1) for j in squares.get((x + a, y + b), ())):
            apart = float(np.hypot(*(some[i] - others[j])))
            if 0 < apart < near and (some is not others or i < j):
                yield Problem.at(some[i], f'{what}, {apart:.3g} apart')


class _Sides:
    """The sides of a mesh, each once."""

    def __init__(self, mesh: Mesh) -> None:
        self.mesh = mesh
        self.ends = sorted({(int(min(a, b)), int(max(a, b))) for c in mesh.cells() for a, b in zip(c, np.roll(c, -1)) if a != b})
        self.lines = [geos.geometry.LineString(mesh.xy[list(e)]) for e in self.ends]
        self.find = geos.finder(self.lines)

    def tees(self, near: float) -> Iterator[Problem]:
        """Corners that lie on a side without being its ends."""
        for node in np.unique(self.mesh.nodes).tolist():
            point = geos.geometry.Point(self.mesh.xy[node])
            if any(self._passes(i, node, point, near) for i in self.find(geos.around(point, near))):
                yield Problem.at(self.mesh.xy[node], 'a corner on a side that has no corner there (T-junction)')

    def _passes(self, side: int, node: int, point: object, near: float) -> bool:
        ends = self.mesh.xy[list(self.ends[side])]
        apart = np.hypot(*(ends - self.mesh.xy[node]).T).min() >= near
        return node not in self.ends[side] and bool(apart) and self.lines[side].distance(point) < near

    def crossings(self) -> Iterator[Problem]:
        """Sides that cross: soils that overlap, a boundary drawn twice."""
        for i, line in enumerate(self.lines):
            for j in self.find(line):
                if i < j and line.crosses(self.lines[j]):
                    yield Problem.at(line.intersection(self.lines[j]).coords[0], 'two sides cross: an overlap, or a boundary drawn twice')


def _lenses(soils: Mesh, model: Mesh) -> Iterator[Problem]:
    """Groups of outlines that share no corner with others and lie inside one cell."""
    cells = geos.polygons(model)
    find, ready = geos.finder(cells), [geos.prepared(c) for c in cells]
    for group in _groups(soils):
        shape = geos.geometry.MultiPoint(soils.xy[group])
        if any(ready[i].contains(shape) for i in find(shape)):
            yield Problem.at(soils.xy[group[0]], 'a lens inside one cell, which shares no corner with other soils')


def _groups(mesh: Mesh) -> list[list[int]]:
    """The nodes of cells that hang together by shared nodes."""
    leader = list(range(len(mesh.xy)))

    def lead(node: int) -> int:
        while leader[node] != node:
            leader[node] = leader[leader[node]]
            node = leader[node]
        return node

    for corners in mesh.cells():
        for node in corners[1:].tolist():
            leader[lead(node)] = lead(int(corners[0]))
    groups: dict[int, list[int]] = {}
    for node in np.unique(mesh.nodes).tolist():
        groups.setdefault(lead(node), []).append(node)
    return list(groups.values())
