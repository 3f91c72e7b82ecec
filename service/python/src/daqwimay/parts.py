"""A cell in triangles: for cells that are cut by more edges than the library's table of one cell holds."""
from __future__ import annotations

from typing import Iterator, Optional

import numpy as np

from .mesh import Kind, Mesh


_LEVELS = 5             # the last has 256 triangles for each side of a cell


def triangles(ring: np.ndarray, survey_grid: Optional[int] = None) -> Iterator[Mesh]:
    """A cell in triangles, coarse ones first; its corners are the first nodes of each mesh, the others lie on the survey grid. Nothing where its
    middle doesn't see all its sides, and none so small that rounding turns one of them."""
    mesh = _fan(ring)
    for _ in range(_LEVELS):
        booked = _booked(mesh, len(ring), survey_grid)
        if not np.all(booked.areas() > 0):
            return
        yield booked
        mesh = _refined(mesh)


def _booked(mesh: Mesh, lent: int, survey_grid: Optional[int]) -> Mesh:
    if survey_grid is None:
        return mesh
    many = 2.0 ** survey_grid
    xy = np.vstack([mesh.xy[:lent], np.round(mesh.xy[lent:] * many) / many + 0.0])
    return Mesh(xy, mesh.nodes, mesh.ends, mesh.kinds, mesh.families)


def _fan(ring: np.ndarray) -> Mesh:
    """Triangles from a cell's middle to its sides."""
    many = len(ring)
    sides = np.column_stack([np.arange(many), np.roll(np.arange(many), -1)])
    corners = np.column_stack([np.full(many, many), sides])
    return Mesh(np.vstack([ring, ring.mean(axis=0)]), corners, 3 * np.arange(1, many + 1), np.full(many, Kind.TRI3), np.arange(many))


def _refined(mesh: Mesh) -> Mesh:
    """Each triangle in four, by the middles of all sides; nodes keep their numbers."""
    corners = mesh.nodes.reshape(-1, 3).astype(np.int64)
    pairs = np.sort(np.stack([corners, np.roll(corners, -1, axis=1)], axis=2).reshape(-1, 2), axis=1)
    sides, at = np.unique(pairs, axis=0, return_inverse=True)
    (a, b, c), (ab, bc, ca) = corners.T, (len(mesh.xy) + at.reshape(-1, 3)).T
    four = [np.column_stack(t) for t in ((a, ab, ca), (ab, b, bc), (ca, bc, c), (ab, bc, ca))]
    return Mesh.from_cells(np.vstack([mesh.xy, mesh.xy[sides].mean(axis=1)]), np.concatenate(four))
