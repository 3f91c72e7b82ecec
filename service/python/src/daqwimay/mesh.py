"""A mesh as the library takes it: flat lists, lent as they are."""
from __future__ import annotations

from enum import IntEnum
from typing import Any, Optional, Sequence

import numpy as np
from numpy.typing import ArrayLike

from ._library import MESH_LISTS, lendable
from .refusals import Refused

MOST_NODES = MOST_CELLS = 16_384
MOST_CORNERS_OF_MESH = 65_536
MOST_CORNERS = 256          # of one cell


class Kind(IntEnum):
    """Kinds of cells; in a mesh they do not fall from one cell to the next."""

    SEG2 = 1
    TRI3 = 5
    QUAD4 = 8
    PGON = 11


class Mesh:
    """Six lists. Arrays of the right type that are contiguous are lent to the library as they are; others are copied once, here.

    Any content may be handed to `overlay`: what is no mesh is refused. `Mesh.from_cells` makes these lists from cells as files have
    them.
    """

    xy: np.ndarray                      #: float64, n x 2: the nodes
    nodes: np.ndarray                   #: uint32: the cells' corners, one cell after the other
    ends: np.ndarray                    #: uint32: where each cell's corners end
    kinds: np.ndarray                   #: uint8: see `Kind`
    families: np.ndarray                #: uint32: one for each cell, carried on to its pieces
    layers: np.ndarray                  #: uint32: one for each node; nodes at one place of two meshes are made one only in one layer
    order: Optional[np.ndarray] = None      #: from_cells: cell i was the caller's cell order[i]
    turned: Optional[np.ndarray] = None     #: from_cells: whether cell i was clockwise

    def __init__(self, xy: ArrayLike, nodes: ArrayLike, ends: ArrayLike, kinds: ArrayLike, families: ArrayLike, layers: ArrayLike = 0) -> None:
        """`layers` are one for each node, or one number for all."""
        given = {'xy': xy, 'layers': layers, 'nodes': nodes, 'ends': ends, 'kinds': kinds, 'families': families}
        for record in MESH_LISTS:
            lent = lendable(given[record.name], record.dtype, record.name)
            setattr(self, record.name, lent if record.width > 1 or lent.ndim == 1 else lent.reshape(-1))
        self.xy = _pairs(self.xy)
        if np.ndim(layers) == 0:
            self.layers = np.repeat(self.layers, len(self.xy))

    def __repr__(self) -> str:
        return f'<{type(self).__name__}: {len(self):,} cells, {len(self.xy):,} nodes>'

    @classmethod
    def from_cells(cls, xy: ArrayLike, cells: Any, families: Optional[ArrayLike] = None, kinds: Optional[ArrayLike] = None,
                   layers: ArrayLike = 0) -> Mesh:
        """A mesh of cells as lists of node numbers (from 0), or as an array n x k.

        Cells are sorted by kind, clockwise ones turned, a closing corner dropped, -0.0 made 0.0. Families are the cells' places in
        `cells`, unless given. Kinds go by the count of corners, unless given, one for all or one for each. So for layers, of nodes: 0 unless given.
        """
        xy = _without_negative_zeros(_pairs(lendable(xy, np.dtype(np.float64), 'xy')))
        flat, counts = _opened(*_flat(cells))
        _check_nodes(flat, counts, len(xy))
        clockwise = _areas(xy, flat, counts) < 0
        kinds = _kinds(counts) if kinds is None else np.broadcast_to(np.asarray(kinds), counts.shape)
        families = np.arange(len(counts)) if families is None else np.asarray(families)
        if families.shape != counts.shape:
            raise ValueError(f'families: {len(counts)} are needed, one for each cell; these are {families.size}')
        order = np.argsort(kinds, kind='stable')
        mesh = cls(xy, flat[entries(counts, order, clockwise)], np.cumsum(counts[order]), kinds[order], families[order], layers)
        mesh.order, mesh.turned = order, clockwise[order]
        return mesh

    def __len__(self) -> int:
        return len(self.ends)

    def lists(self) -> list[np.ndarray]:
        """The lists in the order of the call."""
        return [getattr(self, record.name) for record in MESH_LISTS]

    def check(self) -> None:
        """Raises `Refused` 2 or 5 where the lists do not fit together, so that the methods below can read them. Sizes are not looked at."""
        counts = self.counts()
        cells, nodes = len(self.ends) == len(self.kinds) == len(self.families), len(self.layers) == len(self.xy)
        if not (cells and nodes) or np.any(counts <= 0) or counts.sum() != len(self.nodes):
            raise Refused(2)
        _check_nodes(self.nodes, counts, len(self.xy))

    def counts(self) -> np.ndarray:
        """Corners of each cell."""
        return np.diff(self.ends.astype(np.int64), prepend=0)

    def cells(self) -> list[np.ndarray]:
        """The corners of each cell, as parts of `nodes`."""
        return np.split(self.nodes, self.ends[:-1].astype(np.int64)) if len(self) else []

    def areas(self) -> np.ndarray:
        """The signed area of each cell; positive where it is anticlockwise."""
        return _areas(self.xy, self.nodes, self.counts())

    def boxes(self) -> np.ndarray:
        """n x 4: the least x and y, the largest x and y of each cell."""
        if not len(self):
            return np.zeros((0, 4))
        corners, starts = self.xy[self.nodes], self.ends.astype(np.int64) - self.counts()
        return np.hstack([np.minimum.reduceat(corners, starts), np.maximum.reduceat(corners, starts)])

    def take(self, cells: np.ndarray) -> tuple[Mesh, np.ndarray]:
        """The mesh of some cells, in the order given, and which nodes it has: these keep their order."""
        counts = self.counts()
        corners = self.nodes[entries(counts, cells)]
        used, numbers = np.unique(corners, return_inverse=True)
        return Mesh(self.xy[used], numbers, np.cumsum(counts[cells]), self.kinds[cells], self.families[cells], self.layers[used]), used


def layers_at(mesh: Mesh, xy: np.ndarray) -> np.ndarray:
    """For each place the layer of the mesh's first node there; that of its first node of all where it has none there."""
    if not mesh.layers.any():
        return np.zeros(len(xy), np.uint32)
    at = {tuple(p): i for i, p in reversed(list(enumerate(mesh.xy.tolist())))}
    return mesh.layers[np.array([at.get(tuple(p), 0) for p in xy.tolist()], np.int64)]


def _pairs(xy: np.ndarray) -> np.ndarray:
    if xy.size == 0:
        return xy.reshape(0, 2)
    if xy.ndim != 2 or xy.shape[1] != 2:
        raise ValueError(f'xy: n x 2 numbers are needed, x and y of each node; these are {" x ".join(map(str, xy.shape)) or "one"}')
    return xy


def _without_negative_zeros(xy: np.ndarray) -> np.ndarray:
    return xy + 0.0 if np.any(np.signbit(xy) & (xy == 0)) else xy


def _flat(cells: Any) -> tuple[np.ndarray, np.ndarray]:
    """All corners in one list, and how many each cell has."""
    if isinstance(cells, np.ndarray) and cells.ndim == 2:
        return _whole(cells.ravel()), np.full(len(cells), cells.shape[1])
    each = [np.asarray(c) for c in cells]
    return _whole(np.concatenate(each) if each else np.zeros(0, int)), np.array([len(c) for c in each], int)


def _whole(corners: np.ndarray) -> np.ndarray:
    taken = corners.astype(np.int64)
    if not np.array_equal(taken, corners):
        raise ValueError('cells: node numbers are whole numbers')
    return taken


def _opened(flat: np.ndarray, counts: np.ndarray) -> tuple[np.ndarray, np.ndarray]:
    """Without the last corner of a cell that repeats its first."""
    ends = np.cumsum(counts)
    some = counts > 1
    closed = np.zeros(len(counts), bool)
    closed[some] = flat[(ends - counts)[some]] == flat[ends[some] - 1]
    return np.delete(flat, ends[closed] - 1), counts - closed


def _check_nodes(flat: np.ndarray, counts: np.ndarray, nodes: int) -> None:
    bad = np.flatnonzero((flat < 0) | (flat >= nodes))
    if bad.size:
        cell = int(np.searchsorted(np.cumsum(counts), bad[0], side='right'))
        raise Refused(5, f'cell {cell} names node {flat[bad[0]]}; there are {nodes} nodes, numbered from 0')


def _kinds(counts: np.ndarray) -> np.ndarray:
    kinds = np.full(len(counts), Kind.PGON)
    for corners, kind in ((2, Kind.SEG2), (3, Kind.TRI3), (4, Kind.QUAD4)):
        kinds[counts == corners] = kind
    return kinds


def entries(counts: np.ndarray, cells: np.ndarray, backwards: Optional[np.ndarray] = None) -> np.ndarray:
    """Where the corners of the cells stand in the flat list, cell by cell; `backwards` says which of all cells are read backwards."""
    starts = np.cumsum(counts) - counts
    many = counts[cells]
    within = np.arange(many.sum()) - np.repeat(np.cumsum(many) - many, many)
    if backwards is not None:
        within = np.where(np.repeat(backwards[cells], many), np.repeat(many, many) - 1 - within, within)
    return np.repeat(starts[cells], many) + within


def following(counts: np.ndarray) -> np.ndarray:
    """For each corner in the flat list the place of the next corner of its cell. Every cell has one."""
    ends = np.cumsum(counts)
    after = np.arange(1, counts.sum() + 1)
    after[ends - 1] = ends - counts
    return after


def _areas(xy: np.ndarray, nodes: np.ndarray, counts: np.ndarray) -> np.ndarray:
    """Signed areas, from each cell's first corner, so that map coordinates do not cancel."""
    areas = np.zeros(len(counts))
    some = counts > 0
    starts = (np.cumsum(counts) - counts)[some]
    if not starts.size:
        return areas
    corners = xy[nodes] - np.repeat(xy[nodes[starts]], counts[some], axis=0)
    after = following(counts[some])
    x, y = corners.T
    areas[some] = np.add.reduceat(x * y[after] - y * x[after], starts) / 2
    return areas


def mesh_of_rings(rings: Sequence[Any], families: Any, kinds: Any = None) -> Mesh:
    """A mesh of outlines, each an array k x 2: corners with equal coordinates are one node, and one corner where they follow each other."""
    if not rings:
        return Mesh.from_cells(np.zeros((0, 2)), [], families)
    outlines = [_without_repeats(np.asarray(r, float)[:, :2] + 0.0) for r in rings]
    xy, numbers = np.unique(np.concatenate(outlines), axis=0, return_inverse=True)
    return Mesh.from_cells(xy, np.split(numbers.reshape(-1), np.cumsum([len(r) for r in outlines])[:-1]), families, kinds)


def _without_repeats(ring: np.ndarray) -> np.ndarray:
    return ring[np.append(True, np.any(ring[1:] != ring[:-1], axis=1))]
