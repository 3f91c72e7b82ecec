"""The overlay of two meshes."""
from __future__ import annotations

import math
from enum import IntEnum
from operator import index
from typing import Optional, Union

import numpy as np
from numpy.typing import ArrayLike

from ._library import OUTPUT_LISTS, Settings, call, lendable
from .mesh import Mesh
from .refusals import Refused
from .survey import survey_k, tolerance

MOST_MEETINGS = 65_536
_SLOTS = 1_024              # the most in a cell's table: no cell has more corners in its pieces


class Operation(IntEnum):
    """What is kept. Union and symmetric difference cut both meshes, the others the subject."""

    IMPRINT = 0
    UNION = 1
    INTERSECTION = 2
    DIFFERENCE = 3
    SYMMETRIC_DIFFERENCE = 4
    LINES = 5               #: the cutter's cells are of kind SEG2


class Overlay(Mesh):
    """The pieces as a mesh: the subject's nodes, the cutter's, then all points added where edges meet; each piece has its cell's family.
    Lent nodes keep their layers; an added point has that of its subject edge's first node.

    The cell that a piece was cut from, its parent, is `parent_cells` of the mesh `parent_meshes`, counted as in the mesh that was given.
    """

    parent_meshes: np.ndarray   #: uint32: 0 for the subject, 1 for the cutter
    parent_cells: np.ndarray    #: uint32: the index of the cell there, from 0
    new_points: int = 0         #: the added points that at least one piece names, each once: the stakes to order
    added_points: int = 0       #: all added points, with which `xy` ends: more where the operation drops all pieces that name one
    tolerance: float = math.nan     #: how far a new point may be off its subject edge in x, and in y, in metres: see `tolerance`
    doubled_cells: int = 0      #: always 0, since an edge is in a cell's table once; kept for readers of old listings
    parted: Optional[np.ndarray] = None     #: overlay_in_chunks: the families of cells that were cut in triangles first

    def __init__(self, xy: ArrayLike, nodes: ArrayLike, ends: ArrayLike, kinds: ArrayLike, families: ArrayLike,
                 parent_meshes: ArrayLike, parent_cells: ArrayLike, layers: ArrayLike = 0) -> None:
        super().__init__(xy, nodes, ends, kinds, families, layers)
        self.parent_meshes = lendable(parent_meshes, np.dtype(np.uint32), 'parent_meshes')
        self.parent_cells = lendable(parent_cells, np.dtype(np.uint32), 'parent_cells')

    def take(self, cells: np.ndarray) -> tuple[Overlay, np.ndarray]:
        """Some of the pieces, in the order given, with their parents, and which nodes these have: of the added points those that they name."""
        part, nodes = super().take(cells)
        found = Overlay(part.xy, part.nodes, part.ends, part.kinds, part.families, self.parent_meshes[cells], self.parent_cells[cells], part.layers)
        found.new_points = found.added_points = int(np.count_nonzero(nodes >= len(self.xy) - self.added_points))
        found.tolerance = self.tolerance
        return found, nodes

    def stakes(self) -> np.ndarray:
        """The numbers of the new points, rising: rows of `xy`."""
        return np.unique(self.nodes[self.nodes >= len(self.xy) - self.added_points])


def overlay(subject: Mesh, cutter: Mesh, operation: Union[Operation, str, int] = Operation.IMPRINT, *,
            limit: int = MOST_MEETINGS, survey_grid: Optional[int] = None) -> Overlay:
    """Cuts the subject along the cutter's edges. `limit` is the most meetings of edges. Raises `Refused`.

    With `survey_grid` K, from 0 to 10, each coordinate of a new point goes to the nearest multiple of 1/2^K metre, halfway to the even one;
    no other node moves. Points that come nearer to each other than that, or to a corner, may give wrong pieces: `cut` checks them.

    Nodes of the two meshes that lie at one place, nearer than 1e-12, are made one where their layers are equal; edges meet whatever their layers.

    For recharge by soils the model is the subject and the soils are the cutter, with the operation "imprint".
    """
    settings = settings_of(operation, limit, survey_grid)
    points = len(subject.xy) + len(cutter.xy) + settings.limit
    corners = subject.nodes.size + cutter.nodes.size
    work = np.zeros(work_size(points, corners), np.uint32)
    most = _SLOTS * (len(subject) + len(cutter))
    room = min(4 * corners + 256, most)
    while True:
        lists = output_lists(points, room, room)
        code, counts = call(settings, subject.lists(), cutter.lists(), lists, work)
        if code == 0:
            found = answer_of(lists, points - settings.limit, counts)
            found.tolerance = tolerance(subject, settings.survey_grid)
            return found
        if code != 12 or room == most:
            raise Refused(code)
        room = min(4 * room, most)


def settings_of(operation: Union[Operation, str, int], limit: int = MOST_MEETINGS, survey_grid: Optional[int] = None) -> Settings:
    """The settings of a call; refused where there are none such."""
    if not 1 <= index(limit) <= MOST_MEETINGS:
        raise Refused(1, f'the meeting limit is {limit}')
    return Settings(operation_number(operation), index(limit), survey_k(survey_grid))


def operation_number(operation: Union[Operation, str, int]) -> int:
    if not isinstance(operation, str):
        if not 0 <= index(operation) <= max(Operation):
            raise Refused(1, f'the operation is {operation}')
        return index(operation)
    try:
        return Operation[operation.upper().replace(' ', '_').replace('-', '_')]
    except KeyError:
        names = ', '.join(o.name.lower() for o in Operation)
        raise ValueError(f'no operation "{operation}": there are {names}') from None


def work_size(points: int, corners: int) -> int:
    """Numbers in the working list: `points` are the nodes of both meshes and the meeting limit."""
    return 16 * (points + corners) + 64


def output_lists(points: int, corners: int, cells: int) -> list[np.ndarray]:
    """Lists for an answer. What is not written costs no memory: numpy asks the system for zeros."""
    room = {'node': points, 'corner': corners, 'cell': cells}
    return [np.zeros((room[r.per], r.width) if r.width > 1 else room[r.per], r.dtype) for r in OUTPUT_LISTS]


def answer_of(lists: list[np.ndarray], nodes: int, counts: np.ndarray) -> Overlay:
    """What a call wrote, as parts of its lists; `nodes` are those of both meshes."""
    pieces, new_points, doubled, added = map(int, counts)
    ends = lists[[r.name for r in OUTPUT_LISTS].index('ends')]
    used = {'node': nodes + added, 'corner': int(ends[pieces - 1]) if pieces else 0, 'cell': pieces}
    fields = {r.name: a[:used[r.per]] for r, a in zip(OUTPUT_LISTS, lists)}
    found = Overlay(**fields)
    found.new_points, found.doubled_cells, found.added_points = new_points, doubled, added
    return found
