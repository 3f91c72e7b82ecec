"""Models beyond the limits of one call, cut in chunks of cells that lie together."""
from __future__ import annotations

from typing import Callable, Optional, Union

import numpy as np

from ._library import Settings
from .mesh import MOST_CELLS, MOST_CORNERS_OF_MESH, MOST_NODES, Mesh, entries, following
from .overlaying import Operation, Overlay, overlay, settings_of
from .parts import triangles
from .refusals import Refused
from .survey import tolerance

CHUNK = 4_096               # cells: a call's time grows faster than its cells
Progress = Callable[[int, int], None]

_SUBJECT_ONLY = (Operation.IMPRINT, Operation.INTERSECTION, Operation.DIFFERENCE, Operation.LINES)


def overlay_in_chunks(subject: Mesh, cutter: Mesh, operation: Union[Operation, str, int] = Operation.IMPRINT, *, chunk: int = CHUNK,
                      survey_grid: Optional[int] = None, parts: bool = False, progress: Optional[Progress] = None) -> Overlay:
    """The overlay of meshes of any size, for operations that cut the subject alone. Pieces are listed by the subject's cells.

    A chunk is lent with its rim: the earlier cells that have an edge in common with it. So each edge has the direction that it has in
    the whole mesh, and a point where two edges meet has the same bits in every chunk: points of equal bits and of one layer are one node. Chunks are
    halved where a limit of the library asks for it. A refused cell is named. `progress` is told how many cells are done, of how many.
    With a survey grid the rim is all cells around the chunk, since points that come near each other are put in order by their rounded places.
    Added points that no piece names are left out, whichever chunk found them: `added_points` is `new_points`.

    With `parts` a cell that is cut by too many edges (refusals 9 and 10) is cut in triangles first: its pieces end at their sides too, and
    nodes on its own sides are not those of its neighbours. The triangles' corners that pieces name count as new points too, and `tolerance` is of
    the triangles' sides. `Overlay.parted` has the families of such cells.
    """
    settings = settings_of(operation, survey_grid=survey_grid)
    if settings.operation not in _SUBJECT_ONLY:
        raise ValueError('in chunks: imprint, intersection, difference and lines; the others cut both meshes')
    if chunk < 1:
        raise ValueError(f'a chunk of {chunk} cells: 1 is the least')
    subject.check()
    cutter.check()
    whole = _Whole(subject, cutter, settings, parts)
    waiting, done = [np.arange(len(subject))], 0
    while waiting:
        cells = waiting.pop()
        if len(cells) > chunk or not whole.cut(cells):
            waiting += whole.halves(cells)
            continue
        done += len(cells)
        if progress:
            progress(done, len(subject))
    return whole.joined()


class _Whole:
    """Both meshes, and the pieces made so far."""

    def __init__(self, subject: Mesh, cutter: Mesh, settings: Settings, parts: bool) -> None:
        self.subject, self.cutter, self.settings, self.parts = subject, cutter, settings, parts
        self.boxes, self.cutter_boxes = subject.boxes(), cutter.boxes()
        self.counts = subject.counts()
        self.first = _first_cells(subject, self.counts)
        self.done: list[tuple[Overlay, np.ndarray, np.ndarray]] = []        # an answer, its numbers in all, its cells in all
        self.parted: list[int] = []

    def cut(self, cells: np.ndarray) -> bool:
        """Cuts a chunk; false where it has to be halved."""
        if not len(cells):
            return True
        near = cells if self.settings.survey_grid is None else self._around(cells)
        try:
            self._lend(np.union1d(near, self.first[entries(self.counts, near)]), cells)
        except Refused as e:
            if len(cells) > 1:
                return False
            self._alone(cells, e)
        return True

    def _around(self, cells: np.ndarray) -> np.ndarray:
        """The cells and those that have a node in common with them."""
        theirs = np.zeros(len(self.subject.xy), bool)
        theirs[self.subject.nodes[entries(self.counts, cells)]] = True
        return np.unique(np.repeat(np.arange(len(self.counts)), self.counts)[theirs[self.subject.nodes]])

    def _alone(self, cell: np.ndarray, refused: Refused) -> None:
        """One cell that is refused with its rim: the refusal is its own, or that of a cell that comes by itself."""
        try:
            self._lend(cell, cell)
        except Refused as e:
            if self.parts and e.number in (9, 10) and self._in_parts(int(cell[0])):
                return
            x, y = self.boxes[cell[0]].reshape(2, 2).mean(axis=0)
            family = int(self.subject.families[cell[0]])
            raise Refused(e.number, f'the cell of family {family}, around ({x:.10g}, {y:.10g})', family) from refused

    def _in_parts(self, cell: int) -> bool:
        """Cuts a cell in triangles, in as many as it takes; false where that is no way."""
        corners = self.subject.nodes[entries(self.counts, np.array([cell]))].astype(np.int64)
        for mesh in triangles(self.subject.xy[corners], self.settings.survey_grid):
            layers = self.subject.layers[corners]
            mesh.layers = np.append(layers, np.repeat(layers[:1], len(mesh.xy) - len(corners)))
            try:
                self._place(mesh, np.append(corners, np.full(len(mesh.xy) - len(corners), -1)), np.full(len(mesh), cell))
            except Refused:
                continue
            self.parted.append(cell)
            return True
        return False

    def _lend(self, lent: np.ndarray, own: np.ndarray) -> None:
        part, nodes = self.subject.take(lent)
        self._place(part, nodes, np.where(np.isin(lent, own), lent, -1))

    def _place(self, part: Mesh, nodes: np.ndarray, cells: np.ndarray) -> None:
        """Cuts a mesh whose nodes have these numbers in the whole, -1 for none, and whose cells belong to these, -1 for a rim."""
        low, high = part.xy.min(axis=0), part.xy.max(axis=0)
        b = self.cutter_boxes
        near = np.flatnonzero((b[:, :2] <= high).all(axis=1) & (b[:, 2:] >= low).all(axis=1))
        by, by_nodes = self.cutter.take(near)
        if _too_large(part) or _too_large(by):
            raise Refused(2)
        answer = overlay(part, by, self.settings.operation, survey_grid=self.settings.survey_grid)
        numbers = np.concatenate([nodes, len(self.subject.xy) + by_nodes, np.full(answer.added_points, -1)])
        self.done.append((answer, numbers, cells))

    def halves(self, cells: np.ndarray) -> list[np.ndarray]:
        """Parted across the longer side of their box; the half that is taken next comes last."""
        centres = self.boxes[cells].reshape(-1, 2, 2).mean(axis=1)
        order = np.argsort(centres[:, int(np.argmax(np.ptp(centres, axis=0)))], kind='stable')
        middle = len(cells) // 2
        return [np.sort(cells[order[middle:]]), np.sort(cells[order[:middle]])]

    def joined(self) -> Overlay:
        """The pieces of all chunks under numbers of the whole, rims left out."""
        known, many = len(self.subject.xy) + len(self.cutter.xy), 0
        parts: list[tuple[np.ndarray, ...]] = [(np.zeros((0, 3)), *[np.zeros(0, np.int64)] * 4)]
        for answer, numbers, lent in self.done:
            cells, fresh = lent[answer.parent_cells], numbers < 0
            own = cells >= 0
            numbers = np.where(fresh, known + many + np.cumsum(fresh) - 1, numbers)
            many += np.count_nonzero(fresh)
            corners = numbers[answer.nodes[np.repeat(own, answer.counts())]]
            points = np.column_stack([answer.xy, answer.layers])[fresh]
            parts.append((points, corners, answer.counts()[own], answer.kinds[own], cells[own]))
        return self._listed(known, *(np.concatenate(p) for p in zip(*parts)))

    def _listed(self, known: int, points: np.ndarray, corners: np.ndarray, counts: np.ndarray, kinds: np.ndarray, cells: np.ndarray) -> Overlay:
        """In the order of the subject's cells; added points, x, y and layer, of equal bits one node, those that no piece names left out."""
        order = np.argsort(cells, kind='stable')
        corners = corners[entries(counts, order)]
        fresh = corners >= known
        used, numbers = np.unique(points[corners[fresh] - known], axis=0, return_inverse=True)
        corners[fresh] = known + numbers.reshape(-1)
        layers = np.concatenate([self.subject.layers, self.cutter.layers, used[:, 2].astype(np.uint32)])
        found = Overlay(np.concatenate([self.subject.xy, self.cutter.xy, used[:, :2]]), corners, np.cumsum(counts[order]), kinds[order],
                        self.subject.families[cells[order]], np.zeros(len(cells), np.uint32), cells[order], layers)
        found.new_points = found.added_points = len(used)
        found.tolerance = max([tolerance(self.subject, self.settings.survey_grid), *(answer.tolerance for answer, _, _ in self.done)])
        found.parted = self.subject.families[np.array(self.parted, np.int64)]
        return found


def _first_cells(mesh: Mesh, counts: np.ndarray) -> np.ndarray:
    """For each corner the first cell that has the edge from it to the next corner, in either direction."""
    a = mesh.nodes.astype(np.int64)
    b = a[following(counts)]
    _, first, same = np.unique(np.minimum(a, b) * (len(mesh.xy) + 1) + np.maximum(a, b), return_index=True, return_inverse=True)
    cells = np.repeat(np.arange(len(mesh)), counts)
    return cells[first[same]]


def _too_large(mesh: Mesh) -> bool:
    return len(mesh.xy) > MOST_NODES or len(mesh) > MOST_CELLS or mesh.nodes.size > MOST_CORNERS_OF_MESH
