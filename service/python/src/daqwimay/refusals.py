"""The refusals: what each number means, its likely causes, and what to do. One table, from which every message and page is made."""
from __future__ import annotations

from typing import NamedTuple, Optional


class Refusal(NamedTuple):
    """One row: the numbers are those of docs/01-scope.md."""

    number: int
    name: str
    meaning: str
    causes: tuple[str, ...]
    cure: str


_ROWS = (
    Refusal(1, 'bad operation', 'the operation is above 5, or the meeting limit is not from 1 to 65,536',
            ('a number in the place of an operation\'s name',), 'take an Operation or its name; leave the limit as it is'),
    Refusal(2, 'bad shape', 'the lists of a mesh do not fit together, or the mesh has over 16,384 nodes, 16,384 cells or 65,536 corners',
            ('a model or a map that is too large for one call', 'ends that do not rise to the count of corners', 'a cell without corners',
             'layers, but not one for each node'),
            'large models: overlay_in_chunks, or the command, which does it by itself; otherwise Mesh.from_cells makes the lists'),
    Refusal(3, 'bad coordinate', 'a coordinate is not finite, above 2^40 in size, or -0.0',
            ('NaN or infinity for a node without a place', '-0.0, which arises from -1 * 0.0 or from rounding',
             'a no-data value such as 1e30'), 'Mesh.from_cells takes -0.0; give the other nodes a place'),
    Refusal(4, 'bad kind', 'a kind is unknown, below the one before, or does not fit its count of corners (polygons: 3 to 256)',
            ('cells not sorted by kind', 'a soil outline of over 256 corners', 'lines given to an operation that takes cells, or cells to lines'),
            'Mesh.from_cells sorts; --grid cuts long outlines by seams; lines go with the operation "lines"'),
    Refusal(5, 'bad node', 'a cell names a node that its mesh does not have',
            ('node numbers from 1 instead of from 0', 'a fill value left in the corners'), 'count nodes from 0; leave fill values out'),
    Refusal(6, 'repeated node', 'a cell or a line names a node twice',
            ('an outline that touches itself', 'corners of no distance made one'),
            'cut the outline where it touches itself; --grid does so (a closing corner is dropped by Mesh.from_cells)'),
    Refusal(7, 'short work', 'the working list is too short',
            ('the program\'s text: nodes, corners and the meeting limit of both meshes are over 1,020 together',),
            'a smaller meeting limit or a smaller model; this package makes its lists long enough'),
    Refusal(8, 'many meetings', 'the edges of the two meshes meet more often than the limit allows',
            ('a limit chosen too small', 'over 65,536 meetings: many soil outlines through many cells'),
            'leave the limit out; overlay_in_chunks splits such models until they fit'),
    Refusal(9, 'crowded edge', 'over 256 nodes on one edge',
            ('one long side across hundreds of the other mesh\'s edges, as of a soil drawn with few corners over a fine model',),
            'overlay_in_chunks and the command split the model until it fits; or put corners into long sides'),
    Refusal(10, 'crowded cell', 'over 1,024 entries in the table of one cell: it is cut by too many edges',
            ('soils as the subject and the model as the cutter: a soil over 15 x 15 cells or more',
             'hundreds of soil sides in one cell: an outline drawn far finer than the model'),
            'the model is the subject, the soils cut it (operation 0); the command cuts such a cell in triangles first (overlay_in_chunks with '
            'parts) where it is convex; otherwise simplify the outline, or a finer model there'),
    Refusal(11, 'open cell', 'a cell\'s outline, as cut, does not lead round: its parts run into a node more often than out of it',
            ('corners that lie less than some 1e-8 beside a node or a side of the other mesh, neither one with it nor apart, '
             'as after a calculation',),
            'put the map on a grid: --grid. Clockwise cells, T-junctions and neighbours with nodes of their own are not refused but give '
            'wrong pieces, a line that ends inside a cell gives a piece with a spur: the checks after the call name them'),
    Refusal(12, 'full output', 'an output list is too short',
            ('the program\'s text: over 2,048 pieces or 8,192 corners of pieces',), 'a smaller model; this package lets its lists grow'),
    Refusal(13, 'bad survey grid', 'K of the survey grid, whose steps are 1/2^K metre, is not from 0 to 10',
            ('a step or a number of decimals in the place of K',),
            'K from 0 to 10: 0 for whole metres, 3 for 1/8 metre, 10 for a millimetre; leave it out for no grid'),
    Refusal(19, 'folded cell', 'a cell\'s outline, as cut, runs along itself: it passes between the same two nodes twice, or from a node to itself',
            ('two corners of one outline so close (under 1e-12) to a node of the other mesh that both become that node',
             'a spike or a sliver whose sides are nearer to each other than some 1e-7 of their length, with a corner of the other mesh in it',
             'Union or the symmetric difference of two maps whose corners lie beside each other by less than some 1e-7 of their sides',
             'corners of the two meshes at one place in different layers, in Union and the symmetric difference above all',
             'on a survey grid, a new point that comes beside a node of its side at which two outlines meet'),
            'merge the corners that are nearly one and remove the spike: --grid does so in a soil map; of a model the command and '
            'overlay_in_chunks name the cell; on a survey grid a larger K'),
)

REFUSALS: dict[int, Refusal] = {row.number: row for row in _ROWS}


def refusal(number: int) -> Refusal:
    """The row of a number."""
    return REFUSALS.get(number, Refusal(number, 'unknown', 'a refusal that this package does not know', (), ''))


class Refused(ValueError):
    """The library refuses an overlay. `number` and `refusal` say why, `detail` where, if that is known, `family` in which cell."""

    def __init__(self, number: int, detail: str = '', family: Optional[int] = None) -> None:
        self.number, self.refusal, self.detail, self.family = number, refusal(number), detail, family
        super().__init__(described(self.refusal, detail))

    def __reduce__(self) -> tuple[type, tuple]:
        return type(self), (self.number, self.detail, self.family)


def described(row: Refusal, detail: str = '') -> str:
    """A refusal in a person's words, a line for each part."""
    lines = [f'refused {row.number} ({row.name}): {row.meaning}']
    lines += [f'  {line}' for line in detail.splitlines()]
    lines += ['  likely: ' + '; or '.join(row.causes)] if row.causes else []
    lines += ['  cure: ' + row.cure] if row.cure else []
    return '\n'.join(lines)


def markdown() -> str:
    """The table as docs/PRACTICE.md has it."""
    head = '| | Refused | Likely causes | Cure |\n|---|---|---|---|\n'
    return head + ''.join(f'| {r.number} | {r.meaning} | {"; ".join(r.causes)} | {r.cure} |\n' for r in _ROWS)
