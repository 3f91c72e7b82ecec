"""The text of the program `overlay_main`: read as it reads, answered as it answers, and put in words."""
from __future__ import annotations

import re
import struct
from typing import NamedTuple, Optional

import numpy as np

from ._library import Settings, call
from .mesh import Mesh
from .overlaying import Overlay, answer_of, output_lists
from .refusals import described, refusal
from .survey import survey_grid_said

MOST_BYTES = 65_536
MOST_NODES = MOST_CELLS = 512
MOST_ENTRIES = 2_048
WORK = 16_384                               # numbers in its working list
ROOM = (2_048, 8_192, 2_048)                # nodes, corners and pieces in its output lists
_DECIMAL = r'(0|[1-9][0-9]*)'
_NODE = re.compile(rf'\(node ([0-9a-f]{{16}}) ([0-9a-f]{{16}}) {_DECIMAL}\)')
_CELL = re.compile(rf'\(cell {_DECIMAL} {_DECIMAL}((?: {_DECIMAL})*)\)')
_HEAD = re.compile(rf'\(overlay {_DECIMAL} {_DECIMAL}(?: {_DECIMAL})?')
_HINTS = (
    (re.compile(r'^$'), 'the line is empty'),
    (re.compile(r'\r'), 'it ends in a carriage return, as files from Windows do'),
    (re.compile(r'[^ -~]'), 'it has a tab, or a character beyond plain ASCII'),
    (re.compile(r'^ | $|  | \)'), 'it has a space too many'),
    (re.compile(r'^\(node .*[A-F]'), 'hexadecimal letters are small'),
    (re.compile(r'^\(node \w{16} \w{16}\)$'), 'a node has a layer behind y, 0 where there is one layer alone'),
    (re.compile(r'^\(node \w{16} \w{16} [0+-][0-9]'), 'a number has a sign or a leading zero'),
    (re.compile(r'^\(node '), 'a node is x and y as the bits of f64, 16 hexadecimal digits each, and its layer in decimal, and stands before the cells'),
    (re.compile(r' [0+-][0-9]'), 'a number has a sign or a leading zero'),
)


class Unread(ValueError):
    """A text that the program does not read: the line where reading stops, and why."""

    def __init__(self, line: int, why: str) -> None:
        self.line, self.why = line, why
        super().__init__(f'line {line}: {why}')


class Question(NamedTuple):
    """What a text asks."""

    settings: Settings
    subject: Mesh
    cutter: Mesh


class _Reader:
    def __init__(self, text: str) -> None:
        self.lines, self.at = text.split('\n'), 0

    def match(self, pattern: re.Pattern) -> Optional[re.Match]:
        """The next line where it fits, and then it is past. The text after the last newline is no line."""
        found = pattern.fullmatch(self.lines[self.at]) if self.at < len(self.lines) - 1 else None
        self.at += found is not None
        return found

    def need(self, pattern: re.Pattern, what: str) -> re.Match:
        found = self.match(pattern)
        if found is None:
            raise Unread(self.at + 1, self._why(what))
        return found

    def _why(self, what: str) -> str:
        line = self.lines[self.at]
        if self.at == len(self.lines) - 1:
            return f'{what} is needed, and the text ends' + (' without a newline after its last line' if line else '')
        hint = next((words for pattern, words in _HINTS if pattern.search(line)), '')
        return f'{what} is needed, there is "{line[:60]}"' + (f': {hint}' if hint else '')

    def number(self, digits: str, most: int) -> int:
        """A number of the line that was matched last."""
        if int(digits) > most:
            raise Unread(self.at, f'{digits} is above {most:,}')
        return int(digits)

    def mesh(self) -> Mesh:
        self.need(re.compile(r'\(mesh'), '`(mesh`')
        xy: list[list[float]] = []
        corners: list[int] = []
        ends: list[int] = []
        kinds, families, layers = [], [], []
        while m := self.match(_NODE):
            self._room(len(xy), MOST_NODES, 'nodes')
            xy.append([struct.unpack('>d', bytes.fromhex(h))[0] for h in m.groups()[:2]])
            layers.append(self.number(m[3], 2 ** 32 - 1))
        while m := self.match(_CELL):
            self._room(len(ends), MOST_CELLS, 'cells')
            kinds.append(self.number(m[1], 255))
            families.append(self.number(m[2], 2 ** 32 - 1))
            corners += [self.number(n, 2 ** 32 - 1) for n in m[3].split()]
            self._room(len(corners) - 1, MOST_ENTRIES, 'corners')
            ends.append(len(corners))
        self.need(re.compile(r'\)'), 'a cell or `)`' if ends else 'a node, a cell or `)`')
        return Mesh(xy, corners, ends, kinds, families, layers)

    def _room(self, have: int, most: int, what: str) -> None:
        if have >= most:
            raise Unread(self.at, f'over {most:,} {what} in a mesh')


def read_question(data: bytes) -> Question:
    """What the text asks; `Unread` where the program prints `(unread)`."""
    reader = _Reader(data.decode('latin-1'))
    if len(data) > MOST_BYTES:
        raise Unread(data[:MOST_BYTES].count(b'\n') + 1, f'the text has {len(data):,} bytes, {MOST_BYTES:,} are read')
    head = reader.need(_HEAD, '`(overlay OPERATION LIMIT`, with K behind it where there is a survey grid,')
    settings = Settings(*(reader.number(d, 2 ** 32 - 1) for d in head.groups() if d))
    subject, cutter = reader.mesh(), reader.mesh()
    reader.need(re.compile(r'\)'), 'the last `)`')
    if reader.lines[reader.at:] != ['']:
        raise Unread(reader.at + 1, 'there is text after the end')
    return Question(settings, subject, cutter)


def answer(data: bytes) -> str:
    """What the program prints for a text."""
    try:
        question = read_question(data)
    except Unread:
        return '(unread)\n'
    nodes, corners, pieces = ROOM
    lists = output_lists(nodes, corners, pieces)
    code, counts = call(question.settings, question.subject.lists(), question.cutter.lists(), lists, np.zeros(WORK, np.uint32))
    if code:
        return f'(refused {code})\n'
    return listing(answer_of(lists, len(question.subject.xy) + len(question.cutter.xy), counts))


def listing(overlay: Overlay) -> str:
    """An answer as the program prints it."""
    lines = ['(overlay']
    nodes = zip(overlay.xy.tolist(), overlay.layers.tolist())
    lines += [f'(node {struct.pack(">d", x).hex()} {struct.pack(">d", y).hex()} {layer})' for (x, y), layer in nodes]
    pieces = zip(overlay.kinds, overlay.families, overlay.parent_meshes, overlay.parent_cells, overlay.cells())
    lines += [f'(cell {" ".join(map(str, [*numbers, *corners.tolist()]))})' for *numbers, corners in pieces]
    lines += [f'(count {len(overlay)} {overlay.new_points} {overlay.doubled_cells})', ')', '']
    return '\n'.join(lines)


def explained(data: bytes) -> tuple[int, str]:
    """0 for an answer, 1 for a refusal, 2 for a text that is not read, and what it means in words."""
    try:
        question = read_question(data)
    except Unread as e:
        return 2, f'(unread): {e}'
    printed = answer(data)
    refused = re.fullmatch(r'\(refused (\d+)\)\n', printed)
    if not refused:
        pieces, points, _ = printed.splitlines()[-2].strip('()').split()[1:]
        grid = question.settings.survey_grid
        return 0, f'answered: {pieces} pieces, {points} new points' + ('' if grid is None else f' on {survey_grid_said(grid)}')
    row = refusal(int(refused[1]))
    asked = sum(len(m.xy) + m.nodes.size for m in (question.subject, question.cutter)) + question.settings.limit
    size = f'nodes, corners and the limit are {asked:,} together, the program has room for 1,020' if row.number == 7 else ''
    return 1, described(row, size)
