"""A picture of the model's cells and of the strips."""
from __future__ import annotations

from pathlib import Path
from typing import Any, Sequence, Union

import numpy as np

from .errors import InputError, extra
from .mesh import Mesh
from .strips import Strips

COLOURS = ('#e8cf92', '#d49a74', '#9ecbe0', '#b9d38f', '#b09bc8', '#e3a9ae', '#8fc1ab', '#c9c3b4', '#a8b5dd', '#d8b0d0')
_NAMED = 12             # soils in the legend
_LINE = '#3a3a3a'


def draw_strips(path: Union[str, Path], strips: Strips, by: str = 'soil') -> None:
    """Left the model's cells, right the strips, coloured by soil, or, with `by` "cell", each as the cell that it was cut from."""
    mesh, pieces = strips.model.mesh, strips.pieces
    low, high = mesh.xy.min(axis=0), mesh.xy.max(axis=0)
    figure, axes = new_figure(2, shape=float((high - low)[1] / (high - low)[0]))
    cells = ['#f4f1ea'] * len(mesh) if by == 'soil' else [COLOURS[c] for c in apart(mesh)]
    draw_mesh(axes[0], mesh, cells)
    axes[0].set_title(f'{len(mesh):,} cells')
    draw_mesh(axes[1], pieces, [COLOURS[s % len(COLOURS)] for s in strips.soil] if by == 'soil' else [cells[c] for c in pieces.parent_cells])
    axes[1].set_title(f'{len(pieces):,} pieces' + ('' if by == 'soil' else ', in the colours of their cells'))
    if by == 'soil':
        present = np.flatnonzero(np.bincount(strips.soil, minlength=len(strips.names)))
        legend(axes[1], [(strips.names[i], COLOURS[i % len(COLOURS)]) for i in present])
    save(figure, path)


def apart(mesh: Mesh) -> list[int]:
    """A colour for each cell, another one than those of the cells before it that have a node in common with it, as far as colours go."""
    around: dict[int, set[int]] = {}
    found: list[int] = []
    for corners in mesh.cells():
        seen = [around.setdefault(n, set()) for n in corners.tolist()]
        taken = set().union(*seen)
        found.append(next((c for c in range(len(COLOURS)) if c not in taken), len(found) % len(COLOURS)))
        for colours in seen:
            colours.add(found[-1])
    return found


def check_ending(path: Union[str, Path]) -> None:
    """Raises `InputError` where no picture can be made: to be asked before long work."""
    known = extra('matplotlib.backend_bases', 'plots').FigureCanvasBase.get_supported_filetypes()
    if Path(path).suffix.lower().lstrip('.') not in known:
        raise InputError(f'{path}: a picture is written to .{", .".join(sorted(known))}')


def new_figure(panels: int, size: float = 4.6, shape: float = 1.0) -> tuple[Any, Sequence[Any]]:
    """Panels side by side; `shape` is what they show, height by width."""
    extra('matplotlib', 'plots').use('Agg')
    plt = extra('matplotlib.pyplot', 'plots')
    figure, axes = plt.subplots(1, panels, figsize=(size * panels, size * min(max(shape, 0.3), 2.0) + 0.5), squeeze=False, constrained_layout=True)
    return figure, list(axes[0])


def draw_mesh(axis: Any, mesh: Mesh, colours: Sequence[Any], width: float = 0.0) -> None:
    """Cells filled with their colours. Lines are thinner where cells are many."""
    collections = extra('matplotlib.collections', 'plots')
    width = width or float(np.clip(20 / max(len(mesh), 1) ** 0.5, 0.1, 0.7))
    rings = [mesh.xy[c] for c in mesh.cells()]
    axis.add_collection(collections.PolyCollection(rings, facecolors=list(colours), edgecolors=_LINE, linewidths=width))
    axis.autoscale_view()
    axis.set_aspect('equal')
    axis.ticklabel_format(useOffset=False, style='plain')
    axis.tick_params(labelsize=7)


def legend(axis: Any, named: Sequence[tuple[str, str]]) -> None:
    patches = extra('matplotlib.patches', 'plots')
    handles = [patches.Patch(facecolor=c, edgecolor=_LINE, label=n) for n, c in named[:_NAMED]]
    title = f'{_NAMED} of {len(named)} soils' if len(named) > _NAMED else None
    axis.legend(handles=handles, title=title, loc='upper left', bbox_to_anchor=(1.0, 1.0), fontsize=8, frameon=False)


def save(figure: Any, path: Union[str, Path]) -> None:
    figure.savefig(path, dpi=90, bbox_inches='tight')
    extra('matplotlib.pyplot', 'plots').close(figure)
