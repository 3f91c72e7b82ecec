#!/usr/bin/env python3
"""pictures.py: makes the pictures of docs/PRACTICE.md anew, from the example of make_example.py."""
import csv
import tempfile
import warnings
from pathlib import Path

import matplotlib
import numpy as np

import daqwimay
import make_example
from daqwimay import picture

PICTURES = Path(__file__).resolve().parents[3] / 'docs' / 'pictures'
SOILS, MARK = ('#e8cf92', '#9ecbe0', '#b9d38f'), '#c8322b'

# Soils as outlines, and the place to look at. The cell is the square from (0, 0) to (10, 10).
UNCLEAN = {
    'a T-junction': ([[(-3, -3), (5, -3), (5, 13), (-3, 13)], [(5, -3), (13, -3), (13, 6), (5, 6)], [(5, 6), (13, 6), (13, 13), (5, 13)]], (5, 6)),
    'traced twice': ([[(-3, -3), (4.4, -3), (5.6, 13), (-3, 13)], [(5.6, -3), (13, -3), (13, 13), (4.4, 13)]], (5, 5)),
    'a lens in one cell': ([[(3, 3), (7, 3), (8, 6), (5, 8), (2, 6)]], (5, 5)),
    'a hole': ([[(-3, -3), (13, -3), (13, 13), (-3, 13)], [(6, 5), (9, 3), (12, 5), (11.5, 8.5), (8, 10.8), (5.5, 8)]], (5.8, 6.5)),
    'a corner beside a node': ([[(-3, -3), (13, -3), (13, 1), (9.6, 9.5), (3, 13), (-3, 13)], [(13, 1), (13, 13), (3, 13), (9.6, 9.5)]], (9.8, 9.75)),
}


def unclean(path: Path) -> None:
    figure, axes = picture.new_figure(len(UNCLEAN), 2.2, 1.0)
    for axis, (title, (outlines, place)) in zip(axes, UNCLEAN.items()):
        for outline, colour in zip(outlines, SOILS):
            axis.fill(*zip(*outline), facecolor=colour, edgecolor='#6a6a6a', linewidth=0.8)
        axis.plot(*zip((0, 0), (10, 0), (10, 10), (0, 10), (0, 0)), color='#222222', linewidth=1.8)
        axis.plot(*place, 'o', markersize=16, markerfacecolor='none', markeredgecolor=MARK, markeredgewidth=1.8)
        axis.set(xlim=(-3.2, 13.2), ylim=(-3.2, 13.2))
        axis.set_title(title, fontsize=9)
        axis.set_aspect('equal')
        axis.set_axis_off()
    picture.save(figure, path)


def recharge(path: Path, strips: daqwimay.Strips, rates: dict) -> None:
    low, high = strips.model.mesh.xy.min(axis=0), strips.model.mesh.xy.max(axis=0)
    figure, axes = picture.new_figure(2, 4.6, float((high - low)[1] / (high - low)[0]))
    scale = matplotlib.cm.ScalarMappable(matplotlib.colors.Normalize(0, max(rates.values())), 'YlGnBu')
    by_soil = np.array([rates[name] for name in strips.names])
    picture.draw_mesh(axes[0], strips.pieces, scale.to_rgba(by_soil[strips.soil]))
    axes[0].set_title('recharge of each strip')
    per_cell = strips.per_cell(rates)
    picture.draw_mesh(axes[1], strips.model.mesh, scale.to_rgba(per_cell[strips.model.mesh.families]))
    axes[1].set_title('and of each cell, mm a year')
    figure.colorbar(scale, ax=axes, shrink=0.7)
    picture.save(figure, path)


def main() -> None:
    warnings.simplefilter('ignore')
    with tempfile.TemporaryDirectory() as folder:
        make_example.make(Path(folder))
        model, soils = daqwimay.read_model(f'{folder}/model.disv'), daqwimay.read_soils(f'{folder}/soils.gpkg')
        with open(f'{folder}/rates.csv') as f:
            rates = {row['soil']: float(row['rate']) for row in csv.DictReader(f)}
    strips = daqwimay.cut(model, soils, grid=0.001)
    picture.draw_strips(PICTURES / 'practice-strips.png', strips)
    picture.draw_strips(PICTURES / 'practice-cells.png', strips, 'cell')
    recharge(PICTURES / 'practice-recharge.png', strips, rates)
    unclean(PICTURES / 'practice-unclean.png')


if __name__ == '__main__':
    main()
