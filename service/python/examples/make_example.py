#!/usr/bin/env python3
"""make_example.py FOLDER: writes a model and a soil map as practices have them, made up.

model.disv    432 cells of 45 m, clockwise, in coordinates of their own with an origin and a rotation, as MODFLOW 6 has them
soils.gpkg    four soils in many parts, a river across them, made ground with a pond in it, a clay lens inside one cell; in RD New
              (EPSG:28992). Not clean: a hole, a long outline, outlines that cross themselves by a hair, overlaps, a place without a soil,
              corners that neighbours do not share
rates.csv     recharge of each soil, mm a year
"""
import sys
from pathlib import Path

import geopandas
import numpy as np
from shapely.affinity import translate
from shapely.geometry import LineString, Point, Polygon, box
from shapely.ops import unary_union

X0, Y0 = 155_000.0, 463_000.0
COLUMNS, ROWS, SIDE, TURN = 24, 18, 45.0, 5.0
RATES = {'peat': 210, 'clay': 145, 'sand': 390, 'loam': 280, 'river': 0, 'made ground': 60, 'pond': 0, 'clay lens': 90, '(no soil)': 250}


def nearest(places: np.ndarray, area: Polygon) -> list[Polygon]:
    """For each place what of the area is nearer to it than to the others."""
    found = []
    for i, a in enumerate(places):
        part = area
        for b in np.delete(places, i, axis=0):
            middle, ahead = (a + b) / 2, (a - b) / np.hypot(*(a - b)) * 4000
            side = np.array([-ahead[1], ahead[0]])
            part = part.intersection(Polygon([middle - side, middle + side, middle + side + ahead, middle - side + ahead]))
        found.append(part)
    return found


def soils() -> geopandas.GeoDataFrame:
    """The map, in front first: what lies in two polygons belongs to the first."""
    area = box(-200, -120, 1300, 1080)
    places = np.random.default_rng(11).random((24, 2)) * [1500, 1200] - [200, 120]
    parts = nearest(places, area)
    river = LineString([(-200, 180), (200, 300), (420, 280), (700, 260), (1300, 580)]).buffer(22, 24)
    made, pond = Point(600, 480).buffer(120, 90), Point(600, 480).buffer(30)
    lens = Point(295, 500).buffer(14, 6)             # the middle of cell 248
    rows = [('clay lens', lens), ('pond', pond), ('made ground', made.difference(pond)), ('river', river)]
    dry = area.difference(unary_union([river.buffer(-4), made]))          # the river lies over 4 m of its banks' soils
    for i, name in enumerate(('peat', 'clay', 'sand', 'loam')):
        rows.append((name, unary_union([p for j, p in enumerate(parts) if j % 4 == i and j != 6]).intersection(dry)))
    return geopandas.GeoDataFrame({'soil': [n for n, _ in rows]}, geometry=[translate(g, X0, Y0) for _, g in rows], crs='EPSG:28992')


def disv() -> str:
    """The model, clockwise."""
    def at(i: int, j: int) -> int:
        return j * (COLUMNS + 1) + i + 1
    xy = [(i * SIDE, j * SIDE) for j in range(ROWS + 1) for i in range(COLUMNS + 1)]
    cells = [(at(i, j), at(i, j + 1), at(i + 1, j + 1), at(i + 1, j)) for j in range(ROWS) for i in range(COLUMNS)]
    lines = ['BEGIN OPTIONS', '  LENGTH_UNITS METERS', f'  XORIGIN {X0}', f'  YORIGIN {Y0}', f'  ANGROT {TURN}', 'END OPTIONS', '',
             'BEGIN DIMENSIONS', '  NLAY 1', f'  NCPL {len(cells)}', f'  NVERT {len(xy)}', 'END DIMENSIONS', '', 'BEGIN VERTICES']
    lines += [f'  {i} {x} {y}' for i, (x, y) in enumerate(xy, 1)]
    lines += ['END VERTICES', '', 'BEGIN CELL2D']
    for i, cell in enumerate(cells, 1):
        x, y = np.mean([xy[n - 1] for n in cell], axis=0)
        lines.append(f'  {i} {x} {y} {len(cell)} {" ".join(map(str, cell))}')
    return '\n'.join([*lines, 'END CELL2D', ''])


def make(folder: Path) -> None:
    folder.mkdir(parents=True, exist_ok=True)
    (folder / 'model.disv').write_text(disv())
    soils().to_file(folder / 'soils.gpkg', driver='GPKG')
    (folder / 'rates.csv').write_text('soil,rate\n' + ''.join(f'{soil},{rate}\n' for soil, rate in RATES.items()))


if __name__ == '__main__':
    if len(sys.argv) != 2:
        sys.exit(__doc__)
    make(Path(sys.argv[1]))
