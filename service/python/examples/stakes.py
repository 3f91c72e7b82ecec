#!/usr/bin/env python3
"""stakes.py [K]: two cells of a model and a ditch through them, in national coordinates. Prints each stake with its tolerance, on a survey grid
of 1/2^K metre or on none."""
import sys

import daqwimay

X, Y = 463_000, 5_800_000


def main(survey_grid=None):
    corners = [[X + 100 * i, Y + 100 * j] for j in (0, 1) for i in (0, 1, 2)]
    model = daqwimay.Mesh.from_cells(corners, [[0, 1, 4, 3], [1, 2, 5, 4]])
    ditch = daqwimay.Mesh.from_cells([[X - 10, Y + 10], [X + 217, Y + 90]], [[0, 1]])
    pieces = daqwimay.overlay(model, ditch, 'lines', survey_grid=survey_grid)
    print('x                 y                   in x and in y within')
    for x, y in pieces.xy[pieces.stakes()].tolist():
        print(f'{x:.10f} {y:.10f}  {daqwimay.tolerance_said(pieces.tolerance)}')


main(*map(int, sys.argv[1:2]))
