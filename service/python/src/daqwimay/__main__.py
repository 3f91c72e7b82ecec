"""The command `daqwimay`: from a practice's files to strips, a table and a picture."""
from __future__ import annotations

import argparse
import sys
import time
import warnings
from pathlib import Path
from typing import Any, Callable, Optional, Sequence, TextIO

import numpy as np

from . import __version__, models, picture, program, soils, strips as made, writing
from .errors import InputError, NotClean, Problem
from .mesh import Kind, Mesh
from .models import Model
from .overlaying import Overlay
from .refusals import Refused, markdown
from .soils import SoilMap
from .strips import Strips
from .survey import FINEST_GRID, survey_grid_said, tolerance_said

FAILED, UNREAD = 1, 2
_SOILS = 40             # in the table on standard error

_EXAMPLES = """\
examples:
  daqwimay cut model.disv soils.gpkg --soil code -o strips.vtu --table recharge.csv --picture strips.png
  daqwimay cut model.vtu soils.geojson --grid 0.001 --table -        clean the map on a grid of 1 mm first
  daqwimay cut model.vtu soils.geojson --survey-grid 3 -o strips.vtu book new points on multiples of 1/8 metre
  daqwimay cut model.vtu soils.geojson --survey-grid 10 --stakes -   the new points, and how far each may be off
  daqwimay check model.disv soils.shp                                what is not clean, and where
  daqwimay info model.disv soils.gpkg                                what is in the files
  daqwimay explain input.in                                          what `(unread)` or `(refused N)` of the program mean

exit status: 0 done; 1 refused, or a model or map that is not clean (the places are named, nothing is written);
             2 a file or an option that nothing can be made of
"""


def main(arguments: Optional[Sequence[str]] = None) -> int:
    options = _parser().parse_args(arguments)
    warnings.simplefilter('ignore')         # those of the readers' libraries; ours are words on standard error
    try:
        return options.run(options)
    except (Refused, NotClean) as e:
        say(f'daqwimay: {e}')
        return FAILED
    except (InputError, OSError) as e:
        say(f'daqwimay: {e}')
        return UNREAD
    except KeyboardInterrupt:
        say('daqwimay: stopped')
        return 130


def say(words: str) -> None:
    print(words, file=sys.stderr, flush=True)


def _parser() -> argparse.ArgumentParser:
    shape = argparse.RawDescriptionHelpFormatter
    parser = argparse.ArgumentParser('daqwimay', description='Cuts the cells of a model along the outlines of a soil map.', epilog=_EXAMPLES,
                                     formatter_class=shape)
    parser.add_argument('--version', action='version', version=f'daqwimay {__version__}')
    sub = parser.add_subparsers(dest='command', required=True, metavar='COMMAND')

    def command(name: str, run: Callable[[argparse.Namespace], int], words: str) -> argparse.ArgumentParser:
        p = sub.add_parser(name, help=words, description=words[0].upper() + words[1:] + '.', epilog=_EXAMPLES, formatter_class=shape)
        p.set_defaults(run=run)
        return p

    _cut_options(command('cut', _cut, 'cut the cells of a model along a soil map'))
    _map_options(command('check', _check, 'say what is not clean in a model and a map, and where'), '?')
    command('info', _info, 'say what is in files').add_argument('files', nargs='+', metavar='FILE')
    explain = command('explain', _explain, 'say what the program `overlay_main` means by its answer to a text')
    explain.add_argument('input', metavar='INPUT.in', help='the text given to the program; - for standard input')
    explain.add_argument('output', metavar='OUTPUT.out', nargs='?', help='what the program printed, to be held to it')
    command('refusals', _refusals, 'print the table of refusals, their causes and cures')
    return parser


def _map_options(p: argparse.ArgumentParser, soils: Any = None) -> None:
    p.add_argument('mesh', metavar='MESH', help='the model: .disv, .nc (UGRID), .vtu, .vtk .. (meshio), or a map of its cells')
    p.add_argument('soils', metavar='SOILS', nargs=soils, help='the map: .gpkg, .shp, .geojson ..')
    p.add_argument('--soil', metavar='ATTRIBUTE', help='the attribute that names the soil (default: "soil", or the only one)')
    p.add_argument('--layer', help='the layer of a map with several; --mesh-layer for a model that is a map')
    p.add_argument('--mesh-layer', metavar='LAYER', help=argparse.SUPPRESS)
    p.add_argument('--mesh-crs', metavar='CRS', help='the model\'s reference system, as EPSG:28992, where its file names none')
    p.add_argument('--soils-crs', metavar='CRS', help='the map\'s reference system, where its file names none')
    p.add_argument('--grid', type=float, metavar='STEP', help='clean the map first on a grid of this step, in the map\'s unit: 0.001 is 1 mm')
    p.add_argument('--survey-grid', type=_survey_grid, metavar='K', help='book new points on multiples of 1/2^K metre, K from 0 to 10 (default: as '
                   'computed); no node of the model and no corner of the map moves for that')
    p.add_argument('--background', metavar='NAME', default='(no soil)', help='a name for what no soil covers (default: "(no soil)")')


def _cut_options(p: argparse.ArgumentParser) -> None:
    _map_options(p)
    p.add_argument('-o', '--output', metavar='STRIPS', help='the strips: .vtu, .vtk, .gpkg, .geojson, .shp, .nc, .disv')
    p.add_argument('--table', metavar='CSV', help='cell, soil, area, share; - for standard output')
    p.add_argument('--stakes', metavar='CSV', help='x and y of each new point, and how far it may be off its cell\'s side in x and in y')
    p.add_argument('--picture', metavar='PNG', help='the model and the strips, drawn: .png, .svg, .pdf')
    p.add_argument('--by', choices=('soil', 'cell'), default='soil', help='colour the picture by soil, or each strip as the cell that it was cut from')


def _survey_grid(words: str) -> int:
    if not words.isdecimal() or int(words) > FINEST_GRID:
        raise argparse.ArgumentTypeError(f'"{words}" is no whole number from 0 to {FINEST_GRID}: new points are booked on multiples of 1/2^K metre')
    return int(words)


class Progress:
    """Words on long work: one line that changes on a terminal, a line every few seconds elsewhere."""

    def __init__(self) -> None:
        self.live = sys.stderr.isatty()
        self.last = time.monotonic()

    def __call__(self, what: str, done: int, of: int) -> None:
        now = time.monotonic()
        if now - self.last < (0.2 if self.live else 5.0):
            return
        self.last = now
        print(f'\r  {what}: {done:,} of {of:,}   ' if self.live else f'  {what}: {done:,} of {of:,}', end='' if self.live else '\n',
              file=sys.stderr, flush=True)

    def end(self) -> None:
        if self.live:
            print('\r' + ' ' * 60 + '\r', end='', file=sys.stderr, flush=True)


def _read_model(options: argparse.Namespace) -> Model:
    model = models.read_model(options.mesh, options.mesh_crs, options.mesh_layer)
    say(_said(model.source, f'{len(model.mesh):,} cells, {len(model.mesh.xy):,} nodes', model.crs, model.notes))
    return model


def _read_soils(options: argparse.Namespace, model: Model) -> SoilMap:
    made.same_crs(model, soils.peek(options.soils, layer=options.layer, crs=options.soils_crs))
    found = soils.read_soils(options.soils, options.soil, layer=options.layer, crs=options.soils_crs, window=made.window_of(model))
    say(_said(found.source, f'{len(found.shapes):,} polygons near the model, {len(found.names):,} soils', found.crs, found.notes))
    return found


def _said(source: str, what: str, crs: Any, notes: Sequence[str]) -> str:
    return '; '.join([f'{source}: {what}', crs.name if crs is not None else 'no reference system named', *notes])


def _cut(options: argparse.Namespace) -> int:
    _check_outputs(options)
    model = _read_model(options)
    found = _read_soils(options, model)
    start = time.monotonic()
    strips = _strips(options, model, found)
    for change in strips.changes:
        say(f'  cleaned: {change}')
    seconds = time.monotonic() - start
    booked = '' if options.survey_grid is None else f' on {survey_grid_said(options.survey_grid)}'
    say(f'{len(strips.pieces):,} pieces, {strips.pieces.new_points:,} new points{booked} ({seconds:.1f} s); every piece is simple and in one soil')
    _say_tolerance(strips.pieces)
    _say_areas(strips)
    _write(options, strips, made.same_crs(model, found))
    return 0


def _strips(options: argparse.Namespace, model: Model, found: SoilMap) -> Strips:
    """Cut and checked, with progress."""
    progress = Progress()
    try:
        return made.cut(model, found, grid=options.grid, survey_grid=options.survey_grid, background=options.background, progress=progress)
    finally:
        progress.end()


def _check_outputs(options: argparse.Namespace) -> None:
    """Before long work: something is to be written, in formats that there are, in folders that are there, over no input."""
    files = [f for f in (options.output, options.table, options.stakes, options.picture) if f]
    if not files:
        raise InputError('nothing to write: give -o, --table, --stakes or --picture (or use `daqwimay check`)')
    if options.table == options.stakes == '-':
        raise InputError('--table and --stakes: one of them can go to standard output')
    paths = [Path(file).resolve() for file in files if file != '-']
    for path in paths:
        if paths.count(path) > 1:
            raise InputError(f'{path.name} is to hold two of the outputs')
    for file in files:
        if file != '-' and not Path(file).resolve().parent.is_dir():
            raise InputError(f'{file}: no such folder')
        if Path(file).resolve() in (Path(options.mesh).resolve(), Path(options.soils).resolve()):
            raise InputError(f'{file} is one of the files that are read')
    if options.output:
        writing.check_ending(options.output)
    if options.picture:
        picture.check_ending(options.picture)


def _say_tolerance(pieces: Overlay) -> None:
    if pieces.new_points:
        parts = ' or their triangles\'' if pieces.parted is not None and len(pieces.parted) else ''
        say(f'  new points are within {tolerance_said(pieces.tolerance)} of their cells\'{parts} sides, in x and in y')


def _say_areas(strips: Strips) -> None:
    """The area of each soil, by the pieces and by GEOS; of many soils the largest."""
    ours = strips.by_soil()
    shown = sorted(np.argsort(-ours, kind='stable')[:_SOILS])
    wide = max(len(strips.names[i]) for i in shown)
    say(f'  {"soil":{wide}}  {"area":>16}  {"by GEOS":>16}')
    for i in shown:
        if ours[i] or strips.by_geos[i]:
            say(f'  {strips.names[i]:{wide}}  {ours[i]:16.3f}  {strips.by_geos[i]:16.3f}')
    if len(shown) < len(ours):
        say(f'  and {len(ours) - len(shown)} smaller ones')
    say(f'  {"all":{wide}}  {ours.sum():16.3f}  {strips.by_geos.sum():16.3f}  (largest difference {abs(ours - strips.by_geos).max():.2g})')


def _write(options: argparse.Namespace, strips: Strips, crs: Any) -> None:
    written = []
    if options.output:
        written += writing.write_strips(options.output, strips, crs)
    written += _written(options.table, lambda f: writing.write_table(f, strips))
    written += _written(options.stakes, lambda f: writing.write_stakes(f, strips.pieces))
    if options.picture:
        picture.draw_strips(options.picture, strips, options.by)
        written.append(options.picture)
    if written:
        say('wrote ' + ', '.join(written))


def _written(path: Optional[str], table: Callable[[TextIO], int]) -> list[str]:
    """A table in a file or on standard output, if it is asked for; answers the files written."""
    if path == '-':
        table(sys.stdout)
    if not path or path == '-':
        return []
    with open(path, 'w', newline='') as f:
        table(f)
    return [path]


def _check(options: argparse.Namespace) -> int:
    from . import defects
    model = _read_model(options)
    if _clockwise(model.mesh):
        print(f'{model.source}: {_clockwise(model.mesh):,} clockwise cells, turned when read')
    problems = [(model.source, p) for p in defects.of_outlines(model.mesh)]
    if options.soils:
        found = _read_soils(options, model)
        problems += [(found.source, p) for p in defects.of_map(found, model.mesh)] if options.grid is None else []
        problems = problems or [('strips', p) for p in _wrong_strips(options, model, found)]
    _print_problems(problems)
    clean = 'clean: every piece is simple and in one soil' if options.soils else 'clean'
    cure = '; `cut --grid 0.001` cleans the map' if options.soils and options.grid is None else ''
    print(f'{len(problems)} places are not clean{cure}' if problems else clean)
    return FAILED if problems else 0


def _clockwise(mesh: Mesh) -> int:
    return 0 if mesh.turned is None else int(np.count_nonzero(mesh.turned))


def _wrong_strips(options: argparse.Namespace, model: Model, found: SoilMap) -> Sequence[Problem]:
    try:
        _strips(options, model, found)
    except NotClean as e:
        return e.problems
    return ()


def _print_problems(found: Sequence[tuple[str, Problem]]) -> None:
    for source, problem in found[:10 * NotClean.SHOWN]:
        print(f'{source}: {problem}')
    if len(found) > 10 * NotClean.SHOWN:
        print(f'and {len(found) - 10 * NotClean.SHOWN} more')


def _info(options: argparse.Namespace) -> int:
    for file in options.files:
        print('\n  '.join(_about_map(Path(file)) if Path(file).suffix.lower() in models.MAPS else _about_model(Path(file))))
    return 0


def _about_model(path: Path) -> list[str]:
    model = models.read_model(path)
    mesh, areas = model.mesh, model.mesh.areas()
    low, high = mesh.xy.min(axis=0), mesh.xy.max(axis=0)
    kinds = ', '.join(f'{(mesh.kinds == k).sum():,} {k.name}' for k in Kind if (mesh.kinds == k).any())
    return [_said(model.source, f'{len(mesh):,} cells ({kinds}), {len(mesh.xy):,} nodes', model.crs, model.notes),
            f'x {low[0]:.10g} to {high[0]:.10g}, y {low[1]:.10g} to {high[1]:.10g}',
            f'area {areas.sum():.10g}, of a cell {areas.min():.6g} to {areas.max():.6g}',
            f'{_clockwise(mesh):,} clockwise cells, numbered from {model.first}']


def _about_map(path: Path) -> list[str]:
    from . import geos
    frame = soils.read_frame(path)
    polygons = [p for s in frame.geometry if s is not None for p in geos.parts(s)]
    x0, y0, x1, y1 = frame.total_bounds
    lines = [_said(str(path), f'{len(frame):,} features, {len(polygons):,} polygons', soils.frame_crs(frame, path), ()),
             f'x {x0:.10g} to {x1:.10g}, y {y0:.10g} to {y1:.10g}',
             f'{sum(bool(p.interiors) for p in polygons):,} polygons with holes, {sum(not p.is_valid for p in polygons):,} that cross themselves, '
             f'at most {max((len(p.exterior.coords) - 1 for p in polygons), default=0):,} corners']
    for column in frame.columns:
        if column != frame.geometry.name:
            values = list(dict.fromkeys(str(v) for v in frame[column]))
            lines.append(f'attribute "{column}": {len(values):,} values, {", ".join(values[:5])}' + (' ..' if len(values) > 5 else ''))
    return lines


def _explain(options: argparse.Namespace) -> int:
    data = sys.stdin.buffer.read() if options.input == '-' else Path(options.input).read_bytes()
    status, words = program.explained(data)
    print(f'{"standard input" if options.input == "-" else options.input}: {words}')
    if options.output and Path(options.output).read_text() != program.answer(data):
        print(f'{options.output} is not the answer to this text: it begins with "{Path(options.output).read_text()[:40].splitlines()[0]}"')
        return FAILED
    return status


def _refusals(options: argparse.Namespace) -> int:
    print(markdown(), end='')
    return 0


if __name__ == '__main__':
    sys.exit(main())
