"""Strips and meshes as files, and the table."""
from __future__ import annotations

import csv
import itertools
from pathlib import Path
from typing import Any, Mapping, Optional, TextIO, Union

import numpy as np

from .errors import InputError, extra
from .mesh import Mesh
from .models import MAPS
from .overlaying import Overlay
from .strips import Strips

_DRIVERS = {'.gpkg': 'GPKG', '.shp': 'ESRI Shapefile', '.geojson': 'GeoJSON', '.json': 'GeoJSON', '.fgb': 'FlatGeobuf', '.gml': 'GML'}
_POLYGONS = ('.vtu', '.vtk')             # meshio's formats that hold them
Columns = Mapping[str, np.ndarray]


def write_strips(path: Union[str, Path], strips: Strips, crs: Any = None) -> list[str]:
    """The pieces with the cell that each was cut from, counted as in the model's file, its soil and its area; answers the files written.

    Mesh files hold numbers: there `soil` is a number, and NAME.soils.csv beside the file says which soil it is.
    """
    path = Path(path)
    columns = {'cell': strips.cells() + strips.model.first, 'soil': strips.soil, 'area': strips.areas()}
    if path.suffix.lower() in MAPS:
        columns['soil'] = np.array(strips.names, object)[strips.soil]
        return write_mesh(path, strips.pieces, columns, crs)
    beside = path.with_suffix('.soils.csv')
    with open(beside, 'w', newline='') as f:
        csv.writer(f).writerows([('number', 'soil'), *enumerate(strips.names)])
    return [*write_mesh(path, strips.pieces, columns, crs), str(beside)]


def check_ending(path: Union[str, Path]) -> None:
    """Raises `InputError` where strips can't be written so: to be asked before long work."""
    known = {*_POLYGONS, '.disv', '.nc', *MAPS}
    if Path(path).suffix.lower() not in known:
        raise InputError(f'{path}: strips are written to {", ".join(sorted(known))}')


def write_mesh(path: Union[str, Path], mesh: Mesh, columns: Optional[Columns] = None, crs: Any = None) -> list[str]:
    """A mesh by the file's ending: .disv, .nc (UGRID), a map of polygons, otherwise meshio. Answers the files written.

    Nodes that no cell names are left out. A format that cannot name a reference system gets one beside it, NAME.prj. Layers of nodes, where there are
    others than 0, are point data "layer" in meshio's formats and UGRID, NAME.vertices.csv beside DISV; maps of polygons have no nodes to hold them.
    """
    path, columns = Path(path), columns or {}
    used, numbers = np.unique(mesh.nodes, return_inverse=True)
    mesh = Mesh(mesh.xy[used], numbers.reshape(-1), mesh.ends, mesh.kinds, mesh.families, mesh.layers[used])
    ending = path.suffix.lower()
    if ending in MAPS:
        _write_map(path, mesh, columns, crs)
        return [str(path)]
    if ending == '.nc':
        _write_ugrid(path, mesh, columns, crs)
        return [str(path)]
    beside = []
    if ending == '.disv':
        beside += _write_disv(path, mesh, columns)
    else:
        _write_meshio(path, mesh, columns)
    if crs is not None:
        beside.append(path.with_suffix('.prj'))
        beside[-1].write_text(crs.to_wkt('WKT1_ESRI'))
    return [str(path), *map(str, beside)]


def _write_map(path: Path, mesh: Mesh, columns: Columns, crs: Any) -> None:
    from . import geos
    frame = extra('geopandas', 'files').GeoDataFrame(dict(columns), geometry=geos.polygons(mesh), crs=crs)
    frame.to_file(path, driver=_DRIVERS[path.suffix.lower()])


def _write_meshio(path: Path, mesh: Mesh, columns: Columns) -> None:
    """A block for each count of corners."""
    meshio = extra('meshio', 'files')
    counts, cells = mesh.counts(), mesh.cells()
    groups = [np.flatnonzero(counts == n) for n in np.unique(counts)]
    names = {3: 'triangle', 4: 'quad'}
    blocks = [(names.get(int(counts[g[0]]), 'polygon'), np.array([cells[i] for i in g], np.int64)) for g in groups]
    points = np.column_stack([mesh.xy, np.zeros(len(mesh.xy))])
    told = {'cell_data': {k: [np.asarray(v)[g] for g in groups] for k, v in columns.items()}, 'point_data': {'layer': mesh.layers} if mesh.layers.any() else {}}
    try:
        meshio.Mesh(points, blocks, **told).write(path)
        whole = path.suffix.lower() in _POLYGONS or sum(len(b.data) for b in meshio.read(path).cells) == len(mesh)
    except (meshio.WriteError, meshio.ReadError, SystemExit, KeyError, ValueError):
        whole = False
    if not whole:
        path.unlink(missing_ok=True)
        raise InputError(f'{path}: meshio does not write all these cells so; polygons go to {", ".join(_POLYGONS)}, .disv, .nc, {", ".join(MAPS)}')


def _write_disv(path: Path, mesh: Mesh, columns: Columns) -> list[Path]:
    """The vertices and cells of a MODFLOW 6 DISV package, clockwise as it asks; layers and columns in files beside it, which are answered."""
    lines = ['BEGIN DIMENSIONS', '  NLAY 1', f'  NCPL {len(mesh)}', f'  NVERT {len(mesh.xy)}', 'END DIMENSIONS', '', 'BEGIN VERTICES']
    lines += [f'  {i} {x!r} {y!r}' for i, (x, y) in enumerate(mesh.xy.tolist(), 1)]
    lines += ['END VERTICES', '', 'BEGIN CELL2D']
    for i, corners in enumerate(mesh.cells(), 1):
        x, y = mesh.xy[corners].mean(axis=0).tolist()
        lines.append(f'  {i} {x!r} {y!r} {len(corners)} {" ".join(str(n + 1) for n in corners[::-1])}')
    path.write_text('\n'.join([*lines, 'END CELL2D', '']))
    beside = [_beside(path, '.vertices.csv', 'iv', {'layer': mesh.layers})] if mesh.layers.any() else []
    return beside + ([_beside(path, '.cells.csv', 'icell2d', columns)] if columns else [])


def _beside(path: Path, ending: str, number: str, columns: Columns) -> Path:
    """Columns under a number that counts from 1, in a file of its own."""
    rows = zip(itertools.count(1), *(np.asarray(v).tolist() for v in columns.values()))
    with open(path.with_suffix(ending), 'w', newline='') as f:
        csv.writer(f, lineterminator='\n').writerows([(number, *columns), *rows])
    return path.with_suffix(ending)


def _write_ugrid(path: Path, mesh: Mesh, columns: Columns, crs: Any) -> None:
    counts = mesh.counts()
    faces = np.full((len(mesh), int(counts.max(initial=3))), -1, np.int32)
    faces[np.arange(faces.shape[1]) < counts[:, None]] = mesh.nodes
    with extra('netCDF4', 'files').Dataset(path, 'w') as data:
        for name, size in (('node', len(mesh.xy)), ('face', len(mesh)), ('corner', faces.shape[1])):
            data.createDimension(name, size)
        data.Conventions = 'CF-1.8 UGRID-1.0'
        _put(data, 'mesh2d', np.int32(0), (), cf_role='mesh_topology', topology_dimension=np.int32(2),
             node_coordinates='node_x node_y', face_node_connectivity='face_nodes')
        for name, values in zip(('node_x', 'node_y'), mesh.xy.T):
            _put(data, name, values, ('node',), standard_name=f'projection_{name[-1]}_coordinate')
        if mesh.layers.any():
            _put(data, 'layer', mesh.layers, ('node',), mesh='mesh2d', location='node')
        _put(data, 'face_nodes', faces, ('face', 'corner'), -1, cf_role='face_node_connectivity', start_index=np.int32(0))
        for name, values in columns.items():
            _put(data, name, np.asarray(values), ('face',), mesh='mesh2d', location='face')
        if crs is not None:
            _put(data, 'crs', np.int32(0), (), crs_wkt=crs.to_wkt())


def _put(data: Any, name: str, values: Any, dimensions: tuple, fill: Any = None, **attributes: Any) -> None:
    variable = data.createVariable(name, np.asarray(values).dtype, dimensions, fill_value=fill)
    variable[...] = values
    variable.setncatts(attributes)


def write_table(file: TextIO, strips: Strips) -> int:
    """cell, soil, area, share as CSV; answers the count of rows."""
    table = strips.table()
    rows = list(zip(table['cell'].tolist(), table['soil'].tolist(), table['area'].tolist(), table['share'].tolist()))
    csv.writer(file, lineterminator='\n').writerows([tuple(table), *rows])
    return len(rows)


def write_stakes(file: TextIO, pieces: Overlay) -> int:
    """x, y and tolerance of each new point as CSV, in metres, and its layer where there are others than 0; answers the count of rows."""
    stakes = pieces.stakes()
    rows = [(x, y, pieces.tolerance) for x, y in pieces.xy[stakes].tolist()]
    head = ('x', 'y', 'tolerance')
    if pieces.layers.any():
        head, rows = (*head, 'layer'), [(*row, layer) for row, layer in zip(rows, pieces.layers[stakes].tolist())]
    csv.writer(file, lineterminator='\n').writerows([head, *rows])
    return len(rows)
