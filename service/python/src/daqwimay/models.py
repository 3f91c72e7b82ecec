"""Models as files: MODFLOW 6 DISV, UGRID, polygons of a map, and what meshio reads."""
from __future__ import annotations

import re
from dataclasses import dataclass
from pathlib import Path
from typing import Any, Callable, Iterator, NamedTuple, Optional, Union

import numpy as np

from .errors import InputError, extra
from .mesh import Mesh, mesh_of_rings

MAPS = ('.geojson', '.json', '.gpkg', '.shp', '.fgb', '.gml')
_FLAT = ('triangle', 'quad', 'polygon')
_SKIPPED = ('vertex', 'line')
_NAMED = 5              # layers in a note


@dataclass
class Model:
    """A mesh with what its file says beside it. Families are the cells' places in the file, from 0."""

    mesh: Mesh
    source: str = 'model'
    crs: Any = None                 #: a pyproj.CRS, or None where the file names none
    first: int = 0                  #: the number of the file's first cell: 1 in DISV
    notes: tuple[str, ...] = ()     #: what reading did

    def __post_init__(self) -> None:
        if not np.array_equal(np.sort(self.mesh.families), np.arange(len(self.mesh))):
            raise ValueError('a model\'s families are the places of its cells, 0, 1, .., each once: leave them to Mesh.from_cells')

    def number(self, cell: int) -> int:
        """What a cell of the mesh is called in the file."""
        return int(self.mesh.families[cell]) + self.first


def read_model(path: Union[str, Path], crs: Optional[str] = None, layer: Optional[str] = None) -> Model:
    """By the file's ending: .disv, .nc (UGRID), a map of polygons (.gpkg, .shp, .geojson), otherwise meshio (.vtu, .vtk, .msh ..).

    A file that names no reference system may have one beside it: model.prj beside model.vtu. `crs` goes before both.
    """
    path = Path(path)
    if not path.is_file():
        raise InputError(f'{path}: no such file')
    model = read_polygons(path, layer) if path.suffix.lower() in MAPS else _reader(path)(path)
    if not len(model.mesh):
        raise InputError(f'{path}: no cells')
    _weld(model)
    if model.mesh.layers.any():
        layers = np.unique(model.mesh.layers)
        model.notes += (f'layers of nodes: {", ".join(map(str, layers[:_NAMED]))}' + (' ..' if len(layers) > _NAMED else ''),)
    beside = path.with_suffix('.prj')
    if crs or (model.crs is None and beside.is_file()):
        model.crs = crs_of(crs or beside.read_text(), str(path))
    return model


def _weld(model: Model) -> None:
    """Nodes of equal coordinates and one layer are made one: some files give each cell nodes of its own, and neighbours have to share theirs."""
    mesh, used = model.mesh, np.unique(model.mesh.nodes)
    _, first, numbers = np.unique(np.column_stack([mesh.xy, mesh.layers])[used], axis=0, return_index=True, return_inverse=True)
    if len(first) < len(used):
        one = np.arange(len(mesh.xy))
        one[used] = used[first[numbers.reshape(-1)]]
        mesh.nodes = one[mesh.nodes].astype(np.uint32)
        model.notes += (f'{len(used) - len(first):,} nodes made one with others of equal coordinates',)


def _layers(values: Any, many: int, source: str) -> Any:
    """A file's layers of nodes, 0 where it has none."""
    if values is None:
        return 0
    layers = np.asarray(values)
    if layers.shape != (many,) or not np.all((layers >= 0) & (layers < 2 ** 32) & (layers % 1 == 0)):
        raise InputError(f'{source}: "layer" of the nodes is a whole number from 0 to 4,294,967,295 for each')
    return layers.astype(np.uint32)


def _reader(path: Path) -> Callable[[Path], Model]:
    ending = path.suffix.lower()
    if ending == '.grb':
        raise InputError(f'{path}: a binary grid file is not read; give the text file of the DISV package')
    return {'.disv': read_disv, '.nc': read_ugrid}.get(ending, read_meshio)


def crs_of(words: Any, source: str) -> Any:
    """A reference system from a name ("EPSG:28992"), a number or WKT."""
    pyproj = extra('pyproj', 'files')
    try:
        return pyproj.CRS.from_user_input(words)
    except pyproj.exceptions.CRSError as e:
        raise InputError(f'{source}: no reference system "{str(words)[:60]}" ({str(e)[:80]})') from e


class _Line(NamedTuple):
    """A line of a DISV file."""

    source: str
    number: int
    words: list[str]

    def fail(self, why: str) -> InputError:
        return InputError(f'{self.source}, line {self.number}: {why}')

    def take(self, at: int, kind: Callable[[str], Any]) -> Any:
        """The word at a place as a number, in Python's or Fortran's writing."""
        try:
            return kind(self.words[at].upper().replace('D', 'E'))
        except (IndexError, ValueError):
            raise self.fail(f'a number is needed as word {at + 1} of "{" ".join(self.words)[:60]}"') from None


def read_disv(path: Path) -> Model:
    """The vertices and cells of a MODFLOW 6 DISV package, with its origin and rotation; its cells are clockwise."""
    blocks: dict[str, list[_Line]] = {}
    for block, line in _disv_lines(path):
        blocks.setdefault(block, []).append(line)
    for block in ('vertices', 'cell2d'):
        if block not in blocks:
            raise InputError(f'{path}: no {block.upper()} block: is this the text file of a DISV package?')
    places = {line.take(0, int): (line.take(1, float), line.take(2, float)) for line in blocks['vertices']}
    at = {name: i for i, name in enumerate(places)}
    cells = [_disv_cell(line, at) for line in blocks['cell2d']]
    options = {line.words[0].lower(): line for line in blocks.get('options', [])}
    xy, notes = _placed(np.array(list(places.values())), options)
    crs = crs_of(' '.join(options['crs'].words[1:]), str(path)) if 'crs' in options else None
    return Model(Mesh.from_cells(xy, cells), str(path), crs, 1, notes)


def _disv_lines(path: Path) -> Iterator[tuple[str, _Line]]:
    """The lines inside blocks, without comments."""
    block = ''
    for number, text in enumerate(path.read_text(errors='replace').splitlines(), 1):
        words = re.split(r'[#!]|//', text)[0].replace(',', ' ').split()
        line = _Line(str(path), number, words)
        if not words:
            continue
        if words[0].lower() in ('begin', 'end'):
            block = words[1].lower() if words[0].lower() == 'begin' and len(words) > 1 else ''
        elif words[0].lower() == 'open/close' and block in ('vertices', 'cell2d'):
            raise line.fail('a block in a file of its own is not read; put its lines here')
        elif block:
            yield block, line


def _disv_cell(line: _Line, at: dict[int, int]) -> list[int]:
    names = [line.take(4 + i, int) for i in range(line.take(3, int))]
    for name in names:
        if name not in at:
            raise line.fail(f'vertex {name} is not among the VERTICES')
    return [at[name] for name in names]


def _placed(xy: np.ndarray, options: dict[str, _Line]) -> tuple[np.ndarray, tuple[str, ...]]:
    """Model coordinates on the map: turned by ANGROT, then moved by XORIGIN and YORIGIN."""
    x0, y0, angle = (options[k].take(1, float) if k in options else 0.0 for k in ('xorigin', 'yorigin', 'angrot'))
    if not (x0 or y0 or angle):
        return xy, ()
    c, s = np.cos(np.radians(angle)), np.sin(np.radians(angle))
    return xy @ np.array([[c, s], [-s, c]]) + [x0, y0], (f'moved to its origin ({x0:.10g}, {y0:.10g}), turned by {angle:g} degrees',)


def read_meshio(path: Path) -> Model:
    """Triangles, quadrilaterals and polygons of a mesh file; z is left out, point data "layer" are the nodes' layers."""
    meshio = extra('meshio', 'files')
    try:
        mesh = meshio.read(path)
    except (meshio.ReadError, SystemExit, ValueError, KeyError, OSError, SyntaxError) as e:
        raise InputError(f'{path}: meshio does not read it ({e}); endings read here: .disv, .nc, {", ".join(MAPS)}, and meshio\'s') from e
    solid = {b.type for b in mesh.cells if not b.type.startswith(_FLAT + _SKIPPED) or b.type[-1:].isdigit()}
    if solid:
        raise InputError(f'{path}: cells of kind {", ".join(sorted(solid))}; a flat mesh of triangles, quadrilaterals or polygons is needed')
    cells = [cell for b in mesh.cells if b.type in _FLAT for cell in b.data]
    skipped = sum(len(b.data) for b in mesh.cells if b.type in _SKIPPED)
    notes = (f'{skipped} lines and points left out',) if skipped else ()
    layers = _layers(mesh.point_data.get('layer'), len(mesh.points), str(path))
    return Model(Mesh.from_cells(mesh.points[:, :2], cells, layers=layers), str(path), None, 0, notes)


def read_polygons(path: Path, layer: Optional[str] = None) -> Model:
    """A model's cells as polygons of a map: corners of equal coordinates are one node."""
    from . import soils
    frame = soils.read_frame(path, layer)
    shapes = list(frame.geometry)
    for i, shape in enumerate(shapes):
        if shape is None or shape.geom_type != 'Polygon' or shape.interiors:
            raise InputError(f'{path}: feature {i} is no polygon without holes, so it is no cell')
    rings = [np.asarray(s.exterior.coords) for s in shapes]
    return Model(mesh_of_rings(rings, None), str(path), soils.frame_crs(frame, path))


def read_ugrid(path: Path) -> Model:
    """The faces of a UGRID mesh (netCDF); a variable "layer" of its nodes is their layers."""
    with _dataset(path) as data:
        topology = [v for v in data.variables.values()
                    if getattr(v, 'cf_role', '') == 'mesh_topology' and int(getattr(v, 'topology_dimension', 0)) == 2]
        if not topology:
            raise InputError(f'{path}: no variable with cf_role "mesh_topology" and topology_dimension 2, so no UGRID mesh of faces')
        names = topology[0].node_coordinates.split()
        xy = np.column_stack([np.asarray(data[n][:], float) for n in names])
        faces = data[topology[0].face_node_connectivity]
        start = int(getattr(faces, 'start_index', 0))
        rows = np.ma.filled(np.ma.masked_less(np.ma.asarray(faces[:]), start), -1).astype(np.int64)
        layer = data.variables.get('layer')
        at_nodes = layer is not None and layer.dimensions == data[names[0]].dimensions
        layers = _layers(layer[:] if at_nodes else None, len(xy), str(path))
        crs = _grid_mapping(data, str(path))
    return Model(Mesh.from_cells(xy, [row[row >= 0] - start for row in rows], layers=layers), str(path), crs)


def _dataset(path: Path) -> Any:
    try:
        return extra('netCDF4', 'files').Dataset(path)
    except OSError as e:
        raise InputError(f'{path}: not a netCDF file ({e})') from e


def _grid_mapping(data: Any, source: str) -> Any:
    """The reference system of a netCDF file, where a variable has one."""
    for variable in data.variables.values():
        for name in ('crs_wkt', 'spatial_ref', 'EPSG_code', 'epsg'):
            if getattr(variable, name, None):
                return crs_of(getattr(variable, name) if name != 'epsg' else int(variable.epsg), source)
    return None
