"""Soil maps as files: GeoJSON, GeoPackage, shapefile and what geopandas reads."""
from __future__ import annotations

from dataclasses import dataclass, field
from pathlib import Path
from typing import Any, Optional, Sequence, Union

import numpy as np

from .errors import InputError, NotClean, Problem, extra
from .mesh import MOST_CORNERS, Kind, Mesh, mesh_of_rings

Box = tuple[float, float, float, float]


@dataclass
class SoilMap:
    """Polygons, each with the number of its soil."""

    names: list[str]                #: the soils, in order of appearance
    shapes: list[Any]               #: shapely polygons
    soils: list[int]                #: the soil of each polygon: a place in `names`
    source: str = 'map'
    crs: Any = None                 #: a pyproj.CRS, or None where the file names none
    notes: list[str] = field(default_factory=list)      #: what reading did


def read_soils(path: Union[str, Path], attribute: Optional[str] = None, *, layer: Optional[str] = None, crs: Optional[str] = None,
               window: Optional[Box] = None) -> SoilMap:
    """A map's polygons by an attribute that names their soil. Of a large map only what meets the window is read."""
    from . import geos
    path = Path(path)
    frame = read_frame(path, layer, window)
    column = _column(frame, attribute, path)
    result = SoilMap([], [], [], str(path), frame_crs(frame, path, crs))
    number: dict[str, int] = {}
    odd = 0
    for value, shape in zip(frame[column], frame.geometry):
        polygons = geos.parts(shape) if shape is not None else []
        odd += not polygons
        name = '(unnamed)' if value is None or value != value else str(value)
        for polygon in polygons:
            result.soils.append(number.setdefault(name, len(number)))
            result.shapes.append(polygon)
    result.names = list(number)
    if not result.shapes:
        raise InputError(f'{path}: no polygons' + (' where the model lies' if window else ''))
    result.notes += [f'{odd} features without a polygon left out'] if odd else []
    result.notes += ['polygons without a soil are named "(unnamed)"'] if '(unnamed)' in number else []
    return result


def peek(path: Union[str, Path], *, layer: Optional[str] = None, crs: Optional[str] = None) -> SoilMap:
    """A map without its polygons: its reference system, before a long reading."""
    return SoilMap([], [], [], str(path), frame_crs(read_frame(Path(path), layer, rows=1), Path(path), crs))


def read_frame(path: Path, layer: Optional[str] = None, window: Optional[Box] = None, rows: Optional[int] = None) -> Any:
    """A file through geopandas."""
    if not path.exists():
        raise InputError(f'{path}: no such file')
    geopandas = extra('geopandas', 'files')
    try:
        layers = _layers(path)
        if layer is None and len(layers) > 1:
            raise InputError(f'{path}: several layers, choose one with --layer: {", ".join(layers)}')
        return geopandas.read_file(path, layer=layer or 0, bbox=window, rows=rows)
    except InputError:
        raise
    except Exception as e:          # fiona, pyogrio and GDAL have error classes of their own
        raise InputError(f'{path}: geopandas does not read it ({e})') from e


def _layers(path: Path) -> list[str]:
    try:
        return list(extra('fiona', 'files').listlayers(str(path)))
    except InputError:
        return [str(row[0]) for row in extra('pyogrio', 'files').list_layers(path)]


def _column(frame: Any, attribute: Optional[str], path: Path) -> str:
    columns = [str(c) for c in frame.columns if c != frame.geometry.name]
    if attribute is None:
        attribute = columns[0] if len(columns) == 1 else 'soil'
    if attribute not in columns:
        raise InputError(f'{path}: no attribute "{attribute}"; choose one with --soil: {", ".join(columns) or "there is none"}')
    return attribute


def frame_crs(frame: Any, path: Path, crs: Optional[str] = None) -> Any:
    """The reference system; none for a GeoJSON file that names none and whose coordinates are no degrees."""
    from .models import crs_of
    if crs:
        return crs_of(crs, str(path))
    if path.suffix.lower() in ('.geojson', '.json') and len(frame) and frame.crs is not None and frame.crs.is_geographic:
        x0, y0, x1, y1 = frame.total_bounds
        if x0 < -180 or x1 > 180 or y0 < -90 or y1 > 90:
            return None
    return frame.crs


def soil_mesh(soils: SoilMap) -> Mesh:
    """The map as it is, families being soils: for maps that are clean (no holes, at most 256 corners, corners that neighbours share)."""
    problems = unfit(soils.shapes)
    if problems:
        raise NotClean(f'{soils.source}: {len(problems)} polygons cannot be taken as they are', problems, 'clean the map first: --grid 0.001')
    return faces_mesh(soils.shapes, soils.soils)


def unfit(shapes: Sequence[Any]) -> list[Problem]:
    """Polygons that no cell can be."""
    found = []
    for shape in shapes:
        corners, place = len(shape.exterior.coords) - 1, shape.exterior.coords[0]
        if shape.interiors:
            found.append(Problem.at(place, f'a polygon with holes, {len(shape.interiors)} of them'))
        elif corners > MOST_CORNERS:
            found.append(Problem.at(place, f'a polygon of {corners} corners; {MOST_CORNERS} are allowed'))
        elif not shape.is_valid:
            found.append(Problem.at(place, 'a polygon that crosses or touches itself'))
    return found


def faces_mesh(shapes: Sequence[Any], families: Sequence[int]) -> Mesh:
    return mesh_of_rings([np.asarray(s.exterior.coords) for s in shapes], families, Kind.PGON)
