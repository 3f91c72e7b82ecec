"""What is asked of GEOS, through shapely 1.8 or 2."""
from __future__ import annotations

import ctypes
import logging
import warnings
from typing import Any, Callable, Iterable, Sequence

import numpy as np

from .errors import extra
from .mesh import Mesh

shapely = extra('shapely', 'clean')
geometry = extra('shapely.geometry', 'clean')
ops = extra('shapely.ops', 'clean')
validation = extra('shapely.validation', 'clean')
_NEW = int(shapely.__version__.split('.')[0]) >= 2
logging.getLogger('shapely.geos').setLevel(logging.CRITICAL)       # what it would log is said by our own checks


def parts(shape: Any, kind: str = 'Polygon') -> list[Any]:
    """The polygons (or lines) of any geometry, those inside collections too."""
    if shape.geom_type == kind:
        return [] if shape.is_empty else [shape]
    return [q for p in getattr(shape, 'geoms', ()) for q in parts(p, kind)]


def finder(shapes: Sequence[Any]) -> Callable[[Any], list[int]]:
    """Which of the shapes have a box that meets a geometry's box, in rising order."""
    with warnings.catch_warnings():
        warnings.simplefilter('ignore')         # 1.8 warns that 2 differs
        tree = extra('shapely.strtree', 'clean').STRtree(list(shapes))
    query = tree.query if _NEW else tree.query_items
    return lambda shape: sorted(int(i) for i in query(shape)) if len(shapes) else []


def around(shape: Any, near: float) -> Any:
    """The box of a shape, wider by `near` on every side."""
    x0, y0, x1, y1 = shape.bounds
    return geometry.box(x0 - near, y0 - near, x1 + near, y1 + near)


def noded(lines: Iterable[Any], grid: float) -> list[Any]:
    """The lines cut where they meet, on a grid, by GEOS's snap rounding."""
    flat = [part for line in lines for part in parts(line, 'LineString')]
    many = geometry.MultiLineString([np.asarray(line.coords)[:, :2] for line in flat])
    if _NEW:
        return parts(shapely.unary_union(many, grid_size=grid), 'LineString')
    from shapely.geometry.base import geom_factory
    from shapely.geos import _lgeos, lgeos
    union = _lgeos.GEOSUnaryUnionPrec_r
    union.restype, union.argtypes = ctypes.c_void_p, [ctypes.c_void_p, ctypes.c_void_p, ctypes.c_double]
    return parts(geom_factory(union(lgeos.geos_handle, many._geom, grid)), 'LineString')


def repaired(shape: Any) -> list[Any]:
    """The polygons of an invalid geometry made valid."""
    return [p for p in parts(validation.make_valid(shape)) if p.area > 0]


def prepared(shape: Any) -> Any:
    """The shape made ready for many questions."""
    return extra('shapely.prepared', 'clean').prep(shape)


def why_invalid(ring: np.ndarray) -> str:
    """Why an outline is no simple polygon; empty where it is one."""
    if len(ring) < 3:
        return f'{len(ring)} corners'
    shape = geometry.Polygon(ring)
    return '' if shape.is_valid else validation.explain_validity(shape).split('[')[0]


def polygons(mesh: Mesh) -> list[Any]:
    """The cells as polygons; an empty one for a cell of fewer than three corners."""
    return [geometry.Polygon(mesh.xy[c]) if len(c) > 2 else geometry.Polygon() for c in mesh.cells()]
