"""Daqwimay: the cells of a mesh cut along the outlines of another, by a library in which every answer is proved.

    import daqwimay
    model = daqwimay.Mesh.from_cells(xy, cells)                 # numpy arrays, cells as lists of node numbers
    soils = daqwimay.Mesh.from_cells(soil_xy, outlines, families=codes, kinds=daqwimay.Kind.PGON)
    pieces = daqwimay.overlay(model, soils)                     # operation 0: the model cut along the soils

Files, cleaning, checks and pictures need the extras: daqwimay.read_model, read_soils, cut; docs/PRACTICE.md shows the way.
"""
from .chunks import overlay_in_chunks
from .errors import InputError, NotClean, Problem
from .mesh import Kind, Mesh, mesh_of_rings
from .models import Model, read_model
from .overlaying import MOST_MEETINGS, Operation, Overlay, overlay
from .refusals import REFUSALS, Refusal, Refused
from .soils import SoilMap, read_soils
from .strips import Strips, cut
from .survey import FINEST_GRID, tolerance, tolerance_said
from .writing import write_mesh, write_stakes, write_strips, write_table

__version__ = '0.1.0'
__all__ = ['FINEST_GRID', 'InputError', 'Kind', 'MOST_MEETINGS', 'Mesh', 'Model', 'NotClean', 'Operation', 'Overlay', 'Problem', 'REFUSALS',
           'Refusal', 'Refused', 'SoilMap', 'Strips', 'cut', 'mesh_of_rings', 'overlay', 'overlay_in_chunks', 'read_model', 'read_soils',
           'tolerance', 'tolerance_said', 'write_mesh', 'write_stakes', 'write_strips', 'write_table']
