"""Readers and writers: what is written is read again, reference systems are kept."""
import csv
import itertools
import json

import meshio
import geopandas
import numpy as np
import pyproj
import pytest
from shapely.geometry import LineString, MultiPolygon, box

import maps
from daqwimay import InputError, Mesh, Model, cut, read_model, read_soils, write_mesh, write_stakes, write_strips
from daqwimay.strips import _on_grid

RD = pyproj.CRS('EPSG:28992')
MIXED = Mesh.from_cells([[0, 0], [2, 0], [2, 2], [0, 2], [3, 1], [1.2, 3.3], [0.1, 3.1]], [[0, 1, 2, 3], [1, 4, 2], [3, 2, 5, 6], [4, 5, 2]])
FIVE = Mesh.from_cells([[0, 0], [2, 0], [3, 1], [2, 2], [0, 2], [5, 1]], [[0, 1, 2, 3, 4], [1, 5, 2]])


def outlines(mesh):
    """Each cell's corners, from its least one on."""
    found = []
    for c in mesh.cells():
        p = [tuple(q) for q in mesh.xy[c].tolist()]
        k = p.index(min(p))
        found.append(tuple(p[k:] + p[:k]))
    return sorted(found)


@pytest.mark.parametrize('mesh', [MIXED, FIVE], ids=['triangles and quadrilaterals', 'a pentagon'])
@pytest.mark.parametrize('ending', ['.vtu', '.vtk', '.disv', '.nc', '.gpkg', '.geojson', '.shp'])
def test_what_is_written_is_read_again(tmp_path, mesh, ending):
    path = tmp_path / ('mesh' + ending)
    written = write_mesh(path, mesh, {'family': mesh.families.astype(np.int64)}, RD)
    again = read_model(path)
    assert str(path) in written and outlines(again.mesh) == outlines(mesh)
    assert again.crs is not None and again.crs.equals(RD, ignore_axis_order=True) or again.crs.name.replace('_', ' ') == 'RD New'
    assert again.first == (1 if ending == '.disv' else 0)


def test_disv_with_origin_comments_and_fortran_numbers(tmp_path):
    path = tmp_path / 'model.disv'
    path.write_text('''# a model
BEGIN options
  XORIGIN 1000.0
  YORIGIN 2.0D3
  ANGROT 90.0
END options
begin DIMENSIONS
  NCPL 2
end DIMENSIONS
BEGIN VERTICES   ! five of them
  11 0.0 0.0
  12 1.0 0.0
  13 1.0D+0, 1.0
  14 0.0 1.0
  15 2.0 0.5
END VERTICES
BEGIN CELL2D
  1 0.5 0.5 5 11 14 13 12 11   # closed, clockwise
  2 1.3 0.5 3 12 13 15
END CELL2D
''')
    model = read_model(path)
    assert model.first == 1 and model.mesh.turned.tolist() == [True, True]
    assert np.allclose(sorted(model.mesh.areas()), [0.5, 1.0])
    assert np.allclose(model.mesh.xy[4], [1000 - 0.5, 2002]) and 'turned by 90 degrees' in model.notes[0]


@pytest.mark.parametrize('text, why', [
    ('BEGIN VERTICES\n 1 0 0\nEND VERTICES\n', 'no CELL2D'), ('BEGIN VERTICES\n 1 a 0\nEND VERTICES\nBEGIN CELL2D\n 1 0 0 1 1\n', 'line 2: a number'),
    ('BEGIN VERTICES\n 1 0 0\nEND VERTICES\nBEGIN CELL2D\n 1 0 0 3 1 2 3\n', 'line 5: vertex 2'),
    ('BEGIN VERTICES\n OPEN/CLOSE v.txt\nEND VERTICES\n', 'line 2: a block in a file'),
    ('BEGIN VERTICES\n 1 0 0\nEND VERTICES\nBEGIN CELL2D\n 1 0 0 3 1\n', 'line 5: a number')])
def test_disv_that_is_wrong(tmp_path, text, why):
    (tmp_path / 'model.disv').write_text(text)
    with pytest.raises(InputError, match=why):
        read_model(tmp_path / 'model.disv')


@pytest.mark.parametrize('name, content, why', [
    ('a.vtu', 'no mesh', 'meshio does not read'), ('a.xyz', '', 'meshio does not read'), ('a.nc', 'no', 'not a netCDF'), ('a.gpkg', 'no', 'geopandas'),
    ('a.disv.grb', '', 'binary')])
def test_files_that_are_no_models(tmp_path, name, content, why):
    (tmp_path / name).write_text(content)
    with pytest.raises(InputError, match=why):
        read_model(tmp_path / name)
    with pytest.raises(InputError, match='no such file'):
        read_model(tmp_path / 'missing.vtu')


def test_solid_cells_are_an_error_and_lines_are_left_out(tmp_path):
    points = np.array([[0, 0, 0], [1, 0, 0], [0, 1, 0], [0, 0, 1.0]])
    meshio.Mesh(points, [('tetra', np.array([[0, 1, 2, 3]]))]).write(tmp_path / 'solid.vtu')
    with pytest.raises(InputError, match='tetra'):
        read_model(tmp_path / 'solid.vtu')
    meshio.Mesh(points, [('line', np.array([[0, 1]])), ('triangle', np.array([[0, 1, 2]]))]).write(tmp_path / 'flat.vtu')
    model = read_model(tmp_path / 'flat.vtu')
    assert len(model.mesh) == 1 and model.notes == ('1 lines and points left out',)


def test_ugrid_from_1_with_fill_values(tmp_path):
    import netCDF4
    with netCDF4.Dataset(tmp_path / 'u.nc', 'w') as d:
        for name, size in (('n', 5), ('f', 2), ('m', 4)):
            d.createDimension(name, size)
        t = d.createVariable('grid', 'i4', ())
        t.setncatts({'cf_role': 'mesh_topology', 'topology_dimension': 2, 'node_coordinates': 'x y', 'face_node_connectivity': 'faces'})
        d.createVariable('x', 'f8', ('n',))[:] = [0, 1, 1, 0, 2]
        d.createVariable('y', 'f8', ('n',))[:] = [0, 0, 1, 1, 0.5]
        faces = d.createVariable('faces', 'i4', ('f', 'm'), fill_value=-999)
        faces.start_index = 1
        faces[:] = [[1, 2, 3, 4], [2, 5, 3, -999]]
        d.createVariable('crs', 'i4', ()).setncatts({'EPSG_code': 'EPSG:28992'})
    model = read_model(tmp_path / 'u.nc')
    assert sorted(model.mesh.areas()) == [0.5, 1.0] and model.crs.equals(RD)


def soils_file(path, crs='EPSG:28992', **columns):
    shapes = [MultiPolygon([box(0, 0, 1, 1), box(2, 0, 3, 1)]), box(1, 0, 2, 1), None, LineString([(0, 0), (1, 1)])]
    names = {'soil': ['peat', 'clay', 'sand', 'loam'], **columns}
    frame = geopandas.GeoDataFrame(names, geometry=shapes, crs=crs)
    frame.to_file(path, driver='GPKG')


def test_soils_of_many_parts_and_features_without_polygons(tmp_path):
    soils_file(tmp_path / 's.gpkg')
    soils = read_soils(tmp_path / 's.gpkg')
    assert soils.names == ['peat', 'clay'] and soils.soils == [0, 0, 1] and soils.crs.equals(RD)
    assert soils.notes == ['2 features without a polygon left out']


def test_attributes(tmp_path):
    soils_file(tmp_path / 's.gpkg', code=[7, None, 3, 4])
    assert read_soils(tmp_path / 's.gpkg', 'code').names == ['7.0', '(unnamed)']
    with pytest.raises(InputError, match='no attribute "texture".*soil, code'):
        read_soils(tmp_path / 's.gpkg', 'texture')


def test_layers(tmp_path):
    frame = geopandas.GeoDataFrame({'soil': ['a']}, geometry=[box(0, 0, 1, 1)], crs=RD)
    for layer in ('old', 'new'):
        frame.to_file(tmp_path / 's.gpkg', driver='GPKG', layer=layer)
    with pytest.raises(InputError, match='--layer: .*new'):
        read_soils(tmp_path / 's.gpkg')
    assert read_soils(tmp_path / 's.gpkg', layer='new').names == ['a']


def test_geojson_without_a_reference_system(tmp_path):
    def write(shape):
        text = {'type': 'FeatureCollection', 'features': [{'type': 'Feature', 'properties': {'soil': 'a'}, 'geometry': shape.__geo_interface__}]}
        (tmp_path / 's.geojson').write_text(json.dumps(text))
        return read_soils(tmp_path / 's.geojson').crs
    assert write(box(155_000, 463_000, 155_100, 463_100)) is None
    assert write(box(5, 52, 6, 53)).to_epsg() == 4326


def test_reference_systems_that_differ_are_an_error():
    made, soils = maps.model(), maps.soil_map(maps.voronoi(1))
    made.crs, soils.crs = RD, pyproj.CRS('EPSG:32631')
    with pytest.raises(InputError, match='two reference systems.*RD New.*UTM zone 31N'):
        cut(made, soils)
    soils.crs = pyproj.CRS('EPSG:4326')
    with pytest.raises(InputError, match='degrees'):
        cut(made, soils)
    soils.crs = None
    assert cut(made, soils).model.crs is RD


def test_no_polygons_where_the_model_lies(tmp_path):
    soils_file(tmp_path / 's.gpkg')
    with pytest.raises(InputError, match='where the model lies'):
        read_soils(tmp_path / 's.gpkg', window=(100.0, 100.0, 200.0, 200.0))


def test_strips_as_a_map_and_as_a_mesh(tmp_path):
    made = maps.model(4, 3)
    made.crs, made.first = RD, 1
    strips = cut(made, maps.soil_map(maps.voronoi(4)))
    write_strips(tmp_path / 'strips.gpkg', strips, RD)
    frame = geopandas.read_file(tmp_path / 'strips.gpkg')
    assert frame.crs.equals(RD) and len(frame) == len(strips.pieces) and set(frame['soil']) <= set(strips.names)
    assert np.allclose(frame.geometry.area, frame['area']) and set(frame['cell']) == set(range(1, 13))
    files = write_strips(tmp_path / 'strips.vtu', strips, RD)
    assert [f.split('strips')[-1] for f in files] == ['.vtu', '.prj', '.soils.csv']
    data = meshio.read(tmp_path / 'strips.vtu').cell_data
    assert sum(a.sum() for a in data['area']) == pytest.approx(made.mesh.areas().sum())
    assert sorted(np.concatenate(data['cell'])) == sorted(strips.cells() + 1) and np.array_equal(strips.cells(), strips.pieces.parent_cells)
    rows = list(csv.DictReader(open(tmp_path / 'strips.soils.csv')))
    assert [r['soil'] for r in rows] == strips.names


def test_cells_with_nodes_of_their_own_are_joined(tmp_path):
    xy, corners = maps.grid(4, 3, 50.0, 10.0)
    write_mesh(tmp_path / 'apart.vtu', Mesh.from_cells(xy[corners].reshape(-1, 2), np.arange(48).reshape(-1, 4)))
    model = read_model(tmp_path / 'apart.vtu')
    assert len(np.unique(model.mesh.nodes)) == 20 and '28 nodes made one' in model.notes[0]
    shapes = maps.voronoi(8)
    assert maps.worst(maps.areas_by_strips(cut(model, maps.soil_map(shapes))), maps.areas_by_shapely(model, shapes)) < 1e-6


def test_columns_of_disv_and_ugrid_are_not_lost(tmp_path):
    import netCDF4
    written = write_mesh(tmp_path / 'm.disv', FIVE, {'soil': np.array([4, 5])}, RD)
    assert [w.split('/')[-1] for w in written] == ['m.disv', 'm.cells.csv', 'm.prj']
    assert (tmp_path / 'm.cells.csv').read_text() == 'icell2d,soil\n1,4\n2,5\n'
    assert write_mesh(tmp_path / 'm.nc', FIVE, {'soil': np.array([4, 5])}, RD) == [str(tmp_path / 'm.nc')]
    with netCDF4.Dataset(tmp_path / 'm.nc') as d:
        assert d['soil'][:].tolist() == [4, 5] and d['soil'].location == 'face'


def test_layers_of_nodes_are_written_and_read(tmp_path):
    """Nodes at one place in different layers stay two; without layers nothing is written of them."""
    square = [[0, 0], [1, 0], [1, 1], [0, 1]]
    xy = [[9, 9]] + square + [[1, 0], [2, 0], [2, 1], [1, 1]]
    two = Mesh.from_cells(xy, [[1, 2, 3, 4], [5, 6, 7, 8]], layers=[5] + [1] * 4 + [4_294_967_295] * 4)
    for name in 'm.vtu', 'm.nc':
        write_mesh(tmp_path / name, two)
        model = read_model(tmp_path / name)
        assert model.mesh.layers.tolist() == [1] * 4 + [4_294_967_295] * 4 and model.notes == ('layers of nodes: 1, 4294967295',) and len(np.unique(model.mesh.nodes)) == 8, name
        write_mesh(tmp_path / name, Mesh(two.xy, two.nodes, two.ends, two.kinds, two.families))
        model = read_model(tmp_path / name)
        assert not model.mesh.layers.any() and model.notes == ('2 nodes made one with others of equal coordinates',)
    assert 'layer' not in meshio.read(tmp_path / 'm.vtu').point_data
    written = write_mesh(tmp_path / 'm.disv', two, {'soil': np.array([4, 5])})
    assert [w.split('/')[-1] for w in written] == ['m.disv', 'm.vertices.csv', 'm.cells.csv']
    assert (tmp_path / 'm.vertices.csv').read_text() == 'iv,layer\n' + ''.join(f'{i},{n}\n' for i, n in enumerate([1] * 4 + [4_294_967_295] * 4, 1))
    for layers in ([0.5, 0, 0], [-1, 0, 0], [0, 0, 2.0 ** 32]):
        meshio.Mesh(np.eye(3), [('triangle', np.array([[0, 1, 2]]))], point_data={'layer': np.array(layers)}).write(tmp_path / 'm.vtu')
        with pytest.raises(InputError, match='"layer" of the nodes'):
            read_model(tmp_path / 'm.vtu')


def test_a_map_takes_the_layers_of_the_nodes_that_it_lies_on(tmp_path):
    """Strips of a model in layers are those without; the stakes have theirs."""
    made, shapes = maps.along(3, maps.voronoi(3)), maps.voronoi(3)
    mesh, plain = made.mesh, {grid: cut(made, maps.soil_map(shapes), grid=grid) for grid in (None, 0.001)}
    for layers, grid in itertools.product((np.full(len(mesh.xy), 7), 1 + np.arange(len(mesh.xy)) % 3), plain):
        layered = Model(Mesh(mesh.xy, mesh.nodes, mesh.ends, mesh.kinds, mesh.families, layers))
        assert np.array_equal(_on_grid(layered, 0.001)[0].mesh.layers, layers)
        strips = cut(layered, maps.soil_map(shapes), grid=grid)
        assert np.array_equal(strips.pieces.nodes, plain[grid].pieces.nodes) and np.array_equal(strips.pieces.xy, plain[grid].pieces.xy)
        assert np.array_equal(strips.pieces.layers[:len(mesh.xy)], layers) and strips.pieces.layers.all()
        with open(tmp_path / 'stakes.csv', 'w', newline='') as f:
            write_stakes(f, strips.pieces)
        rows = list(csv.DictReader(open(tmp_path / 'stakes.csv')))
        assert [int(r['layer']) for r in rows] == strips.pieces.layers[strips.pieces.stakes()].tolist() and list(rows[0]) == ['x', 'y', 'tolerance', 'layer']


def test_a_models_families_are_its_cells():
    with pytest.raises(ValueError, match='places of its cells'):
        Model(Mesh.from_cells([[0, 0], [1, 0], [0, 1]], [[0, 1, 2]], families=[7]))


def test_a_model_in_a_layer_of_a_map(tmp_path):
    for layer, size in (('cells', 3), ('other', 1)):
        frame = geopandas.GeoDataFrame({'id': range(size)}, geometry=[box(i, 0, i + 1, 1) for i in range(size)], crs=RD)
        frame.to_file(tmp_path / 'm.gpkg', driver='GPKG', layer=layer)
    assert len(read_model(tmp_path / 'm.gpkg', layer='cells').mesh) == 3
    with pytest.raises(InputError, match='several layers'):
        read_model(tmp_path / 'm.gpkg')


def test_a_format_that_has_no_polygons(tmp_path):
    with pytest.raises(InputError, match='polygons go to'):
        write_mesh(tmp_path / 'mesh.stl', FIVE)
    assert not (tmp_path / 'mesh.stl').exists()
