"""The command from end to end, in folders of its own."""
import csv
import subprocess
import sys
from pathlib import Path

import geopandas
import matplotlib.image
import meshio
import pytest
from shapely.geometry import Point, Polygon, box

import maps
from daqwimay import read_model, tolerance, write_mesh

ROOT = Path(__file__).resolve().parents[3]
EXAMPLES = Path(__file__).resolve().parents[1] / 'examples'


def run(*words, cwd, text=None):
    return subprocess.run([sys.executable, '-m', 'daqwimay', *map(str, words)], cwd=cwd, input=text, capture_output=True, text=True, timeout=300)


@pytest.fixture(scope='module')
def example(tmp_path_factory):
    folder = tmp_path_factory.mktemp('example')
    subprocess.run([sys.executable, '-W', 'ignore', EXAMPLES / 'make_example.py', folder], check=True)
    return folder


def soils_file(path, shapes, crs='EPSG:28992'):
    geopandas.GeoDataFrame({'soil': [f'soil {i}' for i in range(len(shapes))]}, geometry=shapes, crs=crs).to_file(path)
    return path


def test_the_example_as_the_page_has_it(example):
    done = run('cut', 'model.disv', 'soils.gpkg', '--grid', 0.001, '-o', 'strips.vtu', '--table', 'recharge.csv', '--picture', 'strips.png', cwd=example)
    assert done.returncode == 0 and done.stdout == ''
    assert all(w in done.stderr for w in ('432 cells', 'RD New', 'cleaned: ', 'seams', 'in two soils', 'in no soil', 'by GEOS', 'wrote strips.vtu'))
    rows = list(csv.DictReader(open(example / 'recharge.csv')))
    assert list(rows[0]) == ['cell', 'soil', 'area', 'share'] and {int(r['cell']) for r in rows} == set(range(1, 433))
    for cell in (1, 200, 432):
        assert sum(float(r['share']) for r in rows if int(r['cell']) == cell) == pytest.approx(1, abs=1e-12)
    frame, model = geopandas.read_file(example / 'soils.gpkg'), read_model(example / 'model.disv').mesh
    lens = frame.geometry[list(frame['soil']).index('clay lens')]
    assert [(r['cell'], round(float(r['area']), 1)) for r in rows if r['soil'] == 'clay lens'] == [('248', round(lens.area, 1))]
    whole = Polygon(model.xy[[0, 24, 25 * 19 - 1, 25 * 18]])
    peat = frame.geometry[list(frame['soil']).index('peat')].intersection(whole)
    front = [g for s, g in zip(frame['soil'], frame.geometry) if s in ('river', 'made ground', 'clay lens')]
    assert sum(float(r['area']) for r in rows if r['soil'] == 'peat') == pytest.approx(peat.difference(front[0]).difference(front[1]).difference(front[2]).area, abs=1)
    assert sum(len(b.data) for b in meshio.read(example / 'strips.vtu').cells) > 700
    assert matplotlib.image.imread(example / 'strips.png').std() > 0.05


def test_new_points_on_a_survey_grid(example):
    done = run('cut', 'model.disv', 'soils.gpkg', '--grid', 0.001, '--survey-grid', 10, '-o', 'booked.vtu', '--table', 'booked.csv', cwd=example)
    assert done.returncode == 0 and ' new points on the survey grid of 1/1,024 metre (' in done.stderr
    given = {tuple(p) for p in read_model(example / 'model.disv').mesh.xy.tolist()}
    new = [v for p in meshio.read(example / 'booked.vtu').points[:, :2].tolist() if tuple(p) not in given for v in p]
    assert len(new) > 300 and all(v * 1024 == round(v * 1024) for v in new)
    assert abs(sum(float(r['area']) for r in csv.DictReader(open(example / 'booked.csv'))) - 874_800) < 1
    assert '\n  new points are within 0.489 mm of their cells\' sides, in x and in y\n' in done.stderr
    assert run('check', 'model.disv', 'soils.gpkg', '--grid', 0.001, '--survey-grid', 10, cwd=example).returncode == 0


def test_stakes_with_their_tolerance(example):
    model = read_model(example / 'model.disv').mesh
    for words, k, said in (((), None, '4.13e-10 m'), (('--survey-grid', 7), 7, '3.91 mm')):
        done = run('cut', 'model.disv', 'soils.gpkg', '--grid', 0.001, '--stakes', 'stakes.csv', *words, cwd=example)
        assert done.returncode == 0 and f' within {said} of ' in done.stderr and 'wrote stakes.csv' in done.stderr
        rows = list(csv.DictReader(open(example / 'stakes.csv')))
        assert f' {len(rows)} new points' in done.stderr and {float(r['tolerance']) for r in rows} == {tolerance(model, k)}
        beside = [min(Polygon(model.xy[c]).exterior.distance(Point(float(r['x']), float(r['y']))) for c in model.cells()) for r in rows[::40]]
        assert max(beside) < 1.42 * tolerance(model, k) + 1e-9
    done = run('cut', 'model.disv', 'soils.gpkg', '--grid', 0.001, '--stakes', '-', cwd=example)
    assert done.stdout.startswith('x,y,tolerance\n') and len(done.stdout.splitlines()) == 313


def test_no_word_on_tolerance_without_a_stake(tmp_path):
    write_mesh(tmp_path / 'model.vtu', maps.model(2, 2, 50.0, 0.0).mesh)
    soils_file(tmp_path / 'soils.gpkg', [maps.moved(box(-100, -100, 300, 300))])
    done = run('cut', 'model.vtu', 'soils.gpkg', '--stakes', 'stakes.csv', cwd=tmp_path)
    assert done.returncode == 0 and ' 0 new points' in done.stderr and 'within' not in done.stderr
    assert (tmp_path / 'stakes.csv').read_text() == 'x,y,tolerance\n'


@pytest.mark.parametrize('k', ['11', '-1', '0.5', 'fine', ''])
def test_a_survey_grid_that_there_is_not_is_told_before_anything_is_read(tmp_path, k):
    done = run('cut', 'none.vtu', 'none.gpkg', f'--survey-grid={k}', '--table', '-', cwd=tmp_path)
    assert done.returncode == 2 and f'"{k}" is no whole number from 0 to 10: new points are booked on multiples of 1/2^K metre' in done.stderr


def test_strips_in_the_colours_of_their_cells(example):
    """Two pictures that differ, and no colour of two cells that have a node in common."""
    from daqwimay.picture import apart
    for by in ('soil', 'cell'):
        done = run('cut', 'model.disv', 'soils.gpkg', '--grid', 0.001, '--picture', f'{by}.png', '--by', by, cwd=example)
        assert done.returncode == 0 and f'wrote {by}.png' in done.stderr
    assert (example / 'soil.png').read_bytes() != (example / 'cell.png').read_bytes()
    mesh = read_model(example / 'model.disv').mesh
    around = {}
    for corners, colour in zip(mesh.cells(), apart(mesh)):
        for n in corners.tolist():
            around.setdefault(n, []).append(colour)
    assert all(len(set(colours)) == len(colours) for colours in around.values())


def test_an_unclean_map_is_told_and_nothing_written(example):
    done = run('cut', 'model.disv', 'soils.gpkg', '-o', 'none.vtu', '--table', 'none.csv', cwd=example)
    assert done.returncode == 1 and 'with holes' in done.stderr and 'crosses or touches itself' in done.stderr and '--grid' in done.stderr
    assert not list(example.glob('none*'))


def test_wrong_strips_are_told_with_cell_and_place(tmp_path):
    write_mesh(tmp_path / 'model.vtu', maps.model(4, 4, 50.0, 0.0).mesh)
    soils_file(tmp_path / 'soils.gpkg', [maps.moved(box(55, 55, 65, 65)), maps.moved(box(-100, -100, 20, 300))])
    done = run('cut', 'model.vtu', 'soils.gpkg', '--table', '-', cwd=tmp_path)
    assert done.returncode == 1 and done.stdout == ''
    assert 'cell 5, at (155060, 463060): a piece in two soils: 100 of it in "soil 0", the rest in "(no soil)"' in done.stderr
    assert 'Traceback' not in done.stderr


def test_a_table_on_standard_output(tmp_path):
    write_mesh(tmp_path / 'model.nc', maps.model(2, 1, 100.0, 0.0).mesh)
    soils_file(tmp_path / 'soils.shp', [maps.moved(box(-100, -100, 50, 300)), maps.moved(box(50, -100, 300, 300))])
    done = run('cut', 'model.nc', 'soils.shp', '--table', '-', cwd=tmp_path)
    assert done.returncode == 0
    assert done.stdout == 'cell,soil,area,share\n0,soil 0,5000.0,0.5\n0,soil 1,5000.0,0.5\n1,soil 1,10000.0,1.0\n'


@pytest.mark.parametrize('words, why', [
    (('cut', 'model.vtu', 'soils.gpkg', '--table', '-', '--stakes', '-'), 'one of them can go'),
    (('cut', 'model.vtu', 'soils.gpkg', '--table', 'out.csv', '--stakes', './out.csv'), 'two of the outputs'),
    (('cut', 'model.vtu', 'soils.gpkg'), 'nothing to write'), (('cut', 'model.vtu', 'soils.gpkg', '-o', 'no/strips.vtu'), 'no such folder'),
    (('cut', 'model.vtu', 'soils.gpkg', '-o', 'model.vtu'), 'one of the files that are read'), (('cut', 'none.vtu', 'soils.gpkg', '--table', '-'), 'no such file'),
    (('cut', 'model.vtu', 'none.gpkg', '--table', '-'), 'no such file'), (('cut', 'model.vtu', 'soils.gpkg', '--soil', 'x', '--table', '-'), 'no attribute "x"'),
    (('cut', 'model.vtu', 'soils.gpkg', '--mesh-crs', 'EPSG:32631', '--table', '-'), 'two reference systems'),
    (('cut', 'model.vtu', 'soils.gpkg', '--mesh-crs', 'nowhere', '--table', '-'), 'no reference system "nowhere"'),
    (('cut', 'model.vtu', 'soils.gpkg', '-o', 'strips.xyz'), 'strips are written to'), (('cut', 'model.vtu', 'soils.gpkg', '--picture', 'p.doc'), 'a picture is'),
    (('cut', 'model.vtu', 'soils.gpkg', '--grid', '0', '--table', '-'), 'a step above 0'), (('cut', '.', 'soils.gpkg', '--table', '-'), 'no such file'),
    (('cut', 'model.vtu', 'soils.gpkg', '--grid', 'fine', '--table', '-'), 'invalid float'), (('slice',), 'invalid choice'), (('explain', 'none.in'), 'none.in')])
def test_words_that_nothing_can_be_made_of(tmp_path, words, why):
    write_mesh(tmp_path / 'model.vtu', maps.model(2, 2).mesh)
    soils_file(tmp_path / 'soils.gpkg', maps.voronoi(1))
    before = sorted(tmp_path.iterdir())
    done = run(*words, cwd=tmp_path)
    assert done.returncode == 2 and why in done.stderr and done.stdout == '' and 'Traceback' not in done.stderr
    assert sorted(tmp_path.iterdir()) == before


def test_check_names_what_is_not_clean(tmp_path):
    write_mesh(tmp_path / 'model.disv', maps.model(4, 4, 50.0, 0.0).mesh)
    soils_file(tmp_path / 'good.gpkg', maps.voronoi(1))
    done = run('check', 'model.disv', 'good.gpkg', cwd=tmp_path)
    assert done.returncode == 0 and done.stdout.endswith('clean: every piece is simple and in one soil\n') and '16 clockwise cells' in done.stdout
    tee = [maps.moved(box(-50, -50, 100, 300)), maps.moved(box(100, -50, 300, 120)), maps.moved(box(100, 120, 300, 300))]
    soils_file(tmp_path / 'tee.gpkg', tee)
    done = run('check', 'model.disv', 'tee.gpkg', cwd=tmp_path)
    assert done.returncode == 1 and 'at (155100, 463120): a corner on a side that has no corner there (T-junction)' in done.stdout
    soils_file(tmp_path / 'beside.gpkg', [maps.moved(Polygon([(-50, -50), (300, -50), (300, 300), (50.0001, 50), (-50, 300)]))])
    assert 'a soil corner and a node of the model, 0.0001 apart' in run('check', 'model.disv', 'beside.gpkg', cwd=tmp_path).stdout
    soils_file(tmp_path / 'lens.gpkg', [*tee[:1], maps.moved(box(110, 110, 120, 120))])
    assert 'at (155110, 463110): a lens inside one cell' in run('check', 'model.disv', 'lens.gpkg', cwd=tmp_path).stdout
    soils_file(tmp_path / 'over.gpkg', [*tee[:1], maps.moved(box(80, 30, 320, 320))])
    assert 'at (155100, 463030): two sides cross' in run('check', 'model.disv', 'over.gpkg', cwd=tmp_path).stdout
    soils_file(tmp_path / 'apart.gpkg', [maps.moved(box(10, 10, 70, 70)), maps.moved(box(110, 110, 180, 180))])
    assert run('check', 'model.disv', 'apart.gpkg', cwd=tmp_path).returncode == 0
    assert run('check', 'model.disv', 'lens.gpkg', '--grid', 0.001, cwd=tmp_path).returncode == 0
    assert run('check', 'model.disv', cwd=tmp_path).stdout.endswith('clean\n')


def test_check_names_what_is_wrong_in_a_model(tmp_path):
    from daqwimay import Mesh
    write_mesh(tmp_path / 'model.vtu', Mesh.from_cells([[0, 0], [2, 0], [0, 2], [2, 2], [4, 0], [4, 2], [2, 1]], [[0, 1, 2, 3], [1, 4, 5, 6]]))
    done = run('check', 'model.vtu', cwd=tmp_path)
    assert done.returncode == 1 and 'no simple polygon: Self-intersection' in done.stdout


def test_info(example):
    done = run('info', 'model.disv', 'soils.gpkg', cwd=example)
    assert done.returncode == 0
    assert all(w in done.stdout for w in ('432 QUAD4', 'numbered from 1', 'area 874800', 'attribute "soil": 8 values', '1 polygons with holes', 'RD New'))


def test_explain_tells_by_words_and_status(tmp_path):
    text = (ROOT / 'examples' / 'k1.in').read_text()
    (tmp_path / 'k1.in').write_text(text)
    (tmp_path / 'bad.in').write_text(text.replace('(cell 8 7', '(cell 8  7'))
    (tmp_path / 'refused.in').write_text(text.replace('(cell 8 7 0 1 2 3)', '(cell 8 7 0 1 2 2)'))
    (tmp_path / 'k1.out').write_text('(refused 11)\n')
    said = [(done.returncode, done.stdout) for done in (run('explain', *f, cwd=tmp_path) for f in (['k1.in'], ['bad.in'], ['refused.in'], ['k1.in', 'k1.out']))]
    assert [s for s, _ in said] == [0, 2, 1, 1]
    assert said[0][1] == 'k1.in: answered: 2 pieces, 2 new points\n'
    assert '(unread): line 7:' in said[1][1] and 'a space too many' in said[1][1]
    assert 'refused 6 (repeated node)' in said[2][1] and 'k1.out is not the answer' in said[3][1]
    assert run('explain', '-', cwd=tmp_path, text=text).returncode == 0


def test_progress_is_said_now_and_then(monkeypatch, capsys):
    from daqwimay import __main__ as command
    clock = iter([0.0, 1.0, 6.0, 7.0, 12.0])
    monkeypatch.setattr(command.time, 'monotonic', lambda: next(clock))
    progress = command.Progress()
    for done in (100, 2000, 3000, 4000):
        progress('cells cut', done, 4000)
    progress.end()
    assert capsys.readouterr().err == '  cells cut: 2,000 of 4,000\n  cells cut: 4,000 of 4,000\n'


@pytest.mark.parametrize('command', ['cut', 'check', 'info', 'explain'])
def test_help_has_examples(tmp_path, command):
    done = run(command, '--help', cwd=tmp_path)
    assert done.returncode == 0 and 'examples:' in done.stdout and f'daqwimay {command} ' in done.stdout and 'exit status' in done.stdout
