"""The pages' commands and examples are run, their table is the package's."""
import csv
import re
import shlex
import subprocess
import sys
from pathlib import Path

import pytest

from daqwimay import tolerance
from daqwimay.program import answer
from daqwimay.refusals import markdown

HERE = Path(__file__).resolve().parents[1]
ROOT = HERE.parents[1]
PAGE = (ROOT / 'docs' / 'PRACTICE.md').read_text()
README = (HERE / 'README.md').read_text()
TOLERANCE = (ROOT / 'docs' / 'TOLERANCE.md').read_text()


@pytest.fixture(scope='module')
def example(tmp_path_factory):
    folder = tmp_path_factory.mktemp('page')
    subprocess.run([sys.executable, '-W', 'ignore', HERE / 'examples' / 'make_example.py', folder], check=True)
    return folder


def test_the_table_of_refusals():
    assert markdown() in PAGE


def test_the_pages_commands(example):
    lines = re.findall(r'^    daqwimay (.+)$', PAGE, re.M)
    assert len(lines) >= 3
    for line in lines:
        command, _, status = line.partition('# exit status ')
        done = subprocess.run([sys.executable, '-m', 'daqwimay', *shlex.split(command)], cwd=example, capture_output=True, text=True)
        assert done.returncode == int(status or 0), (line, done.stderr)
    said = re.findall(r'^      ((?:cleaned: |new points are within ).+?)(?: \.\.)?$', PAGE, re.M) + re.findall(r'^    (\d+ pieces, \d+ new points)', PAGE, re.M)
    assert len(said) >= 7 and [s for s in said if s not in done.stderr] == []
    rows = re.findall(r'^    (\d+),([a-z ]+),([0-9.]+),[0-9.]+$', PAGE, re.M)
    areas = {(r['cell'], r['soil']): float(r['area']) for r in csv.DictReader(open(example / 'recharge.csv'))}
    assert rows and [r for r in rows if areas[r[:2]] != pytest.approx(float(r[2]), abs=0.01)] == []


@pytest.mark.parametrize('page', [PAGE, README], ids=['PRACTICE', 'README'])
def test_the_pages_python(example, page):
    for code in re.findall(r'```python\n(.+?)```', page, re.S):
        done = subprocess.run([sys.executable, '-W', 'ignore', '-c', code], cwd=example, capture_output=True, text=True)
        assert done.returncode == 0 and done.stdout, done.stderr


def test_the_page_on_tolerance():
    """Its tables and picture are those of tools/tolerance.py, its numbers the package's, rounded up, and what it says is said."""
    def tool(*words):
        return subprocess.run([sys.executable, ROOT / 'tools' / 'tolerance.py', *words], capture_output=True, text=True, check=True).stdout
    tables = tool('--tables').strip().split('\n\n')
    assert len(tables) == 3 and [t for t in tables if f'\n\n{t}\n\n' not in TOLERANCE] == []
    assert tool() == (ROOT / 'docs' / 'pictures' / 'tolerance.svg').read_text()
    sizes = re.findall(r'^\| .+ \| ([0-9,]+) \| ([0-9.e-]+) m \| ([0-9.e-]+) m \|$', TOLERANCE, re.M)
    steps = re.findall(r'^\| (\d+) \| .+ \| ([0-9.]+) m \| ([0-9.]+) m \+ ([0-9.e-]+) m \|$', TOLERANCE, re.M)
    shown = [(float(m.replace(',', '')), k, float(n)) for m, bare, fine in sizes for k, n in ((None, bare), (10, fine))]
    shown += [(5.8e6, int(k), float(half) + float(rest)) for k, half, again, rest in steps if float(half) == float(again) == 0.5 ** (int(k) + 1)]
    assert len(sizes) == 6 and len(steps) == 11 == len(shown) - 12
    assert [row for row in shown if not tolerance(*row[:2]) <= row[2] < 1.01 * tolerance(*row[:2])] == []


def test_stakes_as_the_page_has_them(example):
    words, said = re.search(r'^    \$ python (service/python/examples/stakes.py.*)\n((?:    .+\n)+)', TOLERANCE, re.M).groups()
    done = subprocess.run([sys.executable, *shlex.split(words)], cwd=ROOT, capture_output=True, text=True, check=True)
    assert done.stdout == re.sub(r'^    ', '', said, flags=re.M)
    for line in re.findall(r'^(?:    daqwimay cut|      new points) .+$', TOLERANCE, re.M):
        assert f'{line}\n' in PAGE


def drawn(*words):
    return subprocess.run([sys.executable, ROOT / 'tools' / 'draw.py', *words], capture_output=True, text=True, check=True).stdout


@pytest.mark.parametrize('name, picture, title, options', [
    ('k1', 'k1', '', []), ('soil', 'soil', '', []), ('model', 'parents', '', ['--by', 'parent']), ('points', 'points', 'Difference=', []), ('ditch', 'ditch', '', []),
    ('layers', 'layers', '', [])])
def test_pictures_of_listings(tmp_path, name, picture, title, options):
    """As the README draws them. By itself an answer doesn't tell added points that no piece names from lent nodes: no rings."""
    given, out = ROOT / 'examples' / f'{name}.in', tmp_path / 'answer.out'
    out.write_text(answer(given.read_bytes()))
    both = drawn(*options, given, f'{title}{out}')
    assert both == (ROOT / 'docs' / 'pictures' / f'{picture}.svg').read_text()
    alone, dot, ring = drawn(*options, out), 'r="2.6" fill="#c8322b"/>', 'r="2.6" fill="#ffffff" '
    assert alone.count(dot) == both.count(dot) and ring not in alone and (ring in both) == (name == 'points')


@pytest.mark.parametrize('layer', ['', ' 7'])
def test_pictures_of_one_layer_and_of_none(tmp_path, layer):
    """Whatever its number, and of texts from before W7: no corner's layer stands in them."""
    given, out = tmp_path / 'soil.in', tmp_path / 'soil.out'
    text = (ROOT / 'examples' / 'soil.in').read_text()
    for path, content in ((given, text), (out, answer(text.encode()))):
        path.write_text(re.sub(r'^(\(node .*) 0\)$', rf'\1{layer})', content, flags=re.M))
    assert drawn(given, out) == (ROOT / 'docs' / 'pictures' / 'soil.svg').read_text()


def test_the_picture_of_a_survey_grid(tmp_path):
    """As the README draws it; without the other answer no point is known to have moved, and a grid without room isn't drawn."""
    given, none, out = ROOT / 'examples' / 'grid.in', tmp_path / 'none.out', tmp_path / 'grid.out'
    text = given.read_text()
    none.write_text(answer(text.replace('(overlay 5 9 0\n', '(overlay 5 9\n').encode()))
    out.write_text(answer(text.encode()))
    titles = f'Without a grid={none}', f'On a grid of 1 m={out}'
    assert drawn(given, *titles) == (ROOT / 'docs' / 'pictures' / 'grid.svg').read_text()
    for words, grid in (([given, out], True), ([out, none], False), ([given, titles[0]], True)):
        assert 'as computed' not in drawn(*words) and ('grid of 1 m<' in drawn(*words)) == grid
    fine = tmp_path / 'fine.in'
    fine.write_text(text.replace('(overlay 5 9 0\n', '(overlay 5 9 10\n'))
    assert 'grid of' not in drawn(fine)


def test_legend_is_whole(tmp_path):
    """A picture is as wide as its legend, however narrow what it shows."""
    given, out = ROOT / 'crates' / 'overlay_cases' / 'data' / 'w2-038-twice1-op2.in', tmp_path / 'answer.out'
    out.write_text(answer(given.read_bytes()))
    lines = drawn(given, out).splitlines()
    width = int(re.search(r' width="(\d+)"', lines[0])[1])
    at = int(re.search(r'translate\((\d+) ', next(line for line in reversed(lines) if '<g ' in line))[1])
    words = re.findall(r'<text x="(\d+)" y="11">([^<]*)</text>', '\n'.join(lines))
    assert len(words) > 1 and all(at + int(x) + 6 * len(word) <= width for x, word in words)


def test_links_lead_somewhere():
    for page, folder in ((PAGE, ROOT / 'docs'), (README, HERE), (TOLERANCE, ROOT / 'docs')):
        for link in re.findall(r'\]\(([^)#:]+)\)', page):
            assert (folder / link).exists(), link
