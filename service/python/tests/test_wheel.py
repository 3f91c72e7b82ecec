"""A wheel built from the repository and installed in a fresh environment."""
import os
import subprocess
import sys
import zipfile
from pathlib import Path

import pytest

HERE = Path(__file__).resolve().parents[1]
SMALL = '''
import sys, numpy, daqwimay
assert not {'shapely', 'geopandas', 'meshio', 'matplotlib', 'netCDF4'} & set(sys.modules), 'numpy alone is needed'
square = daqwimay.Mesh.from_cells([[0, 0], [2, 0], [2, 2], [0, 2]], [[0, 1, 2, 3]])
line = daqwimay.Mesh.from_cells([[1, -1], [1, 3]], [[0, 1]])
print(daqwimay.__file__, daqwimay.overlay(square, line, 'lines').areas().tolist())
'''


def build(folder, **environment):
    words = [sys.executable, '-m', 'pip', 'wheel', '--no-build-isolation', '--no-deps', '--no-index', '-w', folder, HERE]
    return subprocess.run(words, capture_output=True, text=True, env={**os.environ, **environment})


@pytest.fixture(scope='module')
def wheel(tmp_path_factory):
    folder = tmp_path_factory.mktemp('wheel')
    done = build(folder)
    assert done.returncode == 0, done.stderr
    return next(folder.glob('*.whl'))


def test_what_is_in_it(wheel):
    assert wheel.name.startswith('daqwimay-0.1.0-py3-none-linux_')
    names = set(zipfile.ZipFile(wheel).namelist())
    assert {'daqwimay/libdaqwimay.so', 'daqwimay/py.typed', 'daqwimay/__init__.py'} <= names
    for licence in ('LICENSE-MIT', 'LICENSE-APACHE', 'NOTICE'):
        inside = next(n for n in names if '.dist-info/' in n and n.endswith(f'/{licence}'))
        assert zipfile.ZipFile(wheel).read(inside) == (HERE.parents[1] / licence).read_bytes()
    assert not [n for n in names if 'test' in n or n.endswith('.a')]


def test_in_a_fresh_environment(wheel, tmp_path):
    """The system's packages are seen, for numpy; the package itself comes from the wheel."""
    subprocess.run(['/usr/bin/python3', '-m', 'venv', '--system-site-packages', tmp_path / 'env'], check=True)
    python = tmp_path / 'env' / 'bin' / 'python'
    subprocess.run([python, '-m', 'pip', 'install', '-q', '--no-index', '--no-deps', wheel], check=True)
    done = subprocess.run([python, '-c', SMALL], cwd=tmp_path, capture_output=True, text=True)
    assert done.stderr == '' and str(tmp_path) in done.stdout and '[2.0, 2.0]' in done.stdout
    command = subprocess.run([tmp_path / 'env' / 'bin' / 'daqwimay', '--version'], capture_output=True, text=True)
    assert command.stdout == 'daqwimay 0.1.0\n'


def test_without_the_library(tmp_path):
    done = build(tmp_path, DAQWIMAY_LIB=str(tmp_path))
    assert done.returncode != 0 and '`rt lib` in crates/overlay_c' in done.stderr + done.stdout and not list(tmp_path.glob('*.whl'))
