"""Links the proved archive into libdaqwimay.so, inside the package, and gives the wheel its platform's tag.

The archive is liboverlay_c.a in DAQWIMAY_LIB, by default the repository's crates/overlay_c/out (rt lib in crates/overlay_c).
"""
import os
import shlex
import subprocess
from pathlib import Path

from setuptools import Distribution, setup
from setuptools.command.build_py import build_py

try:
    from setuptools.command.bdist_wheel import bdist_wheel
except ImportError:                     # before setuptools 70
    from wheel.bdist_wheel import bdist_wheel

HERE = Path(__file__).resolve().parent
LINK = '-shared -fPIC -Wl,-z,defs,-z,now,-z,relro,-z,noexecstack -Wl,--whole-archive {archive} -Wl,--no-whole-archive -o {out}'


def archive() -> Path:
    folder = Path(os.environ.get('DAQWIMAY_LIB', HERE.parents[1] / 'crates' / 'overlay_c' / 'out'))
    found = folder / 'liboverlay_c.a'
    if not found.exists():
        raise SystemExit(f'{folder} has no liboverlay_c.a: run `rt lib` in crates/overlay_c, or set DAQWIMAY_LIB')
    return found


class BuildWithLibrary(build_py):
    def run(self) -> None:
        super().run()
        folder = HERE / 'src' if self.editable_mode else Path(self.build_lib)
        words = LINK.format(archive=shlex.quote(str(archive())), out=shlex.quote(str(folder / 'daqwimay' / 'libdaqwimay.so')))
        subprocess.run([*shlex.split(os.environ.get('CC', 'cc')), *shlex.split(words)], check=True)


class PlatformWheel(bdist_wheel):
    """Any Python 3 loads the library, on this platform."""

    def get_tag(self):
        return 'py3', 'none', super().get_tag()[2]


class WithLibrary(Distribution):
    def has_ext_modules(self) -> bool:
        return True

    def parse_config_files(self, *args, **options) -> None:
        """The name of this option in pyproject.toml changes between versions of setuptools, and so does what is taken without it."""
        super().parse_config_files(*args, **options)
        self.metadata.license_files = ['LICENSE-MIT', 'LICENSE-APACHE', 'NOTICE']


setup(distclass=WithLibrary, cmdclass={'build_py': BuildWithLibrary, 'bdist_wheel': PlatformWheel})
