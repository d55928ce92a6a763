"""Puts the library's shared object into the package, where there is an archive to make it of.

The archive is the one that ALTAIRPEG_ARCHIVE names, or that of the checkout around this file. Everything else that an
installer needs to know stands in pyproject.toml.
"""

import sys
from pathlib import Path

from setuptools import Distribution, setup
from setuptools.command.build_py import build_py

try:
    from setuptools.command.bdist_wheel import bdist_wheel
except ImportError:  # before setuptools 70 it was a part of wheel alone
    from wheel.bdist_wheel import bdist_wheel

HERE = Path(__file__).resolve().parent
sys.path.insert(0, str(HERE))
from altairpeg import LibraryError, building  # noqa: E402


class WithLibrary(build_py):
    """The package's files, and the shared object among them."""

    def run(self):
        super().run()
        made = Path(self.build_lib) / "altairpeg" / building.PACKAGED.name
        made.unlink(missing_ok=True)  # one that an earlier build left may be of another archive
        source = building.archive()
        if source is None or getattr(self, "editable_mode", False):
            return
        try:
            building.link(source, made)
        except LibraryError as trouble:
            raise SystemExit(f"altairpeg: {trouble}")


class ForThisMachine(Distribution):
    """A package with a shared object in it is not for every machine."""

    def has_ext_modules(self):
        return building.archive() is not None


class ForEveryPython(bdist_wheel):
    """The shared object is of the yard's library, not of Python's, so any Python 3 may load it."""

    def get_tag(self):
        return ("py3", "none", super().get_tag()[2])


setup(distclass=ForThisMachine, cmdclass={"build_py": WithLibrary, "bdist_wheel": ForEveryPython})
