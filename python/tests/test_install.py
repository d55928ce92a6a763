"""pip install into a scratch folder, without a network, and the package as it is installed there."""

import importlib.util
import os
import shutil
import subprocess
import sys
import unittest

import altairpeg
from altairpeg import building
from support import CARD, PYTHON, Scratch, skipped

NEEDED = ("pip", "setuptools", "wheel")
MISSING = [name for name in NEEDED if importlib.util.find_spec(name) is None]
# The command of docs/USING.md, but into a folder of its own.
INSTALL = [sys.executable, *"-m pip install --no-build-isolation --no-deps --no-index --disable-pip-version-check --quiet --target".split()]


@skipped(bool(MISSING), f"tests of pip install, since this Python has no {', no '.join(MISSING)}")
class Install(Scratch):
    def setUp(self):
        super().setUp()
        self.source, self.installed = self.folder / "python", self.folder / "installed"
        shutil.copytree(PYTHON, self.source, ignore=shutil.ignore_patterns("build", "*.egg-info", "__pycache__"))

    def install(self, archive):
        """Installs a copy of the package with an archive, or with none."""
        return self.run_in({"ALTAIRPEG_ARCHIVE": str(archive or "")}, *INSTALL, self.installed, self.source)

    def run_in(self, more, *command):
        """Runs a command outside of the checkout, which nothing in the environment names."""
        environment = {name: value for name, value in os.environ.items() if name not in ("PYTHONPATH", "ALTAIRPEG_ARCHIVE")}
        environment.update({"PIP_ROOT_USER_ACTION": "ignore", "XDG_CACHE_HOME": str(self.folder / "cache"), **more})
        return subprocess.run(list(map(str, command)), env=environment, cwd=self.folder, input=CARD, capture_output=True)

    def check(self, **more):
        """Runs the installed command."""
        return self.run_in({"PYTHONPATH": str(self.installed), **more}, self.installed / "bin" / "altairpeg", "check", "-")

    def test_with_the_shared_object_inside(self):
        self.ran(self.install(building.archive()), 0)
        self.ran(self.check(PATH=""), 0, "steps 2 tracks 2 room 3 cars 6 trains 1 passes 11 fullest pull 3\n")
        self.assertTrue((self.installed / "altairpeg" / "py.typed").is_file())
        self.assertTrue((self.installed / f"altairpeg-{altairpeg.__version__}.dist-info").is_dir())
        self.assertFalse((self.folder / "cache").exists())

    def test_without_an_archive(self):
        self.ran(self.install(None), 0)
        run = self.check()
        self.assertEqual((run.stdout, run.returncode), (b"", 2))
        self.assertRegex(run.stderr, rb"^altairpeg: there is no libaltairpeg\.a: [^\n]*\n$")
        named = {"ALTAIRPEG_ARCHIVE": str(building.archive())}
        self.ran(self.check(**named), 0, "steps 2 tracks 2 room 3 cars 6 trains 1 passes 11 fullest pull 3\n")

    def test_with_a_broken_archive(self):
        run = self.install(self.file("broken.a", b"no archive"))
        self.assertNotEqual(run.returncode, 0)
        self.assertIn(b"which seems to be broken", run.stdout + run.stderr)


if __name__ == "__main__":
    unittest.main()
