"""Where the shared object comes from: which archive, which cache, and one clear sentence where it can't be made."""

import os
import shutil
import subprocess
import unittest
from concurrent.futures import ThreadPoolExecutor

from altairpeg import building
from altairpeg.library import CALLS
from support import Scratch, python, skipped

ASK = "import altairpeg; print(altairpeg.fewest_tracks(4))"
TELL = """
import altairpeg
try:
    altairpeg.fewest_tracks(4)
except altairpeg.AltairpegError as trouble:
    print(type(trouble).__name__, trouble, sep=": ")
"""


PRICE = """
struct told {{ unsigned long number, a, b; double price; }};
struct timings {{ double pull, push; }};
struct told altairpeg_price(unsigned long steps, unsigned long passes, struct timings timings) {{
    struct told told = {{steps > {steps}, 5, 0, 0.0 * (double)passes * timings.pull}};
    return told;
}}
"""


class Building(Scratch):
    def setUp(self):
        super().setUp()
        self.cache = self.folder / "the cache"
        self.archive = self.folder / "an archive.a"
        shutil.copyfile(building.archive(), self.archive)

    def environment(self, **more):
        """An environment with this cache and this archive."""
        return {"XDG_CACHE_HOME": str(self.cache), "ALTAIRPEG_ARCHIVE": str(self.archive), **more}

    def ask(self, **more):
        """What a process of its own answers."""
        return python("-c", ASK, set=self.environment(**more))

    def tells(self, pattern, **more):
        """A process of its own raises an error of ours, whose message is one line like this."""
        run = python("-c", TELL, set=self.environment(**more))
        self.assertRegex(run.stdout.decode(), rf"^LibraryError: {pattern}\n$", run.stderr.decode())
        self.assertEqual((run.stderr, run.returncode), (b"", 0))

    def made(self):
        """The shared objects in the cache."""
        return sorted(self.cache.glob("altairpeg/*"))

    def other(self, *lacks, steps=16):
        """Puts a library of another make into the archive's place, much older than the first: of every code it says 42.

        It prices so many steps, and refuses more as a count out of its range.
        """
        calls = {name: f"unsigned long {name}(void) {{ return 42; }}\n" for name in CALLS}
        calls["altairpeg_price"] = PRICE.format(steps=steps)
        code = "".join(call for name, call in calls.items() if name not in lacks)
        source, object_file = self.file("other.c", code.encode()), self.folder / "other.o"
        subprocess.run(["gcc", "-c", "-fPIC", source, "-o", object_file], check=True)
        self.archive.unlink()
        subprocess.run(["ar", "rc", self.archive, object_file], check=True)
        os.utime(self.archive, (0, 0))

    def test_built_once(self):
        self.ran(self.ask(), 0, "3\n")
        (made,) = self.made()
        before = made.stat()
        self.ran(self.ask(PATH=""), 0, "3\n")
        self.assertEqual((made.stat().st_ino, made.stat().st_mtime_ns), (before.st_ino, before.st_mtime_ns))

    def test_a_named_archive_is_obeyed_whatever_its_age(self):
        self.ran(self.ask(), 0, "3\n")
        self.other()
        self.ran(self.ask(), 0, "42\n")
        self.assertEqual(len(self.made()), 2)

    def test_an_earlier_library(self):
        for lacks in ([], ["altairpeg_fewest_passes"]):
            self.other(*lacks, steps=8)
            self.tells(r".*an archive\.a is of an Altairpeg before 3\.0\.0, whose calls take other arguments: run `tools/build .*` anew")

    def test_a_library_that_lacks_more(self):
        self.other("altairpeg_fewest_passes", "altairpeg_price")
        self.tells(r".*an archive\.a is broken or not of Altairpeg's library: it has no altairpeg_fewest_passes")
        self.other("altairpeg_price")
        self.tells(r".*an archive\.a is broken or not of Altairpeg's library: it has no altairpeg_price")

    def test_a_spoilt_shared_object_is_made_anew(self):
        self.ran(self.ask(), 0, "3\n")
        self.made()[0].write_bytes(b"")
        self.ran(self.ask(), 0, "3\n")

    def test_many_at_once(self):
        with ThreadPoolExecutor(6) as threads:
            runs = list(threads.map(lambda _: self.ask(), range(6)))
        for run in runs:
            self.ran(run, 0, "3\n")
        self.assertEqual(len(self.made()), 1)

    def test_home_serves_where_no_cache_is_named(self):
        for named in ("", "not/absolute"):
            home = self.folder / f"home {len(named)}"
            self.ran(self.ask(XDG_CACHE_HOME=named, HOME=str(home)), 0, "3\n")
            self.assertEqual(len(list(home.glob(".cache/altairpeg/*"))), 1)

    def test_a_broken_archive(self):
        whole = self.archive.read_bytes()
        for broken in (b"", b"!<arch>\n", b"no archive at all\n", whole[: len(whole) // 2], whole[:100]):
            self.archive.write_bytes(broken)
            self.tells(r".*an archive\.a.* broken.*")

    def test_a_missing_archive(self):
        self.archive.unlink()
        self.tells(r".*an archive\.a can't be read \(No such file or directory\): .*")

    def test_a_missing_gcc(self):
        self.tells(r"gcc is missing, .*", PATH=str(self.folder))

    def test_a_folder_that_cannot_be_written(self):
        self.tells(r".*can't be written \(Not a directory\): .*", XDG_CACHE_HOME=str(self.file("a file", b"")))

    @skipped(os.geteuid() == 0, "the test of a read-only folder, since root writes to every folder")
    def test_a_read_only_folder(self):
        self.cache.mkdir()
        self.cache.chmod(0o500)
        self.tells(r".*can't be written \(Permission denied\): .*")

    def test_no_archive_at_all(self):
        shutil.copytree(building.HERE, self.folder / "alone" / "altairpeg", ignore=shutil.ignore_patterns("*.so", "__pycache__"))
        self.tells(r"there is no libaltairpeg\.a: .*", ALTAIRPEG_ARCHIVE="", PYTHONPATH=str(self.folder / "alone"))


if __name__ == "__main__":
    unittest.main()
