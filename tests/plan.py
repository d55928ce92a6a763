#!/usr/bin/env python3
"""./plan as a user meets it: what it shows, what it refuses, and what it leaves alone.

Runs on the programs and the archive in target/, which `tools/build check nightcard nightplan` and `tools/build staticlib altairpeg` build. Each
test works on a copy of the checkout in a folder with an awkward name. Where a test is about when the prover is run, a
stand-in takes the place of tools/build: it notes each call and copies the built programs to where that would lay them. tools/build
itself is tried with a stand-in for rt.
"""

from __future__ import annotations

import fcntl
import os
import shutil
import subprocess
import sys
import tempfile
import time
import unittest
from pathlib import Path

# The name of the copy, with all that a script may stumble over.
HERE = "it's a: \"check\" out $HOME"
ROOT = Path(__file__).resolve().parent.parent
BUILT = [Path("bin/nightcard"), Path("bin/nightplan"), Path("staticlib/libaltairpeg.a")]
CARD = bytes.fromhex("12200C060203006030020280 40202D80")
# The same night with no steps at all, and with room for two cars only.
UNSORTED = bytes.fromhex("10200C0602030060300202804020")
NO_ROOM = bytes.fromhex("12200806020300603002028040202D80")
SHOWN = (ROOT / "python" / "tests" / "case_1_brief.txt").read_text()
# The night closed, with room for four cars, on a card of edition 2; and that card with the mark of an open night.
CLOSED = bytes.fromhex("28C400400300400C003003000400A0020021293A")
CLOSED_SHOWN = (ROOT / "python" / "tests" / "closed_brief.txt").read_text()
OPENED = bytes([CLOSED[0] & 0xF7]) + CLOSED[1:]

STAND_IN = r"""#!/bin/sh
# Stands for the prover; the command in RT_GATED waits until the test lets it go on.
echo "begin $1" >> "$RT_NOTES"
[ -z "$RT_CHANGES" ] || { sleep 0.05; touch "$RT_CHANGES"; }
while [ "$1" = "$RT_GATED" ] && [ ! -e "$RT_NOTES.go" ]; do sleep 0.05; done
if [ -n "$RT_FAILS" ]; then
    echo 'rt: yard NOT PROVED (exit 1, 3 s)'
    exit 1
fi
if [ -z "$RT_IDLE" ]; then
    mkdir -p target/bin target/staticlib
    case $1 in
    check) cp "$RT_BUILT/bin/nightcard" "$RT_BUILT/bin/nightplan" target/bin/ ;;
    staticlib) cp "$RT_BUILT/staticlib/libaltairpeg.a" target/staticlib/ ;;
    esac
fi
echo 'fn yard::small: proved'
echo 'rt: yard proved (unchanged since it was last proved)'
echo "rt: $1 proved (3 s)"
echo 'rt: ok, 10 crates proved'
echo "end $1" >> "$RT_NOTES"
"""


def listing(folder: Path) -> list[tuple[str, int]]:
    """Every file below a folder, with the time of its last change."""
    return sorted((str(file), file.lstat().st_mtime_ns) for file in folder.rglob("*"))


class Checkout(unittest.TestCase):
    """A copy of the checkout, a stand-in for the prover, and a scratch folder."""

    def setUp(self) -> None:
        scratch = tempfile.TemporaryDirectory(prefix="a yard ")
        self.addCleanup(scratch.cleanup)
        self.scratch = Path(scratch.name)
        self.here = self.scratch / HERE
        self.notes = self.scratch / "notes"
        self.notes.touch()
        self.card = self.scratch / "first night.card"
        self.card.write_bytes(CARD)
        self._copy()
        self._stand_in()
        (self.scratch / "for a while").mkdir()
        self.environment = {
            **{name: value for name, value in os.environ.items() if not name.startswith(("RT_", "ALTAIRPEG_", "PYTHON"))},
            "PATH": f"{self.scratch / 'bin'}:{os.environ['PATH']}",
            "TMPDIR": str(self.scratch / "for a while"), "RT_NOTES": str(self.notes), "RT_BUILT": str(ROOT / "target"), "COLUMNS": "80",
            "RT_FAILS": "", "RT_IDLE": "", "RT_CHANGES": "", "RT_GATED": "",
        }

    def _copy(self) -> None:
        """Copies what ./plan needs, with one crate to stand for all."""
        self.here.mkdir()
        for name in ("plan", "crates.txt"):
            shutil.copy2(ROOT / name, self.here / name)
        shutil.copytree(ROOT / "crates" / "yard", self.here / "crates" / "yard", ignore=shutil.ignore_patterns("out"))
        shutil.copytree(ROOT / "python" / "altairpeg", self.here / "python" / "altairpeg", ignore=shutil.ignore_patterns("__pycache__"))
        for name in BUILT:
            (self.here / "target" / name).parent.mkdir(parents=True, exist_ok=True)
            shutil.copy2(ROOT / "target" / name, self.here / "target" / name)
        self._age_sources()

    def _age_sources(self) -> None:
        """Makes all sources older than what was built of them, as they are where it was built last."""
        oldest = min((self.here / "target" / name).stat().st_mtime for name in BUILT) - 60
        for file in (self.here / "crates.txt", self.here / "crates", *(self.here / "crates").rglob("*")):
            os.utime(file, (oldest, oldest))

    def _stand_in(self) -> None:
        """Puts the stand-in in the place of tools/build, and an rt on the path, which is only looked for."""
        for program, text in ((self.here / "tools" / "build", STAND_IN), (self.scratch / "bin" / "rt", "#!/bin/sh\n")):
            program.parent.mkdir()
            program.write_text(text)
            program.chmod(0o755)

    def start(self, *words: object, program: Path | str | None = None, **how: object) -> subprocess.Popen:
        """Starts ./plan, from the scratch folder."""
        given = {"stdin": subprocess.DEVNULL, "stdout": subprocess.PIPE, "stderr": subprocess.PIPE, "cwd": self.scratch, "env": self.environment, **how}
        return subprocess.Popen([str(program or self.here / "plan"), *map(str, words)], **given)

    def plan(self, *words: object, data: bytes | None = None, **how: object) -> tuple[int, str, str]:
        """Runs ./plan: its exit status, and what it says on standard output and standard error."""
        if data is not None:
            how["stdin"] = subprocess.PIPE
        run = self.start(*words, **how)
        out, err = run.communicate(data, timeout=120)
        return run.returncode, (out or b"").decode(), (err or b"").decode()

    def let_go(self) -> None:
        """Lets the stand-in go on."""
        Path(f"{self.notes}.go").touch()

    def calls(self) -> list[str]:
        """The calls of the prover so far."""
        return self.notes.read_text().splitlines()

    def drop_built(self) -> None:
        """A checkout where nothing is built."""
        shutil.rmtree(self.here / "target")


class Shown(Checkout):
    def test_card(self):
        self.assertEqual(self.plan(self.card), (0, SHOWN, ""))
        self.assertEqual(self.calls(), [], "the prover was run where all is current")

    def test_standard_input(self):
        for words in ((), ("-",)):
            self.assertEqual(self.plan(*words, data=CARD), (0, SHOWN, ""))
        self.assertEqual(self.plan(data=UNSORTED), (0, SHOWN, ""), "codes and steps of the card given do not count")

    def test_a_closed_night(self):
        new = self.scratch / "new.card"
        self.assertEqual(self.plan("-o", new, data=CLOSED), (0, CLOSED_SHOWN, ""))
        self.assertEqual(new.read_bytes(), CLOSED)

    def test_the_longest_card(self):
        """A card longer than a pipe's usual piece, of which every byte is read: 4,096 cars in order, which need no step."""
        bits = f"{2:04b}{0:01b}{16:05b}{16:05b}{4096:013b}{4096:013b}{256:09b}" + f"{16:013b}" * 256
        bits += "".join(f"{car:013b}" for car in range(1, 4097)) + "1" * 16 * 4096
        card = int(bits.ljust(8 * 15271, "0"), 2).to_bytes(15271, "big")
        status, out, err = self.plan(data=card)
        self.assertEqual((status, err), (0, ""))
        self.assertTrue(out.startswith("steps 0 tracks 16 room 4096 cars 4096 trains 256 passes 4096\ntrain 1: 1 2 3 "), out[:100])
        for data, line in ((card[:-1], "refused 10 15271 0"), (card + b"\0", "refused 12 15271 0")):
            self.assertEqual(self.plan(data=data)[2][: len(line)], line)

    def test_from_the_checkout_and_by_relative_names(self):
        self.assertEqual(self.plan("../" + self.card.name, program="./plan", cwd=self.here), (0, SHOWN, ""))

    def test_link(self):
        (self.scratch / "links").mkdir()
        (self.scratch / "links" / "one").symlink_to(f"../{HERE}/plan")
        (self.scratch / "two").symlink_to(self.scratch / "links" / "one")
        for link in ("links/one", "two"):
            self.assertEqual(self.plan(self.card, program=self.scratch / link, cwd="/"), (0, SHOWN, ""))

    def test_names_that_look_like_options(self):
        (self.scratch / "-o").write_bytes(CARD)
        self.assertEqual(self.plan("--", "-o"), (0, SHOWN, ""))

    def test_settings_of_the_user(self):
        odd = {"CDPATH": "/", "PYTHONPATH": "/nowhere", "PYTHONSAFEPATH": "1", "ALTAIRPEG_ARCHIVE": "/nowhere/lib.a", "IFS": "a", "LC_ALL": "C"}
        self.assertEqual(self.plan(self.card, env={**self.environment, **odd}), (0, SHOWN, ""))

    def test_help(self):
        for word in ("--help", "-h"):
            status, out, err = self.plan(word)
            self.assertEqual((status, out[:13], err), (0, "usage: ./plan", ""))

    def test_refusals_in_numbers_and_words(self):
        for data, line in (
            (CARD[:15], "refused 10 16 0: card too short (16 bytes needed, as far as known)\n"),
            (b"", "refused 10 1 0: card too short (1 bytes needed, as far as known)\n"),
            (b"hello", "refused 11 6 0: card edition not 1 or 2 (edition 6)\n"),
            (b"refused 5 3 0\n", "refused 11 7 0: card edition not 1 or 2 (edition 7)\n"),
            (OPENED, "refused 17 0 0: wrong edition for this plan (the plan belongs on a card of edition 1)\n"),
            (CARD + bytes(100000), "refused 12 16 0: non-zero padding, or bytes after the end (right length 16)\n"),
            (NO_ROOM, "refused 6 0 3: a track overfilled (step 0, 3 cars)\n"),
        ):
            self.assertEqual(self.plan(data=data), (1, "", line))

    def test_an_input_without_end(self):
        self.assertEqual(self.plan("/dev/zero"), (1, "", "refused 11 0 0: card edition not 1 or 2 (edition 0)\n"))

    def test_reader_that_leaves(self):
        run = subprocess.run(["bash", "-c", '"$1" "$2" | true', "bash", self.here / "plan", self.card], capture_output=True, env=self.environment)
        self.assertEqual((run.stdout, run.stderr), (b"", b""))


class Papers(Checkout):
    """README and USING print what ./plan prints, and their commands can be typed as they stand."""

    def test_first_card(self):
        for paper in ("README.md", "docs/USING.md"):
            text = (ROOT / paper).read_text()
            self.assertIn("".join(f"    {line}\n" for line in SHOWN.splitlines()), text)
            typed = [line[4:] for line in text.splitlines() if line.startswith(("    printf", "    ./plan first.card"))][:2]
            run = subprocess.run(["bash", "-ec", "\n".join(typed)], cwd=self.here, env=self.environment, capture_output=True)
            self.assertEqual((run.returncode, run.stdout.decode(), run.stderr), (0, SHOWN, b""), typed)
            self.assertEqual((self.here / "first.card").read_bytes(), CARD)


class WrongUse(Checkout):
    def wrong(self, *words, told, **how):
        status, out, err = self.plan(*words, **how)
        self.assertEqual((status, out), (2, ""), err)
        self.assertIn(told, err)
        self.assertEqual(len(err.splitlines()), 1, err)
        self.assertEqual(self.calls(), [])

    def test_options(self):
        self.wrong("--what", told="no such option: --what")
        self.wrong("-x", self.card, told="no such option: -x")
        self.wrong(self.card, "-o", told="-o needs the name of a file")
        self.wrong(self.card, "-o", "", told="-o needs the name of a file")
        self.wrong(self.card, "-o", "-", told="-o needs the name of a file")
        self.wrong("-o", "a", "-o", "b", self.card, told="-o twice")

    def test_one_card(self):
        self.wrong(self.card, self.card, told="one card at a time")
        self.wrong(self.card, "--", self.card, told="one card at a time")
        self.wrong("", told="name is empty")

    def test_cards_that_cannot_be_read(self):
        self.wrong("no such card", told="No such file or directory")
        self.wrong(self.scratch, told="Is a directory")

    def test_full_device(self):
        for words in ((self.card,), ("--help",)):
            with open("/dev/full", "wb") as full:
                self.wrong(*words, told="No space left on device", stdout=full)

    def test_closed_input_and_output(self):
        for closed in ("<&-", ">&-"):
            named = "" if closed == "<&-" else '"$2"'
            run = subprocess.run(["bash", "-c", f'"$1" {named} {closed}', "bash", self.here / "plan", self.card], capture_output=True, env=self.environment)
            self.assertEqual((run.returncode, run.stdout), (2, b""))
            self.assertNotIn(b"Traceback", run.stderr)


class Kept(Checkout):
    def test_kept(self):
        new = self.scratch / "new night.card"
        for words in (("-o", new, self.card), (self.card, "-o", new), ("-o", new.name, self.card)):
            self.assertEqual(self.plan(*words), (0, SHOWN, ""))
            self.assertEqual(new.read_bytes(), CARD)
            new.unlink()

    def test_over_the_card_itself(self):
        self.card.write_bytes(UNSORTED)
        self.card.chmod(0o640)
        self.assertEqual(self.plan("-o", self.card, self.card), (0, SHOWN, ""))
        self.assertEqual(self.card.read_bytes(), CARD)
        self.assertEqual(self.card.stat().st_mode & 0o777, 0o640)

    def test_mode_of_a_new_card(self):
        new = self.scratch / "new"
        self.plan("-o", new, self.card, umask=0o027)
        self.assertEqual(new.stat().st_mode & 0o777, 0o640)

    def test_a_refusal_keeps_nothing(self):
        new = self.scratch / "new"
        self.assertEqual(self.plan("-o", new, data=b"")[0], 1)
        self.assertFalse(new.exists())
        new.write_bytes(b"old")
        self.assertEqual(self.plan("-o", new, data=NO_ROOM)[0], 1)
        self.assertEqual(new.read_bytes(), b"old")

    def test_places_that_take_no_card(self):
        for place, told in ((self.scratch, "Is a directory"), (self.scratch / "none" / "x", "No such file"), (Path("/dev/full"), "No space left")):
            before = listing(self.scratch)
            status, out, err = self.plan("-o", place, self.card)
            self.assertEqual((status, out), (2, ""))
            self.assertIn(f"plan: the card can't be kept: {place}: {told}", err)
            self.assertEqual([name for name, _ in listing(self.scratch) if "__pycache__" not in name], [name for name, _ in before if "__pycache__" not in name])
        self.assertTrue(Path("/dev/full").is_char_device())

    def test_a_pipe_is_written_to(self):
        pipe = self.scratch / "pipe"
        os.mkfifo(pipe)
        run = self.start("-o", pipe, self.card)
        self.assertEqual(pipe.read_bytes(), CARD)
        self.assertEqual(run.communicate()[0].decode(), SHOWN)
        self.assertTrue(pipe.is_fifo())


WAITING = "plan: waiting for another ./plan in this checkout\n"
BUILDS = ["begin check", "end check", "begin staticlib", "end staticlib"]


class Prover(Checkout):
    def test_first_run_tells_of_itself(self):
        self.drop_built()
        status, out, err = self.plan(self.card)
        self.assertEqual((status, out), (0, SHOWN), err)
        self.assertEqual(err.splitlines(), [
            "plan: proving and building the programs and the library; the first time this takes some minutes",
            "plan: check proved (3 s)",
            "plan: staticlib proved (3 s)",
        ])
        self.assertEqual(self.calls(), BUILDS)
        self.assertEqual(self.plan(self.card), (0, SHOWN, ""))
        self.assertEqual(self.calls(), BUILDS)

    def test_progress_comes_as_it_is_made(self):
        self.drop_built()
        self.environment["RT_GATED"] = "staticlib"
        run = self.start(self.card)
        self.assertEqual([run.stderr.readline() for _ in range(2)][1], b"plan: check proved (3 s)\n")
        self.assertNotIn("end staticlib", self.calls())
        self.let_go()
        self.assertEqual(run.communicate()[0].decode(), SHOWN)

    def test_changed_sources_are_proved_anew(self):
        source = self.here / "crates" / "yard"
        for change in (lambda: next(source.rglob("*.antt")).touch(), lambda: next(source.rglob("*.antt")).unlink(), (self.here / "crates.txt").touch):
            self.notes.write_text("")
            time.sleep(0.02)
            change()
            self.assertEqual(self.plan(self.card)[:2], (0, SHOWN))
            self.assertEqual(self.calls(), BUILDS)
            self.assertEqual(self.plan(self.card), (0, SHOWN, ""))
            self.assertEqual(self.calls(), BUILDS)

    def test_must_fail_edits_are_no_sources(self):
        next((self.here / "crates").rglob("*.edit")).touch()
        self.assertEqual(self.plan(self.card), (0, SHOWN, ""))
        self.assertEqual(self.calls(), [])

    def test_programs_that_no_change_reaches_are_current(self):
        (self.here / "crates.txt").touch()
        # rt leaves what has not changed as it is; the archive it writes each time.
        self.environment["RT_IDLE"] = "1"
        self.plan(self.card)
        (self.here / "target" / BUILT[2]).touch()
        self.notes.write_text("")
        self.assertEqual(self.plan(self.card), (0, SHOWN, ""))
        self.assertEqual(self.calls(), [])

    def test_a_change_while_the_prover_works(self):
        self.drop_built()
        self.environment["RT_CHANGES"] = str(self.here / "crates.txt")
        self.assertEqual(self.plan(self.card)[:2], (0, SHOWN))
        self.environment["RT_CHANGES"] = ""
        self.notes.write_text("")
        self.assertEqual(self.plan(self.card)[:2], (0, SHOWN))
        self.assertEqual(self.calls(), BUILDS)

    def test_many_at_once(self):
        self.drop_built()
        self.environment["RT_GATED"] = "check"
        runs = [self.start(self.card, "-o", self.scratch / f"kept {number}") for number in range(5)]
        first_lines = sorted(run.stderr.readline().decode() for run in runs)
        self.assertEqual(first_lines[1:], [WAITING] * 4)
        self.let_go()
        said = [run.communicate() for run in runs]
        self.assertEqual([run.returncode for run in runs], [0] * 5, said)
        self.assertEqual([out.decode() for out, _ in said], [SHOWN] * 5)
        self.assertEqual(self.calls(), BUILDS, "the prover ran more than once, or twice at the same time")
        self.assertEqual({(self.scratch / f"kept {number}").read_bytes() for number in range(5)}, {CARD})

    def test_nobody_runs_what_is_being_built(self):
        """One that finds all current while another builds waits for it, and one that builds waits for those that run."""
        lock = self.here / "target" / "plan.lock"
        lock.touch()
        for kind, current in ((fcntl.LOCK_EX, True), (fcntl.LOCK_SH, False)):
            if not current:
                (self.here / "crates.txt").touch()
            with open(lock) as held:
                fcntl.flock(held, kind)
                run = self.start(self.card)
                self.assertEqual(run.stderr.readline().decode(), WAITING)
                self.assertEqual((run.poll(), self.calls()), (None, []))
            self.assertEqual(run.communicate()[0].decode(), SHOWN)
        self.assertEqual(self.calls(), BUILDS)

    def test_those_that_run_share_the_lock(self):
        lock = self.here / "target" / "plan.lock"
        lock.touch()
        with open(lock) as held:
            fcntl.flock(held, fcntl.LOCK_SH)
            self.assertEqual(self.plan(self.card), (0, SHOWN, ""))

    def test_the_prover_outlives_its_plan(self):
        """Whoever comes next waits for a prover that still works, though the ./plan that started it was killed."""
        self.drop_built()
        self.environment["RT_GATED"] = "check"
        first = self.start(self.card)
        first.stderr.readline()
        while not self.calls():
            time.sleep(0.01)
        first.kill()
        second = self.start(self.card)
        self.assertEqual(second.stderr.readline().decode(), WAITING)
        self.let_go()
        self.assertEqual(second.communicate()[0].decode(), SHOWN)
        first.communicate()
        self.assertEqual(self.calls(), BUILDS[:2] + BUILDS)

    def test_proof_that_fails(self):
        self.drop_built()
        self.environment["RT_FAILS"] = "1"
        status, out, err = self.plan(self.card)
        self.assertEqual((status, out), (2, ""))
        self.assertIn("yard NOT PROVED", err)
        self.assertEqual(err.splitlines()[-1], "plan: tools/build check nightcard nightplan failed")

    def test_prover_that_leaves_no_programs(self):
        self.drop_built()
        self.environment["RT_IDLE"] = "1"
        status, out, err = self.plan(self.card)
        self.assertEqual((status, out), (2, ""))
        self.assertIn("rt has left no programs", err)

    def test_no_prover(self):
        tools = self.scratch / "tools"
        tools.mkdir()
        for name in ("bash", "env", "python3", "gcc", "head", "tr", "cat", "mktemp", "rm", "dirname", "readlink", "find", "sed", "touch", "mkdir", "tee", "as", "ld"):
            (tools / name).symlink_to(shutil.which(name))
        self.environment["PATH"] = str(tools)
        self.assertEqual(self.plan(self.card), (0, SHOWN, ""), "nothing is to be built, so rt is not needed")
        self.drop_built()
        status, out, err = self.plan(self.card)
        self.assertEqual((status, out), (2, ""))
        self.assertEqual(err, "plan: the programs are to be built, and rt, the kit's command, is not on PATH\n")


# Stands for rt in a crate's folder: fails in the one that RT_FAILS names, and else leaves what rt would.
RT = r"""#!/bin/sh
name=$(basename "$PWD")
echo "$1 $name" >> "$RT_NOTES"
echo "crate $name: modules loaded=1 checked=1"
[ "$name" != "$RT_FAILS" ] || { echo 'logic=not-proved'; exit 1; }
echo 'logic=proved functions=1'
mkdir -p out
case $1 in
run) echo new > "out/$name" ;;
lib) echo new > "out/lib$name.a" ;;
esac
"""


class Build(unittest.TestCase):
    """tools/build, with a stand-in for rt."""

    def setUp(self) -> None:
        scratch = tempfile.TemporaryDirectory(prefix="a yard ")
        self.addCleanup(scratch.cleanup)
        self.here = Path(scratch.name)
        for name in ("altairpeg", "nightcard", "nightplan"):
            (self.here / "crates" / name).mkdir(parents=True)
        (self.here / "tools").mkdir()
        shutil.copy2(ROOT / "tools" / "build", self.here / "tools" / "build")
        rt = self.here / "rt"
        rt.write_text(RT)
        rt.chmod(0o755)
        self.notes = self.here / "notes"
        self.environment = {**os.environ, "RT": str(rt), "RT_NOTES": str(self.notes), "RT_FAILS": ""}

    def build(self, *words: str) -> tuple[int, list[str]]:
        """Runs tools/build from elsewhere: its exit status, and what it says."""
        run = subprocess.run([self.here / "tools" / "build", *words], env=self.environment, cwd="/", stdout=subprocess.PIPE, stderr=subprocess.STDOUT)
        return run.returncode, run.stdout.decode().splitlines()

    def laid(self) -> dict[str, str]:
        return {str(file.relative_to(self.here / "target")): file.read_text() for file in (self.here / "target").rglob("*") if file.is_file()}

    def test_programs_and_library(self):
        status, said = self.build("check", "nightcard", "nightplan")
        self.assertEqual((status, [line for line in said if line.startswith("rt: ")]), (0, ["rt: nightcard proved (0 s)", "rt: nightplan proved (0 s)"]))
        self.assertEqual(self.build("staticlib", "altairpeg")[0], 0)
        self.assertEqual(self.notes.read_text().splitlines(), ["run nightcard", "run nightplan", "lib altairpeg"])
        self.assertEqual(self.laid(), dict.fromkeys(["bin/nightcard", "bin/nightplan", "staticlib/libaltairpeg.a"], "new\n"))

    def test_a_proof_that_fails(self):
        """Nothing is laid in its place, and nothing behind it is begun, whichever it is."""
        for fails, begun, laid in (("nightcard", ["run nightcard"], []), ("nightplan", ["run nightcard", "run nightplan"], ["bin/nightcard"])):
            with self.subTest(fails=fails):
                self.notes.write_text("")
                shutil.rmtree(self.here / "target", ignore_errors=True)
                self.environment["RT_FAILS"] = fails
                status, said = self.build("check", "nightcard", "nightplan")
                self.assertEqual((status, said[-1]), (1, "logic=not-proved"))
                self.assertEqual(self.notes.read_text().splitlines(), begun)
                self.assertEqual(sorted(self.laid()), laid)
        self.environment["RT_FAILS"] = "altairpeg"
        self.assertEqual(self.build("staticlib", "altairpeg")[0], 1)

    def test_wrong_usage(self):
        for words in ((), ("check",), ("bake", "nightcard"), ("check", "nobody")):
            self.assertEqual(self.build(*words)[0], 2, words)
        self.assertFalse(self.notes.exists())


# Mounts a folder over itself, for reading only, where no one else sees it, and runs the words that follow.
READ_ONLY = 'mount --bind "$0" "$0" && mount -o remount,ro,bind "$0" && exec "$@"'


class ReadOnly(Checkout):
    def setUp(self) -> None:
        super().setUp()
        self.environment["XDG_CACHE_HOME"] = str(self.scratch / "cache")
        if os.geteuid() == 0:
            self.shield = ["unshare", "-m", "sh", "-c", READ_ONLY, str(self.here)]
            if shutil.which("unshare") is None or subprocess.run([*self.shield, "true"], capture_output=True).returncode != 0:
                print("plan: root writes where it likes and can't mount here, so no read-only checkout was tried", file=sys.stderr)
                self.skipTest("no read-only checkout can be made")
        else:
            self.shield = []

    def shielded(self) -> tuple[int, str, str]:
        """Runs ./plan in a checkout that nobody can write to."""
        if not self.shield:
            subprocess.run(["chmod", "-R", "a-w", str(self.here)], check=True)
            self.addCleanup(subprocess.run, ["chmod", "-R", "u+w", str(self.here)])
        run = subprocess.run([*self.shield, str(self.here / "plan"), str(self.card)], capture_output=True, env=self.environment, cwd=self.scratch)
        return run.returncode, run.stdout.decode(), run.stderr.decode()

    def test_built(self):
        before = listing(self.here)
        self.assertEqual(self.shielded(), (0, SHOWN, ""))
        self.assertEqual(listing(self.here), before)

    def test_no_cache_either(self):
        self.environment["XDG_CACHE_HOME"] = "/dev/null/cache"
        self.assertEqual(self.shielded(), (0, SHOWN, ""))

    def test_not_built(self):
        self.drop_built()
        status, out, err = self.shielded()
        self.assertEqual((status, out), (2, ""))
        self.assertEqual(err, f"plan: the programs are to be built, and {self.here}/target can't be written\n")


if __name__ == "__main__":
    missing = [str(name) for name in BUILT if not (ROOT / "target" / name).is_file()]
    if missing:
        sys.exit(f"tests/plan.py needs {', '.join(missing)} in target/: run `tools/build check nightcard nightplan` and `tools/build staticlib altairpeg`")
    unittest.main()
