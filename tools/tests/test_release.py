"""Tests ./gpscover and scripts/release.sh: which program is run, and what a release is refused for.

Most tests are of a small repository of their own with two crates, a toolchain that only says that it proved, and a program
of two lines. The last are of this repository without its .git and with no toolchain on the path, and are skipped where the
release isn't of its sources, which .ci/run tells.
"""
import gzip
import hashlib
import os
import shutil
import subprocess
import sys
from pathlib import Path

import pytest

TOP = Path(__file__).resolve().parents[2]
# What the released program and one that is built of changed sources are: with no words both end with 2.
RELEASED = b'#!/bin/sh\n[ $# -gt 0 ] || exit 2\necho "released $*"\n'
BUILT = b'#!/bin/sh\n[ $# -gt 0 ] || exit 2\necho "built $*"\n'
# A toolchain whose gate passes, for as many crates as crates.txt has, and leaves a program.
TOOLCHAIN = """#!/bin/sh
case $1 in
    version) echo "kit {kit}" ;;
    ci) mkdir -p crates/gpscover/out && cp {program} crates/gpscover/out/gpscover && echo "$(wc -l <crates.txt) passed, 0 failed" ;;
esac
"""
TOOLS = "/usr/bin:/bin"


def sha256(data):
    """The SHA-256 of bytes, in hexadecimal digits."""
    return hashlib.sha256(data).hexdigest()


class Repository:
    """A small repository with this one's wrapper and scripts, and a release of its sources."""

    def __init__(self, room):
        self.room, self.top, self.bin = room, room / "repository", room / "bin"
        self.bin.mkdir()
        for name in (
            "gpscover",
            "scripts/program.sh",
            "scripts/release.sh",
            "python/src/gpscover/log.py",
            "CHANGELOG.md",
            "HANDLES",
        ):
            self.write(name, (TOP / name).read_bytes())
            os.chmod(self.top / name, 0o755)
        self.write("crates.txt", b"# comment\nlow:\nother: low\ngpscover: low # of both\n")
        self.write("crates/low/src/lib.rt", b"pub fn low() {}\n")
        self.write("crates/low/specs/Lib.antt", b"")
        self.write("crates/other/src/lib.rt", b"pub fn other() {}\n")
        self.write("crates/gpscover/src/main.rt", b"fn main() {}\n")
        self.release(RELEASED)

    def write(self, name, data):
        path = self.top / name
        path.parent.mkdir(parents=True, exist_ok=True)
        path.write_bytes(data)

    def release(self, program):
        """Releases a program as the present sources' own, built by the kit 1."""
        self.kit("1", program)
        self.build()
        self.make()
        shutil.rmtree(self.top / "crates/gpscover/out")
        (self.bin / "rt").unlink()

    def kit(self, name, program=BUILT):
        """Puts a toolchain on the path whose builds are this program."""
        (self.room / "program").write_bytes(program)
        os.chmod(self.room / "program", 0o755)
        (self.bin / "rt").write_text(TOOLCHAIN.format(kit=name, program=self.room / "program"))
        os.chmod(self.bin / "rt", 0o755)

    def run(self, *words, **more):
        env = {"PATH": f"{self.bin}:{TOOLS}", "HOME": str(self.room / "home"), **more}
        return subprocess.run(words, cwd=self.room, env=env, stdin=subprocess.DEVNULL, capture_output=True, text=True)

    def gpscover(self, *words, **more):
        ran = self.run(str(self.top / "gpscover"), *words, **more)
        return ran.returncode, ran.stdout, ran.stderr

    def build(self):
        """Builds by the toolchain, as the gate does."""
        return self.gpscover("--prove")

    def make(self):
        return self.run(str(self.top / "scripts/release.sh"))

    def check(self):
        """What the gate asks of the release: its status and its line."""
        ran = self.run(str(self.top / "scripts/release.sh"), "--check")
        return ran.returncode, ran.stdout

    def cached(self):
        return sorted(path.name for path in (self.room / "home/.cache/gpscover").iterdir())


class InRepository:
    @pytest.fixture(autouse=True)
    def small_repository(self, room):
        self.it = Repository(room)

    def refused(self, words, *said):
        """The run ends with 125, prints nothing but one line, and that has these texts."""
        status, out, err = self.it.gpscover(*words)
        assert (status, out) == (125, "")
        for text in said:
            assert text in err.splitlines()[-1]


class TestWhatRuns(InRepository):
    def test_the_released_program_runs_without_a_toolchain(self):
        for _ in range(2):
            assert self.it.gpscover("solve", "a b") == (0, "released solve a b\n", "")
        path = self.it.gpscover("--path")[1].strip()
        assert Path(path).read_bytes() == RELEASED
        assert (
            f"released: SHA-256 {sha256(RELEASED)}, proved and built of these sources by kit 1\n"
            in self.it.gpscover("--version")[1]
        )
        assert not (self.it.top / "crates/gpscover/out").exists()

    def test_what_is_no_source_of_the_program_changes_nothing(self):
        for name in ("crates/other/src/lib.rt", "README.md", "crates/low/must-fail/an.edit"):
            self.it.write(name, b"changed")
        self.it.write("crates.txt", b"low:\ngpscover:   low\nother:\nthird: low\n".replace(b":   ", b": "))
        assert self.it.gpscover("x") == (0, "released x\n", "")

    def test_a_changed_source_is_proved_and_built(self):
        self.it.gpscover("x")
        for change in ("edit", "new", "kept time"):
            source = self.it.top / "crates/low/src/lib.rt"
            before = source.stat()
            if change == "new":
                self.it.write("crates/low/src/new.rt", b"")
            else:
                source.write_bytes(b"pub fn LOW() {}\n" if change == "edit" else b"pub fn Low() {}\n")
                os.utime(source, ns=(before.st_atime_ns, before.st_mtime_ns))
            self.refused(["x"], "rt, the toolchain, isn't on the path")
            self.it.kit("1")
            status, out, err = self.it.gpscover("x")
            assert (status, out) == (0, "built x\n"), err
            assert self.it.gpscover("x") == (0, "built x\n", "")
            assert f"built here: SHA-256 {sha256(BUILT)}" in self.it.gpscover("--version")[1]
            (self.it.bin / "rt").unlink()

    def test_another_list_of_libraries_is_a_changed_source(self):
        self.it.write("crates.txt", b"low:\nother: low\ngpscover: low other\n")
        self.refused(["x"], "isn't on the path")

    def test_a_build_by_another_kit_is_stale(self):
        self.it.write("crates/low/src/lib.rt", b"changed")
        self.it.kit("1")
        self.it.gpscover("x")
        self.it.kit("2", b"#!/bin/sh\necho of the second kit\n")
        assert self.it.gpscover("x")[1] == "of the second kit\n"

    def test_what_isnt_proved_isnt_run(self):
        self.it.write("crates/low/src/lib.rt", b"changed")
        self.it.kit("1")
        self.it.gpscover("x")
        self.it.write("crates/low/src/lib.rt", b"wrong")
        (self.it.bin / "rt").write_text(
            "#!/bin/sh\n[ $1 = version ] && echo kit 1 && exit\necho 'rt: FAILED: low'\necho '1 passed, 1 failed'\n"
        )
        self.refused(["x"], "not proved: low")

    def test_a_damaged_release_is_told_and_not_run(self):
        packed = self.it.top / "release/gpscover-x86_64-linux.gz"
        whole = packed.read_bytes()
        turned = bytes([*whole[:-9], whole[-9] ^ 1, *whole[-8:]])
        for data in (turned, whole[:-20], b""):
            packed.write_bytes(data)
            self.refused(["x"], "isn't the released file")
        packed.unlink()
        self.refused(["x"], "isn't there")
        # Sums that are made to fit the packed file don't make it the program that they name.
        packed.write_bytes(gzip.compress(b"#!/bin/sh\necho wrong\n"))
        sums = self.it.top / "release/SHA256SUMS"
        sums.write_text(sums.read_text().replace(sha256(whole), sha256(packed.read_bytes())))
        self.refused(["x"], "isn't the released program")
        assert [name for name in self.it.cached() if not name.startswith("seen")] == []

    def test_a_program_that_cant_be_loaded_is_told(self):
        self.it.release(b"#!/bin/sh\necho no such version of the C library >&2\nexit 1\n")
        self.refused(["x"], "doesn't run in", "(no such version of the C library)", "glibc 2.34")

    def test_a_program_that_was_changed_in_the_cache_is_unpacked_anew(self):
        path = Path(self.it.gpscover("--path")[1].strip())
        path.write_bytes(RELEASED[:-5])
        assert self.it.gpscover("x") == (0, "released x\n", "")

    def test_no_cache_of_another_user_or_behind_a_link_is_taken(self):
        home = self.it.room / "home/.cache"
        home.mkdir(parents=True)
        elsewhere = self.it.room / "elsewhere"
        elsewhere.mkdir()
        (home / "gpscover").symlink_to(elsewhere)
        assert self.it.gpscover("x", TMPDIR=str(self.it.room))[:2] == (0, "released x\n")
        assert list(elsewhere.iterdir()) == []
        status, _, err = self.it.gpscover("x", TMPDIR="/dev/null")
        assert status == 125
        assert "no folder can be written" in err

    def test_eight_first_runs_at_once_each_find_a_whole_program(self):
        env = {"PATH": TOOLS, "HOME": str(self.it.room / "home")}
        runs = [
            subprocess.Popen([str(self.it.top / "gpscover"), "x"], env=env, stdout=subprocess.PIPE) for _ in range(8)
        ]
        assert [run.communicate()[0] for run in runs] == [b"released x\n"] * 8
        assert len(self.it.cached()) == 1 + sum(name.startswith("seen") for name in self.it.cached())


class TestWhatTheGateAsks(InRepository):
    def test_a_release_of_what_was_built_passes(self):
        self.it.kit("1", RELEASED)
        assert "this is the released program to the byte" in self.it.build()[1]
        status, said = self.it.check()
        assert (status, said[:27]) == (0, "release: 1 passed, 0 failed")
        before = (self.it.top / "release/gpscover-x86_64-linux.gz").stat().st_mtime_ns
        self.it.make()
        assert (self.it.top / "release/gpscover-x86_64-linux.gz").stat().st_mtime_ns == before

    def told(self, text):
        status, said = self.it.check()
        assert (status, said[:27]) == (1, "release: 0 passed, 1 failed")
        assert text in said

    def test_a_release_one_byte_off_fails(self):
        self.it.kit("1", RELEASED)
        self.it.build()
        packed = self.it.top / "release/gpscover-x86_64-linux.gz"
        packed.write_bytes(gzip.compress(RELEASED.replace(b"released", b"releaseD")))
        self.told("isn't the program that these sources give")

    def test_a_release_of_other_sources_fails(self):
        self.it.kit("1", RELEASED)
        self.it.build()
        sums = self.it.top / "release/SHA256SUMS"
        lines = sums.read_text().splitlines()
        lines[2] = f"{sha256(b'others')}  sources"
        sums.write_text("\n".join(lines) + "\n")
        self.told("it is of other sources")

    def test_a_changed_source_with_no_new_release_fails(self):
        self.it.kit("1", BUILT)
        self.it.write("crates/low/src/lib.rt", b"changed")
        self.told("nothing is proved and built here")
        assert "is of other sources" in self.it.build()[1]
        self.told("it is of other sources")
        self.it.write("crates/low/src/lib.rt", b"changed once more")
        self.told("what is built is of other sources")

    def test_another_program_of_the_same_sources_and_kit_fails(self):
        self.it.kit("1", BUILT)
        assert "is another, though of these sources and this kit" in self.it.build()[1]
        self.told("isn't the program that these sources give")

    def test_a_wrong_sum_fails_and_no_release_too(self):
        self.it.kit("1", RELEASED)
        self.it.build()
        sums = self.it.top / "release/SHA256SUMS"
        text = sums.read_text()
        sums.write_text(text.replace(sha256(RELEASED), sha256(b"")))
        self.told("has other sums")
        sums.write_text("\n".join(text.splitlines()[:2]))
        self.told("lacks a line")
        sums.unlink()
        self.told("isn't there")

    def test_another_kit_is_told_and_doesnt_fail(self):
        self.it.kit("2", BUILT)
        self.it.build()
        status, said = self.it.check()
        assert (status, said[:27]) == (0, "release: 1 passed, 0 failed")
        assert "of another kit, kit 1" in said


@pytest.mark.skipif(
    "\nreleased: " not in subprocess.run([TOP / "gpscover", "--version"], capture_output=True, text=True).stdout,
    reason="the release isn't of these sources",
)
class TestThisRepository:
    @pytest.fixture(autouse=True)
    def copy(self, room, request):
        self.room, self.at_end = room, request.addfinalizer
        left_out = shutil.ignore_patterns(".git", "out", "__pycache__", "docs", "second", "workflow")
        shutil.copytree(TOP, self.room / "gpscover", ignore=left_out)

    def run_in_copy(self, *words):
        env = {"PATH": TOOLS, "HOME": str(self.room), "GPSLOG_PYTHON": sys.executable}
        return subprocess.run(words, cwd=self.room / "gpscover", env=env, capture_output=True, text=True)

    def test_the_first_commands_of_the_readme_run_at_once(self):
        files = [f"examples/{name}" for name in ("receiver.obs", "receiver.nav", "settings.toml")]
        began = os.times()
        solved = self.run_in_copy("./gpscover", "solve", *files, "receiver.log")
        checked = self.run_in_copy("./gpscover", "check", *files, "receiver.log")
        table = self.run_in_copy("./gpslog", "summary", "receiver.log")
        ended = os.times()
        took = ended.children_user + ended.children_system - began.children_user - began.children_system
        assert (solved.returncode, solved.stderr) == (0, "")
        assert checked.stdout == "yes 255\n"
        assert "epochs 4: 4 with a region" in table.stdout
        # Of the processor's time, so that it is the same on a busy machine.
        assert took < 5

    def test_a_checkout_that_cant_be_written_runs(self):
        shutil.copytree(self.room / "gpscover/examples", self.room / "examples")
        for folder, _, names in os.walk(self.room / "gpscover", topdown=False):
            for path in [folder, *(os.path.join(folder, name) for name in names)]:
                os.chmod(path, os.stat(path).st_mode & ~0o222)
        ran = self.run_in_copy("./gpscover", "make", "7", "3")
        self.at_end(lambda: subprocess.run(["chmod", "-R", "u+w", str(self.room)]))
        assert ran.returncode == 0, ran.stderr
        assert not (self.room / "gpscover/crates/gpscover/out").exists()
