"""Tests the program over real files and streams, of which no proof speaks.

Each run's status, standard output and standard error are compared byte for byte, and so is LOG. The expected logs and
report are those of examples/ and of crates/gpscover/data, the expected lines are written here by hand. It takes half a
minute, and 512 MiB in the folder for temporary files. What the system doesn't allow is skipped, with the reason.
"""
import os
import re
import resource
import shutil
import signal
import subprocess
import threading
import time
from pathlib import Path

import pytest

from gpscover.log import AXES, END_OF_FACE, Epoch, Fold
from tools.made import made_files
from tools.tests.program import DAY, INPUT, LOG, MIB, RECORD, SETTINGS, USAGE

TOP = Path(__file__).resolve().parents[2]
EXAMPLES = TOP / "examples"
# The files of a receiver with settings of 12 splits, and their log.
DATA = TOP / "crates/gpscover/data"
SOLVED = (DATA / "receiver.log").read_bytes()
PAVED = (EXAMPLES / "recorded-epoch.log").read_bytes()
REPORT = (EXAMPLES / "recorded-epoch.report").read_bytes()

FILES = ("receiver.obs", "receiver.nav", "settings.toml")
ROWS = "recorded-epoch.rows"
VERDICTS = (["judge", "receiver.log"], ["check", *FILES, "receiver.log"])

# The search box of the four epochs of SOLVED, each of which keeps boxes, and as a prism its half-space up to the box's high x.
ROOT = b"-3869509827800 3436365477600 3717165893700 -3869109827800 3436765477600 3717565893700"
ZONES = (
    b"""gpszones 2
zone far 0 0 0 1 1 1
zone all %s
prism low 1
side 1 0 0 -3869109827800
"""
    % ROOT
)
FOUND = b"epoch %d zone far outside\nepoch %d zone all inside\nepoch %d zone low inside\n"
TOTALS = b"""zone far outside %d inside 0 open 0 few 0
zone all outside 0 inside %d open 0 few 0
zone low outside 0 inside %d open 0 few 0
"""

# The first line of each epoch splits its root along x, whose low half ends at -3869309827800: 8 kept boxes lie there, one of
# which ends there, and 4 in the other. So of groups of two pieces one holds each box in one of its pieces; one lacks an x; one
# lies beyond both ends of the search box; and one, whose pieces repeat a side, has the low half alone.
GROUPS = b"""gpszones 2
group halves 2 1
side 1 0 0 -3869309827800
side -1 0 0 3869309827799
group gap 2 1
side 1 0 0 -3869309827801
side -1 0 0 3869309827799
group far 2 1
side 1 0 0 -3869509827801
side -1 0 0 3869109827799
group low 2 2
side 1 0 0 -3869309827800
side 1 0 0 -3869309827800
side 0 1 0 3436365477599
side 0 1 0 3436365477599
"""
GROUPS_FOUND = b"epoch %d zone halves inside\nepoch %d zone gap open\nepoch %d zone far outside\nepoch %d zone low open\n"
GROUPS_TOTALS = b"""zone halves outside 0 inside 4 open 0 few 0
zone gap outside 0 inside 0 open 4 few 0
zone far outside 4 inside 0 open 0 few 0
zone low outside 0 inside 0 open 4 few 0
"""

# A user whom the rights of files bind, as they don't bind root.
NOBODY = 65534


def closings(log):
    """How many lines of the log close a box, of those with these words."""
    return lambda *words: sum(line.split()[0] in words for line in log.splitlines())


def longest(box):
    """The longest side of a box."""
    return max(high - low for low, high in zip(box[:3], box[3:]))


def take_step(fold, word, fields):
    """Takes a step of a log into its live boxes."""
    if word == "cut":
        identity, face, bound = fields
        fold.live[int(identity)][END_OF_FACE[face]] = int(bound)
    elif word == "split":
        fold.halve(int(fields[0]), AXES[fields[1]])
    else:
        fold.close([word, *fields])


def renewals(log):
    """The `renew` lines that the steps of a log ask for, and those that are there: the number of the line, and the box.

    Behind a split that brings the splits of the epoch to a power of two they are asked for where the box of the rows in use
    is at least twice as long as the hull of the live boxes, all of which are waiting there.
    """
    asked, found = [], []
    for number, line in enumerate(log.decode().splitlines(), 1):
        word, *fields = line.split(" ")
        if word == "root":
            box, splits = tuple(map(int, fields)), 0
            fold = Fold(Epoch(1, 0, 0, False, 0, root=box), box)
        elif word == "renew":
            box = tuple(map(int, fields))
            found.append((number, box))
        elif word in ("cut", "split", "out", "in", "edge"):
            take_step(fold, word, fields)
            splits += word == "split"
            ends = list(zip(*fold.live.values()))
            if word == "split" and splits & (splits - 1) == 0:
                hull = (*map(min, ends[:3]), *map(max, ends[3:]))
                asked += [(number + 1, hull)] * (0 < longest(box) >= 2 * longest(hull))
    return asked, found


class TestRealFiles:
    @pytest.fixture(autouse=True)
    def files_of_a_receiver(self, program, room, request):
        self.program, self.folder, self.at_end = program, room, request.addfinalizer
        for name in FILES:
            shutil.copy(DATA / name, self.folder)
        shutil.copy(EXAMPLES / ROWS, self.folder)
        self.write("receiver.log", SOLVED)
        self.write("a.zones", ZONES)

    def write(self, name, data):
        (self.folder / name).write_bytes(data)

    def read(self, name):
        return (self.folder / name).read_bytes()

    def sparse(self, name, size):
        """A file of so many zeros that takes no room."""
        with open(self.folder / name, "wb") as file:
            file.truncate(size)

    def files(self):
        """What tells that a file was made or written."""
        stats = {path: path.stat() for path in self.folder.rglob("*")}
        return {path: (it.st_ino, it.st_size, it.st_mtime_ns) for path, it in stats.items()}

    def run_words(self, *words, limits=(), **how):
        """Runs the program on the words, in the folder of the test's files, within limits of the system."""

        def limit():
            for what, most in limits:
                resource.setrlimit(what, (most, most))

        usual = {"stdin": subprocess.DEVNULL, "stdout": subprocess.PIPE, "stderr": subprocess.PIPE, "preexec_fn": limit}
        return subprocess.run([self.program, *words], cwd=self.folder, timeout=900, **usual | how)

    def start(self, *words):
        """The program on the words, running."""
        how = {"stdin": subprocess.DEVNULL, "stdout": subprocess.PIPE, "stderr": subprocess.PIPE, "bufsize": 0}
        run = subprocess.Popen([self.program, *words], cwd=self.folder, **how)
        self.at_end(run.communicate)
        self.at_end(run.kill)
        return run

    def long_rows(self, name, epochs, splits):
        """Rows of so many epochs with boxes enough for so many splits in each."""
        rows = (EXAMPLES / "one-edge-box.log").read_text().splitlines()
        sats = [line for line in rows if line.startswith("sat ")]
        root = "root -100000000 -90000000 -90000000 100000000 90000000 90000000"
        lines = ["gpscover 1", f"rules 0 {splits} 1000"]
        for index in range(1, epochs + 1):
            lines += [f"epoch {index} {index}000000000000 4", *sats, root]
        self.write(name, "".join(line + "\n" for line in lines).encode())

    def expect_start(self, name, log):
        """The named file holds the start of a log, and something of it."""
        first = self.read(name)
        assert first and log.startswith(first), (name, len(first))

    def unread_pipe(self):
        """The end of a pipe to which one writes, and whose reader has gone."""
        reader, writer = os.pipe()
        os.close(reader)
        self.at_end(lambda: os.close(writer))
        return writer

    def bound_by_rights(self):
        """How to run the program as a user whom the rights of files bind."""
        if os.geteuid() != 0:
            return {}
        user = {"user": NOBODY, "group": NOBODY, "extra_groups": []}
        self.folder.chmod(0o755)
        self.program = shutil.copy(self.program, self.folder / "program")
        self.program.chmod(0o755)
        try:
            self.run_words(**user)
        except OSError as error:
            pytest.skip(f"the program can't be run as a user without rights: {error}")
        return user

    def expect(self, words, status, out=b"", err=b"", **how):
        ran = self.run_words(*words, **how)
        told = (ran.returncode, ran.stdout or b"", ran.stderr)
        assert told == (status, out, err), words

    def expect_nothing_done(self, words, status, err, **how):
        """A run that prints nothing, makes no file and changes none, LOG included."""
        before = self.files()
        self.expect(words, status, b"", err, **how)
        assert self.files() == before, words

    # ---- 0 and 1

    def test_an_eccentric_orbit_is_used_up_to_its_bound(self):
        observed = DAY["day.obs"].partition(b"> ")[0]
        self.write("one.obs", observed + b"> 2024 01 07 00 00  0.0700000  0  2\nG01  20985472.060\nG02\n")
        self.write("day.toml", DAY["day.toml"])
        header = DAY["day.nav"].partition(b"G01")[0]
        zero, head = (b" 0.000000000000D+00", b"gpscover 1\nrules 1 4096 1000000\nfew 1 1388620800070000000000 ")
        for eccentricity, usable in (
            (b"0.000000000000D+00", 1),
            (b"1.000000000000D-01", 1),
            (b"2.100000000000D-01", 0),
        ):
            record = (RECORD % 1).replace(zero + zero + zero + b" 5.2", zero + b" " + eccentricity + zero + b" 5.2")
            self.write("one.nav", header + record)
            skipped = b"" if usable else b"skip G01 6 8\n"
            said = b"epoch 1 gps 1388620800.070000000000 few %d\n" % usable
            self.expect(["solve", "one.obs", "one.nav", "day.toml", "one.log"], 0, said)
            assert self.read("one.log") == head + b"%d\n" % usable + skipped + b"skip G02 1\n"

    def test_solve_writes_the_log_and_the_report(self):
        ran = self.run_words("solve", *FILES, "new.log")
        assert (ran.returncode, ran.stderr) == (0, b"")
        assert self.read("new.log") == SOLVED
        kinds = (b"epoch", b"out", b"in", b"edge")
        assert closings(ran.stdout)(*kinds) == closings(SOLVED)(*kinds, b"cut")
        assert closings(ran.stdout)(b"total") == closings(SOLVED)(b"done")

    def test_a_longer_log_is_written_over(self):
        for words, log in (["solve", *FILES], SOLVED), (["pave", ROWS], PAVED):
            self.write("old.log", b"edge 0 0 0\n" * 100_000)
            assert self.run_words(*words, "old.log").returncode == 0
            assert self.read("old.log") == log

    def test_log_may_be_a_file_that_is_read(self):
        self.expect(["pave", ROWS, ROWS], 0, REPORT)
        assert self.read(ROWS) == PAVED

    def test_zones(self):
        assert SOLVED.count(b"\nroot %s\n" % ROOT) == 4
        words = ["guard", *FILES, "a.zones", "receiver.log"]
        self.expect(words, 0, found_in(1, 2, 3, 4))
        self.expect(["guard", "--to", "4", *FILES, "--from=1", "a.zones", "receiver.log"], 0, found_in(1, 2, 3, 4))
        # Without totals, and without lines.
        self.write("a.zones", b"gpszones 1\n" + ZONES.split(b"\n")[1] + b"\n")
        self.expect(words, 0, b"".join(b"epoch %d zone far outside\n" % index for index in range(1, 5)))
        self.write("a.zones", b"gpszones 1\n")
        self.expect(words, 0)
        # Of a part, and of a log of which one part alone is asked.
        self.write("a.zones", ZONES)
        part = ["--from", "2", "--to", "3"]
        assert self.run_words("solve", *FILES, "part.log", *part).returncode == 0
        self.expect(["guard", *FILES, "a.zones", "part.log", *part], 0, found_in(2, 3))
        self.expect([*words, *part], 1, b"no 51 EpochDiffers line 3\n")

    def test_groups(self):
        assert SOLVED.count(b"\nroot %s\nsplit 0 0\n" % ROOT) == 4
        self.write("a.zones", GROUPS)
        said = b"".join(GROUPS_FOUND % ((index,) * 4) for index in range(1, 5)) + GROUPS_TOTALS
        self.expect(["guard", *FILES, "a.zones", "receiver.log"], 0, said)
        # The largest group: the last of its pieces alone is met, and each box lies in it.
        pieces = [b"side 1 0 0 -3869509827801\n" * 16] * 63 + [b"side 1 0 0 -3869109827800\n" * 16]
        self.write("a.zones", b"gpszones 2\ngroup most 64 16\n" + b"".join(pieces))
        said = b"".join(b"epoch %d zone most inside\n" % index for index in range(1, 5))
        said += b"zone most outside 0 inside 4 open 0 few 0\n"
        self.expect(["guard", *FILES, "a.zones", "receiver.log"], 0, said)

    def test_zones_of_a_track(self):
        words = ["guard", *FILES, "a.zones", "receiver.log"]
        self.expect_nothing_done([*words, "--track"], 3, b"settings 31 Missing motion.speed\n")
        # With pairs and more splits the region of an epoch is far from the faces of the search box.
        settings = self.read("settings.toml").replace(b"bisections = 12\n", b"bisections = 40\npairs = true\n", 1)
        self.write("settings.toml", settings.replace(b"[bounds]\n", b"[motion]\nspeed = 3000\n[bounds]\n", 1))
        assert self.run_words("solve", *FILES, "receiver.log").returncode == 0
        self.expect(words, 0, found_in(1, 2, 3, 4))
        lines = self.read("receiver.log").splitlines()
        second = [number for number, line in enumerate(lines, 1) if line.startswith(b"root ")][1]
        self.expect([*words, "--track"], 1, b"no 55 RootDiffers line %d\n" % second)
        assert self.run_words("track", *FILES, "receiver.log").returncode == 0
        self.expect([*words, "--track"], 0, found_in(1, 2, 3, 4))
        denied = self.run_words("check", *FILES, "receiver.log")
        assert denied.returncode == 1
        self.expect(words, 1, denied.stdout)

    def test_refused_zones(self):
        words = ["guard", *FILES, "a.zones", "receiver.log"]
        zone = b"zone a 0 0 0 1 1 1\n"
        for text, line in (
            (b"", 1),
            (b"gpszones 1", 1),
            (b"gpszones 2", 1),
            (b"gpszones 3\n", 1),
            (b"gpszones 1\r\n", 1),
            (b"gpszones 1\nreach a 1 0 0\n", 2),
            (b"gpszones 2\n\n", 2),
            (b"gpszones 2\n" + zone[:-1], 2),
            (b"gpszones 2\nzone a 0 0 0 1 1\n", 2),
            (b"gpszones 2\nzone a 0 0 0 1 -1 1\n", 2),
            (b"gpszones 2\nzone a 0 0 0 1 1 10000000000001\n", 2),
            (b"gpszones 2\nzone A 0 0 0 1 1 1\n", 2),
            (b"gpszones 2\nzone abcdefghijklmnopq 0 0 0 1 1 1\n", 2),
            (b"gpszones 1\n" + zone * 2, 3),
            (b"gpszones 2\n" + zone + b"reach a 1 0 0\n", 3),
            (b"gpszones 2\nprism a 0\n", 2),
            (b"gpszones 2\nprism a 17\n", 2),
            (b"gpszones 2\nside 1 0 0 5\n", 2),
            (b"gpszones 2\nprism b 1\n" + zone, 3),
            (b"gpszones 2\nprism a 2\nside 1 0 0 5\n", 4),
            (b"gpszones 2\nprism a 1\nside 0 0 0 5\n", 3),
            (b"gpszones 2\nprism a 1\nside 1 0 0 -0\n", 3),
            (b"gpszones 2\nprism a 1\nside 1048577 0 0 5\n", 3),
            (b"gpszones 2\nreach a 0 0 -1048577\n", 2),
            (b"gpszones 2\nprism a 1\nside 1 0 0 100000000000000000001\n", 3),
            (b"gpszones 1\ngroup a 1 1\nside 1 0 0 5\n", 2),
            (b"gpszones 2\ngroup a 1\nside 1 0 0 5\n", 2),
            (b"gpszones 2\ngroup a 1 1 1\nside 1 0 0 5\n", 2),
            (b"gpszones 2\ngroup a 0 1\n", 2),
            (b"gpszones 2\ngroup a 1 0\n", 2),
            (b"gpszones 2\ngroup a 65 1\n", 2),
            (b"gpszones 2\ngroup a 1 17\n", 2),
            (b"gpszones 2\ngroup a 02 1\n", 2),
            (b"gpszones 2\ngroup a 2 2\n" + b"side 1 0 0 5\n" * 3, 6),
            (b"gpszones 2\ngroup a 2 2\n" + b"side 1 0 0 5\n" * 5, 7),
            (b"gpszones 2\ngroup a 2 1\nside 1 0 0 5\n" + zone, 4),
            (b"gpszones 2\ngroup a 2 1\nside 1 0 0 5\nside 0 0 0 5\n", 4),
            (b"gpszones 2\ngroup a 1 1\nside 1 0 0 5\n" + zone, 4),
            (b"gpszones 2\nreach a 1 0 0 5\n", 2),
        ):
            self.write("a.zones", text)
            self.expect_nothing_done(words, 3, b"zones 42 BadZones line %d\n" % line)
        # The files are read in their order.
        self.expect_nothing_done([*words[:4], "a.zones", "settings.toml"], 3, b"zones 42 BadZones line 2\n")
        self.expect_nothing_done(["guard", "settings.toml", *words[2:]], 3, b"obs 10 NotRinex line 1\n")

    def test_a_day_is_solved_in_parts(self):
        for name, data in DAY.items():
            self.write(name, data)
        # few epochs of the day, others, and none
        for words, first in (["--from", "1", "--to", "4"], 1), (["--to=240", "--from=237"], 237):
            ran = self.run_words("solve", *DAY, "part.log", *words)
            assert (ran.returncode, ran.stderr) == (0, b"")
            log = self.read("part.log")
            indices = [int(line.split()[1]) for line in log.splitlines() if line.startswith(b"epoch")]
            assert indices == list(range(first, first + 4))
            boxes = closings(log)(b"in", b"edge")
            self.expect(["check", *DAY, "part.log", *words], 0, b"yes %d\n" % boxes)
            ran = self.run_words("check", *DAY, "part.log", "--from", str(first + 1))
            assert (ran.returncode, ran.stdout) == (1, b"no 51 EpochDiffers line 3\n")
        self.expect(["solve", *DAY, "none.log", "--from", "3", "--to", "2"], 0)
        assert self.read("none.log") == b"gpscover 1\nrules 1 4096 1000000\n"
        self.expect(["check", *DAY, "none.log", "--from", "3", "--to", "2"], 0, b"yes 0\n")

    def test_rows_of_a_day_are_renewed(self):
        renewing = DAY["day.toml"].replace(b"max_age = 7200\n", b"max_age = 7200\nrenew = true\n")
        for name, data in (DAY | {"day.toml": renewing}).items():
            self.write(name, data)
        ran = self.run_words("solve", *DAY, "part.log", "--from", "1", "--to", "4")
        assert (ran.returncode, ran.stderr) == (0, b"")
        log = self.read("part.log")
        assert log.split(b"\n", 1)[0] == b"gpscover 2"
        asked, found = renewals(log)
        assert asked == found
        boxes = closings(log)(b"in", b"edge")
        self.expect(["check", *DAY, "part.log", "--from", "1", "--to", "4"], 0, b"yes %d\n" % boxes)
        self.expect(["judge", "part.log"], 0, b"yes %d\n" % boxes)

    def test_bounds_are_mapped_by_elevation(self):
        mapped = DAY["day.toml"].replace(b"[2000, 25000]", b"[0, 0]\nzenith = [1800, 3000]")
        for name, data in (DAY | {"day.toml": mapped}).items():
            self.write(name, data)
        part = ["--from", "1", "--to", "4"]
        ran = self.run_words("solve", *DAY, "part.log", *part)
        assert (ran.returncode, ran.stderr) == (0, b"")
        log = self.read("part.log")
        rows = [line.split() for line in log.splitlines() if line.startswith(b"sat ")]
        assert {len(row) for row in rows} == {14}
        # From the zenith to the horizon the delay of at most 3 m becomes 3 to 67.2 m.
        for lo, hi, sure_lo, sure_hi in (map(int, row[10:]) for row in rows):
            assert lo < sure_lo and sure_hi < hi and hi <= 26_000_000 + 67_200_000, (lo, hi, sure_lo, sure_hi)
        boxes = closings(log)(b"in", b"edge")
        self.expect(["check", *DAY, "part.log", *part], 0, b"yes %d\n" % boxes)
        self.expect(["judge", "part.log"], 0, b"yes %d\n" % boxes)
        # A search box around the earth's centre.
        self.write("day.toml", mapped.replace(b"[6378137000, 0, 0]", b"[0, 0, 0]"))
        self.expect(["solve", *DAY, "part.log", "--to", "1"], 0, b"epoch 1 gps 1388620800.000000000000 few 0\n")
        skips = b"".join(b"skip G%02d 7\n" % number for number in range(1, 7))
        few = b"gpscover 1\nrules 1 4096 1000000\nfew 1 1388620800000000000000 0\n" + skips
        assert self.read("part.log") == few
        self.expect(["check", *DAY, "part.log", "--to", "1"], 0, b"yes 0\n")

    def test_rows_are_renewed(self):
        plain = self.read("settings.toml").replace(b"half = 200000\n", b"half = 10000000\n")
        plain = plain.replace(b"bisections = 12\n", b"bisections = 40\n")
        mapped = re.sub(rb"(?m)^troposphere = .*$", b"troposphere = [0, 0]\nzenith = [1800, 3000]", plain)
        for settings, pairs, command, check in (
            (plain, b"", "solve", "check"),
            (plain, b"pairs = true\n", "solve", "check"),
            (mapped, b"", "solve", "check"),
            (plain + b"[motion]\nspeed = 100000\n", b"", "track", "retrack"),
        ):
            lengths = []
            for more in b"renew = true\n", b"renew = false\n", b"":
                self.write("settings.toml", settings.replace(b"[signal]\n", more + pairs + b"[signal]\n", 1))
                ran = self.run_words(command, *FILES, "new.log")
                assert (ran.returncode, ran.stderr) == (0, b"")
                log = self.read("new.log")
                head = b"gpscover 3" if pairs else b"gpscover 2" if b"true" in more else b"gpscover 1"
                assert log.splitlines()[0] == head
                asked, found = renewals(log)
                assert found == (asked if b"true" in more else [])
                lengths.append(len(found))
                yes = b"yes %d\n" % closings(log)(b"in", b"edge")
                self.expect([check, *FILES, "new.log"], 0, yes)
                self.expect(["judge", "new.log"], 0, yes)
                # Whether rows are renewed is for `solve` and `track` alone to ask.
                self.write("settings.toml", settings.replace(b"[signal]\n", pairs + b"[signal]\n", 1))
                self.expect([check, *FILES, "new.log"], 0, yes)
            assert lengths[0] > 0

    def test_a_made_code_that_meets_its_noise_may_be_the_next_mm(self):
        said = made_files.solve_and_check(self.program, self.folder, 516, 5)
        assert "make prints the sums with the next mm for G08 in epoch 4" in said

    # ---- 2

    def test_words_that_are_no_text(self):
        for words in ["judge", b"\xff.log"], ["solve", *FILES, b"re\xffceiver.log"]:
            self.expect_nothing_done(words, 2, USAGE)

    # ---- 3

    def test_refused_files(self):
        obs = self.read("receiver.obs").splitlines(keepends=True)
        self.write("cut.obs", b"".join(obs[:-1]))
        self.write("no.toml", self.read("settings.toml").replace(b"half = 200000", b""))
        self.write("no.nav", self.read("receiver.nav").replace(b"3.04", b"2.11", 1))
        truncated = b"obs 24 Truncated line %d\n" % len(obs)
        for words, line in (
            (["solve", "cut.obs", *FILES[1:]], truncated),
            (["check", "cut.obs", *FILES[1:]], truncated),
            (["solve", *FILES[:2], "no.toml"], b"settings 31 Missing search.half\n"),
            (["solve", FILES[0], "no.nav", FILES[2]], b"nav 11 Version line 1\n"),
            (["judge"], b"log 40 BadLog line 1 kind 1\n"),
            (["pave", "receiver.nav"], b"rows 40 BadLog line 1 kind 1\n"),
        ):
            self.write("old.log", b"what stood there before\n")
            self.expect_nothing_done([*words, "old.log"], 3, line)
            assert self.read("old.log") == b"what stood there before\n"

    def test_limits_of_sizes(self):
        obs, nav, settings = FILES
        long_line = b"%s 15 LongLine line 1\n"
        bad_log = b"%s 40 BadLog line 1 kind 1\n"
        for words, limit, role, within in (
            (["solve", obs, nav, "large", "new.log"], SETTINGS, b"settings", None),
            (["solve", obs, "large", settings, "new.log"], INPUT, b"nav", long_line),
            (["solve", "large", nav, settings, "new.log"], INPUT, b"obs", long_line),
            (["pave", "large", "new.log"], INPUT, b"rows", bad_log),
            (["guard", *FILES, "large", "receiver.log"], SETTINGS, b"zones", b"%s 42 BadZones line 1\n"),
            (["judge", "large"], LOG, b"log", bad_log),
        ):
            self.sparse("large", limit + 1)
            self.expect_nothing_done(words, 3, b"%s 29 TooLong %d\n" % (role, limit))
            if within:
                self.sparse("large", limit)
                self.expect_nothing_done(words, 3, within % role)

    def test_settings_of_the_greatest_size_are_read(self):
        text = self.read("settings.toml")
        self.write("large", text + b"#" * (SETTINGS - len(text)))
        words = ["check", *FILES[:2], "large", "receiver.log"]
        self.expect(words, 0, b"yes %d\n" % closings(SOLVED)(b"in", b"edge"))

    def test_a_file_without_end_is_too_long(self):
        words = ["check", *FILES[:2], "/dev/zero", "receiver.log"]
        self.expect_nothing_done(words, 3, b"settings 29 TooLong %d\n" % SETTINGS)

    # ---- 4

    def test_files_that_cannot_be_read(self):
        (self.folder / "folder").mkdir()
        for name, log in (("missing", "new.log"), ("folder", "receiver.log"), ("", "new.log")):
            for words, role in readings(name, log):
                self.expect_nothing_done(words, 4, role + b" fault\n")

    def test_files_and_folders_without_rights(self):
        how = self.bound_by_rights()
        locked = self.folder / "locked"
        locked.mkdir()
        self.at_end(lambda: locked.chmod(0o755))
        for name, rights in ("old.log", 0o444), ("secret", 0):
            self.write(f"locked/{name}", SOLVED)
            (locked / name).chmod(rights)
        locked.chmod(0o555)
        for words in ["solve", *FILES], ["pave", ROWS]:
            for name in "new.log", "old.log":
                self.expect_nothing_done([*words, f"locked/{name}"], 5, b"log fault\n", **how)
        for words, role in readings("locked/secret", "locked/old.log"):
            self.expect_nothing_done(words, 4, role + b" fault\n", **how)

    def test_a_pipe_in_the_place_of_a_file(self):
        """It is read to its end, which comes early where its writer ends early."""
        os.mkfifo(self.folder / "pipe")
        boxes = closings(SOLVED)(b"in", b"edge")
        lines = SOLVED.count(b"\n")
        for data, status, out, err in (
            (SOLVED, 0, b"yes %d\n" % boxes, b""),
            (SOLVED[:-1], 3, b"", b"log 40 BadLog line %d kind 4\n" % lines),
            (b"", 3, b"", b"log 40 BadLog line 1 kind 4\n"),
        ):
            for words in ["judge"], ["check", *FILES]:
                writer = threading.Thread(target=self.write, args=("pipe", data), daemon=True)
                writer.start()
                self.expect([*words, "pipe"], status, out, err)
                writer.join(timeout=60)

    def test_a_file_that_shrinks_while_it_is_read(self):
        """What counts is what was read: a log, and behind it some of the zeros that are no longer there."""
        for words in ["judge", "large"], ["check", *FILES, "large"]:
            self.write("large", SOLVED)
            os.truncate(self.folder / "large", 400 * MIB)
            run = self.start(*words)
            place = stop_behind(run, self.folder / "large", len(SOLVED))
            assert len(SOLVED) < place <= 400 * MIB, place
            os.truncate(self.folder / "large", len(SOLVED))
            run.send_signal(signal.SIGCONT)
            out, err = run.communicate(timeout=60)
            line = SOLVED.count(b"\n") + 1
            assert (run.returncode, out, err) == (3, b"", b"log 40 BadLog line %d kind 2\n" % line)

    # ---- 5

    def test_logs_that_cannot_be_written(self):
        (self.folder / "folder").mkdir()
        for words in ["solve", *FILES], ["pave", ROWS]:
            for name in "folder", "missing/new.log", "":
                self.expect_nothing_done([*words, name], 5, b"log fault\n")
            ran = self.run_words(*words, "/dev/full")
            assert (ran.returncode, ran.stderr) == (5, b"log fault\n")

    def test_standard_output_that_cannot_be_written(self):
        with open("/dev/full", "wb") as full:
            for words in (*VERDICTS, ["guard", *FILES, "a.zones", "receiver.log"]):
                self.expect(words, 5, b"", b"out fault\n", stdout=full)
            for words, log in (["solve", *FILES], SOLVED), (["pave", ROWS], PAVED):
                self.expect([*words, "new.log"], 5, b"", b"out fault\n", stdout=full)
                # What the log holds is the start of the whole one; these logs are one piece, which went out first.
                self.expect_start("new.log", log)

    def test_a_quiet_run_needs_no_standard_output(self):
        """It is full, its reader has gone, or it isn't open: the log is whole."""
        with open("/dev/full", "wb") as full:
            for way in {"stdout": full}, {"stdout": self.unread_pipe()}, {"preexec_fn": close_output}:
                for words, log in (["solve", *FILES], SOLVED), (["pave", ROWS], PAVED):
                    self.expect([*words, "new.log", "--quiet"], 0, b"", b"", **way)
                    assert self.read("new.log") == log

    def test_a_reader_that_has_gone(self):
        for words in (*VERDICTS, ["guard", *FILES, "a.zones", "receiver.log"]):
            self.expect(words, 5, b"", b"out fault\n", stdout=self.unread_pipe())
        for words, log in (["solve", *FILES], SOLVED), (["pave", ROWS], PAVED):
            self.expect([*words, "new.log"], 5, b"", b"out fault\n", stdout=self.unread_pipe())
            self.expect_start("new.log", log)

    def test_a_reader_that_goes(self):
        """It takes the first word of a report of some 600 KB and goes. LOG is cut too."""
        self.long_rows("long.rows", 1, 8192)
        assert self.run_words("pave", "long.rows", "whole.log").returncode == 0
        whole = self.read("whole.log")
        run = self.start("pave", "long.rows", "new.log")
        assert run.stdout.read(5) == b"epoch"
        run.stdout.close()
        assert (run.wait(timeout=60), run.stderr.read()) == (5, b"out fault\n")
        self.expect_start("new.log", whole)
        assert len(self.read("new.log")) < len(whole)

    def test_a_standard_output_that_is_not_open(self):
        """No file gets its place: LOG holds lines of the log alone, and the files that are read are as they were."""
        texts = {name: self.read(name) for name in (*FILES, ROWS, "receiver.log")}
        for words, log in ((["judge", "receiver.log"], None), (["solve", *FILES], SOLVED), (["pave", ROWS], PAVED)):
            self.expect([*words, *["new.log"] * (log is not None)], 5, b"", b"out fault\n", preexec_fn=close_output)
            if log:
                self.expect_start("new.log", log)
        assert {name: self.read(name) for name in texts} == texts

    def test_a_standard_error_that_cannot_be_written(self):
        """It changes no status."""
        with open("/dev/full", "wb") as full:
            for words, status in (
                ([], 2),
                (["judge", "settings.toml"], 3),
                (["judge", "missing"], 4),
                (["pave", ROWS, "missing/new.log"], 5),
            ):
                for broken in full, self.unread_pipe():
                    assert self.run_words(*words, stderr=broken).returncode == status, words

    def test_a_log_that_may_not_grow(self):
        """A limit on the sizes of files stands for a full disk: LOG is cut there, and the report comes behind it."""
        for words, log in (["solve", *FILES], SOLVED), (["pave", ROWS], PAVED):
            report = self.run_words(*words, "new.log").stdout
            for most in 0, 1, 1000, len(log) - 1:
                # Where the signal that comes with such a write isn't ignored, it ends the program, as any other.
                how = {"limits": [(resource.RLIMIT_FSIZE, most)], "restore_signals": False}
                ran = self.run_words(*words, "new.log", **how)
                assert (ran.returncode, ran.stderr) == (5, b"log fault\n")
                assert self.read("new.log") == log[:most]
                assert report.startswith(ran.stdout)

    def test_a_full_file_system(self):
        """LOG on a file system of 8 KiB, which is there for one run alone."""
        (self.folder / "small").mkdir()
        mounted = (
            'mount -t tmpfs -o size=8k none small || exit 1; "$@"; status=$?; '
            "cp small/new.log copied.log 2>/dev/null; exit $status"
        )
        alone = ["unshare", "--map-root-user", "--mount", "sh", "-c", mounted, "sh"]
        how = {"cwd": self.folder, "stdin": subprocess.DEVNULL, "capture_output": True, "timeout": 60}
        try:
            subprocess.run([*alone, "true"], check=True, **how)
        except (OSError, subprocess.CalledProcessError) as error:
            pytest.skip(f"no file system can be mounted: {error}")
        ran = subprocess.run([*alone, self.program, "solve", *FILES, "small/new.log"], **how)
        assert (ran.returncode, ran.stderr) == (5, b"log fault\n")
        self.expect_start("copied.log", SOLVED)
        assert len(self.read("copied.log")) < len(SOLVED)
        assert self.run_words("solve", *FILES, "new.log").stdout.startswith(ran.stdout)

    # ---- 6

    def test_want_of_memory(self):
        self.sparse("large", 200 * MIB)
        words = ["solve", FILES[0], "large", FILES[2], "new.log"]
        self.expect(words, 6, b"", b"no memory\n", limits=[(resource.RLIMIT_AS, 100 * MIB)])
        assert not (self.folder / "new.log").exists()

    # ---- 7

    def test_a_full_log(self):
        """80 epochs with 200,000 splits in each have a log of some 640 MB."""
        self.long_rows("long.rows", 80, 200_000)
        words = ["pave", "long.rows", "new.log"]
        self.expect(words, 7, b"", b"log full %d\n" % LOG, stdout=subprocess.DEVNULL)
        # It holds whole lines, and the next one, of less than 100 bytes, isn't begun.
        with open(self.folder / "new.log", "rb") as log:
            size = log.seek(0, os.SEEK_END)
            log.seek(-1, os.SEEK_END)
            assert log.read() == b"\n"
        assert LOG - 100 < size <= LOG, size

    # ---- a crowded sky

    def test_many_satellites_of_three_systems(self):
        """70 satellites in each epoch, 12 of them of GPS; CR LF ends the lines. G26 is unhealthy in
        each of its records, and G01 to G03 have none. The rows of the others are as without it."""
        self.write("sky.obs", crowded_obs(self.read("receiver.obs")))
        self.write("sky.nav", crowded_nav(self.read("receiver.nav")))
        sky = ["sky.obs", "sky.nav", "settings.toml", "sky.log"]
        assert self.run_words("solve", *sky).returncode == 0
        log = self.read("sky.log")
        assert rows_of(log) == [crowded_rows(lines) for lines in rows_of(SOLVED)]
        self.expect(["check", *sky], 0, b"yes %d\n" % closings(log)(b"in", b"edge"))


def found_in(*epochs):
    """What `guard` says of ZONES in these epochs of SOLVED."""
    count = len(epochs)
    return b"".join(FOUND % (index, index, index) for index in epochs) + TOTALS % (count, count, count)


def close_output():
    """Takes standard output away from a program that is about to begin."""
    os.close(1)


def stop_behind(run, path, least):
    """Stops a program when it has read more than so many bytes of a file, and gives how many it has."""
    place = 0
    while place <= least and run.poll() is None:
        time.sleep(0.0005)
        place = place_in(run, path)
    run.send_signal(signal.SIGSTOP)
    os.waitpid(run.pid, os.WUNTRACED)
    return place_in(run, path)


def place_in(run, path):
    """How many bytes of a file a program has read, 0 where it doesn't have it open."""
    for entry in Path(f"/proc/{run.pid}/fd").iterdir():
        try:
            if entry.samefile(path):
                fields = Path(f"/proc/{run.pid}/fdinfo/{entry.name}").read_text().split()
                return int(fields[fields.index("pos:") + 1])
        except OSError:
            # It was closed in between.
            continue
    return 0


def readings(name, log):
    """The words of each command with this name for one of the files that it reads, and that file's role."""
    return (
        (["judge", name], b"log"),
        (["check", *FILES, name], b"log"),
        (["pave", name, log], b"rows"),
        (["guard", *FILES, name, log], b"zones"),
        (["guard", *FILES, "a.zones", name], b"log"),
        (["solve", *FILES[:2], name, log], b"settings"),
        (["solve", FILES[0], name, FILES[2], log], b"nav"),
        (["solve", name, *FILES[1:], log], b"obs"),
    )


def rows_of(log):
    """The lines of each epoch of a log, up to its root."""
    blocks = log.split(b"\nepoch ")[1:]
    return [(b"epoch " + block).split(b"\nsplit ")[0].splitlines() for block in blocks]


def crowded_rows(lines):
    """The lines of an epoch of the example's log as they are in the crowded sky: 8 are usable."""
    head, *sats, root = lines
    sats = [b"skip G26 4" if line.startswith(b"sat G26 ") else line for line in sats]
    none = [b"skip G01 3", b"skip G02 3", b"skip G03 3"]
    return [head.rsplit(b" ", 1)[0] + b" 8", *sats, *none, root]


def satellites(system, most):
    return [f"{system}{number:02}" for number in range(1, most + 1)]


def crowded_obs(obs):
    """The example's observations, with satellites of three systems in place of those of SBAS."""
    values = "  21654321.098   113793123.4561       1234.567          45.000"
    more = satellites("G", 3) + satellites("R", 24) + satellites("E", 34)
    types = [f"{it}    4 C1C L1C D1C S1C".ljust(60) + "SYS / # / OBS TYPES\n" for it in "RE"]
    head, *epochs = obs.decode().split("\n> ")
    time = "  2008    05    26    05    59   29.9990000     GPS         TIME OF FIRST OBS"
    lines = head.replace(time, "".join(types) + time, 1).splitlines()
    for epoch in epochs:
        first, *sats = epoch.splitlines()
        lines.append("> " + first.replace(" 11 ", " 70 "))
        lines += [line for line in sats if line[0] == "G"] + [sat + values for sat in more]
    return "".join(line + "\r\n" for line in lines).encode()


def crowded_nav(nav):
    """The example's ephemerides behind those of GLONASS and Galileo, and G26 unhealthy."""
    lines = nav.decode().splitlines()
    for at, line in enumerate(lines):
        if line.startswith("G26"):
            health = lines[at + 6]
            lines[at + 6] = health[:23] + f"{'.630000000000D+02':>19}" + health[42:]
    end = next(at for at, line in enumerate(lines) if "END OF HEADER" in line) + 1
    number = "  .123456789012D+03"
    others = [(sat, 3) for sat in satellites("R", 24)] + [(sat, 7) for sat in satellites("E", 34)]
    for sat, behind in others:
        record = [f"{sat} 2008 05 26 06 15 00" + number * 3, *["    " + number * 4] * behind]
        lines[end:end] = record
    return "".join(line + "\r\n" for line in lines).encode()
