"""Tests whole runs of the program: which status, lines and log come of words and files.

Each run's status, standard output, standard error and LOG are compared byte for byte, and no other file of its folder may
be made or written. The expected texts are written here by hand. Many runs are done once more with pipes in the place of
files, which give one byte a read.
"""
import contextlib
import fcntl
import os
import re
import subprocess
import tempfile
import threading
from dataclasses import dataclass
from pathlib import Path

import pytest

from gpscover.log import epochs as log_epochs
from tools.compare.second import recheck
from tools.made import made_files
from tools.tests.program import DAY, INPUT, USAGE

DONE, NO, NO_COMMAND, REFUSED, READ_FAULT = range(5)


# ---- files

@dataclass(frozen=True)
class Zeros:
    """A file of so many zeros, which takes no room."""

    size: int


def header(*lines):
    return "".join(text.ljust(60) + label + "\n" for text, label in lines)


def epoch(seconds, *sats):
    """The lines of an epoch so many seconds behind the first."""
    minute, second = divmod(seconds, 60)
    return f"> 2024 01 07 00 {minute:02} {second:2}.0700000  0 {len(sats):2}\n" + "".join(sat + "\n" for sat in sats)


VERSION = ("     3.05           OBSERVATION DATA    G", "RINEX VERSION / TYPE")
TYPES = ("G    1 C1C", "SYS / # / OBS TYPES")
END = ("", "END OF HEADER")
OBS_HEADER = header(VERSION, TYPES, ("  2024     1     7     0     0    0.0700000     GPS", "TIME OF FIRST OBS"), END)
NAV_HEADER = header(("     3.05           N: GNSS NAV DATA    G", "RINEX VERSION / TYPE"), END)

# One epoch, in which the code of the second satellite is missing.
OBS = OBS_HEADER + epoch(0, "G01  20985472.060", "G02")
# A second one, in which the first satellite is missing, and 24 of its kind.
TWO_OBS = OBS + epoch(30, "G02")
MANY_OBS = OBS_HEADER + "".join(epoch(30 * k, "G02") for k in range(24))

# One record of the first satellite.
ZERO = " 0.000000000000D+00"
NAV = (
    f"{NAV_HEADER}G01 2024 01 07 00 00 00{ZERO * 3}\n    {ZERO * 4}\n    {ZERO * 3} 5.200000000000D+03\n"
    + f"    {ZERO * 4}\n" * 5
)
# The clock's first field is no number.
BAD_NAV = f"{NAV_HEADER}G01 2024 01 07 00 00 00 0.000000000000D+0x{ZERO * 2}\n"

SETTINGS = DAY["day.toml"].decode()
# The same where pairs of rows show boxes empty too.
PAIRS_SETTINGS = SETTINGS.replace("max_age = 7200\n", "max_age = 7200\npairs = true\n")

HEAD = "gpscover 1\nrules 1 4096 1000000\n"
LOG = HEAD + "few 1 1388620800070000000000 1\nskip G02 1\n"
RECEIVER = {"a.obs": OBS, "a.nav": NAV, "a.toml": SETTINGS, "a.log": LOG}

# Four satellites at one place, as far off as light goes in 0.07 s; three epochs, 1 s apart.
FOUR = [f"G0{number}  20985472.060" for number in range(1, 5)]
FOUR_HEADER = header(VERSION, TYPES, END)
FOUR_OBS = FOUR_HEADER + epoch(0, *FOUR) + epoch(1, *FOUR) + epoch(2, *FOUR)
# In the second epoch two of them are 500 m off.
OFF = ["G01  20985972.060", "G02  20985972.060", *FOUR[2:]]
LOST_OBS = FOUR_HEADER + epoch(0, *FOUR) + epoch(1, *OFF) + epoch(2, *FOUR)
# Circles of 27,040 km over the equator, and on the x axis at the ephemeris time.
FOUR_NAV = NAV_HEADER + "".join(
    f"G0{number} 2024 01 07 00 00 00 0\n\n{'5200':>65}\n    0\n\n\n\n    0\n" for number in range(1, 5)
)
# No box is split, so each epoch that fits keeps its root.
UNSPLIT = SETTINGS.replace("outliers = 1", "outliers = 0").replace("bisections = 4096", "bisections = 0")
MOVING = UNSPLIT + "[motion]\nspeed = 500\n"
ANEW = MOVING + "restart = true\n"
TRACK_FILES = {"a.obs": FOUR_OBS, "a.nav": FOUR_NAV, "a.toml": MOVING}

# A log with one box, which is closed at the edge.
ROWS = """gpscover 1
rules 0 0 1000000
epoch 1 1388102400000000000000 4
sat G01 20000000000000 20000000000000 0 0 0 0 20000000000000 20000000000000 -500000 500000
sat G02 0 0 20000000000000 20000000000000 0 0 20000000000000 20000000000000 -500000 500000
sat G03 0 0 0 0 20000000000000 20000000000000 20000000000000 20000000000000 -500000 500000
sat G04 12000000000000 12000000000000 16000000000000 16000000000000 0 0 20000000000000 20000000000000 -500000 500000
root -1000000 -900000 -900000 1000000 900000 900000
"""
EDGE_LOG = ROWS + "edge 0 -1400000 1400000\ndone 0\n"


def few_log(first, last):
    """The log of some epochs of MANY_OBS."""
    times = ((k, 1388620800070000000000 + 30 * 10**12 * (k - 1)) for k in range(first, last + 1))
    return HEAD + "".join(f"few {k} {time} 0\nskip G02 1\n" for k, time in times)


def few_report(first, last):
    """The report of the same."""
    return "".join(f"epoch {k} gps {1388620800 + 30 * (k - 1)}.070000000000 few 0\n" for k in range(first, last + 1))


# ---- runs

def marks(folder, but=()):
    """What tells of each file, but these, that it was made or written."""
    stats = {path.name: path.stat() for path in folder.iterdir() if path.is_file() and path.name not in but}
    return {name: (it.st_ino, it.st_size, it.st_mtime_ns) for name, it in stats.items()}


def feed(path, data):
    """Writes into a pipe in packets of one byte, of which a read takes one (pipe(2), O_DIRECT)."""
    with contextlib.suppress(BrokenPipeError), open(path, "wb", buffering=0) as pipe:
        fcntl.fcntl(pipe, fcntl.F_SETFL, os.O_WRONLY | os.O_DIRECT)
        for byte in data:
            pipe.write(bytes([byte]))


@contextlib.contextmanager
def pipes(folder, texts):
    """Pipes of these names that give these texts, one byte a read."""
    writers = {}
    for name, text in texts.items():
        os.mkfifo(folder / name)
        writers[name] = threading.Thread(target=feed, args=(folder / name, text.encode()), daemon=True)
        writers[name].start()
    try:
        yield
    finally:
        for name, writer in writers.items():
            # One that wasn't read is opened and closed, which ends its writer.
            os.close(os.open(folder / name, os.O_RDONLY | os.O_NONBLOCK))
            writer.join(timeout=60)


class WholeRuns:
    @pytest.fixture(autouse=True)
    def program_and_folders(self, program, request):
        self.program, self.at_end = program, request.addfinalizer

    def folder(self, files):
        """A new folder with these files."""
        room = tempfile.TemporaryDirectory()
        self.at_end(room.cleanup)
        folder = Path(room.name)
        for name, text in files.items():
            with open(folder / name, "wb") as file:
                if isinstance(text, Zeros):
                    file.truncate(text.size)
                else:
                    file.write(text.encode())
        return folder

    def run_in(self, folder, words):
        """Runs the program on the words in the folder: its status, standard output and standard error."""
        ran = subprocess.run([self.program, *words], cwd=folder, stdin=subprocess.DEVNULL, capture_output=True, timeout=300)
        return ran.returncode, ran.stdout, ran.stderr

    def expect_in(self, folder, words, status=DONE, out="", err="", made=None):
        """A run in the folder, and what it leaves: these texts, these files, and each other as it was."""
        made = {name: text.encode() for name, text in (made or {}).items()}
        left = marks(folder, made)
        assert self.run_in(folder, words) == (status, out.encode(), err.encode()), words
        assert {name: (folder / name).read_bytes() for name in made if (folder / name).is_file()} == made, words
        assert marks(folder, made) == left, words

    def expect(self, words, files, status=DONE, out="", err="", made=None):
        """A run in a folder of these files."""
        self.expect_in(self.folder(files), words, status, out, err, made)

    def expect_twice(self, words, files, status=DONE, out="", err="", made=None):
        """The same, and once more where the files are pipes that give one byte a read."""
        self.expect(words, files, status, out, err, made)
        texts = {name: text for name, text in files.items() if isinstance(text, str)}
        folder = self.folder({name: text for name, text in files.items() if name not in texts})
        with pipes(folder, texts):
            self.expect_in(folder, words, status, out, err, made)

    def done_in(self, folder, words):
        """What a run that does its job prints."""
        status, out, err = self.run_in(folder, words)
        assert (status, err) == (DONE, b""), words
        return out.decode()

    def written_in(self, folder, words, name="b.log"):
        """The log that a run writes which does its job, and its report."""
        report = self.done_in(folder, words)
        return (folder / name).read_bytes().decode(), report


class TestWords(WholeRuns):
    """Words that ask for a command, and words that don't."""

    FILES = {
        "o": MANY_OBS, "n": NAV, "s": SETTINGS, "moving": SETTINGS + "[motion]\nspeed = 0\n",
        "z": "gpszones 2\nzone a 0 0 0 1 1 1\n",
    }

    def test_taken_with_a_log_or_rows(self):
        """Of all names that are asked for, the right one alone is there."""
        for words, name in (
            (["judge", "x"], "x"), (["judge", "-"], "-"), (["judge", "solve"], "solve"),
            (["judge", "--", "-x"], "-x"), (["judge", "--", "--"], "--"),
        ):
            self.expect(words, {name: EDGE_LOG}, DONE, "yes 1\n")
        self.expect(["judge", ""], {"x": EDGE_LOG}, READ_FAULT, err="log fault\n")
        self.expect(["pave", "r", "l"], {"r": HEAD}, made={"l": HEAD})

    def test_taken_with_files_of_a_receiver(self):
        """The epochs that are asked for, of 24, are solved or tracked into the log that is named."""
        for words, log, first, last in (
            ("solve o n s l", "l", 1, 24), ("solve o n s l --from 3", "l", 3, 24),
            ("solve o n s l --from 3 --to 2", "l", 3, 2), ("solve o n s l --from=3", "l", 3, 24),
            ("solve o --to 7 n --from=2 s l", "l", 2, 7), ("solve o n s -- -l", "-l", 1, 24),
            ("track o n moving l", "l", 1, 24), ("track o n moving l --from 3 --to 20", "l", 3, 20),
            ("track o n moving l --after x", "l", 1, 24), ("track --after=x o --to 20 n moving l --from 3", "l", 3, 20),
        ):
            made = {log: few_log(first, last)}
            self.expect(words.split(), self.FILES | {"x": HEAD}, DONE, few_report(first, last), made=made)

    def test_taken_with_a_log_of_a_receiver(self):
        """A log of the epochs that are asked for is accepted, and a longer or a shorter one isn't."""
        for words, first, last in (
            ("check o n s l", 1, 24), ("check o n s l --to 200000", 1, 24), ("check o n s l --to 20 --from 3", 3, 20),
            ("check --to 7 o n s l", 1, 7), ("retrack --to 7 o n moving --from=2 l", 2, 7),
            ("retrack o n moving l --after l --from 3", 3, 24),
        ):
            self.expect(words.split(), self.FILES | {"l": few_log(first, last)}, DONE, "yes 0\n")
            shorter = f"no 51 EpochDiffers line {3 + 2 * (last - first)}\n"
            self.expect(words.split(), self.FILES | {"l": few_log(first, last - 1)}, NO, shorter)
            longer = f"no 51 EpochDiffers line {5 + 2 * (last - first)}\n"
            self.expect(words.split(), self.FILES | {"l": few_log(first, last + 1)}, NO, longer)

    def test_taken_with_zones(self):
        for words, log, first, last in (
            ("guard o n s z l", "l", 1, 24), ("guard o n moving z l --from 3 --track", "l", 3, 24),
            ("guard --track o n moving z --to=7 l", "l", 1, 7), ("guard o n s z -- --track", "--track", 1, 24),
            ("guard --after l o n moving z l --track --from 3", "l", 3, 24),
        ):
            said = "".join(f"epoch {k} few\n" for k in range(first, last + 1))
            said += f"zone a outside 0 inside 0 open 0 few {last + 1 - first}\n"
            self.expect(words.split(), self.FILES | {log: few_log(first, last)}, DONE, said)

    def test_taken_for_a_track(self):
        """What asks for a track wants a speed, which is missed before the navigation file is read."""
        for words in (
            "track o n s l", "track o n s l --from 3 --to 20", "retrack --to 7 o n s --from=2 l",
            "guard o n s z l --from 3 --track", "guard --track o n s z --to=7 l",
        ):
            files = self.FILES | {"n": "", "l": few_log(1, 24)}
            self.expect(words.split(), files, REFUSED, err="settings 31 Missing motion.speed\n")

    def test_taken_for_a_made_receiver(self):
        """The least and the greatest numbers, and two between."""
        for words, said in (
            ("make 7 3", "made seed 7 epochs 3 satellites 24\nboxes in "),
            ("make 0 1", "made seed 0 epochs 1 satellites 8\nboxes in "),
            ("make 4294967295 240", "made seed 4294967295 epochs 240 satellites 1920\nboxes in "),
        ):
            assert self.done_in(self.folder({}), words.split())[: len(said)] == said

    def test_quiet(self):
        """`--quiet` stands where an option may, and nothing is printed of a log that is the same."""
        for words, log, first, last in (
            ("solve o n s l --quiet", "l", 1, 24), ("solve --quiet o n s l", "l", 1, 24),
            ("solve o n --quiet s l --from 3", "l", 3, 24), ("solve o n s l --from 3 --quiet --to=7", "l", 3, 7),
            ("track o n moving l --quiet", "l", 1, 24), ("track o n moving l --to 20 --quiet", "l", 1, 20),
        ):
            self.expect(words.split(), self.FILES, DONE, made={log: few_log(first, last)})
        self.expect("pave r l --quiet".split(), {"r": ROWS}, made={"l": EDGE_LOG})
        self.expect("pave --quiet r l".split(), {"r": ROWS}, made={"l": EDGE_LOG})
        # Behind two dashes it is a name.
        named = {"--quiet": few_log(1, 24)}
        self.expect("solve o n s -- --quiet".split(), self.FILES, DONE, few_report(1, 24), made=named)

    def test_not_taken(self):
        """Numbers are decimal digits from 1 to 200,000, with no sign and no zero in front."""
        check = ["check", "o", "n", "s", "l"]
        for words in (
            [], [""], ["judge", "-5"], ["solve", "o", "n", "s", "l", "--from", ""], [*check, "--from", ""],
            [*check, "--from", "1 "],
            *([*check, *more.split()] for more in (
                "--from 0", "--from 07", "--from +3", "--from -3", "--from=-3", "--from 200001", "--from=", "--from",
                "--from 1 --from 1", "--to 2 --to 2", "--fro 1", "m",
            )),
            *map(str.split, (
                "judge -l", "pave -r l", "pave r -l", "check o n s", "solve o -n s l",
                "judge", "judge x y", "jud x", "paint x", "Judge x", "help", "--help", "-h", "--version", "judge --help",
                "judge -h", "-- judge x", "judge x --from 3", "pave r", "pave r l m", "solve", "solve o n s",
                "solve o n s l m", "solve o n s l --fro 3", "solve o n s l --from", "solve o n s l --from -3",
                "solve o n s l --from 3 --from 3", "check o n s l --to 3 --to 4", "solve o n s l --from 0",
                "solve o n s l --from 07", "solve o n s l --from +3", "solve o n s l --from 3x", "solve o n s l --from=",
                "solve o n s l --from=-3", "check o n s l --to 200001", "track o n s", "tracks o n s l",
                "retrack o n s l --to 0", "guard o n s l", "guard o n s z l m", "guard o n s z l --track --track",
                "guard o n s z l --track=true", "guard o n s z l --track=1", "guard o n s z l --track x",
                "check o n s l --track", "make 7", "make 7 3 9", "make -1 3", "make 07 3", "make 4294967296 3", "make 7 0",
                "make 7 241", "solve o n s l --quiet --quiet", "track o n moving l --quiet --from 3 --quiet",
                "pave r l --quiet --quiet", "solve o n s l --quiet=true", "solve o n s l --quie", "solve o n s l -q",
                "pave r l --quiet x", "check o n s l --quiet", "retrack o n moving l --quiet",
                "guard o n s z l --quiet", "judge x --quiet", "make 7 3 --quiet",
                "solve o n s l --after x", "check o n s l --after x", "guard o n s z l --after x", "judge x --after x",
                "pave r l --after x", "track o n moving l --after", "track o n moving l --after x --after x",
                "retrack o n moving l --after -x", "guard o n moving z l --track --after x --after x",
            )),
        ):
            self.expect(words, self.FILES | {"x": EDGE_LOG, "r": ROWS}, NO_COMMAND, err=USAGE.decode())


class TestJudging(WholeRuns):
    def test_a_log_is_judged(self):
        for words in ["judge", "a.log"], ["judge", "--", "a.log"]:
            self.expect_twice(words, {"a.log": EDGE_LOG}, DONE, "yes 1\n")
        bare = "gpscover 1\nrules 0 0 1000000\nepoch 1 0 4\nroot 0 0 0 0 0 0\ndone 0\n"
        self.expect_twice(["judge", "a.log"], {"a.log": bare}, NO, "no 52 SatelliteDiffers line 3\n")

    def test_what_is_no_log_is_refused(self):
        head = "gpscover 1\nrules 0 0 1000000\n"
        for log, line, kind in (
            ("", 1, 4), ("gpscover 5\n", 1, 1), ("gpscover 4\n", 2, 4), (head + "done 0\n", 3, 2),
            (head + "epoch 1 0 0\nroot 0 0 0 0 0 0\ncut 0 6 0\n", 5, 3),
        ):
            refused = f"log 40 BadLog line {line} kind {kind}\n"
            self.expect_twice(["judge", "a.log"], {"a.log": log}, REFUSED, err=refused)

    def test_a_missing_log_is_a_read_fault(self):
        for words in ["judge", "-"], ["judge", "--", "-l"]:
            self.expect(words, {"a.log": EDGE_LOG}, READ_FAULT, err="log fault\n")


class TestPaving(WholeRuns):
    # The first satellite is 10 m too far off for any point, in the second of two epochs. The first epoch has too few.
    EMPTY = ROWS.replace("epoch 1", "few 1 0 3\nskip G07 6 20\nepoch 2").replace(
        "0 0 0 0 20000000000000 20000000000000", "0 0 0 0 20000010000000 20000010000000", 1
    )
    # One of five satellites may be wrong, and all points fit.
    INNER = (
        ROWS.replace("rules 0", "rules 1").replace("000 4\n", "000 5\n").replace("-500000 500000", "-1000000 1000000")
    ).replace("root", "sat G05 0 0 0 0 -20000000000000 -20000000000000 20000000000000 20000000000000 -1000000 1000000\nroot")
    FEW = "gpscover 1\nrules 1 0 1000000\nfew 1 1388102400000000000000 4\n"

    def test_rows_are_paved_and_reported(self):
        root = "-1.000000 1.000000 -0.900000 0.900000 -0.900000 0.900000"
        first = "epoch 1 gps 1388102400.000000000000"
        for rows, steps, report in (
            (ROWS, "edge 0 -1400000 1400000\ndone 0\n", f"""{first} satellites 4
edge {root} clock -1.400000 1.400000
total in 0 edge 1 out 0 bisections 0
"""),
            (ROWS.replace("rules 0 0", "rules 0 1"), "split 0 0\nedge 1 -1400000 500000\nedge 2 -499999 1400000\ndone 1\n",
             f"""{first} satellites 4
edge -1.000000 0.000000 -0.900000 0.900000 -0.900000 0.900000 clock -1.400000 0.500000
edge 0.000001 1.000000 -0.900000 0.900000 -0.900000 0.900000 clock -0.499999 1.400000
total in 0 edge 2 out 0 bisections 1
"""),
            (self.EMPTY, "out 0\ndone 0\n", f"""epoch 1 gps 0.000000000000 few 3
epoch 2 gps 1388102400.000000000000 satellites 4
out {root}
total in 0 edge 0 out 1 bisections 0
"""),
            (self.INNER, "in 0 0 -1900000 1900000\ndone 0\n", f"""{first} satellites 5
in {root} clock 0.000000
total in 1 edge 0 out 0 bisections 0
"""),
            (self.FEW, "", f"{first} few 4\n"),
            ("gpscover 1\nrules 8 200000 1000\n", "", ""),
        ):
            self.expect_twice(["pave", "a.rows", "b.log"], {"a.rows": rows}, DONE, report, made={"b.log": rows + steps})
            self.expect(["pave", "a.rows", "b.log", "--quiet"], {"a.rows": rows}, DONE, made={"b.log": rows + steps})

    def test_what_is_no_rows_is_refused_quietly_too(self):
        refused = "rows 40 BadLog line 9 kind 2\n"
        self.expect(["pave", "a.rows", "b.log", "--quiet"], {"a.rows": EDGE_LOG}, REFUSED, err=refused)
        self.expect(["pave", "c.rows", "b.log", "--quiet"], {"a.rows": ROWS}, READ_FAULT, err="rows fault\n")

    def test_what_is_no_rows_is_refused(self):
        bare = "gpscover 1\nrules 0 0 1000000\nepoch 1 0 4\nroot 0 0 0 0 0 0\n"
        for rows, line, kind in (EDGE_LOG, 9, 2), ("gpscover 1\n", 2, 4), (bare, 3, 5):
            refused = f"rows 40 BadLog line {line} kind {kind}\n"
            self.expect_twice(["pave", "a.rows", "b.log"], {"a.rows": rows}, REFUSED, err=refused)


class TestMaking(WholeRuns):
    def test_a_made_receiver_is_solved(self):
        """Each time so, and no file is touched."""
        for seed, epochs in (0, 1), (7, 3), (4294967295, 2):
            first, second = (self.made_in(self.folder(RECEIVER), seed, epochs) for _ in range(2))
            assert first == second
            made, boxes, end = first.split("\n")
            assert (made, end) == (f"made seed {seed} epochs {epochs} satellites {8 * epochs}", "")
            assert re.search(r"^boxes in \d+ edge \d+ out \d+ bisections \d+$", boxes)
            assert int(boxes.split()[-1]) <= 64 * epochs

    def made_in(self, folder, seed, epochs):
        left = marks(folder)
        said = self.done_in(folder, ["make", str(seed), str(epochs)])
        assert marks(folder) == left
        return said

    def written(self, texts, writer, checker, first, renewals):
        """The report of a log that is written of these files. The checker and `judge` accept it, with the boxes of the
        report."""
        folder = self.folder({f"a.{kind}": text for kind, text in texts.items()})
        files = ["a.obs", "a.nav", "a.toml", "b.log"]
        log, report = self.written_in(folder, [writer, *files])
        assert log[: len(first)] == first
        self.expect_in(folder, [writer, "--quiet", *files[:3], "c.log"], DONE, made={"c.log": log})
        assert (count(log, "renew ") > 0) == renewals
        yes = f"yes {count(report, 'in ') + count(report, 'edge ')}\n"
        for words in [checker, *files], ["judge", "b.log"]:
            self.expect_in(folder, words, DONE, yes)
        return report

    def test_made_files_are_solved_and_checked(self):
        """The totals are those of the report, and the place is held."""
        report = self.written(made_files.Made(7, 3).texts(), "solve", "check", "gpscover 1\n", False)
        boxes = " ".join(f"{kind} {count(report, kind + ' ')}" for kind in ("in", "edge", "out"))
        lines = f"made seed 7 epochs 3 satellites 24\nboxes {boxes} bisections "
        assert self.done_in(self.folder({}), ["make", "7", "3"])[: len(lines)] == lines
        for seed, epochs in (7, 3), (0, 1), (4294967295, 9):
            first = lines if seed == 7 else f"made seed {seed} epochs {epochs} satellites {8 * epochs}\n"
            assert made_files.solve_and_check(self.program, self.folder({}), seed, epochs).startswith(first)

    def test_made_files_are_solved_with_renewed_rows(self):
        """Rows are renewed where the settings ask for it."""
        for renew, motion, writer, checker, first in (
            ("false", "", "solve", "check", "gpscover 1\n"), ("true", "", "solve", "check", "gpscover 2\n"),
            ("true", "[motion]\nspeed = 100\n", "track", "retrack", "gpscover 2\n"),
        ):
            texts = made_files.Made(7, 3).texts()
            settings = texts["toml"].replace("[search]\n", f"[search]\nrenew = {renew}\n") + motion
            self.written(texts | {"toml": settings}, writer, checker, first, renew == "true")


class TestNarrowing(WholeRuns):
    """A solved log with a narrower row: a span may lose the room that `solve` gave it, and no more. Where the bound of the
    troposphere is mapped by elevation, so may those of the ends of the error."""

    PLAIN = UNSPLIT.replace("half = 200000", "half = 1000")
    # The same with a delay at the zenith, where the satellites stand.
    MAPPED = PLAIN.partition("[bounds]")[0] + """[bounds]
receiver = [0, 0]
orbit_clock = [0, 0]
ionosphere = [0, 0]
troposphere = [0, 0]
zenith = [2000, 2500]
"""
    # The numbers of both ends in a row, counted behind the satellite, what a solved log has more at each end, in um, and two
    # numbers that the own span holds. The room is 2,000 and a 40,000th of the box's side of 2 m; of the ends of the error it
    # is 2,000 and 2.5 m times the side over 3 km. Along x the satellite is turned with the earth until its signal comes in.
    PLACES = (
        (PLAIN, 0, 1, 2_050, 27_039_999_999_658, 27_039_999_999_658),
        (MAPPED, 0, 1, 2_050, 27_039_999_999_658, 27_039_999_999_658),
        (MAPPED, 8, 10, 3_666, 2_000_000, 2_000_001),
        (MAPPED, 11, 9, 3_666, 2_500_000, 2_500_001),
    )

    def test_a_span_narrower_than_the_own_one_is_refused(self):
        for settings, low, high, room, held, held_too in self.PLACES:
            files = {"a.obs": FOUR_HEADER + epoch(0, *FOUR), "a.nav": FOUR_NAV, "a.toml": settings}
            log, _ = self.written_in(self.folder(files), ["solve", *files, "b.log"])
            check = ["check", *files, "a.log"]
            self.expect(check, files | {"a.log": log}, DONE, "yes 1\n")
            row = first_row(log)
            own = row[low] + room, row[high] - room
            assert own[0] <= held and held_too <= own[1], own
            for less_low, less_high in (0, 0), (1, 0), (0, 1):
                row[low], row[high] = theirs = own[0] + less_low, own[1] - less_high
                status, said = DONE, "yes 1\n"
                if theirs != own:
                    status = NO
                    said = f"no 53 RowNarrow line 4 theirs {theirs[0]} {theirs[1]} ours {own[0]} {own[1]}\n"
                self.expect(check, files | {"a.log": with_first_row(log, row)}, status, said)


def count(text, word):
    """How many lines of a text begin so."""
    return sum(line.startswith(word) for line in text.splitlines())


def first_row(log):
    """The numbers of the first row of a log, behind its satellite."""
    return [int(word) for word in log.partition("sat G01 ")[2].partition("\n")[0].split(" ")]


def with_first_row(log, row):
    """The log with other numbers in its first row."""
    front, name, rest = log.partition("sat G01 ")
    return front + name + " ".join(map(str, row)) + "\n" + rest.partition("\n")[2]


class TestChecking(WholeRuns):
    WORDS = ["check", "a.obs", "a.nav", "a.toml", "a.log"]

    def test_a_log_is_checked_against_files(self):
        self.expect_twice(self.WORDS, RECEIVER, DONE, "yes 0\n")
        for log, said in (
            (LOG.replace("G02 1", "G02 2"), "no 52 SatelliteDiffers line 4\n"),
            (LOG.replace("4096 1000000", "4096 1000001"), "no 50 RulesDiffer line 2\n"),
            (HEAD, "no 51 EpochDiffers line 3\n"),
        ):
            self.expect_twice(self.WORDS, RECEIVER | {"a.log": log}, NO, said)

    def test_a_block_of_few_is_checked_against_its_epoch(self):
        """Of the two satellites one is usable, and the code of the other is missing. (With test 2 in the place of 1 it is the
        log of the test before, and unchanged it is that of the first.)"""
        for usable, skips, line in ((1, ["G03 1"], 4), (1, [], 4), (1, ["G02 1", "G03 1"], 5), (2, ["G02 1"], 3)):
            log = f"{HEAD}few 1 1388620800070000000000 {usable}\n" + "".join(f"skip {skip}\n" for skip in skips)
            self.expect(self.WORDS, RECEIVER | {"a.log": log}, NO, f"no 52 SatelliteDiffers line {line}\n")

    def test_the_version_is_checked_against_settings(self):
        """The first line of a log tells of pairs what the settings do. Rows may be renewed whatever these say."""
        differ, same = (NO, "no 50 RulesDiffer line 2\n"), (DONE, "yes 0\n")
        for settings, version, (status, said) in (
            (SETTINGS, 3, differ), (PAIRS_SETTINGS, 1, differ), (PAIRS_SETTINGS, 3, same), (SETTINGS, 2, same),
            (PAIRS_SETTINGS, 2, differ), (SETTINGS, 4, differ), (PAIRS_SETTINGS, 4, same),
        ):
            log = LOG.replace("gpscover 1", f"gpscover {version}")
            self.expect_twice(self.WORDS, RECEIVER | {"a.toml": settings, "a.log": log}, status, said)

    def test_events_are_passed_over(self):
        """Nothing is lost by an event, unless it changes the types of the observations."""
        event = ">".ljust(31) + "4  1\n"
        for record, status, said, refused in (
            (header(("a remark", "COMMENT")), DONE, "yes 0\n", ""),
            (header(TYPES), REFUSED, "", "obs 25 HeaderChange line 6\n"),
        ):
            obs = OBS_HEADER + event + record + OBS.removeprefix(OBS_HEADER)
            self.expect_twice(self.WORDS, RECEIVER | {"a.obs": obs}, status, said, refused)

    def test_files_are_refused_in_their_order(self):
        """The settings come first, then the navigation file, and the log comes last. Each file is bad that comes behind."""
        files = RECEIVER
        for name, text, refused in (
            ("a.log", "gpscover 5\n", "log 40 BadLog line 1 kind 1\n"),
            ("a.obs", OBS.removesuffix("G02\n"), "obs 24 Truncated line 7\n"),
            ("a.nav", BAD_NAV, "nav 23 BadNumber line 3\n"),
            ("a.nav", Zeros(INPUT + 1), f"nav 29 TooLong {INPUT}\n"),
            ("a.toml", '[search]\ncentre = "header"\n', "settings 31 Missing search.half\n"),
            ("a.toml", "x", "settings 30 NotToml\n"),
        ):
            files = files | {name: text}
            self.expect_twice(self.WORDS, files, REFUSED, err=refused)
        files = RECEIVER | {"a.log": "gpscover 5\n", "a.obs": OBS.removesuffix("G02\n")}
        self.expect_twice(["check", "a.obs", "c.nav", "a.toml", "a.log"], files, READ_FAULT, err="nav fault\n")

    def test_an_epoch_of_few_satellites_is_solved(self):
        """What is solved is checked with the same files."""
        report = "epoch 1 gps 1388620800.070000000000 few 1\n"
        self.expect_twice(["solve", "a.obs", "a.nav", "a.toml", "b.log"], RECEIVER, DONE, report, made={"b.log": LOG})


class TestParts(WholeRuns):
    FILES = RECEIVER | {"a.obs": TWO_OBS}
    FIRST = LOG
    SECOND = HEAD + "few 2 1388620830070000000000 0\nskip G02 1\n"
    BOTH = FIRST + SECOND.removeprefix(HEAD)

    def test_a_file_is_solved_in_parts(self):
        first = "epoch 1 gps 1388620800.070000000000 few 1\n"
        second = "epoch 2 gps 1388620830.070000000000 few 0\n"
        for words, report, log in (
            ("solve a.obs a.nav a.toml b.log", first + second, self.BOTH),
            ("solve a.obs a.nav a.toml b.log --to 1", first, self.FIRST),
            ("solve --from=2 a.obs a.nav a.toml b.log", second, self.SECOND),
            ("solve a.obs --to 2 a.nav a.toml b.log --from 3", "", HEAD),
        ):
            self.expect(words.split(), self.FILES, DONE, report, made={"b.log": log})

    def test_a_part_is_checked_with_its_options(self):
        """Each part is checked with its own options, and differs by those of another."""
        first, second, none = ["--to", "1"], ["--from", "2"], ["--from", "200000"]
        for part, log, line in (
            ([], self.BOTH, None), (first, self.FIRST, None), (second, self.SECOND, None), (none, HEAD, None),
            ([], self.FIRST, 5), ([], self.SECOND, 3), (first, self.SECOND, 3), (second, self.FIRST, 3),
            (first, self.BOTH, 5), (first, HEAD, 3), (none, self.FIRST, 3),
        ):
            status, said = (NO, f"no 51 EpochDiffers line {line}\n") if line else (DONE, "yes 0\n")
            self.expect(["check", *self.FILES, *part], self.FILES | {"a.log": log}, status, said)


def second_verdict(folder):
    """What the second checker says of the log of a track."""
    try:
        files = recheck.Files(*(str(folder / name) for name in TestTracks.FILES), moving=True)
        return f"yes {recheck.TrackJudge(recheck.read_log((folder / 'b.log').read_bytes()), files).verdict()}"
    except recheck.Ended as end:
        return end.args[1]


class TestTracks(WholeRuns):
    """What `track` writes, and what `retrack` says of it and of logs that were changed. A log of TRACK_FILES has a head of
    two lines, and of each epoch 8, from its own to `done`."""

    FILES = ["a.obs", "a.nav", "a.toml"]

    def tracked(self, files):
        """The lines of the log of a track, its report, and its folder, in which `retrack` accepts it."""
        folder = self.folder(files)
        log, report = self.written_in(folder, ["track", *self.FILES, "b.log"])
        yes = f"yes {count(report, 'in ') + count(report, 'edge ')}\n"
        self.expect_in(folder, ["retrack", *self.FILES, "b.log"], DONE, yes)
        return log.splitlines(keepends=True), report, folder

    def expect_denied(self, files, lines, said):
        self.expect(["retrack", *self.FILES, "a.log"], files | {"a.log": "".join(lines)}, NO, said)

    def test_an_epoch_of_few_satellites_is_tracked(self):
        """It ends no track."""
        folder = self.folder({"a.obs": OBS, "a.nav": NAV, "a.toml": SETTINGS + "[motion]\nspeed = 0\n"})
        report = "epoch 1 gps 1388620800.070000000000 few 1\n"
        self.expect_in(folder, ["track", *self.FILES, "b.log"], DONE, report, made={"b.log": LOG})
        self.expect_in(folder, ["retrack", *self.FILES, "b.log"], DONE, "yes 0\n")

    def test_a_receiver_is_lost(self):
        """A block behind the one in which the receiver was lost is one too many."""
        files = TRACK_FILES | {"a.obs": LOST_OBS}
        lines, report, folder = self.tracked(files)
        end = "total in 0 edge 0 out 1 bisections 0\nlost 2\n"
        assert report[-len(end):] == end
        assert len(lines) == 18
        # The line belongs to the report, and the log shows it: its last epoch keeps no box.
        self.expect_in(folder, ["track", *self.FILES, "c.log", "--quiet"], DONE, made={"c.log": "".join(lines)})
        self.expect_in(folder, ["retrack", *self.FILES, "b.log"], DONE, "yes 1\n")
        third, _ = self.written_in(folder, ["solve", *self.FILES, "c.log", "--from", "3"], "c.log")
        longer = [*lines, *third.splitlines(keepends=True)[2:10]]
        self.expect_denied(files, longer, "no 51 EpochDiffers line 19\n")

    def test_a_track_begins_anew(self):
        """Behind the epoch in which the receiver is lost, from the search box: it is searched as by `solve` there."""
        files = TRACK_FILES | {"a.obs": LOST_OBS, "a.toml": ANEW}
        lines, report, folder = self.tracked(files)
        assert "lost" not in report
        third, _ = self.written_in(folder, ["solve", *self.FILES, "c.log", "--from", "3"], "c.log")
        assert lines[18:] == third.splitlines(keepends=True)[2:]
        self.expect_denied(files, lines[:18], "no 51 EpochDiffers line 19\n")
        # By settings without the key the track ends there.
        ended, report, _ = self.tracked(files | {"a.toml": MOVING})
        assert (ended, report[-7:]) == (lines[:18], "lost 2\n")
        self.expect_denied(files | {"a.toml": MOVING}, lines, "no 51 EpochDiffers line 19\n")

    def test_a_last_epoch_is_lost(self):
        """The report says so, whether the track would begin anew or not."""
        folder = self.folder(TRACK_FILES | {"a.obs": LOST_OBS, "a.toml": ANEW})
        words = ["a.obs", "a.nav", "a.toml", "b.log", "--to", "2"]
        assert self.done_in(folder, ["track", *words])[-7:] == "lost 2\n"
        self.expect_in(folder, ["retrack", *words], DONE, "yes 1\n")

    def test_a_track_that_is_not_lost_never_begins_anew(self):
        """The key changes nothing of its log and report."""
        assert self.tracked(TRACK_FILES | {"a.toml": ANEW})[:2] == self.tracked(TRACK_FILES)[:2]

    def test_a_fault_of_an_epoch_leaves_two_pieces(self):
        """The ranges of three satellites are 300 m too long in the third epoch of a made receiver."""
        made = made_files.Made(7, 6)
        texts = made.texts()
        head, *epochs = texts["obs"].split("> ")
        epochs[2] = re.sub(r"(?m)^(G0[246]) +(\d+)", lambda it: f"{it[1]}{int(it[2]) + 300:>10}", epochs[2])
        files = {"a.obs": "> ".join([head, *epochs]), "a.nav": texts["nav"]}
        motion = texts["toml"] + "\n[motion]\nspeed = 100\n"
        lines, _, folder = self.tracked(files | {"a.toml": motion + "restart = true\n"})
        held = [made_files.is_held(epoch, made.receiver) for epoch in log_epochs(folder / "b.log")]
        assert held == [True, True, False, True, True, True]
        roots = [line for line in lines if line.startswith("root ")]
        assert [root == roots[0] for root in roots] == [True, False, False, True, False, False]
        assert second_verdict(folder) == f"yes {sum(len(epoch.kept) for epoch in log_epochs(folder / 'b.log'))}"
        ended, report, _ = self.tracked(files | {"a.toml": motion})
        assert (ended, report[-7:]) == (lines[: len(ended)], "lost 3\n")
        denied = f"no 51 EpochDiffers line {len(ended) + 1}"
        self.expect_denied(files | {"a.toml": motion}, lines, f"{denied}\n")
        (folder / "a.toml").write_text(motion)
        assert second_verdict(folder) == denied

    def test_a_track_in_parts(self):
        """Ten parts of a made receiver that stands, each behind the one before: their blocks are those of the one track over
        all epochs. A part that is checked behind another one, or behind none, has the wrong root."""
        texts = made_files.Made(7, 20).texts()
        files = {"a.obs": texts["obs"], "a.nav": texts["nav"], "a.toml": texts["toml"] + "\n[motion]\nspeed = 0\n"}
        lines, report, folder = self.tracked(files)
        assert "lost" not in report and count("".join(lines), "few ") == 0
        parts, after = [], []
        for part in range(10):
            name, numbers = f"{part}.log", ["--from", str(2 * part + 1), "--to", str(2 * part + 2)]
            log, report = self.written_in(folder, ["track", *self.FILES, name, *numbers, *after], name)
            yes = f"yes {count(report, 'in ') + count(report, 'edge ')}\n"
            self.expect_in(folder, ["retrack", *self.FILES, name, *numbers, *after], DONE, yes)
            files = recheck.Files(
                *(str(folder / it) for it in self.FILES), 2 * part + 1, 2 * part + 2, True, None, *(str(folder / it) for it in after[1:])
            )
            assert f"yes {recheck.TrackJudge(recheck.read_log(log.encode()), files).verdict()}\n" == yes
            parts += log.splitlines(keepends=True)[2:]
            after = ["--after", name]
        assert parts == lines[2:]
        root = 3 + next(at for at, line in enumerate(log.splitlines()[2:]) if line.startswith("root "))
        for other in [], ["--after", "0.log"]:
            words = ["retrack", *self.FILES, name, *numbers, *other]
            self.expect_in(folder, words, NO, f"no 55 RootDiffers line {root}\n")

    def test_a_track_behind_a_solved_log(self):
        """Each epoch of TRACK_FILES keeps its root, which is the search box, and so does the one behind it."""
        folder = self.folder(TRACK_FILES)
        whole, _ = self.written_in(folder, ["track", *self.FILES, "b.log"])
        self.done_in(folder, ["solve", *self.FILES, "s.log", "--to", "2"])
        words = [*self.FILES, "c.log", "--from", "3", "--after", "s.log"]
        third, _ = self.written_in(folder, ["track", *words], "c.log")
        assert third.splitlines()[2:] == whole.splitlines()[18:]
        self.expect_in(folder, ["retrack", *words], DONE, "yes 1\n")

    def test_a_track_behind_a_lost_one(self):
        """A log whose last epoch keeps no box leaves nothing: the track begins in the search box."""
        folder = self.folder(TRACK_FILES | {"a.obs": LOST_OBS})
        self.done_in(folder, ["track", *self.FILES, "b.log"])
        third, _ = self.written_in(folder, ["solve", *self.FILES, "s.log", "--from", "3"], "s.log")
        words = [*self.FILES, "c.log", "--from", "3", "--after", "b.log"]
        self.done_in(folder, ["track", *words])
        assert (folder / "c.log").read_text() == third
        self.expect_in(folder, ["retrack", *words], DONE, "yes 1\n")

    def test_an_earlier_log_is_refused(self):
        """It is read last, and its first fault is told before the log is created or read."""
        lines, _, _ = self.tracked(TRACK_FILES)
        wrong = "".join(lines).replace("\ndone 0\n", "\ndone 1\n", 1)
        at = 1 + wrong.splitlines().index("done 1")
        half = re.search(r"(?m)^half = (\d+)$", MOVING)[1]
        # That of a search box which reaches 1 mm farther.
        wide = self.tracked(TRACK_FILES | {"a.toml": MOVING.replace(f"half = {half}", f"half = {int(half) + 1}")})[0]
        for text, status, said in (
            (None, READ_FAULT, "after fault\n"),
            ("", REFUSED, "after 40 BadLog line 1 kind 4\n"),
            (MOVING, REFUSED, "after 40 BadLog line 1 kind 1\n"),
            ("".join(lines)[:-1], REFUSED, f"after 40 BadLog line {len(lines)} kind 4\n"),
            (wrong, REFUSED, f"after 44 BadAfter line {at}\n"),
            ("".join(wide), REFUSED, "after 45 OutsideBox\n"),
            (Zeros(512 * 1024 * 1024 + 1), REFUSED, "after 29 TooLong 536870912\n"),
        ):
            files = TRACK_FILES | {"b.log": "x"} | ({} if text is None else {"e.log": text})
            for words in ["track", *self.FILES, "b.log"], ["retrack", *self.FILES, "b.log"]:
                self.expect([*words, "--after", "e.log"], files, status, err=said)
            guard = ["guard", "--track", *self.FILES, "z", "b.log", "--after", "e.log"]
            self.expect(guard, files | {"z": "x"}, status, err=said)
        # An observation file that isn't accepted comes first.
        self.expect(["track", *self.FILES, "b.log", "--after", "e.log"], TRACK_FILES | {"a.obs": ""}, REFUSED,
                    err="obs 10 NotRinex line 1\n")

    def test_each_epoch_of_a_track_is_wanted(self):
        """Epochs that are left out, at the end or between others."""
        lines, _, folder = self.tracked(TRACK_FILES)
        self.expect_in(folder, ["retrack", *self.FILES, "b.log"], DONE, "yes 3\n")
        self.expect_denied(TRACK_FILES, lines[:18], "no 51 EpochDiffers line 19\n")
        self.expect_denied(TRACK_FILES, lines[:10] + lines[18:], "no 51 EpochDiffers line 11\n")

    def test_a_root_that_is_too_small_is_denied(self):
        """The second root is 1 um too small, on one side alone, in a log of an epoch that keeps its root."""
        lines, _, _ = self.tracked(TRACK_FILES)
        lines[15] = "root 6377937000000 -200000000 -200000000 6378337000000 200000000 199999999\n"
        self.expect_denied(TRACK_FILES, lines, "no 55 RootDiffers line 16\n")

    def test_a_root_of_another_epoch_is_denied(self):
        """A made receiver at 100 mm/s: the second root is that which the first epoch leaves."""
        texts = made_files.Made(7, 3).texts()
        files = {"a.obs": texts["obs"], "a.nav": texts["nav"], "a.toml": texts["toml"] + "\n[motion]\nspeed = 100\n"}
        lines, report, _ = self.tracked(files)
        assert "lost" not in report
        first, second = [at for at, line in enumerate(lines) if line.startswith("root ")][:2]
        lines[second] = lines[first]
        self.expect_denied(files, lines, f"no 55 RootDiffers line {second + 1}\n")


class TestGuards(WholeRuns):
    """What `guard` tells of zones and directions, of logs that are accepted and of one that isn't."""

    WORDS = ["guard", "a.obs", "a.nav", "a.toml", "a.zones", "b.log"]
    FEW = {"a.obs": OBS, "a.nav": NAV, "a.toml": SETTINGS, "b.log": LOG}
    # A box far from the search box, the search box, and half of it; the first form has no totals.
    BOXES = """gpszones 1
zone far 0 0 0 1 1 1
zone all 6377937000000 -200000000 -200000000 6378337000000 200000000 200000000
zone half 6378137000000 -200000000 -200000000 6378337000000 200000000 200000000
"""
    BOX_LINES = "".join(f"epoch {k} zone far outside\nepoch {k} zone all inside\nepoch {k} zone half open\n" for k in (1, 2, 3))
    # A prism that the search box lies beyond, one that cuts it, a group one of whose pieces holds it, one each of whose pieces
    # has a half of it, and two directions.
    PLANES = """gpszones 2
prism low 1
side 1 0 0 6377936999999
prism cut 2
side 1 0 0 6378137000000
side 0 0 1 200000000
group road 2 2
side 1 0 0 6377936999999
side 1 0 0 6377936999999
side 1 0 0 6378337000000
side -1 0 0 -6377937000000
group halves 2 1
side 1 0 0 6378137000000
side -1 0 0 -6378137000000
reach east 0 1 0
reach slant 1 0 -1
"""
    PLANE_LINES = """epoch 1 zone low outside
epoch 1 zone cut open
epoch 1 zone road inside
epoch 1 zone halves open
epoch 1 reach east -200000000 200000000
epoch 1 reach slant 6377737000000 6378537000000
epoch 2 zone low outside
epoch 2 zone cut open
epoch 2 zone road inside
epoch 2 zone halves open
epoch 2 reach east -200000000 200000000
epoch 2 reach slant 6377737000000 6378537000000
epoch 3 zone low outside
epoch 3 zone cut open
epoch 3 zone road inside
epoch 3 zone halves open
epoch 3 reach east -200000000 200000000
epoch 3 reach slant 6377737000000 6378537000000
zone low outside 3 inside 0 open 0 few 0
zone cut outside 0 inside 0 open 3 few 0
zone road outside 0 inside 3 open 0 few 0
zone halves outside 0 inside 0 open 3 few 0
reach east -200000000 200000000
reach slant 6377737000000 6378537000000
"""
    # The same where the second epoch keeps no box, and the third isn't searched.
    LOST_LINES = """epoch 1 zone low outside
epoch 1 zone cut open
epoch 1 zone road inside
epoch 1 zone halves open
epoch 1 reach east -200000000 200000000
epoch 1 reach slant 6377737000000 6378537000000
epoch 2 zone low outside
epoch 2 zone cut outside
epoch 2 zone road outside
epoch 2 zone halves outside
epoch 2 reach east none
epoch 2 reach slant none
zone low outside 2 inside 0 open 0 few 0
zone cut outside 1 inside 0 open 1 few 0
zone road outside 1 inside 1 open 0 few 0
zone halves outside 1 inside 0 open 1 few 0
reach east -200000000 200000000
reach slant 6377737000000 6378537000000
"""

    def test_zones_of_an_epoch_of_few_satellites(self):
        two = "gpszones 2\nzone a 0 0 0 1 1 1\nreach b 1 0 0\n"
        for zones, said in (
            ("gpszones 1\n", "epoch 1 few\n"),
            (two, "epoch 1 few\nzone a outside 0 inside 0 open 0 few 1\nreach b none\n"),
        ):
            self.expect(self.WORDS, self.FEW | {"a.zones": zones}, DONE, said)

    def test_nothing_is_told_of_a_log_that_is_denied(self):
        files = self.FEW | {"a.zones": self.BOXES, "b.log": LOG.replace("G02 1", "G02 2")}
        self.expect(self.WORDS, files, NO, "no 52 SatelliteDiffers line 4\n")

    def test_zones_of_epochs_that_are_paved(self):
        for zones, said in (self.BOXES, self.BOX_LINES), (self.PLANES, self.PLANE_LINES):
            for writer, option in ("solve", []), ("track", ["--track"]):
                folder = self.folder(TRACK_FILES | {"a.zones": zones})
                self.done_in(folder, [writer, *TRACK_FILES, "b.log"])
                self.expect_in(folder, [*self.WORDS, *option], DONE, said)

    def test_zones_of_a_receiver_that_is_lost(self):
        """The log of a track that ends there lacks an epoch for one that stands."""
        folder = self.folder(TRACK_FILES | {"a.obs": LOST_OBS, "a.zones": self.PLANES})
        self.done_in(folder, ["track", *TRACK_FILES, "b.log"])
        self.expect_in(folder, ["guard", "--track", *self.WORDS[1:]], DONE, self.LOST_LINES)
        self.expect_in(folder, self.WORDS, NO, "no 51 EpochDiffers line 19\n")
