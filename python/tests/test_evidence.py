"""Evidence of a run, by the program of GPSCOVER or of ./gpscover.

A bundle is made of one epoch of the example with eight splits, one of a track of two, and one of a track that goes on from
that. Then it is checked in another folder, and each of nineteen changes of the first, three of the second and four of each other
has to be told by the line that it concerns.
"""

import os
import re
import shutil
import subprocess
import tempfile
from pathlib import Path

import pytest
from made_logs import EXAMPLES, TOP, ended, ended_with, written

from gpscover import Error, evidence, observations, signed
from gpscover.program import own_program

PROGRAM = os.environ.get("GPSCOVER") or str(own_program())


def edited(name, old, new):
    """A change of a bundle: in a file the first `old` becomes `new`."""

    def change(folder):
        text = (folder / name).read_text(encoding="utf-8")
        changed = re.sub(old, new, text, count=1)
        if changed == text:
            raise AssertionError(f"{old} isn't in {name}")
        (folder / name).write_text(changed, encoding="utf-8", newline="\n")

    return change


def with_file(folder):
    """One file more."""
    (folder / "more.log").write_text("gpscover 1\n", encoding="utf-8")


CHANGES = (
    ("a pseudorange", edited("receiver.obs", r"(?m)^(G22 +\d+\.\d\d)\d", r"\g<1>9"), "obs: "),
    ("an ephemeris", edited("receiver.nav", "D-09", "D-10"), "nav: "),
    (
        "a declared bound",
        edited("settings.toml", r"receiver = \[-3000, 3000\]", "receiver = [-3000, 3001]"),
        "settings: ",
    ),
    ("a comment of the settings", edited("settings.toml", "# Settings", "# settings"), "settings: "),
    ("a span of clock offsets", edited("receiver.log", r"(?m)^(edge \d+ -\d+)\d", r"\g<1>"), "log: "),
    ("the log's last line", edited("receiver.log", r"done \d+\n", ""), "epochs: "),
    ("the number of boxes", edited("evidence.txt", r"(?m)^check yes \d+", "check yes 1"), "check: "),
    ("the other number of boxes", edited("evidence.txt", r"(?m)^recheck yes \d+", "recheck yes 1"), "recheck: "),
    ("the count of epochs", edited("evidence.txt", "0 empty", "1 empty"), "epochs: "),
    ("the program's checksum", edited("evidence.txt", r"(?m)^(program .* sha256 )[0-9a-f]", r"\g<1>g"), "program: "),
    ("the versions", edited("evidence.txt", r"logs of the versions \d+", "logs of the versions 0"), "version: "),
    ("an option", edited("evidence.txt", "--to 1", "--to 2"), "check: "),
    ("a line less", edited("evidence.txt", r"(?m)^recheck .*\n", ""), "the lines of evidence.txt aren't those"),
    ("a name that leaves the folder", edited("evidence.txt", "(?m)^obs receiver.obs", "obs ../my.obs"), "obs: "),
    ("the words of q", edited("evidence.txt", "(?m)^q at most 1", "q at most 2"), "q: "),
    ("the words of a bound", edited("evidence.txt", "receiver -3.000", "receiver -4.000"), "bounds: "),
    ("the words of an epoch", edited("evidence.txt", r"(?m)^(epoch-1 .* of) \d", r"\g<1> "), "epoch-1: "),
    ("a file more", with_file, "more.log doesn't belong to the bundle"),
    ("a file less", lambda folder: (folder / "receiver.nav").unlink(), "receiver.nav is missing"),
)


def receiver_in(room, more="", change=lambda text: text):
    """The example's files in a folder, and the name of a log: eight splits, more of the settings,
    other observations."""
    files = [room / name for name in ("my.obs", "my.nav", "my.toml", "my.log")]
    obs, nav, settings = (
        (EXAMPLES / name).read_text(encoding="utf-8") for name in ("receiver.obs", "receiver.nav", "settings.toml")
    )
    settings = re.sub(r"(?m)^bisections = .*", "bisections = 8", settings) + more
    for path, text in zip(files, (change(obs), nav, settings)):
        path.write_text(text, encoding="utf-8", newline="\n")
    return files


def bundle_of(room, files, last, track=False):
    """A bundle of the epochs up to a last one, the status of making it, and what it says by the names of its lines."""
    command, more = ("track", ["--track"]) if track else ("solve", [])
    options = ["--to", str(last)]
    subprocess.run([PROGRAM, command, *files, *options], stdout=subprocess.DEVNULL, check=True)
    status, said, _ = ended_with(evidence, "make", room / "bundle", *files, *more, *options, "--program", PROGRAM)
    return room / "bundle", status, dict(line.split(" ", 1) for line in said.splitlines())


def boxes_in(log):
    """How many lines of a log keep a box."""
    return sum(line.startswith(("in ", "edge ")) for line in log.read_text(encoding="ascii").splitlines())


class Room:
    """A folder for the files of a receiver and its bundles."""

    @classmethod
    def setup_class(cls):
        cls.room = Path(tempfile.mkdtemp())

    @classmethod
    def teardown_class(cls):
        shutil.rmtree(cls.room)

    def check(self, folder, *words):
        """The status of `check`, and what it says."""
        try:
            status, out, _ = ended_with(evidence, "check", folder, "--program", PROGRAM, *words)
        except (Error, OSError) as error:
            return 1, str(error)
        return status, out

    def copy(self):
        """A copy of the bundle in another place."""
        folder = Path(tempfile.mkdtemp(dir=self.room)) / "theirs"
        shutil.copytree(self.bundle, folder)
        return folder

    def expect_told(self, changes, *words):
        """Each change of a copy is told by a line that begins with the pattern beside it."""
        for name, change, told in changes:
            folder = self.copy()
            change(folder)
            status, said = self.check(folder, *words)
            assert status == 1
            assert re.search(f"\n{told}", said)


class TestRefused:
    """What isn't a bundle is refused before a checker is asked: no program is needed."""

    SHEET = "gpscover evidence 2\noptions --from 1 --to 1\n"
    NO_SHEETS = (
        "",
        "\n",
        "gpscover evidence 2",
        "gpscover evidence 2\noptions --from 1 --to 1 --to 2\n",
        "gpscover evidence 2\noptions --from 1 --to 200001\n",
        "gpscover evidence 2\noptions --from \u0661 --to 1\n",
    )

    def refused(self, *words):
        """The one line by which the script ends with 1."""
        status, out, err = ended(evidence, *words, "--program", "/nonexistent")
        assert (status, out, err.count("\n")) == (1, "", 1), err
        return err

    def test_sheets_that_say_nothing(self):
        for text in self.NO_SHEETS:
            with written(**{"evidence.txt": text}) as (sheet,):
                assert self.refused("check", sheet.parent) == (
                    f"gpslog evidence: {sheet}: this isn't evidence of gpscover, or it was changed\n"
                )
        with tempfile.TemporaryDirectory() as room:
            assert "No such file or directory" in self.refused("check", room)
            assert "No such file or directory" in self.refused("check", f"{room}/none")

    def test_links_devices_and_folders_are_not_read(self):
        ways = {
            "a link to a file": lambda path: path.symlink_to(EXAMPLES / "receiver.obs"),
            "a link out of the folder": lambda path: path.symlink_to("../outside.obs"),
            "a link to itself": lambda path: path.symlink_to(path.name),
            "a link to a device": lambda path: path.symlink_to("/dev/zero"),
            "a pipe": os.mkfifo,
            "a folder": Path.mkdir,
        }
        for way, make in ways.items():
            for name in ("receiver.obs", "receiver.log", "evidence.txt", "more"):
                with written(**{"evidence.txt": self.SHEET}) as (sheet,):
                    path = sheet.parent / name
                    path.unlink(missing_ok=True)
                    make(path)
                    assert self.refused("check", sheet.parent) == (
                        f"gpslog evidence: {path} isn't a file of the bundle's own, but a link, a"
                        " folder or a device\n"
                    ), way

    def test_nothing_is_left_of_a_bundle_that_lacks_a_file(self):
        with written(obs="", nav="", settings="") as files:
            folder = files[0].parent / "bundle"
            assert "No such file or directory" in self.refused("make", folder, *files, folder.parent / "none")
            assert not folder.exists()
            folder.mkdir()
            assert "File exists" in self.refused("make", folder, *files, files[0])
            assert folder.exists()


class TestBundles(Room):
    @classmethod
    def setup_class(cls):
        super().setup_class()
        cls.files = receiver_in(cls.room, "\n[satellite]\nG05 = [-100, 200]\nG01 = [-5, 5]\n")
        cls.bundle, cls.status, cls.lines = bundle_of(cls.room, cls.files, 1)

    def test_it_says_what_was_counted_by_hand(self):
        assert self.status == 0
        lines = self.lines
        assert (lines["check"], lines["recheck"]) == (f"yes {boxes_in(self.files[3])}",) * 2
        assert re.search(
            "^4 in the file, 1 in the log: 1 paved, 0 few, 0 empty, [01] reach .*; 3 left out$", lines["epochs"]
        )
        assert lines["options"] == "--from 1 --to 1"
        size = os.path.getsize(self.files[0])
        known = subprocess.run(["sha256sum", self.files[0]], capture_output=True, text=True, check=True).stdout.split()[
            0
        ]
        assert lines["obs"] == f"receiver.obs {size} bytes sha256 {known}"

    def test_it_is_right_in_another_place(self):
        status, said = self.check(self.copy(), "--sha256", evidence.checksum(self.bundle / "evidence.txt"))
        assert status == 0
        assert "the bundle is as it says: yes " in said

    def test_each_change_is_told(self):
        self.expect_told((name, change, re.escape(told)) for name, change, told in CHANGES)

    def test_each_change_is_told_without_the_program_but_those_of_its_lines(self):
        names = ("the number of boxes", "the program's checksum", "the versions")
        told = [(name, change, re.escape(said)) for name, change, said in CHANGES if name not in names + ("an option",)]
        self.expect_told(told, "--second-only")
        folder = self.copy()
        status, said = self.check(folder, "--second-only", "--program", "/nonexistent")
        assert (status, said[:26]) == (0, "the bundle is as it says: ") and "the first one wasn't run" in said

    def test_what_is_signed_stands_in_words(self):
        assert self.lines["q"] == "at most 1 of an epoch's satellites broke their bounds"
        assert "receiver -3.000 to 3.000; orbit_clock" in self.lines["bounds"]
        assert self.lines["search"].endswith("z 3716365.893700 to 3718365.893700 m")
        assert "G05 -0.100 to 0.200" in self.lines["satellites"] and "G01" not in self.lines["satellites"]
        assert re.match("2008-05-26 05:59:29.999 GPS time: in a region of [0-9.]+ m east", self.lines["epoch-1"])
        assert "speed" not in self.lines

    def test_a_bundle_that_is_consistent_but_another_is_told_by_its_checksum(self):
        folder = self.copy()
        with open(folder / "settings.toml", "a", encoding="utf-8") as file:
            file.write("# another\n")
        second = TOP / evidence.SECOND
        lines = evidence.made(folder, PROGRAM, second, evidence.Options(1, 1))
        (folder / "evidence.txt").write_text(evidence.sheet(lines), encoding="utf-8", newline="\n")
        assert self.check(folder)[0] == 0
        status, said = self.check(folder, "--sha256", evidence.checksum(self.bundle / "evidence.txt"))
        assert status == 1
        assert "evidence.txt has the checksum" in said

    def test_other_checkers_are_told_unless_that_is_wanted(self):
        folder = self.copy()
        edited("evidence.txt", r"(?m)^(second .* sha256 )[0-9a-f]", r"\g<1>g")(folder)
        assert self.check(folder)[0] == 1
        assert self.check(folder, "--other-program")[0] == 0

    def test_evidence_of_the_form_before_names_what_can_check_it(self):
        folder = self.copy()
        edited("evidence.txt", "gpscover evidence 2", "gpscover evidence 1")(folder)
        assert "check it by the one that its line `version` names" in self.check(folder)[1]

    def test_what_is_no_evidence_is_refused(self):
        for old, new in (("gpscover evidence 2", "gpscover evidence 3"), ("--to 1", "--to 0"), ("options ", "option ")):
            folder = self.copy()
            edited("evidence.txt", old, new)(folder)
            assert "this isn't evidence of gpscover, or it was changed" in self.check(folder)[1]

    def test_there_is_none_where_a_verdict_is_no(self):
        other = self.room / "other.toml"
        other.write_text(
            self.files[2].read_text(encoding="utf-8").replace("[-3000, 3000]", "[-3000, 30000]", 1), encoding="utf-8"
        )
        folder = self.room / "none"
        with pytest.raises(Error, match="no evidence: check says no 53 RowNarrow line 4 .*, recheck says no 53"):
            ended_with(evidence, "make", folder, *self.files[:2], other, self.files[3], "--to", 1, "--program", PROGRAM)
        assert not folder.exists()

    def test_events_are_no_epochs(self):
        path = self.room / "events.obs"
        path.write_text(
            "> 2008 05 26 05 59 29.9990000  0  1\nG01\n> " + " " * 29 + "4  2\n> comment\n> comment\n"
            "> 2008 05 26 05 59 30.9990000  1  0\n",
            encoding="ascii",
        )
        assert observations.file_epochs(path) == 2


MOTION = "\n[motion]\nspeed = 3000\n"
TRACK_CHANGES = (
    (
        "the speed",
        edited("settings.toml", "(?m)^speed = 3000$", "speed = 3001"),
        r"retrack: the bundle says yes \d+; here it is no 55 RootDiffers line \d+",
    ),
    ("the search box of the second epoch", edited("receiver.log", r"(?s)(.*\nroot -\d+)\d ", r"\g<1> "), "log: "),
    (
        "that it is a track",
        edited("evidence.txt", "options --track ", "options "),
        "the lines of evidence.txt aren't those",
    ),
)
# In the second epoch two satellites are 500 m farther away than before, where one may be wrong.
MOVED = (("G05  20138745.810", "G05  20139245.810"), ("G12  20502283.015", "G12  20502783.015"))


def moved(text):
    """The observations with the codes of MOVED."""
    for old, new in MOVED:
        text = text.replace(old, new)
    return text


class TestTracks(Room):
    @classmethod
    def setup_class(cls):
        super().setup_class()
        cls.files = receiver_in(cls.room, MOTION)
        cls.bundle, cls.status, cls.lines = bundle_of(cls.room, cls.files, 2, track=True)

    def test_both_checkers_check_it_as_a_track(self):
        assert self.status == 0
        lines = self.lines
        assert (lines["retrack"], lines["recheck"]) == (f"yes {boxes_in(self.files[3])}",) * 2
        assert "check" not in lines
        assert lines["options"] == "--track --from 1 --to 2"
        assert lines["speed"] == "at most 3.000 m/s on the straight way from each epoch to the next"
        assert (
            lines["epochs"]
            == "4 in the file, 2 in the log: 2 paved, 0 few, 0 empty, 0 reach the search box; 2 left out"
        )
        assert self.check(self.copy(), "--sha256", evidence.checksum(self.bundle / "evidence.txt"))[0] == 0

    def test_each_change_is_told(self):
        self.expect_told(TRACK_CHANGES)

    def test_it_is_no_evidence_without_its_speed(self):
        told = "no evidence: check says no 53 RowNarrow .*, recheck says no 53 RowNarrow "  # rows of a smaller box are narrower
        with pytest.raises(Error, match=told):
            ended_with(evidence, "make", self.room / "none", *self.files, "--to", 2, "--program", PROGRAM)

    def test_a_lost_track_names_its_last_epoch(self):
        room = self.room / "lost"
        room.mkdir()
        files = receiver_in(room, MOTION, moved)
        _, status, lines = bundle_of(room, files, 4, track=True)
        assert (status, lines["retrack"]) == (0, f"yes {boxes_in(files[3])}")
        assert lines["epochs"] == (
            "4 in the file, 2 in the log: 2 paved, 0 few, 1 empty, 0 reach the search box; 2 left out;"
            " the track ends with epoch 2, which keeps no box"
        )


AFTER_CHANGES = (
    ("where it was left", edited("earlier.log", r"(?m)^(edge \d+ -\d+)\d", r"\g<1>"), "after: "),
    ("the words of that", edited("evidence.txt", r"(?m)^(began at .* x )-3", r"\g<1>-2"), "began: "),
    (
        "that there is one",
        edited("evidence.txt", r"(?m)^after .*\n", ""),
        "retrack: the bundle says yes [^\n]*; here it is no 5",
    ),
    ("a file less", lambda folder: (folder / "earlier.log").unlink(), "earlier.log is missing"),
)


def tracked_after(files, earlier, *options):
    """Makes the log of a track of some epochs that goes on from an earlier one, or begins where that is None."""
    more = [] if earlier is None else ["--after", earlier]
    subprocess.run([PROGRAM, "track", *files, *options, *more], stdout=subprocess.DEVNULL, check=True)


class TestChains(Room):
    @classmethod
    def setup_class(cls):
        super().setup_class()
        cls.files = receiver_in(cls.room, MOTION)
        cls.earlier = cls.room / "early.log"
        tracked_after([*cls.files[:3], cls.earlier], None, "--to", "2")
        tracked_after(cls.files, cls.earlier, "--from", "3")
        cls.bundle = cls.room / "bundle"
        cls.words = [*cls.files, "--track", "--from", 3, "--program", PROGRAM]
        cls.status, said, _ = ended_with(evidence, "make", cls.bundle, *cls.words, "--after", cls.earlier)
        cls.lines = dict(line.split(" ", 1) for line in said.splitlines())

    def test_the_earlier_log_is_of_the_bundle(self):
        assert self.status == 0
        lines = self.lines
        assert (lines["retrack"], lines["recheck"]) == (f"yes {boxes_in(self.files[3])}",) * 2
        assert lines["after"].endswith(f" sha256 {evidence.checksum(self.earlier)}")
        # The search box is that of the settings, and not the smaller one in which the first epoch is searched.
        assert lines["search"].endswith("z 3716365.893700 to 3718365.893700 m")
        assert lines["began"].startswith("at 2008-05-26 05:59:30.999 GPS time in the earth-fixed box x -38693")
        told = "4 in the file, 2 in the log: 2 paved, 0 few, 0 empty, 0 reach the search box; 2 left out"
        assert lines["epochs"] == told
        assert self.check(self.copy(), "--sha256", evidence.checksum(self.bundle / "evidence.txt"))[0] == 0

    def test_each_change_is_told(self):
        self.expect_told(AFTER_CHANGES)

    def test_it_is_no_evidence_without_the_earlier_log_or_as_no_track(self):
        with pytest.raises(Error, match="no evidence: retrack says no 5"):
            ended_with(evidence, "make", self.room / "none", *self.words)
        status, _, said = ended(evidence, "make", self.room / "none", *self.files, "--after", self.earlier)
        assert status == 2 and "--after needs --track" in said
        assert not (self.room / "none").exists()

    def test_an_earlier_log_that_leaves_nothing_is_told(self):
        with written(log="gpscover 1\nrules 1 10 1000\nfew 4 895816772999000000000 3\n") as (log,):
            assert signed.left_by(log) == (
                "began",
                "anywhere in the search box, since earlier.log leaves no box by its last paved epoch",
            )


FENCES = "gpszones 2\nzone here -4000000000000 3000000000000 3000000000000 -3000000000000 4000000000000 4000000000000\n"
ZONE_CHANGES = (
    ("a zone", edited("receiver.zones", "zone here -4", "zone here -5"), "zones: "),
    ("an answer", edited("receiver.answers", "inside", "outside"), "answers: "),
    (
        "the sum of the answers",
        edited("evidence.txt", "(?m)^zone-here outside 0", "zone-here outside 1"),
        "zone-here: ",
    ),
    ("that there are zones", edited("evidence.txt", r"(?m)^zones .*\n", ""), "receiver.answers doesn't belong"),
)


class TestZones(Room):
    @classmethod
    def setup_class(cls):
        super().setup_class()
        cls.files = receiver_in(cls.room)
        subprocess.run([PROGRAM, "solve", *cls.files, "--to", "1"], stdout=subprocess.DEVNULL, check=True)
        fences = cls.room / "my.zones"
        fences.write_text(FENCES, encoding="utf-8")
        cls.bundle = cls.room / "bundle"
        words = ["make", cls.bundle, *cls.files, "--to", "1", "--zones", fences, "--program", PROGRAM]
        cls.status, said, _ = ended_with(evidence, *words)
        cls.lines = dict(line.split(" ", 1) for line in said.splitlines())

    def test_the_program_and_the_boxes_say_the_same(self):
        assert self.status == 0
        assert self.lines["zone-here"] == "outside 0 inside 1 open 0 few 0"
        assert self.lines["guard"] == self.lines["again"] == "the 2 lines of receiver.answers"
        assert (self.bundle / "receiver.answers").read_text().startswith("epoch 1 zone here inside\n")
        assert self.check(self.copy())[0] == 0
        assert self.check(self.copy(), "--second-only")[0] == 0

    def test_each_change_is_told(self):
        self.expect_told((name, change, re.escape(told)) for name, change, told in ZONE_CHANGES)


PAIR = EXAMPLES / "station"
STATION_CHANGES = (
    ("a code of the station", edited("station.obs", r"(?m)^(G08 +\d+)", r"\g<1>0"), "station: "),
    ("that there is one", edited("evidence.txt", r"(?m)^station .*\n", ""), "station.obs doesn't belong to the bundle"),
    ("a file less", lambda folder: (folder / "station.obs").unlink(), "station.obs is missing"),
)


class TestStation(Room):
    @classmethod
    def setup_class(cls):
        super().setup_class()
        text = (PAIR / "settings.toml").read_text(encoding="utf-8")
        settings = cls.room / "my.toml"
        settings.write_text(re.sub("(?m)^bisections = .*", "bisections = 8", text))
        cls.files = [PAIR / "receiver.obs", PAIR / "receiver.nav", settings, cls.room / "my.log"]
        cls.options = ["--to", "1", "--station", str(PAIR / "station.obs")]
        words = [PROGRAM, "solve", *map(str, cls.files), *cls.options]
        subprocess.run(words, stdout=subprocess.DEVNULL, check=True)
        cls.bundle = cls.room / "bundle"
        words = ["make", cls.bundle, *cls.files, *cls.options, "--program", PROGRAM]
        cls.status, said, _ = ended_with(evidence, *words)
        cls.lines = dict(line.split(" ", 1) for line in said.splitlines())

    def test_the_station_s_file_is_of_the_bundle(self):
        assert self.status == 0
        known = evidence.checksum(PAIR / "station.obs")
        assert self.lines["station"].startswith("station.obs ")
        assert self.lines["station"].endswith(f" sha256 {known}")
        assert (self.lines["check"], self.lines["recheck"]) == (f"yes {boxes_in(self.files[3])}",) * 2
        assert self.check(self.copy())[0] == 0

    def test_each_change_is_told(self):
        self.expect_told((name, change, re.escape(told)) for name, change, told in STATION_CHANGES)

    def test_it_is_no_evidence_without_its_station(self):
        words = ["make", self.room / "none", *self.files, "--to", "1", "--program", PROGRAM]
        with pytest.raises(Error, match="settings 33 Outside station.place"):
            ended_with(evidence, *words)
