"""Tests the program, and the second checker, with a station beside the receiver.

The files are those of made_station.py and of examples/station, the place of whose receiver is known. What single lines of the
files and the settings do is tested in second/test_recheck.py.
"""
import re
import subprocess
import sys

import pytest

from gpscover import zones
from gpscover.log import PS_PER_MS, SkipReason, epochs
from gpscover.region import region_of
from tools.forged_logs import TOP
from tools.made import made_station

PAIR = TOP / "examples/station"
PLACE = (-3976219.187, 3382371.605, 3652511.142)
SECOND = TOP / "second/recheck.py"
SPLITS = 64


def settings(text, outliers=1, more=""):
    """Settings with few splits, another q, and more behind them."""
    text = re.sub("(?m)^bisections = .*$", f"bisections = {SPLITS}", text)
    return re.sub("(?m)^outliers = .*$", f"outliers = {outliers}", text) + more


@pytest.mark.parametrize("seed, count", ((7, 3), (0, 2), (4294967295, 2)))
def test_errors_of_both_drop_out(program, room, seed, count):
    """The place of a made receiver is held by bounds of 20 mm, though each error is up to 2 m, but for one of 500 m."""
    said = made_station.solve_and_check(program, room, seed, count)
    assert said.endswith("the place is held in each epoch")
    for epoch in epochs(room / "made.log"):
        assert max(region_of(epoch).widths()) < 1
    words = [str(room / f"made.{kind}") for kind in ("obs", "nav", "toml", "log")]
    ran = [sys.executable, SECOND, *words, "--station", str(room / "made.sta")]
    assert subprocess.run(ran, capture_output=True, text=True).stdout == said.split("\n")[0] + "\n"


class TestRecorded:
    @pytest.fixture(autouse=True)
    def files_of_a_pair(self, program, room):
        self.program, self.room = program, room
        self.texts = {path.name: path.read_text() for path in PAIR.iterdir()}

    def files(self, name="settings.toml", **changed):
        """The words of the receiver's files, and those of the station."""
        texts = {**self.texts, "settings.toml": settings(self.texts[name])}
        for kind, text in changed.items():
            texts[f"{kind}.{'toml' if kind == 'settings' else 'obs'}"] = text
        for own, text in texts.items():
            (self.room / own).write_text(text)
        names = ("receiver.obs", "receiver.nav", "settings.toml", "pair.log")
        return [str(self.room / own) for own in names], ["--station", str(self.room / "station.obs")]

    def said(self, *words):
        """The status of a run of the program, and what it says but for a report."""
        ran = subprocess.run([self.program, *words], capture_output=True, text=True)
        report = words[0] in ("solve", "track") and not ran.returncode
        return ran.returncode, "" if report else ran.stdout + ran.stderr

    def second(self, *words):
        """The same of the second checker."""
        ran = subprocess.run([sys.executable, SECOND, *words], capture_output=True, text=True)
        return ran.returncode, ran.stdout + ran.stderr

    def solved(self, **changed):
        """The words of some files and of the station, and the epochs of a log that both checkers accept."""
        files, station = self.files(**changed)
        assert self.said("solve", *files, *station) == (0, "")
        found = list(epochs(files[-1]))
        yes = 0, f"yes {sum(len(epoch.kept) for epoch in found)}\n"
        for words in ([*files, *station], [*files, *station, "--from", "1", "--to", "4"]):
            assert (self.said("check", *words), self.second(*words)) == (yes, yes)
        return files, station, found

    def both_say(self, words, begin):
        """Both checkers say this of a log."""
        for status, said in self.said("check", *words), self.second(*words):
            assert (status, said[: len(begin)]) == (1, begin)

    @pytest.mark.parametrize("outliers, most", ((0, 16), (1, 25), (2, 45)))
    def test_the_known_place_is_held_in_metres(self, outliers, most):
        text = settings(self.texts["settings.toml"], outliers)
        _, _, found = self.solved(settings=text)
        assert len(found) == 4
        for epoch in found:
            assert region_of(epoch).contains(PLACE) and any(it.contains(PLACE) for it in epoch.boxes)
            assert max(region_of(epoch).widths()) < most

    def test_a_log_with_a_station_is_none_without(self):
        files, station, _ = self.solved()
        first = 4  # the line of the first row
        alone, _ = self.files("alone.toml")
        assert self.said("check", *alone)[0] == self.second(*alone)[0] == 1
        bare = re.sub(r"(?ms)^\[station\].*?(?=\n# Two)", "", self.texts["settings.toml"])
        words, _ = self.files(settings=settings(bare))
        self.both_say(words, f"no 53 RowNarrow line {first}")
        assert self.said("solve", *words) == (0, "")
        self.files()
        self.both_say([*files, *station], f"no 53 RowNarrow line {first}")

    def test_a_code_of_the_station_is_changed(self):
        """By 3 m, which is a row of its epoch."""
        files, station, _ = self.solved()
        code = re.findall(r"(?m)^G08 +(\S+)", self.texts["station.obs"])[2]
        text = self.texts["station.obs"].replace(code, f"{float(code) + 3:.3f}")
        self.files(station=text)
        lines = (self.room / "pair.log").read_text().splitlines()
        starts = [k for k, line in enumerate(lines, 1) if line.startswith("epoch 3 ")]
        self.both_say([*files, *station], f"no 53 RowNarrow line {starts[0] + 3}")

    def test_what_the_station_lacks_is_not_used(self):
        head, *blocks = re.split(r"(?m)^(?=>)", self.texts["station.obs"])
        blocks[1] = re.sub(r"(?m)^G08.*\n", "", blocks[1]).replace("0  9", "0  8", 1)
        _, _, found = self.solved(station=head + "".join(blocks))
        skips = [[(it.satellite, it.reason) for it in epoch.skips] for epoch in found]
        assert skips == [[], [("G08", SkipReason.NOT_SEEN_BY_STATION)], [], []]
        assert [epoch.satellites for epoch in found] == [8, 7, 8, 8]

    def test_a_station_whose_clock_is_off(self):
        """By 16 ms all is used and the region is where it was; by 17 ms nothing is."""
        _, _, plain = self.solved()
        for late, used in ((16, 8), (17, 0)):
            longer = late * 299792.458

            def moved(found):
                return f"{found[1]}{float(found[2]) + longer:14.3f}"

            text = re.sub(r"(?m)^(G\d\d)(.{14})", moved, self.texts["station.obs"])
            text = re.sub(r"(?m)^(> .{16}) (\d)(\d)\.0000000", rf"\1 \2\3.0{late}0000", text)
            _, _, found = self.solved(station=text)
            assert [epoch.satellites for epoch in found] == [used] * 4
            for epoch, other in zip(found, plain) if used else ():
                assert any(it.contains(PLACE) for it in epoch.boxes)
                apart = epoch.kept[0].clock.low - other.kept[0].clock.low
                assert abs(apart + 1e6 * longer) < 20e6  # the clock offset is less by as much

    def test_a_station_of_another_time(self):
        for old, new, words in (
            ("> 2005 04 02 00 0", "> 2005 04 02 00 1", "age = 30"),
            ("> 2005 04 02", "> 2005 04 03", "age = 30"),
            ("> 2005 04 02", "> 2005 04 03", "age = 600"),
        ):
            text = self.texts["settings.toml"].replace("age = 30", words)
            changed = {"settings": settings(text), "station": self.texts["station.obs"].replace(old, new)}
            _, _, found = self.solved(**changed)
            assert all(epoch.few and len(epoch.skips) == 8 for epoch in found)

    def test_a_station_at_the_pole(self):
        """It is no fault, and nothing fits."""
        text = re.sub("place = .*", "place = [0, 0, 6356752314]", self.texts["settings.toml"])
        _, _, found = self.solved(settings=settings(text))
        assert all(epoch.empty for epoch in found)

    def test_files_that_are_refused(self):
        log = self.room / "pair.log"
        place = "station.place\n"
        for name, words, wanted in (
            ("alone.toml", True, (3, f"settings 31 Missing {place}")),
            ("settings.toml", False, (3, f"settings 33 Outside {place}")),
        ):
            files, station = self.files(name)
            for command in ("solve", "track", "check", "retrack"):
                if command in ("track", "retrack"):
                    more = self.texts[name] + "\n[motion]\nspeed = 0\n"
                    files, station = self.files(settings=settings(more))
                assert self.said(command, *files, *(station if words else [])) == wanted
                assert not log.exists()
        files, station = self.files(station=self.texts["station.obs"].replace("00 30.0", "00 00.0", 1))
        line = [k for k, it in enumerate(self.texts["station.obs"].splitlines(), 1) if it[0] == ">"][1]
        assert self.said("solve", *files, *station) == (3, f"station 43 NotRising line {line}\n")
        files, _ = self.files()
        assert self.said("solve", *files, "--station", str(self.room / "none")) == (4, "station fault\n")
        assert not log.exists()

    def test_wrong_words(self):
        files, station = self.files()
        for words in (["--station"], ["--station", "-x"], [*station, *station]):
            assert self.said("solve", *files, *words)[0] == 2
        for words in (["judge", files[-1]], ["pave", files[-1], "x"], ["make", "7", "3"]):
            assert self.said(*words, *station)[0] == 2

    def test_a_track(self):
        """Of a receiver that stands: each epoch's box is the region of those before, and holds the place."""
        text = settings(self.texts["settings.toml"], 0, "\n[motion]\nspeed = 0\n")
        files, station = self.files(settings=text)
        assert self.said("track", *files, *station) == (0, "")
        found = list(epochs(files[-1]))
        yes = 0, f"yes {sum(len(epoch.kept) for epoch in found)}\n"
        assert self.said("retrack", *files, *station) == self.second("--track", *files, *station) == yes
        assert all(any(it.contains(PLACE) for it in epoch.boxes) for epoch in found)
        widths = [max(region_of(epoch).widths()) for epoch in found]
        assert widths[-1] < widths[0]

    def test_zones(self):
        """What `guard` says is what the boxes say."""
        files, station, found = self.solved()
        near, far = ([round(1e6 * axis) + end for axis in PLACE] for end in (-(10**8), 10**8))
        fence = self.room / "pair.zones"
        low, high = (" ".join(map(str, corner)) for corner in (near, far))
        fence.write_text(f"gpszones 2\nzone round {low} {high}\nzone off {low} {low}\nreach up 0 0 1\n")
        status, said = self.said("guard", *files[:3], str(fence), files[3], *station)
        wanted = list(zones.lines(*zones.read_zones(fence), zones.kept(found)))
        assert (status, said.splitlines()) == (0, wanted)
        assert [epoch.ps % PS_PER_MS for epoch in found] == [0] * 4
        assert self.said("guard", *files[:3], str(fence), files[3])[0] == 3
