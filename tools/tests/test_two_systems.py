"""Tests the program, and the second checker, over made files of GPS and Galileo.

The files are those of made_two_systems.py, whose place is known. The expected lines are written here by hand. It takes two
minutes.
"""
import random
import re
import subprocess
import sys
from pathlib import Path

import pytest

from gpscover.log import epochs
from tools.made import made_two_systems
from tools.made.made_files import is_held

EPOCHS, OUTLIERS = 2, 2
SPLITS = 32
# Data sources of a record, and whether it is one of I/NAV: bit 9 is set, and one of 0 and 2, and 1 and 8 are clear.
INAV_SOURCES = {
    True: (513, 516, 517, 525, 645),
    False: (0, 5, 258, 261, 512, 514, 515, 519, 773, 1541, -517, 517.5, 1e30),
}
# Healths of one, and whether it is healthy: the bits 0 to 2 and 6 to 8 are clear.
INAV_HEALTHS = {True: (8, 16, 56), False: (1, 2, 4, 9, 64, 128, 256, 512, -8, 8.5)}


def with_splits(settings, splits=SPLITS):
    """Settings with few splits."""
    return re.sub("(?m)^bisections = .*$", f"bisections = {splits}", settings)


def with_field(nav, satellite, line, value):
    """A navigation file in which the second field of a line of the first record of a satellite is a number."""
    lines = nav.splitlines(keepends=True)
    at = next(k for k, text in enumerate(lines) if text.startswith(satellite)) + line
    lines[at] = lines[at][:23] + f"{value:19.12E}".replace("E", "D") + lines[at][42:]
    return "".join(lines)


@pytest.fixture(scope="module")
def made():
    """The receiver, and the texts of its files."""
    it = made_two_systems.Made(1)
    return it, it.texts(EPOCHS, OUTLIERS)


class TestTwoSystems:
    @pytest.fixture(autouse=True)
    def made_receiver(self, program, room, made):
        self.program, self.folder = program, room
        self.made, self.texts = made

    def settings(self, both=True):
        """The settings, with few splits."""
        return with_splits(self.made.settings(OUTLIERS, both))

    @staticmethod
    def by_inav(dual=True):
        """A receiver by I/NAV and its texts."""
        made = made_two_systems.Made(1, "I/NAV", dual)
        return made, made.texts(EPOCHS, OUTLIERS) | {"toml": with_splits(made.settings(OUTLIERS, True))}

    def written(self, **changed):
        """The names of the files and of a log. Texts are given for those that are changed."""
        texts = {**self.texts, "toml": self.settings()} | changed
        for kind, text in texts.items():
            (self.folder / f"two.{kind}").write_text(text, encoding="ascii", newline="\n")
        return [str(self.folder / f"two.{kind}") for kind in ("obs", "nav", "toml", "log")]

    def said(self, *words):
        """The status and the line of a run of the program, without its report."""
        ran = subprocess.run([self.program, *words], capture_output=True, text=True)
        return (ran.returncode, "" if words[0] == "solve" and not ran.returncode else ran.stdout + ran.stderr)

    def second(self, *words):
        """The same of the second checker."""
        ran = subprocess.run([sys.executable, made_two_systems.SECOND, *words], capture_output=True, text=True)
        return ran.returncode, ran.stdout + ran.stderr

    def solved(self, **changed):
        """The names of the files, and the epochs of a log that both checkers accept."""
        files = self.written(**changed)
        assert self.said("solve", *files) == (0, "")
        found = list(epochs(files[-1]))
        yes = 0, f"yes {sum(len(epoch.kept) for epoch in found)}\n"
        assert (self.said("check", *files), self.second(*files)) == (yes, yes)
        return files, found

    def both_say(self, files, wanted):
        """Both checkers say this of a log."""
        for told in self.said("check", *files), self.second(*files):
            assert (told[0], told[1][: len(wanted[1])]) == wanted

    def test_the_place_is_held(self):
        """Of each system one satellite breaks its bounds, so q = 2 is needed."""
        _, found = self.solved()
        assert len(found) == EPOCHS
        for epoch in found:
            assert is_held(epoch, self.made.receiver)
            names = [row.satellite for row in epoch.rows]
            assert {name[0] for name in names} == {"E", "G"}
            assert "E14" in names  # whose orbit has the eccentricity 0.16
            assert not epoch.skips

    def test_the_place_is_held_by_inav(self):
        """By both codes and by the first one, though the F/NAV record of each satellite has another clock."""
        for dual in (True, False):
            made, texts = self.by_inav(dual)
            _, found = self.solved(**texts)
            assert len(found) == EPOCHS
            for epoch in found:
                assert is_held(epoch, made.receiver)
                assert {row.satellite[0] for row in epoch.rows} == {"E", "G"}
                assert not epoch.skips

    def test_records_of_both_messages_in_any_order(self):
        """The log is that of the records of I/NAV alone, with either end of a line."""
        _, texts = self.by_inav()
        head, *records = re.split(r"(?m)^(?=[GE])", texts["nav"])
        kept = [record for record in records if " 2.580000000000D+02" not in record]
        assert len(records) - len(kept) == 24
        logs = []
        for number, end in enumerate(("\n", "\r\n", "\n")):
            drawn = random.Random(number).sample(records, len(records)) if number else kept
            files, _ = self.solved(**texts | {"nav": (head + "".join(drawn)).replace("\n", end)})
            logs.append(Path(files[-1]).read_bytes())
        assert logs[1:] == logs[:1] * 2

    def test_sources_and_healths_of_inav(self):
        """The record of E11 has a data source, and then a health, by which it is kept, and healthy, or not."""
        made, texts = self.by_inav()
        texts |= made.texts(1, OUTLIERS) | {"toml": with_splits(texts["toml"], 0)}
        for line, reason, table in ((5, "3", INAV_SOURCES), (6, "4", INAV_HEALTHS)):
            for value, used in ((value, used) for used, values in table.items() for value in values):
                _, (epoch,) = self.solved(**texts | {"nav": with_field(texts["nav"], "E11", line, value)})
                assert ("E11" in [row.satellite for row in epoch.rows]) == used
                assert epoch.skips == ([] if used else [("E11", reason, "")])

    def test_without_the_table_nothing_of_galileo_is_read(self):
        """The log is that of files from which the lines of Galileo were taken, whatever stands in them."""
        obs, nav = self.texts["obs"], self.texts["nav"]
        wrong = obs.replace("E05  2", "E05  x").replace("E    2 C1C C5Q", "E   xx C1C C5Q")
        logs = []
        for text in (wrong, self.alone(obs)):
            records = nav if text is wrong else re.sub(r"(?ms)^E.*\Z", "", nav)
            files, found = self.solved(obs=text, nav=records, toml=self.settings(both=False))
            logs.append(Path(files[-1]).read_bytes())
            assert {row.satellite[0] for epoch in found for row in epoch.rows} == {"G"}
        assert logs[0] == logs[1]

    @staticmethod
    def alone(obs):
        """Observations without the lines of Galileo."""
        head, *blocks = obs.split("\n> ")
        head = "\n".join(line for line in head.split("\n") if line[:1] != "E")
        for at, block in enumerate(blocks):
            lines = [line for line in block.split("\n") if line[:1] != "E"]
            count = sum(line[:1] == "G" for line in lines)
            blocks[at] = "\n".join([lines[0][:-3] + f"{count:3}", *lines[1:]])
        return "\n> ".join([head, *blocks])

    def test_records_of_the_other_message_are_no_ephemerides(self):
        """Each E11 has the source 517 alone, 257 (a clock for E1 and E5a, I/NAV on E1) or 2 (F/NAV, no clock)."""
        lines = self.texts["nav"].splitlines()
        at = next(k for k, line in enumerate(lines) if line.startswith("E11"))
        assert " 2.580000000000D+02" in lines[at + 5]
        for source in ("5.170000000000D+02", "2.570000000000D+02", "2.000000000000D+00", "1.282000000000D+03"):
            changed = [*lines]
            changed[at + 5] = changed[at + 5].replace("2.580000000000D+02", source)
            files, found = self.solved(nav="".join(line + "\n" for line in changed))
            assert [epoch.skips for epoch in found] == [[("E11", "3", "")]] * EPOCHS, source
            assert all(is_held(epoch, self.made.receiver) for epoch in found)

    def test_bounds_of_a_log_are_those_of_the_offset(self):
        """The first line of Galileo is behind that of the epoch; its offset isn't that of the log."""
        files, _ = self.solved()
        log = Path(files[-1]).read_text(encoding="ascii").splitlines()
        assert log[3].startswith("sat E")
        Path(files[2]).write_text(self.settings().replace("offset = [-4000, 4000]", "offset = [-4000, 4001]"))
        self.both_say(files, (1, "no 54 BoundDiffers line 4\n"))
        Path(files[2]).write_text(self.settings() + f"[satellite]\n{log[3][4:7]} = [0, 1]\n")
        self.both_say(files, (1, "no 54 BoundDiffers line 4\n"))
        Path(files[2]).write_text(self.settings(both=False))
        self.both_say(files, (1, "no 52 SatelliteDiffers line 3\n"))

    def test_a_satellite_is_named_with_its_system(self):
        files, _ = self.solved()
        log = Path(files[-1])
        text = log.read_text(encoding="ascii")
        name = text.splitlines()[3][4:7]
        for other, wanted in (
            ("G" + name[1:], (1, "no 52 SatelliteDiffers line 4\n")),
            ("R" + name[1:], (3, "log 40 BadLog line 4 kind 3\n")),
        ):
            log.write_text(text.replace(f"sat {name} ", f"sat {other} ", 1))
            self.both_say(files, wanted)

    def test_refusals(self):
        """Each of files that are read with the table, by its first fault."""
        obs, nav, toml = self.texts["obs"], self.texts["nav"], self.settings()
        first = re.search(r"(?m)^E\d\d.*$", obs).group()
        cases = (
            ("obs", obs.replace(" C5Q ", " C5X "), "obs 16 CodeAbsent line 5"),
            ("obs", obs.replace("E    2 C1C C5Q", "E    3 C1C C5Q"), "obs 20 BadCount line 3"),
            ("obs", obs.replace(first, "E00" + first[3:], 1), "obs 21 BadSatellite line 7"),
            ("obs", obs.replace(first, first + "\n" + first, 1), "obs 22 RepeatSatellite line 8"),
            ("obs", obs.replace(first, first[:5] + "x" + first[6:], 1), "obs 23 BadNumber line 7"),
            ("nav", re.sub(r"(?m)^E01 2024", "E01 x024", nav), "nav 19 BadEpoch line 243"),
            ("nav", nav.replace(" 2.580000000000D+02", " 2.580000000000X+02", 1), "nav 23 BadNumber line 248"),
            ("toml", toml.replace('"C1C", "C5Q"', '"C1C", "C2W"'), "settings 33 Outside galileo.codes"),
            ("toml", toml.replace("offset = [-4000, 4000]\n", ""), "settings 31 Missing galileo.offset"),
            ("toml", toml.replace("[-4000, 4000]", "[1, 0]"), "settings 33 Outside galileo.offset"),
            ("toml", toml.replace('"dual"', '"single"').replace(', "C2W"', ""), "settings 33 Outside galileo.codes"),
            ("toml", toml.replace("[galileo]", '[galileo]\nmessage = "I/NAV"'), "settings 33 Outside galileo.codes"),
            ("toml", toml.replace("[galileo]", '[galileo]\nmessage = "INAV"'), "settings 33 Outside galileo.message"),
            ("toml", toml.replace("[galileo]", "[galileo]\nmessage = 1"), "settings 32 WrongKind galileo.message"),
            ("obs", obs.replace("C1C C5Q", "C1C C7Q"), "obs 16 CodeAbsent line 5"),
            ("toml", toml + "sign = 1\n", "settings 34 Unknown galileo.sign"),
            ("toml", self.settings(both=False) + "[satellite]\nE01 = [0, 1]\n", "settings 34 Unknown satellite.E01"),
        )
        for kind, text, wanted in cases:
            files = self.written(**{kind: text})
            assert self.said("solve", *files) == (3, wanted + "\n")
            (self.folder / "two.log").write_text("gpscover 3\nrules 2 32 100000\n")
            assert self.second(*files) == (3, wanted + "\n")
