"""Texts and words that nobody should write."""

import math
import os
import re
import subprocess
import sys

import pytest
from made_logs import HEAD, PAVED, RECORDED, ROOT, SOURCES, WITHIN, ended, written

from gpscover import Error, NumberError, bounds, geodesy, places, summary, suspects, zones
from gpscover.command import measure


class TestHostile:
    """Texts and words that nobody should write.

    Each ends a script with a status and a line of its own.
    """

    def test_a_whole_number_that_no_floating_point_number_holds(self):
        with pytest.raises(NumberError):
            measure(10**400)

    # Behind the head of a log, and the number of the line that is none.
    NO_LOGS = (
        (PAVED.replace("cut 4 5 50000000", "cut 4 5"), 9),
        (PAVED.replace("cut 4 5 50000000", "cut 4 6 50000000"), 9),
        (PAVED.replace("cut 4 5 50000000", "cut 4 5 50000000 0"), 9),
        (PAVED.replace("split 2 1", "split 2"), 7),
        (PAVED.replace("split 2 1", "split 2 -1"), 7),
        (PAVED.replace("edge 3 -5000000 7000000", "edge 3"), 8),
        (PAVED.replace("edge 3 -5000000 7000000", "edge 3 -5000000"), 8),
        (PAVED.replace("out 1", "out 1 2"), 6),
        (PAVED.replace("in 4 1000000", "in 4"), 11),
        (PAVED.replace("done 2", "done"), 12),
        (PAVED.replace("100000000\nsplit", "\nsplit"), 4),
        (PAVED.replace("root 6378037000000", "root " + "9" * 400), 4),
        (PAVED.replace("root 6378037000000", "root 6378237000001"), 4),
        (PAVED.replace("cut 4 5 50000000", "cut 4 5 -100000001"), 11),
        (PAVED.replace("895816769999000000000", "-1"), 3),
        (PAVED.replace("895816769999000000000", "4000000000000000000000"), 3),
        (PAVED.replace("000 5\n", "000\n"), 3),
        ("few 1 0 0\nskip G01 10\n", 4),
        ("few 1 0 0\nskip  3\n", 4),
        ("few 1 0 0\nskip G01 6 1 1\n", 4),
        ("epoch 1 0 0\nsat  0 0 0 0 0 0 0 0 0 0\n" + ROOT, 4),
    )

    def expect(self, status, told, script, *words):
        """A command ends with this status, and says this in its last line."""
        found, _, err = ended(script, *words)
        assert found == status
        assert re.search(f"(^|\\n)gpslog {script.COMMAND.name}: .*{told}\\n$", err)
        assert err.count("\n") == (1 if status == 1 else err.count("\n"))

    def test_lines_of_logs_that_are_none(self):
        for text, line in self.NO_LOGS:
            with written(log=HEAD + text, zones="gpszones 1\n") as (log, fences):
                told = f"log line {line}: this isn't a log of gpscover"
                for script, words in (
                    (summary, [log]),
                    (bounds, [log, 6378137, 0, 0, "single"]),
                    (suspects, ["log", log]),
                    (zones, [fences, log]),
                ):
                    self.expect(1, told, script, *words)

    def test_numbers_that_are_none_are_refused_among_the_words(self):
        log, known = RECORDED / "cres_2008.log", RECORDED / "cres_2008.places"
        place = [log, -3869310, 3436565]
        for word in ("nan", "inf", "1e400"):
            told = f"{word} isn't a number of at most 10\\^15 in amount"
            self.expect(2, told, bounds, *place, word, "single")
            for option in ("--receiver", "--rise", "--shell", "--every", "--mask"):
                self.expect(2, told, bounds, *place, 3717367, "single", option, word)
            self.expect(2, told, bounds, *place, 3717367, "single", "--rise", word, "--zenith")
            self.expect(2, told, summary, log, "--places", known, "--azimuth", word)
            self.expect(2, told, summary, log, "--places", known, "--limit", 5, word)
        self.expect(2, "shell is at least 1 km high", bounds, *place, 3717367, "single", "--shell", 0, "--mask", 0)

    def test_numbers_that_are_none_are_refused_in_lists_of_places(self):
        for line in (
            "nan 1 2 3",
            "1e400 1 2 3",
            "1e14 1 2 3",
            "-1 1 2 3",
            "895816770 1 2 inf",
            "895816770 1 2 1e16",
            "1979/01/01 00:00:00.000 1 2 3",
        ):
            with written(places="% head\n" + line + "\n") as (path,):
                with pytest.raises(Error, match="line 2: no time and place"):
                    places.read_places(path)

    def test_a_satellite_at_the_rough_place_and_one_right_above(self):
        for name, target, angle in (("there", (6378137, 0, 0), 0), ("above", (26378137, 0, 0), 90)):
            assert math.degrees(geodesy.elevation((6378137, 0, 0), target)) == pytest.approx(angle, rel=0, abs=5e-8)

    def test_no_map_is_left_of_a_log_that_was_cut(self):
        with written(log=HEAD + WITHIN + WITHIN[:-5]) as (log,):
            path = log.parent / "map.kml"
            self.expect(1, "ends within an epoch, at line 22: its run was ended early", summary, log, "--kml", path)
            assert os.listdir(log.parent) == ["log"]
            self.expect(1, "Is a directory.*", summary, log, "--kml", log.parent)

    def run_into(self, out, *words):
        """The status of a process whose standard output goes there, and the lines that it tells."""
        environment = {name: it for name, it in os.environ.items() if name != "PYTHONUNBUFFERED"}
        environment["PYTHONPATH"] = str(SOURCES)
        words = [sys.executable, "-m", "gpscover", *words]
        ran = subprocess.run(words, stdout=out, stderr=subprocess.PIPE, text=True, env=environment)
        return ran.returncode, ran.stderr

    def test_a_standard_output_that_breaks_is_told(self):
        log = RECORDED / "ubx_2008.log"
        ways = ("summary", log), ("risk", "--p", "1e-3"), ("zones", "--help")
        for words in ways:
            reader, writer = os.pipe()
            os.close(reader)
            with open("/dev/full", "w", encoding="utf-8") as full, open(writer, "w", encoding="utf-8") as pipe:
                for out, why in ((full, "No space left on device"), (pipe, "Broken pipe")):
                    assert self.run_into(out, *words) == (
                        1,
                        f"gpslog {words[0]}: standard output can't be written: {why}\n",
                    )

    def test_a_standard_output_that_is_closed_is_told(self):
        words = ["sh", "-c", '"$@" >&-', "sh", sys.executable, "-m", "gpscover", "risk"]
        environment = {**os.environ, "PYTHONPATH": str(SOURCES)}
        ran = subprocess.run(words, stderr=subprocess.PIPE, text=True, env=environment)
        assert (ran.returncode, ran.stderr) == (1, "gpslog risk: standard output is closed\n")
