"""Lists of known places."""

import os
import tempfile
from pathlib import Path

import pytest

from gpscover import Error, places


class TestPlaces:
    def read(self, text):
        with tempfile.TemporaryDirectory() as room:
            path = os.path.join(room, "places")
            Path(path).write_text(text)
            return places.read_places(path)

    def test_both_forms(self):
        both = self.read("% a head\n2008/05/26 05:59:30.000 6378137.5 -2 3 5 8\n\n895816771.25 4 5 6378137\n")
        assert both == [(895816770 * 10**12, (6378137.5, -2.0, 3.0)), (895816771250 * 10**9, (4.0, 5.0, 6378137.0))]
        assert places.place_at(both, 895816769999 * 10**9) == (6378137.5, -2.0, 3.0)
        assert places.place_at(both, 895816769800 * 10**9) is None

    def test_weeks_and_seconds_of_the_week(self):
        assert self.read("%  GPST  x-ecef(m)\n1316 518430.5 6378137 5 6 5 8\n") == [
            ((1316 * 604_800 + 518_430) * 10**12 + 500 * 10**9, (6378137.0, 5.0, 6.0))
        ]

    def test_one_place_is_there_at_all_times(self):
        alone = self.read("# the pillar\n-3976219.187 3382371.605 3652511.142\n")
        assert places.place_at(alone, 10**21) == (-3976219.187, 3382371.605, 3652511.142)
        with pytest.raises(Error, match="isn't the only one"):
            self.read("6378137 0 0\n895816771.25 6378137 0 0\n")

    def test_degrees_and_other_times_are_refused(self):
        line = "2005/04/02 00:00:00.000 35.160869 139.613838 74.5 5 7\n"
        for text, told in (
            (line, "line 1: no place on the earth in metres: are these degrees?"),
            ("1316 518400.000 35.160869 139.613838 74.5 5 7\n", "are these degrees"),
            ("35.160869 139.613838 74.5\n", "are these degrees"),
            (f"%  UTC   latitude(deg)\n{line}", "line 1: its times are UTC, and GPS time is wanted"),
        ):
            with pytest.raises(Error, match=told.replace("?", ".")):
                self.read(text)

    def test_what_is_no_place_is_refused(self):
        for text in ("1 2 3\n", "x 1 2 3\n", "2008/13/26 00:00:00.0 1 2 3\n", ""):
            with pytest.raises(Error):
                self.read(text)
