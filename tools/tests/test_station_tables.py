"""Tests of the tables of stations: what several rows allow together, parts of boxes, made pairs."""
import argparse
import itertools
from pathlib import Path

import pytest

from gpscover.settings import Settings
from tools import station_tables
from tools.made import made_pairs


class TestFurthest:
    EIGHT = [([float(a), float(b), float(c)], 1.0) for a, b, c in itertools.product((1, -1), repeat=3)]

    @pytest.mark.parametrize("toward, most", (((1, 0, 0), 1), ((0, -1, 0), 1), ((1, 2, 3), 3), ((1, 1, 1), 1)))
    def test_an_octahedron(self, toward, most):
        point = station_tables.furthest(self.EIGHT, [float(part) for part in toward])
        assert sum(a * b for a, b in zip(toward, point)) == pytest.approx(most)

    def test_half_spaces_that_do_not_meet(self):
        apart = [([1.0, 0.0, 0.0], -1.5)]
        assert station_tables.furthest(self.EIGHT + apart, [0.0, 1.0, 0.0]) is None
        assert station_tables.furthest(apart + self.EIGHT, [0.0, 1.0, 0.0]) is None


def test_the_parts_of_a_box():
    parts = list(station_tables.halved([(0, 3), (-2, 2), (5, 6)]))
    assert len(parts) == 8
    for axis, ends in enumerate(([(0, 1), (1, 3)], [(-2, 0), (0, 2)], [(5, 5), (5, 6)])):
        assert {part[axis] for part in parts} == set(ends)


@pytest.mark.parametrize("km, most", (("1", 20), ("50", 40), (None, 130)))
def test_a_made_pair(program, room, km, most):
    """The place of a made receiver is held beside a station over which the ionosphere differs, and alone."""
    made_pairs.write(room, [1.0, 50.0], 2)
    settings = Settings.read(room / ("alone.toml" if km is None else f"settings_{km}.toml"))
    station = None if km is None else room / f"station_{km}.obs"
    files = room / "receiver.obs", room / "receiver.nav"
    case = station_tables.Case(*files, settings, station, None, None, Path(program))
    args = argparse.Namespace(splits=[64], outliers=[0], place=made_pairs.PLACE)
    *_, line = station_tables.extents(case, args, room)
    _, splits, outliers, extents, held, cut, said, _ = (cell.strip() for cell in line.split("|"))
    assert (splits, outliers, held, cut, said[:4]) == ("64", "0", "2 of 2", "0", "yes ")
    assert max(map(float, extents.split(", "))) < most
