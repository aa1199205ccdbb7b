"""The extents, the outline and the ellipsoid, by hand."""

import math

import pytest
from made_logs import PAVED, RECORDED, box_at, epoch_of, epochs_with_places, logs_with_places

from gpscover import geodesy, region, summary
from gpscover.log import epochs as read_epochs
from gpscover.outline import outline


class TestExtents:
    def assert_widths(self, text, east, north, up):
        for found, wanted in zip(region.region_of(epoch_of(text)).widths(), (east, north, up)):
            assert found == pytest.approx(wanted, rel=0, abs=5e-5)

    def test_at_the_equator_they_are_the_sides(self):
        self.assert_widths(PAVED, 200.0, 200.0, 100.0)
        found = region.region_of(epoch_of(PAVED))
        assert found.volume == pytest.approx(100 * 100 * 200 + 100 * 80 * 150, rel=0, abs=1.0)
        assert found.clock == (-9.0, 7.0)
        assert found.faces == ["-y", "-z", "+x", "+y", "+z"]

    def test_a_box_that_lies_askew(self):
        half = math.sqrt(0.5)
        # longitude 45 degrees: east is (y - x) and up is (x + y), each by the root of 2
        self.assert_widths(box_at((6378137 * half, 6378137 * half, 0), (100, 100, 60)), 200 * half, 60, 200 * half)
        # latitude 45 degrees: north is (z - x) and up is (x + z), each by the root of 2
        place = geodesy.earth_fixed(math.pi / 4, 0, 0)
        self.assert_widths(box_at(place, (100, 30, 60)), 30, 160 * half, 160 * half)

    def test_they_are_not_those_of_the_hull(self):
        # two boxes of 10 m, 100 m apart along east at longitude 45 degrees: up is 10 * sqrt(2), not
        # that of the hull
        half = math.sqrt(0.5)
        a, shift = 6378137 * half, 100 * half
        ends = [round(v * 1e6) for v in (a - shift - 5, a - 5, -5, a + 5, a + shift + 5, 5)]
        x, y = ends[0], ends[1]
        steps = (
            "split 0 0\nsplit 1 1\nsplit 2 1\nout 3\nout 6\n"
            f"cut 4 1 {x + 10**7}\ncut 4 2 {ends[4] - 10**7}\nedge 4 0 0\n"
            f"cut 5 0 {ends[3] - 10**7}\ncut 5 3 {y + 10**7}\nedge 5 0 0\ndone 3\n"
        )
        epoch = epoch_of(f"epoch 1 0 5\nroot {' '.join(map(str, ends))}\n{steps}")
        east, north, up = region.region_of(epoch).widths()
        assert up == pytest.approx(20 * half, rel=0, abs=0.01)
        assert east == pytest.approx(100 + 20 * half, rel=0, abs=0.01)
        assert north == pytest.approx(10, rel=0, abs=0.01)

    def test_the_ellipsoid(self):
        for degrees in ((0, 0, 0), (35.87, 138.39, 980), (-89.9, -179, 20), (45, 90, 8000)):
            latitude, longitude = map(math.radians, degrees[:2])
            found = geodesy.geodetic(geodesy.earth_fixed(latitude, longitude, degrees[2]))
            assert math.degrees(found[0]) == pytest.approx(degrees[0], rel=0, abs=5e-10)
            assert math.degrees(found[1]) == pytest.approx(degrees[1], rel=0, abs=5e-10)
            assert found[2] == pytest.approx(degrees[2], rel=0, abs=5e-6)
        # the pole is the semi-minor axis, 6356752.3142 m, away
        assert geodesy.earth_fixed(math.pi / 2, 0, 0)[2] == pytest.approx(6356752.3142, rel=0, abs=5e-5)

    def test_the_outline_of_a_cube_askew_is_a_square(self):
        half = math.sqrt(0.5)
        box = (-500000, -500000, -500000, 500000, 500000, 500000)
        ring = outline([box], (0, 0, 0), (-half, half, 0), (0, 0, 1))
        assert len(ring) == 4
        assert max(x for x, _ in ring) == pytest.approx(half, rel=0, abs=5e-8)


class TestRecorded:
    def test_the_extents_contain_the_known_place(self):
        for log in logs_with_places():
            tested = 0
            for tested, (epoch, place) in enumerate(epochs_with_places(log), 1):
                assert epoch.kept
                assert region.region_of(epoch).contains(place)
            assert tested > 4

    def test_a_vehicle_that_has_left_the_search_box_leaves_epochs_empty(self):
        epochs = list(read_epochs(RECORDED / "cres_2008.log"))
        assert [summary.mark_of(it, it.kept or None) for it in epochs[6:]] == ["empty", "empty"]
