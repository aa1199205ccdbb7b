"""What regions say of known places.

Corners are counted by hand at the equator and at longitude 0, where east is y, north is z and up is
x, and at longitude 45 degrees.
"""

import math
import re

import pytest
from made_logs import (
    HEAD,
    PAVED,
    RECORDED,
    WITHIN,
    box_at,
    ended_with,
    epoch_of,
    epochs_with_places,
    logs_with_places,
    written,
)

from gpscover import Error, drawn_regions, geodesy, integrity, pictures, places, region, stanford, summary
from gpscover.log import epochs as read_epochs
from gpscover.stanford import Judged

TIME = 895816769999 * 10**9
DATE = "2008/05/26 05:59:29.999"


def numbers(text, place, azimuth=None):
    """The numbers of an epoch of a made log for a known place."""
    epoch = epoch_of(text)
    return integrity.numbers_of(epoch, region.region_of(epoch), place, azimuth)


def corners_seen(box, place):
    """The corners of a box as seen from a place, in m."""
    return [[box[k + 3 * (which >> k & 1)] / 1e6 - place[k] for k in range(3)] for which in range(8)]


def judged(text, place, limits):
    """What is counted of an epoch of a made log for a known place and limits."""
    judge = integrity.Judge(places.Meetings("P", [(TIME, place)]), limits=integrity.Limits(*limits))
    epoch = epoch_of(text)
    judge.add(epoch, region.region_of(epoch) if epoch.kept else None)
    return judge.available, judge.misleading, judge.hazardous


class TestCorners:
    def assert_lengths(self, found, wanted):
        for length, right in zip(found, wanted, strict=True):
            assert length == pytest.approx(right, rel=0, abs=0.005)

    def test_two_boxes_at_the_equator(self):
        # Kept are y -100 to 0 with z -100 to 100, and y 20 to 100 with z -100 to 50, both with x up
        # to 100 m above the
        # ellipsoid. From (13 m up, 10 m west, 5 m north) the corner (100, -100) is farthest: 110 m
        # east, 105 m south.
        found = numbers(PAVED, (6378150, -10, 5), math.radians(90))
        assert found.held
        self.assert_lengths((found.hpl, found.vpl, found.along, found.across), (math.hypot(110, 105), 87, 110, 105))
        # The middle of the extents is at y = z = 0 and 50 m up; the corners of the first box are
        # 100 m from it both ways.
        self.assert_lengths(found.error + found.reach, (math.hypot(10, 5), 37, math.hypot(100, 100), 50))

    def test_along_and_across_a_diagonal(self):
        # Along north-east (y + z) and across (y - z), both by the root of 2, the corners of the
        # boxes are from the place
        # (0, 0): (-100, -100) is 200 along, (-100, 100) and (100, -100) are 200 across.
        found = numbers(PAVED, (6378150, 0, 0), math.radians(45))
        self.assert_lengths((found.along, found.across), (200 * math.sqrt(0.5), 200 * math.sqrt(0.5)))
        # At 0 degrees along is north: 100 m either way; across is 100 m too.
        found = numbers(WITHIN, (6378137, 25, 5), 0.0)
        self.assert_lengths((found.hpl, found.vpl, found.along, found.across), (math.hypot(5, 15), 2, 15, 5))

    def test_a_cube_that_lies_askew(self):
        # A cube of 20 m at longitude 45 degrees: east is (y - x) and up is (x + y), each by the
        # root of 2.
        half = math.sqrt(0.5)
        place = (6378137 * half, 6378137 * half, 0)
        found = numbers(box_at(place, (20, 20, 20)), place)
        self.assert_lengths((found.hpl, found.vpl), (math.hypot(10 * math.sqrt(2), 10), 10 * math.sqrt(2)))

    def test_every_corner_is_asked(self):
        # The farthest of all corners, by the corners themselves.
        for log in logs_with_places():
            known = places.read_places(log.with_suffix(".places"))
            for epoch in read_epochs(log):
                place = places.place_at(known, epoch.ps)
                if place is None or not epoch.kept:
                    continue
                east, north, up = geodesy.local_axes(*geodesy.geodetic(place)[:2])
                most = [0.0, 0.0]
                for kept in epoch.kept:
                    for corner in corners_seen(kept.box, place):
                        ground = math.hypot(geodesy.dot(east, corner), geodesy.dot(north, corner))
                        most = [max(most[0], ground), max(most[1], abs(geodesy.dot(up, corner)))]
                found = integrity.numbers_of(epoch, region.region_of(epoch), place)
                self.assert_lengths((found.hpl, found.vpl), most)


class TestHeld:
    def test_it_is_by_boxes_and_not_by_extents(self):
        epoch = epoch_of(PAVED)
        # y 10 m lies between the boxes, and z 60 m above the second one, and both are within the
        # extents.
        for place, wanted in (
            ((6378150, -10, 0), True),
            ((6378150, 10, 0), False),
            ((6378150, 30, 60), False),
            ((6378150, 30, 40), True),
            ((6378136, -10, 0), False),
        ):
            assert integrity.is_held(epoch, place) == wanted
        assert region.region_of(epoch).contains((6378150, 10, 0))

    def test_the_ends_of_a_box_belong_to_it(self):
        epoch = epoch_of(WITHIN)
        for place in ((6378135, 20, -10), (6378139, 30, 10)):
            assert integrity.is_held(epoch, place)
        assert not integrity.is_held(epoch, (6378135, 19.999999, -10))

    def test_the_known_places_of_recorded_receivers_are_in_each_region(self):
        for log in logs_with_places():
            tested = 0
            for tested, (epoch, place) in enumerate(epochs_with_places(log), 1):
                assert integrity.is_held(epoch, place)
            assert tested > 4

    def test_the_surveyed_place_of_a_station_is_in_each_region(self):
        # known to centimetres, by a baseline from a station with given coordinates
        for epoch in read_epochs(RECORDED / "geonet0759_2005.log"):
            assert integrity.is_held(epoch, (-3976219.187, 3382371.605, 3652511.142))


class TestDiagram:
    # The kept box reaches 5 m east and 10 m north of its middle, which is at y = 25 m, and 2 m up.
    REACH = math.hypot(5, 10)

    def test_a_region_that_holds_the_place(self):
        place = (6378137, 21, 0)
        assert judged(WITHIN, place, (self.REACH + 0.01, 2.01)) == (1, 0, 0)
        assert judged(WITHIN, place, (self.REACH - 0.01, 2.01)) == (0, 0, 0)
        assert judged(WITHIN, place, (self.REACH + 0.01, 1.99)) == (0, 0, 0)

    def test_a_region_that_does_not_hold_it(self):
        # 25 m west of the middle and 1 m up.
        place = (6378138, 0, 0)
        assert judged(WITHIN, place, (24, 10)) == (1, 1, 1)
        assert judged(WITHIN, place, (26, 10)) == (1, 1, 0)
        assert judged(WITHIN, place, (11, 10)) == (0, 1, 0)
        # 7 m below the middle
        assert judged(WITHIN, (6378130, 25, 0), (24, 6)) == (1, 1, 1)
        assert judged(WITHIN, (6378130, 25, 0), (24, 8)) == (1, 1, 0)

    def test_a_region_that_reaches_the_search_box_is_not_available(self):
        assert judged(PAVED, (6378150, -10, 0), (1000, 1000)) == (0, 0, 0)

    def test_an_empty_epoch_is_neither(self):
        empty = WITHIN[: WITHIN.index("cut")] + "out 0\ndone 0\n"
        assert judged(empty, (6378137, 21, 0), (1000, 1000)) == (0, 0, 0)


class TestWords:
    def test_the_line_and_the_counts(self):
        with written(log=HEAD + WITHIN, places=f"{DATE} 6378137 25 5\n") as (log, known):
            status, out, _ = ended_with(summary, log, "--places", known, "--azimuth", 0, "--limit", 12, 2.5, "--strict")
        assert status == 0
        assert re.search(r"height m held +hpl m +vpl m +along m +across m$", out.splitlines()[0])
        # the farthest corner is 5 m east, 15 m south and 2 m up, and less than 0.1 mm more by the
        # axes' turn: rounded up
        assert re.search(r" yes +15\.9 +2\.1 +15\.1 +5\.1$", out.splitlines()[1])
        assert "1 epochs have one and 1 of these a region, which holds it in 1\n" in out
        assert "15.9 m along the ground, 2.1 m up or down; of declared bounds, not of a probability" in out
        assert "limits 12 m along the ground, 2.5 m up: of 1 epochs 1 available, 0 misleading, 0 hazardous" in out

    def test_the_values(self):
        with written(log=HEAD + WITHIN, places=f"{DATE} 6378137 0 0\n") as (log, known):
            plain = ended_with(summary, log, "--csv")[1].splitlines()
            limited = ended_with(summary, log, "--csv", "--places", known, "--limit", 24, 10)[1].splitlines()
        assert limited[1].startswith(plain[1] + ",")
        values = dict(zip(limited[0].split(","), limited[1].split(","), strict=True))
        # (30, 10) is the farthest corner; the middle is 25 m east and its corners are 5 m and 10 m
        # from it
        wanted = {
            "held": "0",
            "hpl_m": "31.7",
            "horizontal_error_m": "25.0",
            "horizontal_reach_m": "11.2",
            "azimuth_deg": "",
            "available": "1",
            "misleading": "1",
            "hazardous": "1",
        }
        assert {name: values[name] for name in wanted} == wanted

    def test_a_place_that_is_not_held_is_warned_of(self):
        with written(log=HEAD + WITHIN, aside=f"{DATE} 6378137 0 0\n", away=f"{DATE} 6378137 900 0\n") as (log, *lists):
            said = [ended_with(summary, log, "--places", known, "--strict") for known in lists]
        for status, out, _ in said:
            assert status == 3
            assert re.search(
                "warning: in 1 of 1 regions the known place isn't in a kept box.* first is epoch 1: more", out
            )
        assert "outside the search box" not in said[0][1].split("warning: in 1")[1]
        assert "in 1 of these since it is outside the search box" in said[1][1]

    def test_an_epoch_without_a_place_is_warned_of(self):
        text = HEAD + WITHIN + WITHIN.replace("epoch 1 895816769999", "epoch 2 895816774999")
        with written(log=text, places=f"{DATE} 6378137 25 0\n") as (log, known):
            status, out, _ = ended_with(summary, log, "--places", known, "--strict")
        assert status == 3
        assert "warning: 1 of 2 epochs have no known place within 0.1 s" in out

    def test_places_of_another_time_are_refused(self):
        with written(
            log=HEAD + WITHIN,
            other="2008/05/27 05:59:29.999 6378137 2 3\n",
            utc="2008/05/26 05:59:15.999 6378137 2 3\n",
            out="",
        ) as (log, other, utc, out):
            for script, words in (
                (summary, [log]),
                (pictures, ["time", log, f"{out}.png"]),
                (pictures, ["region", log, f"{out}.png"]),
                (pictures, ["integrity", log, f"{out}.png"]),
            ):
                with pytest.raises(Error, match="no place within 0.1 s of .* are of 2008-05-27 05:59:29.999"):
                    ended_with(script, *words, "--places", other)
                with pytest.raises(Error, match="the nearest is 14 s before it: are they in UTC?"):
                    ended_with(script, *words, "--places", utc)

    def test_options_that_need_places(self):
        for words in (
            ["--limit", "1", "2"],
            ["--azimuth", "3"],
            ["--along", "x"],
            ["--places", "x", "--limit", "1"],
            ["--places", "x", "--limit", "1", "-2"],
            ["--places", "x", "--limit", "nan", "2"],
        ):
            assert ended_with(summary, "x", *words)[0] == 2


class TestTracks:
    def direction(self, *points, at=0):
        """The azimuth in degrees at a time in s of a track with one place a second, from y and z at the equator."""
        track = [(k * 10**12, (6378137, y, z)) for k, (y, z) in enumerate(points)]
        found = places.direction(track, round(at * 10**12))
        return None if found is None else round(math.degrees(found), 3)

    def test_it_is_that_from_the_place_before_to_the_one_behind(self):
        east_then_north = ((0, 0), (10, 0), (10, 10))
        assert self.direction(*east_then_north, at=1) == 45.0
        assert self.direction(*east_then_north, at=0) == 90.0
        assert self.direction(*east_then_north, at=2) == 0.0
        assert self.direction(*east_then_north, at=0.5) == 90.0
        assert self.direction((0, 0), (0, -5), at=0.95) == 180.0

    def test_where_there_is_none(self):
        assert self.direction((0, 0), (0.1, 0)) is None
        assert self.direction((0, 0)) is None
        assert self.direction((0, 0), (10, 0), at=1.2) is None
        assert self.direction((0, 0), (10, 0), at=-0.2) is None

    def test_a_receiver_at_rest_is_told_of(self):
        with written(log=HEAD + WITHIN, places=f"{DATE} 6378137 25 0\n") as (log, known):
            _, out, _ = ended_with(summary, log, "--places", known, "--along", known)
        assert "warning: in 1 epochs the track gives no direction" in out


class TestPictures:
    def test_each_box_has_one_colour(self):
        for log in logs_with_places():
            for epoch in read_epochs(log):
                kinds = drawn_regions.box_kinds(epoch)
                assert sum(len(boxes) for boxes, *_ in kinds) == len(epoch.kept)
        cut, edge, inner = (boxes for boxes, *_ in drawn_regions.box_kinds(epoch_of(PAVED)))
        assert (len(cut), len(edge), len(inner)) == (2, 0, 0)
        cut, edge, inner = (boxes for boxes, *_ in drawn_regions.box_kinds(epoch_of(WITHIN)))
        assert (len(cut), len(edge), len(inner)) == (0, 1, 0)

    def test_the_title_says_the_splits_and_what_is_cut(self):
        for text, splits, is_cut in ((PAVED, 2, True), (WITHIN, 0, False)):
            epoch = epoch_of(text)
            title = drawn_regions.region_title(epoch, region.region_of(epoch))
            assert f"q = 1, {splits} splits\n" in title
            assert ("reaches the search box at -y -z +x +y +z: it may go on outside" in title) == is_cut

    def test_bands_of_epochs_that_are_cut_or_empty(self):
        course = drawn_regions.Course(places.Meetings(None, []), False)
        for epoch in read_epochs(RECORDED / "cres_2008.log"):
            course.add(epoch)
        assert course.title() == "8 epochs; 0 reach the search box, 2 are empty"
        assert course.empty == [False] * 6 + [True] * 2
        assert drawn_regions.edges_of([0, 2, 10]) == [(-1.0, 1.0), (1.0, 6.0), (6.0, 14.0)]
        xs, lows, highs = drawn_regions.bands([(0, 1), (1, 2), (2, 3)], [(5, 6)] * 3, [True, False, True])
        assert (xs, [low == 5 for low in lows]) == ((0, 1, 1, 2, 3), [True, True, False, True, True])


class TestCells:
    def test_an_epoch_of_a_log(self):
        for text, place, area, held in (
            (WITHIN, (6378137, 25, 0), "available", True),
            (PAVED, (6378150, -10, 0), "unavailable", True),
            (PAVED, (6378150, 10, 0), "unavailable", False),
        ):
            pair = stanford.judged_of(numbers(text, place), text == PAVED)
            assert [(it.area(None), it.held) for it in pair] == [(area, held)] * 2

    def test_the_areas_of_a_limit(self):
        for error, protection, area in (
            (3, 7, "available"),
            (7, 7, "available"),  # an error as long as its protection is within it
            (10, 10, "available"),  # and a length as long as the limit within that
            (3, 11, "unavailable"),
            (8, 7, "misleading"),
            (12, 11, "unavailable and misleading"),
            (11, 7, "hazardously misleading"),
            (11, 10, "hazardously misleading"),
        ):
            assert Judged(error, protection, False, True).area(10) == area
            # without a limit there is nothing but the diagonal
            assert Judged(error, protection, False, True).area(None) == (
                "misleading" if error > protection else "available"
            )
            # and what the search box cuts protects nothing
            assert Judged(error, protection, True, True).area(10) == "unavailable"

    def test_the_cells_of_a_limit(self):
        # 30 cells of 0.7 m to the limit of 21 m, and 18 more: 33.6 m
        epochs = [
            Judged(0.0, 21.0, False, True),  # the limit is the end of the 30th cell
            Judged(0.7, 21.01, False, True),
            Judged(0.71, 100.0, False, False),  # in the last one, as what is longer than the axis
            Judged(33.5, 1.0, True, True),  # in the uppermost one, as the search box cuts it
        ]
        found = stanford.diagram_of(epochs, 21.0)
        assert found.cells == {(0, 29): 1, (0, 30): 1, (1, 47): 1, (47, 47): 1}
        assert found.areas == {"available": 1, "unavailable": 3}
        assert {cell for cell in found.lost if found.lost[cell]} == {(1, 47)}
        assert {cell for cell in found.cut if found.cut[cell]} == {(47, 47)}
        assert found.beyond == 1
        assert found.ends[30] == 21.0
        assert found.square((0, 29))[2] == (found.ends[1], 21.0)

    def test_the_cells_without_a_limit(self):
        # the longest length is 83 m: cells of 2 m, of which 42 hold it, and one more
        found = stanford.diagram_of([Judged(3.0, 83.0, False, True), Judged(0.0, 0.0, True, True)], None)
        assert (found.ends[1], found.ends[-1], found.beyond) == (2.0, 86.0, 0)
        assert found.cells == {(1, 41): 1, (0, 42): 1}
        assert [stanford.step_for(length) for length in (0.02, 0.021, 1.0, 1.1, 30.0, 51.0)] == [
            0.02,
            0.05,
            1,
            2,
            50,
            100,
        ]

    def test_all_lengths_are_none(self):
        assert stanford.diagram_of([Judged(0.0, 0.0, False, True)], None).cells == {(0, 0): 1}

    def test_shares(self):
        assert [stanford.share(*it) for it in ((0, 8), (1, 8), (8, 8), (3, 100_000), (99_997, 100_000))] == [
            "0 (0.0 %)",
            "1 (12.5 %)",
            "8 (100.0 %)",
            "3 (0.0030 %)",
            "99,997 (99.9970 %)",
        ]
