"""Certified bounds: the command that adds them to a log, what sums show, and what is said by bounds."""

import argparse
import csv
import math

import pytest
from made_logs import EXAMPLES, HEAD, PAVED, RECORDED, TOP, WITHIN, box_at, ended, epoch_of

from gpscover import bounded, certified, export, integrity, known, page, region, row_sums, summary
from gpscover.beside import Beside
from gpscover.bound_search import bounds_over
from gpscover.log import Bound, Box, RowSum, Term, epochs

LOG = TOP / "crates/gpscover/data/receiver.log"
BOUNDED_HEAD = HEAD.replace("gpscover 1", "gpscover 4")
SUM = "by 0 0 0 0 0 0 0 0 0 0 0\n"


def bound(direction, most):
    """A bound without sums."""
    return Bound(direction, most, [])


def bound_text(direction, most):
    """The lines of a bound."""
    return " ".join(map(str, ("bound", *direction, most, 1))) + "\n" + SUM


# At the equator, at longitude 0: east is y, north is z, up is x. The bounds leave 9 m east to 31 m, 11 m south to 12 m north,
# of which a corner is cut, and 3 m down to 4 m up.
PLACE = (6378137, 0, 0)
ROUND = [
    bound((0, 1, 0), 31 * 10**6),
    bound((0, -10, 0), -90 * 10**6),
    bound((0, 0, 1), 12 * 10**6),
    bound((0, 0, -1), 11 * 10**6),
    bound((0, 3, 3), 90 * 10**6),
    bound((2, 0, 0), 2 * 6378141 * 10**6),
    bound((-1, 0, 0), -6378134 * 10**6),
]
ROUND_TEXT = WITHIN + "".join(bound_text(it.direction, it.most) for it in ROUND)
FLAT = {(9, -11), (9, 12), (18, 12), (31, -1), (31, -11)}


# Boxes, and some of sixteen azimuths and up at their middles: a table that the program's directions are tested by, too.
TABLE = TOP / "crates/number_tests/src/direction_vectors.rt"
PLACES = 0, 1, 5, 4, 16


def test_directions_are_those_of_the_table():
    rows = [
        line.rstrip('\\n";').split() for line in TABLE.read_text().splitlines() if line[:1] in "-0123456789" and line
    ]
    assert len(rows) == 20
    for row in rows:
        search, *numbers = Box(*map(int, row[:6])), *map(int, row[6:])
        found = bounded.directions(search, 16)
        assert [found[place] for place in PLACES] == list(zip(numbers[::3], numbers[1::3], numbers[2::3]))
        assert found[8:16] == [bounded.negative(way) for way in found[:8]] and found[17] == bounded.negative(found[16])
        assert bounded.directions(search, 4) == found[:16:4] + found[16:]
        assert bounded.directions(search, 8) == found[:16:2] + found[16:]


class TestCommand:
    def test_it_writes_a_log_once(self, tmp_path):
        new, again = tmp_path / "new.log", tmp_path / "again.log"
        assert ended(bounded, LOG, new, "--directions", "4") == (0, "", "")
        assert [len(epoch.bounds) for epoch in epochs(new)] == [6] * 4
        assert ended(bounded, new, again, "--directions", "4") == (0, "", "")
        assert new.read_bytes() == again.read_bytes()

    def test_what_is_no_log_leaves_nothing(self, tmp_path):
        cut = tmp_path / "cut.log"
        cut.write_bytes(LOG.read_bytes()[:-3])
        for log in (tmp_path / "none.log", cut, RECORDED / "README.md", EXAMPLES / "recorded-epoch.rows", tmp_path):
            status, out, err = ended(bounded, log, tmp_path / "new.log")
            assert (status, out, err.count("\n")) == (1, "", 1)
            assert not (tmp_path / "new.log").exists()

    def test_the_log_itself_isn_t_overwritten(self, tmp_path):
        path = tmp_path / "one.log"
        path.write_bytes(LOG.read_bytes())
        assert ended(bounded, path, path)[0] == 1
        assert path.read_bytes() == LOG.read_bytes()

    def test_a_wrong_count_of_azimuths(self, tmp_path):
        for count in "0", "5", "x", "-8", "8.0":
            assert ended(bounded, LOG, tmp_path / "new.log", "--directions", count)[0] == 2

    def test_epochs_without_boxes_have_none(self, tmp_path):
        path = tmp_path / "few.log"
        path.write_text(HEAD + "few 1 0 4\n" + PAVED.replace("edge 3 -5000000 7000000", "out 3").split("cut")[0])
        assert ended(bounded, path, tmp_path / "new.log")[0] == 1
        path.write_text(HEAD + "few 1 0 4\nepoch 2 1000000000000 0\nroot 0 0 0 1 1 1\nout 0\ndone 0\n")
        assert ended(bounded, path, tmp_path / "new.log") == (0, "", "")
        assert (tmp_path / "new.log").read_text() == path.read_text().replace("gpscover 1", "gpscover 4")


class TestNarrowed:
    """What bounds along axes leave of a hull, and which bounds were asked for."""

    HULL = Box(-5, 10, -30, 7, 20, -10)

    def left(self, direction, most):
        """What a bound leaves of the hull."""
        return row_sums.hull_under(bound(direction, most), self.HULL)

    def test_a_face_is_moved_to_an_end_in_its_side(self):
        for axis, low, high in zip(range(3), self.HULL.low, self.HULL.high):
            plain = tuple(int(axis == k) for k in range(3))
            for end in (low, low + 1, high - 1, high):
                ends = list(self.HULL)
                assert self.left(plain, end) == Box(*ends[: axis + 3], end, *ends[axis + 4 :])
                assert self.left(bounded.negative(plain), -end) == Box(*ends[:axis], end, *ends[axis + 1 :])

    def test_else_none_is(self):
        for axis, low, high in zip(range(3), self.HULL.low, self.HULL.high):
            plain = tuple(int(axis == k) for k in range(3))
            for end in (low - 1, high + 1, 9 * 10**18, -9 * 10**18):
                assert self.left(plain, end) == self.left(bounded.negative(plain), -end) == self.HULL
            for other in (tuple(2 * part for part in plain), tuple(-2 * part for part in plain), (0, 0, 0)):
                assert self.left(other, low + high) == self.HULL
            assert self.left(tuple(part or 1 for part in plain), low) == self.HULL
        assert self.left((1, 1, 0), 15) == self.left((0, -1, 1), -30) == self.HULL

    def test_long_hulls_have_axes_in_front(self):
        for axis in range(3):
            for side, found in ((500_000_000, ()), (500_000_001, row_sums.AXES)):
                high = [7 + side * (axis == k) for k in range(3)]
                assert bounded.axes_of(Box(7, 7, 7, *high)) == found
        assert row_sums.AXES == ((1, 0, 0), (-1, 0, 0), (0, 1, 0), (0, -1, 0), (0, 0, 1), (0, 0, -1))

    def test_bounds_that_were_asked_for(self):
        asked = [(3, 0, 4), (1, 0, 0), (0, 0, -1)]
        long = box_at((6378137, 0, 0), (600, 10, 10))
        for axes in (row_sums.AXES, row_sums.AXES[1::2], ((0, -1, 0),), ()):
            ways = [*axes, *asked]
            lines = "".join(bound_text(way, 10**15) for way in ways)
            for text, found in ((long, asked), (WITHIN, ways)):
                epoch = epoch_of(text + lines, BOUNDED_HEAD)
                assert [it.direction for it in bounded.asked_of(epoch)] == found
        assert bounded.asked_of(epoch_of(WITHIN)) == []
        assert bounded.asked_of(epoch_of("few 1 0 4\n", BOUNDED_HEAD)) == []


class TestShown:
    """What sums show, by hand: satellites on the axes, and a box round the origin."""

    def forms(self):
        (epoch,) = epochs(EXAMPLES / "one-edge-box.log")
        return [row_sums.form_of(row, epoch.boxes[0]) for row in epoch.rows], epoch.boxes[0]

    def test_what_shows_nothing(self):
        forms, box = self.forms()
        good = bounds_over(next(epochs(EXAMPLES / "one-edge-box.log")).rows, box, 0, [(1, -1, 0)])[0]
        one = good.sums[0]
        assert row_sums.is_shown(forms, box, 0, good)
        worse = (
            Bound(good.direction, good.most - 1, good.sums),
            Bound(good.direction, good.most, []),
            Bound((10**6 + 1, -(10**6) - 1, 0), good.most * (10**6 + 1), [RowSum(1, one.terms)]),
            Bound(good.direction, 9 * 10**18 + 1, good.sums),
            Bound(good.direction, good.most, [RowSum(-1, one.terms)]),
            Bound(good.direction, good.most, [RowSum(one.aim, (*one.terms[:4], Term(one.terms[4].place, 1)))]),
            Bound(good.direction, good.most, [RowSum(one.aim, (*one.terms[:4], Term(4, 0)))]),
            Bound(good.direction, good.most, [*good.sums, RowSum(1, (Term(0, 0),) * 5)]),  # the box reaches further
        )
        for found in worse:
            assert not row_sums.is_shown(forms, box, 0, found)
        assert not row_sums.is_shown(forms, box, 1, good)

    def test_the_box_itself(self):
        # a sum of no rows shows what the box does, and needs as many as may be left out, and one
        forms, box = self.forms()
        for q in range(3):
            sums = [RowSum(1, (Term(k, 0),) * 5) for k in range(q + 1)]
            for most, shown in ((box.x_high, True), (box.x_high - 1, False)):
                assert row_sums.is_shown(forms, box, q, Bound((1, 0, 0), most, sums)) == shown
            assert not row_sums.is_shown(forms, box, q, Bound((1, 0, 0), box.x_high, sums[1:]))

    def test_choices_left_out(self):
        assert row_sums.left_out([], 0) == frozenset()
        assert row_sums.left_out([{1, 2}], 0) is None
        assert row_sums.left_out([{1, 2}, {3}], 1) is None
        assert row_sums.left_out([{1, 2}, {2, 3}], 1) == {2}
        assert len(row_sums.left_out([{1, 2}, {3, 4}, {2, 4}], 2)) <= 2


class TestCorners:
    def flat(self, corners):
        return {(round(y, 6), round(z, 6)) for _, y, z in corners}

    def test_by_hand(self):
        corners = certified.corners_of(ROUND, PLACE)
        assert len(corners) == 10
        assert self.flat(corners) == FLAT
        assert {round(x, 6) for x, _, _ in corners} == {-3, 4}

    def test_from_another_point(self):
        corners = certified.corners_of(ROUND, (6378138, 1, -2))
        assert self.flat(corners) == {(y - 1, z + 2) for y, z in FLAT}
        assert {round(x, 6) for x, _, _ in corners} == {-4, 3}

    def test_what_has_no_end_has_no_corners(self):
        for k in (0, 1, 2, 3, 5, 6):
            assert certified.corners_of(ROUND[:k] + ROUND[k + 1 :], PLACE) == [] or k in (0, 2)
        for few in (ROUND[:0], ROUND[:1], ROUND[:2], ROUND[:4], ROUND[:5], ROUND[:6], ROUND[5:]):
            assert certified.corners_of(few, PLACE) == []
        # azimuths that are level but for their rounding leave no end up
        tilted = [
            Bound((k, it.direction[1] * 10**5, it.direction[2] * 10**5), it.most * 10**5, [])
            for k, it in enumerate(ROUND[:5])
        ]
        assert certified.corners_of(tilted, PLACE) == []

    def test_what_is_nothing_has_none(self):
        assert certified.corners_of([*ROUND, bound((0, 1, 0), 8 * 10**6)], PLACE) == []

    def test_a_bound_without_a_direction_is_passed_over(self):
        assert self.flat(certified.corners_of([bound((0, 0, 0), 5), *ROUND], PLACE)) == FLAT


class TestSaid:
    @pytest.fixture
    def epoch(self):
        return epoch_of(ROUND_TEXT, BOUNDED_HEAD)

    def test_the_extents_are_those_of_the_bounds(self, epoch):
        found = region.region_of(epoch)
        assert found.certified
        assert found.widths() == pytest.approx([22, 23, 7], rel=0, abs=1e-4)
        assert not region.region_of(epoch_of(WITHIN)).certified
        assert found.volume == region.region_of(epoch_of(WITHIN)).volume

    def test_the_levels_are_those_of_the_farthest_corner(self, epoch):
        found = integrity.numbers_of(epoch, region.region_of(epoch), PLACE, math.pi / 2)
        assert found.certified
        assert (found.hpl, found.vpl) == pytest.approx((math.hypot(31, 11), 4), rel=0, abs=1e-4)
        assert (found.along, found.across) == pytest.approx((31, 12), rel=0, abs=1e-4)
        # the middle is 20 m east, 0.5 m north and 0.5 m up; from there the farthest corner is 11 m and 11.5 m away
        assert found.error == pytest.approx((math.hypot(20, 0.5), 0.5), rel=0, abs=1e-3)
        assert found.reach == pytest.approx((math.hypot(11, 11.5), 3.5), rel=0, abs=1e-3)

    def test_a_place_beyond_a_bound_isn_t_held(self, epoch):
        for place, held in (((6378137, 25, 4), True), ((6378137, 25, 6), False), ((6378137, 30.5, 0), False)):
            assert integrity.is_held(epoch, place) == held
        assert integrity.is_held(epoch_of(WITHIN), (6378137, 25, 6))

    def test_the_summary_says_so(self, tmp_path):
        plain, whole, places = tmp_path / "plain.log", tmp_path / "whole.log", tmp_path / "places"
        plain.write_text(HEAD + WITHIN)
        whole.write_text(BOUNDED_HEAD + ROUND_TEXT)
        places.write_text("895816769.999 6378137 25 6\n")
        line, before = (ended(summary, path)[1].splitlines()[1] for path in (whole, plain))
        assert line.endswith(" certified") and before.split()[6:9] == ["10.1", "20.0", "4.1"]
        assert line.split()[6:9] == ["22.1", "23.0", "7.1"]  # rounded up, along axes that are hardly turned
        heads = [next(csv.reader(ended(summary, path, "--csv")[1].splitlines())) for path in (whole, plain)]
        assert heads[0] == [*heads[1], "certified"]
        (row,) = csv.DictReader(ended(summary, whole, "--csv", "--places", places)[1].splitlines())
        assert (row["certified"], row["east_m"], row["held"], row["hpl_m"]) == ("1", "22.1", "0", "23.4")
        status, out, _ = ended(known, whole, places, "--strict")
        assert status == 3
        assert "by certified bounds in 1 of the 1 regions" in out and "isn't in a kept box within every bound" in out

    def test_other_programs_are_told(self, tmp_path):
        whole = tmp_path / "whole.log"
        whole.write_text(BOUNDED_HEAD + ROUND_TEXT)
        for name, word in (
            ("out.csv", "certified"),
            ("out.kml", "m, certified<"),
            ("out.geojson", '"certified": true'),
        ):
            assert ended(export, whole, tmp_path / name)[0] == 0
            assert word in (tmp_path / name).read_text()

    def test_the_page_has_a_column_where_some_epoch_is(self, tmp_path):
        for text, has in ((HEAD + WITHIN, False), (BOUNDED_HEAD + ROUND_TEXT, True)):
            path = tmp_path / "one.log"
            path.write_text(text)
            collected, _ = page.collect([path], 0, math.inf, 10**6, Beside())
            words = argparse.Namespace(log=[str(path)], first=None, last=None, settings=None)
            data = page.page_data(words, collected, page.rules_of(path), None, None)
            assert (["certified", "certified"] in data["columns"]) == has
            assert data["table"].get("certified") == (["1"] if has else None)

    def test_a_picture_has_the_outline(self, tmp_path):
        pytest.importorskip("matplotlib")
        from gpscover import pictures

        found = {}
        for name, text in (("plain", HEAD + WITHIN), ("whole", BOUNDED_HEAD + ROUND_TEXT)):
            (tmp_path / f"{name}.log").write_text(text)
            assert ended(pictures, "region", tmp_path / f"{name}.log", tmp_path / f"{name}.svg")[0] == 0
            found[name] = (tmp_path / f"{name}.svg").read_text()
        assert len(found["whole"]) > len(found["plain"])
