"""Certified bounds that are found: the second checker accepts them."""
import math
import random

import pytest
from made_logs import EXAMPLES, RECORDED

from gpscover import bound_search, bounded, region, row_sums
from gpscover.geodesy import whole_product
from gpscover.log import Box, blocks, epochs
from tools.bound_cases import Region, any_box, any_row, form, made_rows
from tools.forged_logs import BOX, CUTS_LEAVE, DATA, put, renewal, text, with_renewals
from tools.tests.test_forged_bounds import second

LOG = DATA / "receiver.log"
WHOLE = "edge 0 -200000000000000 200000000000000"  # holds each clock hull that a log may have


def one_box(path, half):
    """The lines of a log of the first epoch of another, whose root is one box of such a half side in um."""
    lines = path.read_text().splitlines()
    at = next(k for k, line in enumerate(lines) if line.startswith("root "))
    middle = [round(part * 10**6) for part in region.hull_of(next(epochs(path)).boxes).centre]
    ends = [end + sign * half for sign in (-1, 1) for end in middle]
    return [*lines[:at], " ".join(map(str, ("root", *ends))), WHOLE, "done 0"]


def epochs_of(lines):
    """The epochs of a log of these lines, as they are read."""
    return list(blocks(iter(lines)))


class TestFound:
    @pytest.fixture(scope="class")
    def whole(self):
        """The recorded log with bounds."""
        return "".join(f"{line}\n" for line in bounded.bounded(LOG))

    @pytest.fixture
    def path(self, whole, room):
        path = room / "bounded.log"
        path.write_text(whole)
        return path

    def test_each_epoch_has_bounds_round_its_region(self, path):
        found, before = list(epochs(path)), list(epochs(LOG))
        assert [len(epoch.bounds) for epoch in found] == [10] * 4
        assert [epoch.kept for epoch in found] == [epoch.kept for epoch in before]
        for epoch in found:
            middle = region.hull_of(epoch.boxes).centre
            ends = [end for box in epoch.boxes for end in (box.low, box.high)]
            for at in (0, 1, 2, 3, 8):  # with the opposite direction
                one, other = (epoch.bounds[at + more] for more in ((0, 4) if at < 4 else (0, 1)))
                assert one.direction == bounded.negative(other.direction)
                far = [whole_product(one.direction, corner) for corner in ends]
                assert 20 < one.reach(middle) + other.reach(middle) < (max(far) - min(far)) / 1e12

    def test_the_second_checker_accepts_them(self, whole):
        assert second(whole.encode()) == "yes 48"
        for line in 1, 3, 17, 39:
            forged = whole.splitlines()
            at = [k for k, text in enumerate(forged) if text.startswith("bound ")][line]
            words = forged[at].split()
            words[4] = str(int(words[4]) - 1)
            forged[at] = " ".join(words)
            assert second(text(forged)) == f"no 66 BoundNotShown line {at + 1}"

    @pytest.mark.parametrize("name", ("cres_2008", "geonet0759_2005", "javad_2011", "ubx_2008"))
    def test_those_of_recorded_receivers_are_accepted(self, name):
        lines = list(bounded.bounded(RECORDED / f"{name}.log", 4))
        assert second(text(lines)).startswith("yes ")
        paved = sum(epoch.kept != [] for epoch in epochs(RECORDED / f"{name}.log"))
        assert sum(line.startswith("bound ") for line in lines) == 6 * paved

    def test_a_long_hull_is_narrowed_by_bounds_along_the_axes(self, room):
        path, ways = room / "long.log", [*row_sums.AXES]
        for half, first in ((249 * 10**6, []), (600 * 10**6, ways)):
            lines = one_box(LOG, half)
            path.write_bytes(text(lines))
            whole = list(bounded.bounded(path))
            assert second(text(whole)) == "yes 1"
            (found,) = epochs_of(whole)
            asked = bounded.directions(found.root, 8)
            assert [it.direction for it in found.bounds] == [*first, *asked]
            assert [it.direction for it in bounded.asked_of(found)] == asked
        # What is left of the hull is far shorter; without its axes in front the first bound behind them isn't shown.
        hull = found.boxes[0]
        for one in found.bounds:
            hull = row_sums.hull_under(one, hull)
        assert max(high - low for low, high in zip(hull.low, hull.high)) < 200 * 10**6
        behind = [line for one in bounded.asked_of(found) for line in bounded.bound_lines(one)]
        assert second(text(["gpscover 4", *lines[1:], *behind])) == f"no 66 BoundNotShown line {len(lines) + 1}"
        # Over the whole hull bounds end further away, by what a form leaves out there.
        wide = bound_search.bounds_over(found.rows, found.boxes[0], found.outliers, asked)
        for near, far in zip(bounded.asked_of(found), wide):
            assert 1000 < (far.most - near.most) / math.hypot(*near.direction) < 10**6  # um

    def test_one_box_whose_bounds_are_known(self):
        # each of the satellites on the axes has an error within 0.5 m, so x - y is at most 1 m
        for name, answer in (("one-edge-box", "yes 1"), ("renewed-rows", "yes 1"), ("recorded-epoch", "yes 12")):
            assert second(text(bounded.bounded(EXAMPLES / f"{name}.log"))) == answer
        (epoch,) = epochs(EXAMPLES / "one-edge-box.log")
        (found,) = bound_search.bounds_over(epoch.rows, epoch.boxes[0], epoch.outliers, [(1, -1, 0)])
        assert abs(found.most - 10**6) < 200
        assert len(found.sums) == 1 and found.sums[0].aim > 0

    def test_more_outliers_take_more_sums_and_reach_further(self):
        epoch = next(epochs(LOG))
        hull, ways = region.hull_of(epoch.boxes), bounded.directions(epoch.root, 4)
        found = [bound_search.bounds_over(epoch.rows, hull, q, ways) for q in range(6)]
        assert [len(bounds) for bounds in found[:2]] == [6, 6] and found[5] == []
        for fewer, more in zip(found[:4], found[1:5]):
            ends = {bound.direction: bound.most for bound in fewer}
            assert all(it.most > ends[it.direction] - 20_000 * 10**6 for it in more)  # 20 mm
        forms = [row_sums.form_of(row, hull) for row in epoch.rows]
        for q, bounds in enumerate(found):
            assert all(row_sums.is_shown(forms, hull, q, bound) for bound in bounds)
            assert not any(row_sums.is_shown(forms, hull, q + 1, bound) for bound in bounds)

    def test_they_end_where_the_linear_rows_and_the_box_do(self):
        # the box is far smaller than what the rows allow, about as large, and larger
        draw = random.Random(66)
        for number, half in enumerate((10**6, 20 * 10**6, 200 * 10**6) * 2):
            receiver = [6 * 10**12, draw.randint(-(10**11), 10**11), 2 * 10**12]
            rows, q = made_rows(draw, 6, receiver), number % 2
            box = Box(*(at - half for at in receiver), *(at + half for at in receiver))
            allowed = Region([form(row, box) for row in rows], box, q)
            for way in (10**6, 0, 0), (-300000, 400000, -500000):
                (found,) = bound_search.bounds_over(rows, box, q, [way])
                exact = allowed.furthest(way)[0] + whole_product(way, row_sums.middle_of(box))
                assert -1 < (found.most - exact) / math.hypot(*way) < 20_000  # um

    def test_rows_of_any_size_end(self):
        draw = random.Random(66)
        for number in range(60):
            rows = [any_row(draw, k + 1) for k in range(draw.randint(1, 9))]
            box = any_box(draw, 10 ** draw.uniform(0, 13))
            ways = [tuple(draw.randint(-(10**6), 10**6) for _ in range(3)), (10**6, 0, 0)]
            forms = [row_sums.form_of(row, box) for row in rows]
            for found in bound_search.bounds_over(rows, box, number % 5, ways):
                assert row_sums.is_shown(forms, box, number % 5, found)

    def test_the_rows_are_the_last_ones_where_their_box_holds_all(self, room):
        point, less = (0,) * 6, (*BOX[:5], 999999)
        for boxes, last in ([BOX], True), ([BOX, less], False), ([point, BOX], True), ([point], False), ([], False):
            path = room / "renewed.log"
            path.write_bytes(text(put(with_renewals([CUTS_LEAVE], *map(renewal, boxes)), 1, "gpscover 4")))
            (epoch,) = epochs(path)
            hull = region.hull_of(epoch.boxes)
            assert hull == BOX
            assert bounded.rows_over(epoch, hull) is (epoch.renewals[-1].rows if last else epoch.rows)

    def test_directions(self):
        equator = Box(*(end * 10**6 for end in (6378037, -100, -100, 6378237, 100, 100)))
        root = 707107
        assert bounded.directions(equator, 8) == [
            *((0, 10**6, 0), (0, root, root), (0, 0, 10**6), (0, -root, root)),
            *((0, -(10**6), 0), (0, -root, -root), (0, 0, -(10**6)), (0, root, -root)),
            *((10**6, 0, 0), (-(10**6), 0, 0)),
        ]
        assert len(set(bounded.directions(equator, 16))) == 18
