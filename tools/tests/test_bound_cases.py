"""Tests of what makes the table of certified bounds, and that the table is the one which it makes."""
import random
from fractions import Fraction
from pathlib import Path
from unittest import mock

from gpscover.log import Box, Interval, Row
from tools import bound_cases
from tools.bound_cases import Form, HalfSpace, Region, Sum

TOP = Path(__file__).resolve().parents[2]
CRATE = TOP / "crates/bound_cases"
LOG = TOP / "crates/gpscover/data/receiver.log"
# Words for the table that stands in the repository.
WORDS = ["--lists", "12", "--receivers", "3", "--epochs", "1"]
SCALE = bound_cases.SCALE


def exact(at):
    """A span of one number."""
    return Interval(at, at)


# Four satellites on the x axis and on the y axis, on both sides, each of which bounds the offset by 10 um.
CROSS = [Form([SCALE * x, SCALE * y, 0], 10 * SCALE, -10 * SCALE) for x, y in ((1, 0), (-1, 0), (0, 1), (0, -1))]
BOX = Box(-100, -100, -100, 100, 100, 100)


class TestDefinitions:
    def test_the_form_of_a_row_along_an_axis(self):
        # v = (-3, 0, 0), so that A is 4; most = 4 (7 + 1 + 1) - 9 and least = 8 (5 - 2) - (16 + 9 + 3): the sides of the
        # box are 2 long, and 1 is from their middle to the high end.
        row = Row("G01", (exact(4), exact(1), exact(1)), Interval(5, 7), Interval(-1, 2), Interval(-1, 2))
        one = bound_cases.form(row, Box(0, 0, 0, 2, 2, 2))
        assert one == Form([-3 * SCALE // 4, 0, 0], 27 * SCALE // 4 + 3, -4 * SCALE // 8 - 3)

    def test_what_isnt_whole_is_rounded_down(self):
        # v = (-2, 0, 0), so that A is 3; most = 3 (0 + 1 + 1) - 4 and least = 6 (0 - 0) - (9 + 4).
        # 2^22 is 1 more than 3 times 1398101.
        row = Row("G01", (exact(2), exact(0), exact(0)), exact(0), Interval(-1, 0), Interval(-1, 0))
        one = bound_cases.form(row, Box(0, 0, 0, 0, 0, 0))
        assert one == Form([-2796203, 0, 0], 2796202, -9087659)

    def test_a_sum_that_leaves_the_offset_in_or_has_no_row_is_none(self):
        assert bound_cases.added(CROSS, [(0, 1), (1, 1)]) is None
        assert bound_cases.added(CROSS, [(0, 1), (4, -1)]) is None
        assert bound_cases.added([CROSS[0]._replace(upper=10**30 + 1), CROSS[1]], [(0, 1), (1, -1)]) is None
        assert bound_cases.added([CROSS[0]._replace(upper=10**30), CROSS[1]], [(0, 1), (1, -1)])
        assert bound_cases.added(CROSS, [(0, 1), (1, -1)]) == ([2 * SCALE, 0, 0], 20 * SCALE)

    def test_a_half_space_ends_where_its_sum_shows_it(self):
        # Twice x is at most 20: the first 2 SCALE times x are below 20 SCALE + 1 up to x = 10.
        one = Sum(2 * SCALE, [(0, 1), (1, -1), (0, 0), (0, 0), (0, 0)])
        assert bound_cases.least_end(CROSS, BOX, (1, 0, 0), one) == 10
        for end, shown in ((10, True), (9, False)):
            assert bound_cases.is_shown(CROSS, BOX, 0, HalfSpace((1, 0, 0), end), [one]) is shown
        assert not bound_cases.is_shown(CROSS, BOX, 1, HalfSpace((1, 0, 0), 10), [one])
        assert not bound_cases.is_shown(CROSS, BOX, 0, HalfSpace((1, 0, 0), 10), [])

    def test_each_choice_of_rows_has_to_leave_a_sum_whole(self):
        one, two = (Sum(1, [(k, 0)] * 5) for k in range(2))
        assert bound_cases.uncovered([one], range(4), 0) is None
        assert bound_cases.uncovered([one, two], range(4), 1) is None
        assert set(bound_cases.uncovered([one, two], range(4), 2)) == {0, 1}
        assert bound_cases.uncovered([], range(4), 0) == ()


class TestRegion:
    def test_it_reaches_as_far_as_its_rows_let_it(self):
        assert Region(CROSS, BOX, 0).furthest((3, 0, 0))[0] == 30
        assert Region(CROSS, BOX, 0).furthest((0, 0, 1))[0] == 100  # to the side of the box
        # Without one of the rows on the x axis the others bound the offset by 10 - |y|: x is then at most 20.
        assert Region(CROSS, BOX, 1).furthest((1, 0, 0))[0] == 20
        assert Region(CROSS, BOX, 1).furthest((1, 0, 0), (2,))[0] == 10

    def test_a_corner_between_whole_points_is_told_as_it_is(self):
        forms = [Form([SCALE * 3, 0, 0], SCALE, -SCALE), Form([0, 0, 0], 0, 0), *CROSS[2:]]
        assert Region(forms, BOX, 0).furthest((1, 0, 0))[0] == Fraction(1, 3)

    def test_what_is_certified_is_shown_and_ends_there(self):
        half, sums = bound_cases.certified(CROSS, BOX, Region(CROSS, BOX, 0), (1, 0, 0))
        assert half.end == 10
        assert bound_cases.is_shown(CROSS, BOX, 0, half, sums)

    def test_a_made_receiver_is_bounded_within_the_tolerance(self):
        receiver = [6 * 10**12, 10**12, 2 * 10**12]
        rows = bound_cases.made_rows(random.Random(5), 7, receiver)
        box = Box(*(at - 10**8 for at in receiver), *(at + 10**8 for at in receiver))
        forms = [bound_cases.form(row, box) for row in rows]
        region = Region(forms, box, 1)
        direction = (600000, 0, -800000)
        half, sums = bound_cases.certified(forms, box, region, direction)
        least = region.furthest(direction)[0] + bound_cases.dot(direction, region.centre)
        assert 0 <= half.end - least < bound_cases.TOLERANCE
        assert bound_cases.is_shown(forms, box, 1, half, sums)
        assert not bound_cases.is_shown(forms, box, 1, half._replace(end=half.end - 1), sums)


class TestTable:
    def made(self, *words):
        return bound_cases.table_of(bound_cases.arguments().parse_args([*words, "cases", "answers"]))

    def test_the_table_of_the_crate_is_the_one_that_is_made(self):
        words = [*WORDS, "cases", "answers", str(LOG)]
        table = bound_cases.table_of(bound_cases.arguments().parse_args(words))
        assert (CRATE / "stdin").read_text() == "\n".join(table.cases) + "\n"
        assert (CRATE / "stdout").read_text() == "\n".join(table.answers) + "\n"
        assert min(map(table.answers.count, ("shown", "not shown", "within"))) > 20

    def test_no_line_has_a_number_that_a_log_cant_have(self):
        table = self.made("--lists", "3", "--receivers", "0")
        for line in table.cases:
            word, *fields = line.split(" ")
            if word == "bound":
                assert max(abs(int(part)) for part in fields[:3]) <= 10**6
                assert abs(int(fields[3])) <= 9 * 10**18 and 1 <= int(fields[4]) <= 64
            elif word == "by":
                assert 0 <= int(fields[0]) <= 2**44 and len(fields) == 11
                assert all(0 <= int(place) < 64 for place in fields[1::2])
                assert all(abs(int(times)) <= 2**20 for times in fields[2::2])

    def test_both_files_are_written(self, room, capsys):
        cases, answers = room / "cases", room / "answers"
        words = ["bound_cases.py", "--lists", "2", "--receivers", "0", str(cases), str(answers)]
        with mock.patch("sys.argv", words):
            assert bound_cases.main() == 0
        asked, sides, headings = int(capsys.readouterr().out.split()[0]), 5, 3
        assert len(answers.read_text().splitlines()) == asked + sides + headings
