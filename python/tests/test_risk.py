"""Probabilities against sums by hand."""

import decimal
import itertools
import math
import os
import tempfile
from fractions import Fraction
from pathlib import Path

from made_logs import RECORDED, ended_with

from gpscover import risk


def said(*words):
    """What the script prints for these words, without what it assumes."""
    lines = ended_with(risk, *words)[1].splitlines()
    assert tuple(lines[:2]) == risk.ASSUMED
    return lines[2:]


def by_outcomes(chances, outliers):
    """The probability that more than so many events come, from all outcomes of independent events."""
    total = Fraction(0)
    for outcome in itertools.product((True, False), repeat=len(chances)):
        if sum(outcome) > outliers:
            total += math.prod(p if comes else 1 - p for p, comes in zip(chances, outcome))
    return total


class TestChances:
    def test_sums_by_hand(self):
        half, third = Fraction(1, 2), Fraction(1, 3)
        for satellites, outliers, p, wanted in (
            (2, 0, half, Fraction(3, 4)),  # all but the one of four outcomes without any
            (3, 1, half, half),  # two or three of three, as often as none or one
            (4, 2, third, Fraction(1, 9)),  # 4 (1/27) (2/3) + 1/81
            (4, 0, third, Fraction(65, 81)),  # 1 - (2/3)^4
            (5, 5, half, 0),
            (5, 0, Fraction(0), 0),
            (5, 4, Fraction(1), 1),
        ):
            assert risk.chance_of_more(satellites, outliers, p) == wanted

    def test_it_is_what_all_outcomes_say(self):
        p = Fraction(3, 100)
        for satellites in range(1, 8):
            for outliers in range(satellites):
                assert risk.chance_of_more(satellites, outliers, p) == by_outcomes([p] * satellites, outliers)

    def test_smaller_probabilities_of_some_satellites_make_it_no_greater(self):
        p = Fraction(1, 10)
        chances = [p, p / 2, Fraction(0), p, p / 7]
        for outliers in range(5):
            assert by_outcomes(chances, outliers) <= risk.chance_of_more(5, outliers, p)

    def test_q_of_nine_satellites_for_one_in_ten_millions(self):
        required = Fraction("1e-7")
        for p, outliers in (("1e-5", 1), ("1e-3", 2), ("1e-2", 4)):
            assert risk.least_outliers(9, Fraction(p), required) == outliers
            assert risk.chance_of_more(9, outliers - 1, Fraction(p)) > required

    def test_the_greatest_p(self):
        # one satellite and q = 0: the probability is p itself
        assert risk.greatest_p(1, 0, Fraction(1, 8)) == (Fraction("0.125"), Fraction("0.126"))
        # two and q = 1: p^2, and 0.316^2 = 0.099856, 0.317^2 = 0.100489
        assert risk.greatest_p(2, 1, Fraction(1, 10)) == (Fraction("0.316"), Fraction("0.317"))
        # 0.999 of two and q = 1 is 0.998001; the next one is 1
        assert risk.greatest_p(2, 1, Fraction("0.999")) == (Fraction("0.999"), 1)
        assert risk.greatest_p(3, 3, Fraction(1, 10)) == (1, None)
        for satellites, outliers in ((9, 1), (12, 3)):
            borne, more = risk.greatest_p(satellites, outliers, Fraction("1e-7"))
            assert risk.chance_of_more(satellites, outliers, borne) <= Fraction("1e-7")
            assert risk.chance_of_more(satellites, outliers, more) > Fraction("1e-7")

    def test_decimals_are_rounded_away_from_what_is_safe(self):
        for value, up, down in (
            ("1/3", "3.34e-1", "3.33e-1"),
            ("1e-7", "1.00e-7", "1.00e-7"),
            ("9999/10000", "1.00e+0", "9.99e-1"),
            ("0", "0", "0"),
            ("1.2300001e-9", "1.24e-9", "1.23e-9"),
        ):
            assert risk.decimal_of(Fraction(value)) == up
            assert risk.decimal_of(Fraction(value), decimal.ROUND_FLOOR) == down


class TestAnswers:
    def test_one_number_of_satellites(self):
        assert said("--p", "1/2", "--q", "1", "--satellites", "3") == [
            "more than 1 of 3: at most 5.00e-1, exactly 1/2",
            "few: an epoch is paved from 5 satellites on",
        ]
        assert said("--p", "1e-2", "--risk", "1e-7", "--satellites", "9")[0] == "least q of 9: 4"
        assert (
            said("--q", "0", "--risk", "1/8", "--satellites", "1")[0]
            == "q = 0 of 1 bears p up to 1.25e-1, and not 1.26e-1"
        )

    def test_tables(self):
        lines = said("--p", "1e-2", "--risk", "1e-7", "--satellites", "7-9")
        # 9: 126 p^5 (1 - p)^4 + 84 p^6 (1 - p)^3 + .. = 1.2185e-8
        assert [line.split() for line in lines[1:]] == [
            ["7", "4", "2.07e-9", "few"],
            ["8", "4", "5.47e-9"],
            ["9", "4", "1.22e-8"],
        ]
        # nearly sure to break: more than 8 may, which the settings don't allow
        assert "over 8" in said("--p", "0.9", "--risk", "1e-7", "--satellites", "12-13")[1]
        grid = said("--p", "1/2", "--satellites", "4-5")
        assert [line.split() for line in grid[1:]] == [
            ["4", "9.38e-1", "few", "few", "few", "few"],
            ["5", "9.69e-1", "8.13e-1", "few", "few", "few"],
        ]

    def test_by_the_epochs_of_a_log(self):
        text = (
            "gpscover 1\nrules 1 0 1000\n"
            + "".join(f"epoch {k} {k} 5\nroot 0 0 0 1 1 1\nedge 0 0 0\ndone 0\n" for k in (1, 2))
            + "few 3 3 4\n"
        )
        with tempfile.TemporaryDirectory() as room:
            path = os.path.join(room, "made.log")
            Path(path).write_text(text, newline="\n")
            by_log, other = said("--log", path, "--p", "1/10"), said("--log", path, "--p", "1/10", "--q", "0")
        # five of one in ten, more than 1: 1 - 0.9^5 - 5 * 0.1 * 0.9^4 = 0.08146, and twice that is
        # 0.16292
        assert [line.split() for line in by_log[1:3]] == [["1", "4", "1", "5.23e-2", "few"], ["2", "5", "1", "8.15e-2"]]
        assert by_log[3].startswith("in 2 epochs without a mark: at most 1.63e-1 ")
        # q = 0: 1 - 0.9^4 = 0.3439 and 1 - 0.9^5 = 0.40951; the sum is over 1
        assert [line.split() for line in other[1:3]] == [["1", "4", "0", "3.44e-1"], ["2", "5", "0", "4.10e-1"]]
        assert other[3].startswith("in 3 epochs without a mark: at most 1.00e+0 ")

    def test_a_recorded_log(self):
        lines = said("--log", str(RECORDED / "ubx_2008.log"), "--risk", "1e-7")
        assert [line.split() for line in lines[1:]] == [["8", "9", "1", "5.27e-5", "5.28e-5"]]

    def test_wrong_words(self):
        for words in (
            ("--q", "1"),
            ("--p", "2", "--q", "1"),
            ("--p", "x", "--q", "1"),
            ("--p", "1/0", "--q", "1"),
            ("--p", "1e-999999999", "--q", "1"),
            ("--p", "1E+999999999", "--q", "1"),
            ("--p", "nan", "--q", "1"),
            ("--p", "1e-3", "--q", "9"),
            ("--p", "1e-3", "--risk", "0"),
            ("--p", "1e-3", "--risk", "1"),
            ("--p", "1e-3", "--q", "1", "--risk", "1e-7"),
            ("--risk", "1e-7"),
            (),
            ("--p", "1e-3", "--satellites", "9-4"),
            ("--p", "1e-3", "--satellites", "65"),
            ("--p", "1e-3", "--satellites", "4", "--log", "x"),
        ):
            assert ended_with(risk, *words)[0] == 2
