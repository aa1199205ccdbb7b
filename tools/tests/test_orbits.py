"""Tests of the satellites of made files."""
import pytest

from tools import largest_sizes
from tools.made import orbits


class TestOrbits:
    def test_the_mean_motion_is_that_of_the_system(self):
        """The root of mu over the cube of the axis 5440.6^2, by whole numbers."""
        zeros = " 0.000000000000D+00"
        lines = [
            " 2024 01 07 00 00 00" + 3 * zeros,
            "    " + 4 * zeros,
            "    " + 3 * zeros + " 5.440600000000D+03",
            *5 * ["    " + 4 * zeros],
        ]
        for name, motion in (("E01", 1.239733955228326673e-4), ("G01", 1.239734045735644270e-4)):
            assert orbits.Record(name + "\n".join(lines)).motion == pytest.approx(motion, abs=1e-18)

    def test_a_user_of_two_codes_sees_no_group_delay(self):
        text = largest_sizes.navigation_parts()[1][0]
        one, two = orbits.Record(text), orbits.Record(text, dual=True)
        assert one.after(0)[0] == two.after(0)[0]
        assert two.after(0)[1] - one.after(0)[1] == pytest.approx(one.delay, abs=1e-18)
        assert one.delay != 0
