"""Bounds by elevation, by hand."""

import argparse
import dataclasses
import math
import re

import pytest
from hypothesis import given
from hypothesis import strategies as st
from made_logs import EXAMPLES, FIVE, HEAD, PAVED, RECORDED, ROOT, ended_with, epoch_of, written

from gpscover import Error, Settings, bounds, cli, geodesy, integrity, open_log, solve
from gpscover.errors import UsageError


class TestBounds:
    def table(self, *words):
        """What the words declare."""
        parser = cli.given(argparse.ArgumentParser(), bounds.COMMAND)
        return bounds.parts_of(parser.parse_args(["LOG", "0", "0", "0", *words]))

    def test_overhead_and_at_30_degrees(self):
        args = self.table("single")
        # overhead every factor is 1: 0.98 * 1.95, and 1.02 * 2.65 + 6
        assert bounds.millimetres(bounds.bound_between(math.pi / 2, math.pi / 2, args)) == "[1911, 8703]"
        # 1.001 / sqrt(0.252001) = 1.99404 and 1 / sqrt(1 - (6371 * 0.866025 / 6721)^2) = 1.75121
        low, high = bounds.bound_between(math.pi / 6, math.pi / 6, args)
        assert low == pytest.approx(1.911 * 1.99404, rel=0, abs=5e-4)
        assert high == pytest.approx(2.703 * 1.99404 + 6 * 1.75121, rel=0, abs=5e-4)

    def test_the_part_for_the_mapping_widens_either_sign(self):
        # what differences leave: 1.02 * -0.5 and 1.02 * 0.5, and of -0.3 m 0.98
        args = self.table("dual", "--troposphere", "-0.5", "0.5")
        assert bounds.millimetres(bounds.troposphere(1.0, args)) == "[-510, 510]"
        args = self.table("dual", "--troposphere", "-0.5", "-0.3")
        assert bounds.millimetres(bounds.troposphere(1.0, args)) == "[-510, -294]"

    def test_the_noise_grows_to_the_horizon(self):
        args = self.table("single", "--horizon", "3")
        assert bounds.extra_noise(math.radians(15), args) == pytest.approx(3.0, rel=0, abs=5e-8)
        assert bounds.extra_noise(math.radians(31), args) == 0.0

    def test_two_frequencies_multiply_the_noise_by_4_09(self):
        args = self.table("dual", "--receiver", "1")
        assert bounds.receiver_bound(args) == pytest.approx(9529 / 2329, rel=0, abs=5e-8)
        assert "receiver = [-4092, 4092]" in list(bounds.common_lines(args))
        assert bounds.millimetres(bounds.bound_between(math.pi / 2, math.pi / 2, args)) == "[1911, 2703]"

    def test_an_unseen_satellite_gets_the_widest_bound(self):
        args = self.table("single")
        lines = list(bounds.satellite_lines({"G05": (1.0, 1.1)}, args))
        assert sum(line.startswith("G") for line in lines) == 32
        unseen = next(line for line in lines if line.startswith("G06"))
        assert "[1911, " in unseen
        assert "4.0 to 90.0 degrees, not in the log" in unseen

    def test_satellites_of_galileo_get_bounds_where_some_are_seen(self):
        names = [
            line.split(" ")[0]
            for line in bounds.satellite_lines({"E11": (1.0, 1.1)}, self.table("dual"))
            if "=" in line
        ]
        assert [name for name in names if name[0] == "E"] == [f"E{number:02}" for number in range(1, 37)]
        assert sum(name[0] == "G" for name in names) == 32

    def test_a_satellite_below_the_mask_limits_nothing(self):
        lines = list(bounds.satellite_lines({"G05": (0.03, 0.2)}, self.table("single")))
        line = next(line for line in lines if line.startswith("G05"))
        assert line == "G05 = [-1000000, 1000000]  # 1.7 to 11.5 degrees, below the mask: opened"

    def test_the_zenith_in_the_place_of_each_satellite_s_troposphere(self):
        for mode, own in (("single", "[0, 6000]"), ("dual", "[0, 0]")):
            args, plain = self.table(mode, "--zenith"), self.table(mode)
            lines = list(bounds.common_lines(args))
            # 0.98 * 1.95 and 1.02 * 2.65; the lines above are the same
            assert lines[-2:] == ["troposphere = [0, 0]", "zenith = [1911, 2703]"]
            assert lines[:-3] == list(bounds.common_lines(plain))[:-2]
            # overhead there is no more noise, and what is left is the ionosphere
            assert bounds.millimetres(bounds.bound_between(math.pi / 2, math.pi / 2, args)) == own
            assert not [line for line in bounds.satellite_lines({}, args) if "troposphere" in line]
        # at 30 degrees 6 * 1.75121
        low, high = bounds.bound_between(math.pi / 6, math.pi / 6, self.table("single", "--zenith"))
        assert low == 0.0
        assert high == pytest.approx(6 * 1.75121, rel=0, abs=5e-4)

    def test_without_the_zenith_its_lines_are_those_of_before(self):
        assert list(bounds.common_lines(self.table("single"))) == [
            "[bounds]",
            "# Noise and multipath high up: 3 m on each code.",
            "receiver = [-3000, 3000]",
            "# The broadcast orbit and clock: 3 m.",
            "orbit_clock = [-3000, 3000]",
            "# By elevation below.",
            "ionosphere = [0, 0]",
            "# By elevation below.",
            "troposphere = [0, 0]",
        ]
        assert list(bounds.reason_lines(self.table("single"))) == [
            "# Added to the bounds above: zenith troposphere 1.95 to 2.65 m, mapped, 2% for the mapping;",
            "# zenith ionosphere 0 to 6 m on L1, by a thin shell at 350 km;",
            "# noise that grows below 30 degrees, to 2 times as much at the horizon.",
        ]

    def test_the_vertical_in_the_place_of_each_satellite_s_ionosphere(self):
        args = self.table("single", "--zenith", "--vertical", "--ionosphere", "-1", "7.0005")
        assert list(bounds.common_lines(args))[-4:] == [
            "troposphere = [0, 0]",
            "zenith = [1509, 3105]",
            "# Mapped by elevation: -1 to 7.0005 m at the vertical, on L1.",
            "vertical = [-1000, 7001]",
        ]
        # What is left of a satellite is noise: 3 m more at the horizon.
        assert bounds.millimetres(bounds.bound_between(0, math.pi / 2, args)) == "[-3000, 3000]"
        assert not [line for line in bounds.satellite_lines({}, args) if "ionosphere" in line]
        # Without the zenith the troposphere is in the satellites' bounds.
        assert (
            bounds.millimetres(bounds.bound_between(math.pi / 2, math.pi / 2, self.table("single", "--vertical")))
            == "[1911, 2703]"
        )
        for mode, *words in (
            ("dual", "--vertical"),
            ("single", "--vertical", "--shell", "400"),
            ("single", "--vertical", "--ionosphere", "0", "100.0001"),
        ):
            with pytest.raises(UsageError):
                self.table(mode, *words)
            assert ended_with(bounds, "LOG", 0, 0, 0, mode, *words)[0] == 2

    def test_the_zenith_s_line_carries_the_noise_by_hand(self):
        args = self.table("single", "--zenith", "--vertical")
        assert bounds.noise_at_zenith(args) == 402
        for degrees, noise, mapped in (
            (0, 3.0, 1.001 / math.sqrt(0.002001)),  # 22.38
            (15, 1.5, 1.001 / math.sqrt(0.002001 + 0.258819**2)),  # 3.811
            (30, 0.0, 1.001 / math.sqrt(0.252001)),  # 1.994
        ):
            assert bounds.extra_noise(math.radians(degrees), args) == pytest.approx(noise, rel=0, abs=1e-9)
            assert bounds.troposphere_mapping(math.radians(degrees)) == pytest.approx(mapped, rel=1e-6)
            assert 0.402 * 0.98 * mapped >= noise
        # 401 mm are 1.4977 m at 15 degrees
        assert 0.401 * 0.98 * 3.811 < 1.5
        # 1911 - 402 and 2703 + 402
        assert bounds.tables({"G05": (0.3, 1.1), "E11": (0.2, 0.4)}, args) == [
            "[bounds]",
            "# Noise and multipath high up: 3 m on each code.",
            "receiver = [-3000, 3000]",
            "# The broadcast orbit and clock: 3 m.",
            "orbit_clock = [-3000, 3000]",
            "# Mapped by elevation.",
            "ionosphere = [0, 0]",
            "# Mapped by elevation: 1.95 to 2.65 m at the zenith, 2% for the mapping.",
            "# 402 mm at both ends are for noise that grows below 30 degrees, to 2 times as much at the horizon.",
            "# Mapped, and less 2%, they are enough at every elevation, so that no satellite needs a line of its own but",
            "# one seen below 4 degrees, where the mapping doesn't hold: [-1000000, 1000000] in [satellite].",
            "troposphere = [0, 0]",
            "zenith = [1509, 3105]",
            "# Mapped by elevation: 0 to 6 m at the vertical, on L1.",
            "vertical = [0, 6000]",
        ]

    @given(st.integers(0, 1200), st.integers(100, 500), st.integers(0, 8000), st.integers(0, 50))
    def test_the_noise_that_the_zenith_carries_is_enough_and_the_least(self, tenths, percent, millimetres, mapping):
        rise, horizon, receiver, mapping = tenths / 10, percent / 100, millimetres / 1000, mapping / 100
        parts = bounds.Parts("single", rise=rise, horizon=horizon, receiver=receiver, mapping=mapping)
        carried = bounds.noise_at_zenith(parts) / 1000
        angles = [math.radians(90 * k / 3600) for k in range(3601)]
        noises = [bounds.extra_noise(angle, parts) for angle in angles]
        mapped = [bounds.troposphere_mapping(angle) * (1 - mapping) for angle in angles]
        assert all(carried * times >= noise for noise, times in zip(noises, mapped))
        # one mm less isn't enough, but for what cells between elevations add to such a noise
        less = carried - 0.001 - 0.001 * (horizon - 1) * receiver
        assert carried == 0 or any(less * times < noise for noise, times in zip(noises, mapped))

    def test_a_satellite_below_the_mask_is_opened_where_the_zenith_carries_the_noise(self):
        args = self.table("single", "--zenith", "--vertical")
        assert bounds.tables({"G07": (0.5, 1.0), "G05": (0.03, 0.2)}, args)[-3:] == [
            "",
            "[satellite]",
            "G05 = [-1000000, 1000000]  # 1.7 to 11.5 degrees, below the mask: opened",
        ]

    def test_settings_of_one_sky_hold_the_place_under_another(self, tmp_path):
        place = (-3976219.187, 3382371.605, 3652511.142)  # of the receiver in examples/station, in 2005
        words = ["single", "--zenith", "--vertical", "--settings", EXAMPLES / "settings.toml"]
        text = ended_with(bounds, RECORDED / "ubx_2008.log", -3869310, 3436565, 3717366, *words)[1]
        assert text == ended_with(bounds, RECORDED / "geonet0759_2005.log", *place, *words)[1]
        settings = Settings.from_toml(text)
        assert not settings.satellites
        search = dataclasses.replace(settings.search, centre=(-3976219000, 3382372000, 3652511000), bisections=32)
        files = [EXAMPLES / f"station/receiver.{ending}" for ending in ("obs", "nav")]
        solve(*files, dataclasses.replace(settings, search=search), tmp_path / "other.log")
        assert [integrity.is_held(epoch, place) for epoch in open_log(tmp_path / "other.log")] == [True] * 4

    def test_a_zenith_that_the_settings_would_refuse(self):
        assert "zenith = [-10000, 10000]" in list(
            bounds.common_lines(self.table("dual", "--zenith", "--troposphere", "-10", "10", "--mapping", "0"))
        )
        for words in (("2", "9.9"), ("-10.3", "2"), ("2", "10.0001")):
            with pytest.raises(UsageError):
                self.table("dual", "--zenith", "--troposphere", *words)
            assert ended_with(bounds, "x", 0, 0, 0, "dual", "--zenith", "--troposphere", *words)[0] == 2
            self.table("dual", "--troposphere", *words)

    LATER = "".join(
        f"epoch {k} {seconds}000000000000 5\n{{sats}}{ROOT}out 0\ndone 0\n"
        for k, seconds in ((7, 3), (8, 8), (9, 12), (10, 33))
    )
    SETTINGS = (
        '[search]\nhalf = 5\n[signal]\nmode = "single"\n\n[bounds]\nreceiver = [0, 0]\n[satellite]\nG01 = [0, 0]\n'
    )

    def test_stretches_of_a_long_log(self):
        with written(log=HEAD + self.LATER.format(sats=FIVE)) as (log,):
            for seconds, wanted in (
                (None, [(7, 10)]),
                (5, [(7, 7), (8, 9), (10, 10)]),
                (5.1, [(7, 8), (9, 9), (10, 10)]),
                (30, [(7, 9), (10, 10)]),
                (31, [(7, 10)]),
            ):
                found = bounds.stretches(log, (6378137, 0, 0), seconds)
                assert [(it.first, it.last) for it in found] == wanted
                assert [len(it.seen) for it in found] == [5] * len(wanted)

    def test_settings_and_lines_for_each_stretch(self):
        with written(log=HEAD + self.LATER.format(sats=FIVE), settings=self.SETTINGS) as (log, settings):
            folder = log.parent / "my parts"
            status, out, _ = ended_with(
                bounds,
                log,
                6378137,
                0,
                0,
                "single",
                "--every",
                30,
                "--settings",
                settings,
                "--files",
                "a b.obs",
                "c.nav",
                "--folder",
                folder,
                "--program",
                "gpscover",
            )
            lines, texts = out.splitlines(), [path.read_text() for path in sorted(folder.iterdir())]
            whole = ended_with(bounds, log, 6378137, 0, 0, "single")[1]
        assert (status, len(lines), len(texts)) == (0, 4, 2)
        assert re.search(
            "^gpscover solve 'a b.obs' c.nav '.*/part01.toml' '.*/part01.log' --from 7 --to 9 > /dev/", lines[0]
        )
        assert re.search(
            "^gpscover check 'a b.obs' c.nav '.*/part02.toml' '.*/part02.log' --from 10 --to 10$", lines[3]
        )
        # The satellites stand still here, so each part has the table of the whole.
        assert texts == [self.SETTINGS[: self.SETTINGS.index("[bounds]")] + whole] * 2

    def test_settings_without_bounds_or_of_another_mode_are_refused(self):
        with written(none="[search]\n", dual=self.SETTINGS.replace("single", "dual")) as (none, dual):
            for path, words in ((none, "no table .bounds."), (dual, "of the mode single")):
                with pytest.raises(Error, match=words):
                    bounds.without_bounds(path, "single")

    def test_tables_behind_the_bounds_stay(self):
        head, galileo = self.SETTINGS[: self.SETTINGS.index("[bounds]")], "[galileo]\noffset = [0, 1]\n"
        for text in (self.SETTINGS + galileo, self.SETTINGS.replace("[satellite]", f"{galileo}[satellite]")):
            with written(log=HEAD + self.LATER.format(sats=FIVE), settings=text) as (log, settings):
                said = ended_with(bounds, log, 6378137, 0, 0, "single", "--settings", settings)[1]
                whole = ended_with(bounds, log, 6378137, 0, 0, "single")[1]
            assert said == head + galileo + whole

    def test_options_of_stretches_go_together(self):
        rest = ["--settings", "s", "--files", "o", "n", "--folder", "x"]
        for words in (["--every", "5"], ["--folder", "x"], rest, ["--every", "0", *rest]):
            assert ended_with(bounds, "x", 0, 0, 0, "single", *words)[0] == 2

    def test_a_rough_place_outside_the_search_box_is_refused(self):
        root = epoch_of(PAVED).root
        bounds.refuse_stranger(root, (6378137, -100, 100))
        for place, words in (
            ((6378137, 0, 3100), "3.000 km outside the search box of the log, whose middle is 6378137 0 0"),
            ((6378137, 300.5, 0), "0.201 km outside"),
            ((6378137000, 500, -99000), "is in millimetres"),
        ):
            with pytest.raises(Error, match=words):
                bounds.refuse_stranger(root, place)

    def test_the_elevation_of_a_satellite(self):
        place = geodesy.earth_fixed(0.6, 2.4, 100.0)
        east, north, up = geodesy.local_axes(0.6, 2.4)
        target = [p + 2e7 * (0.5 * u + math.sqrt(0.75) * n) for p, u, n in zip(place, up, north)]
        assert math.degrees(geodesy.elevation(place, target)) == pytest.approx(30.0, rel=0, abs=5e-7)
