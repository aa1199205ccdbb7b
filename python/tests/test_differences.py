"""Differences of a receiver and a station, by hand."""

import math

import pytest
from made_logs import HEAD, ROOT, ended_with, written

from gpscover import Error, bounds, differences
from gpscover.geodesy import earth_fixed, local_axes

PLACE = earth_fixed(0.6, 2.4, 100.0)
STATION = earth_fixed(0.6, 2.4005, 400.0)  # 2.6 km west of the receiver's longitude, 300 m higher
SETTINGS = """\
[search]
half = 5
outliers = 0
bisections = 0
[signal]
mode = "single"
codes = ["C1C"]
[station]
place = {}
age = 30
[bounds]
receiver = [0, 0]
orbit_clock = [0, 0]
ionosphere = [0, 0]
troposphere = [0, 0]
"""
# Satellites at elevations in degrees, and how much longer than the distance their ranges are in m.
SEEN = ((80, 51.0), (60, 50.0), (45, 49.5), (31, 50.0), (10, 52.0), (7, 47.0))


def row(number, degrees, longer):
    """A line of a log of a satellite at 20,000 km, seen at an elevation from the place."""
    _, north, up = local_axes(0.6, 2.4)
    sine, cosine = math.sin(math.radians(degrees)), math.cos(math.radians(degrees))
    place = [p + 2e7 * (sine * u + cosine * n) for p, u, n in zip(PLACE, up, north)]
    spans = [round(1e6 * end) for end in (*place, 2e7 + longer)]
    return " ".join(["sat", f"G{number:02}", *(f"{it - 1000} {it + 1000}" for it in spans), "0 0"])


LOG = HEAD + "epoch 1 1 6\n"
LOG += "".join(f"{row(k, *it)}\n" for k, it in enumerate(SEEN, 1)) + f"{ROOT}out 0\ndone 0\n"


def tables(place, station, log=LOG):
    """What is printed of a log, by the place of the receiver and the text of the station's."""
    with written(log=log, settings=SETTINGS.format(station)) as (path, settings):
        return list(differences.tables(path, place, settings, 2.0))


def in_mm(place):
    """A place as the settings have it."""
    return [round(1000 * end) for end in place]


def test_what_was_seen_and_twice_as_much():
    lines = tables(PLACE, in_mm(PLACE))
    # The median is 50 m: 1 m above, 0, -0.5 and 0, then 2 m and -3 m low down.
    assert [line.split()[1:] for line in lines[2:5]] == [
        ["5", "to", "10", "1", "3.00", "3.00"],
        ["10", "to", "15", "1", "2.00", "2.00"],
        ["30", "to", "90", "4", "1.00", "1.00"],
    ]
    # Below, 2 * 3 - 2 = 4 m at 7 degrees, whose factor is 1.001 / sqrt(0.002001 + 0.1218693^2).
    zenith = 4 * math.sqrt(0.002001 + math.sin(math.radians(7)) ** 2) / 1.001
    receiver, *_, mapped = (line for line in lines if "= [-" in line)
    assert receiver == "receiver = [-2001, 2001]" or receiver == "receiver = [-2000, 2000]"
    assert int(mapped.split()[-1][:-1]) == pytest.approx(1000 * zenith, abs=2)


def test_a_station_far_away_or_at_another_height_is_warned_of():
    assert not [line for line in tables(PLACE, in_mm(PLACE)) if "warning" in line]
    (higher,) = (line for line in tables(PLACE, in_mm(STATION)) if "warning" in line)
    assert "the receiver is 300 m below the station: some 90 mm" in higher
    far = in_mm(earth_fixed(0.6, 2.404, 100.0))
    (away,) = (line for line in tables(PLACE, far) if "warning" in line)
    assert "the station is 21.1 km away" in away


@pytest.mark.parametrize("station", ('"header"', "1"))
def test_a_station_whose_place_is_not_told_is_refused(station):
    with pytest.raises(Error):
        tables(PLACE, station)


def test_a_log_without_rows_is_refused():
    with pytest.raises(Error, match="every epoch is few"):
        tables(PLACE, in_mm(PLACE), HEAD + "few 1 1 0\n")


def test_the_words():
    with written(log=LOG, settings=SETTINGS.format(in_mm(PLACE))) as (log, settings):
        words = log, *PLACE, "single", "--station", settings, "--more", 2
        assert ended_with(bounds, *words)[1].splitlines() == tables(PLACE, in_mm(PLACE))
