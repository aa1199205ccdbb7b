"""Settings as dataclasses: they read back as they were written."""

import pytest
from hypothesis import given
from hypothesis import strategies as st
from made_logs import EXAMPLES

from gpscover.errors import Error
from gpscover.observations import header_position, search_of
from gpscover.settings import Bounds, Galileo, Search, Settings, SettingsError, Signal, Station

LENGTH = st.integers(-(10**6), 10**6)
PAIR = st.tuples(LENGTH, LENGTH).map(lambda ends: (min(ends), max(ends)))
THREE = st.tuples(LENGTH, LENGTH, LENGTH)
DIRECTIONS = st.one_of(st.sampled_from([4, 8, 16]), st.lists(THREE, min_size=1, max_size=64).map(tuple))
CODES = st.sampled_from([("C1C",), ("C1C", "C2W")])
SEARCHES = st.builds(
    Search,
    half=st.one_of(st.integers(1, 10**8), THREE),
    outliers=st.integers(0, 8),
    bisections=st.integers(0, 200_000),
    centre=st.one_of(st.just("header"), THREE),
    renew=st.one_of(st.none(), st.booleans()),
    directions=st.one_of(st.none(), DIRECTIONS),
)
BOUNDS = st.builds(Bounds, receiver=PAIR, orbit_clock=PAIR, ionosphere=PAIR, troposphere=PAIR, zenith=st.none())
SETTINGS = st.builds(
    Settings,
    search=SEARCHES,
    signal=st.builds(Signal, mode=st.sampled_from(["single", "dual"]), codes=CODES),
    bounds=BOUNDS,
    galileo=st.one_of(st.none(), st.builds(Galileo, codes=CODES, offset=PAIR)),
    speed=st.one_of(st.none(), st.integers(0, 10**6)),
    satellites=st.dictionaries(st.sampled_from(["G01", "G32", "E05"]), PAIR),
    restart=st.booleans(),
    station=st.one_of(
        st.none(), st.builds(Station, place=st.one_of(st.just("header"), THREE), age=st.integers(1, 600))
    ),
)


@given(SETTINGS)
def test_they_read_back(settings):
    assert Settings.from_toml(settings.to_toml()) == settings


def test_the_example_s():
    settings = Settings.read(EXAMPLES / "settings.toml")
    assert (settings.search.half, settings.search.pairs) == (1000000, True)
    # 1.95 to 2.65 m and 2 %, and 402 mm for the noise
    assert (settings.bounds.zenith, settings.bounds.vertical, settings.satellites) == ((1509, 3105), (0, 6000), {})
    assert settings.search.directions == 8
    # Half sides of 1 km round the position in the header, which the settings alone don't have.
    assert settings.search_box() is None
    x, y, z = -3869309827800, 3436565477600, 3717365893700
    ends = [part + sign * 10**9 for sign in (-1, 1) for part in (x, y, z)]
    assert list(search_of(EXAMPLES / "settings.toml", EXAMPLES / "receiver.obs")) == ends
    with pytest.raises(Error, match="the middle of the search box is in the header of a file, which --obs names"):
        search_of(EXAMPLES / "settings.toml", None)
    own = Settings(Search((1, 2, 3), 1, 8, (10, -20, 30)), settings.signal, settings.bounds)
    assert own.search_box() == (9000, -22000, 27000, 11000, -18000, 33000)
    assert (settings.speed, settings.galileo) == (None, None)


@pytest.mark.parametrize(
    "text",
    (
        "",
        "[search",
        "search = 1\n",
        "[more]\n",
        "[search]\nhalf = 1\n[signal]\n[bounds]\n",
        "[search]\nhalf = 1\n[signal]\n[bounds]\n[station]\nage = 30\n",
        "[search]\nhalf = nan\n[signal]\n[bounds]\n",
        "[search]\nhalf = {}\n[signal]\n[bounds]\n",
        "[search]\nhalf = 1\noutliers = 1\nbisections = 1\ndirections = [[[1]]]\n[signal]\n[bounds]\n",
        "[search]\nhalf = 1979-05-27\n[signal]\n[bounds]\n",
    ),
)
def test_what_is_none_is_refused_in_one_line(text, tmp_path):
    path = tmp_path / "settings.toml"
    path.write_text(text, encoding="utf-8")
    with pytest.raises(SettingsError) as refused:
        Settings.read(path)
    assert str(refused.value).count("\n") == 0
    path.write_bytes(b"\xff")
    with pytest.raises(SettingsError):
        Settings.read(path)


@pytest.mark.parametrize(
    "positions, expected",
    [
        ([], None),
        (["     1000.0000    -2000.5000        0.0001"], (1_000_000_000, -2_000_500_000, 100)),
        (
            ["     1000.0000    -2000.5000        0.0001", "        4.0000        5.0000        6.0000"],
            (4_000_000, 5_000_000, 6_000_000),
        ),
        (["     1000.0000    -2000.5000        0.0001", "        4.0000                      6.0000"], None),
    ],
)
def test_the_last_position_of_a_header_counts(tmp_path, positions, expected):
    """As the program has it: a blank coordinate makes it none, whatever stands before."""
    lines = [f"{position:60}APPROX POSITION XYZ" for position in positions]
    (tmp_path / "obs").write_text("\n".join([*lines, f"{'':60}END OF HEADER", ""]))
    assert header_position(tmp_path / "obs") == expected
