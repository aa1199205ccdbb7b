"""Frames and exports have the numbers of the log."""

import csv
import json
import math
import sys

import pytest
from made_logs import HEAD, PAVED, RECORDED, ROOT, WITHIN, ended, written

import gpscover
from gpscover import export, frames, geojson, region
from gpscover.log import epochs as read_epochs

LOGS = [RECORDED / "cres_2008.log", RECORDED / "ubx_2008.log"]
FEW = "few 4 10 2\n"
EMPTY = f"epoch 3 9 5\n{ROOT}out 0\ndone 0\n"


def test_a_feature_for_each_epoch():
    with written(log=HEAD + PAVED + EMPTY + FEW) as (log,):
        document = json.loads("".join(geojson.lines(log)))
    marks = [it["properties"]["mark"] for it in document["features"]]
    assert marks == ["reaches", "empty", "few"]
    assert [it["geometry"] is None for it in document["features"]] == [False, True, True]
    (ring,) = document["features"][0]["geometry"]["coordinates"]
    # 100 m at the equator are 1 / 6378137 rad a metre of longitude and 1 / 6335439 of latitude.
    assert max(lon for lon, _ in ring) == pytest.approx(math.degrees(100 / 6378137), abs=1e-7)
    assert max(lat for _, lat in ring) == pytest.approx(math.degrees(100 / 6335439), abs=1e-7)
    assert ring[0] == ring[-1]
    twice = sum(a[0] * b[1] - a[1] * b[0] for a, b in zip(ring, ring[1:]))
    assert twice > 0  # counterclockwise, as RFC 7946 wants it


def test_what_is_exported(tmp_path):
    for name in ("a.csv", "a.kml", "a.geojson", "a.json"):
        assert ended(export, LOGS[0], tmp_path / name) == (0, "", "")
        assert (tmp_path / name).stat().st_size
    with open(tmp_path / "a.csv", encoding="utf-8", newline="") as file:
        assert [row["epoch"] for row in csv.DictReader(file)] == list("12345678")
    assert (tmp_path / "a.json").read_text() == (tmp_path / "a.geojson").read_text()
    assert ended(export, LOGS[0], tmp_path / "a.shp")[0] == 2


def test_nothing_is_left_of_a_log_that_was_cut(tmp_path):
    with written(log=HEAD + WITHIN + WITHIN[:-5]) as (log,):
        for name in ("a.csv", "a.kml", "a.geojson"):
            status, out, err = ended(export, log, tmp_path / name)
            assert (status, out, err.count("\n")) == (1, "", 1)
    assert list(tmp_path.iterdir()) == []


@pytest.mark.parametrize("path", LOGS)
def test_frames_have_what_the_log_has(path):
    pytest.importorskip("pandas")
    log, epochs = gpscover.open_log(path), list(read_epochs(path))
    table = log.to_frame()
    assert list(table["ps"]) == [epoch.ps for epoch in epochs]
    assert [time.to_pydatetime() for time in table["time"]] == [epoch.time for epoch in epochs]
    widths = [region.region_of(it).widths()[0] for it in epochs if it.kept]
    assert list(table["east_m"].dropna()) == widths
    boxes = log.boxes_frame()
    wanted = [kept.box for epoch in epochs for kept in epoch.kept]
    assert [tuple(row) for row in boxes[frames.ENDS].itertuples(index=False)] == wanted
    rows = log.rows_frame()
    assert list(rows["satellite"]) == [row.satellite for epoch in epochs for row in epoch.rows]


def test_without_pandas_a_line_says_so(monkeypatch, tmp_path):
    monkeypatch.setitem(sys.modules, "pandas", None)
    status, out, err = ended(frames, LOGS[0], tmp_path / "a.csv")
    assert (status, out, err.count("\n")) == (1, "", 1)
    assert "has no pandas; Debian: apt-get install python3-pandas" in err


@pytest.mark.parametrize(
    "name, libraries, told",
    [
        ("a.gpkg", ["geopandas"], "has no geopandas; Debian: apt-get install python3-geopandas"),
        ("a.parquet", ["pyarrow", "fastparquet"], "Parquet needs pyarrow or fastparquet"),
    ],
)
def test_without_the_library_of_a_form_a_line_says_so(monkeypatch, tmp_path, name, libraries, told):
    pytest.importorskip("pandas")
    for library in libraries:
        monkeypatch.setitem(sys.modules, library, None)
    status, out, err = ended(export, LOGS[0], tmp_path / name)
    assert (status, out, err.count("\n"), told in err) == (1, "", 1, True)
    assert list(tmp_path.iterdir()) == []


def test_a_geopackage_has_a_feature_for_each_epoch(tmp_path):
    geopandas = pytest.importorskip("geopandas")
    out = tmp_path / "a.gpkg"
    with written(log=HEAD + PAVED + EMPTY + FEW) as (log,):
        for _ in range(2):  # the second one writes over the first
            assert ended(export, log, out) == (0, "", "")
        (ring,) = next(geojson.features(log))["geometry"]["coordinates"]
    found = geopandas.read_file(out)
    assert (list(found["mark"]), found.crs.to_epsg()) == (["reaches", "empty", "few"], 4326)
    assert list(found.geometry.notna()) == [True, False, False]
    assert list(found.geometry[0].exterior.coords) == [tuple(corner) for corner in ring]


def test_a_geopackage_that_is_not_written_is_told_in_one_line(tmp_path):
    pytest.importorskip("geopandas")
    with written(log=HEAD + PAVED, none=HEAD) as (log, none):
        for source, out in ((none, tmp_path / "a.gpkg"), (log, tmp_path / "absent/a.gpkg")):
            status, said, err = ended(export, source, out)
            assert (status, said, err.count("\n")) == (1, "", 1)
    assert list(tmp_path.iterdir()) == []


def test_numbers_beyond_64_bits_are_whole_in_a_frame():
    pytest.importorskip("pandas")
    far = 10**20 - 1
    with written(log=f"{HEAD}epoch 1 0 5\nroot 0 0 0 1 1 {far}\nedge 0 -{far} 1\ndone 0\n", none=HEAD) as (log, none):
        (row,) = gpscover.open_log(log).boxes_frame().to_dict("records")
        assert len(gpscover.open_log(none).boxes_frame()) == 0
    assert (row["z_high_um"], row["clock_low_um"], row["inner"]) == (far, -far, False)
