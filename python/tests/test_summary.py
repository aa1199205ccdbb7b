"""The marks, the lines and the warnings of the summary, and its map."""

import datetime
import math
import re
from xml.etree import ElementTree

import pytest
from made_logs import (
    EXAMPLES,
    HEAD,
    LOST,
    PAVED,
    ROOT,
    TUBE,
    WITHIN,
    box_at,
    ended_with,
    epoch_of,
    totals_of,
    tube_root,
    written,
)

from gpscover import Error, kml, region, summary


class TestMarks:
    def test_few(self):
        marks, lines = totals_of("few 1 0 3\nskip G01 3\nskip G02 3\nskip G03 1\nfew 2 1 4\n")
        assert marks == ["few", "few"]
        assert "2 few, 0 empty" in lines[0]
        assert "every epoch has too few usable satellites; 2 times" in lines[1]
        assert "is the navigation file of another day?" in lines[1]

    def test_few_near_the_centre_of_the_earth(self):
        _, lines = totals_of("few 1 0 0\nskip G01 7\nskip G02 7\nskip G03 6 2\n")
        assert "2 times a satellite isn't used since the search box comes too near to the earth" in lines[1]
        assert "is the position in the header zero, or search.centre in metres?" in lines[1]

    def test_every_reason_of_a_skip_has_words(self):
        for reason in ("1", "2", "3", "4", "5", "6 20", "7", "8", "9"):
            _, lines = totals_of(f"few 1 0 0\nskip G01 {reason}\n")
            assert "1 times a satellite isn't used since " in lines[1]

    def test_no_galileo_satellite_is_used(self):
        paved = (
            "epoch 1 0 5\nsat G01 1 1 1 1 1 1 1 1 0 0\nskip E01 3\nskip E02 3\nskip E03 1\n" + ROOT + "out 0\ndone 0\n"
        )
        _, lines = totals_of(paved)
        assert lines[-1] == (
            "no Galileo satellite is used; 2 times one isn't since it has no ephemeris;"
            " only records of F/NAV are taken, or by galileo.message those of I/NAV"
        )
        for used in (paved.replace("sat G01", "sat E09"), paved.replace("skip E", "skip G"), PAVED):
            assert not [line for line in totals_of(used)[1] if "Galileo" in line]

    def test_empty(self):
        marks, lines = totals_of("epoch 1 0 5\n" + ROOT + "out 0\ndone 0\n")
        assert marks == ["empty"]
        assert "every paved epoch is empty; the bounds are too narrow" in lines[1]

    def test_empty_round_the_earth_s_centre(self):
        _, lines = totals_of("epoch 1 0 5\nroot -100 -100 -100 100 100 100\nout 0\ndone 0\n")
        assert "0 km from the earth's centre: is the position in the header zero?" in lines[1]

    def test_reaches(self):
        marks, lines = totals_of(PAVED)
        assert marks == ["reaches"]
        assert "its half side is 100 m: it is too small, or there are too few splits" in lines[1]

    def test_reaches_a_box_in_wrong_units(self):
        _, lines = totals_of(box_at((6378137, 0, 0), (0.4, 0.4, 0.4)))
        assert "its half side is 0.2 m: is search.half in metres" in lines[1]

    def test_none(self):
        inner = "split 0 0\nout 1\nsplit 2 0\nout 4\n" + "".join(
            f"cut 3 {face} {end}\n" for face, end in ((2, -9), (3, 9), (4, -9), (5, 9))
        )
        marks, lines = totals_of(
            f"epoch 1 0 5\n{ROOT}{inner}edge 3 0 0\ndone 2\n" + WITHIN.replace("epoch 1", "epoch 2")
        )
        assert (marks, len(lines)) == (["", ""], 1)

    def test_each_mark_among_others_is_warned_of_with_its_count(self):
        _, lines = totals_of(
            "few 1 0 3\nskip G01 4\n"
            + PAVED.replace("epoch 1", "epoch 2")
            + f"epoch 3 9 5\n{ROOT}out 0\ndone 0\n"
            + WITHIN.replace("epoch 1", "epoch 4")
        )
        assert lines[0] == "epochs 4: 2 with a region, of which 1 reach the search box; 1 few, 1 empty"
        assert "1 of 4 epochs have too few usable satellites; 1 times a satellite isn't used since none" in lines[1]
        assert "1 of 3 paved epochs are empty: more satellites than allowed broke" in lines[2]
        assert "a box that a receiver leaves makes its regions small before they are empty" in lines[2]
        assert "1 of 2 regions reach the search box, whose half side is 100 m: they may go on outside" in lines[3]
        assert len(lines) == 4

    def test_a_track_that_is_lost(self):
        marks, lines = totals_of(TUBE + LOST)
        assert marks == ["", "", "lost"]
        two = "2 with a region, of which 0 reach the search box; 0 few, 0 empty"
        assert lines[0] == f"epochs 3: {two}; lost at epoch 3"
        assert "epoch 3 is lost: no trajectory" in lines[1]
        assert "of the log's 3 epochs alone, 1 to 3: go on with --from 4" in lines[1]
        assert len(lines) == 2
        assert totals_of(TUBE) == (["", ""], [f"epochs 2: {two}"])

    def test_a_track_that_begins_anew(self):
        again = TUBE.replace("epoch 1", "epoch 4").replace("epoch 2", "epoch 5")
        marks, lines = totals_of(TUBE + LOST + again + LOST.replace("epoch 3", "epoch 6"))
        assert marks == ["", "", "lost", "", "", "lost"]
        assert lines[0].endswith("; lost at epoch 3, 6")
        assert "epoch 3 is lost: no trajectory" in lines[1]
        assert lines[1].endswith("begins anew behind it, and a yes of retrack speaks of each piece by itself")
        assert "epoch 6 is lost: no trajectory" in lines[2]
        assert "of the log's 6 epochs alone, 1 to 6: go on with --from 7" in lines[2]

    def test_how_many_epochs_of_a_file_the_log_covers(self):
        line = "> 2008 05 26 05 59 {}.0000000  {}  1\n"
        obs = "".join(
            line.format(second, flag) + "G01\n" for second, flag in ((30, 0), (31, 4), (31, 0), (32, 1), (33, 0))
        )
        with written(obs=obs, lost=HEAD + TUBE + LOST, tube=HEAD + TUBE, none=HEAD) as (path, *logs):
            said = [ended_with(summary, log, "--obs", path)[1] for log in logs]
        for text, covered in zip(
            said,
            (
                "3 of the 4 epochs of {}, numbers 1 to 3",
                "2 of the 4 epochs of {}, numbers 1 to 2",
                "0 of the 4 epochs of {}",
            ),
        ):
            assert f"the log covers {covered.format(path)}\n" in text

    def test_a_file_that_has_no_observations(self):
        with written(obs="> 2008 05 26 05 59 30.0000000  0  x\n", log=HEAD + TUBE) as (obs, log):
            with pytest.raises(Error, match="obs: this isn't a file of observations"):
                ended_with(summary, log, "--obs", obs)

    def test_a_track_that_goes_on_reaches_the_search_box_of_the_settings_that_are_named(self):
        # Without them its first search box, which is that of the settings of any other log, is taken for it.
        settings = (EXAMPLES / "settings.toml").read_text(encoding="utf-8")
        settings = re.sub("(?m)^centre = .*", "centre = [6378137000, 0, 0]", settings)
        settings = re.sub("(?m)^half = .*", "half = 100000", settings)
        with written(log=HEAD + TUBE[len(WITHIN) :], settings=settings) as (log, path):
            for words, wanted in (([], 1), (["--settings", path], 0)):
                _, out, _ = ended_with(summary, log, *words)
                assert f"epochs 1: 1 with a region, of which {wanted} reach the search box" in out

    def test_a_track_reaches_the_search_box_of_the_settings_alone(self):
        there = tube_root(6378037, 15, -15, 6378144, 35, 15)
        marks, lines = totals_of(TUBE + "epoch 3 2 5\n" + there + "edge 0 0 0\ndone 0\n")
        assert marks == ["", "", "reaches"]
        assert "1 of 3 regions reach the search box, whose half side is 100 m" in lines[1]

    def test_search_boxes_apart_are_no_track(self):
        apart = tube_root(6378037, -101, -100, 6378237, 100, 100)
        assert totals_of(WITHIN + "epoch 2 1 5\n" + apart + "edge 0 0 0\ndone 0\n")[0] == ["", "reaches"]
        assert totals_of(WITHIN + "epoch 2 1 5\n" + apart + "out 0\ndone 0\n")[0] == ["", "empty"]

    def test_a_centre_in_metres(self):
        # 6,378,137 mm from the earth's centre, where 6,378,137 m are meant
        _, lines = totals_of("epoch 1 0 5\nroot 6378000000 -9 -9 6378274000 9 9\nout 0\ndone 0\n")
        assert "is search.centre in metres, where millimetres are meant?" in lines[1]

    def test_a_log_of_no_epochs_asks_for_the_first_one(self):
        assert "the log has no epochs: is --from behind the last one of the file?" in totals_of("")[1][1]

    def test_strict_ends_with_a_status_of_its_own(self):
        with written(good=HEAD + WITHIN, cut=HEAD + PAVED, none=HEAD) as (good, cut, none):
            for log, status in ((good, 0), (cut, 3), (none, 3)):
                assert ended_with(summary, log, "--strict")[0] == status
                assert ended_with(summary, log)[0] == 0
            for form in ("--box", "--csv"):
                status, out, err = ended_with(summary, cut, form, "--strict")
                assert (status, "warning" in out) == (3, False)
                assert "every region reaches the search box" in err

    def test_the_mark_of_the_values_is_ok_where_there_is_none(self):
        with written(good=HEAD + WITHIN, cut=HEAD + PAVED) as logs:
            marks = [ended_with(summary, log, "--csv")[1].splitlines()[1].split(",")[3] for log in logs]
        assert marks == ["ok", "reaches"]

    def test_the_box_round_all_kept_boxes(self):
        totals = summary.Totals()
        for text in (PAVED, box_at((6378000, 1, 2), (0.002, 0.002, 0.0025))):
            totals.add(epoch_of(text), "")
        # x from 6377999.999 to 6378237, y from -100 to 100, z from -100 to 100, in mm
        assert list(totals.box_lines()) == ["centre = [6378118499, 0, 0]", "half = [118501, 100000, 100000]"]

    def test_a_box_that_the_settings_would_refuse(self):
        wide = "epoch 1 0 5\nroot -100000000000 -9 -9 100000002000 9 9\nedge 0 0 0\ndone 0\n"
        with written(wide=HEAD + wide, good=HEAD + WITHIN) as logs:
            said = [ended_with(summary, log, "--box")[1:] for log in logs]
        assert "half = [100000001, 1, 1]" in said[0][0]
        assert "half is more than the 100 km that settings allow" in said[0][1]
        assert said[1][1] == ""

    def test_no_epochs(self):
        assert "no epochs" in totals_of("")[1][1]

    def test_the_line_and_the_values(self):
        epoch = epoch_of(PAVED)
        found = region.region_of(epoch)
        line = summary.text_line(epoch, found, "reaches")
        assert re.search(r"^ +1  2008-05-26 05:59:29\.999 +5 +1 +1 +200\.0 +200\.0 +100\.0 +16\.0 +3200000 ", line)
        values = dict(zip(summary.COLUMNS, summary.csv_line(epoch, found, "reaches")))
        assert (values["clock_low_m"], values["clock_high_m"]) == ("-9.000", "7.000")
        assert (values["x_m"], values["faces"]) == ("6378187.000", "-y -z +x +y +z")

    def test_regions_for_a_map(self):
        text = HEAD + PAVED + WITHIN.replace("epoch 1", "epoch 2") + f"epoch 3 9 5\n{ROOT}out 0\ndone 0\nfew 4 10 2\n"
        with written(log=text, map="") as (log, path):
            assert ended_with(summary, log, "--kml", path)[0] == 0
            document = ElementTree.parse(path).getroot()[0]
        marks = document.findall("{*}Placemark")
        assert [mark.find("{*}styleUrl").text for mark in marks] == ["#cut", "#whole", "#empty", "#few"]
        assert {mark.find("{*}styleUrl").text[1:] for mark in marks} <= {
            style.get("id") for style in document.findall("{*}Style")
        }
        # GPS time was 14 s ahead of UTC in 2008
        assert marks[0].find("{*}TimeStamp/{*}when").text == "2008-05-26T05:59:15.999Z"
        rings = [
            [tuple(map(float, point.split(","))) for point in ring.text.split()]
            for ring in marks[0].iter("{http://www.opengis.net/kml/2.2}coordinates")
        ]
        # 100 m east and north at the equator are 1 / 6378137 and 1 / 6335439 rad a metre; the boxes
        # are 0 to 100 m up
        assert max(lon for lon, *_ in rings[0]) == pytest.approx(math.degrees(100 / 6378137), rel=0, abs=5e-8)
        assert max(lat for _, lat, _ in rings[0]) == pytest.approx(math.degrees(100 / 6335439), rel=0, abs=5e-8)
        assert [{round(height, 2) for *_, height in ring} for ring in rings] == [{0.0}, {100.0}]
        assert "height 0.0 to 100.0 m, reaches the search box at -y" in marks[0].find("{*}description").text
        assert [mark.find("{*}MultiGeometry") is None for mark in marks] == [False, False, True, True]

    def test_utc_at_a_leap_second(self):
        # 2016-12-31 23:59:59 UTC was 17 s behind GPS time; 2017-01-01 00:00:00 UTC is 18 s behind
        # it.
        for gps, utc in (
            ("2017-01-01 00:00:16", "2016-12-31T23:59:59"),
            ("2017-01-01 00:00:18", "2017-01-01T00:00:00"),
            ("1980-01-07 00:00:00", "1980-01-07T00:00:00"),
            ("2026-11-28 00:00:00", "2026-11-27T23:59:42"),
        ):
            since = datetime.datetime.fromisoformat(gps) - datetime.datetime(1980, 1, 6)
            assert kml.utc(round(since.total_seconds()) * 10**12) == utc + ".000Z"
