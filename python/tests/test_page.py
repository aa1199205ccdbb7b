"""The page, and how it looks in Debian's chromium, headless.

GPSCOVER_SCREENS names a folder that gets pictures of the pages.
"""

import itertools
import json
import math
import os
import re
import shutil
import struct
import sys
import tempfile
from base64 import b64decode
from pathlib import Path
from unittest import mock

import chromium
import pytest
from made_logs import EXAMPLES, RECORDED, ended_with

from gpscover import Error, geodesy, page, region, summary, zones
from gpscover.beside import Beside, rings_of
from gpscover.log import Rules, calendar
from gpscover.log import epochs as read_epochs
from gpscover.outline import outline

HEAD = "gpscover 1\nrules 1 10 1000000\n"
VEHICLE = RECORDED / "cres_2008.log"  # regions that reach the search box, and empty epochs
RECEIVER = RECORDED / "ubx_2008.log"
SKIPS = "skip G01 1\nskip G02 2\nskip G03 3\nskip G04 4\nskip G05 5\nskip G06 6 20\nskip G07 7\n"
SIDE = 10_000_000
SATS = "".join(
    f"sat {name} {x} {x} {y} {y} {z} {z} {2 * 10**13} {2 * 10**13} -7000000 59000000{more}\n"
    for name, x, y, z, more in (
        ("G11", 26 * 10**12, 0, 0, ""),
        ("G12", 16 * 10**12, 12 * 10**12, 0, " -6000000 50000000"),
        ("G13", 16 * 10**12, 0, 12 * 10**12, ""),
        ("G14", 16 * 10**12, -12 * 10**12, 0, ""),
        ("G15", 16 * 10**12, 0, -12 * 10**12, ""),
    )
)
AT = 6378137 * 10**6
ROOT = f"root {AT - SIDE} {-SIDE} {-SIDE} {AT + SIDE} {SIDE} {SIDE}\n"
INNER = f"cut 0 2 {-SIDE // 2}\nsplit 0 0\nout 1\nin 2 0 -1000000 1000000\ndone 1\n"
# The region of epoch 4 is x from AT to AT + 10 m, y from -5 to 10 m and z from -10 to 10 m. It lies in the first zone,
# across an end of the second one, above the third one, and in the half-space of the fourth.
ZONES = (
    f"gpszones 2\nzone around {AT - SIDE} {-2 * SIDE} {-SIDE} {AT + SIDE} {SIDE} {SIDE}\n"
    f"zone half {AT} 0 {-SIDE} {AT + SIDE} {SIDE} {SIDE}\n"
    f"zone below {AT - 2 * SIDE} {-SIDE} {-SIDE} {AT - 1} {SIDE} {SIDE}\n"
    f"prism endless 1\nside 1 0 0 {AT + SIDE}\nreach up 1 0 0\n"
)
# few, empty, a region that reaches, and a number that is left out; 10 s apart
MADE = (
    HEAD
    + f"few 1 {8 * 10**20} 4\n{SKIPS}epoch 2 {8 * 10**20 + 10**13} 5\nskip G06 6 2\n{SATS}{ROOT}out 0\ndone 0\n"
    + f"epoch 4 {8 * 10**20 + 3 * 10**13} 5\n{SATS}{ROOT}{INNER}"
)


pytest.importorskip("plotly")


def epochs_of(text):
    """The epochs of a log."""
    with tempfile.TemporaryDirectory() as room:
        path = os.path.join(room, "made.log")
        Path(path).write_text(text, newline="\n")
        return list(read_epochs(path))


def made(log, out, *words):
    """Makes a page. What the command says on standard error; its errors are raised."""
    return ended_with(page, log, out, *words)[2]


def ends_of(packed):
    """The boxes of the page in m from the low corner of their hull."""
    ends = struct.unpack(f"<{6 * sum(packed['counts'])}H", b64decode(packed["ends"]))
    return [[ends[k + j] * packed["steps"][j % 3] for j in range(6)] for k in range(0, len(ends), 6)]


class TestParts:
    def test_each_packed_box_holds_its_own_and_little_more(self):
        for epoch in read_epochs(RECEIVER):
            found = region.region_of(epoch)
            packed = json.loads(page.packed_boxes(epoch, found))
            hull = region.hull_of([kept.box for kept in epoch.kept])
            boxes = [kept.box for inner in (False, True) for kept in epoch.kept if kept.inner == inner]
            assert sum(packed["counts"]) == len(boxes)
            for box, drawn in zip(boxes, ends_of(packed)):
                for k in range(3):
                    low, high = ((box[j] - hull[k]) / 1e6 for j in (k, k + 3))
                    room = (hull[k + 3] - hull[k]) / 1e6 / 65535 + 2e-6
                    assert low - room <= drawn[k] <= low + 1e-9 and high - 1e-9 <= drawn[k + 3] <= high + room

    def test_the_outline_is_that_of_the_corners_of_all_boxes(self):
        for log in (RECEIVER, VEHICLE):
            for epoch in read_epochs(log):
                if not epoch.kept:
                    continue
                found = region.region_of(epoch)
                right, upward = found.axes[0], found.axes[2]
                ring = outline([kept.box for kept in epoch.kept], found.origin, right, upward)
                sides = list(zip(ring, ring[1:] + ring[:1]))
                for kept in epoch.kept:
                    for corner in itertools.product(*zip(kept.box[:3], kept.box[3:])):
                        at = [(end - round(o * 1e6)) / 1e6 for end, o in zip(corner, found.origin)]
                        x, y = geodesy.dot(at, right), geodesy.dot(at, upward)
                        # on the left of each side, or on it
                        assert all((c - a) * (y - b) - (d - b) * (x - a) > -1e-6 for (a, b), (c, d) in sides)

    def test_groups_hold_each_box(self):
        boxes = [kept.box for kept in next(read_epochs(RECEIVER)).kept]
        with mock.patch.object(page, "MOST_BOXES", 20):
            groups = page.hulls_of_groups(boxes)
            assert page.drawn_boxes(next(read_epochs(RECEIVER))) == ([], [], groups)
        assert 1 < len(groups) <= 20
        for box in boxes:
            assert any(
                all(g <= b for g, b in zip(group[:3], box)) and all(g >= b for g, b in zip(group[3:], box[3:]))
                for group in groups
            )

    def test_the_thinning_keeps_every_second_fourth_and_so_on(self):
        thinned = page.Thinned()
        for position in range(9):
            if thinned.wants(position):
                thinned.add(position, "x" * 10)
            if position == 4:
                thinned.halve()
        assert (sorted(thinned.texts), thinned.every) == ([0, 2, 4, 6, 8], 2)
        assert thinned.size == 5 * 15
        thinned.halve()
        assert sorted(thinned.texts) == [0, 4, 8]

    def test_a_small_room_leaves_the_rows_of_all_epochs(self):
        collected, broken = page.collect([RECEIVER], 0, math.inf, 20_000, Beside())
        assert broken is None
        assert len(collected.rows) == 8
        assert collected.size + collected.details.size + collected.boxes.size <= 20_000
        assert set(collected.boxes.texts) <= set(collected.details.texts) < set(range(8))
        assert f"one epoch in {collected.boxes.every}" in next(collected.notes())

    def test_no_room_at_all_ends_too(self):
        assert len(page.collect([RECEIVER], 0, math.inf, 0, Beside())[0].rows) == 8

    def test_some_epochs_of_several_logs(self):
        numbers = [epoch.index for epoch in read_epochs(RECEIVER)]
        collected, _ = page.collect([RECEIVER, VEHICLE], numbers[1], numbers[2], 10**7, Beside())
        wanted = [
            str(epoch.index)
            for log in (RECEIVER, VEHICLE)
            for epoch in read_epochs(log)
            if numbers[1] <= epoch.index <= numbers[2]
        ]
        assert [row[0] for row in collected.rows] == wanted

    def test_a_detail(self):
        few, empty, whole = epochs_of(MADE)
        assert json.loads(page.detail(few, None, "few"))["skips"] == [
            ["G01", "a wanted code is missing"],
            ["G02", "a code is out of range"],
            ["G03", "it has no ephemeris"],
            ["G04", "none of its ephemerides is healthy"],
            ["G05", "none of its ephemerides is near enough in time"],
            ["G06", "its ephemeris is out of bounds (field 20)"],
            ["G07", "the search box comes too near to the earth's centre"],
        ]
        # from longitude and latitude 0: G11 stands overhead, G12 east, G13 north, G14 west, G15
        # south; 12,000 km beside
        # and 16,000 - 6378.137 km above
        sky = json.loads(page.detail(empty, None, "empty"))["satellites"]
        high = round(math.degrees(math.atan2(16000 - 6378.137, 12000)), 2)
        assert [row[:2] for row in sky] == [["G11", 90.0]] + [[f"G{k}", high] for k in (12, 13, 14, 15)]
        assert [row[2] for row in sky[1:]] == [90.0, 0.0, 270.0, 180.0]
        assert [row[3:] for row in sky[:2]] == [[-7.0, 59.0, -7.0, 59.0], [-7.0, 59.0, -6.0, 50.0]]
        # x from the middle on, y from -5 m on: east from -7.5 to 7.5 m of the middle, north from
        # -10 to 10, up 10 m
        outlines = json.loads(page.detail(whole, region.region_of(whole), ""))["outlines"]
        for ring, sides in zip(outlines, ((15, 20), (15, 10), (20, 10))):
            assert len(ring) == 4
            for k, side in enumerate(sides):
                assert max(it[k] for it in ring) - min(it[k] for it in ring) == pytest.approx(side, rel=0, abs=5e-3)

    def test_what_epochs_say_of_zones(self):
        with tempfile.TemporaryDirectory() as room:
            path = Path(room, "zones")
            path.write_text(ZONES, newline="\n")
            beside = Beside(zones=zones.chosen_zones([path], []))
            chosen = zones.chosen_zones([path], ["half"])
        names = ["around", "half", "below", "endless"]
        assert list(beside.columns()) == [(f"zone {k}", f"zone {name}") for k, name in enumerate(names)]
        said = [list(beside.cells(epoch, region.region_or_none(epoch))) for epoch in epochs_of(MADE)]
        # an epoch of few satellites says nothing, and one without a region is outside of everything
        assert said == [[""] * 4, ["outside"] * 4, ["inside", "open", "outside", "inside"]]
        assert list(beside.lines())[:2] == [
            "zone around: outside in 1, inside in 1, open in 0, few 1",
            "zone half: outside in 1, inside in 0, open in 1, few 1",
        ]
        assert [zone.name for zone in chosen] == ["half"]

    def test_the_outline_of_a_zone_on_the_ground(self):
        around = zones.Corners("a", (AT - SIDE, -SIDE, -2 * SIDE), (AT + SIDE, SIDE, 2 * SIDE))
        (ring,) = rings_of(around)
        # 10 m and 20 m along the equator and the meridian, on an ellipsoid of 6378137 m and 6335439.327 m there
        east, north = (math.degrees(length / radius) for length, radius in ((10, 6378127), (20, 6335429.327)))
        assert max(longitude for _, longitude in ring) == pytest.approx(east, rel=0, abs=1e-9)
        assert max(latitude for latitude, _ in ring) == pytest.approx(north, rel=0, abs=1e-9)
        assert len(ring) == 4
        assert rings_of(zones.Prism("b", [((0, 1, 0), 0)])) == []
        # a group has an outline for each piece with corners
        assert rings_of(zones.Group("c", [around.faces(), [((0, 1, 0), 0)], around.faces()])) == [ring, ring]

    def test_the_azimuth(self):
        place = geodesy.earth_fixed(0.6, 2.4, 100.0)
        east, north, up = geodesy.local_axes(0.6, 2.4)
        for degrees in (0, 75, 190, 359):
            turn = math.radians(degrees)
            target = [
                p + 2e7 * (math.sin(turn) * e + math.cos(turn) * n + u) for p, e, n, u in zip(place, east, north, up)
            ]
            assert (math.degrees(geodesy.Frame.at(place).azimuth(target)) + 1) % 360 == pytest.approx(
                (degrees + 1) % 360, rel=0, abs=5e-7
            )

    def test_settings_of_another_run_are_told(self):
        text = "outliers = 2\nbisections = 1_0\nwidth = 1000 # one metre\n"
        assert list(page.settings_differ(text, Rules(1, 10, 1000000))) == [
            "these settings have outliers = 2, and the log has 1: they aren't those of the log"
        ]

    def test_what_ends_a_script_is_no_end_of_the_data(self):
        assert "</" not in page.to_json({"a": "</script><b>"})
        assert json.loads(page.to_json("</script>")) == "</script>"

    def test_what_begins_a_comment_or_a_script_is_no_part_of_the_page(self):
        for text in ("# <!--<script>", "<!-- <script", "]]>", "<SCRIPT>", "<\\/script>"):
            said = page.to_json({"settings": text})
            assert "<" not in said
            assert json.loads(said) == {"settings": text}

    def test_settings_whose_numbers_are_none(self):
        for text in ("outliers = _\n", "bisections = __1\n", "width = " + "9" * 5000 + "\n"):
            assert list(page.settings_differ(text, Rules(1, 10, 1000000))) == []

    def test_without_plotly_a_line_says_so(self):
        told = "has no plotly; Debian: apt-get install python3-plotly, then /usr/bin/python3 -m gpscover"
        with mock.patch.dict(sys.modules, {"plotly": None, "plotly.offline": None}):
            with pytest.raises(Error, match=told):
                made(RECEIVER, "never.html")

    def test_wrong_words(self):
        for words in (["log"], ["a", "b"], ["a", "b.html", "--from", "0"], ["a", "b.html", "--to", "x"]):
            assert ended_with(page, *words)[0] == 2, words
        assert ended_with(page, "a", "b.html", "--zone", "a")[0] == 2

    def test_files_that_are_none_of_zones_are_refused_as_elsewhere(self):
        with tempfile.TemporaryDirectory() as room:
            path, out = Path(room, "zones"), Path(room, "a.html")
            for text, names, told in (
                ("gpszones 1\nzone a 0 0 0 1 1\n", [], f"{path}: line 2 doesn't fit"),
                ("gpszones 2\nreach a 1 0 0\n", [], "no zone"),
                (ZONES, ["half", "none"], "no zone none in"),
            ):
                path.write_text(text, newline="\n")
                with pytest.raises(Error, match=re.escape(told)):
                    made(RECEIVER, out, "--zones", path, *(word for name in names for word in ("--zone", name)))
                assert not out.exists()
            with pytest.raises(OSError):
                made(RECEIVER, out, "--zones", Path(room, "absent"))


class TestFiles:
    def page_of(self, text, *words):
        """The page of a log, and the line with which it ended, or None."""
        with tempfile.TemporaryDirectory() as room:
            log, out, line = os.path.join(room, "a.log"), os.path.join(room, "a.html"), None
            Path(log).write_text(text, newline="\n")
            try:
                made(log, out, *words)
            except Error as error:
                line = str(error)
            return Path(out).read_text(encoding="utf-8") if os.path.exists(out) else None, line

    def data_of(self, text):
        """The data in a page."""
        return json.loads(re.search('<script type="application/json" id="data">\n(.*)\n</script>', text)[1])

    def test_a_log_that_was_cut_gets_a_page_of_what_is_whole(self):
        text, line = self.page_of(MADE[:-30])
        assert "ends within an epoch" in line
        data = self.data_of(text)
        assert data["table"]["epoch"] == ["1", "2"]
        assert "ends within an epoch" in data["warnings"][0]

    def test_what_is_no_log_gets_none(self):
        for text in ("", "a\n", "gpscover 1\nrules 1\n", MADE[:100]):
            assert self.page_of(text)[0] is None

    def test_a_page_loads_nothing_from_elsewhere(self):
        text, _ = self.page_of(MADE)
        assert "default-src 'none'" in text
        assert re.search(r"<(script|link|img|iframe)[^>]*(src|href)=\"(?!data:)", text) is None


@pytest.mark.skipif(chromium.missing() is not None, reason=str(chromium.missing()))
class TestInTheBrowser:
    @classmethod
    def setup_class(cls):
        cls.room = tempfile.mkdtemp()
        Path(cls.room, "made.log").write_text(MADE, newline="\n")
        cls.logs = {"vehicle": VEHICLE, "receiver": RECEIVER, "made": Path(cls.room, "made.log")}
        for name, log in cls.logs.items():
            made(log, f"{cls.room}/{name}.html", "--settings", str(EXAMPLES / "settings.toml"))
        cls.browser = chromium.Browser(1280, 900)

    @classmethod
    def teardown_class(cls):
        cls.browser.close()
        shutil.rmtree(cls.room)

    def open(self, name, part=""):
        """Opens a page, which must load without an error and without a request to elsewhere."""
        self.browser.faults.clear()
        self.browser.requests.clear()
        self.browser.open(f"{self.room}/{name}.html", part)
        elsewhere = [it for it in self.browser.requests if not it.startswith(("file:", "data:", "blob:", "about:"))]
        assert (self.browser.faults, elsewhere) == ([], [])

    def run_js(self, script):
        return self.browser.run(script)

    def title(self):
        return self.run_js("document.getElementById('epoch-title').textContent")

    def epochs(self, name):
        return list(read_epochs(self.logs[name]))

    def test_the_numbers_are_the_summary_s(self):
        for name, log in self.logs.items():
            self.open(name)
            lines = []
            totals = summary.summarize(log, lambda *epoch: lines.append(summary.text_line(*epoch[:3]).split()))
            rows = self.run_js(
                "[...document.querySelectorAll('#table tbody tr')].map((row) =>"
                " [...row.cells].map((cell) => cell.textContent).join(' '))"
            )
            assert [row.split() for row in rows] == lines
            said = self.run_js("[...document.querySelectorAll('#lines li')].map((it) => it.textContent)")
            lines = [totals.line(), *(f"warning: {each}" for each in totals.warnings())]
            assert said[-len(lines) :] == lines

    def test_a_click_on_an_epoch_shows_all_its_boxes(self):
        for name in ("receiver", "vehicle"):
            self.open(name)
            for k, epoch in enumerate(self.epochs(name)):
                self.run_js(f"document.querySelectorAll('#table tbody tr')[{k}].querySelector('button').click()")
                assert self.title() == f"Epoch {epoch.index}, {calendar(epoch.ps)} GPS time"
                if not epoch.kept:
                    assert self.run_js("document.getElementById('solid').hidden")
                    continue
                self.assert_drawn(epoch, region.region_of(epoch))

    def assert_drawn(self, epoch, found):
        """The figures of an epoch have all boxes, and reach as far as its extents."""
        boxes = self.run_js(
            "document.getElementById('solid').data.filter((it) => it.type === 'mesh3d')"
            ".reduce((sum, mesh) => sum + mesh.i.length / 12, 0)"
        )
        assert boxes == len(epoch.kept)
        reach = self.run_js(
            "['x', 'y', 'z'].map((name) => { const all = document.getElementById('solid').data"
            ".filter((it) => it.type === 'mesh3d').flatMap((mesh) => mesh[name]);"
            " return [Math.min(...all), Math.max(...all)]; })"
        )
        flat = self.run_js(
            "['above', 'front', 'side'].map((id) => { const it = document.getElementById(id).data[0];"
            " return [it.x, it.y].map((all) => [Math.min(...all), Math.max(...all)]); })"
        )
        east, north, up = found.extents
        for drawn, extent in zip(reach, found.extents):
            assert max(abs(a - b) for a, b in zip(drawn, extent)) < 0.03
        for drawn, extents in zip(flat, ((east, north), (east, up), (north, up))):
            for a, b in zip(drawn, extents):
                assert max(abs(p - q) for p, q in zip(a, b)) < 0.001
        text = self.run_js("document.getElementById('boxes-say').textContent")
        assert f"{sum(not kept.inner for kept in epoch.kept)} edge box" in text
        assert self.run_js("document.getElementById('sky').data[0].text.length") == len(epoch.rows)

    def test_keys_go_from_row_to_row(self):
        self.open("receiver")
        epochs = self.epochs("receiver")
        self.run_js("document.querySelector('#table tbody button').focus()")
        self.browser.press("ArrowDown")
        self.browser.press("ArrowDown")
        assert self.title().startswith(f"Epoch {epochs[2].index},")
        self.browser.press("ArrowUp")
        assert self.title().startswith(f"Epoch {epochs[1].index},")
        self.browser.press("Tab")
        self.browser.press("Enter")
        assert self.title().startswith(f"Epoch {epochs[2].index},")
        assert self.run_js("document.activeElement.textContent") == str(epochs[2].index)

    def test_an_epoch_by_its_number(self):
        epochs = self.epochs("receiver")
        self.open("receiver", f"#epoch={epochs[3].index}")
        assert self.title().startswith(f"Epoch {epochs[3].index},")
        self.run_js("document.getElementById('behind').click()")
        assert self.title().startswith(f"Epoch {epochs[4].index},")
        assert self.run_js("location.hash") == f"#epoch={epochs[4].index}"
        self.run_js("document.getElementById('number').value = '99999'; document.querySelector('#go button').click()")
        assert self.run_js("document.getElementById('gone').textContent") == "The page has no epoch 99999."

    def test_a_click_on_the_time_line(self):
        self.open("receiver")
        x, y = self.run_js(
            "(() => { const plot = document.getElementById('time'); plot.scrollIntoView({ block: 'center' });"
            " const at = plot.getBoundingClientRect(), { xaxis, yaxis3 } = plot._fullLayout;"
            " return [at.left + xaxis._offset + xaxis.d2p(table.time[2]),"
            " at.top + yaxis3._offset + yaxis3.d2p(Number(table.up[2]))]; })()"
        )
        self.browser.click(x, y)
        self.run_js("new Promise((done) => setTimeout(done, 400))")
        assert self.title().startswith(f"Epoch {self.epochs('receiver')[2].index},"), self.title()

    def test_marks_are_filtered_and_told(self):
        self.open("made", "#epoch=2")
        assert "No position fits" in self.run_js("document.getElementById('says').textContent")
        assert (
            self.run_js("document.querySelector('#skips li').textContent")
            == "G06: its ephemeris is out of bounds (field 2)"
        )
        assert self.run_js("document.getElementById('sky').data[0].text") == ["G11", "G12", "G13", "G14", "G15"]
        assert self.run_js("document.querySelectorAll('#satellites th').length") == 7
        wanted = {"few": ["1"], "empty": ["2"], "reaches": ["4"], "region": ["4"], "all": ["1", "2", "4"]}
        for mark, numbers in wanted.items():
            shown = self.run_js(
                f"(() => {{ const it = document.getElementById('filter'); it.value = '{mark}';"
                " it.dispatchEvent(new Event('change'));"
                " return [...document.querySelectorAll('#table tbody button')].map((b) => b.textContent); })()"
            )
            assert shown == numbers
        # the line of the time line has a gap at the number that is left out
        assert self.run_js("document.getElementById('time').data[4].y") == [4, 5, None, 5]
        assert "from 2 to 4" in self.run_js("document.getElementById('notes-list').textContent")
        assert "bisections = 64, and the log has 10" in self.run_js("document.getElementById('lines').textContent")

    def test_a_wide_and_a_narrow_window(self):
        for name in self.logs:
            for width in (1280, 400):
                self.browser.resize(width, 900)
                self.open(name)
                assert self.run_js("document.documentElement.scrollWidth") <= width
                shown = self.run_js(
                    "[...document.querySelectorAll('.figure')].filter((it) => !it.hidden)"
                    ".every((it) => it.querySelector('.main-svg').getBoundingClientRect().width > 200)"
                )
                assert shown
                if os.environ.get("GPSCOVER_SCREENS"):
                    self.browser.draw(f"{os.environ['GPSCOVER_SCREENS']}/{name}-{width}.png")
        self.browser.resize(1280, 900)

    def test_everything_has_a_name(self):
        self.open("made")
        without = self.run_js(
            "[...document.querySelectorAll('button, input, select, [role]')].filter((it) => !it.closest('.js-plotly-plot svg')"
            " && !(it.getAttribute('aria-label') || it.labels?.length || it.textContent.trim() || it.role === 'status'))"
            ".map((it) => it.outerHTML)"
        )
        assert without == []
        assert self.run_js("document.documentElement.lang") == "en"
        assert (
            self.run_js(
                "[...document.querySelectorAll('[aria-labelledby]')]"
                ".every((it) => document.getElementById(it.getAttribute('aria-labelledby')))"
            )
            == True
        )

    def test_the_table_is_sorted_by_a_column_and_back(self):
        self.open("receiver")
        shown = "[...document.querySelectorAll('#table tbody tr')].map((it) => Number(it.cells[5].textContent))"
        lengths = self.run_js(shown)
        assert len(set(lengths)) > 1
        for order in (sorted(lengths, reverse=True), sorted(lengths)):
            self.run_js("document.querySelector('#table th[data-column=\"east\"] button').click()")
            assert self.run_js(shown) == order
        assert self.run_js("document.querySelector('#table th[aria-sort]').dataset.column") == "east"

    def test_known_places_are_in_the_table(self):
        made(RECEIVER, f"{self.room}/placed.html", "--places", RECEIVER.with_suffix(".places"), "--limit", 50, 100)
        self.open("placed")
        assert "which holds it in 8" in self.run_js("document.getElementById('lines').textContent")
        assert (
            self.run_js("[...document.querySelectorAll('#table tbody tr')].map((it) => it.cells[15].textContent)")
            == ["yes"] * 8
        )

    def test_zones_are_in_the_table_and_on_the_map(self):
        Path(self.room, "zones").write_text(ZONES, newline="\n")
        made(self.logs["made"], f"{self.room}/zoned.html", "--zones", f"{self.room}/zones")
        self.open("zoned")
        column = "[...document.querySelectorAll('#table tbody tr')].map((it) => it.cells[16].textContent)"
        assert self.run_js(column) == ["", "outside", "open"]
        self.run_js("document.querySelector('#table th[data-column=\"zone 1\"] button').click()")
        assert self.run_js(column) == ["open", "outside", ""]
        drawn = "document.getElementById('map').data.filter((it) => it.name)"
        told = f"{drawn}.map((it) => [it.name, it.hovertext?.[0] ?? ''])"
        said, fences = "inside: around, endless<br>open: half", [["around", ""], ["half", ""], ["below", ""]]
        assert self.run_js(told) == [["inside of a zone", said], *fences]
        choice = "document.getElementById('zone')"
        self.run_js(f"({choice}.value = 'zone 2', {choice}.dispatchEvent(new Event('change')))")
        assert self.run_js(told) == [["outside of below", said], *fences]
        self.run_js("document.querySelectorAll('#table tbody tr')[0].click()")
        assert "zone endlessinside" in self.run_js("document.getElementById('values').textContent")
        assert self.run_js("document.getElementById('map').data.at(-1).x.length") == 6
        kept = "[...document.getElementById('filter').options].map((it) => it.value)"
        assert self.run_js(kept) == [
            "all",
            "region",
            "empty",
            "few",
            "reaches",
            "zone 0 inside",
            "zone 0 outside",
            "zone 1 open",
            "zone 1 outside",
            "zone 2 outside",
            "zone 3 inside",
            "zone 3 outside",
        ]
        if os.environ.get("GPSCOVER_SCREENS"):
            self.browser.draw(f"{os.environ['GPSCOVER_SCREENS']}/zoned.png")

    def test_the_arrow_keys_go_on_behind_a_jump(self):
        self.open("receiver")
        number = self.epochs("receiver")[3].index
        self.run_js(
            f"(document.getElementById('number').value = '{number}', document.getElementById('go').requestSubmit())"
        )
        key = "new KeyboardEvent('keydown', { key: 'ArrowDown', bubbles: true })"
        self.run_js(f"document.activeElement.dispatchEvent({key})")
        following = self.epochs("receiver")[4].index
        assert self.run_js("document.querySelector('#table tr.chosen button').textContent") == str(following)

    def test_no_folder_is_named(self):
        made(RECEIVER, f"{self.room}/named.html", "--settings", EXAMPLES / "settings.toml")
        text = Path(self.room, "named.html").read_text(encoding="utf-8")
        assert str(RECEIVER.parent) not in text and str(EXAMPLES) not in text

    def test_what_is_thinned_out_is_said(self):
        with mock.patch.object(page, "PAGE_LIMIT", os.path.getsize(f"{self.room}/receiver.html") - 20_000):
            said = made(RECEIVER, f"{self.room}/thin.html")
        assert re.search(r"^page: the boxes are those of one epoch in 2", said)
        self.open("thin", f"#epoch={self.epochs('receiver')[1].index}")
        number = self.epochs("receiver")[1].index
        assert f"--from {number} --to {number}" in self.run_js("document.getElementById('boxes-say').textContent")
        assert self.run_js("document.getElementById('solid').hidden")

    def test_no_epochs(self):
        Path(self.room, "none.log").write_text(HEAD, newline="\n")
        made(f"{self.room}/none.log", f"{self.room}/none.html")
        self.open("none")
        assert "the log has no epochs" in self.run_js("document.getElementById('lines').textContent")

    def test_without_webgl_all_else_is_there(self):
        with chromium.Browser(1280, 900, ("--disable-3d-apis",)) as plain:
            plain.open(f"{self.room}/receiver.html")
            assert plain.faults == []
            assert plain.run("document.getElementById('solid').hidden")
            assert "no WebGL" in plain.run("document.getElementById('boxes-say').textContent")
            for name in ("time", "above", "front", "side", "sky", "errors", "map"):
                assert plain.run(f"document.querySelectorAll('#{name} path').length") > 0
            assert plain.run("document.querySelectorAll('#table tbody tr').length") == 8
