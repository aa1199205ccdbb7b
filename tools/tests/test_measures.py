"""Tests of the tools that measure: extents, the long day, the bench, renewed rows."""
import contextlib
import math
import tempfile
from pathlib import Path
from unittest import mock

import pytest

from made_logs import FIVE, HEAD, PAVED, RENEWED, box_at, epoch_of, written

from gpscover.log import Interval, Row
from tools import (
    bench,
    bounds_measured,
    certified_table,
    exact_extents,
    largest_sizes,
    long_day,
    pairs_table,
    renewed,
    standing_day,
)
from tools.made import orbits
from tools.tests.program import ended


HEAD_4 = HEAD.replace("gpscover 1", "gpscover 4")


class TestExactExtents:
    """Satellites on either side on each axis, whose ranges are right within 1 m for a receiver at the origin: a point and
    clock offset are allowed where the amounts of any coordinate and of the clock offset add up to 1 m at most."""

    def extents(self, outliers):
        far = 20_000_000_000_000
        ends = [[far * (axis == k) * sign for k in range(3)] for axis in range(3) for sign in (1, -1)]
        rows = [
            Row("G01", tuple((end, end) for end in place), (far, far), *[(-1_000_000, 1_000_000)] * 2)
            for place in ends
        ]
        axes = ((1, 0, 0), (0, 1, 0), (0, 0, 1))
        found = exact_extents.exact_extents(rows, outliers, (0, 0, 0), axes)
        return [(round(low, 5), round(high, 5)) for low, high in found]

    def test_all_satellites(self):
        assert self.extents(0) == [(-1, 1)] * 4

    def test_one_may_be_left_out(self):
        # without one on x: x - 1 <= b <= x + 1 and the others keep b within 1 m
        assert self.extents(1) == [(-2, 2)] * 3 + [(-1, 1)]

    def test_the_rows_are_those_in_use_at_the_end(self):
        # Along x the rows of G01 and G05 leave their errors, which are renewed: 5 m, and then 1 m.
        below = f"sat G06 0 0 0 0 {-2 * 10**13} {-2 * 10**13} {2 * 10**13} {2 * 10**13} -500000 500000\n"
        text = RENEWED.read_text().replace("-50000000 50000000", "-500000 500000").replace("0 4\n", "0 5\n")
        lines = [line + below * line.startswith("sat G05") for line in text.splitlines(keepends=True)]
        found = mock.Mock(origin=(0, 0, 0), axes=((1, 0, 0), (0, 1, 0), (0, 0, 1)), clock=(-1, 1))
        found.widths.return_value = (10, 1, 1)
        for made, more in (lines[2:], 400), ([*lines[2:10], "edge 0 0 0\n", lines[-1]], 0):
            with mock.patch("tools.exact_extents.region_of", return_value=found):
                width, further = exact_extents.excesses(epoch_of("".join(made), lines[0] + lines[1]))[0]
            assert (width, round(further, 4)) == (10, more)

    def test_an_empty_region(self):
        row = Row("G01", ((0, 0),) * 3, (0, 0), (0, 0), (0, 0))
        assert exact_extents.exact_extents([row], 0, (1, 0, 0), ((1, 0, 0),) * 3) is None


class TestTrueCorners:
    """Corners of what four satellites allow, seen from a point that is 800 m away."""

    PLACES = (20_000, 1_000, 0), (0, 19_000, 3_000), (-2_000, 0, 21_000), (12_000, -9_000, 12_000)  # km
    ERROR = 100_000_000  # um

    def rows(self):
        for number, place in enumerate(self.PLACES):
            um = [part * 10**9 for part in place]
            far = math.isqrt(sum(part**2 for part in um))
            yield Row(f"G0{number}", tuple(Interval(end, end) for end in um), Interval(far, far),
                      *[Interval(-self.ERROR, self.ERROR)] * 2)

    def test_they_are_where_the_ranges_meet(self):
        centre = (700.0, -300.0, 200.0)
        rows = list(self.rows())
        found = list(certified_table.true_corners(rows, 4, centre))
        assert len(found) == 16
        for corner in found:
            point = [a + b for a, b in zip(centre, corner)]
            away = [math.dist(point, [part * 1000 for part in place]) for place in self.PLACES]
            sums = [far - math.hypot(*place) * 1000 for far, place in zip(away, self.PLACES)]
            clock = (max(sums) + min(sums)) / 2  # the errors less the clock offset are 100 m or -100 m
            ends = sorted({round(abs(part - clock), 4) for part in sums})
            assert ends == [100] or len({round(part, 4) for part in sums}) == 1
        linear = [certified_table.loose_row(row, centre) for row in rows]
        assert certified_table.moved(rows, range(4), (1, 2, 2, 1), (*centre,), 5) is None
        flat = certified_table.meeting(linear, (1, 2, 2, 1))[:3]
        assert 0.001 < min(math.dist(flat, corner) for corner in found) < certified_table.NEAR_M

    def test_rows_that_may_be_left_out_have_more(self):
        rows = list(self.rows())
        longer = Interval(*(end + 2 * self.ERROR for end in rows[0].range))
        fifth = Row("G05", rows[0].place, longer, rows[0].error, rows[0].error)
        assert 0 < len(list(certified_table.true_corners([*rows, fifth], 5, (0.0, 0.0, 0.0)))) < 32
        assert len(list(certified_table.true_corners([*rows, fifth], 4, (0.0, 0.0, 0.0)))) >= 32


class TestBoundsMeasured:
    def test_how_much_further_bounds_lie(self):
        found = []
        for some in ([(3, 4, 0), (0, 1, 5)], [(0, 1, 5005), (1, 1, 7), (3, 4, -10_000)]):
            lines = (f"bound {x} {y} 0 {most} 1\nby 0{' 0' * 10}\n" for x, y, most in some)
            found.append(epoch_of(PAVED + "".join(lines), HEAD_4))
        assert bounds_measured.further(*found) == [5, -2]
        assert bounds_measured.ends_of([5, -2]) == "1.5, 5 mm"
        assert bounds_measured.ends_of([]) == "none"

    def test_settings(self, tmp_path):
        text = "[search]\nhalf = 1\n[bounds]\nionosphere = [0, 1]\ntroposphere = [2, 3]\n"
        (tmp_path / "a_single.toml").write_text(text)
        made = bounds_measured.settings_of(tmp_path, "a", "single", {"half": 7})
        assert sorted(made.splitlines()[:4]) == ["[search]", "directions = 8", "half = 7", "pairs = true"]
        above = "ionosphere = [0, 0]\nvertical = [0, 10000]\ntroposphere = [0, 0]\nzenith = [1600, 3000]\n"
        assert bounds_measured.mapped(made).endswith(f"[bounds]\n{above}")
        with pytest.raises(pairs_table.Failed):
            bounds_measured.mapped("[bounds]\n")


class TestLongDay:
    def test_its_ranges_are_the_recorded_ones_but_for_the_clock_and_the_air(self):
        sky = long_day.Sky([orbits.Record(text) for text in largest_sizes.navigation_parts()[1]])
        first, *lines = largest_sizes.observation_parts()[1][0].splitlines()
        assert first[:29] == "> 2008 05 26 05 59 29.9990000"
        time = 895816769.999
        seen = [(line[:3], float(line[3:17])) for line in lines if line[0] == "G"]
        left = [code - orbits.arrival(sky.record(satellite, time), long_day.PLACE, time)[1] for satellite, code in seen]
        assert len(left) == 9
        assert max(left) - min(left) < 20

    def test_a_receiver_that_moves_away_from_the_place_has_other_ranges(self):
        sky = long_day.Sky([orbits.Record(text) for text in largest_sizes.navigation_parts()[1]])
        still, moving = ("".join(long_day.epoch_texts(sky, 2, 30, way)).splitlines() for way in ((0, 0, 0), (0, 0, 1)))
        changed = {}
        for one, other in zip(still, moving):
            if one[0] != ">":
                changed.setdefault(one[:3], []).append(float(other[3:17]) - float(one[3:17]))
        for satellite, (first, second) in changed.items():
            there, _ = orbits.arrival(sky.record(satellite, sky.start + 30), long_day.PLACE, sky.start + 30)
            away = [a - b for a, b in zip(there, long_day.PLACE)]
            # By 30 m along z the range changes by as much as the satellite stands in that direction.
            assert first == 0 and abs(second + 30 * away[2] / math.hypot(*away)) < 0.01
        assert len(changed) > 3


class TestStandingDay:
    WAY = (0, 0, 1 / 30)  # along z, in m a second: a metre an epoch

    def test_the_rows_of_both_tables(self):
        # Boxes of 20 m round the place, and 9.5 m below it along z, which are their search boxes; then none.
        x, y, z = long_day.PLACE
        boxes = [box_at((x, y, z + off), (20, 20, 20)).replace("epoch 1 ", f"epoch {k} ") for k, off in ((1, 0), (2, -9.5))]
        lost = box_at((x, y, z - 9.5), (20, 20, 20), "out 0\ndone 0\n").replace("epoch 1 ", "epoch 3 ")
        with written(log=HEAD + "".join(boxes)) as (log,):
            row, held = standing_day.standing_row("`solve`", log, 1.25)
        cells = row.split(" | ")
        assert (cells[0], cells[3], cells[4], held) == ("| `solve`", "0", "2", False)
        with written(log=HEAD + "".join(boxes) + lost) as (log,):
            row = standing_day.creeping_row(log, 1000 / 30, self.WAY)
        # Up to z + 0.5 m the second box goes, where the receiver has come to z + 1 m.
        assert row.startswith("| 33.3333 mm/s | 2, behind 1.0 m | 3, behind 2.0 m | ")


    def test_the_lines_of_some_epochs_are_those_of_their_blocks(self):
        blocks = [PAVED.replace("epoch 1 ", f"epoch {k} ") for k in (1, 2, 4)]
        with written(log=HEAD + "".join(blocks) + "few 5 895816772999000000000 3\n") as (log,):
            assert "".join(standing_day.blocks_of(log, 2, 4)) == "".join(blocks[1:])
            assert standing_day.blocks_of(log, 5, 9) == ["few 5 895816772999000000000 3\n"]


class TestBench:
    TAKEN = {"instructions": 1_000_000, "seconds": 0.1, "peak": 4_000_000}

    def row(self, log=1000, **solve):
        others = {command: self.TAKEN for command in ("check", "pave", "judge")}
        return {"solve": {**self.TAKEN, **solve}, **others, "log": log}

    def test_a_row_has_the_numbers_in_its_units(self):
        rows = {"example, 64, yes": self.row(log=1234)}
        text = bench.table({"program": "0a", "commit": "1b", "rows": rows})
        assert "Program 0a, commit 1b;" in text
        cells = " | ".join(["1.0 M, 0.10 s, 4.0 MB"] * 4)
        assert text.splitlines()[-1] == f"| example | 64 | yes | 1.2 KB | {cells} |"

    def test_a_change_is_more_than_two_in_a_hundred_and_than_what_is_told_apart(self):
        for row, wanted in (
            (self.row(), []),
            (self.row(instructions=1_020_000, log=1020), []),
            (self.row(instructions=1_030_000), ["a: solve instructions 1.0 M, now 1.0 M (+3.0 %)"]),
            (self.row(log=900), ["a: log 1.0 KB, now 0.9 KB (-10.0 %)"]),
            (self.row(seconds=0.105, peak=4_400_000), []),
            (self.row(seconds=0.15), ["a: solve seconds 0.10 s, now 0.15 s (+50.0 %)"]),
            (self.row(peak=5_000_000), ["a: solve peak 4.0 MB, now 5.0 MB (+25.0 %)"]),
        ):
            assert list(bench.changes({"a": self.row()}, {"a": row})) == wanted
        found = list(bench.changes({"a": self.row()}, {"b": self.row()}))
        assert found == ["a: only before", "b: only now"]

    def test_rows_end_with_the_first_search_box(self):
        log = (HEAD + PAVED + PAVED).encode()
        assert pairs_table.rows_of(log) == log[: log.index(b"split")]
        with pytest.raises(pairs_table.Failed):
            pairs_table.rows_of(HEAD.encode())

    def test_instructions_are_those_that_callgrind_collected(self):
        said = "==7== Events    : Ir\n"
        assert bench.instructions_of(f"{said}==7== Collected : 52481\n==7==\n") == 52481
        with pytest.raises(pairs_table.Failed):
            bench.instructions_of(said)

    def test_two_codes_come_before_one_and_a_set_has_three_files(self):
        files = ("a.obs", "a.nav", "a_dual.toml", "a_single.toml", "b.obs", "b_single.toml",
                 "c_d.obs", "c_d.nav", "c_d_single.toml")
        with tempfile.TemporaryDirectory() as room:
            for name in files:
                (Path(room) / name).touch()
            found = bench.recorded_sets(room)
        names = {name: [file.name for file in its] for name, its in found.items()}
        wanted = {"a": list(files[:3]), "c_d": list(files[6:])}
        assert names == wanted


class TestRenewed:
    """The table of regions with renewed rows and without, by a stand-in for the program that copies a log."""

    STUB = """#!/bin/sh
case $1 in
    solve) if grep -q "^renew = true" "$4"; then cp renewed.log "$5"; else cp plain.log "$5"; fi ;;
    *) echo "yes 2" ;;
esac
"""

    def table(self, *words, stub=STUB):
        """The rows of the table of two logs, as lists of cells."""
        box = "renew 6378137000000 -100000000 -100000000 6378237000000 100000000 100000000\n"
        mended = PAVED.replace("split 2 1\n", box + FIVE + "split 2 1\n").replace("edge 3", "cut 3 2 -50000000\nedge 3")
        texts = {"program": stub, "plain.log": HEAD + PAVED, "renewed.log": HEAD.replace("gpscover 1", "gpscover 2") + mended,
                 "settings": "[search]\nhalf = 5\n[bounds]\ntroposphere = [0, 20000]\n"}
        with written(**texts) as (program, *_, settings), contextlib.chdir(program.parent):
            program.chmod(0o755)
            status, out, err = ended(renewed, program, "obs", "nav", settings, "--halves", "3", *words)
        return status, [line.strip("| ").split(" | ") for line in out.splitlines()[2:]], err

    def test_a_row_is_that_of_the_log(self):
        status, (plain, other), err = self.table()
        assert (status, err) == (0, "")
        assert plain[:7] == ["3 km", "as given", "as given", "no", "200.0 x 200.0 x 100.0 m", "16.0 m", "3,200,000"]
        assert other[3:7] == ["yes", "150.0 x 200.0 x 100.0 m", "16.0 m", "2,200,000"]
        assert (plain[7:9], other[7:9]) == (["0", "0.0"], ["0", "1.0"])

    def test_each_way_has_its_rows(self):
        _, rows, _ = self.table("--pairs", "--zenith", "2000", "2600")
        found = [row[1:4] for row in rows]
        assert found == [[pairs, zenith, renew] for pairs in ("no", "yes")
                                 for zenith in ("as given", "[2000, 2600] mm") for renew in ("no", "yes")]

    def test_settings_have_the_keys(self):
        with written(settings="[search]\nhalf = [1, 2, 3]\n[bounds]\ntroposphere = [1, 2]\nzenith = [5, 6]\n") as (path,):
            text = path.read_text()
        changed = renewed.with_values(text, 10, True, (2000, 2600), True)
        for line in "half = 10000000", "renew = true", "pairs = true", "troposphere = [0, 0]", "zenith = [2000, 2600]":
            assert changed.splitlines().count(line) == 1, line
        assert "zenith = [5, 6]" not in changed
        same = renewed.with_values(text, 10, None, None, False)
        assert "zenith = [5, 6]" in same
        assert "pairs" not in same

    def test_a_no_ends_the_table(self):
        status, rows, err = self.table(stub=self.STUB.replace('echo "yes 2"', 'echo "no 65 BadRenew line 7"; exit 1'))
        assert (status, rows) == (1, [])
        assert "status 1 no 65 BadRenew line 7" in err
        status, _, err = self.table(stub=self.STUB.replace('"yes 2"', '"yes $#"'))
        assert (status, err) == (1, "renewed.py: the checkers don't count the same boxes\n")


class TestCertifiedTable:
    LOG = Path(__file__).resolve().parents[2] / "crates/gpscover/data/receiver.log"

    def test_bounds_are_near_and_boxes_reach_further(self):
        status, out, err = ended(certified_table, self.LOG, "--every", "2", "--directions", "4")
        assert (status, err) == (0, "")
        head, rule, row = (line.strip("|").split("|") for line in out.splitlines())
        assert len(head) == len(rule) == len(row) == 8
        name, q, splits, boxes, bounds, found, _, _ = (cell.strip() for cell in row)
        assert (name, q, found) == ("receiver", "1", "12 of 12")
        assert int(splits) > 0
        assert all(float(part) > 3 for part in boxes.split(" %")[0].split(","))
        mean, worst = (float(part) for part in bounds.removesuffix(" mm").split(","))
        assert -1 < mean <= worst < 20

    def test_what_is_no_log(self):
        status, out, err = ended(certified_table, __file__)
        assert status == 1 and err.count("\n") == 1
