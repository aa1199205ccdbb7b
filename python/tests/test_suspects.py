"""Satellites that surely broke their bounds, by hand."""

import os
import re
import tempfile
from pathlib import Path

from made_logs import FAULTY, FIVE, HEAD, epoch_of

from gpscover import Box, suspects


STUB = """#!/usr/bin/env python3
import sys
at = sys.argv.index("--")
options, (_, _, settings, log) = sys.argv[2:at], sys.argv[at + 1 :]
assert options.pop() == "--quiet"
assert options[-2:] == ["--station", "c"] or options[:1] in ([], ["--from"])
settings = open(settings).read()
assert "outliers = 0" in settings
opened = {name for name in ("G03", "G04", "G05") if f"{name} = [-1000000, 1000000]" in settings}
sats = "".join(f"sat G0{k} 0 0 0 0 0 0 0 0 0 0\\n" for k in (3, 4, 5))
needed = {1: {"G03"}, 2: set(), 3: {"G04", "G05"}}
for index in needed:
    kept = "edge 0 0 0" if needed[index] <= opened else "out 0"
    block = f"epoch {index} {index} 3\\n{sats}root 0 0 0 1 1 1\\n{kept}\\ndone 0\\n"
    open(log, "w" if index == 1 else "a").write(("gpscover 1\\nrules 0 0 1000\\n" if index == 1 else "") + block)
"""


class TestSuspects:
    def test_a_pseudorange_that_is_too_long_is_named(self):
        assert suspects.surely_broken(epoch_of(FAULTY + "edge 0 -1500000 1500000\ndone 0\n")) == ["G05"]

    def test_none_is_named_where_all_can_fit(self):
        right = FAULTY.replace(str(2 * 10**13 + 10**9), str(2 * 10**13))
        assert suspects.surely_broken(epoch_of(right + "edge 0 -1500000 1500000\ndone 0\n")) == []

    def test_the_clock_spans_of_a_worked_box(self):
        row = epoch_of(FAULTY + "edge 0 0 0\ndone 0\n").rows[0]
        # G01 at 20,000 km along x, a box from -1 m to 1 m in x and 0.9 m around in y and z
        box = (-1000000, -900000, -900000, 1000000, 900000, 900000)
        assert suspects.clock_span(row, Box(*box)) == (-1500000, 1500000)

    def test_what_is_surely_declared_names_no_satellite(self):
        # The five satellites all keep the widest of their bounds, whatever less is declared at
        # other points.
        right = FAULTY.replace(str(2 * 10**13 + 10**9), str(2 * 10**13)).replace("500000\n", "500000 0 0\n")
        epoch = epoch_of(right + "edge 0 -1500000 1500000\ndone 0\n")
        assert [row.sure for row in epoch.rows] == [(0, 0)] * 5
        assert suspects.surely_broken(epoch) == []
        faulty = FAULTY.replace("500000\n", "500000 500000 -500000\n")
        assert suspects.surely_broken(epoch_of(faulty + "edge 0 -1500000 1500000\ndone 0\n")) == ["G05"]

    def test_the_rows_in_use_tell(self):
        # By the rows of the root, whose errors are 2 km, each satellite can keep its bounds; by
        # renewed rows G05 can't.
        wide = FAULTY.replace("-500000 500000", "-2000000000 2000000000")
        ends = "edge 0 -1500000 1500000\ndone 0\n"
        box = "renew -1000000 -1000000 -1000000 1000000 1000000 1000000\n"
        head = HEAD.replace("gpscover 1", "gpscover 2")
        for text, broken in (
            (wide + ends, []),
            (wide + box + FIVE + ends, ["G05"]),
            (FAULTY + box + "".join(wide.splitlines(keepends=True)[1:6]) + ends, []),
        ):
            assert suspects.surely_broken(epoch_of(text, head)) == broken

    def test_with_a_station_it_is_one_of_two_receivers(self):
        epoch = epoch_of(FAULTY + "edge 0 -1500000 1500000\ndone 0\n")
        line = suspects.log_line(epoch, suspects.AT_EITHER)
        assert line.endswith(" broke their bounds at the receiver or the station: G05")

    def test_an_empty_epoch_says_so(self):
        assert "empty: more than 1 satellites" in suspects.log_line(epoch_of(FAULTY + "out 0\ndone 0\n"))

    def test_opening_changes_one_satellite(self):
        settings = "[search]\noutliers = 1\n[satellite]\nG03 = [0, 5]\nG04 = [1, 2] # seen\n"
        opened = suspects.with_opened(suspects.with_no_outliers(settings), "G03")
        assert opened == "[search]\noutliers = 0\n[satellite]\nG03 = [-1000000, 1000000]\nG04 = [1, 2] # seen\n"
        assert "[satellite]\nG07 = [" in suspects.with_opened("[search]\noutliers = 0\n", "G07")

    def test_opening_the_offset_of_galileo(self):
        assert suspects.with_open_offset("[search]\nhalf = 5\n") is None
        assert (
            suspects.with_open_offset("[galileo]\noffset = [0, 1] # seen\n[bounds]\n")
            == "[galileo]\noffset = [-1000000, 1000000]\n[bounds]\n"
        )

    def test_opening_each_in_turn(self):
        with tempfile.TemporaryDirectory() as room:
            stub = os.path.join(room, "stub")
            Path(stub).write_text(STUB)
            os.chmod(stub, 0o755)
            runs = [suspects.Runs(stub, "a", "b", room, station) for station in (None, "c")]
            lines, others = (list(suspects.opened_lines(it, "[search]\noutliers = 1\n")) for it in runs)
        assert len(lines) == 3
        assert re.search("^epoch 1 .* opening G03$", lines[0])
        assert re.search("^epoch 3 .* opening G04[+]G05$", lines[1])
        assert lines[2] == "epochs 3, of which 2 are empty at outliers = 0"
        assert others == [*lines[:2], lines[2] + "; a fault is one at the receiver or the station"]
