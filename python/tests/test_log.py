"""Logs of steps that were counted by hand, and logs that are none."""

import math
import re

import pytest
from made_logs import HEAD, PAVED, RENEWED, ended_with, epoch_of, epochs_of, written

from gpscover import Bound, Error, RowSum, export, page, summary
from gpscover.log import calendar
from gpscover.log import epochs as read_epochs

BOUNDED = HEAD.replace("gpscover 1", "gpscover 4")
# North up to 50 m by two sums, and the whole of space by one.
BOUNDS = (
    "bound 0 0 1000000 50000000000000 2\n"
    "by 17179869184 4 -1048576 0 1048575 2 1 2 0 2 0\n"
    "by 0 3 0 3 0 3 0 3 0 3 0\n"
    "bound 0 0 0 0 1\n"
    "by 1 0 0 0 0 0 0 0 0 0 0\n"
)


class TestLogs:
    def test_the_steps_give_the_boxes_counted_by_hand(self):
        epoch = epoch_of(PAVED)
        boxes = [(kept.box, kept.inner, kept.clock) for kept in epoch.kept]
        third = (6378137000001, -100000000, -100000000, 6378237000000, 0, 100000000)
        fourth = (6378137000001, 20000000, -100000000, 6378237000000, 100000000, 50000000)
        assert boxes == [(third, False, (-5000000, 7000000)), (fourth, True, (-9000000, 2000000))]
        assert (epoch.outs, epoch.splits, epoch.outliers) == (1, 2, 1)

    def test_lengths_are_told_in_metres(self):
        _, kept = epoch_of(PAVED).kept
        assert kept.box.to_metres() == ((6378137.000001, 20.0, -100.0), (6378237.0, 100.0, 50.0))
        assert kept.clock.to_metres() == (-9.0, 2.0)

    def test_all_versions_are_read(self):
        for version in "234":
            assert epochs_of(PAVED) == epochs_of(PAVED, HEAD.replace("gpscover 1", f"gpscover {version}"))
        for first in "gpscover 0", "gpscover 5", "gpscover 4 ", "gpscover 02", "gpscover":
            with pytest.raises(Error, match="line 1: this isn't a log"):
                epochs_of(PAVED, HEAD.replace("gpscover 1", first))

    def test_each_face_is_cut_at_its_own_end(self):
        ends = [(0, 11), (1, 89), (2, 12), (3, 88), (4, 13), (5, 87)]
        cuts = "".join(f"cut 0 {face} {end}\n" for face, end in ends)
        epoch = epoch_of(f"epoch 1 0 5\nroot 10 10 10 90 90 90\n{cuts}edge 0 0 0\ndone 0\n")
        assert epoch.kept[0].box == (11, 12, 13, 89, 88, 87)

    def test_halves_of_negative_ends_are_floored(self):
        epoch = epoch_of("epoch 1 0 5\nroot -5 0 0 2 1 1\nsplit 0 0\nedge 1 0 0\nedge 2 0 0\ndone 1\n")
        assert [kept.box[::3] for kept in epoch.kept] == [(-5, -2), (-1, 2)]

    def test_the_time_is_a_date(self):
        assert calendar(1388102400 * 10**12) == "2024-01-01 00:00:00.000"
        assert calendar(895816769999000000000) == "2008-05-26 05:59:29.999"

    def test_a_log_that_was_cut_is_refused(self):
        whole = HEAD + PAVED
        for cut in (whole[: whole.index("done")], whole[:-1], whole[: whole.index("root")], whole[:-30]):
            with pytest.raises(Error, match="ends within an epoch"):
                epochs_of(cut[len(HEAD) :])

    def test_a_row_with_what_is_surely_declared(self):
        place = "sat G01 1 2 3 4 5 6 7 8 -90 100"
        plain, mapped = (
            epoch_of(f"epoch 1 0 5\n{row}\nroot 0 0 0 1 1 1\nedge 0 0 0\ndone 0\n").rows[0]
            for row in (place, place + " -80 70")
        )
        for row in plain, mapped:
            assert (row.place, row.range, row.error) == (((1, 2), (3, 4), (5, 6)), (7, 8), (-90, 100))
        assert (plain.sure, mapped.sure) == ((-90, 100), (-80, 70))

    def test_renewed_rows_are_in_use_behind_their_renewal(self):
        (epoch,) = read_epochs(RENEWED)
        assert [row.satellite for row in epoch.rows] == ["G01", "G02", "G03", "G05"]
        assert [row.error[1] for row in epoch.rows] == [5000000, 50000000, 50000000, 5000000]
        (renewal,) = epoch.renewals
        assert (renewal.steps, renewal.box) == (2, (-6000000, -1000000, -1000000, 6250000, 1000000, 1000000))
        assert [row.error[1] for row in renewal.rows] == [1000000, 50000000, 50000000, 1000000]
        (kept,) = epoch.kept
        assert kept.box == (-1000000, -1000000, -1000000, 1000000, 1000000, 1000000)
        assert kept.rows is renewal.rows

    def test_boxes_have_the_rows_that_were_in_use_where_they_were_closed(self):
        text = RENEWED.read_text().replace("renew", "split 0 1\nedge 1 0 0\nrenew").replace("edge 0", "edge 2", 1)
        lines = text.replace("\ncut 0 0 -1000000\ncut 0 1 1000000", "").splitlines(keepends=True)
        again = [*lines[:-2], *lines[12:17], lines[-2], lines[-1]]
        for lines, at in (lines, [0]), (again, [1]):
            epoch = epoch_of("".join(lines[2:]), "".join(lines[:2]))
            assert [renewal.steps for renewal in epoch.renewals] == [4] * len(epoch.renewals)
            assert epoch.kept[0].rows is epoch.rows
            assert [k for k, it in enumerate(epoch.renewals) if it.rows is epoch.kept[1].rows] == at

    def test_renewals_that_are_none(self):
        lines = RENEWED.read_text().splitlines(keepends=True)
        first = lines[11]
        wrong = {
            ("gpscover 1\n", *lines[1:]): 11,
            (*lines[:14], *lines[15:]): 15,
            (*lines[:12], first, *lines[12:]): 16,
            (*lines[:11], "skip G01 1\n", *lines[12:]): 12,
            (*lines[:10], "renew 0 0 0 0 0 x\n", *lines[11:]): 11,
            (*lines[:10], "renew 0 0 0 0 0\n", *lines[11:]): 11,
            (*lines, *lines[10:15]): 20,
        }
        for made, line in wrong.items():
            with pytest.raises(Error, match=f"line {line}: this isn't a log"):
                epochs_of("".join(made[2:]), "".join(made[:2]))
        for count in range(11, 16):
            with pytest.raises(Error, match=f"ends within an epoch, at line {count}"):
                epochs_of("".join(lines[2:count]), "".join(lines[:2]))

    def test_bounds_stand_behind_the_steps(self):
        later = PAVED.replace("epoch 1", "epoch 2")
        few = "few 3 895816779999000000000 3\n"
        one, two, three = epochs_of(PAVED + BOUNDS + later + BOUNDS.replace("50000000000000", "-7") + few, BOUNDED)
        terms = (4, -1048576), (0, 1048575), (2, 1), (2, 0), (2, 0)
        north = Bound((0, 0, 1000000), 50000000000000, [RowSum(17179869184, terms), RowSum(0, ((3, 0),) * 5)])
        space = Bound((0, 0, 0), 0, [RowSum(1, ((0, 0),) * 5)])
        assert one.bounds == [north, space]
        assert [bound.most for bound in two.bounds] == [-7, 0]
        assert (three.index, three.bounds) == (3, [])
        assert (one.kept, two.kept) == (epoch_of(PAVED).kept,) * 2

    def test_a_bound_reaches_as_far_as_its_half_space(self):
        for direction, most, point, reach in (
            ((0, 0, 1000000), 50000000000000, (9e6, -9e6, 0.0), 50),
            ((0, 0, -1000000), 50000000000000, (9e6, -9e6, 0.0), 50),
            ((0, 0, 1000000), 50000000000000, (0, 0, 50.25), -0.25),
            # 3 x + 4 y is at most 10 m there, so 2 m along a direction of that length; a um less is told too.
            ((3, 4, 0), 10000000, (0, 0, 7), 2),
            ((3, 4, 0), 10000000, (6378137, -4783602.75, 0), 2),
            ((1000000, 0, 0), 6378137000001000000, (6378137, 0, 0), 1e-6),
            ((0, 0, 0), 0, (1, 2, 3), math.inf),
            ((0, 0, 0), -1, (1, 2, 3), -math.inf),
        ):
            assert Bound(direction, most, []).reach(point) == pytest.approx(reach, abs=1e-12)

    def test_bounds_that_are_none(self):
        head, by = BOUNDS.splitlines(keepends=True)[:2]
        bound = head.replace("2\n", "1\n")
        behind = 2 + PAVED.count("\n")
        for more, line in (
            (by, 1),
            (bound + bound + by, 2),
            (bound + by + by, 3),
            (head + by + "done 2\n", 3),
            (head + by + "few 2 0 0\n", 3),
            (bound.replace(" 1\n", " 0\n"), 1),
            (bound.replace(" 1\n", " 65\n") + by * 65, 1),
            (bound.replace(" 1\n", "\n") + by, 1),
            (bound.replace("1000000", "x") + by, 1),
            (bound + by[:-1] + " 0\n", 2),
            (bound + by.replace(" 2 0\n", "\n"), 2),
            (bound + "by 1 0 0 0 0 0 0 0 0 0 x\n", 2),
        ):
            with pytest.raises(Error, match=f"line {behind + line}: this isn't a log"):
                epochs_of(PAVED + more, BOUNDED)
        for head_line in HEAD, HEAD.replace("gpscover 1", "gpscover 3"):
            with pytest.raises(Error, match=f"line {behind + 1}: this isn't a log"):
                epochs_of(PAVED + BOUNDS, head_line)
        with pytest.raises(Error, match=f"line {behind}: this isn't a log"):
            epochs_of(PAVED.replace("done", bound + by + "done"), BOUNDED)
        for more, count in (bound, 1), (head + by, 2), (bound + by[:-1], 2):
            with pytest.raises(Error, match=f"ends within an epoch, at line {behind + count}"):
                epochs_of(PAVED + more, BOUNDED)

    def test_what_reads_logs_reads_those_with_bounds(self):
        for module, *options in (
            (summary,),
            (summary, "--csv"),
            (export, "out.csv"),
            (export, "out.geojson"),
            (export, "out.kml"),
            (page, "out.html"),
        ):
            said = []
            for text in HEAD + PAVED, BOUNDED + PAVED + BOUNDS:
                with written(log=text) as (path,):
                    files = [path.parent / name if name[0] == "o" else name for name in options]
                    status, out, err = ended_with(module, path, *files)
                    made = [file.read_text() for file in path.parent.glob("out*")]
                    said.append([status, *(it.replace(str(path.parent), "") for it in (out, err, *made))])
            assert said[0][0] == 0
            # These bounds have no end on all sides. A table of such a log has one column more.
            assert said[0] == [re.sub(r"(?m),(certified|0)$", "", it) if isinstance(it, str) else it for it in said[1]]

    def test_what_is_no_log_is_refused_at_its_line(self):
        wrong = {
            "epoch 1 0 5\nsat G01 0 0 0 0 0 0 0 0 0 0 0\nroot 0 0 0 1 1 1\nedge 0 0 0\ndone 0\n": 4,
            "epoch 1 0 5\nsat G01 0 0 0 0 0 0 0 0 0 0 0 0 0 0\nroot 0 0 0 1 1 1\nedge 0 0 0\ndone 0\n": 4,
            "epoch 1 0 5\nroot 0 0 0 1 1 1\nedge 7 0 0\ndone 0\n": 5,
            "epoch 1 0 5\nroot 0 0 0 1 1 1\nedge 0 0 x\ndone 0\n": 5,
            "epoch 1 0 5\nroot 0 0 0 1 1 1\npaint 0\ndone 0\n": 5,
            "epoch 1 0 5\nsat G01 0 0 0\nroot 0 0 0 1 1 1\nedge 0 0 0\ndone 0\n": 4,
            "edge 0 0 0\n": 3,
        }
        for text, line in wrong.items():
            with pytest.raises(Error, match=f"line {line}: this isn't a log"):
                epochs_of(text)

    def test_another_file_is_refused(self):
        with pytest.raises(Error, match="line 1: this isn't a log"):
            list(read_epochs(__file__))
