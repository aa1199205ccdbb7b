"""Forged logs and rows, each with the answer that docs/LOG.md gives.

There is at least one forged log for every number of a verdict, and for every kind of refusal 40 on a log with `cut`,
`in` and `skip` lines. Each expected answer was found by hand from docs/LOG.md, and none by the program.
"""
import collections
import itertools
import re
import tempfile
from pathlib import Path

from gpscover.log import epochs

TOP = Path(__file__).resolve().parents[1]
# Four satellites, and a box of some two metres that is closed at the edge.
ONE_BOX = (TOP / "examples/one-edge-box.log").read_text().splitlines()
# Four satellites on the x, y and z axes, whose rows are renewed behind the second of four cuts: those of G01 and G05 by a
# fifth of their errors. At a point x metres along the x axis the clock offset is within x - e to x + e by G01 and from -x - e
# to -x + e by G05, with e of 5 m by the first rows and of 1 m by the renewed ones; all of it within 0.1 mm. G02 and G03 leave
# 49 m. So a slab beyond |x| = e is shown empty, and the clock hull of the last box is within 2 m.
RENEWED = (TOP / "examples/renewed-rows.log").read_text().splitlines()
DATA = TOP / "crates/gpscover/data"

# Five satellites of which one may fail, 20,000 km away on the axes, on the diagonal of x and y with 0.6 and 0.8, and
# below; errors of up to a metre. The y and z of the root are within 0.9 m. So at a point x metres along the x axis the
# clock offset is within some 1.9 m by G02, G03 and G05, from x - 1 to x + 1 by G01, and from 0.6 * x - 1.72 to
# 0.6 * x + 1.72 by G04, all give or take 0.1 mm. A box beyond x = 6.04 is shown empty, as neither G01 nor G04 agrees
# with the other three. Box 5, within a metre of the origin, is inner at the clock 0: G04 alone fails there. Its clock
# hull is within 1900000 um. The spans of boxes 4 and 6 are wider than they need be.
WITH_ALL = """\
gpscover 1
rules 1 3 1000000
few 1 1000000000000 2
skip G03 3
skip G08 6 20
epoch 4 2000000000000 5
sat G01 20000000000000 20000000000000 0 0 0 0 20000000000000 20000000000000 -1000000 1000000
skip G09 1
sat G02 0 0 20000000000000 20000000000000 0 0 20000000000000 20000000000000 -1000000 1000000
sat G03 0 0 0 0 20000000000000 20000000000000 20000000000000 20000000000000 -1000000 1000000
sat G04 12000000000000 12000000000000 16000000000000 16000000000000 0 0 20000000000000 20000000000000 -1000000 1000000
skip G32 6 1
sat G05 0 0 0 0 -20000000000000 -20000000000000 20000000000000 20000000000000 -1000000 1000000
root -1000000 -900000 -900000 27000000 900000 900000
cut 0 1 15000000
split 0 0
out 2
split 1 0
cut 4 1 6500000
edge 4 -3000000 3000000
split 3 0
in 5 0 -1900000 1900000
edge 6 -3000000 3000000
done 3
""".splitlines()
FEW, EPOCH, ROOT, DONE = 3, 6, 14, 24

Forged = collections.namedtuple("Forged", "name command data answer")

# What has to come at least once.
WANTED = {f"no {number}" for number in range(50, 67)}
WANTED |= {f"log 40 kind {kind}" for kind in range(1, 5)} | {f"rows 40 kind {kind}" for kind in range(1, 6)}


def text(lines):
    """The bytes of a log of these lines."""
    return "".join(line + "\n" for line in lines).encode()


def put(lines, number, *new):
    """The lines with others in the place of the one of this number."""
    return [*lines[: number - 1], *new, *lines[number:]]


def before(lines, number, *new):
    """The lines with others in front of the one of this number."""
    return put(lines, number, *new, lines[number - 1])


def changed(lines, changes):
    """The lines with another one at each of these numbers."""
    for number, line in changes.items():
        lines = put(lines, number, line)
    return lines


# ---- one box

HALVES = put(changed(ONE_BOX, {2: "rules 0 1 1000000", 10: "done 1"}), 9, "split 0 0", "edge 1 -1400000 500000",
             "edge 2 -499999 1400000")


def one_box_logs():
    """Changes of the log of one box, and of the same box in halves."""
    for lines, number, new, answer in (
        (ONE_BOX, 9, ["edge 0 -1400000 1400000"], "yes 1"),
        (ONE_BOX, 9, ["edge 0 -1400000 1400000"] * 2, "no 56 NotLive line 10"),
        (ONE_BOX, 9, ["split 1 0"], "no 56 NotLive line 9"),
        (ONE_BOX, 9, ["edge 1 0 0"], "no 56 NotLive line 9"),
        (ONE_BOX, 9, ["split 0 0"], "no 62 OverBudget line 9"),
        (ONE_BOX, 9, ["edge 0 -0 5"], "log 40 BadLog line 9 kind 3"),
        (ONE_BOX, 9, ["edge 0 -1400000 1400001"], "yes 1"),
        (ONE_BOX, 9, ["edge 0 -1399999 1400000"], "no 60 ClockNarrow line 9"),
        (ONE_BOX, 9, ["edge 0 -1400000 1399999"], "no 60 ClockNarrow line 9"),
        (ONE_BOX, 9, ["out 0"], "no 58 OutNotShown line 9"),
        (ONE_BOX, 9, [], "no 63 NotClosed line 9"),
        (ONE_BOX, 4, [ONE_BOX[3].replace("G01", "G02")], "no 52 SatelliteDiffers line 5"),
        (ONE_BOX, 2, ["rules 1 0 1000000"], "no 51 EpochDiffers line 3"),
        (HALVES, 2, ["rules 0 1 1000000"], "yes 2"),
        (HALVES, 2, ["rules 0 0 1000000"], "no 62 OverBudget line 9"),
        (HALVES, 2, ["rules 0 1 3000000"], "no 61 BadSplit line 9"),
        (HALVES, 2, ["rules 0 1 2000000"], "no 61 BadSplit line 9"),
        (HALVES, 2, ["rules 0 1 1999999"], "yes 2"),
        (HALVES, 12, ["done 2"], "no 64 CountDiffers line 12"),
        (HALVES, 10, ["edge 1 -1400000 499999"], "no 60 ClockNarrow line 10"),
    ):
        yield f"line {number} {new}", "judge", text(put(lines, number, *new)), answer
    # What is sure doesn't change the clock spans; its ends may cross.
    for sure in ("-400000 400000", "-500000 499999", "-499999 500000", "500000 -500000",
                 "1000000000000 -1000000000000"):
        yield f"sure {sure}", "judge", text(put(ONE_BOX, 4, f"{ONE_BOX[3]} {sure}")), "yes 1"
    # The range of G01 is 10 m longer: its offsets are from 8.5 m to 11.5 m, those of G02 and G03 within 1.4 m.
    far = ONE_BOX[3].replace(" 20000000000000 20000000000000 -", " 20000010000000 20000010000000 -")
    yield "nothing fits", "judge", text(changed(ONE_BOX, {4: far, 9: "out 0"})), "yes 0"
    few = ["gpscover 1", "rules 1 0 1000000", "few 1 1388102400000000000000 4"]
    yield "few alone", "judge", text(few), "yes 0"
    yield "no bytes", "judge", b"", "log 40 BadLog line 1 kind 4"


# ---- verdicts on the log with all kinds of lines

VERDICTS = (
    # 51: the index, and few or not; where 52 fails too, 51 is the lesser.
    ({3: "few 4 1000000000000 2"}, "no 51 EpochDiffers line 6"),
    ({3: "few 5 1000000000000 2"}, "no 51 EpochDiffers line 6"),
    ({3: "few 3 1000000000000 2"}, "yes 3"),
    ({3: "few 1 9000000000000 2"}, "yes 3"),
    ({3: "few 1 1000000000000 5"}, "no 51 EpochDiffers line 3"),
    ({3: "few 1 1000000000000 4"}, "yes 3"),
    ({6: "epoch 4 2000000000000 4"}, "no 51 EpochDiffers line 6"),
    ({2: "rules 2 3 1000000"}, "no 51 EpochDiffers line 6"),
    # 52: the number of rows, and satellites that are named twice, in one epoch alone.
    ({6: "epoch 4 2000000000000 6"}, "no 52 SatelliteDiffers line 6"),
    ({5: "skip G03 6 20"}, "no 52 SatelliteDiffers line 5"),
    ({8: "skip G01 1"}, "no 52 SatelliteDiffers line 8"),
    ({12: "skip G09 6 1"}, "no 52 SatelliteDiffers line 12"),
    ({13: WITH_ALL[12].replace("G05", "G09")}, "no 52 SatelliteDiffers line 13"),
    ({8: "skip G08 6 20"}, "yes 3"),
    # 56: boxes that were never opened, are split or are closed.
    ({15: "cut 1 1 15000000"}, "no 56 NotLive line 15"),
    ({16: "split 1 0"}, "no 56 NotLive line 16"),
    ({17: "out 0"}, "no 56 NotLive line 17"),
    ({20: "edge 2 -3000000 3000000"}, "no 56 NotLive line 20"),
    ({22: "in 3 0 -1900000 1900000"}, "no 56 NotLive line 22"),
    ({22: "in 7 0 -1900000 1900000"}, "no 56 NotLive line 22"),
    ({23: "edge 400000 -3000000 3000000"}, "no 56 NotLive line 23"),
    # 57: nothing is taken off, nothing is left, and a slab that isn't shown empty.
    ({15: "cut 0 1 27000000"}, "no 57 CutNotShown line 15"),
    ({15: "cut 0 1 27000001"}, "no 57 CutNotShown line 15"),
    ({15: "cut 0 0 -1000000"}, "no 57 CutNotShown line 15"),
    ({15: "cut 0 0 -1000001"}, "no 57 CutNotShown line 15"),
    ({15: "cut 0 1 -1000001"}, "no 57 CutNotShown line 15"),
    ({15: "cut 0 0 27000001"}, "no 57 CutNotShown line 15"),
    ({15: "cut 0 1 5000000"}, "no 57 CutNotShown line 15"),
    ({15: "cut 0 0 -500000"}, "no 57 CutNotShown line 15"),
    ({15: "cut 0 2 0"}, "no 57 CutNotShown line 15"),
    ({15: "cut 0 3 0"}, "no 57 CutNotShown line 15"),
    ({15: "cut 0 4 0"}, "no 57 CutNotShown line 15"),
    ({15: "cut 0 5 0"}, "no 57 CutNotShown line 15"),
    ({19: "cut 4 1 7000000"}, "no 57 CutNotShown line 19"),
    ({19: "cut 4 1 5000000"}, "no 57 CutNotShown line 19"),
    # 58 to 60: closed boxes.
    ({20: "out 4"}, "no 58 OutNotShown line 20"),
    ({22: "out 5"}, "no 58 OutNotShown line 22"),
    ({22: "in 5 1 -1900000 1900000"}, "no 59 InNotShown line 22"),
    ({22: "in 5 -1 -1900000 1900000"}, "no 59 InNotShown line 22"),
    ({22: "in 5 1 0 0"}, "no 59 InNotShown line 22"),
    ({23: "in 6 0 -3000000 3000000"}, "no 59 InNotShown line 23"),
    ({17: "in 2 0 0 0"}, "no 59 InNotShown line 17"),
    ({22: "in 5 0 -1899999 1900000"}, "no 60 ClockNarrow line 22"),
    ({22: "in 5 0 -1900000 1899999"}, "no 60 ClockNarrow line 22"),
    ({22: "in 5 0 -200000000000000 200000000000000"}, "yes 3"),
    ({22: "edge 5 -1899999 1900000"}, "no 60 ClockNarrow line 22"),
    ({22: "edge 5 -1900000 1900000"}, "yes 3"),
    ({20: "edge 4 2500000 3000000"}, "no 60 ClockNarrow line 20"),
    ({23: "edge 6 -3000000 1500000"}, "no 60 ClockNarrow line 23"),
    # G01 is needed at the clock 0 of box 5, which is within a metre along x: all of its error has to be sure.
    ({7: WITH_ALL[6] + " -1000000 999999"}, "no 59 InNotShown line 22"),
    ({7: WITH_ALL[6] + " -999999 1000000"}, "no 59 InNotShown line 22"),
    ({7: WITH_ALL[6] + " 1000000 -1000000", 22: "edge 5 -1900000 1900000"}, "yes 3"),
    # G04 isn't needed there; of G02, 0.9 m are enough, give or take 0.1 mm.
    ({11: WITH_ALL[10] + " 0 0"}, "yes 3"),
    ({9: WITH_ALL[8] + " -901000 901000"}, "yes 3"),
    ({9: WITH_ALL[8] + " -899000 901000"}, "no 59 InNotShown line 22"),
    ({9: WITH_ALL[8] + " -901000 899000"}, "no 59 InNotShown line 22"),
    # A satellite that is skipped since the search box comes too near to the origin.
    ({4: "skip G03 7", 8: "skip G09 7", 12: "skip G32 7"}, "yes 3"),
    # Those that a station doesn't have, and of which the codes are far from its own.
    ({4: "skip G03 8", 8: "skip G09 9"}, "yes 3"),
    # A hull that is none is held by any span.
    ({17: "edge 2 5 5"}, "yes 4"),
    # 61 and 62: both fail where the third split is no longer allowed for either reason.
    ({2: "rules 1 3 4000000"}, "no 61 BadSplit line 21"),
    ({2: "rules 1 3 3999999"}, "yes 3"),
    ({2: "rules 1 3 16000000"}, "no 61 BadSplit line 16"),
    ({2: "rules 1 2 4000000"}, "no 61 BadSplit line 21"),
    ({2: "rules 1 2 1000000"}, "no 62 OverBudget line 21"),
    ({2: "rules 1 0 1000000"}, "no 62 OverBudget line 16"),
    ({2: "rules 1 200000 1000"}, "yes 3"),
    # 64
    ({24: "done 2"}, "no 64 CountDiffers line 24"),
    ({24: "done 4"}, "no 64 CountDiffers line 24"),
    # The first line that fails decides.
    ({24: "done 2", 20: "out 4", 5: "skip G03 6 20"}, "no 52 SatelliteDiffers line 5"),
    ({24: "done 2", 20: "out 4"}, "no 58 OutNotShown line 20"),
)


# Of the box of some two metres, G02 in the place of G01, with a range that is longer by so much. Its offsets at each
# point are as much greater, give or take a metre. The clock spans over the box are 1.5 m to both sides of their middles.
TWO_RANGES = (
    (1_100_000, "out 0", "no 58 OutNotShown line 9", "yes 0"),
    (900_000, "out 0", "no 58 OutNotShown line 9", "no 58 OutNotShown line 9"),
    (1_100_000, "cut 0 1 0", "no 57 CutNotShown line 9", "no 63 NotClosed line 10"),
    (900_000, "cut 0 1 0", "no 57 CutNotShown line 9", "no 57 CutNotShown line 9"),
    (1_100_000, "edge 0 -1500000 2600000", "yes 1", "yes 1"),
)


def pair_logs():
    """Logs of both versions with boxes that pairs of rows show empty, or don't."""
    yield "with all, by pairs", "judge", text(changed(WITH_ALL, {1: "gpscover 3"})), "yes 3"
    yield "no epochs, by pairs", "judge", text(["gpscover 3", WITH_ALL[1]]), "yes 0"
    for more, step, *answers in TWO_RANGES:
        length = 20000000000000 + more
        row = ONE_BOX[3].replace("G01", "G02").replace(" 20000000000000 20000000000000 -", f" {length} {length} -")
        for version, answer in zip((1, 3), answers):
            lines = changed(ONE_BOX, {1: f"gpscover {version}", 5: row, 9: step})
            yield f"version {version}, {more} um more, {step}", "judge", text(lines), answer


# ---- renewals

RENEW = 11  # its line in RENEWED, behind which come as many rows as in front of the root
NEW_ROWS = RENEWED[RENEW : RENEW + 4]
OLD_ROWS = RENEWED[3:7]
BOX = (-6000000, -1000000, -1000000, 6250000, 1000000, 1000000)  # what the first two cuts leave
SEARCH = (-8000000, -1000000, -1000000, 8000000, 1000000, 1000000)
CUTS_LEAVE = "edge 0 -11000000 11000000"  # of BOX, by the first rows
MANY = 50_000


def renew_line(ends, k=0, by=0):
    """The line of a renewal over a box, of which one end is so much off."""
    return " ".join(["renew", *(str(end + by * (place == k)) for place, end in enumerate(ends))])


def renewal(ends=BOX, rows=NEW_ROWS):
    """The lines of a renewal."""
    return [renew_line(ends), *rows]


def with_renewals(*renewals, behind=()):
    """The log with these lines between its first two cuts and its `done`."""
    return [*RENEWED[: RENEW - 1], *(line for lines in renewals for line in lines), *behind, RENEWED[-1]]


def renewed_boxes():
    """Boxes of renewals, which have to lie in the root and to hold each live box."""
    for k in range(6):
        inward = 1 if k < 3 else -1
        yield put(RENEWED, RENEW, renew_line(BOX, k, inward)), f"no 65 BadRenew line {RENEW}"
        yield put(RENEWED, RENEW, renew_line(SEARCH, k, -inward)), f"no 65 BadRenew line {RENEW}"
    yield put(RENEWED, RENEW, renew_line(SEARCH)), "yes 1"
    for k, outward in (0, -1), (3, 1):
        yield put(RENEWED, RENEW, renew_line(BOX, k, outward)), "yes 1"
    # Of two halves both have to lie in it, and only one that was closed needn't. The rules have a split then.
    halves = changed(RENEWED, {2: "rules 0 1 1000000", len(RENEWED): "done 1"})
    halves = [*halves[:10], "split 0 0", *halves[10:15], *(f"edge {k} -11000000 11000000" for k in (1, 2)), halves[-1]]
    low, high = (*BOX[:3], 125000, *BOX[4:]), (125001, *BOX[1:])
    yield halves, "yes 2"
    for half in low, high:
        yield put(halves, 12, renew_line(half)), "no 65 BadRenew line 12"
    first = [*halves[:11], halves[16], *halves[11:16], *halves[17:]]
    for half, answer in (high, "yes 2"), (low, "no 65 BadRenew line 13"), ((*high[:3], 125001, *high[4:]), None):
        yield put(first, 13, renew_line(half)), answer or "no 65 BadRenew line 13"
    # No box is live at the end.
    last = [CUTS_LEAVE, *renewal((0,) * 6)]
    yield with_renewals(last), "yes 1"
    yield with_renewals([CUTS_LEAVE, *renewal((8000001, 0, 0, 8000001, 0, 0))]), "no 65 BadRenew line 12"


def renewed_as_before():
    """Renewals with the first rows again."""
    again = with_renewals(renewal(rows=OLD_ROWS), behind=[CUTS_LEAVE])
    yield again, "yes 1"
    yield put(again, 1, "gpscover 1"), "log 40 BadLog line 11 kind 2"
    yield put(again, 11, again[10].replace("-6000000", "-5999999")), "no 65 BadRenew line 11"
    yield put(again, 14), "log 40 BadLog line 15 kind 2"
    yield put(again, 12, again[11].replace("G01", "G04")), "no 52 SatelliteDiffers line 12"


def renewed_satellites():
    """Rows of renewals: of the same satellites in the same order, as many, and the last ones are those in use."""
    yield put(RENEWED, 12, NEW_ROWS[0].replace("G01", "G04")), "no 52 SatelliteDiffers line 12"
    yield changed(RENEWED, {14: NEW_ROWS[3], 15: NEW_ROWS[2]}), "no 52 SatelliteDiffers line 14"
    yield put(RENEWED, 13, NEW_ROWS[0]), "no 52 SatelliteDiffers line 13"
    yield put(RENEWED, 15, NEW_ROWS[3].replace("G05", "E05")), "no 52 SatelliteDiffers line 15"
    yield put(RENEWED, 15, NEW_ROWS[3] + " 0 0"), "yes 1"
    # Each row is as it is said, without the files: a row of another place, and its offsets, are taken.
    far = NEW_ROWS[0].replace("20000000000000 20000000000000 -", "20000010000000 20000010000000 -")
    yield put(RENEWED, 12, far), "no 57 CutNotShown line 16"
    yield with_renewals(renewal(rows=[far, *NEW_ROWS[1:]]), behind=["out 0"]), "no 58 OutNotShown line 16"
    farther = far.replace("20000010000000", "20000013000000")
    yield with_renewals(renewal(rows=[farther, *NEW_ROWS[1:]]), behind=["out 0"]), "no 58 OutNotShown line 16"
    farthest = far.replace("20000010000000", "20000063000000")
    yield with_renewals(renewal(rows=[farthest, *NEW_ROWS[1:]]), behind=["out 0"]), "yes 0"


def rows_in_use():
    """Steps that only the rows in use show, or don't."""
    yield before(RENEWED, RENEW, "cut 0 1 1000000"), f"no 57 CutNotShown line {RENEW}"
    yield before(RENEWED, RENEW, "cut 0 1 5000000"), "yes 1"
    yield put(RENEWED, 16, "cut 0 0 -999999"), "no 57 CutNotShown line 16"
    yield put(RENEWED, 18, "edge 0 -1999999 2000000"), "no 60 ClockNarrow line 18"
    yield put(RENEWED, 18, "edge 0 -2000000 1999999"), "no 60 ClockNarrow line 18"
    yield put(RENEWED, 18, "in 0 0 -2000000 2000000"), "yes 1"
    yield put(RENEWED, 18, "in 0 1 -2000000 2000000"), "no 59 InNotShown line 18"
    closed = [CUTS_LEAVE, CUTS_LEAVE.replace("11000000 ", "10999999 ")]
    for edge, answer in zip(closed, ("yes 1", "no 60 ClockNarrow line 11")):
        yield with_renewals([edge]), answer
    # By the renewed rows the clock hull of the same box reaches 4 m less far to both sides.
    for ends, answer in (("-7000000 7000000", "yes 1"), ("-6999999 7000000", "no 60 ClockNarrow line 16"),
                         ("-7000000 6999999", "no 60 ClockNarrow line 16")):
        yield with_renewals(renewal(), behind=[f"edge 0 {ends}"]), answer
    # They may be renewed in front of the first step, with the root.
    rest = RENEWED[15:18]
    for rows, answer in (OLD_ROWS, "no 57 CutNotShown line 16"), (NEW_ROWS, "yes 1"):
        yield [*RENEWED[:8], *renewal(SEARCH, rows), *RENEWED[8:10], *rest, RENEWED[-1]], answer
    # Rows may be wider than those before, and the box larger.
    yield with_renewals(renewal(), renewal(), behind=rest), "yes 1"
    yield with_renewals(renewal(rows=OLD_ROWS), renewal(), behind=rest), "yes 1"
    yield with_renewals(renewal(), renewal(rows=OLD_ROWS), behind=rest), "no 57 CutNotShown line 21"
    yield with_renewals(renewal(), renewal(SEARCH), behind=rest), "yes 1"
    yield with_renewals(renewal(), renewal((*BOX[:5], 999999)), behind=rest), "no 65 BadRenew line 16"
    # What is sure is that of the rows in use: with errors of 3 m a box is inner at the offset 0 up to |x| = 3 m.
    wide = [row.replace("-1000000 1000000", "-3000000 3000000") for row in NEW_ROWS]
    less = [wide[0] + " -2999999 3000000", *wide[1:]]
    for rows, low, answer in (wide, 3000000, "yes 1"), (wide, 3000001, "no 59 InNotShown line 18"), (
            less, 3000000, "no 59 InNotShown line 18"):
        steps = [f"cut 0 0 -{low}", "cut 0 1 3000000", "in 0 0 -7000000 7000000"]
        yield with_renewals(renewal(rows=rows), behind=steps), answer
    narrow = [*rest[:2], *renewal(rows=wide)]
    yield with_renewals(renewal(), behind=[*narrow, "in 0 2000000 -4000000 4000000"]), "yes 1"
    yield with_renewals(renewal(), behind=[*rest[:2], "in 0 2000000 -4000000 4000000"]), "no 59 InNotShown line 18"


def many_renewals():
    """Very many renewals, and very many rows."""
    rest = RENEWED[15:18]
    many = [renewal()] * MANY
    yield with_renewals(*many, behind=rest), "yes 1"
    bad = [renew_line(BOX, 0, 1), *NEW_ROWS]
    yield with_renewals(*many, bad, behind=rest), f"no 65 BadRenew line {RENEW + 5 * MANY}"
    yield with_renewals(*many, renewal(rows=OLD_ROWS), behind=rest), f"no 57 CutNotShown line {RENEW + 5 * (MANY + 1)}"
    yield with_renewals(*many, behind=rest)[:-1], f"log 40 BadLog line {RENEW + 5 * MANY + 3} kind 4"
    # 64 rows in front of the root, and behind each renewal.
    names = [f"G{number:02}" for number in range(6, 66)]
    old, new = ([*rows, *(rows[1].replace("G02", name) for name in names)] for rows in (OLD_ROWS, NEW_ROWS))
    head = [*RENEWED[:2], RENEWED[2][:-1] + "64", *old, *RENEWED[7:10]]
    yield [*head, *renewal(rows=new), *renewal(rows=new), *rest, RENEWED[-1]], "yes 1"
    yield [*head, *renewal(rows=[*new, new[-1]]), *rest, RENEWED[-1]], "log 40 BadLog line 136 kind 2"
    # Lines of satellites that aren't used don't count behind the root.
    skips = [f"skip {name} 1" for name in names]
    yield [*RENEWED[:7], *skips, *RENEWED[7:]], "yes 1"


def renewals_that_do_not_fit():
    """Renewals where none may stand, and lines that don't fit."""
    kind_2 = f"log 40 BadLog line {RENEW} kind 2"
    yield put(RENEWED, 1, "gpscover 1"), kind_2
    yield put(RENEWED, 1, "gpscover 3"), "yes 1"
    for line in ("renew", "renew ", "renew -6000000 -1000000 -1000000 6250000 1000000", renew_line(BOX) + " 0",
                 renew_line(BOX) + " ", renew_line(BOX).replace(" ", "  ", 1), renew_line(BOX) + "\r",
                 "renew 6250001 -1000000 -1000000 6250000 1000000 1000000", renew_line(BOX, 5, 10**13),
                 renew_line(BOX, 0, -(10**13)), "renew -06000000 -1000000 -1000000 6250000 1000000 1000000"):
        yield put(RENEWED, RENEW, line), f"log 40 BadLog line {RENEW} kind 3"
    for line in "Renew" + renew_line(BOX)[5:], " " + renew_line(BOX), renew_line(BOX).replace(" ", "\t", 1), "renews":
        yield put(RENEWED, RENEW, line), kind_2
    for number in 3, 4, 8:
        yield before(RENEWED, number, renew_line(BOX)), f"log 40 BadLog line {number} kind 2"
    yield [*RENEWED, *renewal()], "log 40 BadLog line 20 kind 2"
    yield [*RENEWED, "few 2 1388102400000000000000 0", renew_line(BOX)], "log 40 BadLog line 21 kind 2"
    # Among the rows there is nothing else, and they are as many as those in front of the root.
    for line in "skip G05 1", "cut 0 0 -1000000", "done 0", renew_line(BOX), "epoch 2 0 4", "root 0 0 0 0 0 0", "":
        for number in 12, 15:
            yield put(RENEWED, number, line), f"log 40 BadLog line {number} kind 2"
    yield put(RENEWED, 15), "log 40 BadLog line 15 kind 2"
    yield before(RENEWED, 16, NEW_ROWS[3]), "log 40 BadLog line 16 kind 2"
    yield before(RENEWED, 18, NEW_ROWS[3]), "log 40 BadLog line 18 kind 2"
    yield put(RENEWED, 13, NEW_ROWS[1] + " 0"), "log 40 BadLog line 13 kind 3"
    yield put(RENEWED, 13, NEW_ROWS[1].replace(" 0 0 ", " 1 0 ", 1)), "log 40 BadLog line 13 kind 3"
    for count in range(RENEW, RENEW + 5):
        yield RENEWED[:count], f"log 40 BadLog line {count + 1} kind 4"
    # The number of the rows is that of line 3, whatever a test says of it; there may be none.
    none = [*RENEWED[:2], RENEWED[2][:-1] + "0", RENEWED[7], renew_line(SEARCH), "edge 0 0 0", "done 0"]
    yield none, "no 51 EpochDiffers line 3"
    yield before(none, 6, NEW_ROWS[0]), "log 40 BadLog line 6 kind 2"
    yield put(RENEWED, 3, RENEWED[2][:-1] + "5"), "log 40 BadLog line 16 kind 2"
    yield put(RENEWED, 3, RENEWED[2][:-1] + "3"), "log 40 BadLog line 15 kind 2"


def pairs_by_renewed_rows():
    """Two rows of one place that are renewed with ranges so far apart that pairs of rows show the box empty."""
    row = ONE_BOX[3].replace("G01", "G02")
    far = row.replace(" 20000000000000 20000000000000 -", " 20000001100000 20000001100000 -")
    rows = [ONE_BOX[3], row, *ONE_BOX[5:7]]
    box = "renew" + ONE_BOX[7][4:]
    head = [*ONE_BOX[:3], *rows, ONE_BOX[7]]
    new = [ONE_BOX[3], far, *ONE_BOX[5:7]]
    for version, answer in (2, "no 58 OutNotShown line 14"), (3, "yes 0"):
        yield put([*head, box, *new, "out 0", "done 0"], 1, f"gpscover {version}"), answer
        yield put([*head[:4], far, *head[5:], box, *rows, "out 0", "done 0"], 1, f"gpscover {version}"), ("no 58 OutNotShown line 14")


def short_renewals():
    """All logs with renewals but the longest ones, each with what `judge` says of it."""
    yield RENEWED, "yes 1"
    for table in (renewed_boxes, renewed_as_before, renewed_satellites, rows_in_use, renewals_that_do_not_fit,
                  pairs_by_renewed_rows):
        yield from table()


def renewal_logs():
    """Logs with renewals."""
    for table in short_renewals, many_renewals:
        for number, (lines, answer) in enumerate(table()):
            yield f"{table.__name__} {number}", "judge", text(lines), answer
    rows = RENEWED[:8]
    yield "rows of version 2", "pave", text(rows), "rows 40 BadLog line 1 kind 1"
    yield "rows with a renewal", "pave", text(put(rows, 1, "gpscover 3") + renewal()), "rows 40 BadLog line 9 kind 2"


# ---- bounds

# Of the one box: x - y is at most a metre by G01 and G02. docs/LOG.md works out that their difference shows 1000003 um and no um
# less; the box by itself leaves 1.9 m. In the corner farthest along the direction there are 2513882 to spare for the aim, which
# loses 899996 there by each that it is greater, and in the one opposite 2900004 by each that it is less.
DIFFERENCE = "bound 1 -1 0 1000003 1"
BY_TWO = "by 4194304 0 -1 1 1 0 0 0 0 0 0"
BOUNDED = put(ONE_BOX, 1, "gpscover 4")
BOUND_LINE = len(BOUNDED) + 1
UNSHOWN = "no 66 BoundNotShown line"
BEYOND = 2 * 10**20  # what AIM or MOST may be
# In the log with all kinds of lines the kept boxes reach from -1 m to 6.5 m along x, and 0.9 m along y and z.
ALL_BOUNDED = put(WITH_ALL, 1, "gpscover 4")
ALL_BOUND_LINE = len(ALL_BOUNDED) + 1
ENDS = {(1, 0, 0): 6500000, (-1, 0, 0): 1000000, (0, 1, 0): 900000, (0, 0, -1): 900000, (-2, 3, 0): 4700000}


def bound(direction, most, *sums):
    """The lines of a bound."""
    return [" ".join(["bound", *map(str, (*direction, most, len(sums)))]), *sums]


def nothing(place=0, aim=1):
    """A sum in which no row is taken at all. So it shows what is so in each corner of the box, while the row at this place
    isn't left out."""
    return f"by {aim}" + f" {place} 0" * 5


def sums_of_two_rows():
    """Bounds of the one box by the difference of two rows."""
    yield [], "yes 1"
    yield [DIFFERENCE, BY_TWO], "yes 1"
    yield [DIFFERENCE, BY_TWO] * 2, "yes 1"
    yield [DIFFERENCE.replace("1000003", "1000002"), BY_TWO], f"{UNSHOWN} {BOUND_LINE}"
    yield [DIFFERENCE, BY_TWO, DIFFERENCE.replace("1000003", "999999"), BY_TWO], f"{UNSHOWN} {BOUND_LINE + 2}"
    yield [DIFFERENCE.replace("1000003", "9" + 18 * "0"), BY_TWO], "yes 1"
    yield [DIFFERENCE.replace("1000003", "-9" + 18 * "0"), BY_TWO], f"{UNSHOWN} {BOUND_LINE}"
    # The other way round, along other axes, and twice as long, by as many times the same rows.
    for direction, by in (
        ("-1 1 0", "by 4194304 0 1 1 -1 0 0 0 0 0 0"), ("1 0 -1", "by 4194304 0 -1 2 1 0 0 0 0 0 0"),
        ("0 1 -1", "by 4194304 0 0 1 -1 2 1 2 0 2 0"), ("1 -1 0", "by 4194304 1 1 3 0 3 0 2 0 0 -1"),
        ("1 -1 0", "by 4194304 0 -3 1 1 0 1 0 1 1 0"), ("1 -1 0", "by 4194304000000 0 -1000000 1 1000000 0 0 0 0 0 0"),
        ("1 -1 0", "by 4398046511104 0 -1048576 1 1048576 0 0 0 0 0 0"),
        ("1000000 -1000000 0", "by 4194304 0 -1000000 1 1000000 0 0 0 0 0 0"),
    ):
        scale = abs(int(direction.split()[0])) or 1
        for most, answer in (1000010, "yes 1"), (999990, f"{UNSHOWN} {BOUND_LINE}"):
            if "0 -3" in by and answer[0] == "y":  # the ends of G01 are taken twice
                most = 3000010
            yield [f"bound {direction} {most * scale} 1", by], answer
    # What isn't the difference: an aim or a direction that is off, rows that don't add up to none, other rows, none.
    yield [DIFFERENCE, BY_TWO.replace("4194304", "4194306")], "yes 1"
    for by in ("by 4194303 0 -1 1 1 0 0 0 0 0 0", "by 4194307 0 -1 1 1 0 0 0 0 0 0", "by 0 0 -1 1 1 0 0 0 0 0 0",
               "by 4194304 0 -1 1 1 0 0 0 0 0 1", "by 4194304 0 -1 1 2 0 0 0 0 0 0", "by 4194304 0 1 1 -1 0 0 0 0 0 0",
               "by 4194304 0 -1 2 1 0 0 0 0 0 0", "by 4194304 1 -1 0 1 0 0 0 0 0 0", "by 4194304 0 0 1 0 0 0 0 0 0 0",
               "by 4194304 0 -1 4 1 0 0 0 0 0 0", "by 4194304 0 -1 1 1 4 0 0 0 0 0", "by 4194304 0 -1 1 1 63 0 0 0 0 0"):
        yield [DIFFERENCE, by], f"{UNSHOWN} {BOUND_LINE}"
        # One sum that shows it isn't enough.
        yield [DIFFERENCE[:-1] + "2", BY_TWO, by], f"{UNSHOWN} {BOUND_LINE}"
    for direction in "1 0 0", "1 -1 1", "-1 1 0", "2 -2 0", "1 1 0":
        yield [f"bound {direction} 1000003 1", BY_TWO], f"{UNSHOWN} {BOUND_LINE}"
    # Without a direction nothing is said where MOST is 0, and that nothing fits where it is less.
    for most, by, answer in ((0, nothing(), "yes 1"), (-1, nothing(), None), (-1, BY_TWO, None), (0, nothing(aim=0), None),
                             (0, nothing(aim=2**44), "yes 1"), (0, f"by {2**44} 0 1 1 -1 0 0 0 0 0 0", "yes 1"),
                             # The rows don't add up to none, which is all that is wrong: what the sum leaves is some 2^42.
                             (0, f"by {2**44} 0 1 0 0 0 0 0 0 0 0", None), (0, f"by {2**44} 0 2 1 -1 0 0 0 0 0 0", None)):
        yield bound((0, 0, 0), most, by), answer or f"{UNSHOWN} {BOUND_LINE}"
    yield bound((0, 0, 0), 0, *64 * [nothing()]), "yes 1"


def bounds_where_nothing_fits():
    """Of two ranges that are 10 m apart the rows contradict each other, whatever is aimed at."""
    far = ONE_BOX[4].replace(" 20000000000000 20000000000000 -", " 20000010000000 20000010000000 -")
    lines = put(BOUNDED, 5, far)
    for by, answer in (("by 0 0 1 1 -1 0 0 0 0 0 0", "yes 1"), ("by 0 0 -1 1 1 0 0 0 0 0 0", f"{UNSHOWN} {BOUND_LINE}"),
                       ("by 1 0 1 1 -1 0 0 0 0 0 0", "yes 1")):
        yield lines + bound((1000000, 0, 0), -(10**6) if by[3] == "1" else -9 * 10**18, by), answer
    # Where the box is closed as empty, no box is kept: no bound is shown, not even one that says nothing.
    out, true = put(lines, 9, "out 0"), bound((0, 0, 0), 0, nothing())
    yield out, "yes 0"
    yield out + true, f"{UNSHOWN} {BOUND_LINE}"
    # Each epoch has a hull of its own: one that is none, or half as long along x as the one before.
    later = ["epoch 2 1388102400000000000000 4"]
    yield [*BOUNDED, *true, *later, *out[3:], *true], f"{UNSHOWN} {2 * BOUND_LINE - 1}"
    half = [*later, *ONE_BOX[3:7], ONE_BOX[7].replace("1000000", "500000"), *ONE_BOX[8:]]
    for most, answer in (500000, "yes 2"), (499999, f"{UNSHOWN} {2 * BOUND_LINE - 3}"):
        yield [*BOUNDED, *half, *bound((1, 0, 0), most, nothing())], answer


def bounds_with_wide_rows():
    """The place of a fifth satellite is round the box, so wide that its least offset is beyond 10^30 or within: it is some
    (w^2 + w^2 + w^2) * 2^21 with w half the width of each span. It counts where the row is named, also with no M."""
    for half, answer in (3 * 10**11, "yes 1"), (5 * 10**11, f"{UNSHOWN} {BOUND_LINE + 1}"):
        wide = f"sat G05 {-half} {half} {-half} {half} {-half} {half} 20000000000000 20000000000000 -500000 500000"
        lines = before(put(BOUNDED, 3, BOUNDED[2][:-1] + "5"), 8, wide)
        lines = put(lines, 10, "edge 0 -200000000000000 200000000000000")
        yield [*lines, DIFFERENCE, BY_TWO], "yes 1"
        yield [*lines, DIFFERENCE, BY_TWO.replace("0 0 0 0 0 0", "4 0 0 0 0 0")], answer


def bounds_with_an_outlier():
    """Bounds of three kept boxes by sums of no rows, of which two have to be there as one satellite may fail."""
    for direction, most in ENDS.items():
        yield [*ALL_BOUNDED, *bound(direction, most, nothing(), nothing(4))], "yes 3"
        yield [*ALL_BOUNDED, *bound(direction, most - 1, nothing(), nothing(4))], f"{UNSHOWN} {ALL_BOUND_LINE}"
    x, end = (1, 0, 0), ENDS[1, 0, 0]
    for sums, answer in (
        ([nothing()], None), ([nothing(3)] * 2, None), ([nothing(5), nothing(4)], None), ([nothing(63), nothing(1)], None),
        ([nothing(2), nothing(3), nothing(2)], "yes 3"), ([nothing(2, 0), nothing(3)], None),
        # A place is in a sum also where no row is taken there.
        (["by 1 0 0 1 0 2 0 3 0 4 0", nothing(4)], None), (["by 1 0 0 1 0 2 0 3 0 3 0", nothing(4)], "yes 3"),
        (["by 1 0 0 0 0 0 0 0 0 1 0", "by 1 1 0 1 0 1 0 1 0 2 0", "by 1 2 0 2 0 2 0 2 0 0 0"], "yes 3"),
        (["by 1 0 0 0 0 0 0 0 0 1 0", "by 1 1 0 1 0 1 0 1 0 2 0", "by 1 2 0 2 0 2 0 2 0 1 0"], None),
    ):
        yield [*ALL_BOUNDED, *bound(x, end, *sums)], answer or f"{UNSHOWN} {ALL_BOUND_LINE}"
    # They come behind all tests of the lines before, and in front of those behind.
    two = bound(x, end, nothing(), nothing(1))
    wrong = bound(x, end - 1, nothing(), nothing(1))
    more = ["epoch 5 2000000000000 5", *WITH_ALL[EPOCH:]]
    yield [*ALL_BOUNDED, *two, *more, *two], "yes 6"
    yield [*ALL_BOUNDED, *two, *more, *two, *wrong], f"{UNSHOWN} {ALL_BOUND_LINE + 6 + len(more)}"
    yield [*ALL_BOUNDED, *wrong, *put(more, 1, "epoch 4 2000000000000 5")], f"{UNSHOWN} {ALL_BOUND_LINE}"
    yield [*ALL_BOUNDED, *two, *put(more, 1, "epoch 4 2000000000000 5")], f"no 51 EpochDiffers line {ALL_BOUND_LINE + 3}"
    yield [*put(ALL_BOUNDED, DONE, "done 4"), *wrong], f"no 64 CountDiffers line {DONE}"
    yield [*put(ALL_BOUNDED, 23), *wrong], "no 63 NotClosed line 23"
    yield [*ALL_BOUNDED, *two, "few 5 0 0", "skip G01 3"], "yes 3"
    # What is shown to be empty isn't kept, and a box that is may have been cut.
    yield [*put(ALL_BOUNDED, 17, "edge 2 5 5"), *two], f"{UNSHOWN} {ALL_BOUND_LINE}"
    yield [*put(ALL_BOUNDED, 17, "edge 2 5 5"), *bound(x, 15000000, nothing(), nothing(1))], "yes 4"
    yield [*put(ALL_BOUNDED, 19), *two], f"{UNSHOWN} {ALL_BOUND_LINE - 1}"
    yield [*put(ALL_BOUNDED, 19), *bound(x, 7000000, nothing(), nothing(1))], "yes 3"


def bounds_with_eight_outliers():
    """Three times seven rows, with a sum of no rows for each five of seven. Two rows of seven leave one of the sums, and three
    leave none: so nine have to be left out for all, and eight where one of the sums isn't there, with the two beside its five."""
    rows = [ONE_BOX[3].replace("G01", f"G{number:02}") for number in range(1, 22)]
    lines = ["gpscover 4", "rules 8 0 1000000", ONE_BOX[2][:-1] + "21", *rows, ONE_BOX[7], "edge 0 -1500000 1500000", "done 0"]
    fives = [five for start in (0, 7, 14) for five in itertools.combinations(range(start, start + 7), 5)]
    sums = ["by 1 " + " ".join(f"{place} 0" for place in five) for five in fives]
    yield [*lines, *bound((0, 0, 0), 0, *sums)], "yes 1"
    yield [*lines, *bound((0, 0, 0), 0, *sums[::-1])], "yes 1"
    for k in 0, 20, 40, 62:
        yield [*lines, *bound((0, 0, 0), 0, *sums[:k], *sums[k + 1 :])], f"{UNSHOWN} {len(lines) + 1}"
        seven = [*lines[:1], lines[1].replace("8", "7"), *lines[2:]]
        yield [*seven, *bound((0, 0, 0), 0, *sums[:k], *sums[k + 1 :])], "yes 1"


def bounds_by_renewed_rows():
    """Twice x is at most twice the error by G05 and G01: of 5 m by the first rows and of 1 m by the renewed ones. Their ends
    are told within 50 um."""
    by = "by 8388608 0 -1 3 1 0 0 0 0 0 0"
    near, far = bound((1, 0, 0), 1000050, by), bound((1, 0, 0), 5000050, by)
    new, old, point = renewal(), renewal(rows=OLD_ROWS), renewal((0,) * 6)
    less = tuple(end - (end > 0) for end in BOX), tuple(end + (end < 0) for end in BOX)
    for lines, by_new in (
        ([[CUTS_LEAVE]], False),  # none
        ([new, [CUTS_LEAVE]], True),
        ([[CUTS_LEAVE], new], True),
        ([new, [CUTS_LEAVE], new], True),
        ([new, [CUTS_LEAVE], old], False),
        ([old, [CUTS_LEAVE], new], True),
        # The last renewal is over less than the kept boxes: then the first rows are taken, and none of another renewal.
        ([[CUTS_LEAVE], point], False),
        ([new, [CUTS_LEAVE], point], False),
        ([new, [CUTS_LEAVE], renewal(less[0])], False),
        ([new, [CUTS_LEAVE], renewal(less[1])], False),
        ([old, [CUTS_LEAVE], renewal(SEARCH)], True),
        ([[CUTS_LEAVE], point, new], True),
    ):
        made = put(with_renewals(*lines), 1, "gpscover 4")
        yield made, "yes 1"
        yield [*made, *far], "yes 1"
        yield [*made, *near], "yes 1" if by_new else f"{UNSHOWN} {len(made) + 1}"
        yield [*made, *near, *far], "yes 1" if by_new else f"{UNSHOWN} {len(made) + 1}"
        yield [*made, *bound((1, 0, 0), 999999, by)], f"{UNSHOWN} {len(made) + 1}"


def bounds_along_axes():
    """In the one box all is shown by two rows that contradict each other, whatever is aimed at; sums of no rows show
    how far the hull of a later bound goes. So it is told which of its six faces a bound moves, and where to."""
    far = ONE_BOX[4].replace(" 20000000000000 20000000000000 -", " 20000010000000 20000010000000 -")
    lines, by = put(BOUNDED, 5, far), "by 0 0 1 1 -1 0 0 0 0 0 0"
    line = len(lines) + 1
    half = 1000000, 900000, 900000

    def behind(first, direction, most, answer="yes 1"):
        """A log with one bound, and one behind it along a direction that sums of no rows show."""
        shown = [*lines, *bound(*first, by), *bound(direction, most, nothing())]
        less = [*lines, *bound(*first, by), *bound(direction, most - 1, nothing())]
        return (shown, answer), (less, f"{UNSHOWN} {line + 2}")

    for axis, sign in itertools.product(range(3), (1, -1)):
        plain = tuple(sign * (axis == other) for other in range(3))
        opposite, whole = tuple(-part for part in plain), sum(half)
        for most in 0, -7, 123456, half[axis] - 1, half[axis], -half[axis]:  # the ends of the side too
            yield from behind((plain, most), plain, most)
            yield from behind((plain, most), tuple(2 * part for part in plain), 2 * most)
            yield from behind((plain, most), opposite, half[axis])
            corner = tuple(part or 1 for part in plain)
            yield from behind((plain, most), corner, whole - half[axis] + most)
        for most in half[axis] + 1, -half[axis] - 1, 9 * 10**18, -9 * 10**18:  # not in the side
            yield from behind((plain, most), plain, half[axis])
            yield from behind((plain, most), opposite, half[axis])
        # Along the axis, but not in plain numbers, or not along it.
        longer = [tuple(times * part for part in plain) for times in (2, 10**6)]
        for other in (*longer, (1, 1, 0), (0, -1, 1), (0, 0, 0), tuple(part or 1 for part in plain)):
            yield from behind((other, 0), plain, half[axis])
            yield from behind((other, 0), opposite, half[axis])
    # Each one moves what those before left, and a face may come back to no place where it was.
    x, back = (1, 0, 0), (-1, 0, 0)
    for most, left in ((500000, 500000), (300000, 300000), (700000, 500000)):
        two = [*bound(x, 500000, by), *bound(x, most, by)]
        yield [*lines, *two, *bound(x, left, nothing())], "yes 1"
        yield [*lines, *two, *bound(x, left - 1, nothing())], f"{UNSHOWN} {line + 4}"
    for most, left in ((-500000, -500000), (-500001, 1000000)):  # the low end may become the high one, and not more
        two = [*bound(x, 500000, by), *bound(back, most, by)]
        yield [*lines, *two, *bound(back, left, nothing())], "yes 1"
        yield [*lines, *two, *bound(back, left - 1, nothing())], f"{UNSHOWN} {line + 4}"
    # Each epoch begins with its own hull.
    later = ["epoch 2 1388102400000000000000 4", *lines[3:]]
    begun = [*lines, *bound(x, 0, by), *later]
    yield [*begun, *bound(x, 1000000, nothing())], "yes 2"
    yield [*begun, *bound(x, 999999, nothing())], f"{UNSHOWN} {len(begun) + 1}"


def bounds_over_narrowed_hulls():
    """By the first rows x is at most 5.000004 m over a hull from x = -6 m to 6.25 m: around x = 0.125 m the form of G05
    has the slope 4194303 and U = 20447248513607, and that of G01 -4194304 and L = -20447244268514."""
    by, x = "by 8388608 0 -1 3 1 0 0 0 0 0 0", (1, 0, 0)
    made = put(with_renewals([CUTS_LEAVE]), 1, "gpscover 4")
    line, end = len(made) + 1, 5000004
    face = bound(x, end, by)
    yield [*made, *face], "yes 1"
    yield [*made, *bound(x, end - 1, by)], f"{UNSHOWN} {line}"
    corner = bound((1, 1, 0), end + 1000000, nothing())
    yield [*made, *face, *corner], "yes 1"
    yield [*made, *corner], f"{UNSHOWN} {line}"
    yield [*made, *corner, *face], f"{UNSHOWN} {line}"
    yield [*made, *bound(x, end - 1, by), *corner], f"{UNSHOWN} {line}"
    yield [*made, *face, *bound((1, 1, 0), end + 999999, nothing())], f"{UNSHOWN} {line + 2}"
    yield [*made, *bound(x, end + 1, by), *corner], f"{UNSHOWN} {line + 2}"
    twice = bound((2, 0, 0), 2 * end, by.replace("8388608", "4194304"))
    for other in (bound(x, 6250001, by), bound(x, 6250000, by), twice):
        yield [*made, *other, *bound((1, 1, 0), 7250000, nothing())], "yes 1"
        yield [*made, *other, *bound((1, 1, 0), 7249999, nothing())], f"{UNSHOWN} {line + 2}"
        yield [*made, *other, *corner], f"{UNSHOWN} {line + 2}"
        yield [*made, *other, *face, *corner], "yes 1"
    # The last renewal is over less than the kept boxes. Its rows are taken where what is left of their hull lies in it,
    # so that twice x is at most twice an error of 1 m; and not where a face is 1 um beyond.
    for high, answer in (end, "yes 1"), (end - 1, f"{UNSHOWN} {line + 7}"):
        made = put(with_renewals([CUTS_LEAVE], renewal((*BOX[:3], high, *BOX[4:]))), 1, "gpscover 4")
        near = bound(x, 1000050, by)
        yield [*made, *near], f"{UNSHOWN} {line + 5}"
        yield [*made, *face, *near], answer
        yield [*made, *face, *bound(x, 999950, by)], f"{UNSHOWN} {line + 7}"


def bounds_that_do_not_fit():
    """Bounds where none may stand, and lines that don't fit."""
    whole = [*BOUNDED, DIFFERENCE, BY_TWO]
    for version in 1, 2, 3:
        yield put(whole, 1, f"gpscover {version}"), f"log 40 BadLog line {BOUND_LINE} kind 2"
        yield put(BOUNDED, 1, f"gpscover {version}"), "yes 1"
    for number in 3, 4, 8, 9, 10:
        yield before(BOUNDED, number, DIFFERENCE, BY_TWO), f"log 40 BadLog line {number} kind 2"
        yield before(BOUNDED, number, BY_TWO), f"log 40 BadLog line {number} kind 2"
    few = [*BOUNDED[:2], "few 1 0 0"]
    for line in DIFFERENCE, BY_TWO:
        yield [*few, line], "log 40 BadLog line 4 kind 2"
        yield [*few[:2], line], "log 40 BadLog line 3 kind 2"
    yield [*BOUNDED, BY_TWO], f"log 40 BadLog line {BOUND_LINE} kind 2"
    yield [*whole, BY_TWO], f"log 40 BadLog line {BOUND_LINE + 2} kind 2"
    two = put(whole, BOUND_LINE, DIFFERENCE[:-1] + "2")
    for line in (DIFFERENCE, "few 2 0 0", "epoch 2 0 4", "done 0", "edge 0 0 0", "cut 0 0 0", "renew 0 0 0 0 0 0", ONE_BOX[3],
                 "skip G09 1", "gpscover 4", "By", "bye 1", " " + BY_TWO, BY_TWO.replace(" ", "\t", 1), ""):
        yield [*two, line], f"log 40 BadLog line {BOUND_LINE + 2} kind 2"
        yield [*whole[:-1], line], f"log 40 BadLog line {BOUND_LINE + 1} kind 2"
    for line in "done 0", "edge 0 0 0", "root 0 0 0 0 0 0", "renew 0 0 0 0 0 0", ONE_BOX[3], "skip G09 1", "Bound", "":
        yield [*whole, line], f"log 40 BadLog line {BOUND_LINE + 2} kind 2"
    fields = DIFFERENCE.split(" ")
    for at, wrong in (*((k, w) for k in (1, 2, 3) for w in ("1000001", "-1000001", "x", "", "01", "-0", "1.0", "+1")),
                      *((4, w) for w in (f"9{17 * '0'}1", f"-9{17 * '0'}1", str(BEYOND), "", "-", "1e6", "01")),
                      *((5, w) for w in ("0", "65", "-1", "", "01", "1 ", "1 1", "1\r"))):
        line = " ".join([*fields[:at], wrong, *fields[at + 1 :]])
        yield put(whole, BOUND_LINE, line), f"log 40 BadLog line {BOUND_LINE} kind 3"
    for line in "bound", "bound ", " ".join(fields[:-1]), DIFFERENCE.replace(" ", "  ", 1):
        yield put(whole, BOUND_LINE, line), f"log 40 BadLog line {BOUND_LINE} kind 3"
    fields = BY_TWO.split(" ")
    for at, wrong in (*((1, w) for w in (str(2**44 + 1), "-1", str(BEYOND), "", "x", "00")),
                      *((k, w) for k in (2, 4, 10) for w in ("64", "-1", "", "00", "x")),
                      *((k, w) for k in (3, 5, 11) for w in (str(2**20 + 1), str(-(2**20) - 1), "", "-0", "+1", "1.0"))):
        line = " ".join([*fields[:at], wrong, *fields[at + 1 :]])
        yield put(whole, BOUND_LINE + 1, line), f"log 40 BadLog line {BOUND_LINE + 1} kind 3"
    for line in ("by", "by ", " ".join(fields[:-1]), " ".join(fields[:-2]),
                 *(BY_TWO + more for more in (" 0", " 0 0", " ", "\r"))):
        yield put(whole, BOUND_LINE + 1, line), f"log 40 BadLog line {BOUND_LINE + 1} kind 3"
    # A later line that doesn't fit refuses the log also behind a bound that isn't shown.
    bad = bound((1, 0, 0), -9 * 10**18, nothing())
    yield [*BOUNDED, *bad, "few 2 0"], f"log 40 BadLog line {BOUND_LINE + 2} kind 3"
    yield [*BOUNDED, *bad, "few 2 1388102400000000000000 0"], f"{UNSHOWN} {BOUND_LINE}"
    for count in range(1, 4):
        yield [*BOUNDED, DIFFERENCE[:-1] + "4", *count * [BY_TWO]], f"log 40 BadLog line {BOUND_LINE + 1 + count} kind 4"
    yield [*BOUNDED, DIFFERENCE], f"log 40 BadLog line {BOUND_LINE + 1} kind 4"
    # Numbers at the ends of their ranges are none of these.
    wide = f"bound 1000000 -1000000 1000000 9{18 * '0'} 1", f"by {2**44} 63 1048576 63 -1048576 0 0 0 0 0 0"
    yield [*BOUNDED, *wide], f"{UNSHOWN} {BOUND_LINE}"


def bounded_logs():
    """Logs with bounds, each with what `judge` says of it."""
    for more, answer in sums_of_two_rows():
        yield [*BOUNDED, *more], answer
    for table in (bounds_where_nothing_fits, bounds_with_wide_rows, bounds_with_an_outlier, bounds_with_eight_outliers,
                  bounds_by_renewed_rows, bounds_along_axes, bounds_over_narrowed_hulls, bounds_that_do_not_fit):
        yield from table()


def bound_logs():
    """Logs and rows with bounds."""
    for number, (lines, answer) in enumerate(bounded_logs()):
        yield f"bounds {number}", "judge", text(lines), answer
    for cut in DIFFERENCE, BY_TWO:
        lines = [*BOUNDED, DIFFERENCE, BY_TWO]
        lines = lines[: lines.index(cut) + 1]
        yield f"no last LF behind {cut}", "judge", text(lines)[:-1], f"log 40 BadLog line {len(lines)} kind 4"
    rows = ONE_BOX[:8]
    yield "rows of version 4", "pave", text(put(rows, 1, "gpscover 4")), "rows 40 BadLog line 1 kind 1"
    for line in DIFFERENCE, BY_TWO:
        yield f"rows with {line}", "pave", text([*put(rows, 1, "gpscover 3"), line]), "rows 40 BadLog line 9 kind 2"


def verdicts():
    """Verdicts on the log with all kinds of lines."""
    yield "with all, as it is", "judge", text(WITH_ALL), "yes 3"
    for version in 2, 4:
        yield f"with all, by version {version}", "judge", text(put(WITH_ALL, 1, f"gpscover {version}")), "yes 3"
    for changes, answer in VERDICTS:
        yield f"with all, {changes}", "judge", text(changed(WITH_ALL, changes)), answer
    for lines, answer in (
        (put(WITH_ALL, 13), "no 52 SatelliteDiffers line 6"),
        (put(WITH_ALL, 23), "no 63 NotClosed line 23"),
        (put(WITH_ALL, 20), "no 63 NotClosed line 23"),
        (put(changed(WITH_ALL, {24: "done 2"}), 20), "no 63 NotClosed line 23"),
        (WITH_ALL[:ROOT] + ["done 0"], "no 63 NotClosed line 15"),
        (WITH_ALL[:ROOT] + ["edge 0 -3000000 30000000", "done 0"], "yes 1"),
        (put(WITH_ALL, 23, *[WITH_ALL[22]] * 2), "no 56 NotLive line 24"),
        (before(WITH_ALL, 21, "cut 4 1 6000000"), "no 56 NotLive line 21"),
        (before(WITH_ALL, 20, "cut 4 1 6400000"), "yes 3"),
        (WITH_ALL[:2] + WITH_ALL[EPOCH - 1 :] + WITH_ALL[2:5], "no 51 EpochDiffers line 22"),
        (WITH_ALL[:2] + WITH_ALL[EPOCH - 1 :] + ["few 5 0 0"], "yes 3"),
        (WITH_ALL + WITH_ALL[EPOCH - 1 :], "no 51 EpochDiffers line 25"),
        (WITH_ALL + ["epoch 5 2000000000000 5"] + WITH_ALL[EPOCH:], "yes 6"),
    ):
        yield f"with all, {len(lines)} lines", "judge", text(lines), answer


# ---- refusals of the log with all kinds of lines

WRONG_HEADS = {
    1: ("gpscover 02", "gpscover 2 ", "gpscover 0", "gpscover 1 ", " gpscover 1", "gpscover  1", "gpscover 01", "gpscover",
        "Gpscover 1", "",
        "gpscover 3 ", "gpscover 03", "gpscover 4 ", "gpscover 5", "gpscover 13", "gpscover 1 3", "gpscover -3"),
    2: ("rules 9 3 1000000", "rules 1 200001 1000000", "rules 1 3 999", "rules 1 3 10000000001", "rules 1 3",
        "rules 1 3 1000000 0", "rules -1 3 1000000", "rules 01 3 1000000", "rules 1 3 1000000 ", "rule 1 3 1000", ""),
}
# Lines whose first word can't stand at their place.
WRONG_WORDS = {
    3: ("skip G03 3", "sat G03", "root 0 0 0 0 0 0", "cut 0 1 5", "in 0 0 0 0", "done 0", "Few 1 0 0", "x"),
    4: (WITH_ALL[8], "root 0 0 0 0 0 0", "cut 0 1 5", "split 0 0", "out 0", "in 0 0 0 0", "edge 0 0 0", "done 0"),
    8: ("few 5 0 0", "epoch 5 0 5", "cut 0 1 5", "in 0 0 0 0", "done 0", "Skip G09 1", "skip\tG09 1", ""),
    14: ("cut 0 1 15000000", "done 0", "few 5 0 0", "roots 0 0 0 0 0 0"),
    15: ("skip G10 1", WITH_ALL[6].replace("G01", "G11"), "few 5 0 0", "epoch 5 0 5", "root 0 0 0 0 0 0",
         "rules 1 3 1000", "gpscover 1", "", " cut 0 1 15000000", "cut\t0 1 15000000", "Cut 0 1 15000000",
         "cuts 0 1 15000000", "cut\r", "-1", "\0", "c\u00fct 0 1 15000000"),
    22: ("", " in 5 0 -1900000 1900000", "in\t5 0 -1900000 1900000", "IN 5 0 -1900000 1900000", "inn 5 0 0 0", "in\r"),
}
# Lines whose first word can stand at their place, and whose fields can't.
WRONG_FIELDS = {
    3: ("few 0 0 2", "few 200001 0 2", "few 1 4000000000000000000000 2", "few 1 -1 2", "few 1 0 65", "few 1 0", "few"),
    4: ("skip G03", "skip G03 0", "skip G03 10", "skip G03 6", "skip G03 6 0", "skip G03 6 21", "skip G03 5 1",
        "skip G03 7 0", "skip G03 7 1", "skip G03 07", "skip G03 8 0", "skip G03 9 1", "skip G03 3 0",
        "skip G3 3", "skip G00 3", "skip G100 3", "skip R03 3", "skip g03 3", "skip 03 3",
        "skip  G03 3", "skip G03 3 ", "skip G03 03", "skip G03 3\r", "skip G03\t3", "skip G03 -3", "skip"),
    6: ("epoch 200001 2000000000000 5", "epoch 4 2000000000000", "epoch 4 2000000000000 05", "epoch 4 0 65"),
    7: (WITH_ALL[6].replace("20000000000000 20000000000000 0 0 0 0", "20000000000001 20000000000000 0 0 0 0"),
        WITH_ALL[6].replace(" 1000000", " 1000000000001"), WITH_ALL[6].replace(" 1000000", " -1000001"),
        WITH_ALL[6].replace(" 0 0 0 0 ", " 0 0 0 60000000000001 "), WITH_ALL[6] + " 0", "sat G01",
        # What is sure: as the error itself, beyond it, out of range, and another number or spelling of its ends.
        *(f"{WITH_ALL[6]} {sure}" for sure in (
            "-1000000 1000000", "-1000001 1000000", "-1000001 0", "0 1000001", "1000000000001 0", "0 -1000000000001",
            "0", "0 0 0", "0 0 ", " 0 0", "-0 0", "0 +1", "00 0", "0 0\r"))),
    14: ("root -1000000 -900000 -900000 -1000001 900000 900000", "root 0 0 0 10000000000001 0 0", "root 0 0 0 0 0"),
    15: ("cut", "cut 0", "cut 0 1", "cut 0 1 15000000 0", "cut 0 1 15000000 ", "cut  0 1 15000000", "cut 0  1 15000000",
         "cut 0 6 15000000", "cut 0 -1 15000000", "cut -1 1 15000000", "cut 400001 1 15000000",
         "cut 0 1 10000000000001", "cut 0 1 -10000000000001", "cut 0 1 015000000", "cut 0 1 +15000000", "cut 0 1 -0",
         "cut 0 1 15000000.0", "cut 0 1 1e7", "cut 0 1 15000000\r", "cut 0 1\t15000000", "cut 0 01 15000000",
         "cut 0 x 15000000", "cut 0 1 99999999999999999999999999999999999999999"),
    16: ("split 0 3", "split 0", "split 0 0 0", "split 400001 0", "split -0 0"),
    17: ("out", "out ", "out  2", "out 2 ", "out 2 0", "out 400001", "out -2", "out 02", "out 2\r"),
    22: ("in", "in 5", "in 5 0", "in 5 0 0", "in 5 0 -1900000 1900000 0", "in 5 0 1900000 -1900000", "in 5 0 1 0",
         "in 5 200000000000001 -1900000 1900000", "in 5 0 -200000000000001 1900000", "in 5 0 -1900000 200000000000001",
         "in 5 -0 -1900000 1900000", "in 5 0 -01900000 1900000", "in 5 0 -1900000 1900000 ", "in 5 0  -1900000 1900000",
         "in 400001 0 -1900000 1900000", "in -5 0 -1900000 1900000", "in 5 0 - 1900000", "in 5 0 -1900000 1900000\r"),
    23: ("edge 6 3000000 -3000000", "edge 6 0", "edge 6 0 0 0", "edge 400001 0 0"),
    24: ("done", "done -1", "done 200001", "done 3 ", "done 03", "done 3\r"),
}
# Numbers at the ends of their ranges are none of these.
WIDEST = {3: "few 1 3999999999999999999999 0", 4: "skip E99 6 20", 6: "epoch 200000 0 5",
          20: "edge 4 -200000000000000 200000000000000"}


def refused_logs():
    """The log with all kinds of lines, with one line that doesn't fit, and what is said of it."""
    for kind, wrong in ((1, WRONG_HEADS), (2, WRONG_WORDS), (3, WRONG_FIELDS)):
        for number, lines in wrong.items():
            for line in lines:
                answer = f"log 40 BadLog line {number} kind {kind}"
                yield f"line {number} {line!r}", text(changed(WITH_ALL, {number: line})), answer
                if kind > 1:
                    # Where the text ends there without LF, the other fault is still what is said.
                    cut = text(changed(WITH_ALL, {number: line})[:number])[:-1]
                    if line:
                        yield f"line {number} {line!r} and no more", cut, answer
    yield "no first line", text(WITH_ALL[1:]), "log 40 BadLog line 1 kind 1"
    yield "no second line", text(put(WITH_ALL, 2)), "log 40 BadLog line 2 kind 1"
    yield "no root", text(put(WITH_ALL, ROOT)), "log 40 BadLog line 14 kind 2"
    yield "no done", text(WITH_ALL[:-1] + WITH_ALL[2:]), "log 40 BadLog line 24 kind 2"
    yield "done twice", text(WITH_ALL + [WITH_ALL[-1]]), "log 40 BadLog line 25 kind 2"
    yield "a step behind done", text(WITH_ALL + ["in 5 0 -1900000 1900000"]), "log 40 BadLog line 25 kind 2"
    yield "an empty line at the end", text(WITH_ALL + [""]), "log 40 BadLog line 25 kind 2"
    yield "a few epoch that ends with done", text(before(WITH_ALL, EPOCH, "done 0")), "log 40 BadLog line 6 kind 2"
    two = changed(WITH_ALL, {15: "cut 0 6 15000000", 22: ""})
    yield "two lines that don't fit", text(two), "log 40 BadLog line 15 kind 3"
    ends = text(WITH_ALL).splitlines(keepends=True)
    yield "a line with a byte beyond ASCII", b"".join(put(ends, 15, b"cut 0 1 \xff\n")), "log 40 BadLog line 15 kind 3"
    yield "CR LF", text(WITH_ALL).replace(b"\n", b"\r\n"), "log 40 BadLog line 1 kind 1"
    # Seven satellite lines are there.
    more = [f"skip G{number} 4" for number in range(40, 97)]
    many = before(WITH_ALL, ROOT, *more)
    yield "64 satellite lines", text(many), "yes 3"
    for line in "skip G98 1", "skip", WITH_ALL[12].replace("G05", "G98"):
        yield f"65 satellite lines, {line}", text(before(many, ROOT + 57, line)), "log 40 BadLog line 71 kind 2"
    yield "wide numbers", text(changed(WITH_ALL, WIDEST)), "yes 3"


def cut_logs():
    """The log with all kinds of lines, cut behind each line and within the end of each."""
    whole = {2: "yes 0", 3: "yes 0", 4: "yes 0", 5: "yes 0", DONE: "yes 3"}
    for count in range(DONE + 1):
        data = text(WITH_ALL[:count])
        yield f"{count} lines", data, whole.get(count, f"log 40 BadLog line {count + 1} kind 4")
        if count:
            yield f"{count} lines without the last LF", data[:-1], f"log 40 BadLog line {count} kind 4"


def refusals():
    """The refused logs, which `check` and `guard` refuse as `judge` does."""
    for name, data, answer in [*refused_logs(), *cut_logs()]:
        yield name, "judge", data, answer
        if answer.startswith("log"):
            yield name, "check", data, answer
            yield name, "guard", data, answer


# ---- rows

def refused_rows():
    """Rows that `pave` refuses: the first lines of the two logs, with one thing changed."""
    rows = WITH_ALL[:ROOT]
    yield "another q", "pave", text(changed(ONE_BOX[:8], {2: "rules 1 0 1000000"})), "rows 40 BadLog line 3 kind 5"
    for changes, answer in (
        ({3: "few 4 1000000000000 2"}, "line 6 kind 5"),
        ({3: "few 1 1000000000000 5"}, "line 3 kind 5"),
        ({5: "skip G03 6 20"}, "line 5 kind 5"),
        ({6: "epoch 4 2000000000000 4"}, "line 6 kind 5"),
        ({6: "epoch 4 2000000000000 6"}, "line 6 kind 5"),
        ({8: "skip G01 1"}, "line 8 kind 5"),
        ({13: rows[12].replace("G05", "G09")}, "line 13 kind 5"),
        ({13: rows[12].replace("G05", "G09"), 5: "skip G03 6 20"}, "line 5 kind 5"),
        # Kind 5 comes only where all lines fit.
        ({3: "few 4 1000000000000 2", 12: "skip G32 6 21"}, "line 12 kind 3"),
        ({1: "gpscover 2"}, "line 1 kind 1"),
        ({2: "rules 9 3 1000000"}, "line 2 kind 1"),
        ({8: "cut 0 1 15000000"}, "line 8 kind 2"),
        ({8: "skip G09 10"}, "line 8 kind 3"),
        ({8: "skip G09 7 1"}, "line 8 kind 3"),
        ({7: rows[6] + " -1000000 1000000"}, "line 7 kind 3"),
        ({7: rows[6] + " -1000000"}, "line 7 kind 3"),
    ):
        yield f"{changes}", "pave", text(changed(rows, changes)), f"rows 40 BadLog {answer}"
    for step in WITH_ALL[ROOT:]:
        yield f"a step {step}", "pave", text(rows + [step]), "rows 40 BadLog line 15 kind 2"
    for count in 0, 1, *range(EPOCH, ROOT):
        yield f"{count} rows", "pave", text(rows[:count]), f"rows 40 BadLog line {count + 1} kind 4"
    yield "rows without the last LF", "pave", text(rows)[:-1], "rows 40 BadLog line 14 kind 4"


# ---- logs beside files

# Of a satellite of this line there is no record in the navigation file.
STRANGER = "G01  21654321.098   113793123.4561       1234.567          45.000"


class Files:
    """The recorded receiver's files with the second and the fourth epoch cut to four satellites, fewer than q + 4, and
    with one without a record in each epoch; and the log of them, which is made of that of the whole files."""

    def __init__(self):
        head, *epochs = (DATA / "receiver.obs").read_text().split("\n> ")
        obs = [head]
        for index, epoch in enumerate(epochs, 1):
            first, *sats = epoch.splitlines()
            sats = [line for line in sats if line[0] == "G"]
            kept = [*(sats[:4] if index % 2 == 0 else sats), STRANGER]
            obs.append("\n".join([first[:30] + f"{len(kept):3}", *kept]))
        self.obs = "\n> ".join(obs) + "\n"
        self.nav = (DATA / "receiver.nav").read_text()
        self.settings = (DATA / "settings.toml").read_text()
        self.lines = self.log()
        words = [line.split()[0] for line in self.lines]
        self.heads = [at for at, word in enumerate(words, 1) if word in ("epoch", "few")]
        self.root, self.done, self.edge = (words.index(word) + 1 for word in ("root", "done", "edge"))
        self.boxes = words.count("in") + words.count("edge")

    @staticmethod
    def log():
        """The log of the changed files: a satellite more that isn't used, and two epochs of few."""
        head, *blocks = re.split(r"(?m)^(?=epoch )", (DATA / "receiver.log").read_text())
        lines = head.splitlines()
        for index, block in enumerate(blocks, 1):
            block = block.splitlines()
            if index % 2 == 0:
                _, number, time, _ = block[0].split()
                lines += [f"few {number} {time} 4", "skip G01 3"]
            else:
                root = next(at for at, line in enumerate(block) if line.startswith("root "))
                lines += [*block[:root], "skip G01 3", *block[root:]]
        return lines

    def with_words(self, line, changes):
        """The lines with other words at some places of one of them."""
        words = self.lines[line - 1].split()
        for place, word in changes.items():
            words[place] = str(word)
        return put(self.lines, line, " ".join(words))

    def number(self, line, place):
        """A number of a line."""
        return int(self.lines[line - 1].split()[place])

    def stepped(self, line, place, by):
        """The lines with one number changed by so much."""
        return self.with_words(line, {place: self.number(line, place) + by})

    def root_ends(self):
        """The ends of the first epoch's root."""
        return [self.number(self.root, place) for place in range(1, 7)]

    def rows(self):
        """The rows of the first epoch."""
        return [line for line in self.lines[self.heads[0] : self.root - 1] if line.startswith("sat ")]


def checked_logs(files):
    """Logs that `check` tests against the files."""
    lines, (_, two, three, four) = files.lines, files.heads
    yield "as it is", lines, f"yes {files.boxes}"
    for place in 1, 2, 3:
        for by in 1, -1:
            yield "other rules", files.stepped(2, place, by), "no 50 RulesDiffer line 2"
    yield "another version", put(lines, 1, "gpscover 3"), "no 50 RulesDiffer line 2"
    yield "version 2", put(lines, 1, "gpscover 2"), f"yes {files.boxes}"
    yield "version 4", put(lines, 1, "gpscover 4"), "no 50 RulesDiffer line 2"
    for head in files.heads:
        for place in 1, 2:
            yield "another index or time", files.stepped(head, place, 1), f"no 51 EpochDiffers line {head}"
        for by in 1, -1:
            # With one less the first is few, and with one more the second isn't, where it is said otherwise.
            test = "no 51 EpochDiffers" if head in (two, four) and by > 0 else "no 52 SatelliteDiffers"
            yield "another number", files.stepped(head, 3, by), f"{test} line {head}"
    yield "no second epoch", lines[: two - 1] + lines[three - 1 :], f"no 51 EpochDiffers line {two}"
    yield "no last epoch", lines[: four - 1], f"no 51 EpochDiffers line {four}"
    yield "no epochs", lines[:2], "no 51 EpochDiffers line 3"
    more = f"few 5 {files.number(four, 2) + 10**12} 4"
    yield "one epoch more", lines + [more], f"no 51 EpochDiffers line {len(lines) + 1}"
    yield from satellite_logs(files, lines)
    yield from row_logs(files)
    for place in range(1, 7):
        for by in 1, -1:
            yield "another root", files.stepped(files.root, place, by), f"no 55 RootDiffers line {files.root}"
    yield from step_logs(files, lines)
    yield from checked_renewals(files)


def satellite_logs(files, lines):
    """52 by `check`."""
    one, two, three, _ = files.heads
    root = files.root
    swapped = changed(lines, {one + 1: lines[one + 1], one + 2: lines[one]})
    yield "swapped", swapped, f"no 52 SatelliteDiffers line {one + 1}"
    yield "no skip line", put(lines, root - 1), f"no 52 SatelliteDiffers line {root - 1}"
    yield "another reason", put(lines, root - 1, "skip G01 4"), f"no 52 SatelliteDiffers line {root - 1}"
    yield "another satellite", put(lines, root - 1, "skip G02 3"), f"no 52 SatelliteDiffers line {root - 1}"
    yield "one more", before(lines, root, "skip G02 3"), f"no 52 SatelliteDiffers line {root}"
    renamed = files.with_words(one + 1, {1: "G02"})
    yield "another satellite's row", renamed, f"no 52 SatelliteDiffers line {one + 1}"
    skipped = put(lines, one + 1, "skip " + lines[one].split()[1] + " 3")
    yield "a skip for a row", skipped, f"no 52 SatelliteDiffers line {one}"
    fewer = put(skipped, one, files.stepped(one, 3, -1)[one - 1])
    yield "a skip for a row, and its number", fewer, f"no 52 SatelliteDiffers line {one}"
    # A line that is missing in an epoch of few is told at the next line, where 51 is the lesser number.
    yield "no skip line in few", put(lines, two + 1), f"no 52 SatelliteDiffers line {two + 1}"
    both = put(files.with_words(three, {1: 4}), two + 1)
    yield "no skip line in few, and 51", both, f"no 51 EpochDiffers line {two + 1}"
    yield "no skip line in few at the end", lines[:-1], f"no 52 SatelliteDiffers line {len(lines)}"
    yield "another reason in few", put(lines, two + 1, "skip G01 2"), f"no 52 SatelliteDiffers line {two + 1}"
    yield "no skip line in few, and no more", lines[:two], f"no 51 EpochDiffers line {two + 1}"


def row_logs(files):
    """53 and 54 by `check`. A span of which one end alone is left doesn't hold the checker's own: the spans of a log
    that was solved are wider than theirs by W at both ends, and own spans of a satellite share a number and are at most
    W wide."""
    for line in files.heads[0] + 1, files.heads[2] + 5:
        for low in 2, 4, 6, 8:
            ends = [files.number(line, low), files.number(line, low + 1)]
            for end in ends:
                point = {low: end, low + 1: end}
                answer = f"no 53 RowNarrow line {line} theirs {end} {end} ours"
                yield "a narrow row", files.with_words(line, point), (answer, ends)
                # The span comes before the bounds, and x before y, z and the range.
                point[11] = files.number(line, 11) + 1
                if low < 8:
                    point[9] = files.number(line, 8)
                yield "a narrow row, and bounds", files.with_words(line, point), (answer, ends)
        for place in 10, 11:
            for by in 1, -1:
                yield "other bounds", files.stepped(line, place, by), f"no 54 BoundDiffers line {line}"
        # Without `zenith` all that is declared is sure.
        low, high = files.number(line, 10), files.number(line, 11)
        for sure in (low + 1, high), (low, high - 1), (high, low), (0, 0):
            with_sure = put(files.lines, line, " ".join([files.lines[line - 1], *map(str, sure)]))
            yield "less that is sure", with_sure, f"no 54 BoundDiffers line {line}"


def step_logs(files, lines):
    """56 to 64 by `check`, on the steps of the first epoch."""
    edge, done, root = files.edge, files.done, files.root
    box, low, high = (files.number(edge, place) for place in (1, 2, 3))
    x_low = files.number(root, 1)
    yield "a box twice", before(lines, edge, lines[edge - 1]), f"no 56 NotLive line {edge + 1}"
    yield "a cut of nothing", before(lines, root + 1, f"cut 0 0 {x_low}"), f"no 57 CutNotShown line {root + 1}"
    yield "all is cut but a point", before(lines, root + 1, f"cut 0 1 {x_low}"), f"no 57 CutNotShown line {root + 1}"
    yield "out for edge", put(lines, edge, f"out {box}"), f"no 58 OutNotShown line {edge}"
    # Nothing fits there at an offset beyond the clock hull, which the log's span is.
    inner = f"in {box} {high + 1} {low} {high}"
    yield "in for edge", put(lines, edge, inner), f"no 59 InNotShown line {edge}"
    yield "a span too short at its low end", files.stepped(edge, 2, 1), f"no 60 ClockNarrow line {edge}"
    yield "a span too short at its high end", files.stepped(edge, 3, -1), f"no 60 ClockNarrow line {edge}"
    yield "a span longer at its low end", files.stepped(edge, 2, -1), f"yes {files.boxes}"
    yield "a span longer at its high end", files.stepped(edge, 3, 1), f"yes {files.boxes}"
    yield "no line for a box", put(lines, edge), f"no 63 NotClosed line {done - 1}"
    for by in 1, -1:
        yield "another count", files.stepped(done, 1, by), f"no 64 CountDiffers line {done}"


def checked_renewals(files):
    """Renewals by `check`, behind the root of the first epoch. Its rows, which are wider than own ones by the room of the
    root, hold the own rows over any box in it: both hold what the equations allow at a point of that box, and those over
    the box are at most as wide as the room of the root."""
    lines, root = put(files.lines, 1, "gpscover 2"), files.root
    rows, ends = files.rows(), files.root_ends()

    def renewed(rows=rows, ends=ends, at=root + 1, log=lines):
        return before(log, at, *renewal(ends, rows))

    yield "renewed rows", renewed(), f"yes {files.boxes}"
    yield "renewed twice", renewed(log=renewed()), f"yes {files.boxes}"
    yield "renewed by version 1", renewed(log=files.lines), f"log 40 BadLog line {root + 1} kind 2"
    yield "renewed by version 3", renewed(log=put(lines, 1, "gpscover 3")), "no 50 RulesDiffer line 2"
    # No box is live at the end, so any box in the root will do.
    point = [*ends[:3], *ends[:3]]
    yield "renewed at the end", renewed(ends=point, at=files.done), f"yes {files.boxes}"
    for k in range(6):
        for by in 1, -1:
            other = [end + by * (place == k) for place, end in enumerate(ends)]
            yield "a box that isn't the root", renewed(ends=other), f"no 65 BadRenew line {root + 1}"
    yield "a row less", renewed(rows[1:]), f"log 40 BadLog line {root + 1 + len(rows)} kind 2"
    yield "a row more", renewed(rows + rows[-1:]), f"log 40 BadLog line {root + 2 + len(rows)} kind 2"
    yield "rows swapped", renewed([*rows[:3], rows[4], rows[3], *rows[5:]]), f"no 52 SatelliteDiffers line {root + 5}"
    yield "a row twice", renewed([*rows[:3], rows[2], *rows[4:]]), f"no 52 SatelliteDiffers line {root + 5}"
    yield "a satellite that isn't used", renewed(["sat G01" + rows[0][7:], *rows[1:]]), (f"no 52 SatelliteDiffers line {root + 2}")
    # A row of which a span is moved by its length, so that the own one isn't held; and of other bounds.
    words = rows[2].split()
    for low in 2, 4, 6, 8:
        old = [int(word) for word in words[low : low + 2]]
        new = [end + old[1] - old[0] for end in old]
        row = " ".join([*words[:low], *map(str, new), *words[low + 2 :]])
        answer = f"no 53 RowNarrow line {root + 4} theirs {new[0]} {new[1]} ours"
        yield "a row of another place", renewed([*rows[:2], row, *rows[3:]]), (answer, old)
    for place in 10, 11:
        row = " ".join([*words[:place], str(int(words[place]) + 1), *words[place + 1 :]])
        yield "a row of other bounds", renewed([*rows[:2], row, *rows[3:]]), f"no 54 BoundDiffers line {root + 4}"
    yield "a row of what is less sure", renewed([*rows[:2], rows[2] + " 0 0", *rows[3:]]), f"no 54 BoundDiffers line {root + 4}"


def checked_bounds(files):
    """Bounds by `check`, at the ends of the hull of the kept boxes of the first epoch, by sums of no rows. One row may be left
    out. Where rows are renewed over less they are those in front of the root, of as many satellites."""
    lines, done, ends = put(files.lines, 1, "gpscover 4"), files.done, files.root_ends()
    with tempfile.TemporaryDirectory() as room:
        path = Path(room) / "log"
        path.write_bytes(text(files.lines))
        boxes = next(epochs(path)).boxes
    yield lines, f"yes {files.boxes}"
    for axis in range(3):
        low, high = min(box.low[axis] for box in boxes), max(box.high[axis] for box in boxes)
        for sign, end in (1, high), (-1, -low):
            direction = [sign * (axis == k) for k in range(3)]
            for most, sums, answer in (
                (end, [nothing(), nothing(1)], f"yes {files.boxes}"),
                (end - 1, [nothing(), nothing(1)], f"{UNSHOWN} {done + 1}"),
                (end, [nothing(), nothing()], f"{UNSHOWN} {done + 1}"),
            ):
                yield before(lines, done + 1, *bound(direction, most, *sums)), answer
    point = renewal([*ends[:3], *ends[:3]], files.rows())
    true = bound((0, 0, 0), 0, nothing(), nothing(1))
    yield before(before(lines, done + 1, *true), done, *point), f"yes {files.boxes}"
    yield before(lines, done + 1, *true[:2]), f"log 40 BadLog line {done + 3} kind 2"
    # They come behind 64, and in front of 51 of the next epoch.
    false = bound((0, 0, 0), -1, nothing(), nothing(1))
    wrong = put(lines, done, files.stepped(done, 1, 1)[done - 1])
    yield before(wrong, done + 1, *false), f"no 64 CountDiffers line {done}"
    later = before(files.stepped(done + 1, 1, 1), done + 1, *false)
    yield later, f"log 40 BadLog line {done + 1} kind 2"
    yield put(later, 1, "gpscover 4"), f"{UNSHOWN} {done + 1}"


def checked_rules(files):
    """50, 61 and 62 by `check`, whose rules are those of the settings: the settings are changed with them."""
    by_pairs = re.sub(r"(?m)^(max_age = .*)$", r"\1\npairs = true", files.settings)
    yield by_pairs, files.lines, "no 50 RulesDiffer line 2"
    yield by_pairs, put(files.lines, 1, "gpscover 3"), f"yes {files.boxes}"
    yield by_pairs, put(files.lines, 1, "gpscover 2"), "no 50 RulesDiffer line 2"
    renewed = before(put(files.lines, 1, "gpscover 3"), files.root + 1, *renewal(files.root_ends(), files.rows()))
    yield by_pairs, renewed, f"yes {files.boxes}"
    for lines, answer in checked_bounds(files):
        yield by_pairs, lines, answer
    # Whether the settings ask for renewed rows is for `solve` alone.
    for value in "true", "false":
        renewing = re.sub(r"(?m)^(max_age = .*)$", rf"\1\nrenew = {value}", files.settings)
        for version in 1, 2:
            yield renewing, put(files.lines, 1, f"gpscover {version}"), f"yes {files.boxes}"
    side = files.number(files.root, 4) - files.number(files.root, 1)
    splits = [at for at, line in enumerate(files.lines, 1) if line.startswith("split ")]
    less = files.number(2, 2) - 1  # than the first epoch has
    for key, value, place, rule, answer in (
        ("width", side // 1000, 3, side, f"no 61 BadSplit line {splits[0]}"),
        ("bisections", less, 2, less, f"no 62 OverBudget line {splits[less]}"),
        ("bisections", 0, 2, 0, f"no 62 OverBudget line {splits[0]}"),
    ):
        settings = re.sub(rf"(?m)^{key} = .*$", f"{key} = {value}", files.settings)
        yield settings, files.with_words(2, {place: rule}), answer


# ---- running them

# A box round the search box of FILES, half of space, and up.
ZONES = """\
gpszones 2
zone all -3870000000000 3436000000000 3717000000000 -3869000000000 3437000000000 3718000000000
prism half 1
side 1 0 0 -3869309827800
reach up -635294 564290 614402
"""


def holds_own(out, ends):
    """Whether the last two numbers of the verdict are a span within these ends, as the checker's own one is."""
    match = re.fullmatch(r"no 53 RowNarrow line \d+ theirs \S+ \S+ ours (-?\d+) (-?\d+)\n", out)
    return bool(match) and ends[0] <= int(match[1]) <= int(match[2]) <= ends[1]


def judged_and_paved():
    """The forged logs that stand by themselves."""
    tables = one_box_logs(), pair_logs(), renewal_logs(), bound_logs(), verdicts(), refusals(), refused_rows()
    return [Forged(*row) for table in tables for row in table]


def checked(files):
    """(settings, forged log) of those that are checked, and guarded, beside a receiver's files."""
    rows = [(files.settings, *row) for row in checked_logs(files)]
    rows += [(settings, "other rules", lines, answer) for settings, lines, answer in checked_rules(files)]
    for settings, name, lines, answer in rows:
        for command in "check", "guard":
            yield settings, Forged(name, command, text(lines), answer)


def kind_of(answer):
    """What of an answer is wanted at least once: its number, with the kind of a refusal."""
    return re.sub(r"^(no \d+|log 40|rows 40)(.*?)( kind \d)?$", r"\1\3", answer)
