"""Prints a line for each epoch of a log of gpscover, and what an empty or a cut region hides.

usage: gpslog summary LOG [--csv | --box] [--kml FILE] [--strict] [--obs OBS] [--settings SETTINGS]
                      [--places FILE [--azimuth A | --along FILE] [--limit H V]]

A line has the epoch's number, its time of reception by the receiver's clock as a GPS date, the
usable satellites, the numbers of in and edge boxes, how far these boxes reach along local east,
north and up (from their corners) and in the clock, in metres rounded up, their volume in cubic
metres, and the latitude, longitude (degrees) and height above the ellipsoid (metres) of the middle.
Where the epoch has bounds with an end on all sides (`gpslog bounded`), east, north, up and the
middle are those of what they leave, and so is all that is said of a known place: `certified` says
so, with --csv in a column of its own in a log that may have bounds. A mark behind it says
  few      too few usable satellites, so the epoch isn't paved
  empty    no position fits: more satellites than allowed broke their bounds, or the receiver was
           outside the box
  lost     the same in a log of `track`, which ends there, or begins anew behind it
  reaches  a kept box lies on the named faces of the search box, so the region may go on outside
Epochs with a mark are warned of at the end. A log is taken for one of `track` where the search
boxes of its epochs lie in the
first one and differ from it; `reaches` speaks of the first one then, which is that of the settings.
A track that goes on from an earlier log (--after) begins in a smaller one: --settings names its
settings, whose search box is taken then.

--csv prints the same as comma-separated values, with the mark `ok` where there is none. --box
prints the least search box that holds the kept boxes of all epochs, as lines of the settings. Both
print the warnings on standard error. With --strict the status is 3 where there is a warning. --kml
writes each epoch for a map: its time, its region's outline at the least and the greatest height,
and a style by its mark (kml.py). --obs names the observation file, and a line says how many of its
epochs the log covers.

--places names a list of known places (places.py says its form). A line says then whether the place
is in a kept box, and has the farthest corner of the boxes from it along the ground (hpl_m) and up
or down (vpl_m), and along and across a direction: --azimuth is one in degrees clockwise from north,
--along a track, as a list of places. These are lengths of the declared bounds, not of a
probability. With --limit, two lengths in metres along the ground and up, it counts as an integrity
diagram does, with the region's middle as the reported position and the farthest corner from it as
protection:
  available   the protection is within both limits, and the region doesn't reach the search box
  misleading  the region doesn't hold the known place
  hazardous   it is available, and the middle is farther from the place than a limit
The log is read as it stands: `gpscover check` says whether it is right.

Exit status: 0; 1 where a file can't be read or written, or LOG is no whole log, or shares no time
with the places; 2 for a wrong command line; 3 where --strict is given and there is a warning.
"""

from __future__ import annotations

import argparse
import csv
import math
import sys
from collections import Counter
from collections.abc import Callable, Iterator
from typing import TextIO

from gpscover import kml
from gpscover.command import Command, measure, whole_file
from gpscover.epoch import UM_PER_MM
from gpscover.errors import Error, UsageError
from gpscover.geodesy import geodetic
from gpscover.integrity import Judge, Limits, Numbers, limit_argument
from gpscover.log import PS_PER_MS, UM_PER_M, Box, Epoch, PathLike, SkipReason, calendar, epochs, has_bounds
from gpscover.observations import file_epochs, search_of
from gpscover.places import Meetings, read_places
from gpscover.region import Region, hull_of, region_or_none, upward

Cell = str | int
WriteLine = Callable[[Epoch, Region | None, str, Numbers | None], None]

HEAD = (
    f"{'epoch':>6} "
    f" {'GPS time':<23} {'sats':>4} {'in':>6} {'edge':>6} {'east m':>8} {'north m':>8} {'up m':>8}"
    f" {'clock m':>8} {'volume m3':>10} {'latitude':>12} {'longitude':>13} {'height m':>9}"
)
WIDTHS = (6, 6, 8, 8, 8, 8, 10, 12, 13, 9)  # of the columns from `in` on
COLUMNS = (
    "epoch gps_time gps_seconds mark satellites in edge out splits east_m north_m up_m clock_low_m"
    " clock_high_m volume_m3 latitude_deg longitude_deg height_m x_m y_m z_m faces"
).split()
PLACE_COLUMNS = (
    "held hpl_m vpl_m horizontal_error_m vertical_error_m horizontal_reach_m vertical_reach_m"
    " azimuth_deg along_m across_m available misleading hazardous"
).split()
CERTIFIED_COLUMNS = ["certified"]  # of a log that may have bounds
OTHER_DAY = "; is the navigation file of another day?"
NO_CENTRE = "; is the position in the header zero, or search.centre in metres?"
HINTS = {
    SkipReason.NO_EPHEMERIS: OTHER_DAY,
    SkipReason.NOT_NEAR_IN_TIME: OTHER_DAY,
    SkipReason.NEAR_EARTH_CENTRE: NO_CENTRE,
    SkipReason.NOT_SEEN_BY_STATION: "; is its file of another day, or station.age too short?",
    SkipReason.FAR_FROM_STATION: "; is a clock 16 ms off, or the station's file another one's?",
}
ONE_MESSAGE = "; only records of F/NAV are taken, or by galileo.message those of I/NAV"
GALILEO_HINTS = HINTS | dict.fromkeys((SkipReason.NO_EPHEMERIS, SkipReason.NOT_NEAR_IN_TIME), ONE_MESSAGE)
EARTH_M = (6_300_000, 6_500_000)
MOST_HALF_MM = 100_000_000  # the settings' limit
LEFT = (
    "or the receiver had left the search box; a box that a receiver leaves makes its regions small"
    " before they are empty, so look at those before and behind too"
)
STRICT = 3  # the status of --strict where there is a warning


def volume_text(volume: float) -> str:
    """A volume in cubic metres: whole, or with an exponent where it is long."""
    return f"{volume:.0f}" if volume < 1e9 else f"{volume:.3e}"


def mark_of(epoch: Epoch, region: Region | None) -> str:
    """The mark of an epoch, or an empty text."""
    if epoch.few:
        return "few"
    if region is None:
        return "lost" if epoch.moves else "empty"
    return "reaches" if region.faces else ""


def text_cells(epoch: Epoch, region: Region | None) -> list[str]:
    """The values of an epoch as its line shows them, up to the mark; without a region the first three."""
    cells = [str(epoch.index), calendar(epoch.ps), str(epoch.satellites)]
    if region is None:
        return cells
    inner = sum(kept.inner for kept in epoch.kept)
    latitude, longitude, height = geodetic(region.middle())
    cells += [str(inner), str(len(epoch.kept) - inner)]
    cells += [f"{upward(width):.1f}" for width in (*region.widths(), region.clock[1] - region.clock[0])]
    cells += [volume_text(region.volume), f"{math.degrees(latitude):.7f}", f"{math.degrees(longitude):.7f}"]
    return cells + [f"{height:.1f}"]


def place_head(judge: Judge) -> str:
    """The columns that known places add."""
    head = f" {'held':>4} {'hpl m':>8} {'vpl m':>8}"
    return head + f" {'along m':>8} {'across m':>8}" if judge.has_direction else head


def place_text(judge: Judge, found: Numbers | None) -> str:
    """What a line says of the known place."""
    if found is None:
        return " " * len(place_head(judge))
    text = f" {'yes' if found.held else 'no':>4} {upward(found.hpl):8.1f} {upward(found.vpl):8.1f}"
    if not judge.has_direction:
        return text
    pair = (found.along, found.across)
    return text + "".join(" " * 9 if length is None else f" {upward(length):8.1f}" for length in pair)


def text_line(epoch: Epoch, region: Region | None, mark: str, place: str = "") -> str:
    """The line of an epoch, with what it says of a known place."""
    number, time, satellites, *more = text_cells(epoch, region)
    head = f"{number:>6}  {time:<23} {satellites:>4}"
    if region is None:
        return f"{head} {mark}"
    line = head + "".join(f" {cell:>{width}}" for cell, width in zip(more, WIDTHS))
    certified = " certified" if region.certified else ""
    return f"{line}{place}{certified} {mark} {' '.join(region.faces)}".rstrip()


def direction_values(found: Numbers) -> list[str]:
    """The azimuth in degrees and what is along and across it, empty where there is none."""
    if found.azimuth is None or found.along is None or found.across is None:
        return [""] * 3
    degrees = f"{math.degrees(found.azimuth) % 360:.3f}"
    return [degrees, f"{upward(found.along):.1f}", f"{upward(found.across):.1f}"]


def place_values(judge: Judge, region: Region | None, found: Numbers | None) -> list[Cell]:
    """The values of an epoch in the order of PLACE_COLUMNS, empty where there is none."""
    if found is None or region is None:
        return [""] * len(PLACE_COLUMNS)
    lengths = (found.hpl, found.vpl, *found.error, *found.reach)
    line: list[Cell] = [int(found.held), *(f"{upward(length):.1f}" for length in lengths)]
    line += direction_values(found)
    if judge.limits is None:
        return line + ["", int(not found.held), ""]
    cut = bool(region.faces)
    available = found.is_available(judge.limits, cut)
    hazardous = found.is_hazardous(judge.limits, cut)
    return line + [int(available), int(not found.held), int(hazardous)]


def csv_line(epoch: Epoch, region: Region | None, mark: str) -> list[Cell]:
    """The values of an epoch in the order of COLUMNS; those of no region are empty."""
    inner = sum(kept.inner for kept in epoch.kept)
    seconds, ms = divmod((epoch.ps + PS_PER_MS // 2) // PS_PER_MS, 1000)
    line: list[Cell] = [epoch.index, calendar(epoch.ps), f"{seconds}.{ms:03}", mark or "ok"]
    line += [epoch.satellites, inner, len(epoch.kept) - inner, epoch.outs, epoch.splits]
    if region is None:
        return line + [""] * (len(COLUMNS) - len(line))
    latitude, longitude, height = geodetic(region.middle())
    line += [f"{upward(width):.1f}" for width in region.widths()]
    line += [f"{end:.3f}" for end in region.clock] + [f"{region.volume:.6g}"]
    line += [f"{math.degrees(latitude):.9f}", f"{math.degrees(longitude):.9f}", f"{height:.3f}"]
    return line + [f"{value:.3f}" for value in region.middle()] + [" ".join(region.faces)]


def certified_values(region: Region | None) -> list[Cell]:
    """The value of an epoch in the order of CERTIFIED_COLUMNS."""
    return ["" if region is None else int(region.certified)]


class Totals:
    """What the last lines say of all epochs."""

    def __init__(self) -> None:
        self.epochs = 0
        self.marks: Counter[str] = Counter()
        self.first = self.last = 0  # the numbers of epochs
        self.lost: list[int] = []  # the numbers of epochs
        self.skips: Counter[SkipReason] = Counter()  # the reasons why satellites of few epochs aren't used
        self.galileo: Counter[SkipReason] = Counter()  # those of Galileo of paved epochs
        self.galileo_used = 0  # how many rows of Galileo satellites there are
        self.hull: Box | None = None  # of all kept boxes, in um
        self.half_side = self.from_centre = 0.0  # of the last search box, in m

    def add(self, epoch: Epoch, mark: str) -> None:
        """Counts an epoch."""
        self.epochs += 1
        self.marks[mark] += 1
        self.first = self.first or epoch.index
        self.last = epoch.index
        if mark == "lost":
            self.lost.append(epoch.index)
        if epoch.few:
            self.skips.update(skip.reason for skip in epoch.skips)
        else:
            self.galileo.update(it.reason for it in epoch.skips if it.satellite[0] == "E")
            self.galileo_used += sum(row.satellite[0] == "E" for row in epoch.rows)
        if epoch.kept:
            self.hull = hull_of(epoch.boxes + ([self.hull] if self.hull else []))
        if epoch.search is not None:
            self.half_side = max(epoch.search.sides) / 2
            self.from_centre = math.hypot(*epoch.search.centre)

    def line(self) -> str:
        """The summing line."""
        return (
            f"epochs {self.epochs}: {self.regions} with a region, of which"
            f" {self.marks['reaches']} reach the search box; {self.marks['few']} few,"
            f" {self.marks['empty']} empty" + (f"; lost at epoch {', '.join(map(str, self.lost))}" if self.lost else "")
        )

    def covered(self, path: PathLike) -> str:
        """How many epochs of an observation file the log has."""
        numbers = f", numbers {self.first} to {self.last}" if self.epochs else ""
        try:
            return f"the log covers {self.epochs} of the {file_epochs(path)} epochs of {path}{numbers}"
        except ValueError:
            raise Error(f"{path}: this isn't a file of observations") from None

    @property
    def regions(self) -> int:
        """How many epochs have one."""
        return self.marks[""] + self.marks["reaches"]

    def warnings(self) -> Iterator[str]:
        """What must not be passed over: each mark that there is, with its count."""
        paved = self.epochs - self.marks["few"]
        few, empty, reaches = (self.marks[mark] for mark in ("few", "empty", "reaches"))
        if self.epochs == 0:
            yield "the log has no epochs: is --from behind the last one of the file?"
        if few and few == self.epochs:
            yield f"every epoch has too few usable satellites; {self.why_few()}"
        elif few:
            yield f"{few} of {self.epochs} epochs have too few usable satellites; {self.why_few()}"
        for index in self.lost:
            yield f"epoch {index} is lost: {self.what_lost(index)}"
        if empty and empty == paved:
            yield f"every paved epoch is empty; {self.why_empty()}"
        elif empty:
            yield (
                f"{empty} of {paved} paved epochs are empty: more satellites than allowed broke their bounds, {LEFT}"
            )
        if reaches and reaches == self.regions:
            yield f"every region reaches the search box; {self.why_reaches()}"
        elif reaches:
            yield (
                f"{reaches} of {self.regions} regions reach the search box, whose half side is"
                f" {self.half_side:g} m: they may go on outside, and look smaller than they are"
            )
        if self.galileo and not self.galileo_used:
            yield f"no Galileo satellite is used; {self.why_no_galileo()}"

    def box(self) -> tuple[list[int], list[int]]:
        """The least search box that holds all kept boxes: its centre and its half sides in whole mm."""
        if self.hull is None:
            raise Error("no epoch has a region")
        low = [end // UM_PER_MM for end in self.hull[:3]]
        high = [-(-end // UM_PER_MM) for end in self.hull[3:]]
        centre = [(a + b) // 2 for a, b in zip(low, high)]
        return centre, [max(c - a, b - c) for a, b, c in zip(low, high, centre)]

    def box_lines(self) -> Iterator[str]:
        """That box as lines of the settings."""
        centre, half = self.box()
        yield f"centre = {centre}"
        yield f"half = {half}"

    def why_few(self) -> str:
        """The most frequent reason why a satellite isn't used."""
        if not self.skips:
            return "the file has few satellites of the systems that are used"
        reason, count = self.skips.most_common(1)[0]
        return f"{count} times a satellite isn't used since {reason.words}{HINTS.get(reason, '')}"

    def why_no_galileo(self) -> str:
        """The most frequent reason why a Galileo satellite isn't used."""
        reason, count = self.galileo.most_common(1)[0]
        return f"{count} times one isn't since {reason.words}{GALILEO_HINTS.get(reason, '')}"

    def why_empty(self) -> str:
        """Where the search box is, if it isn't at the earth's surface."""
        if EARTH_M[0] < 1000 * self.from_centre < EARTH_M[1]:
            return "is search.centre in metres, where millimetres are meant?"
        if not EARTH_M[0] < self.from_centre < EARTH_M[1]:
            return (
                f"the search box is round a point {self.from_centre / 1000:.0f} km from the earth's"
                " centre: is the position in the header zero?"
            )
        return "the bounds are too narrow, or the receiver is outside the search box"

    def what_lost(self, index: int) -> str:
        """What a lost epoch says, of which epochs the log speaks, and how to go on; or that the track begins anew."""
        what = (
            "no trajectory in the search box keeps the declared speed and bounds up to there, so"
            " some of them were broken, there or before, and regions before it may be wrong too; "
        )
        if index < self.last:
            return f"{what}the track begins anew behind it, and a yes of retrack speaks of each piece by itself"
        return (
            f"{what}a yes of retrack speaks of the log's {self.epochs} epochs alone, {self.first} to"
            f" {self.last}: go on with --from {self.last + 1}"
        )

    def why_reaches(self) -> str:
        """The size of the search box, and what may be wrong with it."""
        box = f"its half side is {self.half_side:g} m"
        if self.half_side < 10:
            return f"{box}: is search.half in metres, where millimetres are meant?"
        return f"{box}: it is too small, or there are too few splits"


def summarize(
    path: PathLike,
    write_line: WriteLine,
    outlines: TextIO | None = None,
    judge: Judge | None = None,
    search: Box | None = None,
) -> Totals:
    """Goes through a log once, and hands each epoch's line to `write_line`. `search` is as `log.epochs` has it.

    What is to be said of all.
    """
    totals = Totals()
    for epoch in epochs(path, search):
        region = region_or_none(epoch)
        mark = mark_of(epoch, region)
        totals.add(epoch, mark)
        write_line(epoch, region, mark, None if judge is None else judge.add(epoch, region))
        if outlines is not None:
            outlines.write(kml.placemark(epoch, region, mark))
    if judge is not None:
        judge.meetings.refuse_strangers()
    return totals


def place_arguments(parser: argparse.ArgumentParser) -> None:
    """The words on known places."""
    way = parser.add_mutually_exclusive_group()
    way.add_argument(
        "--azimuth", type=measure, metavar="A", help="look along and across A degrees from north, clockwise"
    )
    way.add_argument("--along", metavar="FILE", help="look along and across a track, a list of places")
    limit_argument(parser)


def arguments(parser: argparse.ArgumentParser) -> None:
    """The words of the command line."""
    parser.add_argument("log", metavar="LOG")
    form = parser.add_mutually_exclusive_group()
    form.add_argument("--csv", action="store_true", help="print comma-separated values, and the warnings on stderr")
    form.add_argument("--box", action="store_true", help="print the least search box round all kept boxes")
    parser.add_argument("--kml", metavar="FILE", help="write the outline of each region to FILE")
    parser.add_argument("--strict", action="store_true", help=f"end with {STRICT} where there is a warning")
    parser.add_argument("--obs", metavar="OBS", help="say how many epochs of this observation file the log covers")
    parser.add_argument("--settings", metavar="SETTINGS", help="take the search box of these settings")
    parser.add_argument("--places", metavar="FILE", help="a list of known places")
    place_arguments(parser)


def judge_of(args: argparse.Namespace) -> Judge | None:
    """Who looks at known places, or None."""
    if args.places is None:
        if (args.azimuth, args.along, args.limit) != (None, None, None):
            raise UsageError("--azimuth, --along and --limit need --places")
        return None
    azimuth = None if args.azimuth is None else math.radians(args.azimuth)
    track = None if args.along is None else read_places(args.along)
    limits = None if args.limit is None else Limits(*args.limit)
    return Judge(Meetings.of(args.places), azimuth, track, limits)


def searched_in(args: argparse.Namespace) -> Box | None:
    """The search box of the settings that the words name, or None."""
    return None if args.settings is None else search_of(args.settings, args.obs)


def print_text(args: argparse.Namespace, outlines: TextIO | None, judge: Judge | None) -> Totals:
    """Prints the lines and what is to be said of all epochs. The warnings."""
    print(HEAD + (place_head(judge) if judge else ""))

    def write(epoch: Epoch, region: Region | None, mark: str, found: Numbers | None) -> None:
        print(text_line(epoch, region, mark, place_text(judge, found) if judge else ""))

    totals = summarize(args.log, write, outlines, judge, searched_in(args))
    print(totals.line())
    if args.obs is not None:
        print(totals.covered(args.obs))
    if judge:
        print(*judge.lines(), sep="\n")
    return totals


def csv_writer(file: TextIO, log: PathLike, judge: Judge | None = None) -> WriteLine:
    """Writes the names of the values, and gives what writes those of an epoch."""
    writer, bounded = csv.writer(file, lineterminator="\n"), has_bounds(log)
    writer.writerow(COLUMNS + (PLACE_COLUMNS if judge else []) + (CERTIFIED_COLUMNS if bounded else []))

    def write(epoch: Epoch, region: Region | None, mark: str, found: Numbers | None) -> None:
        line = csv_line(epoch, region, mark) + (place_values(judge, region, found) if judge else [])
        writer.writerow(line + (certified_values(region) if bounded else []))

    return write


def print_csv(args: argparse.Namespace, outlines: TextIO | None, judge: Judge | None) -> Totals:
    """Prints the values of all epochs."""
    write = csv_writer(sys.stdout, args.log, judge)
    return summarize(args.log, write, outlines, judge, searched_in(args))


def print_box(args: argparse.Namespace, outlines: TextIO | None, judge: Judge | None) -> Totals:
    """Prints the box round all kept boxes."""
    totals = summarize(args.log, lambda *of_epoch: None, outlines, judge, searched_in(args))
    print(*totals.box_lines(), sep="\n")
    if max(totals.box()[1]) > MOST_HALF_MM:
        print("warning: half is more than the 100 km that settings allow", file=sys.stderr)
    return totals


def print_summary(args: argparse.Namespace, outlines: TextIO | None) -> bool:
    """Prints the summary of the log in the wanted form, and the warnings. Whether there are any."""
    judge = judge_of(args)
    form = print_box if args.box else print_csv if args.csv else print_text
    totals = form(args, outlines, judge)
    warnings = [*totals.warnings(), *(judge.warnings() if judge else ())]
    for warning in warnings:
        print(f"warning: {warning}", file=sys.stdout if form is print_text else sys.stderr)
    return bool(warnings)


def run(args: argparse.Namespace) -> int:
    """Prints the summary, and writes the map. The status."""
    if args.kml is None:
        warned = print_summary(args, None)
    else:
        with whole_file(args.kml) as outlines:
            outlines.write(kml.head())
            warned = print_summary(args, outlines)
            outlines.write(kml.TAIL)
    return STRICT if warned and args.strict else 0


COMMAND = Command("summary", "a line for each epoch of a log", arguments, run, __doc__)
