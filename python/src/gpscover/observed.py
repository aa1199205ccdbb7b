"""Tells how much of their declared bounds the satellites used, at a known place of the receiver.

usage: gpslog observed LOG (--place X Y Z | --places FILE) [--csv] [--stretch SECONDS]
[--confidence C]

LOG is one of `solve` or `track`, with a station or without, also one without splits. X Y Z is where
the receiver stood, in the earth-fixed frame in metres; FILE is a list of places. Rows are those of
the last renewal whose box holds the place, or else the epoch's first ones.

At a known place a row leaves of a satellite's error and the receiver's clock offset their sum, within
some mm where its box is small: give LOG a search box of 10 m, or rows that are renewed. Which clock
offset it was isn't known. So of each epoch these are found, in whole numbers and exact fractions:
  passed   the least number of bounds that are passed, whatever the clock offset was. Where it is q or
           less, and there alone, the place fits, so that each region holds it.
  error    of each satellite, over the clock offsets that are left: those at which so few are passed.
           A bound is surely passed where it is passed at each of them.
  part     how much of the bounds was used: the least number by which all of them could have been made
           narrower, round their middles, with no more of them passed at one clock offset. At this
           offset each satellite has its own part; the greatest of those that keep theirs is that of
           the epoch.
So a part is a least one: at any other clock offset some satellite used more of its bounds.

The tables are by elevation and by satellite, in metres. A bound that may be passed with probability p
is what `gpslog risk` asks for. Errors of one satellite hardly differ from epoch to epoch; so it counts as
one trial in each stretch of 1,800 s (--stretch), which fails where its bound is surely passed in one of
its epochs, and the last line has the p that so many failures would exclude with a confidence of 0.95.

docs/GUIDE_PLACES.md says what may be concluded, and what not. --csv has a line a row, each part as a fraction.

Exit status: 0; 1 where a file can't be read, LOG is no whole log, or no epoch has a place; 2 for a
wrong command line.
"""

from __future__ import annotations

import argparse
import decimal
import math
from collections import Counter
from collections.abc import Iterable, Iterator
from dataclasses import dataclass
from fractions import Fraction

from gpscover.command import Command, measure
from gpscover.errors import Error, UsageError
from gpscover.geodesy import Vector, elevation
from gpscover.integrity import in_um
from gpscover.log import UM_PER_M, Box, Epoch, Interval, PathLike, Row, calendar, epochs
from gpscover.places import ALWAYS, Meetings
from gpscover.risk import decimal_of, greatest_p, probability

BANDS = (-90, 5, 10, 15, 30, 45, 60, 91)  # degrees; the first and the last one are 0 and 90 where they are printed
PS_PER_S = 10**12
HEADS = "epoch gps_time satellite elevation_deg declared_low_um declared_high_um error_low_um error_high_um part passed"


@dataclass(frozen=True)
class Observed:
    """A row of an epoch at the known place; lengths in um."""

    satellite: str
    angle: float  # its elevation in radians
    declared: Interval
    error: Interval  # over the clock offsets that are left
    part: Fraction  # of its bound, below zero where the error is below the bound's middle
    passed: bool  # surely


@dataclass(frozen=True)
class Found:
    """An epoch at the known place."""

    index: int
    ps: int
    passed: int  # the least number of bounds that are passed
    part: Fraction
    rows: list[Observed]


def point_box(place: Vector) -> Box:
    """The box of a point in m alone."""
    return Box._make(in_um(place) * 2)


def rows_at(epoch: Epoch, at: Box) -> list[Row]:
    """The rows of the last renewal whose box holds a point, or else the epoch's first ones."""
    for renewal in reversed(epoch.renewals):
        if all(a <= b for a, b in zip(renewal.box.low, at.low)) and all(
            a >= b for a, b in zip(renewal.box.high, at.high)
        ):
            return renewal.rows
    return epoch.rows


def sum_at(row: Row, at: Box) -> Interval:
    """The sum of a row's error and the clock offset at a point: least and greatest."""
    near = far = 0
    for (low, high), end in zip(row.place, at.low):
        near += max(0, low - end, end - high) ** 2
        far += max(high - end, end - low) ** 2
    return Interval(row.range.low - math.isqrt(far), row.range.high - math.isqrt(near))


def pieces(spans: list[tuple[int, int]], wanted: int) -> list[tuple[int, int, set[int]]]:
    """Where at least so many spans meet: from each low end on to the first high end behind it, with the spans that
    meet there."""
    found = []
    for start in sorted({low for low, _ in spans}):
        holding = {k for k, (low, high) in enumerate(spans) if low <= start <= high}
        if len(holding) >= wanted:
            found.append((start, min(spans[k][1] for k in holding), holding))
    return found


def scaled(sums: list[Interval], bounds: list[Interval], part: Fraction) -> list[tuple[int, int]]:
    """The clock spans by a part of each bound, in units of 1 um over twice the part's denominator."""
    over, spans = part.denominator, []
    for (low, high), (least, most) in zip(sums, bounds):
        room = part.numerator * (most - least)
        middle = over * (least + most)
        spans.append((2 * over * low - middle - room, 2 * over * high - middle + room))
    return spans


def least_part(sums: list[Interval], bounds: list[Interval], wanted: int) -> tuple[Fraction, Fraction]:
    """The least part of all bounds at which so many spans meet, and the first clock offset where they do.

    Two spans begin to meet at one part, so it is zero or that of two of them.
    """
    parts = {Fraction(0)}
    for (low, _), (least, most) in zip(sums, bounds):
        for (_, high), (other_least, other_most) in zip(sums, bounds):
            width = most - least + other_most - other_least
            apart = 2 * (low - high) - (least + most) + (other_least + other_most)
            if width and apart > 0:
                parts.add(Fraction(apart, width))
    tried = sorted(parts)
    first, last = 0, len(tried) - 1
    while first < last:
        middle = (first + last) // 2
        first, last = (first, middle) if pieces(scaled(sums, bounds, tried[middle]), wanted) else (middle + 1, last)
    part = tried[first]
    met = pieces(scaled(sums, bounds, part), wanted)
    if not met:
        raise Error("bounds that are single numbers have no part")
    return part, Fraction(met[0][0], 2 * part.denominator)


def part_of(total: Interval, bound: Interval, clock: Fraction) -> Fraction:
    """How much of its bound a row uses at least at a clock offset, with the sign of what it is off its middle."""
    middle = Fraction(sum(bound), 2)
    low, high = total.low - clock - middle, total.high - clock - middle
    nearest = low if low > 0 else min(high, Fraction(0))
    if nearest and not bound.width:
        raise Error("bounds that are single numbers have no part")
    return nearest / Fraction(bound.width, 2) if nearest else Fraction(0)


def found_at(epoch: Epoch, place: Vector) -> Found:
    """What an epoch with rows says at a known place in m."""
    at = point_box(place)
    rows = rows_at(epoch, at)
    sums, bounds = [sum_at(row, at) for row in rows], [row.error for row in rows]
    spans = [(low - most, high - least) for (low, high), (least, most) in zip(sums, bounds)]
    most_held = max(len(holding) for _, _, holding in pieces(spans, 1))
    left = pieces(spans, most_held)
    kept = set().union(*(holding for _, _, holding in left))
    first, last = left[0][0], max(end for _, end, _ in left)
    part, clock = least_part(sums, bounds, most_held)
    seen = [
        Observed(
            row.satellite,
            elevation(place, [(low + high) / 2 / UM_PER_M for low, high in row.place]),
            row.error,
            Interval(total.low - last, total.high - first),
            part_of(total, row.error, clock),
            k not in kept,
        )
        for k, (row, total) in enumerate(zip(rows, sums))
    ]
    return Found(epoch.index, epoch.ps, len(rows) - most_held, part, seen)


def observed(path: PathLike, meetings: Meetings) -> Iterator[Found]:
    """The epochs of a log that have rows and a known place. Error where there is none."""
    none = True
    for epoch in epochs(path):
        place = meetings.at(epoch.ps)
        if place is not None and epoch.rows:
            none = False
            yield found_at(epoch, place)
    meetings.refuse_strangers()
    if none:
        raise Error(f"{path} has no satellites: every epoch is few")


def metres(ends: Iterable[Interval]) -> str:
    """The span of some spans, in m, rounded outward."""
    lows, highs = zip(*ends)
    low, high = (math.floor(min(lows) / 10_000) / 100, math.ceil(max(highs) / 10_000) / 100)
    return f"{low:9.2f} to {high:7.2f}"


def share(part: Fraction) -> str:
    """A part as a decimal of two digits, rounded up."""
    return f"{math.ceil(100 * part) / 100:.2f}"


def used(rows: list[Observed]) -> str:
    """What is said of some rows: how many, declared, found, parts, and how many surely passed their bounds."""
    parts = sorted(abs(row.part) for row in rows)
    middle, most = parts[(len(parts) - 1) // 2], parts[-1]
    spans = f"{metres(row.declared for row in rows)} {metres(row.error for row in rows)}"
    return f"{len(rows):6} {spans}  {share(middle):>6} {share(most):>8} {sum(row.passed for row in rows):7}"


def table_lines(rows: list[Observed]) -> Iterator[str]:
    """The tables by elevation and by satellite."""
    heads = f"{'rows':>6} {'declared m':>20} {'error m':>20}  {'median':>6} {'greatest':>8} {'passed':>7}"
    yield f"degrees   {heads}"
    for low, high in zip(BANDS, BANDS[1:]):
        if inside := [row for row in rows if low <= math.degrees(row.angle) < high]:
            yield f"{max(low, 0):2} to {min(high, 90):2}  {used(inside)}"
    yield f"satellite {heads}"
    for name in sorted({row.satellite for row in rows}):
        yield f"{name:9} {used([row for row in rows if row.satellite == name])}"


def trial_lines(found: list[Found], seconds: Fraction, confidence: Fraction) -> Iterator[str]:
    """How often a bound was passed, and which p that excludes."""
    counts = Counter(epoch.passed for epoch in found)
    said = ", ".join(f"{count} in {counts[count]}" for count in sorted(counts))
    yield f"the least number of bounds that are passed: {said} epochs"
    trials: dict[tuple[str, int], bool] = {}
    for epoch in found:
        stretch = int((epoch.ps - found[0].ps) // (seconds * PS_PER_S))
        for row in epoch.rows:
            trials[row.satellite, stretch] = trials.get((row.satellite, stretch), False) or row.passed
    failed = sum(trials.values())
    p = greatest_p(len(trials), failed, confidence)[1] or Fraction(1)
    yield (
        f"bounds passed in {failed} of {len(trials)} stretches of a satellite, of {float(seconds):g} s each: if these"
        f" are independent, p is less than {decimal_of(p, decimal.ROUND_CEILING)} with a confidence of"
        f" {float(confidence):g}"
    )


def lines(found: list[Found], seconds: Fraction, confidence: Fraction) -> Iterator[str]:
    """All that is said of a log."""
    rows = [row for epoch in found for row in epoch.rows]
    yield from table_lines(rows)
    most = max(found, key=lambda epoch: epoch.part)
    yield (
        f"epochs {len(found)}: with {share(most.part)} of all bounds no more would have been passed; most is used in"
        f" epoch {most.index} {calendar(most.ps)}"
    )
    yield from trial_lines(found, seconds, confidence)


def csv_lines(found: Iterable[Found]) -> Iterator[str]:
    """A line a row, for programs."""
    yield HEADS.replace(" ", ",")
    for epoch in found:
        for row in epoch.rows:
            ends = ",".join(map(str, (*row.declared, *row.error)))
            head = f"{epoch.index},{calendar(epoch.ps)},{row.satellite},{math.degrees(row.angle):.2f}"
            yield f"{head},{ends},{row.part},{int(row.passed)}"


def place_words(parser: argparse.ArgumentParser) -> None:
    """The words of a known place, or of a list of places."""
    ways = parser.add_mutually_exclusive_group(required=True)
    ways.add_argument("--place", nargs=3, type=measure, metavar=("X", "Y", "Z"), help="where the receiver stood, m")
    ways.add_argument("--places", metavar="FILE", help="a list of known places")


def meetings_of(args: argparse.Namespace) -> Meetings:
    """The places that the words name."""
    if args.places:
        return Meetings.of(args.places)
    x, y, z = args.place
    return Meetings(None, [(ALWAYS, (x, y, z))])


def arguments(parser: argparse.ArgumentParser) -> None:
    """The words of the command line."""
    parser.add_argument("log", metavar="LOG")
    place_words(parser)
    parser.add_argument("--csv", action="store_true", help="a line a row, for programs")
    parser.add_argument("--stretch", type=Fraction, default=Fraction(1800), metavar="SECONDS", help="(1800)")
    parser.add_argument("--confidence", type=probability, default=Fraction("0.95"), metavar="C", help="(0.95)")


def run(args: argparse.Namespace) -> int:
    """Prints the tables. The status."""
    if args.stretch <= 0 or args.confidence in (0, 1):
        raise UsageError("a stretch is above 0 s, and a confidence above 0 and below 1")
    found = observed(args.log, meetings_of(args))
    print(*(csv_lines(found) if args.csv else lines(list(found), args.stretch, args.confidence)), sep="\n")
    return 0


ABOUT = "how much of the declared bounds the satellites used, at a known place"
COMMAND = Command("observed", ABOUT, arguments, run, __doc__)
