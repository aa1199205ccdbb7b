"""The values of a log: an epoch with its boxes, rows, bounds and skipped satellites, and its time.

Lengths are whole micrometres (um), as in the log. Times are picoseconds (ps) since 1980-01-06 00:00:00 GPS time.
"""

from __future__ import annotations

import datetime
import math
from dataclasses import dataclass, field
from enum import Enum
from typing import NamedTuple

Point = tuple[float, float, float]

UM_PER_M = 1_000_000
UM_PER_MM = 1000
PS_PER_MS = 1_000_000_000
PS_PER_US = 1_000_000
GPS_EPOCH = datetime.datetime(1980, 1, 6)


class SkipReason(str, Enum):
    """Why a satellite isn't used. The value is the reason's number in a log."""

    NO_CODE = "1"
    CODE_OUT_OF_RANGE = "2"
    NO_EPHEMERIS = "3"
    NOT_HEALTHY = "4"
    NOT_NEAR_IN_TIME = "5"
    EPHEMERIS_OUT_OF_BOUNDS = "6"
    NEAR_EARTH_CENTRE = "7"
    NOT_SEEN_BY_STATION = "8"
    FAR_FROM_STATION = "9"

    @property
    def words(self) -> str:
        """The reason as a part of a sentence."""
        return SKIP_WORDS[self]


SKIP_WORDS = {
    SkipReason.NO_CODE: "a wanted code is missing",
    SkipReason.CODE_OUT_OF_RANGE: "a code is out of range",
    SkipReason.NO_EPHEMERIS: "it has no ephemeris",
    SkipReason.NOT_HEALTHY: "none of its ephemerides is healthy",
    SkipReason.NOT_NEAR_IN_TIME: "none of its ephemerides is near enough in time",
    SkipReason.EPHEMERIS_OUT_OF_BOUNDS: "its ephemeris is out of bounds",
    SkipReason.NEAR_EARTH_CENTRE: "the search box comes too near to the earth's centre",
    SkipReason.NOT_SEEN_BY_STATION: "the station doesn't have it then",
    SkipReason.FAR_FROM_STATION: "its codes at receiver and station are far apart",
}


class Interval(NamedTuple):
    """All numbers from `low` to `high`, both included; in um."""

    low: int
    high: int

    @property
    def width(self) -> int:
        """How far it reaches."""
        return self.high - self.low

    def to_metres(self) -> tuple[float, float]:
        """Both ends in metres."""
        return self.low / UM_PER_M, self.high / UM_PER_M


class Box(NamedTuple):
    """A box in the earth-fixed frame, in um. Its ends belong to it."""

    x_low: int
    y_low: int
    z_low: int
    x_high: int
    y_high: int
    z_high: int

    @property
    def low(self) -> tuple[int, int, int]:
        """The low corner x, y, z in um."""
        return self[:3]

    @property
    def high(self) -> tuple[int, int, int]:
        """The high corner x, y, z in um."""
        return self[3:]

    @property
    def centre(self) -> Point:
        """The middle x, y, z in metres."""
        x, y, z = ((low + high) / (2 * UM_PER_M) for low, high in zip(self.low, self.high))
        return x, y, z

    @property
    def sides(self) -> Point:
        """The lengths along x, y and z in metres."""
        x, y, z = ((high - low) / UM_PER_M for low, high in zip(self.low, self.high))
        return x, y, z

    @property
    def volume(self) -> float:
        """The volume in cubic metres."""
        x, y, z = self.sides
        return x * y * z

    def contains(self, point: Point) -> bool:
        """Whether a point x, y, z in metres, taken to the nearest um, lies in it."""
        x, y, z = (round(part * UM_PER_M) for part in point)
        return self.x_low <= x <= self.x_high and self.y_low <= y <= self.y_high and self.z_low <= z <= self.z_high

    def to_metres(self) -> tuple[Point, Point]:
        """The low and the high corner in metres."""
        a, b, c, d, e, f = (end / UM_PER_M for end in self)
        return (a, b, c), (d, e, f)


class Skip(NamedTuple):
    """A satellite that isn't used, why, and the number of the ephemeris' field or an empty text."""

    satellite: str
    reason: SkipReason
    field: str


class Rules(NamedTuple):
    """The rules of a log: q, the most splits of an epoch, and the width in um of the least box."""

    outliers: int
    splits: int
    width: int


@dataclass(slots=True)
class Row:
    """A usable satellite's spans in um: of its place, corrected pseudorange and declared error."""

    satellite: str
    place: tuple[Interval, Interval, Interval]  # x, y, z
    range: Interval
    error: Interval  # the widest one that is declared at a point of the row's box
    sure: Interval  # what is declared at every point, whose low end may be above the high one


@dataclass(slots=True)
class Renewal:
    """Rows formed anew over a box that holds all live boxes; in use from there on."""

    steps: int  # how many steps stand before it
    box: Box
    rows: list[Row]  # of the same satellites as the epoch's first rows, in the same order


@dataclass(slots=True)
class Kept:
    """An `in` or `edge` box and its span of clock offsets in um.

    Each point of an inner box fits, of others it may.
    """

    box: Box
    inner: bool
    clock: Interval
    rows: list[Row]  # those in use where it was closed: the epoch's own list, or a renewal's


class Term(NamedTuple):
    """A row in a sum: its place among those of the bounds, from 0, and how many times it is taken."""

    place: int
    times: int


class RowSum(NamedTuple):
    """A sum of rows that shows a bound while none of them is left out.

    The bound's direction is in it `aim` times.
    """

    aim: int
    terms: tuple[Term, ...]


@dataclass(slots=True)
class Bound:
    """A half-space that holds what fits.

    The points x, y, z in um whose product with `direction` is at most `most`.
    """

    direction: tuple[int, int, int]
    most: int
    sums: list[RowSum]

    def reach(self, point: Point) -> float:
        """How many metres along the direction what fits may lie beyond a point x, y, z in metres.

        The point is taken to the nearest um. Below zero where the point is outside.
        """
        left = self.most - sum(part * round(at * UM_PER_M) for part, at in zip(self.direction, point))
        length = math.hypot(*self.direction)
        return left / length / UM_PER_M if length else math.copysign(math.inf, left)


@dataclass(slots=True)
class Epoch:
    """A block of a log. A few block has no rows, no root and no boxes; one without is empty.

    index       the epoch's number in the observation file
    ps          its time of reception by the receiver's clock, in ps; `time` is the same as a date
    satellites  how many are usable
    few         whether these are too few, so that the epoch isn't paved
    outliers    how many of them may break their bounds
    rows        what the log has of each usable satellite over the search box
    renewals    where it has rows over a smaller box
    skips       what it has of the satellites that aren't used
    root        the search box, or None
    search      in a log of `track` the search box of the first epoch, which is that of the
                settings; else the root
    moves       whether the log is one of `track`, as far as the search boxes up to here tell
    kept        the boxes where a position may fit
    outs        how many `out` lines there are
    splits      how many boxes were split
    bounds      half-spaces that hold what fits
    """

    index: int
    ps: int
    satellites: int
    few: bool
    outliers: int
    rows: list[Row] = field(default_factory=list)
    renewals: list[Renewal] = field(default_factory=list)
    skips: list[Skip] = field(default_factory=list)
    root: Box | None = None
    search: Box | None = None
    moves: bool = False
    kept: list[Kept] = field(default_factory=list)
    outs: int = 0
    splits: int = 0
    bounds: list[Bound] = field(default_factory=list)

    @property
    def time(self) -> datetime.datetime:
        """The time of reception in GPS time, to the nearest microsecond, without a zone."""
        return gps_time(self.ps)

    @property
    def boxes(self) -> list[Box]:
        """The boxes where a position may fit."""
        return [kept.box for kept in self.kept]

    @property
    def empty(self) -> bool:
        """Whether it is paved and no position fits."""
        return not self.few and not self.kept


def gps_time(ps: int) -> datetime.datetime:
    """A time in ps as a date in GPS time without a zone, to the nearest microsecond."""
    return GPS_EPOCH + datetime.timedelta(microseconds=(ps + PS_PER_US // 2) // PS_PER_US)


def calendar(ps: int) -> str:
    """A time in ps as date and time of day in GPS time, to the nearest millisecond."""
    ms = datetime.timedelta(milliseconds=(ps + PS_PER_MS // 2) // PS_PER_MS)
    return (GPS_EPOCH + ms).isoformat(sep=" ", timespec="milliseconds")
