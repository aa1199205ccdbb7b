"""What a region says of a known place: whether it holds it, and how far it reaches from it.

The region is the kept boxes. Where the log has certified bounds that have an end on all sides, it is what these leave.
All lengths are of the declared bounds and hold while these do; none of them is of a probability. A receiver doesn't
know its place. So what a user of the region can do is judged by its middle: the middle is the position that is
reported, the farthest corner from it the protection, and how far it is from the known place the error.
"""

from __future__ import annotations

import argparse
import math
from collections.abc import Iterator, Sequence
from dataclasses import dataclass

from gpscover.certified import corners_of
from gpscover.command import measure
from gpscover.geodesy import Frame, Vector, dot
from gpscover.log import UM_PER_M, Epoch
from gpscover.places import Meetings, Place, direction
from gpscover.region import Region, extent_along, half_sides, offsets, upward

Pair = tuple[float, float]  # along the ground, and up or down; in m


@dataclass
class Limits:
    """Alert limits in m."""

    horizontal: float
    vertical: float

    def hold(self, pair: Pair) -> bool:
        """Whether a length along the ground and one up are within the limits."""
        return pair[0] <= self.horizontal and pair[1] <= self.vertical


@dataclass
class Numbers:
    """Of an epoch with a region and a known place; lengths in m."""

    held: bool  # the place is in a kept box and within every bound
    hpl: float  # the farthest corner from the place along the ground
    vpl: float  # and up or down
    error: Pair  # how far the region's middle is from the place along the ground, and up or down
    reach: Pair  # the farthest corner from the middle
    certified: bool = False  # whether the corners are those of bounds
    azimuth: float | None = None  # in radians, clockwise from north
    along: float | None = None  # the farthest corner from the place along that direction
    across: float | None = None

    def is_available(self, limits: Limits, cut: bool) -> bool:
        """Whether the region protects its middle within the limits.

        One that the search box cuts protects nothing.
        """
        return not cut and limits.hold(self.reach)

    def is_hazardous(self, limits: Limits, cut: bool) -> bool:
        """Whether the middle is farther from the place than a limit, and the region says that it isn't."""
        return self.is_available(limits, cut) and not limits.hold(self.error)


def alert_limit(text: str) -> float:
    """A limit among the words of a command line: a positive length in m."""
    length = measure(text)
    if length <= 0:
        raise ValueError
    return length


def limit_argument(parser: argparse.ArgumentParser) -> None:
    """The word of the two alert limits."""
    told = "alert limits along the ground and up, m"
    parser.add_argument("--limit", type=alert_limit, nargs=2, metavar=("H", "V"), help=told)


def in_um(point: Sequence[float]) -> list[int]:
    """A point in m, in whole um."""
    return [round(value * UM_PER_M) for value in point]


def is_held(epoch: Epoch, point: Vector) -> bool:
    """Whether a point in m is in a kept box of an epoch, and within each of its bounds."""
    return any(box.contains(point) for box in epoch.boxes) and all(it.reach(point) >= 0 for it in epoch.bounds)


def in_search_box(epoch: Epoch, point: Vector) -> bool:
    """Whether a point in m is in the search box; of a track it is that of the settings."""
    return epoch.search is not None and epoch.search.contains(point)


def farthest_along_ground(centres: list[Vector], halves: list[Vector], east: Vector, north: Vector) -> float:
    """How far the farthest of the boxes' corners is from the origin along the ground.

    A box is seen from above as its middle c and the half sides v of three directions; its corners are c + w and c - w
    for the four w = v0 +- v1 +- v2, and the farther of these two is at sqrt(|c|^2 + |w|^2 + 2 |c w|).
    """
    most = 0.0
    for centre, half in zip(centres, halves):
        x, y = dot(east, centre), dot(north, centre)
        (a, b), (c, d), (e, f) = ((size * east[k], size * north[k]) for k, size in enumerate(half))
        for p, q in ((a + c + e, b + d + f), (a + c - e, b + d - f), (a - c + e, b - d + f), (a - c - e, b - d - f)):
            most = max(most, x * x + y * y + p * p + q * q + 2 * abs(x * p + y * q))
    return math.sqrt(most)


class Corners:
    """The corners of an epoch's kept boxes, or of what its certified bounds leave, as they are seen from a point in m."""

    def __init__(self, epoch: Epoch, point: Vector) -> None:
        self.east, self.north, self.up = Frame.at(point).axes
        corners = corners_of(epoch.bounds, point)
        self.centres = corners or offsets(epoch.boxes, in_um(point))
        self.halves = [(0.0, 0.0, 0.0)] * len(corners) or [half_sides(kept.box) for kept in epoch.kept]

    def farthest(self, axis: Sequence[float]) -> float:
        """How far the farthest corner is from the point along an axis, either way."""
        low, high = extent_along(axis, self.centres, self.halves)
        return max(abs(low), abs(high))

    def pair(self) -> Pair:
        """The farthest corner along the ground, and the farthest one up or down."""
        return farthest_along_ground(self.centres, self.halves, self.east, self.north), self.farthest(self.up)

    def along_across(self, azimuth: float) -> Pair:
        """The farthest corners along an azimuth in radians, and across it along the ground."""
        sine, cosine = math.sin(azimuth), math.cos(azimuth)
        along = [sine * e + cosine * n for e, n in zip(self.east, self.north)]
        across = [cosine * e - sine * n for e, n in zip(self.east, self.north)]
        return self.farthest(along), self.farthest(across)


def apart(place: Vector, point: Vector) -> Pair:
    """How far a point is from a place along the ground, and up or down, in m."""
    east, north, up = Frame.at(place).offset(point)
    return math.hypot(east, north), abs(up)


def numbers_of(epoch: Epoch, region: Region, place: Vector, azimuth: float | None = None) -> Numbers:
    """The numbers of an epoch that has a region, for a known place in m."""
    corners, middle = Corners(epoch, place), region.middle()
    error, reach = apart(place, middle), Corners(epoch, middle).pair()
    found = Numbers(is_held(epoch, place), *corners.pair(), error, reach, region.certified)
    if azimuth is not None:
        found.azimuth = azimuth
        found.along, found.across = corners.along_across(azimuth)
    return found


class Judge:
    """Goes through epochs with known places, and counts."""

    def __init__(
        self,
        meetings: Meetings,
        azimuth: float | None = None,
        track: list[Place] | None = None,
        limits: Limits | None = None,
    ) -> None:
        self.meetings, self.azimuth, self.track, self.limits = meetings, azimuth, track, limits
        self.epochs = self.placeless = self.regions = self.held = self.outside_box = 0
        self.lost: list[int] = []  # the numbers of the epochs whose region doesn't hold the place
        self.farthest = [0.0] * 4  # hpl, vpl, along, across
        self.directed = self.available = self.misleading = self.hazardous = 0
        self.certified = 0  # regions whose lengths are those of bounds

    @property
    def has_direction(self) -> bool:
        """Whether corners are looked at along and across a direction."""
        return self.azimuth is not None or self.track is not None

    def azimuth_at(self, ps: int) -> float | None:
        """The direction at a time, or None."""
        return self.azimuth if self.track is None else direction(self.track, ps)

    def add(self, epoch: Epoch, region: Region | None) -> Numbers | None:
        """The numbers of an epoch, or None where it has no region or no known place."""
        self.epochs += 1
        place = self.meetings.at(epoch.ps)
        if place is None:
            self.placeless += 1
            return None
        if region is None:
            return None
        found = numbers_of(epoch, region, place, self.azimuth_at(epoch.ps))
        self.count(epoch, region, place, found)
        return found

    def count(self, epoch: Epoch, region: Region, place: Vector, found: Numbers) -> None:
        """Counts the numbers of an epoch."""
        self.regions += 1
        self.held += found.held
        self.misleading += not found.held
        self.certified += found.certified
        if not found.held:
            self.lost.append(epoch.index)
            self.outside_box += not in_search_box(epoch, place)
        self.directed += found.azimuth is not None
        lengths = (found.hpl, found.vpl, found.along or 0.0, found.across or 0.0)
        self.farthest = [max(pair) for pair in zip(self.farthest, lengths)]
        if self.limits is not None:
            self.available += found.is_available(self.limits, bool(region.faces))
            self.hazardous += found.is_hazardous(self.limits, bool(region.faces))

    def held_line(self) -> str:
        """How many regions hold the known place."""
        known = self.epochs - self.placeless
        return (
            f"known places: {known} epochs have one and {self.regions} of these a region, which holds it in {self.held}"
        )

    def limit_lines(self) -> Iterator[str]:
        """The counts of the diagram, where there are limits."""
        if self.limits is not None:
            yield (
                f"limits {self.limits.horizontal:g} m along the ground, {self.limits.vertical:g} m"
                f" up: of {self.epochs - self.placeless} epochs {self.available} available,"
                f" {self.misleading} misleading, {self.hazardous} hazardous"
            )

    def lines(self) -> Iterator[str]:
        """What is said of all epochs."""
        yield self.held_line()
        hpl, vpl, along, across = (f"{upward(length):.1f} m" for length in self.farthest)
        if self.regions:
            yield (
                f"farthest corner from them: {hpl} along the ground, {vpl} up or down; of declared"
                " bounds, not of a probability"
            )
        if self.certified:
            yield f"by certified bounds in {self.certified} of the {self.regions} regions"
        if self.directed:
            yield f"in {self.directed} epochs with a direction: {along} along it, {across} across"
        yield from self.limit_lines()

    def warnings(self) -> Iterator[str]:
        """What must not be passed over."""
        if self.lost:
            box = "box within every bound" if self.certified else "box"
            where = f", in {self.outside_box} of these since it is outside the search box" if self.outside_box else ""
            yield (
                f"in {len(self.lost)} of {self.regions} regions the known place isn't in a kept"
                f" {box}{where}; the first is epoch {self.lost[0]}: more satellites than allowed"
                " broke their bounds there, or the place is wrong"
            )
        if self.placeless:
            yield f"{self.placeless} of {self.epochs} epochs have no known place within 0.1 s"
        if self.has_direction and self.directed < self.regions:
            yield f"in {self.regions - self.directed} epochs the track gives no direction"
