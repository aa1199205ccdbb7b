"""The region of an epoch: its extents along local east, north and up, in metres.

They are those of the kept boxes' corners, or of the certified bounds where these have an end on all sides.
"""

from __future__ import annotations

import math
from collections.abc import Iterable, Sequence
from dataclasses import dataclass, field
from operator import add, sub

from gpscover.certified import corners_of
from gpscover.errors import Error
from gpscover.geodesy import Frame, Vector
from gpscover.log import UM_PER_M, Box, Epoch

Extent = tuple[float, float]

TWICE_UM = 2 * UM_PER_M  # the um of two metres
FACES = ("-x", "-y", "-z", "+x", "+y", "+z")


@dataclass
class Region(Frame):
    """Where the kept boxes of an epoch lie, and what its certified bounds leave.

    `extents` are (low, high) along east, north, up from `origin`: of the bounds where `certified` says so, else of the
    boxes.
    """

    extents: tuple[Extent, Extent, Extent]
    clock: Extent  # the least and the greatest clock offset in m
    volume: float  # of the kept boxes, in m^3
    faces: list[str]  # those of the search box that a kept box touches
    corners: list[Vector] = field(default_factory=list)  # of what the bounds leave, in m from the origin

    @property
    def certified(self) -> bool:
        """Whether the extents are those of bounds."""
        return bool(self.corners)

    def widths(self) -> list[float]:
        """How far the region reaches along east, north and up."""
        return [high - low for low, high in self.extents]

    def middle(self) -> Vector:
        """The point in the middle of the extents, x, y, z in m."""
        east, north, up = ((low + high) / 2 for low, high in self.extents)
        return self.point((east, north, up))

    def contains(self, point: Sequence[float]) -> bool:
        """Whether a point is within the extents along each of the three axes."""
        return all(low <= part <= high for part, (low, high) in zip(self.offset(point), self.extents))


def upward(value: float) -> float:
    """A length in metres, rounded up to decimetres."""
    return math.ceil(10 * value - 1e-6) / 10


def half_sides(box: Box) -> Vector:
    """Half of each side of a box, in m."""
    a, b, c, d, e, f = box
    return (d - a) / TWICE_UM, (e - b) / TWICE_UM, (f - c) / TWICE_UM


def offsets(boxes: Iterable[Box], origin: Sequence[int]) -> list[Vector]:
    """The middles of boxes as seen from an origin in um, in m.

    The differences are taken in whole numbers.
    """
    x, y, z = (2 * part for part in origin)
    return [((a + d - x) / TWICE_UM, (b + e - y) / TWICE_UM, (c + f - z) / TWICE_UM) for a, b, c, d, e, f in boxes]


def extent_along(axis: Sequence[float], centres: Sequence[Vector], halves: Sequence[Vector]) -> Extent:
    """The least and the greatest of the boxes' corners along an axis, from the middles of boxes and half sides."""
    a, b, c = axis
    d, e, f = abs(a), abs(b), abs(c)
    middles = [a * x + b * y + c * z for x, y, z in centres]
    reaches = [d * p + e * q + f * r for p, q, r in halves]
    return min(map(sub, middles, reaches)), max(map(add, middles, reaches))


def touched_faces(hull: Box, root: Box) -> list[str]:
    """The faces of the search box that a hull touches."""
    return [name for name, a, b in zip(FACES, hull, root) if a == b]


def hull_of(boxes: Iterable[Box]) -> Box:
    """The least box round some boxes."""
    ends = list(zip(*boxes))
    return Box(*(min(end) for end in ends[:3]), *(max(end) for end in ends[3:]))


def region_of(epoch: Epoch, origin: Sequence[float] | None = None) -> Region:
    """The region of an epoch that has kept boxes, with the axes at `origin` in m, or at the middle of their hull."""
    boxes = epoch.boxes
    if not boxes or epoch.search is None:
        raise Error(f"epoch {epoch.index} has no region")
    hull = hull_of(boxes)
    origin_um = [(hull[k] + hull[k + 3]) // 2 for k in range(3)]
    if origin is not None:
        origin_um = [round(value * UM_PER_M) for value in origin]
    x, y, z = (value / UM_PER_M for value in origin_um)
    frame = Frame.at((x, y, z))
    centres = offsets(boxes, origin_um)
    halves = [half_sides(box) for box in boxes]
    volume = sum(8 * p * q * r for p, q, r in halves)
    corners = corners_of(epoch.bounds, frame.origin)
    if corners:
        centres, halves = corners, [(0.0, 0.0, 0.0)] * len(corners)
    east, north, up = (extent_along(axis, centres, halves) for axis in frame.axes)
    lows, highs = zip(*(kept.clock for kept in epoch.kept))
    return Region(
        frame.origin,
        frame.axes,
        (east, north, up),
        (min(lows) / UM_PER_M, max(highs) / UM_PER_M),
        volume,
        touched_faces(hull, epoch.search),
        corners,
    )


def reaches(epoch: Epoch) -> bool:
    """Whether the region of an epoch reaches the search box."""
    if not epoch.kept or epoch.search is None:
        return False
    return bool(touched_faces(hull_of(epoch.boxes), epoch.search))


def region_or_none(epoch: Epoch) -> Region | None:
    """The region of an epoch, or None where it keeps no box."""
    return region_of(epoch) if epoch.kept else None
