"""The body that the certified bounds of an epoch have in common, by its corners.

What fits lies in it. Its corners are points where three of the bounds' planes meet.
"""

from __future__ import annotations

import itertools
import math
from collections.abc import Sequence
from typing import NamedTuple

from gpscover.geodesy import Vector, cross, dot
from gpscover.log import Bound

MOST_BOUNDS = 70  # which are looked at: as many as `solve` writes
MISSED_M = 1e-6  # a corner is beyond no plane by more
SLANT = 1e-4  # a body whose sides come together less than that in its length has no end
LEAST_VOLUME = 1e-9  # of three unit vectors that aren't in one plane


class Plane(NamedTuple):
    """The end of a half-space: its unit vector outward, and how far it is from the origin along it, in m."""

    outward: Vector
    reach: float


def planes_of(bounds: Sequence[Bound], origin: Vector) -> list[Plane]:
    """The planes of bounds as seen from an origin in m."""
    planes = []
    for bound in bounds[:MOST_BOUNDS]:
        x, y, z = bound.direction
        length = math.hypot(x, y, z)
        if length:
            planes.append(Plane((x / length, y / length, z / length), bound.reach(origin)))
    return planes


def is_open(planes: Sequence[Plane]) -> bool:
    """Whether what planes leave goes on without end, which it then does along an edge, or hardly comes together there."""
    for one, other in itertools.combinations(planes, 2):
        edge = cross(one.outward, other.outward)
        length = math.hypot(*edge)
        along = [dot(plane.outward, edge) / length for plane in planes] if length > SLANT else []
        if along and (max(along) <= SLANT or min(along) >= -SLANT):
            return True
    return False


def meeting(three: Sequence[Plane]) -> Vector | None:
    """Where three planes meet; None where they are along one line."""
    (a, p), (b, q), (c, r) = three
    ways = cross(b, c), cross(c, a), cross(a, b)
    volume = dot(a, ways[0])
    if abs(volume) < LEAST_VOLUME:
        return None
    x, y, z = ((p * i + q * j + r * k) / volume for i, j, k in zip(*ways))
    return x, y, z


def corners_of(bounds: Sequence[Bound], origin: Vector) -> list[Vector]:
    """The corners of what bounds leave, in m from an origin in m. None where that has no end, or where it is nothing."""
    planes = planes_of(bounds, origin)
    if is_open(planes):
        return []
    points = (meeting(three) for three in itertools.combinations(planes, 3))
    return [point for point in points if point and all(dot(out, point) <= reach + MISSED_M for out, reach in planes)]
