"""Latitude, longitude and height on the ellipsoid of WGS 84, and the local axes east, north and up.

Points are (x, y, z) in metres in the earth-fixed frame, angles are in radians.
"""

from __future__ import annotations

import math
from collections.abc import Sequence
from dataclasses import dataclass
from typing import Any

Vector = tuple[float, float, float]
Axes = tuple[Vector, Vector, Vector]

SEMI_MAJOR_M = 6378137.0
FLATTENING = 1 / 298.257223563
ECCENTRICITY_2 = FLATTENING * (2 - FLATTENING)


def prime_vertical(latitude: float) -> float:
    """The radius of curvature in the prime vertical, in metres."""
    return SEMI_MAJOR_M / math.sqrt(1 - ECCENTRICITY_2 * math.sin(latitude) ** 2)


def geodetic(point: Sequence[float]) -> Vector:
    """Latitude, longitude and height in metres of a point that isn't at the earth's centre."""
    x, y, z = point
    from_axis = math.hypot(x, y)
    latitude = math.atan2(z, from_axis * (1 - ECCENTRICITY_2))
    for _ in range(10):
        before, raised = latitude, z + ECCENTRICITY_2 * prime_vertical(latitude) * math.sin(latitude)
        latitude = math.atan2(raised, from_axis)
        if latitude == before:  # so would it be in each further round
            break
    sine, cosine = math.sin(latitude), math.cos(latitude)
    height = from_axis * cosine + z * sine - SEMI_MAJOR_M**2 / prime_vertical(latitude)
    return latitude, math.atan2(y, x), height


def earth_fixed(latitude: float, longitude: float, height: float) -> Vector:
    """The point of a latitude, a longitude and a height in metres."""
    radius = prime_vertical(latitude)
    from_axis = (radius + height) * math.cos(latitude)
    z = (radius * (1 - ECCENTRICITY_2) + height) * math.sin(latitude)
    return from_axis * math.cos(longitude), from_axis * math.sin(longitude), z


def local_axes(latitude: float, longitude: float) -> Axes:
    """The unit vectors east, north and up."""
    sin_lat, cos_lat = math.sin(latitude), math.cos(latitude)
    sin_lon, cos_lon = math.sin(longitude), math.cos(longitude)
    east = (-sin_lon, cos_lon, 0.0)
    north = (-sin_lat * cos_lon, -sin_lat * sin_lon, cos_lat)
    up = (cos_lat * cos_lon, cos_lat * sin_lon, sin_lat)
    return east, north, up


def dot(a: Sequence[float], b: Sequence[float]) -> float:
    """The scalar product of two vectors."""
    return a[0] * b[0] + a[1] * b[1] + a[2] * b[2]


def whole_product(a: Sequence[int], b: Sequence[int]) -> int:
    """The product of two vectors of whole numbers."""
    return a[0] * b[0] + a[1] * b[1] + a[2] * b[2]


def cross(a: Sequence[Any], b: Sequence[Any]) -> tuple[Any, Any, Any]:
    """The vector product, of whole numbers exactly."""
    return a[1] * b[2] - a[2] * b[1], a[2] * b[0] - a[0] * b[2], a[0] * b[1] - a[1] * b[0]


@dataclass
class Frame:
    """East, north and up in metres from a point."""

    origin: Vector
    axes: Axes  # the unit vectors east, north, up

    @classmethod
    def at(cls, origin: Vector) -> Frame:
        """The frame at a point, with the axes of that point."""
        return Frame(origin, local_axes(*geodetic(origin)[:2]))

    def offset(self, point: Sequence[float]) -> Vector:
        """East, north and up of a point."""
        apart = [p - o for p, o in zip(point, self.origin)]
        east, north, up = (dot(axis, apart) for axis in self.axes)
        return east, north, up

    def direction(self, parts: Sequence[float]) -> Vector:
        """A vector of east, north and up parts in the earth-fixed frame."""
        x, y, z = (sum(part * axis[k] for part, axis in zip(parts, self.axes)) for k in range(3))
        return x, y, z

    def point(self, offset: Sequence[float]) -> Vector:
        """The point at an offset along east, north and up."""
        x, y, z = (o + d for o, d in zip(self.origin, self.direction(offset)))
        return x, y, z

    def elevation(self, target: Sequence[float]) -> float:
        """The angle at which a point is seen above the horizon of the origin; 0 where they are one."""
        sine = self.offset(target)[2] / (math.dist(target, self.origin) or 1.0)
        return math.asin(max(-1.0, min(1.0, sine)))

    def azimuth(self, target: Sequence[float]) -> float:
        """The direction along the horizon of the origin in which a point is seen: from north over east, 0 to 2 pi."""
        east, north, _ = self.offset(target)
        return math.atan2(east, north) % (2 * math.pi)


def elevation(place: Vector, target: Sequence[float]) -> float:
    """The angle at which `target` is seen above the horizon of `place`; 0 where they are one."""
    return Frame.at(place).elevation(target)
