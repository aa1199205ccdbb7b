"""The outline of boxes as seen along an axis: the convex hull of their corners in a plane of two local axes.

Along a direction of the plane the farthest corner is the same one of the eight of each box. Which one changes at six
directions, which are across the sides of the boxes. Between two of these a corner of the hull isn't below the line from
the farthest one along the first to the farthest one along the second: these few corners alone are gone through.
"""

from __future__ import annotations

import math
from collections.abc import Iterable, Iterator, Sequence

from gpscover.geodesy import Vector, dot
from gpscover.log import UM_PER_M, Box

Flat = tuple[float, float]  # a point of a plane in m
Ends = Sequence[Sequence[float]]  # of boxes, in um: those along x, y and z, low ones before high ones

ROUNDING_UM = 1.0  # more than that of a length


def half_hull(points: list[Flat]) -> list[Flat]:
    """The right-hand side of the convex hull of sorted points, without its last point."""
    hull: list[Flat] = []
    for x, y in points:
        # the last corner goes where the way over it to this point doesn't turn left
        while len(hull) > 1:
            (a, b), (c, d) = hull[-2], hull[-1]
            if (c - a) * (y - b) > (d - b) * (x - a):
                break
            hull.pop()
        hull.append((x, y))
    return hull[:-1]


def convex_hull(points: Iterable[Flat]) -> list[Flat]:
    """The corners of the convex hull, counterclockwise (Andrew's monotone chain)."""
    ordered = sorted(set(points))
    if len(ordered) < 3:
        return ordered
    return half_hull(ordered) + half_hull(ordered[::-1])


def ends_from(boxes: Iterable[Box], origin: Vector) -> Ends:
    """The ends of boxes as seen from an origin in m."""
    base = [round(value * UM_PER_M) for value in origin] * 2
    return [[float(end - at) for end in column] for column, at in zip(zip(*boxes), base)]


class Sight:
    """Boxes by their ends, as seen in the plane of two unit vectors."""

    def __init__(self, ends: Ends, right: Vector, upward: Vector) -> None:
        self.ends, self.right, self.upward = ends, right, upward

    def vector(self, x: float, y: float) -> Vector:
        """A vector of the plane."""
        a, b, c = (x * r + y * u for r, u in zip(self.right, self.upward))
        return a, b, c

    def directions(self) -> list[float]:
        """The six directions across the sides of the boxes, as angles in their order."""
        half = sorted(math.atan2(r, -u) % math.pi for r, u in zip(self.right, self.upward))
        return half + [angle + math.pi for angle in half]

    def corners(self, angle: float) -> Ends:
        """Of each box the corner that is farthest along a direction, by x, y and z."""
        vector = self.vector(math.cos(angle), math.sin(angle))
        return [self.ends[k + 3 if vector[k] > 0 else k] for k in range(3)]

    def farthest(self, angle: float) -> int:
        """Which box is farthest along one of these directions. It is across a side, along which no length counts."""
        vector = self.vector(math.cos(angle), math.sin(angle))
        _, (a, firsts), (b, seconds) = sorted(zip(vector, self.corners(angle)), key=lambda part: abs(part[0]))
        lengths = [a * x + b * y for x, y in zip(firsts, seconds)]
        return lengths.index(max(lengths))

    def beyond(self, corners: Ends, first: int, last: int) -> list[Vector]:
        """The corners that aren't on the left of the way from that of one box to that of another."""
        ends = [(corners[0][box], corners[1][box], corners[2][box]) for box in (first, last)]
        way = [q - p for p, q in zip(*ends)]
        x, y = dot(self.right, way), dot(self.upward, way)
        length = math.hypot(x, y)
        if length < ROUNDING_UM:
            return ends
        a, b, c = self.vector(y / length, -x / length)
        least = min(a * x + b * y + c * z for x, y, z in ends) - ROUNDING_UM
        return [(x, y, z) for x, y, z in zip(*corners) if a * x + b * y + c * z >= least]

    def outer_corners(self) -> Iterator[Vector]:
        """Corners of the boxes, among which are those of their hull."""
        angles = self.directions()
        boxes = [self.farthest(angle) for angle in angles]
        for k in range(-1, len(angles) - 1):
            end = angles[k + 1]
            start = angles[k] if k >= 0 else angles[k] - 2 * math.pi
            yield from self.beyond(self.corners((start + end) / 2), boxes[k], boxes[k + 1])

    def outline(self) -> list[Flat]:
        """The convex hull of all corners, in m."""
        (a, b, c), (d, e, f) = ([part / UM_PER_M for part in vector] for vector in (self.right, self.upward))
        return convex_hull((a * x + b * y + c * z, d * x + e * y + f * z) for x, y, z in self.outer_corners())


def outlines(boxes: Iterable[Box], origin: Vector, *planes: tuple[Vector, Vector]) -> list[list[Flat]]:
    """The convex hulls of all corners in planes of two unit vectors each, in m from an origin in m."""
    ends = ends_from(boxes, origin)
    return [Sight(ends, *plane).outline() for plane in planes]


def outline(boxes: Iterable[Box], origin: Vector, right: Vector, upward: Vector) -> list[Flat]:
    """The convex hull of all corners in the plane of two unit vectors, in m from an origin in m."""
    return outlines(boxes, origin, (right, upward))[0]
