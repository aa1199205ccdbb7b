"""Polygons of a plane, and the convex parts into which one is cut."""

from __future__ import annotations

import itertools

from gpscover.errors import Error
from gpscover.outline import Flat

MOST_PART_CORNERS = 8  # of a part of an area that is cut: its other sides are for sharp corners


class ShapeError(Error):
    """A shape of which no zone is made."""


def turn_of(flat: list[Flat]) -> float:
    """Twice the area of a polygon, which is above 0 where it goes counterclockwise."""
    return sum(p[0] * q[1] - p[1] * q[0] for p, q in zip(flat, flat[1:] + flat[:1]))


def turns_left(p: Flat, q: Flat, r: Flat) -> float:
    """How far the way from p over q to r turns left."""
    return (q[0] - p[0]) * (r[1] - q[1]) - (q[1] - p[1]) * (r[0] - q[0])


def is_convex(flat: list[Flat]) -> bool:
    """Whether a counterclockwise polygon turns left at each corner."""
    count = len(flat)
    return all(turns_left(flat[i - 2], flat[i - 1], flat[i]) > 0 for i in range(count))


def triangles(flat: list[Flat]) -> list[tuple[int, ...]]:
    """A counterclockwise polygon cut into triangles, as the places of their corners: one ear after another."""
    left = list(range(len(flat)))
    found: list[tuple[int, ...]] = []
    while len(left) > 3:
        ear = next((k for k in range(len(left)) if is_ear(flat, left, k)), None)
        if ear is None:
            raise ShapeError("its edges cross")
        found.append((left[ear - 1], left[ear], left[(ear + 1) % len(left)]))
        del left[ear]
    return [*found, tuple(left)]


def is_ear(flat: list[Flat], left: list[int], k: int) -> bool:
    """Whether the corner turns left, and no other corner lies in the triangle with its neighbours."""
    a, b, c = (flat[left[i % len(left)]] for i in (k - 1, k, k + 1))
    if turns_left(a, b, c) <= 0:
        return False
    others = (flat[i] for i in left if flat[i] not in (a, b, c))
    return not any(turns_left(a, b, p) >= 0 and turns_left(b, c, p) >= 0 and turns_left(c, a, p) >= 0 for p in others)


def convex_parts(flat: list[Flat]) -> list[tuple[int, ...]]:
    """A counterclockwise polygon cut into convex parts, as the places of their corners: its triangles, joined while
    they stay convex (S. Hertel and K. Mehlhorn, Fast triangulation of simple polygons, 1983)."""
    parts = triangles(flat)
    while (found := joinable(flat, parts)) is not None:
        p, q, both = found
        parts = [both if part is p else part for part in parts if part is not q]
    return parts


def joinable(flat: list[Flat], parts: list[tuple[int, ...]]) -> tuple[tuple[int, ...], ...] | None:
    """The first two parts that are convex together, with few corners, and what they are together."""
    for p, q in itertools.combinations(parts, 2):
        both = joined(p, q)
        if 0 < len(both) <= MOST_PART_CORNERS and is_convex([flat[i] for i in both]):
            return p, q, both
    return None


def joined(p: tuple[int, ...], q: tuple[int, ...]) -> tuple[int, ...]:
    """Two parts as one, without the edge that they share. No corners where they share none."""
    edges = set(zip(q[1:] + q[:1], q))
    edge = next((i for i in range(len(p)) if (p[i - 1], p[i]) in edges), None)
    if edge is None:
        return ()
    start = q.index(p[edge - 1])
    return p[edge:] + p[:edge] + tuple(q[(start + 1 + k) % len(q)] for k in range(len(q) - 2))
