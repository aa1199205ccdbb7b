"""Writes a file of zones for `gpscover guard` (its second form, `gpszones 2`), from places, lanes
and areas of a map.

usage: gpslog zones --for outside|inside [--place P].. [--reported P].. [--lane L].. [--area A]..
                    [--reach R].. [--parts] > ZONES

  --place NAME,LAT,LON,HEIGHT,RADIUS,UP   the points within RADIUS along the ground of a place
                                          and within UP above or below
  --reported NAME,FILE,LOG,RADIUS,UP      the same of each epoch of a log that has a place in a
                                          list of places: NAME-INDEX
  --lane NAME,FILE,WIDTH,LOW,HIGH         a lane of this width, from LOW to HIGH above its line
  --area NAME,FILE,LOW,HIGH               a polygon between two heights
  --reach NAME,LAT,LON                    directions NAME-e, NAME-n, NAME-u: east, north and up
  --parts                                 a zone for each leg of a lane and each part of an area
                                          that is cut: NAME-1, NAME-2, .. in the place of NAME

Latitudes and longitudes are in degrees, lengths and heights in metres, heights above the ellipsoid
of WGS 84. FILE is KML (its first LineString or Polygon), GeoJSON (the same) or lines `LAT LON
[HEIGHT]`; of --reported it is a list as places.py says. A polygon's edges are straight in the plane
that touches the ellipsoid below its middle; its heights follow the ellipsoid. A place is a prism of
12 sides, a leg one of 4. A lane of several legs is one zone, a group of its legs, and so is an area
that isn't convex or has more than 14 corners: it is cut into convex parts, at most 64 as the legs
are.

The user says what the zones are for, and all is rounded to that side. A zone for `outside` grows:
where the answer is `outside` no fitting point lies in the zone as it was given. A zone for `inside`
shrinks: where it is `inside` each fitting point lies in it. Growing or shrinking takes a millimetre
for the arithmetic of this script, and what the curve of the ellipsoid, the round of a place (3.5 %
of its radius) and directions of whole numbers cost. For `outside` the parts of an area have sides
more at their sharp edges; for `inside` a box has to lie in one of them, so one over a cut between
two leaves the area open, as does a box over the end of a leg. With --parts an area that would be
cut is refused for `inside`: each point would have to lie in one of the zones. A reach is told in um
times the length of its direction, which is 2^20 to within a millionth.

What `guard` wouldn't read isn't printed: two zones or directions of one name, more than 65,536
bytes, which is room for some 90 places or 200 legs.

Exit status: 0; 1 where a file can't be read, a shape makes no zone, or `guard` wouldn't read the
file; 2 for a wrong command line.
"""

from __future__ import annotations

import argparse
import itertools
import math
import re
from collections import Counter
from collections.abc import Callable, Iterable, Sequence
from fractions import Fraction
from typing import Any

from gpscover.command import Command, measure
from gpscover.geodesy import Frame, Vector, cross, dot, earth_fixed, geodetic, local_axes, whole_product
from gpscover.log import UM_PER_M, PathLike, epochs
from gpscover.map_files import places_of
from gpscover.places import Meetings
from gpscover.polygons import ShapeError, convex_parts, is_convex, turn_of
from gpscover.zones import GREATEST, LONGEST, MOST_BYTES, MOST_PIECES, MOST_SIDES, Corners, Group, Side, Whole, Zone

LONGEST_NAME = 16
ROUND_SIDES = 12
UM = 10**6
SHORTEST = 1e-6  # below it a sum of two directions of unit length has no direction
ARITHMETIC_UM = 1000  # more than the rounding of the numbers of this script, for a point near the earth
WIDEST_M = 50_000


class Face:
    """A side of a shape: the direction out of it, and points on it, in metres."""

    def __init__(self, out: Vector, points: list[Vector]) -> None:
        self.out, self.points = out, points


Shape = tuple[list[Face], list[Vector]]  # its faces, and its points


def whole(direction: Vector) -> Whole:
    """A direction of unit length as whole numbers of at most 2^20 in amount."""
    x, y, z = (max(-LONGEST, min(LONGEST, round(part * LONGEST))) for part in direction)
    return x, y, z


def product(a: Iterable[float | Fraction], point: Iterable[float | Fraction]) -> Fraction:
    """The exact product of two vectors."""
    return sum((Fraction(x) * Fraction(y) for x, y in zip(a, point)), Fraction(0))


def in_um(point: Iterable[float]) -> tuple[Fraction, ...]:
    """A point in um, exactly that of its floating-point numbers in metres."""
    return tuple(Fraction(part) * UM for part in point)


def length_above(a: Whole) -> int:
    """A whole number that is at least the length of a vector of whole numbers."""
    return math.isqrt(sum(part * part for part in a)) + 1


# ---- sides


def grown(faces: list[Face], points: list[Vector]) -> list[Side]:
    """Sides (A, H) whose prism holds all points. Each holds those on its face, too."""
    sides = []
    for face in faces:
        a = whole(face.out)
        most = max(product(a, in_um(point)) for point in (*points, *face.points))
        sides.append((a, math.ceil(most) + ARITHMETIC_UM * length_above(a)))
    return sides


def limits(faces: list[Face]) -> list[tuple[Vector, Fraction]]:
    """The half-spaces (out, most) of a shape: each ends at the innermost of its face's points, in um."""
    return [(face.out, min(product(face.out, in_um(point)) for point in face.points)) for face in faces]


def drawn_in(faces: list[Face], by: int) -> list[Side]:
    """Sides (A, H) that lie by so many um inside the faces."""
    sides = []
    for face in faces:
        a = whole(face.out)
        least = min(product(a, in_um(point)) for point in face.points)
        sides.append((a, math.floor(least) - by * length_above(a)))
    return sides


def corners(sides: Sequence[Side]) -> list[tuple[int, int, int, int]]:
    """The corners of a prism, as (x, y, z, divisor) of whole numbers with a divisor above 0."""
    found = []
    for (a, f), (b, g), (c, h) in itertools.combinations(sides, 3):
        bc, ca, ab = cross(b, c), cross(c, a), cross(a, b)
        divisor = whole_product(a, bc)
        if divisor:
            sign = 1 if divisor > 0 else -1
            point = [sign * (f * p + g * q + h * r) for p, q, r in zip(bc, ca, ab)]
            if all(whole_product(s, point) <= most * abs(divisor) for s, most in sides):
                found.append((point[0], point[1], point[2], abs(divisor)))
    return found


def points_of(zone: Zone) -> list[list[Vector]]:
    """The corners of a zone in m, those of each piece of a group. A prism or a piece may have none."""
    if isinstance(zone, Corners):
        pieces: list[Iterable[tuple[int, ...]]] = [itertools.product(*zip(zone.low, zone.high), [1])]
    else:
        pieces = [corners(sides) for sides in (zone.pieces if isinstance(zone, Group) else [zone.sides])]
    return [[(x / by / UM_PER_M, y / by / UM_PER_M, z / by / UM_PER_M) for x, y, z, by in ends] for ends in pieces]


def shrunk(faces: list[Face]) -> list[Side]:
    """Sides (A, H) whose prism lies in all half-spaces of the faces, by its corners."""
    bounds, by = limits(faces), ARITHMETIC_UM
    while by <= UM:
        sides = drawn_in(faces, by)
        points = corners(sides)
        if not points:
            raise ShapeError("nothing is left of it")
        if all(
            product(out, point[:3]) <= (most - ARITHMETIC_UM) * point[3] for out, most in bounds for point in points
        ):
            return sides
        by *= 2
    raise ShapeError("its sides are too near to one direction")


def sides_for(purpose: str, faces: list[Face], points: list[Vector]) -> list[Side]:
    """The sides of a prism with these faces, which end at these points."""
    return grown(faces, points) if purpose == "outside" else shrunk(faces)


def side_lines(name: str, sides: list[Side]) -> list[str]:
    """The lines of sides, if a prism or a piece may have these."""
    if len(name) > LONGEST_NAME:
        raise ShapeError(f"{name}: a name has at most {LONGEST_NAME} characters")
    if len(sides) > MOST_SIDES:
        raise ShapeError(f"{name}: a prism has at most {MOST_SIDES} sides")
    if any(abs(most) > GREATEST for _, most in sides):
        raise ShapeError(f"{name}: it is too far away")
    return [f"side {x} {y} {z} {most}" for (x, y, z), most in sides]


def prism(name: str, sides: list[Side]) -> list[str]:
    """The lines of a prism."""
    return [f"prism {name} {len(sides)}", *side_lines(name, sides)]


def group(name: str, pieces: list[list[Side]]) -> list[str]:
    """The lines of a group. Each piece has as many sides as the one with the most: its last one stands there again."""
    if len(pieces) > MOST_PIECES:
        raise ShapeError(f"{name}: it has {len(pieces)} parts, and a zone at most {MOST_PIECES}: --parts makes several")
    each = max(map(len, pieces))
    filled = [sides + sides[-1:] * (each - len(sides)) for sides in pieces]
    return [f"group {name} {len(pieces)} {each}"] + [line for sides in filled for line in side_lines(name, sides)]


def one_zone(name: str, pieces: list[list[Side]]) -> list[str]:
    """The lines of a zone with these pieces: a prism where there is one."""
    return prism(name, pieces[0]) if len(pieces) == 1 else group(name, pieces)


def zone_each(name: str, pieces: list[list[Side]]) -> list[str]:
    """The lines of a zone for each of these pieces."""
    return [line for number, sides in enumerate(pieces, 1) for line in prism(f"{name}-{number}", sides)]


# ---- shapes over the ground


class Ground(Frame):
    """The plane that touches the ellipsoid below a place: east, north and up in metres, from that place."""

    def __init__(self, latitude: float, longitude: float) -> None:
        super().__init__(earth_fixed(latitude, longitude, 0.0), local_axes(latitude, longitude))

    def local(self, latitude: float, longitude: float, height: float) -> Vector:
        """East, north and up of a point."""
        return self.offset(earth_fixed(latitude, longitude, height))


def upright(ground: Ground, rings: list[list[Vector]], low: float, high: float) -> Shape:
    """Faces and points of an upright shape: rings of (east, north, up) below and above,
    counterclockwise, and the heights that the middle has between them.

    The middle counts for the heights alone: a part of an area may lie beside it.
    """
    below, above = ([ground.point(p) for p in ring] for ring in rings)
    middle_low, middle_high = (ground.point((0.0, 0.0, height)) for height in (low, high))
    faces = []
    count = len(below)
    for i, j in ((i, (i + 1) % count) for i in range(count)):
        east, north = (rings[0][j][k] - rings[0][i][k] for k in (0, 1))
        length = math.hypot(east, north)
        if not length:
            raise ShapeError("two of its corners are one point")
        faces.append(
            Face(ground.direction((north / length, -east / length, 0.0)), [below[i], below[j], above[i], above[j]])
        )
    faces.append(Face(scaled(-1, ground.axes[2]), [*below, middle_low]))
    faces.append(Face(ground.axes[2], [*above, middle_high]))
    return faces, [*below, *above]


def blends(a: Vector, b: Vector) -> list[Vector]:
    """The directions between two that have nothing along an axis, at which the two differ in sign."""
    sums = ([abs(b[axis]) * p + abs(a[axis]) * q for p, q in zip(a, b)] for axis in range(3) if a[axis] * b[axis] < 0)
    return [unit(blend) for blend in sums if math.hypot(*blend) > SHORTEST]


def bevels(around: list[Face], most: int) -> list[Face]:
    """At most so many faces that touch a shape at the edges between the faces round it, the sharpest edges first.

    They take nothing off it. But a box beside a sharp edge may lie beyond one of them and beyond no other face: those
    between two faces that have nothing along an axis are what else parts a box from an edge (S. Gottschalk et al.,
    OBBTree, 1996).
    """
    edges = zip([around[-1], *around], around)
    found = [(dot(a.out, b.out), Face(out, [])) for a, b in edges for out in blends(a.out, b.out)]
    return [face for _, face in sorted(found, key=lambda pair: pair[0])[:most]]


def place_lines(name: str, place: Sequence[float], radius: float, up: float, purpose: str) -> list[str]:
    """A place: a prism of 12 sides round its circle for `outside`, in it for `inside`."""
    latitude, longitude, height = place
    ground = Ground(math.radians(latitude), math.radians(longitude))
    far = radius / math.cos(math.pi / ROUND_SIDES) if purpose == "outside" else radius
    turns = [2 * math.pi * k / ROUND_SIDES for k in range(ROUND_SIDES)]
    low, high = height - up, height + up
    rings = [[(far * math.cos(t), far * math.sin(t), level) for t in turns] for level in (low, high)]
    return prism(name, sides_for(purpose, *upright(ground, rings, low, high)))


def reported_lines(name: str, path: PathLike, log: PathLike, radius: float, up: float, purpose: str) -> list[str]:
    """A place for each epoch of a log that has one in a list of places, within 0.1 s."""
    meetings = Meetings.of(path)
    written: list[str] = []
    for epoch in epochs(log):
        place = meetings.at(epoch.ps)
        if place is not None:
            latitude, longitude, height = geodetic(place)
            where = math.degrees(latitude), math.degrees(longitude), height
            written += place_lines(f"{name}-{epoch.index}", where, radius, up, purpose)
    meetings.refuse_strangers()
    return written


def area_lines(name: str, ring: list[Vector], low: float, high: float, purpose: str, parts: bool = False) -> list[str]:
    """A polygon of (latitude, longitude) in degrees between two heights: one zone, or with `parts` one for each part
    into which it is cut."""
    around = [(math.radians(p[0]), math.radians(p[1])) for p in ring]
    if len(around) > 1 and around[0] == around[-1]:
        around = around[:-1]
    if len(around) < 3:
        raise ShapeError(f"{name}: an area has three corners or more")
    ground = Ground(*(sum(p[k] for p in around) / len(around) for k in (0, 1)))
    flat = [ground.local(*p, 0.0)[:2] for p in around]
    if max(math.hypot(*p) for p in flat) > WIDEST_M:
        raise ShapeError(f"{name}: it is wider than {2 * WIDEST_M // 1000} km")
    if turn_of(flat) < 0:
        around, flat = around[::-1], flat[::-1]
    is_whole = is_convex(flat) and len(around) <= MOST_SIDES - 2
    if parts and not is_whole and purpose == "inside":
        raise ShapeError(f"{name}: for inside by parts it must be convex, with at most {MOST_SIDES - 2} corners")
    pieces = []
    for part in [tuple(range(len(around)))] if is_whole else convex_parts(flat):
        rings = [[ground.local(*around[i], height) for i in part] for height in (low, high)]
        faces, points = upright(ground, rings, low, high)
        if not is_whole and purpose == "outside":
            faces += bevels(faces[: len(part)], MOST_SIDES - len(faces))
        pieces.append(sides_for(purpose, faces, points))
    return zone_each(name, pieces) if parts and not is_whole else one_zone(name, pieces)


# ---- lanes


def scaled(factor: float, a: Vector) -> Vector:
    """A vector times a number."""
    return factor * a[0], factor * a[1], factor * a[2]


def unit(a: Sequence[float]) -> Vector:
    """The vector of length one."""
    length = math.hypot(*a)
    x, y, z = (part / length for part in a)
    return x, y, z


def lane_lines(
    name: str, line: list[Vector], width: float, low: float, high: float, purpose: str, parts: bool = False
) -> list[str]:
    """A polyline of (latitude, longitude, height) with a width: one zone, or with `parts` one for each leg.

    A leg for `outside` goes on by half of the width at both ends, so that the corner between two
    legs is in one of them.
    """
    if len(line) < 2:
        raise ShapeError(f"{name}: a lane has two points or more")
    beyond = width / 2 if purpose == "outside" else 0.0
    pieces = [sides_for(purpose, *leg(start, end, width / 2, low, high, beyond)) for start, end in zip(line, line[1:])]
    return zone_each(name, pieces) if parts else one_zone(name, pieces)


def leg(start: Vector, end: Vector, half: float, low: float, high: float, beyond: float) -> Shape:
    """Faces and points of a leg from one place to another."""
    ends = [earth_fixed(math.radians(p[0]), math.radians(p[1]), p[2]) for p in (start, end)]
    if not 0 < math.dist(*ends) <= WIDEST_M:
        raise ShapeError(f"a leg is longer than 0 and at most {WIDEST_M // 1000} km long")
    along = unit([q - p for p, q in zip(*ends)])
    middle = [(p + q) / 2 for p, q in zip(*ends)]
    latitude, longitude, sunk = geodetic(middle)
    bulge = max(0.0, (start[2] + end[2]) / 2 - sunk)  # the line is straight, the ellipsoid is not
    right = unit(cross(along, local_axes(latitude, longitude)[2]))
    lift = cross(right, along)

    def point(at: Sequence[float], forth: float, side: float, up: float) -> Vector:
        x, y, z = (p + forth * a + side * r + up * u for p, a, r, u in zip(at, along, right, lift))
        return x, y, z

    levels = {low: low, high: high}
    shape = {
        (forth, side, level): point(ends[forth > 0], forth * beyond, side * half, levels[level])
        for forth in (-1, 1)
        for side in (-1, 1)
        for level in (low, high)
    }
    tops = [point(middle, 0.0, side * half, level + bulge) for side in (-1, 1) for level in (low, high)]
    faces = [
        Face(scaled(sign, axis), [p for key, p in shape.items() if key[k] == wanted])
        for k, axis, pairs in (
            (0, along, ((-1, -1), (1, 1))),
            (1, right, ((-1, -1), (1, 1))),
            (2, lift, ((-1, low), (1, high))),
        )
        for sign, wanted in pairs
    ]
    faces[4].points += [tops[0], tops[2]]
    return faces, [*shape.values(), *tops]


# ---- the command


def reach_lines(name: str, latitude: float, longitude: float) -> list[str]:
    """East, north and up at a place."""
    axes = local_axes(math.radians(latitude), math.radians(longitude))
    return ["reach {}-{} {} {} {}".format(name, letter, *whole(axis)) for letter, axis in zip("enu", axes)]


def field_list(names: list[str]) -> Callable[[str], list[Any]]:
    """A reader of `NAME,..` with these fields: a name, a file, or numbers."""

    def fields(text: str) -> list[Any]:
        words = text.split(",")
        if len(words) != len(names) or not re.fullmatch("[a-z0-9-]{1,12}", words[0]):
            raise argparse.ArgumentTypeError(f"it is {','.join(names)}, the name 1 to 12 of a-z, 0-9 and -")
        return [field if name in ("NAME", "FILE", "LOG") else measure(field) for name, field in zip(names, words)]

    return fields


def arguments(parser: argparse.ArgumentParser) -> None:
    """The words of the command line."""
    parser.add_argument("--for", dest="purpose", choices=("outside", "inside"), required=True)
    for option, names in (
        ("--place", "NAME LAT LON HEIGHT RADIUS UP"),
        ("--reported", "NAME FILE LOG RADIUS UP"),
        ("--lane", "NAME FILE WIDTH LOW HIGH"),
        ("--area", "NAME FILE LOW HIGH"),
        ("--reach", "NAME LAT LON"),
    ):
        parser.add_argument(
            option, action="append", default=[], type=field_list(names.split()), metavar=names.replace(" ", ",")
        )
    parser.add_argument("--parts", action="store_true", help="a zone for each leg of a lane and part of an area")


def file_lines(args: argparse.Namespace) -> list[str]:
    """The lines of the file."""
    lines = ["gpszones 2"]
    for place in args.place:
        name, *where, radius, up = place
        lines += place_lines(name, where, radius, up, args.purpose)
    for reported in args.reported:
        name, path, log, radius, up = reported
        lines += reported_lines(name, path, log, radius, up, args.purpose)
    for name, path, width, low, high in args.lane:
        lines += lane_lines(name, places_of(path, "LineString"), width, low, high, args.purpose, args.parts)
    for name, path, low, high in args.area:
        lines += area_lines(name, places_of(path, "Polygon"), low, high, args.purpose, args.parts)
    for reach in args.reach:
        lines += reach_lines(*reach)
    return lines


def text_of(lines: list[str]) -> str:
    """The text of a file with these lines. ShapeError where `guard` wouldn't read it."""
    names = Counter(line.split()[1] for line in lines[1:] if not line.startswith("side "))
    twice = [name for name, count in names.items() if count > 1]
    if twice:
        raise ShapeError(f"{twice[0]}: {names[twice[0]]} zones or directions have this name")
    text = "".join(line + "\n" for line in lines)
    if len(text) > MOST_BYTES:
        raise ShapeError(
            f"{len(names)} zones and directions take {len(text)} bytes, and a file has at most {MOST_BYTES}: "
            "make several files"
        )
    return text


def run(args: argparse.Namespace) -> int:
    """Prints the file. The status."""
    print(text_of(file_lines(args)), end="")
    return 0


COMMAND = Command("zones", "a file of zones, from places, lanes and areas", arguments, run, __doc__)
