"""Adds certified bounds to a log: half-spaces that hold what fits of an epoch, with the sums of rows that show them.

usage: gpslog bounded LOG NEW [--directions 4|8|16]

NEW is LOG as a log of version 4: behind the steps of each epoch that keeps a box stand bounds along so many azimuths (8),
evenly from east, and up and down. Where the kept boxes reach over more than 500 m, six bounds along the axes stand in
front of them: they narrow the box over which the others are shown. What they are is said in docs/LOG.md. Bounds that LOG
has already are left away. A bound is written where whole numbers show it, and `gpscover check` proves it anew; it wants
`search.pairs = true` in the settings. Along a direction where none is found there is none, and with more than 4 outliers
there are none at all.

Exit status: 0; 1 where a file can't be read or written, or LOG is no whole log; 2 for a wrong command line.
"""

from __future__ import annotations

import argparse
import math
import os
from collections.abc import Iterable, Iterator, Sequence

from gpscover.bound_search import bounds_over
from gpscover.command import Command, whole_file
from gpscover.errors import Error
from gpscover.geodesy import cross, whole_product
from gpscover.log import HEADS, UM_PER_M, Bound, Box, Epoch, PathLike, Row, epochs, open_text
from gpscover.region import hull_of
from gpscover.row_sums import AXES, Whole, hull_under

# A hull with a longer side, in um, is narrowed by bounds along the axes first. What a form leaves out grows with the
# square of its box, and is some mm at this length.
LONG = 500 * UM_PER_M
COUNTS = (4, 8, 16)  # of azimuths
USUAL = 8
PARTS = 10**6  # of the length of a direction
BILLION = 10**9  # parts of the length of a unit vector
FINER = 1000  # in whose parts lengths are taken, so that short ones are lengths too
STRETCH = 1_006_739_496_742  # 10^12 times what z is times to be along the normal of the ellipsoid: 1 / (1 - e^2)
# Of half of sixteen azimuths, as angles from east; the sine of one is the cosine of that which is four places from it.
COSINES = BILLION, 923_879_533, 707_106_781, 382_683_432, 0, -382_683_432, -707_106_781, -923_879_533


def nearest(a: int, b: int) -> int:
    """a / b to the nearest whole number, halves upward; 0 where b is 0."""
    return (2 * a + b) // (2 * b) if b else 0


def unit(vector: Sequence[int]) -> Whole:
    """The unit vector along a vector, in billionths."""
    length = math.isqrt(whole_product(vector, vector) * FINER**2)
    x, y, z = (nearest(FINER * BILLION * part, length) for part in vector)
    return x, y, z


def mixed(cosine: int, one: Whole, sine: int, other: Whole) -> Whole:
    """So many billionths of one unit vector and of another, in millionths."""
    parts = (nearest(cosine * a + sine * b, BILLION**2 // PARTS) for a, b in zip(one, other))
    x, y, z = (max(-PARTS, min(PARTS, part)) for part in parts)
    return x, y, z


def negative(way: Whole) -> Whole:
    """The opposite direction."""
    x, y, z = way
    return -x, -y, -z


def axes(search: Box) -> tuple[Whole, Whole, Whole]:
    """East, north and up at the middle of a search box, in billionths: up is along the normal of the ellipsoid for a middle at
    height 0, and on the axis of the earth east is along y."""
    x, y, z = (low + high for low, high in zip(search.low, search.high))
    east = unit((-y, x, 0) if x or y else (0, 1, 0))
    up = unit((x, y, z * STRETCH // 10**12))
    x, y, z = (nearest(part, BILLION) for part in cross(up, east))
    return east, (x, y, z), up


def directions(search: Box, count: int) -> list[Whole]:
    """So many azimuths, evenly from east over north, and up and down, at the middle of a search box; in millionths."""
    east, north, above = axes(search)
    half = [mixed(COSINES[k], east, COSINES[abs(k - 4)], north) for k in range(0, 8, 16 // count)]
    up = mixed(BILLION, above, 0, above)
    return [*half, *map(negative, half), up, negative(up)]


def lies_in(box: Box, other: Box) -> bool:
    """Whether a box lies in another."""
    return all(a >= b for a, b in zip(box.low, other.low)) and all(a <= b for a, b in zip(box.high, other.high))


def rows_over(epoch: Epoch, hull: Box) -> list[Row]:
    """The rows that show bounds over a hull: those in use at the end where it lies in their box, else the first ones."""
    last = epoch.renewals[-1:]
    return last[0].rows if last and lies_in(hull, last[0].box) else epoch.rows


def axes_of(hull: Box) -> tuple[Whole, ...]:
    """The directions along which a hull is narrowed before any other bound is sought; none where it is short."""
    longest = max(high - low for low, high in zip(hull.low, hull.high))
    return AXES if longest > LONG else ()


def bounds_along(epoch: Epoch, ways: Iterable[Whole]) -> list[Bound]:
    """The bounds of an epoch that keeps a box along some directions, each over what those before leave of the hull."""
    hull, found = hull_of(epoch.boxes), []
    for way in ways:
        for bound in bounds_over(rows_over(epoch, hull), hull, epoch.outliers, [way]):
            found.append(bound)
            hull = hull_under(bound, hull)
    return found


def bounds_of(epoch: Epoch, count: int = USUAL) -> list[Bound]:
    """The bounds of an epoch along the axes where its hull is long, and then along so many azimuths, and up and down; none
    where it keeps no box."""
    if not epoch.kept or epoch.root is None:
        return []
    return bounds_along(epoch, [*axes_of(hull_of(epoch.boxes)), *directions(epoch.root, count)])


def asked_of(epoch: Epoch) -> list[Bound]:
    """The bounds of an epoch without those along the axes that stand in front of them where its hull is long."""
    ways = iter(axes_of(hull_of(epoch.boxes)) if epoch.kept else ())
    first = 0
    while first < len(epoch.bounds) and epoch.bounds[first].direction in ways:
        first += 1
    return epoch.bounds[first:]


def bound_lines(bound: Bound) -> Iterator[str]:
    """The lines of a bound and its sums."""
    yield " ".join(map(str, ("bound", *bound.direction, bound.most, len(bound.sums))))
    for one in bound.sums:
        yield " ".join(map(str, ("by", one.aim, *(part for term in one.terms for part in term))))


def bounded(path: PathLike, count: int = USUAL) -> Iterator[str]:
    """The lines of a log with bounds."""
    paved = (epoch for epoch in epochs(path) if not epoch.few)
    with open_text(path) as file:
        next(file, None)
        yield HEADS[-1]
        for line in file:
            if not line.startswith(("bound ", "by ")):
                yield line.removesuffix("\n")
            if line.startswith("done "):
                for bound in bounds_of(next(paved), count):
                    yield from bound_lines(bound)
    for _ in paved:  # a log that isn't whole is told of
        pass


def arguments(parser: argparse.ArgumentParser) -> None:
    """The words of the command line."""
    parser.add_argument("log", metavar="LOG")
    parser.add_argument("new", metavar="NEW", help="the log with bounds")
    told = f"azimuths beside up and down ({USUAL})"
    parser.add_argument("--directions", type=int, choices=COUNTS, default=USUAL, help=told)


def run(args: argparse.Namespace) -> int:
    """Writes the log. The status."""
    if os.path.exists(args.new) and os.path.samefile(args.log, args.new):
        raise Error(f"{args.new} is the log itself: give another name")
    with whole_file(args.new) as file:
        file.writelines(f"{line}\n" for line in bounded(args.log, args.directions))
    return 0


COMMAND = Command("bounded", "certified bounds, added to a log", arguments, run, __doc__)
