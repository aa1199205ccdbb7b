#!/usr/bin/env python3
"""Compares the regions of logs, and their certified bounds, with the exact ones that their rows allow.

usage: python3 -m tools.certified_table LOG [LOG ...] [--directions 4|8|16] [--every N]

A row of the table is of a log in which no rows are renewed. It has q and the splits, by how much on average the kept
boxes reach further along east, north and up than what the rows allow exactly, in percent and in metres, and how much
further the bounds go that an epoch has, or that `gpslog bounded` finds where it has none: on average and at worst over
all directions that were asked for, in mm. Then how many of these bounds there are, the bytes that an epoch takes
without bounds and those of all its bounds, with the ones along the axes of a long hull, and the processor time that
finding them takes an epoch. Of every N-th epoch (1).

The exact region is that of tools/exact_extents.py along the directions of the bounds, with each row as wide as the span
of its satellite's place makes it, which is left out there (some 0.1 m), and with corners that are moved to where the
four ranges themselves meet, by Newton's method: linear ones are off by 8 mm half a km away. They are floats.

Exit status: 0; 1 where a file can't be read, or LOG is no whole log; 2 for a wrong command line.
"""
import argparse
import itertools
import math
import time
from pathlib import Path

from gpscover.bounded import COUNTS, USUAL, asked_of, bound_lines, bounds_of, directions
from gpscover.command import run_tool
from gpscover.geodesy import dot
from gpscover.log import UM_PER_M, Log
from gpscover.region import extent_along, half_sides, hull_of, offsets
from tools.exact_extents import TOLERANCE_M, inverse, linear_row

NEAR_M = 0.1  # a corner of linear rows that is missed by more is none of the ranges either, within a km
STEPS = 3  # of Newton's method; the second moves a corner by less than a um
HEAD = "| log | q | splits | boxes: E, N, U | bounds: mean, worst | found | bytes: steps, bounds | time |"


def loose_row(row, centre):
    """A linear row whose place is anywhere in its span."""
    direction, low, high = linear_row(row, centre)
    play = sum(abs(part) * span.width for part, span in zip(direction, row.place)) / 2 / UM_PER_M
    return direction, low - play, high + play


def meeting(rows, ends):
    """The point and clock offset where linear rows are at their low ends (1) or high ones (2); None where none is."""
    inverted = inverse([row[0] for row in rows])
    wanted = [row[end] for row, end in zip(rows, ends)]
    return inverted and [sum(a * b for a, b in zip(line, wanted)) for line in inverted]


def held(rows, corner, missed):
    """How many linear rows hold at a corner, but for so many m."""
    values = (sum(a * b for a, b in zip(row[0], corner)) for row in rows)
    return sum(row[1] - missed <= value <= row[2] + missed for row, value in zip(rows, values))


def moved(rows, four, ends, start, needed):
    """The point where the ranges of four rows meet that way, by Newton's method; None where too few rows hold there."""
    point, clock = start, 0.0
    for _ in range(STEPS):
        corner = meeting([loose_row(rows[k], point) for k in four], ends)
        if corner is None:
            return None
        point, clock = [a + b for a, b in zip(point, corner)], corner[3]
    around = [loose_row(row, point) for row in rows]
    return point if held(around, (0.0, 0.0, 0.0, clock), TOLERANCE_M) >= needed else None


def true_corners(rows, needed, centre):
    """The corners of what all but some rows allow, as points in m from a point near them."""
    linear = [loose_row(row, centre) for row in rows]
    fours, sides = itertools.combinations(range(len(rows)), 4), itertools.product((1, 2), repeat=4)
    for four, ends in itertools.product(fours, sides):
        corner = meeting([linear[k] for k in four], ends)
        if corner and held(linear, corner, NEAR_M) >= needed:
            start = [a + b for a, b in zip(centre, corner)]
            point = moved(rows, four, ends, start, needed)
            if point:
                yield [a - b for a, b in zip(point, centre)]


class Exact:
    """The corners of what rows allow, from a point in m. Those of one epoch in several logs are sought once."""

    def __init__(self):
        self.known = {}

    def of(self, epoch):
        """The point and the corners of an epoch."""
        key = epoch.outliers, repr(epoch.rows)
        if key not in self.known:
            centre = hull_of(epoch.boxes).centre
            self.known[key] = centre, list(true_corners(epoch.rows, len(epoch.rows) - epoch.outliers, centre))
        return self.known[key]

    def excesses(self, epoch, bounds):
        """By how many mm bounds go further than the corners of their epoch."""
        centre, allowed = self.of(epoch)
        return [1000 * (it.reach(centre) - max(dot(unit(it.direction), corner) for corner in allowed)) for it in bounds]


def unit(direction):
    """A direction with the length 1."""
    length = math.hypot(*direction)
    return [part / length for part in direction]


class Means:
    """What is added up of a log."""

    def __init__(self):
        self.boxes, self.bounds, self.sizes, self.times, self.sought = [], [], [], [], 0

    def add(self, epoch, exact, count):
        """Adds an epoch."""
        start = time.process_time()
        epoch.bounds = epoch.bounds or bounds_of(epoch, count)
        self.times.append(time.process_time() - start)
        self.sought += count + 2
        self.sizes.append(sum(len(line) + 1 for bound in epoch.bounds for line in bound_lines(bound)))
        self.bounds += exact.excesses(epoch, asked_of(epoch))
        centre, allowed = exact.of(epoch)
        centres = offsets(epoch.boxes, [round(part * UM_PER_M) for part in centre])
        halves = [half_sides(box) for box in epoch.boxes]
        ways = directions(epoch.root, 4)
        for axis in map(unit, (ways[0], ways[1], ways[4])):
            low, high = extent_along(axis, centres, halves)
            values = [dot(axis, corner) for corner in allowed]
            self.boxes.append((high - low, max(values) - min(values)))

    def cells(self, size, epochs):
        """The cells of the row behind the splits: `size` bytes are of so many epochs."""
        further = [[box / exact - 1 for box, exact in self.boxes[k::3]] for k in range(3)]
        metres = [[box - exact for box, exact in self.boxes[k::3]] for k in range(3)]
        mean = lambda values: sum(values) / len(values)
        yield f"{', '.join(f'{100 * mean(it):.0f}' for it in further)} %, {', '.join(f'{mean(it):.0f}' for it in metres)} m"
        yield f"{mean(self.bounds):.1f}, {max(self.bounds):.0f} mm"
        yield f"{len(self.bounds)} of {self.sought}"
        yield f"{size / epochs:,.0f}, {mean(self.sizes):,.0f}"
        yield f"{1000 * mean(self.times):.0f} ms"


def row_of(path, exact, count, every):
    """The row of a log."""
    log, means, number = Log(path), Means(), 0
    for number, epoch in enumerate(log, 1):
        if epoch.kept and number % every == 0:
            means.add(epoch, exact, count)
    own = sum(len(line) + 1 for epoch in log for bound in epoch.bounds for line in bound_lines(bound))
    cells = means.cells(Path(path).stat().st_size - own, number)
    return " | ".join(["", Path(path).stem, str(log.rules.outliers), str(log.rules.splits), *cells, ""]).strip()


def main():
    parser = argparse.ArgumentParser(description=__doc__, formatter_class=argparse.RawDescriptionHelpFormatter)
    parser.add_argument("logs", metavar="LOG", nargs="+")
    parser.add_argument("--directions", type=int, choices=COUNTS, default=USUAL)
    parser.add_argument("--every", type=int, default=1, metavar="N")
    words = parser.parse_args()
    exact = Exact()
    print(HEAD, "|" + "---|" * 8, sep="\n")
    for path in words.logs:
        print(row_of(path, exact, words.directions, words.every), flush=True)
    return 0


if __name__ == "__main__":
    run_tool(main)
