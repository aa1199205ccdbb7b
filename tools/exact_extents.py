#!/usr/bin/env python3
"""Compares the regions of a log with the exact ones that its rows allow.

usage: python3 -m tools.exact_extents LOG

The positions and clock offsets that all but q rows allow are a union of convex bodies, one for each choice of q rows
left out. With each range taken as linear around the middle of the kept boxes, which is true to a few mm within 300 m,
these are polytopes: each corner is where four rows are at an end of their spans, so the extents of the union are
those of the corners at which all but q rows hold. Where rows were renewed, they are those in use where the last kept box
was closed: the exact region of wider rows would be wider. A line has the extents along local east, north, up and of the clock
offset in metres: those of the kept boxes, and behind each, by how many percent they are more than the exact ones. The
last line has the means of the percentages. Numbers are floats, and prove nothing.

Exit status: 0; 1 where a file can't be read or written, or LOG is no whole log; 2 for a wrong command line.
"""
import argparse
import itertools
import math

from gpscover.command import run_tool
from gpscover.log import UM_PER_M, calendar, epochs
from gpscover.region import region_of
from gpscover.geodesy import dot

TOLERANCE_M = 1e-6
NAMES = ("east", "north", "up", "clock")


def linear_row(row, centre):
    """The row as (direction, low, high): low <= direction . (offset from the centre, clock offset) <= high, in m."""
    toward = [centre[k] - sum(row.place[k]) / (2 * UM_PER_M) for k in range(3)]
    distance = math.hypot(*toward)
    low = row.range[0] / UM_PER_M - distance - row.error[1] / UM_PER_M
    high = row.range[1] / UM_PER_M - distance - row.error[0] / UM_PER_M
    return (*(part / distance for part in toward), 1.0), low, high


def inverse(matrix):
    """The inverse of a square matrix by elimination with pivots, or None where a pivot is nearly zero."""
    size = len(matrix)
    rows = [list(row) + [float(k == j) for j in range(size)] for k, row in enumerate(matrix)]
    for column in range(size):
        pivot = max(range(column, size), key=lambda k: abs(rows[k][column]))
        if abs(rows[pivot][column]) < 1e-9:
            return None
        rows[column], rows[pivot] = rows[pivot], rows[column]
        rows[column] = [value / rows[column][column] for value in rows[column]]
        for k in range(size):
            if k != column:
                rows[k] = [a - rows[k][column] * b for a, b in zip(rows[k], rows[column])]
    return [row[size:] for row in rows]


def corners(linear):
    """The points and clock offsets where four rows are at an end of their spans."""
    for four in itertools.combinations(linear, 4):
        inverted = inverse([direction for direction, _, _ in four])
        if inverted is not None:
            for ends in itertools.product(*((low, high) for _, low, high in four)):
                yield [sum(a * b for a, b in zip(row, ends)) for row in inverted]


def holds(row, corner):
    """Whether a row holds at a corner, but for rounding."""
    direction, low, high = row
    value = sum(a * b for a, b in zip(direction, corner))
    return low - TOLERANCE_M <= value <= high + TOLERANCE_M


def exact_extents(rows, outliers, centre, axes):
    """The least and greatest of the region along the axes and in the clock offset, from the centre; None if empty."""
    linear = [linear_row(row, centre) for row in rows]
    needed = len(linear) - outliers
    kept = [corner for corner in corners(linear) if sum(holds(row, corner) for row in linear) >= needed]
    if not kept:
        return None
    along = [[dot(axis, corner) for corner in kept] for axis in axes] + [[corner[3] for corner in kept]]
    return [(min(values), max(values)) for values in along]


def excesses(epoch):
    """How wide the region of an epoch is, and by how many percent it is wider than the exact one, along each axis."""
    region = region_of(epoch)
    exact = exact_extents(epoch.kept[-1].rows, epoch.outliers, region.origin, region.axes)
    if exact is None:
        return None
    widths = [*region.widths(), region.clock[1] - region.clock[0]]
    return [(width, 100 * (width / (high - low) - 1)) for width, (low, high) in zip(widths, exact)]


def main():
    """Prints a line for each epoch with a region."""
    parser = argparse.ArgumentParser(description=__doc__, formatter_class=argparse.RawDescriptionHelpFormatter)
    parser.add_argument("log", metavar="LOG")
    found = []
    for epoch in epochs(parser.parse_args().log):
        compared = excesses(epoch) if epoch.kept else None
        if compared is None:
            print(f"{epoch.index:6}  {calendar(epoch.ps)}  no region")
            continue
        found.append([more for _, more in compared])
        parts = (f"{name} {width:8.1f} {more:+6.1f} %" for name, (width, more) in zip(NAMES, compared))
        print(f"{epoch.index:6}  {calendar(epoch.ps)}  " + "  ".join(parts))
    means = [sum(values) / len(found) for values in zip(*found)]
    print("mean  " + "  ".join(f"{name} {mean:+.1f} %" for name, mean in zip(NAMES, means)))
    return 0


if __name__ == "__main__":
    run_tool(main)
