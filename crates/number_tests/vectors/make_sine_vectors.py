#!/usr/bin/env python3
"""Writes src/sine_vectors.rt: sine and cosine of angles over the whole range, by mpmath to 60 digits.

Each row is an angle, its sine and its cosine in units of 10^-16, the last two rounded down.
"""
import random
from pathlib import Path

from mpmath import cos, floor, mp, mpf, pi, sin

mp.dps = 60
UNIT = 10**16


def row(x):
    angle = mpf(x) / UNIT
    return x, int(floor(sin(angle) * UNIT)), int(floor(cos(angle) * UNIT))


def angles():
    yield from (-64 * UNIT, 64 * UNIT, -64 * UNIT + 1, 64 * UNIT - 1)
    yield from (-2, -1, 0, 1, 2, -60 * UNIT, 60 * UNIT)
    # Both sides of each seam of two quarters.
    for k in range(-41, 41):
        seam = int(floor((2 * k + 1) * pi / 4 * UNIT))
        yield from (seam, seam + 1)
    # The middles of some quarters, where one function is 0 and the other one or minus one.
    for k in range(-40, 41, 10):
        yield int(floor(k * pi / 2 * UNIT)) + (k > 0)
    spread = random.Random(20090401)
    for _ in range(40):
        yield spread.randrange(-64 * UNIT, 64 * UNIT + 1)


def main():
    rows = [row(x) for x in sorted(set(angles()))]
    text = "\n".join(
        [
            "//! Angles, their sines and their cosines in units of 10^-16, rounded down: written by",
            "//! vectors/make_sine_vectors.py.",
            "",
            f'pub(crate) const VECTORS: &str = "\\',
            *("%d %d %d" % r for r in rows),
            '";',
            "",
        ]
    )
    (Path(__file__).parent.parent / "src" / "sine_vectors.rt").write_text(text)


main()
