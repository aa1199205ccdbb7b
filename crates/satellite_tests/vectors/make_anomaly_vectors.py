#!/usr/bin/env python3
"""Writes src/anomaly_vectors.rt: eccentric anomalies over the whole range, by mpmath to 60 digits.

Each row is a mean anomaly, an eccentricity and the eccentric anomaly in units of 10^-16, the last
rounded down.
"""
import random
from pathlib import Path

from mpmath import cos, floor, mp, mpf, sin

mp.dps = 60
UNIT = 10**16
GREATEST = 2 * 10**15


def row(m, e):
    mean, ecc = mpf(m) / UNIT, mpf(e) / UNIT
    x = mean
    for _ in range(60):
        x -= (x - ecc * sin(x) - mean) / (1 - ecc * cos(x))
    assert abs(x - ecc * sin(x) - mean) < mpf(10) ** -50
    return m, e, int(floor(x * UNIT))


def arguments():
    for m in (-60 * UNIT, -UNIT, 1, UNIT, 31415926535897932, 60 * UNIT):
        for e in (0, 1, 10**13, 3 * 10**14, GREATEST):
            yield m, e
    spread = random.Random(20090401)
    for _ in range(30):
        yield spread.randrange(-60 * UNIT, 60 * UNIT + 1), spread.randrange(GREATEST + 1)


def main():
    rows = [row(m, e) for m, e in sorted(set(arguments()))]
    text = "\n".join(
        [
            "//! Mean anomalies, eccentricities and eccentric anomalies in units of 10^-16, the last rounded",
            "//! down: written by vectors/make_anomaly_vectors.py.",
            "",
            'pub(crate) const VECTORS: &str = "\\',
            *("%d %d %d" % r for r in rows),
            '";',
            "",
        ]
    )
    (Path(__file__).parent.parent / "src" / "anomaly_vectors.rt").write_text(text)


main()
