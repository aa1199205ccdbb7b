#!/usr/bin/env python3
"""Writes src/orbit_vectors.rt: places of a recorded satellite, by mpmath to 50 digits.

The record is that of G01 for 2011-01-14 22:00:00 GPS time in a receiver's navigation file. Each row is
a mean motion in 10^-22 rad/s, cut off, the time from the ephemeris time in ps, and the place of IS-GPS-200,
table 20-IV, in um, rounded down. Kepler's equation is solved by 200 rounds of E = M + e sin E.
"""
from math import isqrt
from pathlib import Path

from mpmath import atan2, cos, floor, mp, mpf, sin, sqrt

mp.dps = 50
MU = mpf("3.986005e14")
EARTH_RATE = mpf("7.2921151467e-5")
RECORD = {
    "crs": "-62.59375",
    "dn": "0.416445918073e-8",
    "m0": "3.00878414321",
    "cuc": "-0.320188701153e-5",
    "e": "0.442624557763e-2",
    "cus": "0.906549394131e-5",
    "root_a": "5153.55247879",
    "toe": "511200",
    "cic": "0.596046447754e-7",
    "om0": "-0.583672318146",
    "cis": "-0.223517417908e-7",
    "i0": "0.967644255250",
    "crc": "209.59375",
    "omega": "0.902996581386",
    "om_dot": "-0.770246369567e-8",
    "idot": "0.265725354242e-9",
}
AFTER = (0, 3_600_123_456_789_012, -7_199_999_999_999_999, 14_400_000_000_000_000)


def place(after):
    f = {name: mpf(number) for name, number in RECORD.items()}
    t = mpf(after) / 10**12
    axis = f["root_a"] ** 2
    n = sqrt(MU / axis**3) + f["dn"]
    mean = f["m0"] + n * t
    anomaly = mean
    for _ in range(200):
        anomaly = mean + f["e"] * sin(anomaly)
    true = atan2(sqrt(1 - f["e"] ** 2) * sin(anomaly), cos(anomaly) - f["e"])
    phi = true + f["omega"]
    u = phi + f["cus"] * sin(2 * phi) + f["cuc"] * cos(2 * phi)
    r = axis * (1 - f["e"] * cos(anomaly)) + f["crs"] * sin(2 * phi) + f["crc"] * cos(2 * phi)
    i = f["i0"] + f["idot"] * t + f["cis"] * sin(2 * phi) + f["cic"] * cos(2 * phi)
    x, y = r * cos(u), r * sin(u)
    node = f["om0"] + (f["om_dot"] - EARTH_RATE) * t - EARTH_RATE * f["toe"]
    return (
        x * cos(node) - y * cos(i) * sin(node),
        x * sin(node) + y * cos(i) * cos(node),
        y * sin(i),
    )


def motion():
    root_a = 5_153_552_478_790_000
    return isqrt(398_600_500_000_000 * 10**116 // root_a**6) + 41_644_591_807_300


def main():
    rows = [(motion(), after, *(int(floor(c * 10**6)) for c in place(after))) for after in AFTER]
    text = "\n".join(
        [
            "//! Mean motions, times from the ephemeris time and places: written by",
            "//! vectors/make_orbit_vectors.py.",
            "",
            'pub(crate) const VECTORS: &str = "\\',
            *("%d %d %d %d %d" % r for r in rows),
            '";',
            "",
        ]
    )
    (Path(__file__).parent.parent / "src" / "orbit_vectors.rt").write_text(text)


main()
