#!/usr/bin/env python3
"""Writes src/turn_vectors.rt: turned places, by mpmath to 60 digits and without rounding between the lines.

Each row is the place of a satellite when it sent, the low corner of a cube and the cube's side, and then x
and y of the place turned by the flight time to the low corner and to the high corner, all in um, rounded
down. The flight time is found in two rounds (IS-GPS-200, 20.3.3.4.3.4).
"""
from pathlib import Path

from mpmath import cos, floor, mp, mpf, sin, sqrt

mp.dps = 60
EARTH_RATE = mpf("7.2921151467e-5")
LIGHT_SPEED = 299_792_458 * 10**6
CASES = (
    ((27_040_000_000_000, 0, 0), (6_378_137_000_000, 0, 0), 0),
    ((-20_575_233_674_168, -7_328_492_268_950, -15_314_678_951_202), (-3_954_000_000_000, 3_354_000_000_000, 3_700_000_000_000), 400_000_000),
    ((5_070_100_084_494, -25_320_313_648_798, -6_015_371_143_062), (1_100_000_000_000, -4_700_000_000_000, 4_100_000_000_000), 200_000_000_000),
    ((-22_900_000_000_000, 22_900_000_000_000, 100_000_000), (6_000_000_000_000, -2_000_000_000_000, -1_000_000_000_000), 1_000_000_000_000),
    ((0, -32_399_999_999_000, 0), (0, 6_300_000_000_000, 0), 0),
    ((36_900_000_000_000, -36_900_000_000_000, 4_000_000_000_000), (-5_000_000_000_000, 3_000_000_000_000, 2_000_000_000_000), 1_000_000_000_000),
    ((-52_299_999_999_000, 0, 0), (6_378_137_000_000, 0, 0), 200_000_000),
    ((12_345_678_901_234, 18_765_432_109_876, 14_141_414_141_414), (0, 0, 0), 1),
)


def turned(place, point):
    x, y, z = place
    seen = (mpf(x), mpf(y))
    for _ in range(2):
        offsets = (seen[0] - point[0], seen[1] - point[1], z - point[2])
        angle = EARTH_RATE * sqrt(sum(mpf(d) ** 2 for d in offsets)) / LIGHT_SPEED
        seen = (x * cos(angle) + y * sin(angle), y * cos(angle) - x * sin(angle))
    return [int(floor(v)) for v in seen]


rows = []
for place, low, side in CASES:
    high = [n + side for n in low]
    rows.append(" ".join(str(n) for n in (*place, *low, side, *turned(place, low), *turned(place, high))))
text = """//! Places, cubes and turned places: written by vectors/make_turn_vectors.py.

pub(crate) const VECTORS: &str = "\\
"""
text += "".join(row + "\n" for row in rows) + '";\n'
(Path(__file__).parent.parent / "src" / "turn_vectors.rt").write_text(text)
