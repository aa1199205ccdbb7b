#!/usr/bin/env python3
"""Writes src/recorded_vectors.rt: clocks and places of recorded satellites, by mpmath to 40 digits.

Each row is a record's place in src/recorded_ephemerides.rt, a time of the satellite's clock and the GPS time then, in ps since
1980-01-06 00:00:00, the clock's offset for a user of one frequency, in 10^-16 s, and the satellite's place at
that GPS time, in um: by IS-GPS-200, 20.3.3.3.3.1, 20.3.3.3.3.2 and table 20-IV, rounded to the nearest. The
clock's polynomial takes the satellite's clock time, as 20.3.3.3.3.1 allows. Kepler's equation is solved by
Newton's method.
"""
from datetime import datetime
from decimal import Decimal
from pathlib import Path

from mpmath import atan2, cos, mp, mpf, nint, sin, sqrt

mp.dps = 40
SOURCES = Path(__file__).parent.parent / "src"
GPS_EPOCH = datetime(1980, 1, 6)
WEEK = 604_800
PS = 10**12
MU = mpf("3.986005e14")
EARTH_RATE = mpf("7.2921151467e-5")
RELATIVITY = mpf("-4.442807633e-10")

# Names of the numbers in a record, line by line.
NAMES = (
    ("af0", "af1", "af2"),
    ("iode", "crs", "dn", "m0"),
    ("cuc", "e", "cus", "root_a"),
    ("toe", "cic", "om0", "cis"),
    ("i0", "crc", "omega", "om_dot"),
    ("idot", "codes", "week", "p_flag"),
    ("accuracy", "health", "tgd", "iodc"),
)

# Times of the satellite's clock from the ephemeris time, in ps: each record takes the next three.
AFTER = (
    (-7_200 * PS, 0, 3_600_123_456_789_012),
    (-14_399_999_999_999_999, -1_800_500_000_000_001, 7_199_987_654_321_098),
    (-3_600_000_000_000_001, 900_000_000_000_001, 14_400 * PS),
)


def number(text):
    return mpf(str(Decimal(text.strip().replace("D", "E") or "0")))


def record(lines):
    f = {"toc": int((datetime(*map(int, lines[0][4:23].split())) - GPS_EPOCH).total_seconds())}
    for names, line in zip(NAMES, lines):
        for name, end in zip(reversed(names), (80, 61, 42, 23)):
            f[name] = number(line[end - 19 : end])
    f["toe_time"] = int(f["week"]) * WEEK + int(f["toe"])
    assert f["health"] == 0 and abs(f["toe_time"] - f["toc"]) < WEEK / 2
    return f


def records():
    lines = (SOURCES / "recorded_ephemerides.rt").read_text().splitlines()
    first = next(i for i, line in enumerate(lines) if line.endswith("END OF HEADER")) + 1
    starts = [i for i in range(first, len(lines)) if lines[i].startswith("G")]
    return [record(lines[i : i + 8]) for i in starts]


def eccentric_anomaly(f, after):
    mean = f["m0"] + (sqrt(MU / f["root_a"] ** 6) + f["dn"]) * after
    anomaly = mean
    for _ in range(10):
        anomaly -= (anomaly - f["e"] * sin(anomaly) - mean) / (1 - f["e"] * cos(anomaly))
    return anomaly


def clock_offset(f, after):
    since = f["toe_time"] - f["toc"] + after
    base = f["af0"] + f["af1"] * since + f["af2"] * since**2 - f["tgd"]
    offset = base
    for _ in range(4):
        anomaly = eccentric_anomaly(f, after - offset)
        offset = base + RELATIVITY * f["e"] * f["root_a"] * sin(anomaly)
    return offset


def place(f, after):
    anomaly = eccentric_anomaly(f, after)
    true = atan2(sqrt(1 - f["e"] ** 2) * sin(anomaly), cos(anomaly) - f["e"])
    phi = true + f["omega"]
    u = phi + f["cus"] * sin(2 * phi) + f["cuc"] * cos(2 * phi)
    r = f["root_a"] ** 2 * (1 - f["e"] * cos(anomaly)) + f["crs"] * sin(2 * phi) + f["crc"] * cos(2 * phi)
    i = f["i0"] + f["cis"] * sin(2 * phi) + f["cic"] * cos(2 * phi) + f["idot"] * after
    x, y = r * cos(u), r * sin(u)
    node = f["om0"] + (f["om_dot"] - EARTH_RATE) * after - EARTH_RATE * f["toe"]
    return (
        x * cos(node) - y * cos(i) * sin(node),
        x * sin(node) + y * cos(i) * cos(node),
        y * sin(i),
    )


def row(at, f, after):
    offset = clock_offset(f, mpf(after) / PS)
    time = after - int(nint(offset * PS))
    toe = f["toe_time"] * PS
    coordinates = (int(nint(c * 10**6)) for c in place(f, mpf(time) / PS))
    return at, toe + after, time - after, int(nint(offset * 10**16)), *coordinates


def main():
    rows = [row(at, f, after) for at, f in enumerate(records()) for after in AFTER[at % 3]]
    text = "\n".join(
        [
            "//! Places of records in the file, times by the satellites' clocks in ps, how far GPS time is from",
            "//! them in ps, clock offsets in 10^-16 s, and places of satellites in um: written by",
            "//! vectors/make_recorded_vectors.py.",
            "",
            'pub(crate) const VECTORS: &str = "\\',
            *("%d %d %d %d %d %d %d" % r for r in rows),
            '";',
            "",
        ]
    )
    (SOURCES / "recorded_vectors.rt").write_text(text)


main()
