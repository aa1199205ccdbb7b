#!/usr/bin/env python3
"""Writes src/recorded_ephemerides.rt: GPS records of four recorded navigation files, as they stand there.

Use: choose_recorded_ephemerides.py FOLDER, with the files of CHOSEN in the folder. They are test data of RTKLIB (Debian
source package rtklib 2.4.3.b34), written as RINEX 3 by its converter or moved from RINEX 2 by columns: a
receiver of one frequency, a receiver of several systems, a reference station over the end of a week, and a
day of broadcast records.
"""
import sys
from pathlib import Path

# The first columns of the chosen records, by file.
CHOSEN = {
    "ubx_2008.nav": (
        "G05 2008 05 26 06",
        "G09 2008 05 26 08",
        "G12 2008 05 26 06",
        "G14 2008 05 26 08",
        "G18 2008 05 26 06",
        "G22 2008 05 26 08",
        "G30 2008 05 26 06",
    ),
    "javad_2011.nav": (
        "G02 2011 01 15 04",
        "G05 2011 01 14 12",
        "G11 2011 01 15 04",
        "G15 2011 01 14 13 59 44",
        "G19 2011 01 15 02",
        "G22 2011 01 14 23 59 44",
        "G27 2011 01 14 14",
        "G31 2011 01 14 20",
    ),
    "geonet0759_2005.nav": (
        "G01 2005 04 02 02",
        "G07 2005 04 03 00",
        "G08 2005 04 03 00",
        "G15 2005 04 02 23 59 44",
        "G20 2005 04 02 23 59 44",
        "G24 2005 04 02 23 59 44",
        "G27 2005 04 03 00",
    ),
    "brdc0910.09n.nav": (
        "G02 2009 04 01 00",
        "G06 2009 04 01 02",
        "G10 2009 04 01 06",
        "G16 2009 04 01 01 59 44",
        "G17 2009 04 01 10",
        "G25 2009 04 01 14",
        "G29 2009 04 01 20",
        "G32 2009 04 01 22",
    ),
}

VERSION = "     3.04           N: GNSS NAV DATA    G: GPS              RINEX VERSION / TYPE"
HEADER_END = " " * 60 + "END OF HEADER"


def record(lines, start):
    at = next(i for i, line in enumerate(lines) if line.startswith(start))
    return [line.rstrip() for line in lines[at : at + 8]]


def main():
    chosen = [VERSION, HEADER_END]
    for name, starts in CHOSEN.items():
        lines = (Path(sys.argv[1]) / name).read_text().splitlines()
        for start in starts:
            chosen += record(lines, start)
    text = "\n".join(
        [
            "//! GPS records of recorded navigation files: written by vectors/choose_recorded_ephemerides.py.",
            "",
            "pub(crate) const RECORDS: &str =",
            '    "' + chosen[0],
            *chosen[1:],
            '";',
            "",
        ]
    )
    (Path(__file__).parent.parent / "src" / "recorded_ephemerides.rt").write_text(text)


main()
