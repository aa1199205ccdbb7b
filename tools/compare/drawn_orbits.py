#!/usr/bin/env python3
"""Compares rows of `gpscover solve` with numbers that the equations allow, for drawn ephemerides.

usage: python3 -m tools.compare.drawn_orbits [--program PATH] [--records N] [--seed N] [--galileo MESSAGE] [--zenith]
                                            [--vertical] [--above DEGREES]

Each file has twelve satellites, whose records are drawn from the whole range of every field, often from its ends, and a
search box of up to 200 km on each side. For each row one choice of numbers is made as the equations of
docs/EQUATIONS.md leave it, at a drawn point of the box, in exact fractions (`allowed` of tools/compare/sample.py). It has to
lie in the row with W taken off at both ends, which has to be at most W wide, and a place between 19,900 and 52,300 km
from the origin. With --galileo half of the satellites are of Galileo, by the message F/NAV or I/NAV. With --zenith the settings have a drawn `bounds.zenith`, with --vertical a drawn `bounds.vertical`, and lo
and hi have to lie in the row's spans of them with G taken off, which have to be at most G wide. With --above only
satellites are compared that are seen from that elevation on. The last line tells how many rows were compared, the
greatest width beside W (and G), and how far out and how eccentric their orbits were. It isn't part of the gate.

Exit status: 0; 1 where a number lies outside or a span is too wide, of which a line tells, or a file isn't solved.
"""
import argparse
import random
import subprocess
import sys
import tempfile
from math import isqrt, radians
from pathlib import Path

ROOT = Path(__file__).resolve().parents[2]

from tools.compare import compare
from tools.compare.second import recheck
from tools.compare import sample
from gpscover.geodesy import elevation

LEAST, GREATEST = 19_900 * 10**9, 52_300 * 10**9  # um
NAMES = ("drawn.obs", "drawn.nav", "drawn.toml")


class Drawn:
    """The rows that were compared, and what was found of them."""

    def __init__(self, folder, arguments):
        self.folder, self.arguments, self.chance = Path(folder), arguments, random.Random(arguments.seed)
        self.rows = self.outside = self.unsolved = 0
        self.distances, self.eccentricities, self.widths, self.bound_widths = [], [], [], []

    def solve(self):
        """Draws files and solves them; the files as the second checker reads them, and the lines of the log."""
        obs, nav, settings = compare.random_files(self.chance, self.arguments.galileo)
        if self.arguments.zenith:
            settings = compare.random_zenith(self.chance, settings)
        if self.arguments.vertical:
            settings = compare.random_vertical(self.chance, settings)
        for name, content in zip(NAMES, (obs, nav, settings)):
            (self.folder / name).write_bytes(content)
        paths = [str(self.folder / name) for name in NAMES]
        log = str(self.folder / "drawn.log")
        run = subprocess.run([self.arguments.program, "solve", *paths, log], stdout=subprocess.DEVNULL, check=False)
        if run.returncode:
            print("status", run.returncode, "of drawn files")
            self.unsolved += 1
            return None, []
        return recheck.Files(*paths), recheck.read_log(recheck.read_file("log", log, recheck.LOG_LIMIT))

    def choose(self, files, epoch, satellite, record):
        """One choice of numbers that the equations allow at a point of the box; None where it is seen too low."""
        draw = sample.Drawer(self.chance.choice(("low", "high", "any", "mixed")), self.chance.random())
        point = [draw.of(files.box[axis], files.box[axis + 3]) for axis in range(3)]
        codes, settings = dict(epoch.satellites)[satellite], files.settings
        numbers = sample.allowed(draw, record, epoch.time, codes, settings.dual, point, settings.delays,
                                 settings.bounds_of(satellite))
        seen = elevation([part / 10**6 for part in point], [part / 10**6 for part in numbers[:3]])
        return numbers if seen >= radians(self.arguments.above) else None

    def compare(self, files, epoch, values, record):
        """Compares a row with one choice."""
        satellite, *row = values
        numbers = self.choose(files, epoch, satellite, record)
        if numbers is None:
            return
        self.rows += 1
        for name, number, (low, high), room in zip(sample.NAMES, numbers, recheck.row_spans(row), files.rooms(files.box)):
            low, high = low + room, high - room
            widths = self.bound_widths if name in ("lo", "hi") else self.widths
            widths.append(((high - low) / room, high - low, room))
            if not low <= number <= high or high - low > room:
                self.outside += 1
                print("outside or too wide:", satellite.decode(), name, number, low, high, room, record.values)
        distance = isqrt(sum(number**2 for number in numbers[:3]))
        if not LEAST <= distance <= GREATEST:
            self.outside += 1
            print("distance:", satellite.decode(), distance, record.values)
        self.distances.append(distance)
        self.eccentricities.append(record.values["e"])

    def run(self):
        """Draws one set of files, and compares all its rows."""
        files, lines = self.solve()
        epochs, used = iter(files.epochs if files else ()), {}
        for word, values in lines:
            if word in (b"epoch", b"few"):
                epoch = next(epochs)
                used = dict(files.satellites(epoch))
            if word == b"sat":
                self.compare(files, epoch, values, used[values[0]][1])


def main():
    """Draws until so many rows were compared."""
    parser = argparse.ArgumentParser(description=__doc__.partition("\n")[0])
    parser.add_argument("--program", default=str(ROOT / "gpscover"))
    parser.add_argument("--records", type=int, default=10_000)
    parser.add_argument("--seed", type=int, default=1)
    parser.add_argument("--galileo", choices=list(recheck.MESSAGES), help="the message of Galileo beside GPS")
    parser.add_argument("--zenith", action="store_true", help="map the troposphere by elevation")
    parser.add_argument("--vertical", action="store_true", help="map the ionosphere by elevation")
    parser.add_argument("--above", type=float, default=-90.0, metavar="DEGREES", help="compare satellites from there on")
    arguments = parser.parse_args()
    with tempfile.TemporaryDirectory() as folder:
        drawn = Drawn(folder, arguments)
        while drawn.rows < arguments.records and drawn.unsolved < 10:
            drawn.run()
    if drawn.rows:
        _, width, room = max(drawn.widths)
        bound = max(drawn.bound_widths, default=None)
        mapped = f", of a bound {bound[1]} um of G {bound[2]} um" if bound else ""
        print(f"rows {drawn.rows}, numbers outside {drawn.outside}, files not solved {drawn.unsolved}; the greatest width" f" {width} um of W {room} um{mapped}, distances from {min(drawn.distances) // 10**9} to" f" {max(drawn.distances) // 10**9} km, eccentricities up to {float(max(drawn.eccentricities))}")
    sys.exit(1 if drawn.outside or drawn.unsolved or not drawn.rows else 0)


if __name__ == "__main__":
    main()
