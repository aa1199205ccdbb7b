#!/usr/bin/env python3
"""Makes a day of epochs, and compares regions by one line of delays that are mapped with those by tables of elevations.

usage: python3 -m tools.mapped_day PROGRAM NAV [--half M] [--splits N] [--folder FOLDER]

NAV is a navigation file of a whole day. The observation file has 2,880 epochs, one in 30 s, as long_day.py makes them. It
is solved with pairs three times, with the same amounts straight up (those of `gpslog bounds`) and noise that doesn't grow:
  one table  each satellite has the bounds between the elevations at which the day sees it
  24 tables  one an hour, each for the elevations of that hour
  one line   `zenith` and `vertical`, which gpscover maps by elevation at each point of the box and each epoch
Each log is checked, and the region of each epoch has to hold the place. The table has the means of the extents along east,
north and up in m, of the volumes in m3, and how much larger each mean is than that of 24 tables.

Prints a table of the section 'Bounds mapped by elevation' of docs/MEASURED.md. The status is 1 where a run or a region is
wrong.
"""
import argparse
import os
import subprocess
import tempfile
from pathlib import Path

from gpscover.command import run_tool
from gpscover.log import epochs
from tools.largest_sizes import FILES, Folder, settings_with
from tools.long_day import BOUNDS, PLACE, holding, make_files
from gpscover.region import region_of

EPOCHS, STEP, HOUR = 2880, 30, 120
GPSLOG = Path(__file__).resolve().parents[1] / "gpslog"
NO_GROWTH = ("--horizon", "1")


class Day:
    """The files of a day in a folder, and the program that solves them."""

    def __init__(self, program, folder, nav, half, splits):
        self.program, self.folder = program, Path(folder)
        make_files(Folder(folder), nav, EPOCHS, STEP)
        self.head = settings_with(half=half * 1000, bisections=splits, **BOUNDS).partition("[bounds]")[0]
        if "\npairs" not in self.head:
            self.head = self.head.replace("max_age =", "pairs = true\nmax_age =", 1)
        self.run("solve", "coarse.toml", "coarse.log", text=settings_with(half=half * 1000, bisections=0, **BOUNDS))

    def run(self, command, settings, log, *options, text=None):
        """What a command of the program prints; the settings are written first where their text is given."""
        if text is not None:
            (self.folder / settings).write_text(text)
        words = [self.program, command, *FILES[:2], settings, log, *options]
        return subprocess.run(words, cwd=self.folder, check=True, capture_output=True, text=True).stdout

    def tables(self, *options):
        """What `gpslog bounds` prints of the day."""
        words = [GPSLOG, "bounds", "coarse.log", *map(str, PLACE), "single", *NO_GROWTH, *options]
        return subprocess.run(words, cwd=self.folder, check=True, capture_output=True, text=True).stdout

    def solve(self, settings, log, *options, text=None):
        """Solves and checks, and gives the log's path."""
        self.run("solve", settings, log, *options, text=text)
        if not self.run("check", settings, log, *options).startswith("yes "):
            raise ValueError(f"{log} isn't accepted")
        return self.folder / log

    def by_one(self, name, *options):
        """The log of the day with one file of settings."""
        return [self.solve(f"{name}.toml", f"{name}.log", text=self.head + self.tables(*options))]

    def by_hours(self):
        """The logs of the hours, each with a table of its own."""
        (self.folder / "head.toml").write_text(self.head + "[bounds]\n")
        self.tables("--every", "3600", "--settings", "head.toml", "--files", *FILES[:2], "--folder", "parts")
        firsts = range(1, EPOCHS + 1, HOUR)
        return [self.solve(f"parts/part{count:02}.toml", f"parts/part{count:02}.log", "--from", f"{first}",
                           "--to", f"{first + HOUR - 1}") for count, first in enumerate(firsts, 1)]


def means(logs):
    """The mean extents along east, north and up, and the mean volume, of the regions in these logs."""
    regions = [region_of(epoch) for log in logs for epoch in epochs(log) if epoch.kept]
    columns = zip(*(region.widths() + [region.volume] for region in regions))
    return [sum(column) / len(regions) for column in columns]


def main():
    parser = argparse.ArgumentParser(description=__doc__, formatter_class=argparse.RawDescriptionHelpFormatter)
    parser.add_argument("program")
    parser.add_argument("nav")
    parser.add_argument("--half", type=int, default=1000, help="half a side of the search box, m (1000)")
    parser.add_argument("--splits", type=int, default=128)
    parser.add_argument("--folder")
    args = parser.parse_args()
    with tempfile.TemporaryDirectory() as path:
        day = Day(os.path.abspath(args.program), args.folder or path, os.path.abspath(args.nav), args.half, args.splits)
        found = {
            "one table": day.by_one("table"),
            "24 tables": day.by_hours(),
            "one line": day.by_one("line", "--zenith", "--vertical"),
        }
        held = {name: sum(holding(log)[1] for log in logs) for name, logs in found.items()}
        sizes = {name: means(logs) for name, logs in found.items()}
    print("| bounds | east | north | up | volume | beside 24 tables | regions with the place |\n" + "|---" * 7 + "|")
    for name, values in sizes.items():
        shares = ", ".join(f"{100 * (a / b - 1):+.1f} %" for a, b in zip(values, sizes["24 tables"]))
        print(f"| {name} | " + " | ".join(f"{value:,.1f}" for value in values[:3])
              + f" | {values[3]:,.0f} | {shares} | {held[name]:,} |")
    return 0 if all(count == EPOCHS for count in held.values()) else 1


if __name__ == "__main__":
    run_tool(main)
