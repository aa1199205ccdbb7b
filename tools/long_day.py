#!/usr/bin/env python3
"""Makes a day of epochs, one a second, solves and checks it in parts, and tables time and memory of each part.

usage: python3 -m tools.long_day PROGRAM NAV [--epochs N] [--part N] [--folder FOLDER]

NAV is a navigation file of a whole day. The observation file begins with the earliest record of NAV and has N epochs
(86400) of a receiver at a known place. An epoch has the highest satellites above 5 degrees, at most 12, with
pseudoranges by the equations of IS-GPS-200 in doubles, which keep the declared bounds; the phases, Doppler shifts and
strengths beside them only fill a line as a receiver does. Each part of N epochs (10000) is solved with --from and --to,
and its log checked with the same options; the region of each epoch has to hold the place. The first row is a part of
one epoch, which shows what reading costs; the last two are the day in one run, and the first part as a file of its own,
whose log has to be the same.

Files are made in FOLDER, or in one that is removed at the end: 450 MB for a day, which takes some five minutes.
Prints the table of the section 'Long files' of docs/MEASURED.md. The status is 1 where a run or a region is wrong.
"""
import argparse
import datetime
import filecmp
import math
import os
import random
import sys
import tempfile

from gpscover.command import run_tool
from gpscover.integrity import is_held
from gpscover.log import epochs
from tools.largest_sizes import FILES, Folder, Sizes, kept_boxes, navigation_parts, observation_parts, settings_with
from tools.made.made_network import epoch_line
from tools.made.orbits import EPOCH, LIGHT, Record, arrival, delay
from gpscover.geodesy import elevation

LENGTH_L1 = LIGHT / 1575.42e6
MAX_AGE = 7200
# The place of the example's receiver by another program, in m.
PLACE = (-3869310.32, 3436566.11, 3717366.55)
MASK, MOST = math.radians(5), 12
NOISE = 2.0  # m
BOUNDS = {
    "receiver": "[-5000, 5000]",
    "orbit_clock": "[-4000, 4000]",
    "ionosphere": "[0, 25000]",
    "troposphere": "[2000, 25000]",
}


class Sky:
    """The healthy records of a navigation file by satellite."""

    def __init__(self, records):
        self.records, self.start = {}, min(record.toc for record in records)
        for record in filter(lambda record: record.healthy, records):
            # The later one of two that are equally near comes first.
            self.records.setdefault(record.satellite, []).insert(0, record)

    def record(self, satellite, time):
        """The record that `solve` takes for a satellite, or None."""
        record = min(self.records[satellite], key=lambda it: abs(time - it.toe))
        return record if abs(time - record.toe) <= MAX_AGE else None

    def in_sight(self, time):
        """The satellites of an epoch, each with its delay in the air in m."""
        seen = []
        for satellite in self.records:
            if record := self.record(satellite, time):
                angle = elevation(PLACE, arrival(record, PLACE, time)[0])
                if angle > MASK:
                    seen.append((angle, satellite, delay(angle)))
        return [(satellite, air) for _, satellite, air in sorted(seen, reverse=True)[:MOST]]


def epoch_texts(sky, count, step=1, way=(0, 0, 0)):
    """The texts of so many epochs, one in so many seconds, of a receiver that goes so far along x, y and z in a second, in
    m. Which satellites are in sight and how the air delays them is told once a minute."""
    draw = random.Random(86400)
    for time in range(sky.start, sky.start + count * step, step):
        if (time - sky.start) % 60 == 0:
            sight = sky.in_sight(time)
        lines, place = [], [at + (time - sky.start) * part for at, part in zip(PLACE, way)]
        for satellite, air in sight:
            if record := sky.record(satellite, time):
                code = arrival(record, place, time)[1] + air + draw.uniform(-NOISE, NOISE)
                lines.append(f"{satellite}{code:14.3f}  {code / LENGTH_L1:14.3f}  {0:14.3f}  {45:14.3f}  \n")
        yield epoch_line(EPOCH + datetime.timedelta(seconds=time), len(lines)) + "\n" + "".join(lines)


def make_files(folder, nav, count, step=1, way=(0, 0, 0)):
    """The three files of so many epochs, one in so many seconds."""
    head, records = navigation_parts(os.path.abspath(nav))
    folder.write(FILES[1], head, *records)
    folder.write(FILES[2], settings_with(half=100000, bisections=8, **BOUNDS).split("\n[satellite]\n")[0] + "\n")
    with open(folder.path / FILES[0], "w", encoding="ascii", newline="\n") as file:
        file.write(observation_parts()[0])
        file.writelines(epoch_texts(Sky([Record(text) for text in records]), count, step, way))


def cut_after(folder, name, count):
    """The observation file with its first epochs alone."""
    with open(folder.path / FILES[0], encoding="ascii") as whole, open(folder.path / name, "w", newline="\n") as file:
        for line in whole:
            count -= line.startswith(">")
            if count < 0:
                return
            file.write(line)


def holding(path):
    """How many epochs a log has, and in how many of them a box holds the place."""
    held = [is_held(epoch, PLACE) for epoch in epochs(path)]
    return len(held), sum(held)


class Parts:
    """Solves and checks parts of the day, and gathers the rows of the table."""

    def __init__(self, sizes):
        self.sizes, self.rows = sizes, []

    def run(self, what, obs, *options, log="part.log"):
        """Solves a part, checks its log with the same options, and notes the figures."""
        folder = self.sizes.folder
        words = [obs, *FILES[1:], log, *options]
        solved, checked = (self.sizes.measure([command, *words]) for command in ("solve", "check"))
        count, held = holding(folder.path / log)
        boxes, rows = kept_boxes(folder.path / log)
        wanted = (0, "", 0, f"yes {boxes}", count)
        if (solved.status, solved.line, checked.status, checked.line, held) != wanted:
            self.sizes.wrong += 1
            print(f"{what}: {solved}, {checked}, {held} of {count} regions hold the place", file=sys.stderr)
        row = [what, f"{folder.size(obs) / 1e6:.1f} MB", f"{rows / count:.1f}"]
        for it in solved, checked:
            row += [f"{it.seconds:.2f} s", it.peak]
        self.rows.append([*row, f"{folder.size(log) / 1e6:.1f} MB", f"`{checked.line}`", f"{held:,}"])
        print(" | ".join(self.rows[-1]), file=sys.stderr, flush=True)


def run_parts(parts, count, step):
    """A part of one epoch, all parts of the day, the day in one run, and the first part as a file of its own."""
    folder = parts.sizes.folder
    parts.run("1", FILES[0], "--to", "1")
    for start in range(1, count + 1, step):
        end = min(start + step - 1, count)
        name = "first.log" if start == 1 else "part.log"
        parts.run(f"{start:,} to {end:,}", FILES[0], "--from", f"{start}", "--to", f"{end}", log=name)
    parts.run(f"1 to {count:,}", FILES[0])
    cut_after(folder, "first.obs", step)
    parts.run(f"1 to {min(step, count):,}, all of a file", "first.obs")
    if not filecmp.cmp(folder.path / "first.log", folder.path / "part.log", shallow=False):
        parts.sizes.wrong += 1
        print("the first part has another log as a file of its own", file=sys.stderr)


def main():
    parser = argparse.ArgumentParser(description=__doc__, formatter_class=argparse.RawDescriptionHelpFormatter)
    parser.add_argument("program")
    parser.add_argument("nav")
    parser.add_argument("--epochs", type=int, default=86400)
    parser.add_argument("--part", type=int, default=10000)
    parser.add_argument("--folder")
    args = parser.parse_args()
    with tempfile.TemporaryDirectory() as path:
        folder = Folder(args.folder or path)
        make_files(folder, args.nav, args.epochs)
        parts = Parts(Sizes(os.path.abspath(args.program), folder))
        run_parts(parts, args.epochs, args.part)
    head = ["epochs", "file", "satellites", "`solve`", "its peak", "`check`", "its peak", "log", "verdict",
            "regions with the place"]
    for cells in head, ["---"] * len(head), *parts.rows:
        print("| " + " | ".join(cells) + " |")
    return 1 if parts.sizes.wrong else 0


if __name__ == "__main__":
    run_tool(main)
