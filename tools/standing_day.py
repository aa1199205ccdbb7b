#!/usr/bin/env python3
"""Compares `track` with a speed of 0 and `solve` over a day of a receiver that stands, and shows what a wrong 0 does.

usage: python3 -m tools.standing_day PROGRAM NAV [--splits N] [--folder FOLDER] [--chain]

NAV is a navigation file of a whole day. The observation file has 2,880 epochs, one in 30 s, as long_day.py makes them, and
the settings are those of examples/ (half sides of 1 km, bounds for any sky, q = 1, 64 splits) with a speed of 0, and of 1
and 10 mm/s. The first table has the median and the greatest extents along east, north and up in m, the epochs that are available within 50 m along
the ground and 100 m up (as `gpslog summary --limit` counts them), the regions that hold the place, the processor time, and
the bytes of the log; by the kept boxes, and by certified bounds. The second one is of receivers that creep north while a
speed of 0 is declared: the first epoch whose region doesn't hold the place, that in which the track is lost, how far the
receiver had come in both, and the extents of the last region.

A table between these two, alone with --chain, is of the day in ten parts, each of which goes on from the log of the part
before: the box in which its first epoch is searched, the greatest extents, and those of the same part by itself; what
`retrack` and the second checker say of it, both with the log of the part before; and whether the log has the lines that
the one track of the whole day has of these epochs.

Prints the tables of the sections 'A receiver that stands' and 'A chain of days' of docs/GUIDE_TRACKS.md. The status is 1
where a log isn't accepted, a region of the receiver that stands doesn't hold its place, or a part of the chain has
other lines than the one track.
"""
import argparse
import os
import re
import resource
import statistics
import subprocess
import sys
import tempfile
from pathlib import Path

from gpscover.command import run_tool
from gpscover.geodesy import Frame
from gpscover.integrity import Judge, Limits, is_held
from gpscover.log import epochs
from gpscover.places import ALWAYS, Meetings
from gpscover.region import region_of
from tools.largest_sizes import EXAMPLES, FILES, Folder
from tools.long_day import PLACE, make_files

EPOCHS, STEP = 2880, 30
PARTS = 10
SECOND = Path(__file__).resolve().parent.parent / "second/recheck.py"
LIMITS = Limits(50, 100)
CREEPS_MM = 0.1, 1, 10, 100, 1000  # in a second
CHECKS = {"track": "retrack", "solve": "check"}
RUNS = (  # what a row is called, the command, the speed in mm/s, and whether there are certified bounds
    ("`track`", "track", 0, False),
    ("`track`, 1 mm/s", "track", 1, False),
    ("`track`, 10 mm/s", "track", 10, False),
    ("`solve`", "solve", 0, False),
    ("`track`, certified", "track", 0, True),
    ("`solve`, certified", "solve", 0, True),
)


def settings_text(splits, speed, directions):
    """The settings of the example, with or without certified bounds, for a receiver with a speed in mm/s."""
    text = (EXAMPLES / "settings.toml").read_text(encoding="utf-8")
    text = re.sub(r"(?m)^bisections = .*", f"bisections = {splits}", text)
    text = text if directions else re.sub(r"(?m)^directions = .*\n", "", text)
    return text.replace("\n[bounds]\n", f"\n[motion]\nspeed = {speed}\n\n[bounds]\n")


def spent():
    """The processor time of the programs that were called, in s."""
    used = resource.getrusage(resource.RUSAGE_CHILDREN)
    return used.ru_utime + used.ru_stime


def solved(program, folder, command, text):
    """The log of the day by a command, which its check has to accept, and the processor time in s."""
    (folder / FILES[2]).write_text(text, encoding="utf-8")
    words, before = [*FILES, f"{command}.log"], spent()
    subprocess.run([program, command, *words, "--quiet"], cwd=folder, check=True)
    took = spent() - before
    subprocess.run([program, CHECKS[command], *words], cwd=folder, check=True, stdout=subprocess.DEVNULL)
    return folder / words[-1], took


def lengths(extents):
    """Three lengths in m."""
    return " x ".join(f"{length:.0f}" for length in extents)


def standing_row(what, log, took):
    """The row of a log of the receiver that stands, and whether each region holds its place."""
    judge, widths = Judge(Meetings(None, [(ALWAYS, PLACE)]), limits=LIMITS), []
    for epoch in epochs(log):
        region = region_of(epoch) if epoch.kept else None
        judge.add(epoch, region)
        widths += [region.widths()] if region else []
    axes = list(zip(*widths))
    middle, worst = lengths(map(statistics.median, axes)), lengths(map(max, axes))
    cells = [
        middle,
        worst,
        f"{judge.available:,}",
        f"{judge.held:,}",
        f"{took:.1f} s",
        f"{log.stat().st_size / 1e6:.1f} MB",
    ]
    return f"| {what} | " + " | ".join(cells) + " |", judge.held == EPOCHS


def creeping_row(log, creep, way):
    """The row of a log of a receiver that moves so many mm in a second, while 0 is declared."""
    first = lost = region = None
    for number, epoch in enumerate(epochs(log)):
        place = [at + number * STEP * part for at, part in zip(PLACE, way)]
        first = first or (None if is_held(epoch, place) else epoch.index)
        lost = None if epoch.kept else epoch.index
        region = region_of(epoch) if epoch.kept else region
    gone = [f"{it}, behind {(it - 1) * STEP * creep / 1000:.1f} m" if it else "none" for it in (first, lost)]
    return f"| {creep:g} mm/s | " + " | ".join([*gone, lengths(region.widths())]) + " |"


def said_of(words, folder):
    """What a checker says of a log."""
    ended = subprocess.run(words, cwd=folder, capture_output=True, text=True)
    return (ended.stdout or ended.stderr).strip()


def worst(log):
    """The greatest extents of a log's regions, and whether each holds the place."""
    found = [epoch for epoch in epochs(log) if epoch.kept]
    axes = zip(*(region_of(epoch).widths() for epoch in found))
    return lengths(map(max, axes)), all(is_held(epoch, PLACE) for epoch in found)


def blocks_of(log, first, last):
    """The lines that a log has of the epochs from a number to another."""
    kept, is_wanted = [], False
    with open(log, encoding="ascii") as file:
        for line in file:
            word, _, rest = line.partition(" ")
            if word in ("epoch", "few"):
                is_wanted = first <= int(rest.partition(" ")[0]) <= last
            if is_wanted:
                kept.append(line)
    return kept


def chain_row(program, folder, number, whole):
    """The row of a part of the chain, and whether all of it is right."""
    first, last = ((number + k) * EPOCHS // PARTS + 1 - k for k in range(2))
    part, log = ["--from", f"{first}", "--to", f"{last}"], f"{number}.log"
    after = ["--after", f"{number - 1}.log"] if number else []
    for words in [log, *part, *after], [f"{number}.alone.log", *part]:
        subprocess.run([program, "track", *FILES[:3], *words, "--quiet"], cwd=folder, check=True)
    words = [*FILES[:3], log, *part, *after]
    told = [said_of([*who, *words], folder) for who in ([program, "retrack"], [sys.executable, SECOND, "--track"])]
    extents, held = worst(folder / log)
    is_same = blocks_of(folder / log, first, last) == blocks_of(whole, first, last)
    began = lengths(next(epochs(folder / log)).root.sides)
    cells = [f"{first} to {last}", began, extents, worst(folder / f"{number}.alone.log")[0]]
    cells += [*(f"`{it}`" for it in told), "the same" if is_same else "others"]
    return "| " + " | ".join(cells) + " |", held and is_same and told[0].startswith("yes ") and told[0] == told[1]


def chain_table(program, folder, text):
    """Prints the table of the chain, whose settings are those of the one track. Whether all of it is right."""
    whole, _ = solved(program, folder, "track", text)
    head = "| epochs | searched first in | worst | by itself | `retrack` | second checker | lines of the one track |"
    print(head, "|---" * 7 + "|", sep="\n")
    right = True
    for number in range(PARTS):
        row, is_right = chain_row(program, folder, number, whole)
        right = right and is_right
        print(row, flush=True)
    return right


def main():
    parser = argparse.ArgumentParser(description=__doc__, formatter_class=argparse.RawDescriptionHelpFormatter)
    parser.add_argument("program")
    parser.add_argument("nav")
    parser.add_argument("--splits", type=int, default=64)
    parser.add_argument("--folder")
    parser.add_argument("--chain", action="store_true")
    args = parser.parse_args()
    with tempfile.TemporaryDirectory() as path:
        program, folder, rows = os.path.abspath(args.program), Path(args.folder or path), []
        make_files(Folder(folder), args.nav, EPOCHS, STEP)
        if args.chain:
            return 0 if chain_table(program, folder, settings_text(args.splits, 0, False)) else 1
        head = "| by | median | worst | available | regions with the place | processor | log |"
        print(head, "|---" * 7 + "|", sep="\n")
        for what, command, speed, directions in RUNS:
            log, took = solved(program, folder, command, settings_text(args.splits, speed, directions))
            rows.append(standing_row(what, log, took))
            print(rows[-1][0], flush=True)
        print()
        right = chain_table(program, folder, settings_text(args.splits, 0, False))
        print("\n| moves | first region without the place | lost in epoch | last region |", "|---" * 4 + "|", sep="\n")
        for creep in CREEPS_MM:
            way = Frame.at(PLACE).direction((0, creep / 1000, 0))
            make_files(Folder(folder), args.nav, EPOCHS, STEP, way)
            print(
                creeping_row(solved(program, folder, "track", settings_text(args.splits, 0, False))[0], creep, way),
                flush=True,
            )
    return 0 if right and all(held for _, held in rows) else 1


if __name__ == "__main__":
    run_tool(main)
