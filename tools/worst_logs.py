#!/usr/bin/env python3
"""Writes the logs that take `judge` the longest for their size, as far as they are known, and times them.

usage: python3 -m tools.worst_logs PROGRAM [--splits N] [--mib N] [--bounds N] [--folder FOLDER]

A renewal is tested against all live boxes, and a forged log may have many of both. In the first two logs 200,000 splits
come first (--splits). Then, until the log has its size (64 MiB; 512 is the most that is read):

  renewals  nothing but renewals, whose rows nobody uses
  cuts      renewals, each behind a cut of one box in each group of 512, so that each group has to be looked through

  bounds    an epoch of 25 rows and one box, at q = 8, with 500 bounds (--bounds). The sums of each are the 30 lines of the
            plane of five times five points: eight points always miss a line of it (Jamison 1977, Brouwer and Schrijver
            1978), but no more than five lines have no point in common, so that many choices of rows have to be looked at

Prints a table: lines, seconds of processor time, and those for 512 MiB. The status is 1 where `judge` doesn't say yes.
"""
import argparse
import itertools
import os
import subprocess
import sys
import tempfile
from pathlib import Path

GROUP = 512
MIB = 1 << 20
SIDE = 10**12
# Four rows two of which meet at no clock offset: every box is shown empty.
ROWS = "".join(f"sat G0{n} 0 0 0 0 0 0 {n // 4 * 4 * SIDE} {n // 4 * 4 * SIDE} 0 0\n" for n in range(1, 5))


def renewal(low):
    """The lines of a renewal over what lies from a number on along x."""
    return f"renew {low} 0 0 {SIDE} {SIDE} {SIDE}\n{ROWS}"


def start(splits):
    """An epoch whose root is split along y, each box in its turn."""
    yield "gpscover 2\nrules 0 200000 1000\n"
    yield f"epoch 1 0 4\n{ROWS}root 0 0 0 {SIDE} {SIDE} {SIDE}\n"
    yield from (f"split {number} 1\n" for number in range(splits))


def renewals(splits, size):
    """Renewals over the root, as many as there is room for."""
    one = renewal(0)
    yield from (one for _ in range(size // len(one)))


def cuts(splits, size):
    """Renewals over less and less, and in front of each a cut of one box in each group: the others were cut before."""
    live = range(splits, 2 * splits + 1)
    at_face = [number for number in live if number % GROUP == 0 or number == splits]
    behind = set(live).difference(at_face)
    yield from (f"cut {number} 0 {SIDE // 2}\n" for number in behind)
    low = 0
    while size > 0:
        low += 1
        part = "".join(f"cut {number} 0 {low}\n" for number in at_face) + renewal(low)
        size -= len(part)
        yield part


def end(splits):
    """All boxes are closed."""
    yield from (f"out {number}\n" for number in range(splits, 2 * splits + 1))
    yield f"done {splits}\n"


def bounds(count):
    """An epoch of one box with so many bounds, whose sums take no row and show what is true of any point."""
    yield "gpscover 4\nrules 8 0 1000\nepoch 1 0 25\n"
    yield from (f"sat G{n:02} 0 0 0 0 {20 * SIDE} {20 * SIDE} {20 * SIDE} {20 * SIDE} 0 0\n" for n in range(1, 26))
    yield "root 0 0 0 0 0 0\nedge 0 0 0\ndone 0\n"
    lines = [[5 * x + (slope * x + start) % 5 for x in range(5)] for slope in range(5) for start in range(5)]
    lines += [[5 * x + y for y in range(5)] for x in range(5)]
    sums = "".join("by 1 " + " ".join(f"{place} 0" for place in line) + "\n" for line in lines)
    yield from (f"bound 0 0 0 0 {len(lines)}\n{sums}" for _ in range(count))


def measure(program, path):
    """How much processor time `judge` takes, and whether it says yes."""
    before = os.times()
    said = subprocess.run([program, "judge", path], capture_output=True, text=True, check=False).stdout
    after = os.times()
    seconds = after.children_user + after.children_system - before.children_user - before.children_system
    return seconds, said.startswith("yes ")


def main():
    parser = argparse.ArgumentParser(description=__doc__, formatter_class=argparse.RawDescriptionHelpFormatter)
    parser.add_argument("program")
    parser.add_argument("--splits", type=int, default=200_000)
    parser.add_argument("--mib", type=int, default=64)
    parser.add_argument("--bounds", type=int, default=500)
    parser.add_argument("--folder", type=Path)
    words = parser.parse_args()
    size = words.mib * MIB
    logs = {
        "renewals": itertools.chain(start(words.splits), renewals(words.splits, size), end(words.splits)),
        "cuts": itertools.chain(start(words.splits), cuts(words.splits, size), end(words.splits)),
        "bounds": bounds(words.bounds),
    }
    well = True
    with tempfile.TemporaryDirectory() as temporary:
        folder = words.folder or Path(temporary)
        print("| log | lines | judge | for 512 MiB |\n|---|---|---|---|")
        for name, parts in logs.items():
            path = folder / f"{name}.log"
            with path.open("w", encoding="ascii") as log:
                log.writelines(parts)
            seconds, is_yes = measure(words.program, path)
            with path.open("rb") as log:
                lines = sum(1 for _ in log)
            print(f"| {name} | {lines:,} | {seconds:.1f} s | {seconds * 512 * MIB / path.stat().st_size:.0f} s |")
            well = well and is_yes
    return 0 if well else 1


if __name__ == "__main__":
    sys.exit(main())
