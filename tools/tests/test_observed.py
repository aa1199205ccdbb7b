"""The parts of bounds that `gpslog observed` tells, beside those by another way: choices of rows in place of clock offsets.

What is told here is computed from the log's lines alone, by whole numbers and fractions: the fewest rows that have to be
left out so that each two of the others share a clock offset, and the least part of all bounds at which the same holds.
"""
import csv
import io
import itertools
import math
import re
import subprocess
import sys
from fractions import Fraction
from pathlib import Path

import pytest

EXAMPLES = Path("examples/station")
PLACES = {
    "receiver": ("-3976219.187", "3382371.605", "3652511.142"),
    "station": ("-3978241.958", "3382840.234", "3649900.853"),
}
NARROW = ("receiver = [-3000, 3000]", "receiver = [-300, 300]"), ("orbit_clock = [-3000, 3000]", "orbit_clock = [0, 0]")


def blocks(path, at):
    """The rows of each epoch, as lists of numbers: those behind the last renewal that holds the place."""
    found, box = {}, None
    for line in Path(path).read_text().splitlines():
        word, *rest = line.split()
        if word == "epoch":
            rows = found[int(rest[0])] = []
            fills = True
        elif word == "renew":
            ends = list(map(int, rest))
            fills = all(low <= point <= high for low, point, high in zip(ends, at, ends[3:]))
            if fills:
                rows.clear()
        elif word == "sat" and fills:
            rows.append((rest[0], *map(int, rest[1:11])))
    return found


def sums(row, at):
    """The least and the greatest sum of a row's error and the clock offset."""
    least = most = 0
    for k, point in enumerate(at):
        low, high = row[1 + 2 * k], row[2 + 2 * k]
        least += max(low - point, point - high, 0) ** 2
        most += max(abs(low - point), abs(high - point)) ** 2
    return row[7] - math.isqrt(most), row[8] - math.isqrt(least)


def meeting(one, other):
    """The least part at which two rows share a clock offset, each (low, high, middle, half width)."""
    return max((one[0] - one[2]) - (other[1] - other[2]), (other[0] - other[2]) - (one[1] - one[2]), 0) / (
        one[3] + other[3]
    )


def judged(rows, at):
    """Of each satellite its declared bound, its error, its part and whether it is surely passed."""
    known = [(*sums(row, at), Fraction(row[9] + row[10], 2), Fraction(row[10] - row[9], 2)) for row in rows]
    pairs = {(i, j): meeting(known[i], known[j]) for i, j in itertools.combinations(range(len(rows)), 2)}
    for out in range(len(rows)):
        kept = list(itertools.combinations(range(len(rows)), len(rows) - out))
        parts = {some: max((pairs[two] for two in itertools.combinations(some, 2)), default=0) for some in kept}
        if min(parts.values()) <= 1:
            break
    good = [some for some in kept if parts[some] <= 1]
    spans = [(low - row[10], high - row[9]) for row, (low, high, _, _) in zip(rows, known)]
    first = min(max(spans[k][0] for k in some) for some in good)
    last = max(min(spans[k][1] for k in some) for some in good)
    part = min(parts.values())
    clock = min(
        max(known[k][0] - known[k][2] - part * known[k][3] for k in some) for some in good if parts[some] == part
    )
    told = []
    for k, row in enumerate(rows):
        low, high, middle, half = known[k]
        off = max(low - clock - middle, 0) + min(high - clock - middle, 0)
        told.append(
            (row[0], row[9], row[10], low - last, high - first, off / half, all(k not in some for some in good))
        )
    return told


def again(log, place):
    """All lines of the table for programs, but the times and elevations."""
    at = [round(float(word) * 1_000_000) for word in place]
    return [(index, *row) for index, rows in blocks(log, at).items() if rows for row in judged(rows, at)]


def said(log, place):
    """The same of the command."""
    words = [sys.executable, "-m", "gpscover", "observed", str(log), "--place", *place, "--csv"]
    text = subprocess.run(words, capture_output=True, text=True, check=True).stdout
    names = ("declared_low_um", "declared_high_um", "error_low_um", "error_high_um")
    return [
        (
            int(row["epoch"]),
            row["satellite"],
            *(int(row[name]) for name in names),
            Fraction(row["part"]),
            row["passed"] == "1",
        )
        for row in csv.DictReader(io.StringIO(text))
    ]


def solved(program, room, name, *changes, options=(), settings="alone.toml"):
    """A log of a receiver's four epochs, by settings with some changes."""
    text = (EXAMPLES / settings).read_text()
    for old, new in changes:
        assert old in text
        text = text.replace(old, new)
    toml, log = room / "it.toml", room / "it.log"
    toml.write_text(text)
    words = [program, "solve", EXAMPLES / f"{name}.obs", EXAMPLES / "receiver.nav", toml, log, *options]
    subprocess.run(words, stdout=subprocess.DEVNULL, check=True)
    return log


@pytest.mark.parametrize("name", PLACES)
@pytest.mark.parametrize(
    "changes", [(), NARROW, (("bisections = 64", "bisections = 0"),)], ids=["wide", "narrow", "whole"]
)
def test_both_say_the_same_of_both_stations(program, room, name, changes):
    log = solved(program, room, name, *changes)
    assert said(log, PLACES[name]) == again(log, PLACES[name])
    assert len(again(log, PLACES[name])) == 32


def test_both_say_the_same_of_differences(program, room):
    options = ["--station", EXAMPLES / "station.obs"]
    for changes in ((), (("receiver = [-1000, 1000]", "receiver = [-100, 100]"),)):
        log = solved(program, room, "receiver", *changes, options=options, settings="settings.toml")
        assert said(log, PLACES["receiver"]) == again(log, PLACES["receiver"])


def test_bounds_that_are_passed_are_counted_and_give_a_p_for_risk(program, room):
    narrow = ("receiver = [-1000, 1000]", "receiver = [-10, 10]"), ("zenith = [-300, 300]", "zenith = [-10, 10]")
    options = ["--station", EXAMPLES / "station.obs"]
    log = solved(program, room, "receiver", *narrow, options=options, settings="settings.toml")
    words = [sys.executable, "-m", "gpscover", "observed", str(log), "--place", *PLACES["receiver"]]
    told = subprocess.run(words, capture_output=True, text=True, check=True).stdout.splitlines()
    rows = again(log, PLACES["receiver"])
    failed = {row[1] for row in rows if row[-1]}
    assert len(failed) > 0
    p = re.search(
        rf"passed in {len(failed)} of 8 stretches .* p is less than (\S+) with a confidence of 0.95", told[-1]
    )[1]
    risk = [sys.executable, "-m", "gpscover", "risk", "--p", p, "--q", "3", "--satellites", "8"]
    assert "more than 3 of 8" in subprocess.run(risk, capture_output=True, text=True, check=True).stdout
