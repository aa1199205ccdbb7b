#!/usr/bin/env python3
"""Writes the files of a receiver whose place is known, has them solved and checked, and looks for the place.

usage: python3 -m tools.made.made_files SEED EPOCHS [--folder FOLDER] [--program GPSCOVER]

The files are those of which the command `make SEED EPOCHS` speaks: eight satellites, a place, and a pseudorange of each
satellite every 30 s, with noise of up to 2 m and one outlier of 500 m an epoch, all drawn by one generator. Here they are
computed anew with floating-point numbers, by the equations of IS-GPS-200 alone. GPSCOVER (./gpscover) solves them from
FOLDER, or from a folder that is removed at the end, and checks its log. Then the place has to lie in a box that was kept
of each epoch, at a clock span that holds 0. What is printed are the sums of the report's totals, in the form of `make`,
and whether `make` prints the same.

A code is the greatest in whole mm whose residual isn't above its noise. The program compares an interval, some um wide, and
takes a code where the low end isn't above. So where the residual of the next mm is hardly above the noise it takes that
one. Then a few boxes may differ, and the second line of `make` with them (so it is for seed 516 with 5 epochs, and for
several of a hundred seeds with many epochs). Where no code has a next residual within 10 um above its noise, the second line
has to be the same. Where some have, it is compared with the sums of the files in which the nearest of them is the next mm,
the two nearest, and so on; where one alone has, it has to be one of the two.

Exit status: 0; 1 where a run fails, the place isn't held, or a line of `make` is another that has to be the same; 2 for a
wrong command line.
"""
import argparse
import math
import subprocess
import tempfile
from dataclasses import dataclass
from pathlib import Path

from gpscover.command import run_tool
from gpscover.errors import Error
from gpscover.log import epochs
from tools.made.orbits import LIGHT, Record, turned

# What is the same in all made records, in s, m^(1/2) and rad. Their satellites' axes, planes and clocks follow.
TOE, ROOT_AXIS, INCLINATION, PERIGEE, NODE_RATE, GROUP_DELAY = (7200.0, 5153.6, 0.96, 0.5, -8e-9, -1e-8)
# The time of the first epoch in s of the week, and what is between two.
START, STEP = 3600, 30
SATELLITES, NOISE_MM, OUTLIER_MM = range(1, 9), 2000, 500_000
NEAR_MM = 0.010  # a next residual that is less above the noise leaves two mm to choose from

LABELS = {
    "obs": [
        ("     3.05           OBSERVATION DATA    G", "RINEX VERSION / TYPE"),
        ("G    1 C1C", "SYS / # / OBS TYPES"),
        ("  2024     1     7     1     0    0.0000000     GPS", "TIME OF FIRST OBS"),
        ("", "END OF HEADER"),
    ],
    "nav": [("     3.05           N: GNSS NAV DATA    G", "RINEX VERSION / TYPE"), ("", "END OF HEADER")],
}
SETTINGS = """\
[bounds]
ionosphere = [0, 0]
orbit_clock = [0, 0]
receiver = [-2500, 2500]
troposphere = [0, 0]

[search]
bisections = 64
centre = [{}, {}, {}]
half = 50000
max_age = 7200
outliers = 1
width = 1000

[signal]
codes = ["C1C"]
mode = "single"
"""


def draws(state):
    """A function that draws a number below `most`, each time the next one."""

    def draw(most):
        nonlocal state
        state = (6364136223846793005 * state + 1442695040888963407) % 2**64
        return (state >> 33) % most

    return draw


# ---- a satellite


@dataclass
class Code:
    """A made code."""

    epoch: int  # from 0
    satellite: int
    mm: int
    above: float  # how far the residual of the next mm is above the noise, in mm

    def words(self):
        """Which code it is."""
        return f"G{self.satellite:02} in epoch {self.epoch + 1}"


class Satellite:
    """A made satellite: the eight lines of its record, and what the user algorithm gives for it."""

    def __init__(self, number, drawn):
        self.number, self.record = number, record_lines(number, (700 * number + drawn) / 1000)
        self.ephemeris = Record("\n".join(self.record))

    def residual(self, receiver, tag, code):
        """The corrected pseudorange less the range in m, for a code in m at a time in s of the week."""
        sent = tag - TOE - code / LIGHT
        _, ahead = self.ephemeris.after(sent)
        _, ahead = self.ephemeris.after(sent - ahead)
        place, _ = self.ephemeris.after(sent - ahead)
        distance = math.dist(receiver, place)
        for _ in range(2):
            distance = math.dist(receiver, turned(place, distance / LIGHT))
        return code + LIGHT * ahead - distance

    def code(self, receiver, tag, noise_mm):
        """The greatest code in whole mm whose residual isn't above the noise, for a receiver whose clock is right."""
        low, high = -20_000_000_000, 80_000_000_000
        while high - low > 1:
            middle = (low + high) // 2
            if self.residual(receiver, tag, middle / 1000) * 1000 <= noise_mm:
                low = middle
            else:
                high = middle
        return low

    def code_of(self, receiver, index, noise_mm):
        """The code of an epoch, counted from 0."""
        tag = START + STEP * index
        mm = self.code(receiver, tag, noise_mm)
        return Code(index, self.number, mm, self.residual(receiver, tag, (mm + 1) / 1000) * 1000 - noise_mm)


def record_lines(number, mean):
    """The lines of a satellite's navigation record, with its mean anomaly at the ephemeris time."""
    clock = f"G{number:02} 2024 01 07 02 00 00" + "".join(map(field, (number * 1e-5, 0, 0)))
    rows = [
        (0, 0, 0, mean),
        (0, number / 1000, 0, ROOT_AXIS),
        (TOE, 0, number % 6, 0),
        (INCLINATION, 0, PERIGEE, NODE_RATE),
        (0, 0, 0, 0),
        (0, 0, GROUP_DELAY, 0),
        (0, 0, 0, 0),
    ]
    return [clock, *("    " + "".join(map(field, row)) for row in rows)]


def field(value):
    """A number in the 19 columns of a navigation field."""
    return f"{value:19.12E}".replace("E", "D")


# ---- the files


def epoch_codes(index, receiver, satellites, draw):
    """The codes of an epoch, counted from 0."""
    for satellite in satellites:
        outlier = OUTLIER_MM if satellite.number == 1 + index % 8 else 0
        yield satellite.code_of(receiver, index, draw(2 * NOISE_MM + 1) - NOISE_MM + outlier)


def epoch_lines(index, codes, raised):
    """The lines of an epoch, with the next mm of some codes."""
    minutes, second = divmod(START + STEP * index, 60)
    yield f"> 2024 01 07 {minutes // 60:02} {minutes % 60:02} {second:2}.0000000  0  8"
    for code in codes:
        mm = code.mm + (code in raised)
        text = f"{mm // 1000}.{mm % 1000:03}"
        yield f"G{code.satellite:02}{text:>14}"


class Made:
    """The receiver, its satellites and their codes."""

    def __init__(self, seed, count):
        draw = draws(seed)
        self.receiver = [least + draw(1000) for least in (4_000_000, 3_000_000, 3_900_000)]
        self.satellites = [Satellite(number, draw(100)) for number in SATELLITES]
        self.epochs = [list(epoch_codes(index, self.receiver, self.satellites, draw)) for index in range(count)]

    def doubtful(self):
        """The codes of which the program may take the next mm, the most doubtful first."""
        near = (code for codes in self.epochs for code in codes if code.above < NEAR_MM)
        return sorted(near, key=lambda code: code.above)

    def texts(self, raised=()):
        """The texts of the three files by their ending, with the next mm of some codes."""
        head = {kind: [text.ljust(60) + label for text, label in lines] for kind, lines in LABELS.items()}
        obs = [line for index, codes in enumerate(self.epochs) for line in epoch_lines(index, codes, raised)]
        nav = [line for satellite in self.satellites for line in satellite.record]
        centre = [1000 * (axis + aside) for axis, aside in zip(self.receiver, (7, -5, 3))]
        return {
            "obs": "".join(line + "\n" for line in head["obs"] + obs),
            "nav": "".join(line + "\n" for line in head["nav"] + nav),
            "toml": SETTINGS.format(*centre),
        }


# ---- the runs


def run(words):
    """What a run prints; Error where it doesn't end with 0."""
    ran = subprocess.run(words, stdin=subprocess.DEVNULL, capture_output=True, text=True)
    if ran.returncode:
        raise Error(f"{' '.join(words)} ended with {ran.returncode}: {ran.stdout + ran.stderr.strip()}")
    return ran.stdout


def is_held(epoch, receiver, offset=0):
    """Whether the place is in a kept box of the epoch whose clock span holds an offset in um."""
    return any(kept.box.contains(receiver) and kept.clock.low <= offset <= kept.clock.high for kept in epoch.kept)


def sums(report):
    """The second line of `make`, from the totals of a report."""
    totals = [line.split() for line in report.splitlines() if line.startswith("total ")]
    inside, edge, out, splits = (sum(int(words[k]) for words in totals) for k in (2, 4, 6, 8))
    return f"boxes in {inside} edge {edge} out {out} bisections {splits}"


def solve(program, folder, texts, options=()):
    """Writes files into a folder and has them solved: the report, and the names with that of the log."""
    for kind, text in texts.items():
        (folder / f"made.{kind}").write_text(text, encoding="ascii", newline="\n")
    files = [str(folder / f"made.{kind}") for kind in ("obs", "nav", "toml", "log")]
    return run([program, "solve", *files, *options]), files


def compared(program, made, printed, own):
    """Whether the second line of `make` is the own one, or that of files with the next mm of doubtful codes."""
    if printed == own:
        return "make prints the same"
    doubtful = made.doubtful()
    with tempfile.TemporaryDirectory() as room:
        for count in range(1, len(doubtful) + 1):
            report, _ = solve(program, Path(room), made.texts(doubtful[:count]))
            if sums(report) == printed:
                return (
                    f"make prints the sums with the next mm for {', '.join(code.words() for code in doubtful[:count])}"
                )
    if len(doubtful) < 2:
        raise Error(f"make prints {printed!r}, and {len(doubtful)} codes are doubtful")
    return f"make prints another second line; {len(doubtful)} codes are doubtful"


def solve_and_check(program, folder, seed, count):
    """Writes the files into a folder, runs the program on them, and gives the lines to print."""
    made = Made(seed, count)
    report, files = solve(program, folder, made.texts())
    verdict = run([program, "check", *files])
    found = list(epochs(files[-1]))
    lost = [epoch.index for epoch in found if not is_held(epoch, made.receiver)]
    if len(found) != count or lost:
        raise Error(f"of {count} epochs {len(found)} are in the log, and these don't hold the place: {lost}")
    first = f"made seed {seed} epochs {count} satellites {sum(epoch.satellites for epoch in found)}"
    printed = run([program, "make", str(seed), str(count)]).splitlines()
    if printed[0] != first:
        raise Error(f"make prints {printed[0]!r}")
    same = compared(program, made, printed[1], sums(report))
    return f"{first}\n{sums(report)}\n{verdict}the place is held in each epoch; {same}"


def arguments():
    """The words of the command line."""
    parser = argparse.ArgumentParser(description="Has the files of a made receiver solved and checked.")
    parser.add_argument("seed", metavar="SEED", type=int)
    parser.add_argument("epochs", metavar="EPOCHS", type=int)
    parser.add_argument("--folder", help="where the files are kept")
    parser.add_argument("--program", default="./gpscover", help="the program (./gpscover)")
    return parser.parse_args()


def main(do=solve_and_check):
    """Does this with a program, in a folder, and prints what comes."""
    args = arguments()
    with tempfile.TemporaryDirectory() as room:
        print(do(args.program, Path(args.folder or room), args.seed, args.epochs))


if __name__ == "__main__":
    run_tool(main)
