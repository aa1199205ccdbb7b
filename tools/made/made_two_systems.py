#!/usr/bin/env python3
"""Makes a receiver of GPS and Galileo whose place is known, and compares regions of both systems with those of GPS alone.

usage: python3 -m tools.made.made_two_systems SEED EPOCHS [--inav] [--single] [--folder FOLDER] [--program GPSCOVER]
                                              [--second]

There are thirty satellites of GPS and twenty-four of Galileo, two of these on orbits of eccentricity 0.16. All fields of
their records are drawn, and those of Galileo are of F/NAV, with --inav of I/NAV; a record of the other message stands behind
each, with another clock. An epoch, every 30 s, has the codes on two frequencies of all satellites above 10 degrees, of Galileo
those that go with the message, by the equations of IS-GPS-200 and of the Galileo OS SIS ICD in floating-point numbers: an
ionosphere that the combination takes off, noise of up to 2 m, and for Galileo a difference of the two system times that is
constant. The settings declare 2.5 m for the noise and 4 m for the difference. With --single, which goes with --inav, they take
the first codes alone and declare 20 m for the ionosphere.

For q = 0 to 2 files with q outliers of 500 m an epoch, the first of GPS and the second of Galileo, are solved by GPSCOVER
(./gpscover) from FOLDER, or from a folder that is removed at the end, with both systems and with GPS alone. Each log is
checked, with --second by second/recheck.py too, and the place has to lie in a kept box of each epoch, at a clock span that
holds 0. A line for each q and choice of systems has the numbers of satellites and the medians of the regions' extents.

Exit status: 0; 1 where a run fails or the place isn't held; 2 for a wrong command line.
"""
import argparse
import math
import random
import statistics
import sys
import tempfile
from dataclasses import dataclass
from pathlib import Path

from gpscover.command import run_tool
from gpscover.errors import Error
from gpscover.log import epochs
from tools.made.made_files import field, is_held, run
from tools.made.orbits import LIGHT, Record, turned
from gpscover.region import region_of
from gpscover.geodesy import earth_fixed, elevation

SECOND = Path(__file__).resolve().parents[2] / "second/recheck.py"
TOE, START, STEP = 7200, 3600, 30  # in s of the week
MASK, NOISE, OUTLIER, LEAP = math.radians(10), 2.0, 500.0, 3.9  # rad, and m
MOST_DELAY = 20  # of the ionosphere, m
ECCENTRIC = (14, 18)
WRONG_CLOCK = 1e-5  # of the records of the other message, s


@dataclass
class System:
    """What is drawn for a system, and how its codes are made."""

    letter: str
    codes: tuple
    squares: tuple  # of the frequencies of the two codes are as these
    planes: int
    slots: int
    root_axis: float  # m^(1/2)
    inclination: float
    source: int = 1  # of its records' data

    def satellites(self, draw, dual):
        """Its satellites with their drawn records, for a user of two codes or of one."""
        for number in range(1, self.planes * self.slots + 1):
            slot, plane = divmod(number - 1, self.planes)
            node, mean = (2 * math.pi * plane / self.planes, 2 * math.pi * (slot + plane / self.planes) / self.slots)
            orbit = self.root_axis, draw.uniform(0.0005, 0.02)
            if self.letter == "E" and number in ECCENTRIC:
                orbit = 5289.6, 0.16
            yield Satellite(
                self, f"{self.letter}{number:02}", record_lines(draw, self, number, orbit, node, mean), dual
            )


GPS = System("G", ("C1C", "C2W"), (5929, 3600), 6, 5, 5153.7, 0.96)
MESSAGES = {
    "F/NAV": System("E", ("C1C", "C5Q"), (23716, 13225), 3, 8, 5440.6, 0.977, 258),
    "I/NAV": System("E", ("C1C", "C7Q"), (23716, 13924), 3, 8, 5440.6, 0.977, 517),
}
OBS_HEAD = [
    ("     3.05           OBSERVATION DATA    M", "RINEX VERSION / TYPE"),
    ("G    2 {}", "SYS / # / OBS TYPES"),
    ("E    2 {}", "SYS / # / OBS TYPES"),
    ("  2024     1     7     1     0    0.0000000     GPS", "TIME OF FIRST OBS"),
    ("", "END OF HEADER"),
]
NAV_HEAD = [("     3.05           N: GNSS NAV DATA    M", "RINEX VERSION / TYPE"), ("", "END OF HEADER")]
SETTINGS = """\
[search]
centre = [{}, {}, {}]
half = 100000
outliers = {}
bisections = 128
width = 100
max_age = 7200
pairs = true

[signal]
mode = "{}"
codes = {}

[bounds]
receiver = [-2500, 2500]
orbit_clock = [0, 0]
ionosphere = [0, {}]
troposphere = [0, 0]
"""
GALILEO = """
[galileo]
codes = {}
offset = [-4000, 4000]
"""


# ---- records


def record_lines(draw, system, number, orbit, node, mean):
    """The lines of a satellite's record, by the root of the axis and eccentricity, the node and the mean anomaly."""

    def about(size):
        return draw.uniform(-size, size)

    root_axis, eccentricity = orbit
    rows = [
        (about(5e-4), about(1e-11), 0),
        (number, about(150), draw.uniform(3e-9, 5e-9), math.remainder(mean + about(0.05), 2 * math.pi)),
        (about(5e-6), eccentricity, about(1e-5), root_axis),
        (TOE, about(2e-7), math.remainder(node + about(0.05), 2 * math.pi), about(2e-7)),
        (system.inclination + about(0.01), draw.uniform(150, 300), about(3), -8e-9 + about(5e-10)),
        (about(5e-10), system.source, 2296, 0),
        (1, 0, about(1e-8), about(1e-8)),
        (TOE - 60, 0, 0, 0),
    ]
    first, *more = ("".join(map(field, row)) for row in rows)
    return [f"{system.letter}{number:02} 2024 01 07 02 00 00" + first, *("    " + line for line in more)]


def other_lines(lines, source):
    """The record of the other message, from this source, beside one: another clock."""
    clock = float(lines[0][23:42].replace("D", "E")) + WRONG_CLOCK
    first, sixth = (lines[0][:23] + field(clock) + lines[0][42:], lines[5][:23] + field(source) + lines[5][42:])
    return [first, *lines[1:5], sixth, *lines[6:]]


# ---- codes


class Satellite:
    """A made satellite."""

    def __init__(self, system, name, lines, dual):
        self.system, self.name, self.lines = system, name, lines
        self.ephemeris = Record("\n".join(lines), dual)

    def seen(self, receiver, tag, code):
        """The place in the frame of the arrival, and the corrected pseudorange less the range in m, for a pseudorange."""
        sent = tag - TOE - code / LIGHT
        ahead = 0.0
        for _ in range(3):
            place, ahead = self.ephemeris.after(sent - ahead)
        arrived = place
        for _ in range(3):
            arrived = turned(place, math.dist(receiver, arrived) / LIGHT)
        return arrived, code + LIGHT * ahead - math.dist(receiver, arrived)

    def pseudorange(self, receiver, tag, error):
        """The pseudorange that leaves an error in m, and the satellite's place."""
        code = 2.4e7
        for _ in range(8):
            place, residual = self.seen(receiver, tag, code)
            code -= residual - error
        return code, place

    def line(self, code, delay):
        """The line of an epoch, with the delay of the ionosphere on the first code in m."""
        first, second = self.system.squares
        return f"{self.name}{code + delay:14.3f}  {code + delay * first / second:14.3f}"


class Made:
    """The receiver and its satellites, those of Galileo by a message."""

    def __init__(self, seed, message="F/NAV", dual=True):
        draw = random.Random(seed)
        where = draw.uniform(-1, 1), draw.uniform(-math.pi, math.pi), draw.uniform(0, 500)
        self.message, self.dual = message, dual
        self.receiver = [round(axis) for axis in earth_fixed(*where)]
        self.leap = draw.uniform(-LEAP, LEAP)
        self.systems = GPS, MESSAGES[message]
        self.satellites = [it for system in self.systems for it in system.satellites(draw, dual)]

    def epoch(self, index, outliers, draw):
        """The lines of an epoch, counted from 0."""
        tag, lines, wrong = START + STEP * index, [], set("GE"[:outliers])
        for satellite in draw.sample(self.satellites, len(self.satellites)):
            letter = satellite.system.letter
            error = draw.uniform(-NOISE, NOISE) + (self.leap if letter == "E" else 0.0)
            code, place = satellite.pseudorange(self.receiver, tag, error)
            if elevation(self.receiver, place) < MASK:
                continue
            if letter in wrong:
                wrong.remove(letter)
                code += draw.choice((-OUTLIER, OUTLIER))
            lines.append(satellite.line(code, draw.uniform(2, MOST_DELAY)))
        minutes, second = divmod(tag, 60)
        return [
            f"> 2024 01 07 {minutes // 60:02} {minutes % 60:02} {second:2}.0000000  0{len(lines):3}",
            *sorted(lines),
        ]

    def texts(self, count, outliers):
        """The texts of the observation and the navigation file."""
        draw = random.Random(count)
        obs = [line for index in range(count) for line in self.epoch(index, outliers, draw)]
        nav = [line for satellite in self.satellites for line in satellite.lines]
        other = next(it.source for message, it in MESSAGES.items() if message != self.message)
        nav += [line for it in self.satellites if it.system.letter == "E" for line in other_lines(it.lines, other)]
        types = iter(self.systems)
        head = [(text.format(" ".join(next(types).codes)) if "{}" in text else text, label) for text, label in OBS_HEAD]
        return {"obs": text_of(head, obs), "nav": text_of(NAV_HEAD, nav)}

    def settings(self, outliers, both):
        """The settings, of both systems or of GPS alone."""
        centre = [1000 * axis + aside for axis, aside in zip(self.receiver, (7001, -5002, 3003))]
        gps, galileo = (listed(it.codes[: 1 + self.dual]) for it in self.systems)
        mode, delay = ("dual", 0) if self.dual else ("single", MOST_DELAY)
        text = SETTINGS.format(*centre, outliers, mode, gps, 1000 * delay)
        table = GALILEO if self.message == "F/NAV" else GALILEO.replace("codes", 'message = "I/NAV"\ncodes')
        return text + (table.format(galileo) if both else "")


def listed(codes):
    """Codes as a list of the settings."""
    return "[" + ", ".join(f'"{code}"' for code in codes) + "]"


def text_of(head, lines):
    """A text of a header and lines."""
    return "".join(line + "\n" for line in [text.ljust(60) + label for text, label in head] + lines)


# ---- the runs


def verdicts(program, files, second):
    """What each checker says of a log."""
    yield run([program, "check", *files])
    if second:
        yield run([sys.executable, str(SECOND), *files])


def solved(program, made, files, second):
    """The epochs of a log that is solved and checked, each with the place in a kept box."""
    run([program, "solve", *files])
    said = list(verdicts(program, files, second))
    found = list(epochs(files[-1]))
    wanted = f"yes {sum(len(epoch.kept) for epoch in found)}\n"
    lost = [epoch.index for epoch in found if not is_held(epoch, made.receiver)]
    if set(said) != {wanted} or lost:
        raise Error(f"{files[-1]}: {said} where {wanted!r} is right; these epochs don't hold the place: {lost}")
    return found


def table_line(outliers, name, found):
    """The numbers of satellites, and the medians of the extents east, north and up in m."""
    widths = list(zip(*(region_of(epoch).widths() for epoch in found)))
    counts = [epoch.satellites for epoch in found]
    medians = "  ".join(f"{statistics.median(axis):7.2f}" for axis in widths)
    return f"{outliers}  {name:<4}  {len(found):>6}  {min(counts):>4} to {max(counts):>2}  {medians}"


def compare(args, folder):
    """The lines of the table."""
    made = Made(args.seed, "I/NAV" if args.inav else "F/NAV", not args.single)
    yield "q  of    epochs  satellites  east m   north m    up m"
    for outliers in range(3):
        texts = made.texts(args.epochs, outliers)
        for name, both in (("both", True), ("GPS", False)):
            files = [str(folder / f"two{outliers}{name}.{kind}") for kind in ("obs", "nav", "toml", "log")]
            for path, text in zip(files, (texts["obs"], texts["nav"], made.settings(outliers, both))):
                Path(path).write_text(text, encoding="ascii", newline="\n")
            found = solved(args.program, made, files, args.second)
            if len(found) != args.epochs:
                raise Error(f"of {args.epochs} epochs {len(found)} are in {files[-1]}")
            yield table_line(outliers, name, found)
    yield f"the place is held in each epoch, and each log is checked; the systems' times are {made.leap:.3f} m apart"


def arguments():
    """The words of the command line."""
    parser = argparse.ArgumentParser(description="A made receiver of two systems: regions of both and of GPS alone.")
    parser.add_argument("seed", metavar="SEED", type=int)
    parser.add_argument("epochs", metavar="EPOCHS", type=int, help="1 to 240")
    parser.add_argument("--inav", action="store_true", help="Galileo by I/NAV on E1 and E5b (F/NAV on E1 and E5a)")
    parser.add_argument("--single", action="store_true", help="with --inav: by one code of each satellite")
    parser.add_argument("--folder", help="where the files are kept")
    parser.add_argument("--program", default="./gpscover", help="the program (./gpscover)")
    parser.add_argument("--second", action="store_true", help="check by second/recheck.py too")
    args = parser.parse_args()
    if not 1 <= args.epochs <= 240:
        parser.error("EPOCHS is 1 to 240")
    if args.single and not args.inav:
        parser.error("--single goes with --inav")
    return args


def main():
    args = arguments()
    with tempfile.TemporaryDirectory() as room:
        for line in compare(args, Path(args.folder or room)):
            print(line, flush=True)


if __name__ == "__main__":
    run_tool(main)
