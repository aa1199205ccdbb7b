#!/usr/bin/env python3
"""Makes the files of a network whose places are known: observations of stations and days, navigation, and
settings.

usage: python3 -m tools.made.made_network FOLDER [--stations N] [--days N] [--epochs N] [--step SECONDS]

The satellites are those of examples/receiver.nav, whose records are moved on by whole days. The pseudoranges of
an epoch are by the equations of IS-GPS-200 in doubles, with delays and noise within the bounds of the settings;
so the region of each epoch has to hold the station's place. The first day is 2008-05-26, from 04:00 on.
Stations are named ALFA, BETA, GAMA and S003 ..; FOLDER/stations.yaml has their table as
config.yaml wants it.

Exit status: 0; 1 where a file can't be written; 2 for a wrong command line.
"""
import argparse
import datetime
import gzip
import math
import random
import re
from pathlib import Path

ROOT = Path(__file__).resolve().parents[2]

from gpscover.command import run_tool
from gpscover.geodesy import elevation
from tools.made.orbits import EPOCH, Record, arrival, delay, number

PLACES = {
    "ALFA": (-3869310.320, 3436566.110, 3717366.550),
    "BETA": (-3900700.000, 3384100.000, 3732600.000),
    "GAMA": (-3826900.000, 3512700.000, 3689600.000),
}
FIRST_DAY, FIRST_HOUR = datetime.datetime(2008, 5, 26), 4
NOISE = 2.0
MASK = math.radians(5)
OBS_HEAD = [
    ("     3.04           OBSERVATION DATA    G: GPS", "RINEX VERSION / TYPE"),
    ("{:14.4f}{:14.4f}{:14.4f}", "APPROX POSITION XYZ"),
    ("G    1 C1C", "SYS / # / OBS TYPES"),
    ("  {:%Y    %m    %d    %H    %M}{:13.7f}     GPS", "TIME OF FIRST OBS"),
    ("", "END OF HEADER"),
]
SETTINGS = """\
[search]
centre = $centre
half = 500000
outliers = 1
bisections = 32
width = 1000
max_age = 14400
pairs = true
directions = 8

[motion]
speed = 0

[signal]
mode = "single"
codes = ["C1C"]

[bounds]
receiver = [-3000, 3000]
orbit_clock = [-3000, 3000]
ionosphere = [0, 15000]
troposphere = [-560, 560]
zenith = [1950, 2650]
"""


def example_records():
    """The header of the example's navigation file, and the newest record of each satellite of GPS."""
    head, *texts = re.split(r"(?m)^(?=[A-Z]\d\d )", (ROOT / "examples/receiver.nav").read_text(encoding="ascii"))
    return head, {text[:3]: text for text in texts if text.startswith("G")}


def place_of(index):
    """The name and the place of a station: named ones first, then others on a line, which all have height ALFA's."""
    if index < len(PLACES):
        return list(PLACES.items())[index]
    x, y, z = PLACES["ALFA"]
    east = math.atan2(y, x) + 0.002 * (index - 50)
    radius = math.hypot(x, y)
    return f"S{index:03}", (round(radius * math.cos(east), 3), round(radius * math.sin(east), 3), z)


def moved(record, days):
    """A record that is so many days later: the dates of its clock, its ephemeris and its sending."""
    lines = record.splitlines()
    date = datetime.datetime(*map(int, lines[0][4:23].split())) + datetime.timedelta(days=days)
    lines[0] = f"{lines[0][:4]}{date:%Y %m %d %H %M %S}{lines[0][23:]}"
    for line, at in (3, 4), (7, 4):
        seconds = number(lines[line][at : at + 19]) + 86400 * days
        lines[line] = f"{lines[line][:at]}{seconds % 604800:19.12E}{lines[line][at + 19:]}"
    return "\n".join(lines) + "\n"


def code(record, place, time, draw):
    """A pseudorange in m, or None where the satellite is too low."""
    there, metres = arrival(record, place, time)
    angle = elevation(place, there)
    return metres + delay(angle) + draw.uniform(-NOISE, NOISE) if angle > MASK else None


def head_lines(place, start):
    """The header of an observation file."""
    filled = [OBS_HEAD[0][0], OBS_HEAD[1][0].format(*place), OBS_HEAD[2][0], OBS_HEAD[3][0].format(start, 0.0), ""]
    return [f"{text:60}{label}" for text, (_, label) in zip(filled, OBS_HEAD)]


def epoch_line(date, count):
    """The first line of an epoch of so many satellites."""
    return f"> {date:%Y %m %d %H %M}{date.second:11.7f}  0{count:3}"


def observations(place, start, records, args, seed):
    """The text of a day of a station."""
    draw = random.Random(seed)
    lines = head_lines(place, start)
    for index in range(args.epochs):
        date = start + datetime.timedelta(seconds=args.step * index)
        time = (date - EPOCH).total_seconds()
        codes = [(record.satellite, code(record, place, time, draw)) for record in records]
        seen = [f"{satellite}{metres:14.3f}" for satellite, metres in codes if metres is not None]
        lines += [epoch_line(date, len(seen)), *seen]
    return "\n".join(lines) + "\n"


def write_packed(path, text):
    """Writes a file by gzip, without a date in it."""
    with open(path, "wb") as file, gzip.GzipFile("", "wb", 6, file, mtime=0) as packed:
        packed.write(text.encode("ascii"))


def main():
    parser = argparse.ArgumentParser(description="The files of a network whose places are known.")
    parser.add_argument("folder")
    parser.add_argument("--stations", type=int, default=3)
    parser.add_argument("--days", type=int, default=2)
    parser.add_argument("--epochs", type=int, default=120)
    parser.add_argument("--step", type=int, default=30)
    args = parser.parse_args()
    folder = Path(args.folder)
    folder.mkdir(parents=True, exist_ok=True)
    (folder / "settings.toml").write_text(SETTINGS, encoding="ascii")
    head, newest = example_records()
    stations = [place_of(index) for index in range(args.stations)]
    table = [f"  {name}: {{place: [{', '.join(f'{at:.3f}' for at in place)}]}}\n" for name, place in stations]
    (folder / "stations.yaml").write_text("stations:\n" + "".join(table), encoding="ascii")
    for days in range(args.days):
        start = FIRST_DAY + datetime.timedelta(days=days, hours=FIRST_HOUR)
        later = [moved(text, days) for text in newest.values()]
        write_packed(folder / f"BRDC{start:%Y%j}.nav.gz", head + "".join(later))
        records = [Record(text) for text in later]
        for index, (name, place) in enumerate(stations):
            text = observations(place, start, records, args, 1000 * days + index)
            write_packed(folder / f"{name}{start:%Y%j}.obs.gz", text)
    return 0


if __name__ == "__main__":
    run_tool(main)
