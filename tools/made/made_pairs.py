#!/usr/bin/env python3
"""Writes the files of a receiver whose place is known and of stations at some distances, over which the ionosphere differs.

usage: python3 -m tools.made.made_pairs FOLDER [--km D ...] [--epochs N]

FOLDER gets receiver.obs, receiver.nav and alone.toml, and for each distance of D km (1, 10, 50) to the east station_D.obs
and settings_D.toml; the receiver's place is printed. The satellites are those of examples/receiver.nav from 10 degrees
up. Each is up to 1 m off along each axis and its clock up to 1 m, the same for both. The noise of each code is up to 0.5
m. The troposphere is 2.4 m overhead at both; the ionosphere 4 m overhead at the receiver, and 10 mm less for each km of
the way to the station. Both are mapped by the elevation where the code is received. The station's clock is 0.2 ms ahead.

What settings declare follows from this alone. With a station: `receiver` twice the noise; `orbit_clock` the satellite's
error times the distance over 20,000 km; `vertical` the 10 mm for each km. The two verticals aren't parallel, so a
satellite isn't as high at both: `zenith` and `vertical` have room for what that makes of the delays. One receiver alone
has [-500, 500] for its noise, [-3000, 3000] for orbit and clock, [1950, 2650] for the troposphere and [0, 7000] for the
ionosphere overhead.

Exit status: 0; 1 where a file can't be written; 2 for a wrong command line.
"""
import argparse
import datetime
import math
import random
from collections.abc import Callable, Iterator
from pathlib import Path

from gpscover.bounds import ionosphere_mapping, troposphere_mapping
from gpscover.command import run_tool
from gpscover.geodesy import SEMI_MAJOR_M, Vector, earth_fixed, elevation, geodetic
from gpscover.settings import Bounds, Search, Settings, Signal, Station
from tools.made.made_network import PLACES, epoch_line, example_records, head_lines
from tools.made.orbits import EPOCH, IONOSPHERE, LIGHT, SHELL_KM, TROPOSPHERE, Record, arrival, delay

PLACE: Vector = PLACES["ALFA"]
START, STEP = datetime.datetime(2008, 5, 26, 6), 60  # s between epochs
NOISE, SATELLITE = 0.5, 1.0  # m
GRADIENT = 0.010  # m for each km
AHEAD = 0.0002  # s, of the station's clock
MASK = math.radians(10)
HIGH = 20_000_000.0  # m, less than the distance of each satellite
ELEVATIONS = [math.radians(degrees / 10) for degrees in range(100, 901)]


class Sky:
    """The satellites, with what is wrong with each."""

    def __init__(self, records: list[Record], draw: random.Random) -> None:
        self.records = records
        self.off = [[draw.uniform(-SATELLITE, SATELLITE) for _ in range(4)] for _ in records]

    def codes(self, place: Vector, time: float, overhead: float, draw: random.Random) -> Iterator[tuple[str, float]]:
        """The pseudoranges in m at a place and a time, with so much ionosphere overhead."""
        for record, (x, y, z, late) in zip(self.records, self.off):
            there, metres = arrival(record, place, time, (x, y, z))
            angle = elevation(place, there)
            if angle > MASK:
                yield record.satellite, metres + late + delay(angle, overhead) + draw.uniform(-NOISE, NOISE)


def observations(sky: Sky, place: Vector, overhead: float, ahead: float, count: int, seed: int) -> str:
    """The text of an observation file, by a clock that is so many s ahead."""
    draw = random.Random(seed)
    lines = head_lines(place, START)
    for index in range(count):
        date = START + datetime.timedelta(seconds=STEP * index)
        codes = list(sky.codes(place, (date - EPOCH).total_seconds() - ahead, overhead, draw))
        lines.append(epoch_line(date, len(codes)))
        lines += [f"{satellite}{code + LIGHT * ahead:14.3f}" for satellite, code in codes]
    return "\n".join(lines) + "\n"


def share(mapping: Callable[[float], float], metres: float) -> float:
    """How much of a mapped delay is more, at most, where the satellite is lower than at the other end of the way."""
    lower = metres / SEMI_MAJOR_M + metres / HIGH
    return max(mapping(angle - lower) / mapping(angle) - 1 for angle in ELEVATIONS)


def either_way(metres: float) -> tuple[int, int]:
    """A bound in mm with both signs."""
    end = math.ceil(1000 * metres)
    return -end, end


def differences(km: float) -> Bounds:
    """What is declared of the differences over a distance."""
    metres = 1000 * km
    less = GRADIENT * km
    bent = share(lambda angle: ionosphere_mapping(angle, SHELL_KM), metres)
    return Bounds(
        either_way(2 * NOISE),
        either_way(math.sqrt(3) * SATELLITE * metres / HIGH),
        (0, 0),
        (0, 0),
        either_way(TROPOSPHERE * share(troposphere_mapping, metres)),
        either_way(less + IONOSPHERE * bent),
    )


def whole_mm(place: Vector) -> tuple[int, int, int]:
    """A place in mm."""
    x, y, z = (round(1000 * axis) for axis in place)
    return x, y, z


def settings(bounds: Bounds, station: Station | None) -> str:
    """The text of settings, whose search box isn't round the place."""
    x, y, z = whole_mm(PLACE)
    search = Search(200_000, 1, 512, (x + 30_000, y - 20_000, z + 10_000), 100, 7200, pairs=True)
    return Settings(search, Signal("single", ("C1C",)), bounds, station=station).to_toml()


def station_place(km: float) -> Vector:
    """Where a station stands: so far to the east, as high as the receiver."""
    latitude, longitude, height = geodetic(PLACE)
    place = earth_fixed(latitude, longitude + 1000 * km / math.hypot(*PLACE[:2]), height)
    return round(place[0], 3), round(place[1], 3), round(place[2], 3)


def write(folder: Path, distances: list[float], count: int) -> None:
    """Writes all files."""
    head, newest = example_records()
    sky = Sky([Record(text) for text in newest.values()], random.Random(0))
    files = {
        "receiver.nav": head + "".join(newest.values()),
        "receiver.obs": observations(sky, PLACE, IONOSPHERE, 0.0, count, 1),
        "alone.toml": settings(Bounds(either_way(NOISE), (-3000, 3000), (0, 0), (0, 0), (1950, 2650), (0, 7000)), None),
    }
    for index, km in enumerate(distances):
        place, overhead = station_place(km), IONOSPHERE - GRADIENT * km
        files[f"station_{km:g}.obs"] = observations(sky, place, overhead, AHEAD, count, 2 + index)
        files[f"settings_{km:g}.toml"] = settings(differences(km), Station(whole_mm(place), 30))
    for name, text in files.items():
        (folder / name).write_text(text, encoding="ascii", newline="\n")


def main() -> int:
    """Writes the files and says where the receiver is."""
    parser = argparse.ArgumentParser(description=__doc__, formatter_class=argparse.RawDescriptionHelpFormatter)
    parser.add_argument("folder", metavar="FOLDER", type=Path)
    parser.add_argument("--km", type=float, nargs="+", default=[1.0, 10.0, 50.0])
    parser.add_argument("--epochs", type=int, default=40)
    args = parser.parse_args()
    args.folder.mkdir(parents=True, exist_ok=True)
    write(args.folder, args.km, args.epochs)
    print(*PLACE)
    return 0


if __name__ == "__main__":
    run_tool(main)
