"""How large the differences of a receiver and a station were, and bounds that would have held.

A log that was solved with a station has rows of differences. At a known place of the receiver the
difference of both errors is a row's range less the distance, less a clock offset that all satellites
of the epoch share: their median stands for it here.
"""

from __future__ import annotations

import math
import statistics
from collections.abc import Iterator

from gpscover.command import GREATEST
from gpscover.errors import Error
from gpscover.geodesy import Vector, elevation, geodetic
from gpscover.log import UM_PER_M, Epoch, PathLike, epochs
from gpscover.settings import Settings

Difference = tuple[float, float]  # at an elevation in radians, in m

BANDS = (0, 5, 10, 15, 30, 90)  # degrees
FAR_M, HIGH_M = 20_000.0, 200.0  # a station that is farther, or higher, is warned of


def differences_of(epoch: Epoch, place: Vector) -> list[Difference]:
    """Those of an epoch's satellites, less their median."""
    found = []
    for row in epoch.rows:
        middle = [(low + high) / 2 / UM_PER_M for low, high in row.place]
        length = sum(row.range) / 2 / UM_PER_M - math.dist(middle, place)
        found.append((elevation(place, middle), length))
    clock = statistics.median(length for _, length in found) if found else 0.0
    return [(angle, length - clock) for angle, length in found]


def station_place(settings: PathLike) -> Vector:
    """Where the settings say that the station stands, in m."""
    station = Settings.read(settings).station
    if station is None or isinstance(station.place, str) or max(abs(end) for end in station.place) > GREATEST:
        raise Error(f"{settings}: [station] doesn't say a place in mm")
    x, y, z = (end / 1000 for end in station.place)
    return x, y, z


def warnings(place: Vector, station: Vector) -> Iterator[str]:
    """What of the two places makes differences large."""
    apart, higher = math.dist(place, station), geodetic(place)[2] - geodetic(station)[2]
    if apart > FAR_M:
        yield (
            f"# warning: the station is {apart / 1000:.1f} km away: orbit, ionosphere and"
            " troposphere don't cancel whole"
        )
    if abs(higher) > HIGH_M:
        yield (
            f"# warning: the receiver is {abs(higher):.0f} m {'above' if higher > 0 else 'below'}"
            f" the station: some {-0.3 * higher:.0f} mm of the troposphere belong into zenith"
        )


def band_lines(found: list[Difference]) -> Iterator[str]:
    """The greatest differences of each band of elevations."""
    yield "# degrees     rows  greatest m    99 % m"
    for low, high in zip(BANDS, BANDS[1:]):
        sizes = sorted(abs(it) for angle, it in found if low <= math.degrees(angle) < high)
        if sizes:
            most = sizes[math.ceil(0.99 * len(sizes)) - 1]
            yield f"# {low:2} to {high:2}   {len(sizes):6}  {sizes[-1]:10.2f}  {most:8.2f}"


def bound_lines(found: list[Difference], more: float, scale: float) -> Iterator[str]:
    """The table [bounds] that holds for `more` times each difference: one from 30 degrees up, and
    below as much more as the mapping of `zenith`, which begins with `scale` at the zenith, asks."""
    sizes = [(angle, more * abs(length)) for angle, length in found]
    high = [size for angle, size in sizes if math.degrees(angle) >= 30]
    receiver = max(high or [size for _, size in sizes])
    zenith = max(
        max(0.0, size - receiver) * math.sqrt(0.002001 + math.sin(angle) ** 2) / scale for angle, size in sizes
    )
    for name, length in (("receiver", receiver), ("zenith", zenith)):
        most = math.ceil(1000 * length)
        yield f"{name} = [{-most}, {most}]"
        if name == "receiver":
            yield from (f"{it} = [0, 0]" for it in ("orbit_clock", "ionosphere", "troposphere"))


def tables(log: PathLike, place: Vector, settings: PathLike, more: float) -> Iterator[str]:
    """The lines on the differences of a log, and the table [bounds]."""
    station, found, count = station_place(settings), [], 0
    for epoch in epochs(log):
        found += differences_of(epoch, place)
        count += bool(epoch.rows)
    if not found:
        raise Error(f"{log} has no satellites: every epoch is few")
    yield f"# Differences less the median of each epoch, of {len(found)} rows of {count} epochs."
    yield from band_lines(found)
    yield from warnings(place, station)
    yield "[bounds]"
    yield f"# {more:g} times what was seen: at all elevations, and added by elevation below 30 degrees."
    yield from bound_lines(found, more, 1.001)
