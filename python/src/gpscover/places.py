"""Lists of known places, and the direction of a track.

A file has a place on a line: GPS seconds, or date and time of day as 2008/05/26 05:59:30.000, or week and seconds of the
week, and x, y, z in metres, as the solutions of RTKLIB in the earth-fixed frame have them; what follows isn't read, nor
are lines that begin with % or #. Of a receiver that stands x, y, z may be the only line: then it is there at all times.
A place belongs to the epoch within 0.1 s of it. Places in degrees and RTKLIB's times in UTC are refused. Times are in ps
since 1980-01-06 00:00:00 GPS time.
"""

from __future__ import annotations

import bisect
import datetime
import math

from gpscover.command import measure
from gpscover.errors import Error
from gpscover.geodesy import Frame, Vector
from gpscover.log import GPS_EPOCH, LATEST_PS, PS_PER_MS, PS_PER_US, PathLike, calendar

Place = tuple[int, Vector]  # the time in ps, and x, y, z in m

NEAR_PS = 100 * PS_PER_MS
LEAST_WAY_M = 0.5  # two places of a track that are nearer give no direction
LEAP_MS = (0, 20_000)  # GPS time has been ahead of UTC by so much since 1980
ALWAYS = -1  # the time of a place that is the only one
LEAST_M = 10**6  # from the earth's centre; what is nearer are degrees
WEEK_S = 604_800
MOST_WEEKS = 10_000
OTHER_TIMES = ("UTC", "JST")  # that a head of RTKLIB names


def place_line(line: str) -> Place:
    """The time in ps and the point of a line of a list of places."""
    words = line.split()
    if "/" in words[0]:
        when = datetime.datetime.strptime(f"{words[0]} {words[1]}", "%Y/%m/%d %H:%M:%S.%f")
        ps = (when - GPS_EPOCH) // datetime.timedelta(microseconds=1) * PS_PER_US
        words = words[1:]
    elif len(words) == 3:
        ps, words = ALWAYS, ["", *words]
    elif len(words) > 4 and words[0].isdecimal() and int(words[0]) < MOST_WEEKS:
        ps = round((int(words[0]) * WEEK_S + measure(words[1])) * 1000) * PS_PER_MS
        words = words[1:]
    else:
        ps = round(measure(words[0]) * 1000) * PS_PER_MS
    if not ALWAYS <= ps < LATEST_PS:
        raise ValueError
    x, y, z = (measure(word) for word in words[1:4])
    return ps, (x, y, z)


def read_places(path: PathLike) -> list[Place]:
    """The places of a file: (time in ps, (x, y, z) in m) in order of time."""
    places = []
    with open(path, encoding="utf-8", errors="replace") as file:
        for count, line in enumerate(file, 1):
            if line[:1] == "%" and line[1:].split()[:1] in ([name] for name in OTHER_TIMES):
                raise Error(f"{path} line {count}: its times are {line[1:].split()[0]}, and GPS time is wanted")
            if line.strip() and line[0] not in "%#":
                try:
                    places.append(place_line(line))
                except (ValueError, IndexError, OverflowError):
                    raise Error(f"{path} line {count}: no time and place") from None
                if math.hypot(*places[-1][1]) < LEAST_M:
                    raise Error(f"{path} line {count}: no place on the earth in metres: are these degrees?")
    if not places:
        raise Error(f"{path} has no places")
    if len(places) > 1 and min(places)[0] == ALWAYS:
        raise Error(f"{path}: a place without a time isn't the only one")
    return sorted(places)


def nearest(places: list[Place], ps: int) -> Place:
    """The place that is nearest to a time, with its own time.

    Of two that are equally near the earlier one.
    """
    behind = bisect.bisect_left(places, (ps,))
    return min(places[max(0, behind - 1) : behind + 1], key=lambda place: abs(place[0] - ps))


def place_at(places: list[Place], ps: int) -> Vector | None:
    """The place within 0.1 s of a time in ps, or None."""
    if not places:
        return None
    when, point = nearest(places, ps)
    return point if when == ALWAYS or abs(when - ps) <= NEAR_PS else None


class Meetings:
    """Whether any epoch of a log has a place of a list."""

    def __init__(self, path: PathLike | None, places: list[Place]) -> None:
        self.path, self.places = path, places
        self.met = 0
        self.apart: int | None = None  # of the epoch and the place that are nearest, in ps

    @classmethod
    def of(cls, path: PathLike | None) -> Meetings:
        """The places of a file; none of None."""
        return cls(path, [] if path is None else read_places(path))

    def at(self, ps: int) -> Vector | None:
        """The place at a time in ps, or None. It is counted."""
        point = place_at(self.places, ps)
        if point is not None:
            self.met += 1
        elif self.places and not self.met:
            away = nearest(self.places, ps)[0] - ps
            self.apart = away if self.apart is None else min(self.apart, away, key=abs)
        return point

    def refuse_strangers(self, whom: str = "the log") -> None:
        """Error where there were epochs, and none of them has a place."""
        if self.met or self.apart is None:
            return
        first, last = (calendar(self.places[k][0]) for k in (0, -1))
        words = f"{self.path} has no place within 0.1 s of {whom}: its places are of {first} to {last} GPS time"
        away = -self.apart // PS_PER_MS
        if LEAP_MS[0] < away <= LEAP_MS[1]:
            words += f", and the nearest is {away / 1000:g} s before it: are they in UTC?"
        raise Error(words)


def direction(places: list[Place], ps: int) -> float | None:
    """The azimuth in radians, clockwise from north, of a track at a time in ps; None where it gives none.

    It is that of the way from the last place before the time to the first one behind it, where a place within 0.1 s
    counts as neither, unless the track begins or ends there.
    """
    before = bisect.bisect_left(places, (ps - NEAR_PS,)) - 1
    behind = bisect.bisect_right(places, (ps + NEAR_PS, (math.inf,) * 3))
    at_time = behind - before > 1
    if not at_time and (before < 0 or behind == len(places)):
        return None
    start, end = places[max(before, 0)][1], places[min(behind, len(places) - 1)][1]
    east, north, _ = Frame.at(start).offset(end)
    return math.atan2(east, north) if math.hypot(east, north) >= LEAST_WAY_M else None
