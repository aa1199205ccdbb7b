"""The table of stations: which files each day has, how a day is cut into parts, and what stands where.

A configuration (config.yaml says what each key means) is read once and refused with a line that names the key.
Names of files in it are patterns, which Python's `str.format` fills: `{station}`, and the dates `{day}`,
`{before}` and `{after}` in any form of `strftime`, as `{day:%Y%j}`.
"""
import datetime
import functools
import os
import re
from collections import Counter
from dataclasses import dataclass
from pathlib import Path

STATION = "[A-Za-z0-9_]+"
DAY = r"\d{4}-\d{2}-\d{2}"
PART = r"\d+"
MOST_EPOCHS = 200_000  # of a file
BEHIND, NOTHING = "--behind", "none"  # of what the steps are told of a chain
VERDICT = "{out}/verdicts/{station}/{day}/{part}.json"  # of the part from which another goes on
# How many minutes and MB a job of each step may take, where the configuration's `costs` says nothing else. By
# docs/MEASURED.md a run on an observation file of 60 MB takes 135 MB, and `check` of a log of 251 MB 498 MB.
COSTS = {
    "settings": (10, 500),
    "unpack": (5, 200),
    "solve": (30, 500),
    "check": (20, 1500),
    "compress": (5, 200),
    "rows": (20, 300),
    "look": (20, 1000),
    "day": (5, 200),
    "database": (60, 500),
    "page": (60, 1000),
}
# A part of a chain has the log of the part before judged, which wants the memory of `check`.
CHAIN_COSTS = {"solve": (30, COSTS["check"][1])}


class ConfigError(Exception):
    """A configuration that can't be used; its text is one line for the user."""


@dataclass(frozen=True)
class Station:
    """A receiver: its name, what its files are called, where it is, and the words for its bounds."""

    name: str
    days: tuple
    observations: str
    navigation: tuple
    settings: str
    place: tuple  # x, y, z in mm, or None
    bounds: str  # words of `gpslog bounds` behind the place, or an empty text
    beside: str  # which other one is its station, for rows of differences, or an empty text
    known: tuple  # x, y, z in mm of where it is known to stand, or None
    without: tuple  # those of the days that are left out
    chain: bool  # whether each part goes on from the log of the part before


def date_of(value, key):
    """A date of the configuration."""
    try:
        return value if isinstance(value, datetime.date) else datetime.date.fromisoformat(str(value))
    except ValueError:
        raise ConfigError(f"{key}: {value!r} is no date, as 2024-01-31") from None


def days_of(value, key):
    """The days of a list of dates, or of a range `from` .. `to`, both counted."""
    if isinstance(value, dict):
        if set(value) != {"from", "to"}:
            raise ConfigError(f"{key}: a list of dates, or from: and to:")
        first, last = date_of(value["from"], key), date_of(value["to"], key)
        return tuple(first + datetime.timedelta(days=k) for k in range((last - first).days + 1))
    if not isinstance(value, list) or not value:
        raise ConfigError(f"{key}: a list of dates, or from: and to:")
    return tuple(sorted({date_of(day, key) for day in value}))


def count_of(config, key, most):
    """A whole number from 1 to `most`."""
    value = config.get(key)
    if not isinstance(value, int) or isinstance(value, bool) or not 1 <= value <= most:
        raise ConfigError(f"{key}: a whole number from 1 to {most} is needed, not {value!r}")
    return value


def one_of(config, key, choices):
    """One of some words; the first where the key isn't there."""
    value = config.get(key, choices[0])
    if value not in choices:
        raise ConfigError(f"{key}: {' or '.join(map(str, choices)).lower()} is needed, not {value!r}")
    return value


def place_of(value, key):
    """A place in metres as whole mm, or None where there is none."""
    if value is None:
        return None
    if not isinstance(value, list) or len(value) != 3 or not all(isinstance(at, (int, float)) for at in value):
        raise ConfigError(f"{key}: [x, y, z] in metres is needed, not {value!r}")
    return tuple(round(at * 1000) for at in value)


def known_of(value, place, key):
    """The known place in whole mm, which may be said to be the station's place, or None."""
    if value != "place":
        return place_of(value, key)
    if place is None:
        raise ConfigError(f"{key}: the station has no place")
    return place


def limits_of(value):
    """The two alert limits in m, or None."""
    if value is None:
        return None
    if (
        not isinstance(value, list)
        or len(value) != 2
        or not all(isinstance(at, (int, float)) and at > 0 for at in value)
    ):
        raise ConfigError(f"limits: [along the ground, up] in metres is needed, not {value!r}")
    return tuple(value)


def station_of(name, own, common):
    """A station: what it has of its own comes before what all have."""
    if not re.fullmatch(STATION, name):
        raise ConfigError(f"stations: {name!r}: a name has letters, digits and _ alone")
    value = {**common, **(own or {})}
    for key in ("days", "observations", "navigation", "settings"):
        if key not in value:
            raise ConfigError(f"stations: {name} has no {key}")
    navigation, place = value["navigation"], place_of(value.get("place"), f"{name}: place")
    return Station(
        name,
        days_of(value["days"], f"{name}: days"),
        value["observations"],
        (navigation,) if isinstance(navigation, str) else tuple(navigation),
        value["settings"],
        place,
        value.get("bounds", ""),
        value.get("beside", ""),
        known_of(value.get("known"), place, f"{name}: known"),
        days_of(value["without"], f"{name}: without") if value.get("without") else (),
        one_of(value, "chain", (False, True)),
    )


class Network:
    """A configuration: its stations, days, parts and names."""

    def __init__(self, config):
        if not isinstance(config.get("stations"), dict) or not config["stations"]:
            raise ConfigError("stations: a table of them is needed")
        common = {key: value for key, value in config.items() if key in Station.__dataclass_fields__}
        names = sorted(config["stations"])
        self.stations = {name: station_of(name, config["stations"][name], common) for name in names}
        self.out = str(config.get("out", "network"))
        self.epochs = count_of(config, "epochs", MOST_EPOCHS)
        self.part = min(count_of(config, "part", MOST_EPOCHS), self.epochs)
        self.keeps_log = one_of(config, "keep", ("log", "checksum")) == "log"
        self.leaves_absent = one_of(config, "absent", ("fail", "leave")) == "leave"
        self.earlier = str(config.get("earlier") or "")
        self.has_pages = one_of(config, "pages", (False, True))
        self.limits = limits_of(config.get("limits"))
        is_chain = any(station.chain for station in self.stations.values())
        self.costs = {**COSTS, **(CHAIN_COSTS if is_chain else {}), **(config.get("costs") or {})}
        self.parts = range(1, -(-self.epochs // self.part) + 1)
        for name, station in self.stations.items():
            if station.beside and (station.beside not in self.stations or station.beside == name):
                raise ConfigError(f"{name}: beside: {station.beside!r} is no other station")
            if station.beside and station.bounds:
                raise ConfigError(f"{name}: bounds: those of differences stand in the settings")
            if station.chain and not self.keeps_log:
                raise ConfigError(f"{name}: chain: each day wants the log of the one before, so keep: log is needed")
            for pattern in (station.observations, *station.navigation, station.settings):
                self.named(pattern, name, f"{station.days[0]}")

    def named(self, pattern, station, day):
        """A file's name for a day (an ISO date)."""
        date, step = datetime.date.fromisoformat(day), datetime.timedelta(days=1)
        try:
            return pattern.format(station=station, day=date, before=date - step, after=date + step)
        except (KeyError, IndexError, ValueError) as error:
            raise ConfigError(f"{station}: the pattern {pattern!r} can't be filled: {error}") from None

    def observations(self, station, day):
        """The name of the day's observation file."""
        return self.named(self.stations[station].observations, station, day)

    def beside(self, station, day):
        """The name of the day's observation file of the station's own station, or an empty text."""
        name = self.stations[station].beside
        return self.observations(name, day) if name else ""

    def beside_place(self, station):
        """Where that one is in mm, or None."""
        name = self.stations[station].beside
        return self.stations[name].place if name else None

    def told_places(self, station):
        """The words for what is known of a place: x,y,z in mm, and the limits in m; empty texts where there is none."""
        return [",".join(map(str, it or ())) for it in (self.stations[station].known, self.limits)]

    def navigation(self, station, day):
        """The names of the day's navigation files; the header of the first is taken."""
        return [self.named(pattern, station, day) for pattern in self.stations[station].navigation]

    def settings(self, station, day):
        """The name of the day's settings, or of their template."""
        return self.named(self.stations[station].settings, station, day)

    def there(self, station, day):
        """Which of the day's files are there: a change of one is seen, a missing one fails its jobs alone."""
        names = [self.observations(station, day), self.beside(station, day)]
        names += self.navigation(station, day)
        return [name for name in names if os.path.exists(name)]

    def station_days(self):
        """The pairs of station and day that are worked on."""
        for station in self.stations.values():
            for day in (day for day in station.days if day not in station.without):
                if not self.leaves_absent or os.path.exists(self.observations(station.name, f"{day}")):
                    yield station.name, f"{day}"

    @functools.cached_property
    def worked(self):
        """The set of these pairs, as they are when the run begins."""
        return set(self.station_days())

    def absent(self):
        """The pairs that are left out, since they have no observation file, or the table of stations says so."""
        wanted = [(station.name, f"{day}") for station in self.stations.values() for day in station.days]
        return [pair for pair in wanted if pair not in self.worked]

    def options(self, station, day, part):
        """The options of `solve` and `check` for a part. The last part has no end, so that no epoch is left out. Of a
        part of a chain steps.py is told too from which one it goes on."""
        first = (part - 1) * self.part + 1
        last = "" if part == self.parts[-1] else f" --to {part * self.part}"
        link = self.link(station, day, part)
        behind = f" {BEHIND} {link[1]}/{link[2]}" if link else f" {BEHIND} {NOTHING}"
        return f"--from {first}{last}{behind if self.stations[station].chain else ''}"

    def link(self, station, day, part):
        """The part from whose log a part goes on: its folder of results, its day and its number. None where the
        station's days are no chain, or one begins here, as the day before isn't worked on."""
        if not self.stations[station].chain:
            return None
        if part > 1:
            return self.out, day, part - 1
        before = f"{datetime.date.fromisoformat(day) - datetime.timedelta(days=1)}"
        if (station, before) in self.worked:
            return self.out, before, self.parts[-1]
        kept = [int(path.stem) for path in Path(self.earlier, "verdicts", station, before).glob("*.json")]
        return (self.earlier, before, max(kept)) if self.earlier and kept else None

    def before(self, form, station, day, part):
        """The file of the part from which a part goes on, by the form of its name; a list of one or of none."""
        link = self.link(station, day, int(part))
        return [form.format(out=link[0], station=station, day=link[1], part=link[2])] if link else []

    def waiting(self):
        """A line for each part for which others wait that go on from it, one behind the other."""
        counts = Counter(self.waits())
        for part, count in counts.items():
            yield f"{told(*part)}: {count} part{'s' * (count > 1)} behind it in the chain wait{'s' * (count == 1)} for it"

    def waits(self):
        """For each part of a chain that waits the one for which it does."""
        waits = {}
        for station, day in sorted(self.worked):
            for part in self.parts:
                name, link = (station, day, part), self.link(station, day, part)
                if link and not any(map(os.path.exists, self.before(VERDICT, *name))):
                    before = (station, *link[1:])
                    waits[name] = waits.get(before, before)
                    yield waits[name]


def told(station, day, part=None):
    """How a line for the user names a part, a day, or the whole run."""
    return " ".join(filter(None, [station or "run", day, part and f"part {part}"]))


def open_notes(out):
    """A line for each job that didn't end well, by the notes that they left."""
    for folder, _, names in sorted(os.walk(os.path.join(out, "notes"))):
        for name in sorted(names):
            with open(os.path.join(folder, name), encoding="utf-8", errors="replace") as file:
                said = file.read().strip()
            yield said or f"{noted(os.path.relpath(folder, out), name)}: it didn't end: killed, or no room for a note?"


def noted(folder, name):
    """Of what a note speaks, by where it stands: STATION/DAY/PART.STEP, or `run` and `day` in their place."""
    part, step = name.split(".")
    station, day = (*folder.split(os.sep)[1:], "")[:2]
    return f"{told(station, day, '' if part == 'day' else part)}: {step}"
