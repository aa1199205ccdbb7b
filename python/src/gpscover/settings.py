"""The settings of a run, as dataclasses that are written to and read from TOML.

All lengths are whole millimetres, as in examples/settings.toml, which says what each key means.
"""

from __future__ import annotations

import importlib
from dataclasses import dataclass, field, fields
from pathlib import Path
from typing import Any

from gpscover.epoch import UM_PER_MM, Box
from gpscover.errors import Error
from gpscover.log import PathLike

__all__ = ["Bounds", "Galileo", "Search", "Settings", "SettingsError", "Signal", "Station"]

Pair = tuple[int, int]  # [low, high] in mm
Three = tuple[int, int, int]
Vectors = tuple[Three, ...]


class SettingsError(Error):
    """Settings that can't be read."""


@dataclass(frozen=True)
class Search:
    """The table [search]: the search box and the rules of the paving."""

    half: int | Three  # of each side of the box, in mm
    outliers: int  # how many satellites may break their bounds
    bisections: int  # how many boxes of an epoch may be split
    centre: str | Three = "header"
    width: int = 1000  # in mm: a side that isn't longer isn't split
    max_age: int = 7200  # in s: of an ephemeris
    renew: bool | None = None  # None: the key is absent
    pairs: bool | None = None
    directions: int | Vectors | None = None  # of certified bounds: so many azimuths, up and down, or these vectors


@dataclass(frozen=True)
class Signal:
    """The table [signal]: the mode, single or dual, and its one or two codes."""

    mode: str
    codes: tuple[str, ...]


@dataclass(frozen=True)
class Galileo:
    """The table [galileo]: its codes, and the bound in mm of the offset of its time."""

    codes: tuple[str, ...]
    offset: Pair
    message: str | None = None


@dataclass(frozen=True)
class Bounds:
    """The table [bounds]: what is declared of the errors of every satellite, in mm."""

    receiver: Pair
    orbit_clock: Pair
    ionosphere: Pair
    troposphere: Pair
    zenith: Pair | None = None
    vertical: Pair | None = None


@dataclass(frozen=True)
class Station:
    """The table [station]: where a second receiver stands, in mm, or that its header says so, and
    how far in s its epochs may be from those of the receiver. All bounds are of differences then.
    """

    place: str | Three
    age: int


@dataclass(frozen=True)
class Settings:
    """All tables. `satellites` has what is added for one satellite, in mm; `speed` is in mm/s, and
    with `restart` a track begins anew behind an epoch that kept no box.
    """

    search: Search
    signal: Signal
    bounds: Bounds
    galileo: Galileo | None = None
    speed: int | None = None
    satellites: dict[str, Pair] = field(default_factory=dict)
    station: Station | None = None
    restart: bool = False

    def search_box(self, header: Three | None = None) -> Box | None:
        """The search box in um. `header` is the position in um in the receiver's header; None where that is needed.
        SettingsError where the settings have no such box."""
        centre, half = self.search.centre, self.search.half
        try:
            middle = header if isinstance(centre, str) else three_um(centre)
            sides = three_um(half)
        except (TypeError, ValueError):
            raise SettingsError("these are no settings: the search box has no three middles and half sides") from None
        if middle is None:
            return None
        return Box(*(at - side for at, side in zip(middle, sides)), *(at + side for at, side in zip(middle, sides)))

    def to_toml(self) -> str:
        """The text of a file of settings."""
        tables = {"search": keys_of(self.search), "signal": keys_of(self.signal)}
        if self.galileo is not None:
            tables["galileo"] = keys_of(self.galileo)
        motion = {"speed": self.speed, "restart": self.restart or None}
        if motion := {name: value for name, value in motion.items() if value is not None}:
            tables["motion"] = motion
        if self.station is not None:
            tables["station"] = keys_of(self.station)
        tables["bounds"] = keys_of(self.bounds)
        if self.satellites:
            tables["satellite"] = dict(self.satellites)
        return "\n".join(table_text(name, keys) for name, keys in tables.items())

    def write(self, path: PathLike) -> None:
        """Writes a file of settings."""
        Path(path).write_text(self.to_toml(), encoding="utf-8", newline="\n")

    @classmethod
    def from_toml(cls, text: str) -> Settings:
        """The settings of a text. SettingsError where it isn't one of settings."""
        try:
            return settings_of(toml().loads(text))
        except (ValueError, TypeError, LookupError, AttributeError) as error:
            raise SettingsError(f"these are no settings: {error}") from None

    @classmethod
    def read(cls, path: PathLike) -> Settings:
        """The settings of a file. SettingsError where it isn't one of settings."""
        try:
            return cls.from_toml(Path(path).read_text(encoding="utf-8"))
        except (SettingsError, UnicodeDecodeError) as error:
            raise SettingsError(f"{path}: {error}") from None


def toml() -> Any:
    """A reader of TOML: that of Python 3.11, or tomli."""
    for name in ("tomllib", "tomli"):
        try:
            return importlib.import_module(name)
        except ImportError:
            continue
    raise SettingsError("Python before 3.11 needs tomli to read settings")


def keys_of(table: Any) -> dict[str, Any]:
    """The keys of a table that aren't absent, in order; those without a default come first."""
    found = {it.name: getattr(table, it.name) for it in fields(table)}
    return {name: value for name, value in found.items() if value is not None}


def value_text(value: Any) -> str:
    """A value as TOML has it."""
    if isinstance(value, bool):
        return str(value).lower()
    if isinstance(value, (tuple, list)):
        return f"[{', '.join(map(value_text, value))}]"
    return f'"{value}"' if isinstance(value, str) else str(value)


def table_text(name: str, keys: dict[str, Any]) -> str:
    """A table as TOML has it."""
    lines = [f"{key} = {value_text(value)}" for key, value in keys.items()]
    return "\n".join([f"[{name}]", *lines, ""])


def whole(value: Any) -> int:
    """A whole number."""
    if isinstance(value, bool) or not isinstance(value, int):
        raise TypeError(f"{value!r} isn't a whole number")
    return value


def member(value: Any) -> Any:
    """A member of a list: a text, a whole number, or a vector of them. TypeError where it is none of these."""
    if isinstance(value, list):
        return tuple(map(whole, value))
    return value if isinstance(value, str) else whole(value)


def frozen(value: Any) -> Any:
    """A value of TOML with tuples for its lists. TypeError where it is none that settings have."""
    if isinstance(value, list):
        return tuple(map(member, value))
    return value if isinstance(value, (str, bool)) else whole(value)


def three_um(value: Any) -> Three:
    """Three lengths in mm, or one for all three, in um."""
    x, y, z = (value, value, value) if isinstance(value, int) else value
    return UM_PER_MM * whole(x), UM_PER_MM * whole(y), UM_PER_MM * whole(z)


def pair(value: Any) -> Pair:
    """A bound of two ends."""
    low, high = value
    return whole(low), whole(high)


def station_of(table: dict[str, Any]) -> Station:
    """The table [station]."""
    found = Station(**table)
    if isinstance(found.place, str):
        return found
    x, y, z = map(whole, found.place)
    return Station((x, y, z), found.age)


def settings_of(tree: dict[str, Any]) -> Settings:
    """The settings of a tree of tables."""
    known = {"search", "signal", "galileo", "motion", "station", "bounds", "satellite"}
    unknown = set(tree) - known
    if unknown:
        raise ValueError(f"unknown table {sorted(unknown)[0]}")
    tables = {name: {key: frozen(value) for key, value in table.items()} for name, table in tree.items()}
    galileo, station = tables.get("galileo"), tables.get("station")
    return Settings(
        Search(**tables["search"]),
        Signal(**tables["signal"]),
        Bounds(**tables["bounds"]),
        Galileo(**galileo) if galileo is not None else None,
        tables.get("motion", {}).get("speed"),
        {name: pair(value) for name, value in tables.get("satellite", {}).items()},
        station_of(station) if station is not None else None,
        tables.get("motion", {}).get("restart", False),
    )
