"""Files of observations, as far as their epochs are counted and their codes named (RINEX 3.04, tables A2 and A3)."""

from __future__ import annotations

import re
from collections.abc import Iterator
from fractions import Fraction

from gpscover.errors import Error
from gpscover.log import UM_PER_M, Box, PathLike
from gpscover.settings import Settings, Three

COORDINATE = re.compile(r"[+-]?[0-9]{1,8}\.[0-9]{1,4}", re.ASCII)  # of a position, in m
SYSTEMS = {"G": "GPS", "E": "Galileo"}


def file_epochs(path: PathLike) -> int:
    """How many epochs a file of observations has.

    These are its lines that begin with > and have the flag 0 or 1. ValueError where it has a line
    that doesn't say how many follow.
    """
    count = 0
    with open(path, encoding="ascii", errors="replace") as file:
        for line in file:
            if line.startswith(">"):
                count += line[31:32].strip() in ("", "0", "1")
                for _ in range(int(line[32:35].strip() or 0)):
                    next(file, None)
    return count


def header_lines(path: PathLike) -> Iterator[tuple[str, str]]:
    """The lines of a file's header, each with its label in front."""
    with open(path, encoding="ascii", errors="replace") as file:
        for line in file:
            label = line[60:].strip()
            if label == "END OF HEADER":
                break
            yield label, line


def types_of(path: PathLike) -> dict[str, list[str]]:
    """The types of observations in the header of a file, by the letter of their system."""
    types: dict[str, list[str]] = {}
    system = ""
    for label, line in header_lines(path):
        if label == "SYS / # / OBS TYPES":
            system = line[0].strip() or system
            types.setdefault(system, []).extend(line[7:58].split())
    return types


def position_in(line: str) -> Three | None:
    """The position in um of its line in a header; None where a coordinate is blank or no number."""
    words = [line[k : k + 14].strip() for k in (0, 14, 28)]
    if not all(map(COORDINATE.fullmatch, words)):
        return None
    x, y, z = (round(UM_PER_M * Fraction(word)) for word in words)
    return x, y, z


def header_position(path: PathLike) -> Three | None:
    """The position in the header of a file, in um, by the last line that has one; None where there is none."""
    position = None
    for label, line in header_lines(path):
        if label == "APPROX POSITION XYZ":
            position = position_in(line)
    return position


def search_of(settings: PathLike, obs: PathLike | None) -> Box:
    """The search box of a file of settings, whose middle may be the position in the header of an observation file."""
    box = Settings.read(settings).search_box(None if obs is None else header_position(obs))
    if box is None:
        raise Error(f"{settings}: the middle of the search box is in the header of a file, which --obs names")
    return box


def absent_codes(path: PathLike, settings: Settings) -> list[str]:
    """The codes of settings that a file doesn't have, each with its system and the codes that there are of it."""
    absent: list[str] = []
    wanted = {"G": settings.signal.codes, "E": settings.galileo.codes if settings.galileo else ()}
    types = types_of(path)
    for system, codes in wanted.items():
        there = types.get(system, [])
        others = " ".join(it for it in there if it.startswith("C")) or "none"
        absent += [f"{code} of {SYSTEMS[system]} (there is {others})" for code in codes if code not in there]
    return absent
