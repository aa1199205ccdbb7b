"""Begins with a receiver's two files: settings with reasons, a checked log, its table and its page.

usage: gpslog begin OBS NAV FOLDER [--place X Y Z] [--splits N] [--program GPSCOVER]

OBS and NAV may be packed as archives pack them (`gpslog files`). FOLDER is made, and gets

  receiver.obs, receiver.nav   what is read
  settings.toml                the settings, which say in comments what was chosen and why
  receiver.log                 the log, once `check` has said yes of it
  summary.txt, page.html       its table, and its page, where plotly is installed

A rough place is needed to choose bounds: that of X Y Z in metres, of the header of OBS, or of RTKLIB's
rnx2rtkp, where that is installed: the first one within 100 km of which a position fits. Every bound is
a usual one for an open sky, and is declared by whoever relies on the region: docs/GUIDE.md, chapter 4.

Exit status: 0; 1 where a file can't be read or written, no place is found, or a run fails; 2 for a
wrong command line.
"""

from __future__ import annotations

import argparse
import contextlib
import io
import math
import shutil
import subprocess
from collections.abc import Iterator
from dataclasses import dataclass, replace
from pathlib import Path

from gpscover import bounds, page, summary
from gpscover.command import Command, measure
from gpscover.errors import Error
from gpscover.files import prepared
from gpscover.geodesy import Vector, geodetic
from gpscover.log import UM_PER_M, PathLike, epochs
from gpscover.observations import file_epochs, header_position, types_of
from gpscover.program import home
from gpscover.region import hull_of, region_or_none
from gpscover.runs import check, solve
from gpscover.settings import Bounds, Search, Settings, Signal, Three

EARTH_M = (6_300_000, 6_500_000)  # from the earth's centre, of a place on it or in the air
MOST_HALF_MM = 100_000_000
WIDE = Bounds((-10_000, 10_000), (-10_000, 10_000), (0, 80_000), (0, 30_000))
LOOK = 16  # splits of an epoch in a first look
FEWEST = 8  # splits of an epoch of a long file
USUAL = 64  # and of a short one
WORK = 160_000  # splits of all epochs, which take some minutes
LOW_LATITUDE = 30  # degrees, below which the ionosphere delays more


@dataclass(frozen=True)
class Header:
    """What the header of an observation file has: the codes of GPS on L1, and the position."""

    codes: list[str]
    place: Vector | None


def in_metres(position: Three) -> Vector:
    """A place in um in m."""
    x, y, z = (end / UM_PER_M for end in position)
    return x, y, z


def header_of(path: PathLike) -> Header:
    """The header of an observation file."""
    codes = [it for it in types_of(path).get("G", []) if it.startswith("C1")]
    position = header_position(path)
    place = None if position is None else in_metres(position)
    return Header(codes, place)


def is_on_earth(place: Vector) -> bool:
    """Whether a point is on the earth or in the air."""
    return EARTH_M[0] <= math.hypot(*place) <= EARTH_M[1]


def places(args: argparse.Namespace, header: Header, folder: Path) -> Iterator[tuple[str, Vector]]:
    """Rough places and where they are from, the likelier first."""
    if args.place:
        yield "what you said", (args.place[0], args.place[1], args.place[2])
    if header.place and is_on_earth(header.place):
        yield "the header", header.place
    if shutil.which("rnx2rtkp"):
        words = ["rnx2rtkp", "-k", str(home() / "examples/rtklib.conf"), str(folder / "receiver.obs")]
        ran = subprocess.run([*words, str(folder / "receiver.nav")], capture_output=True, text=True)
        for line in ran.stdout.splitlines():
            if line[:1] not in ("%", ""):
                x, y, z = (measure(word) for word in line.split()[2:5])
                yield "RTKLIB", (x, y, z)
                break


def in_mm(place: Vector) -> tuple[int, int, int]:
    """A place in m in whole mm."""
    x, y, z = (round(end * 1000) for end in place)
    return x, y, z


def first_settings(code: str, place: Vector) -> Settings:
    """Those of a first look: a large box, wide bounds and few splits."""
    search = Search(MOST_HALF_MM, 1, LOOK, in_mm(place), renew=True, pairs=True)
    return Settings(search, Signal("single", (code,)), WIDE)


@dataclass(frozen=True)
class Look:
    """What a first look finds."""

    source: str  # of the rough place
    middle: Vector  # of all regions, in m
    half: int  # of a box round all of them, in mm
    count: int  # of the epochs with a region
    tried: list[str]  # rough places of which no position fits


def look(args: argparse.Namespace, folder: Path, header: Header) -> Look:
    """Looks for the receiver round each rough place in turn. Error where it isn't found."""
    tried: list[str] = []
    for source, place in places(args, header, folder):
        log = folder / "look.log"
        solve(
            folder / "receiver.obs",
            folder / "receiver.nav",
            first_settings(chosen_code(header), place),
            log,
            program=args.program,
        )
        found = [epoch for epoch in epochs(log) if epoch.kept]
        if found:
            hulls = hull_of([hull_of(epoch.boxes) for epoch in found])
            half = max(high - low for low, high in zip(hulls.low, hulls.high)) // 2_000
            # Round all that the wide bounds leave, and in whole kilometres.
            half = min(MOST_HALF_MM, 1_000_000 * max(1, -(-half // 1_000_000)))
            return Look(source, hulls.centre, half, len(found), tried)
        tried.append(f"{source} ({' '.join(f'{end:.0f}' for end in place)})")
    reason = "within 100 km of " + ", ".join(tried) if tried else "as none is known"
    raise Error(f"no position fits {reason}: is NAV of the same day? say --place X Y Z, in metres, or install rtklib")


def chosen_code(header: Header) -> str:
    """The civil code on L1, or else the first one there."""
    if not header.codes:
        raise Error("the observations have no code of GPS on L1")
    return "C1C" if "C1C" in header.codes else header.codes[0]


def parts_for(place: Vector) -> tuple[bounds.Parts, str]:
    """The usual amounts of delays at a place, and why."""
    latitude, _, height = geodetic(place)
    degrees = abs(math.degrees(latitude))
    ionosphere = (0.0, 25.0) if degrees < LOW_LATITUDE else (0.0, 10.0)
    # The dry air above, which is what is least there, falls off by a factor of e in 8 km.
    dry = 1.95 if height < 1000 else round(2.15 * math.exp(-height / 8000), 2)
    reason = f"at {degrees:.0f} degrees of latitude and {height:.0f} m of height"
    return bounds.Parts("single", (dry, 2.65), ionosphere, zenith=True, vertical=True), reason


def settings_lines(found: Look, header: Header, splits: int, total: int, seen: dict[str, bounds.Pair]) -> Iterator[str]:
    """The settings, with what was chosen and why."""
    parts, where = parts_for(found.middle)
    centre = list(in_mm(found.middle))
    yield "# Chosen by `gpslog begin`. Lengths are whole millimetres; examples/settings.toml explains each key."
    yield "# The bounds are usual ones under an open sky. Whoever relies on the region declares them."
    yield ""
    yield "[search]"
    yield f"# The middle of what a first look found round the place of {found.source}, with {found.count} of {total} epochs,"
    yield "# and a box that holds all of it. A large one costs little, as rows are renewed."
    yield f"centre = {centre}"
    yield f"half = {found.half}"
    yield "# One satellite may break its bounds: with none a single reflected signal could leave no position."
    yield "outliers = 1"
    yield "# Bounds need few splits; more give finer boxes and a longer log."
    yield f"bisections = {splits}"
    yield "width = 1000"
    yield "# GPS renews its ephemerides every two hours."
    yield "max_age = 7200"
    yield "renew = true"
    yield "pairs = true"
    yield "# Certified bounds along eight azimuths, up and down: they make protection levels."
    yield "directions = 8"
    yield ""
    yield "[signal]"
    yield "# One code: the combination of two takes the ionosphere out, but makes the noise three to four times larger."
    yield 'mode = "single"'
    yield f"# Of {' '.join(header.codes)} in the header."
    yield f'codes = ["{chosen_code(header)}"]'
    yield ""
    yield f"# {where[0].upper()}{where[1:]}: delays straight up, mapped by elevation by gpscover itself."
    yield from bounds.tables(seen, parts)


def table_of(log: Path, obs: Path) -> str:
    """The table of a log."""
    parser = argparse.ArgumentParser()
    summary.arguments(parser)
    with contextlib.redirect_stdout(io.StringIO()) as text:
        summary.run(parser.parse_args([str(log), "--obs", str(obs)]))
    return text.getvalue()


def write_page(folder: Path) -> str:
    """Writes the page. What is to be said of it."""
    parser = argparse.ArgumentParser()
    page.arguments(parser)
    words = [str(folder / "receiver.log"), str(folder / "page.html"), "--settings", str(folder / "settings.toml")]
    args = parser.parse_args(words)
    args.parser = parser
    try:
        page.run(args)
    except Error as error:
        return f"no page: {error}"
    return f"{folder / 'page.html'}: a page for a browser"


def begin(args: argparse.Namespace, folder: Path) -> Iterator[str]:
    """Does all of it, and says so in lines."""
    obs, nav, toml, log = (folder / f"receiver.{ending}" for ending in ("obs", "nav", "toml", "log"))
    toml = folder / "settings.toml"
    for given, path in ((args.obs, obs), (args.nav, nav)):
        data, done = prepared(Path(given).read_bytes())
        path.write_bytes(data)
        yield f"{path}: {given}, {', '.join(done) or 'as it stands'}"
    header = header_of(obs)
    found = look(args, folder, header)
    yield from (f"warning: no position fits within 100 km of {place}: that place is wrong" for place in found.tried)
    total = file_epochs(obs)
    splits = args.splits or min(USUAL, max(FEWEST, WORK // max(1, total)))
    (seen,) = (stretch.seen for stretch in bounds.stretches(folder / "look.log", found.middle, None))
    toml.write_text(
        "\n".join(settings_lines(found, header, splits, total, seen)) + "\n", encoding="utf-8", newline="\n"
    )
    (folder / "look.log").unlink()
    yield f"{toml}: what was chosen, and why"
    solve(obs, nav, toml, log, program=args.program)
    verdict = check(obs, nav, toml, log, program=args.program)
    if not verdict:
        raise Error(f"the log isn't accepted: {verdict}")
    yield f"{log}: check says yes {verdict.boxes}"
    text = table_of(log, obs)
    (folder / "summary.txt").write_text(text, encoding="utf-8", newline="\n")
    yield f"{folder / 'summary.txt'}: a line for each epoch, and these of all"
    yield from text.splitlines()[1 + sum(1 for _ in epochs(log)) :]
    yield write_page(folder)


def arguments(parser: argparse.ArgumentParser) -> None:
    """The words of the command line."""
    for name in ("obs", "nav", "folder"):
        parser.add_argument(name, metavar=name.upper())
    parser.add_argument("--place", nargs=3, type=measure, metavar=("X", "Y", "Z"), help="a rough place, m")
    parser.add_argument(
        "--splits", type=page.number, metavar="N", help="splits of an epoch (64, and fewer in a long file)"
    )
    parser.add_argument("--program", help="the program (the one that ./gpscover runs)")


def run(args: argparse.Namespace) -> int:
    """Begins. The status."""
    folder = Path(args.folder)
    folder.mkdir()
    for line in begin(args, folder):
        print(line, flush=True)
    return 0


ABOUT = "from a receiver's two files to settings, a checked log, its table and its page"
COMMAND = Command("begin", ABOUT, arguments, run, __doc__)
