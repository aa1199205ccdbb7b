"""Tells which satellites surely broke their declared bounds.

usage: gpslog suspect log LOG [--station]
       gpslog suspect open OBS NAV SETTINGS [--station STATION] [--program GPSCOVER] [--folder FOLDER]

`log` reads a log that was solved with outliers = 1 or more. At each point and clock offset that
fits, all but at most q satellites keep their bounds. A satellite is named where in no kept box
there is a clock offset at which it can be one of them, so that it broke its bounds wherever in the
search box the receiver was. The spans are those of the log's boxes and of the rows in use where
each was closed, in whole numbers; a finer paving can name a satellite that a coarse one doesn't.

`open` runs GPSCOVER (the program that ./gpscover runs) on the files with outliers = 0: with the
bounds as they are, and with those of each satellite in turn opened to 1 km. Where no position fits
as they are, the faulty satellite is among those whose opening leaves a region, if one alone is
faulty. Where the settings have a table [galileo], its offset is opened to 1 km in a run of its own,
which opens all satellites of Galileo by as much. For epochs in which none of these leaves a region
each two satellites are opened together, a run for each pair. Only epochs that are empty with the
bounds as they are get a line. The files of these runs stand in FOLDER, or in a folder that is
removed at the end.

With a station, which `log` is told by --station and `open` by its file, the bounds are those of
differences: a fault is the receiver's or the station's, and which of the two isn't told.

A satellite that isn't named can be faulty too: that an epoch isn't empty says nothing of its
bounds.

Exit status: 0; 1 where a file can't be read or written, or a run of GPSCOVER fails; 2 for a wrong
command line.
"""

from __future__ import annotations

import argparse
import math
import re
import tempfile
from collections.abc import Collection, Iterable, Iterator
from itertools import combinations
from pathlib import Path

from gpscover.command import Command, read_text, work_of
from gpscover.errors import Error
from gpscover.log import Box, Epoch, Interval, PathLike, Row, calendar, epochs
from gpscover.runs import solve

OPENED_MM = 1_000_000
AT_EITHER = " at the receiver or the station"


def clock_span(row: Row, box: Box) -> Interval:
    """The clock offsets in um that a row allows somewhere in a box: least and greatest."""
    near = far = 0
    for (low, high), box_low, box_high in zip(row.place, box.low, box.high):
        near += max(0, low - box_high, box_low - high) ** 2
        far += max(high - box_low, box_high - low) ** 2
    return Interval(row.range.low - math.isqrt(far) - row.error.high, row.range.high - math.isqrt(near) - row.error.low)


def possible_in(rows: list[Row], box: Box, outliers: int) -> set[int]:
    """The positions of the rows that can be kept at some clock offset in a box where all but
    `outliers` are kept.

    It is enough to try the spans' low ends: where some spans share an offset, they share the
    greatest of their low ends.
    """
    spans = [clock_span(row, box) for row in rows]
    possible: set[int] = set()
    for clock, _ in spans:
        holding = {k for k, (low, high) in enumerate(spans) if low <= clock <= high}
        if len(holding) >= len(rows) - outliers:
            possible |= holding
    return possible


def surely_broken(epoch: Epoch) -> list[str]:
    """The satellites that no kept box can count among those that keep their bounds."""
    left = set(range(len(epoch.rows)))
    for kept in epoch.kept:
        left -= possible_in(kept.rows, kept.box, epoch.outliers)
        if not left:
            break
    return [epoch.rows[k].satellite for k in sorted(left)]


def log_line(epoch: Epoch, place: str = "") -> str:
    """What a log says of an epoch's satellites, and where, if that isn't at the receiver alone."""
    head = f"epoch {epoch.index} {calendar(epoch.ps)}"
    if epoch.few:
        return f"{head} few"
    if not epoch.kept:
        return f"{head} empty: more than {epoch.outliers} satellites broke their bounds, or the" " receiver was outside"
    broken = surely_broken(epoch)
    return f"{head} broke their bounds{place}: {' '.join(broken)}" if broken else f"{head} none is shown to have"


def with_no_outliers(settings: str) -> str:
    """The settings with outliers = 0."""
    text, count = re.subn(r"(?m)^(\s*outliers\s*=).*$", r"\1 0", settings)
    if count != 1:
        raise Error("the settings don't have the key `outliers` on a line of its own")
    return text


def with_opened(settings: str, satellite: str) -> str:
    """The settings with the bounds of a satellite opened to 1 km."""
    line = f"{satellite} = [-{OPENED_MM}, {OPENED_MM}]\n"
    without = re.sub(rf"(?m)^\s*{satellite}\s*=.*\n?", "", settings)

    def with_line(found: re.Match[str]) -> str:
        return found[0].rstrip("\n") + "\n" + line

    text, count = re.subn(r"(?m)^\s*\[satellite\].*\n?", with_line, without)
    return text if count else f"{without.rstrip()}\n\n[satellite]\n{line}"


def with_open_offset(settings: str) -> str | None:
    """The settings with the offset of Galileo opened to 1 km; None where they have none."""
    text, count = re.subn(r"(?m)^(\s*offset\s*=).*$", rf"\1 [-{OPENED_MM}, {OPENED_MM}]", settings)
    return text if count else None


class Runs:
    """Runs the program on the same files with other settings."""

    def __init__(
        self, program: PathLike | None, obs: PathLike, nav: PathLike, folder: PathLike, station: PathLike | None = None
    ) -> None:
        self.program, self.obs, self.nav = program, obs, nav
        self.folder, self.station = Path(folder), station

    def solve(self, name: str, settings: str, some: Collection[int] = ()) -> list[Epoch]:
        """The epochs that the program finds with these settings: those from the first to the last of some numbers, or
        all."""
        toml, log = self.folder / f"{name}.toml", self.folder / f"{name}.log"
        toml.write_text(settings, encoding="utf-8")
        first, last = min(some, default=None), max(some, default=None)
        files = self.obs, self.nav, toml, log
        ran = solve(*files, first=first, last=last, station=self.station, program=self.program)
        return list(ran.log)


def helpful(runs: Runs, opened: dict[str, str], wanted: Iterable[int]) -> dict[int, list[str]]:
    """The names of the settings by which some epochs have a region."""
    helps: dict[int, list[str]] = {index: [] for index in wanted}
    for name, text in opened.items():
        for epoch in runs.solve(name, text, helps):
            if epoch.index in helps and epoch.kept:
                helps[epoch.index].append(name)
    return helps


def opened_lines(runs: Runs, settings: str) -> Iterator[str]:
    """What comes of opening each satellite in turn, for each epoch that is empty with the bounds as
    they are."""
    closed = with_no_outliers(settings)
    given = runs.solve("given", closed)
    empty = {epoch.index: epoch for epoch in given if not epoch.few and not epoch.kept}
    satellites = sorted({row.satellite for epoch in empty.values() for row in epoch.rows})
    opened: dict[str, str | None] = {satellite: with_opened(closed, satellite) for satellite in satellites}
    if any(satellite[0] == "E" for satellite in satellites):
        opened["offset"] = with_open_offset(closed)
    helps = helpful(runs, {name: text for name, text in opened.items() if text}, empty)
    hard = [index for index in empty if not helps[index]]
    names = sorted({row.satellite for index in hard for row in empty[index].rows})
    pairs = {f"{one}+{two}": with_opened(with_opened(closed, one), two) for one, two in combinations(names, 2)}
    helps |= helpful(runs, pairs, hard)
    for index, epoch in empty.items():
        told = (
            " ".join(helps[index]) or "none: more than two satellites broke their bounds, or the receiver was outside"
        )
        yield f"epoch {index} {calendar(epoch.ps)} empty; a region is left when opening {told}"
    end = f"; a fault is one{AT_EITHER}" if runs.station is not None and empty else ""
    yield f"epochs {len(given)}, of which {len(empty)} are empty at outliers = 0{end}"


def run_open(args: argparse.Namespace) -> None:
    """Opens each satellite in turn."""
    settings = read_text(args.settings)
    with tempfile.TemporaryDirectory() as room:
        runs = Runs(args.program, args.obs, args.nav, args.folder or room, args.station)
        for line in opened_lines(runs, settings):
            print(line)


def run_log(args: argparse.Namespace) -> None:
    """Goes through a log."""
    for epoch in epochs(args.log):
        if epoch.outliers == 0:
            raise Error(f"{args.log} was solved with outliers = 0, where no satellite may break its bounds")
        print(log_line(epoch, AT_EITHER if args.station else ""))


def arguments(parser: argparse.ArgumentParser) -> None:
    """The words of the command line."""
    ways = parser.add_subparsers(required=True)
    log = ways.add_parser("log", help="from a log that was solved with outliers = 1 or more")
    log.add_argument("log", metavar="LOG")
    log.add_argument("--station", action="store_true", help="it was solved with a station")
    log.set_defaults(work=run_log)
    opened = ways.add_parser("open", help="by opening each satellite in turn at outliers = 0")
    for name in ("obs", "nav", "settings"):
        opened.add_argument(name, metavar=name.upper())
    opened.add_argument("--station", help="the observation file of a station")
    opened.add_argument("--program", help="the program (the one that ./gpscover runs)")
    opened.add_argument("--folder", help="where the runs' files are kept")
    opened.set_defaults(work=run_open)


ABOUT = "which satellites surely broke their declared bounds"
COMMAND = Command("suspect", ABOUT, arguments, work_of, __doc__)
