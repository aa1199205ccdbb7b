"""Makes one HTML file of a log of gpscover, to look at in any browser without a network.

usage: gpslog page LOG [LOG ..] OUT.html [--settings FILE] [--places FILE [--limit H V]]
[--zones ZONES.. [--zone NAME]..] [--from N] [--to N] [--title TEXT]

The page has a table and a time line of all epochs with the numbers of `gpslog summary`; of an epoch
that is chosen its boxes in three dimensions, the outline of all its boxes from three sides, the sky
with its satellites, the declared errors and the satellites that aren't used with the reason; a map
sheet with the outline of each region in latitude and longitude; and the settings, if they are
given, whose search box is that of a track which goes on from an earlier log. A click on a head of
the table sorts it. With a list of known places the table has of each epoch whether its region holds
the place, and the farthest corner from it along the ground, and up or down, as `gpslog summary
--places` has them. With files of zones it has what each epoch says of each zone, or of
those that --zone names (`gpslog answers`), and the map sheet has their outlines. Several logs are the
parts of one file in their order. Of files the page has the names, and not where they stand.

The page is kept below 30 MB. Table and time line have every epoch. Where the rest is too much,
boxes, and then sky, outlines and errors, are those of every 2nd, 4th, 8th .. epoch: page and
standard error say so, and --from and --to take the epochs from one number to another alone. An
epoch of more than 20,000 boxes is drawn by boxes round groups of them.

Boxes and outlines are drawn as they are but for rounding: ends of boxes outward, by at most a
65,535th of the region. A log that ends within an epoch gets a page of the epochs before, which says
so. The log is read as it stands: `gpscover check` says whether it is right.

Needs plotly, which Debian installs by `apt-get install python3-plotly` for /usr/bin/python3.

Exit status: 0; 1 where a file can't be read or written, LOG is no whole log, or plotly isn't there;
2 for a wrong command line.
"""

from __future__ import annotations

import argparse
import base64
import html
import json
import math
import re
import struct
import sys
from collections.abc import Iterable, Iterator, Sequence
from pathlib import Path
from typing import Any

from gpscover.beside import Beside
from gpscover.command import Command, absent, name_ending, whole_file
from gpscover.errors import Error, LogError, UsageError
from gpscover.geodesy import Frame, Vector
from gpscover.integrity import Judge, Limits, limit_argument
from gpscover.kml import ground_ring
from gpscover.log import UM_PER_M, Box, Epoch, PathLike, Rules, epochs, rules_of
from gpscover.outline import Flat, outlines
from gpscover.places import Meetings
from gpscover.region import Region, hull_of, region_or_none
from gpscover.settings import Settings, SettingsError
from gpscover.summary import COLUMNS, Totals, csv_line, mark_of, text_cells
from gpscover.zones import chosen_zones, zone_arguments

PARTS = Path(__file__).resolve().parent / "page_parts"
PAGE_LIMIT = 29_000_000  # bytes, so that a page stays below 30 MB
MOST_BOXES = 20_000  # of an epoch; more are drawn in groups
FINEST_GRID = 64  # cells a side
STEPS = 65_535  # of a side of a region's hull at most, so that an end takes two bytes
CELLS = (  # the columns of text_cells, by name and title
    ("epoch", "epoch"),
    ("time", "GPS time"),
    ("satellites", "sats"),
    ("in", "in"),
    ("edge", "edge"),
    ("east", "east m"),
    ("north", "north m"),
    ("up", "up m"),
    ("clock", "clock m"),
    ("volume", "volume m³"),
    ("latitude", "latitude °"),
    ("longitude", "longitude °"),
    ("height", "height m"),
    ("mark", "mark"),
    ("faces", "faces"),
)
CERTIFIED = ("certified", "certified")  # a column where an epoch has lengths by certified bounds
MARK_WORDS = {
    "": "",
    "few": "Too few usable satellites, so the epoch isn't paved.",
    "empty": (
        "No position fits: more satellites than allowed broke their bounds, or the receiver was outside the search box."
    ),
    "lost": "The track is lost here: no position fits.",
    "reaches": "A kept box lies on the named faces of the search box, so the region may go on outside.",
}


class Thinned:
    """The texts of every epoch, or of every 2nd, 4th, 8th .. by its position."""

    def __init__(self) -> None:
        self.every, self.size = 1, 0
        self.texts: dict[int, str] = {}

    def wants(self, position: int) -> bool:
        """Whether the text of a position is kept."""
        return position % self.every == 0

    def add(self, position: int, text: str) -> None:
        """Keeps a text."""
        self.texts[position] = text
        self.size += len(text) + len(str(position)) + 4

    def halve(self) -> None:
        """Keeps every second one of the texts."""
        self.every *= 2
        left = {position: text for position, text in self.texts.items() if self.wants(position)}
        self.texts, self.size = {}, 0
        for position, text in left.items():
            self.add(position, text)


def to_json(value: object) -> str:
    """A value as JSON without blanks, which has no `<`, by which a script of the page could end or go on as another."""
    return json.dumps(value, ensure_ascii=True, separators=(",", ":")).replace("<", "\\u003c")


def hulls_of_groups(boxes: list[Box]) -> list[Box]:
    """Boxes round groups of neighbours: at most MOST_BOXES of them, and each box is in one."""
    hull, grid = hull_of(boxes), FINEST_GRID
    sides = [max(1, hull[k + 3] - hull[k]) for k in range(3)]
    while True:
        groups: dict[tuple[int, ...], list[Box]] = {}
        for box in boxes:
            cell = tuple((box[k] + box[k + 3] - 2 * hull[k]) * grid // (2 * sides[k] + 1) for k in range(3))
            groups.setdefault(cell, []).append(box)
        if len(groups) <= MOST_BOXES:
            return [hull_of(group) for group in groups.values()]
        grid //= 2


def drawn_boxes(epoch: Epoch) -> tuple[list[Box], list[Box], list[Box]]:
    """The edge boxes, the in boxes and the boxes round groups that are drawn.

    Together they hold each kept box.
    """
    edge = [kept.box for kept in epoch.kept if not kept.inner]
    inner = [kept.box for kept in epoch.kept if kept.inner]
    if len(epoch.kept) <= MOST_BOXES:
        return edge, inner, []
    return [], [], hulls_of_groups(edge + inner)


def packed_boxes(epoch: Epoch, region: Region) -> str:
    """The drawn boxes for the page: their ends in steps from the hull's low corner, two bytes each, as base64."""
    kinds = drawn_boxes(epoch)
    hull = hull_of(epoch.boxes)
    steps = [max(1, -((hull[k] - hull[k + 3]) // STEPS)) for k in range(3)]
    columns = list(zip(*(box for kind in kinds for box in kind)))
    ends = [[(end - hull[k]) // steps[k] for end in columns[k]] for k in range(3)]
    ends += [[-((hull[k] - end) // steps[k]) for end in columns[k + 3]] for k in range(3)]
    numbers = [number for box in zip(*ends) for number in box]
    return to_json(
        {
            "counts": [len(kind) for kind in kinds],
            "low": [hull[k] / UM_PER_M - region.origin[k] for k in range(3)],
            "steps": [step / UM_PER_M for step in steps],
            "axes": region.axes,
            "ends": base64.b64encode(struct.pack(f"<{len(numbers)}H", *numbers)).decode("ascii"),
        }
    )


def metres(um: int) -> float:
    """A length in um as a number of metres."""
    return um / UM_PER_M


def satellites_of(epoch: Epoch, place: Vector) -> Iterator[list[Any]]:
    """Name, elevation and azimuth in degrees as seen from a place, and the ends of what is declared
    of the error in m."""
    frame = Frame.at(place)
    for row in epoch.rows:
        there = [(low + high) / 2 / UM_PER_M for low, high in row.place]
        angles: list[float | None] = [None, None]
        if there != list(place):
            angles = [round(math.degrees(angle), 2) for angle in (frame.elevation(there), frame.azimuth(there))]
        yield [row.satellite, *angles, *(metres(end) for end in row.error + row.sure)]


def rounded(points: Iterable[Flat], digits: int) -> list[list[float]]:
    """Points with their parts rounded."""
    return [[round(part, digits) for part in point] for point in points]


def outlines_of(epoch: Epoch, region: Region) -> list[list[Flat]]:
    """The outlines of all kept boxes in m: east and north, east and up, north and up."""
    east, north, up = region.axes
    return outlines(epoch.boxes, region.origin, (east, north), (east, up), (north, up))


def detail(epoch: Epoch, region: Region | None, mark: str) -> str:
    """What the page shows of an epoch beside its row of the table, but for its boxes."""
    place = region.middle() if region else None
    if place is None and epoch.root:
        place = epoch.root.centre
    said: dict[str, Any] = {
        "satellites": list(satellites_of(epoch, place)) if place else [],
        "skips": [[it.satellite, it.reason.words + (it.field and f" (field {it.field})")] for it in epoch.skips],
        "place": "the middle of the region" if region else "the middle of the search box",
    }
    values = dict(zip(COLUMNS, csv_line(epoch, region, mark)))
    if not epoch.few:
        said |= {"out": epoch.outs, "splits": epoch.splits}
    if region:
        outlines = outlines_of(epoch, region)
        said |= {
            "clock": [values["clock_low_m"], values["clock_high_m"]],
            "middle": [values[name] for name in ("x_m", "y_m", "z_m")],
            "outlines": [rounded(ring, 3) for ring in outlines],
            "ring": rounded(ground_ring(region, outlines[0]), 9),
        }
    return to_json(said)


class Collected:
    """What is taken from the logs for the page, in as many bytes as are left for it."""

    def __init__(self, room: int, beside: Beside) -> None:
        self.room, self.beside = room, beside
        self.cells = [*CELLS, *beside.columns()]
        self.rows: list[list[str]] = []
        self.size = 0
        self.certified: list[str] = []  # of each epoch 1 or an empty text
        self.details, self.boxes = Thinned(), Thinned()
        self.totals = Totals()

    def add(self, epoch: Epoch) -> None:
        """Takes an epoch."""
        region = region_or_none(epoch)
        mark = mark_of(epoch, region)
        self.totals.add(epoch, mark)
        cells = text_cells(epoch, region)
        position = len(self.rows)
        self.rows.append(
            cells
            + [""] * (len(CELLS) - 2 - len(cells))
            + [mark, " ".join(region.faces) if region else ""]
            + list(self.beside.cells(epoch, region))
        )
        self.certified.append("1" if region and region.certified else "")
        self.size += len(to_json([*self.rows[-1], self.certified[-1]]))
        if self.details.wants(position):
            self.details.add(position, detail(epoch, region, mark))
        if region and self.details.wants(position) and self.boxes.wants(position):
            self.boxes.add(position, packed_boxes(epoch, region))
        self.thin()

    def thin(self) -> None:
        """Thins out what is larger, until all fits; no boxes are kept of an epoch whose detail isn't."""
        while self.size + self.details.size + self.boxes.size > self.room and max(
            self.details.every, self.boxes.every
        ) <= len(self.rows):
            if self.details.size > self.boxes.size:
                self.details.halve()
            if self.details.size <= self.boxes.size or self.boxes.every < self.details.every:
                self.boxes.halve()

    def notes(self) -> Iterator[str]:
        """What the page doesn't have, if anything."""
        if self.boxes.every > 1:
            yield (
                f"the boxes are those of one epoch in {self.boxes.every}, to keep the page below 30"
                " MB: --from and --to make a page of some epochs"
            )
        if self.details.every > 1:
            yield f"sky, outlines, errors and skipped satellites are those of one epoch in {self.details.every}"
        numbers = [int(row[0]) for row in self.rows]
        gaps = [(a, b) for a, b in zip(numbers, numbers[1:]) if b != a + 1]
        if gaps:
            yield (
                f"the epochs' numbers don't follow one another at {len(gaps)} of them,"
                f" the first time from {gaps[0][0]} to {gaps[0][1]}"
            )


def collect(
    paths: Sequence[PathLike], first: float, last: float, room: int, beside: Beside, search: Box | None = None
) -> tuple[Collected, str | None]:
    """What the logs have of the epochs from a number to another, and the line for a log that ends
    too early, or None. `search` is as `log.epochs` has it."""
    collected = Collected(room, beside)
    try:
        for path in paths:
            for epoch in epochs(path, search):
                if first <= epoch.index <= last:
                    collected.add(epoch)
    except LogError as error:
        if not collected.rows:
            raise
        return collected, str(error)
    return collected, None


def search_in(text: str | None) -> Box | None:
    """The search box of the settings that are shown, where they are some."""
    try:
        return None if text is None else Settings.from_toml(text).search_box()
    except SettingsError:
        return None


def settings_differ(text: str, rules: Rules) -> Iterator[str]:
    """A line for each rule of the settings that isn't the log's."""
    wanted = (("outliers", rules.outliers), ("bisections", rules.splits), ("width", rules.width // 1000))
    for key, value in wanted:
        found = re.search(rf"(?m)^\s*{key}\s*=\s*([0-9](?:_?[0-9]){{0,18}})\b", text)
        if found and int(found[1]) != value:
            yield f"these settings have {key} = {found[1]}, and the log has {value}: they aren't those of the log"


def page_data(
    args: argparse.Namespace, collected: Collected, rules: Rules, settings: str | None, broken: str | None
) -> dict[str, Any]:
    """What the page's script needs, but for details and boxes."""
    warnings = [f"{broken}; the page has the epochs before"] if broken else []
    warnings += settings_differ(settings, rules) if settings else []
    beside = collected.beside
    said = [*collected.totals.warnings(), *beside.warnings()]
    cells, rows = collected.cells, collected.rows
    if any(collected.certified):
        cells, rows = [*cells, CERTIFIED], [[*row, word] for row, word in zip(rows, collected.certified)]
    return {
        "logs": [Path(name).name for name in args.log],
        "rules": {"q": rules.outliers, "splits": rules.splits, "width": metres(rules.width)},
        "lines": [collected.totals.line(), *beside.lines(), *(f"warning: {each}" for each in said)],
        "warnings": warnings,
        "notes": list(collected.notes()),
        "every": {"details": collected.details.every, "boxes": collected.boxes.every},
        "range": [number for number in (args.first, args.last) if number is not None],
        "columns": [[name, title] for name, title in cells],
        "table": {name: [row[k] for row in rows] for k, (name, _) in enumerate(cells)},
        "marks": MARK_WORDS,
        "zones": beside.drawn(),
        "settings": settings,
        "settingsName": Path(args.settings).name if args.settings else None,
    }


def by_position(thinned: Thinned) -> str:
    """Kept texts as one JSON object."""
    return "{" + ",".join(f'"{position}":{text}' for position, text in thinned.texts.items()) + "}"


def page_text(title: str, data: dict[str, Any], collected: Collected, parts: dict[str, str]) -> str:
    """The whole page."""
    head = to_json(data)[:-1]
    details, boxes = by_position(collected.details), by_position(collected.boxes)
    body = f'{head},"details":{details},"boxes":{boxes}}}'
    return parts["page.html"].format(
        title=html.escape(title), css=parts["page.css"], data=body, plotly=parts["plotly"], script=parts["page.js"]
    )


def plotly_script() -> str:
    """The script of plotly, or an Error that says how to get it."""
    try:
        from plotly.offline import get_plotlyjs
    except ImportError:
        raise absent("plotly", "-m gpscover page ") from None
    script: str = get_plotlyjs()
    return script


def beside_of(args: argparse.Namespace) -> Beside:
    """The known places and the zones that the words name."""
    judge = None
    if args.places:
        judge = Judge(Meetings.of(args.places), limits=Limits(*args.limit) if args.limit else None)
    return Beside(judge, chosen_zones(args.zones, args.zone) if args.zones else [])


def make_page(args: argparse.Namespace) -> str | None:
    """Reads the logs and writes the page. The line for a log that ends too early, or None."""
    parts = {name: (PARTS / name).read_text(encoding="utf-8") for name in ("page.html", "page.css", "page.js")}
    parts["plotly"] = plotly_script()
    rules = rules_of(args.log[0])
    settings = Path(args.settings).read_text(encoding="utf-8", errors="replace") if args.settings else None
    room = PAGE_LIMIT - sum(len(part.encode()) for part in parts.values())
    beside = beside_of(args)
    collected, broken = collect(args.log, args.first or 0, args.last or math.inf, room, beside, search_in(settings))
    if beside.judge:
        beside.judge.meetings.refuse_strangers()
    data = page_data(args, collected, rules, settings, broken)
    data["figures"] = json.loads((PARTS / "figures.json").read_text(encoding="utf-8"))
    title = args.title or f"Regions of {', '.join(Path(name).name for name in args.log)}"
    with whole_file(args.out) as file:
        file.write(page_text(title, data, collected, parts))
    said: list[str] = data["warnings"][bool(broken) :] + data["notes"]
    for line in said:
        print(f"{args.parser.prog}: {line}", file=sys.stderr)
    return broken


def number(word: str) -> int:
    """An epoch's number."""
    if not (word.isascii() and word.isdigit() and int(word) > 0):
        raise argparse.ArgumentTypeError(f"{word} isn't the number of an epoch")
    return int(word)


def arguments(parser: argparse.ArgumentParser) -> None:
    """The words of the command line."""
    parser.add_argument("log", metavar="LOG", nargs="+", help="a log, or the logs of a file's parts in their order")
    parser.add_argument("out", metavar="OUT.html", type=name_ending(".html", ".htm", told=".html"))
    parser.add_argument(
        "--settings", metavar="FILE", help="the settings of the run, to be shown and for the search box"
    )
    parser.add_argument("--places", metavar="FILE", help="a list of known places")
    limit_argument(parser)
    zone_arguments(parser, required=False)
    parser.add_argument("--from", type=number, dest="first", metavar="N", help="the first epoch that is taken")
    parser.add_argument("--to", type=number, dest="last", metavar="N", help="the last epoch that is taken")
    parser.add_argument("--title", metavar="TEXT")


def run(args: argparse.Namespace) -> int:
    """Writes the page. The status."""
    if args.limit and not args.places:
        raise UsageError("--limit needs --places")
    if args.zone and not args.zones:
        raise UsageError("--zone needs --zones")
    broken = make_page(args)
    if broken:
        raise Error(f"{broken}; the page has the epochs before")
    return 0


COMMAND = Command("page", "one HTML file of a log, to look at in a browser", arguments, run, __doc__)
