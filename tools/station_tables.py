#!/usr/bin/env python3
"""Makes the tables of regions with a station beside the receiver, and of the receiver alone, where its place is known.

usage: python3 -m tools.station_tables extents OBS NAV SETTINGS X Y Z [--station FILE] [--splits N ...] [--outliers Q ...]
       python3 -m tools.station_tables stands OBS NAV SETTINGS X Y Z [--station FILE] [--at N ...]
       python3 -m tools.station_tables parts OBS NAV SETTINGS X Y Z [--station FILE] [--again N] [--halvings N]
       python3 -m tools.station_tables places OBS NAV SETTINGS PLACES [--station FILE]
       each with [--from N] [--to N] [--program GPSCOVER]

A receiver whose settings have a table [station] needs the station's FILE. X Y Z is the receiver's place in m, --from and
--to are numbers of its epochs.

extents: for each number of splits and of outliers the mean extents along east, north and up in m, in how many epochs the
place is in a kept box, how many regions reach the search box, and what `check` says.
stands: `track` at a speed of 0 and q = 0. Behind each of these epochs the extents, those of what the rows up to there
allow together, and the sides of the box that is handed on; then in how many epochs the place is held, and what `retrack`
says.
parts: the same track. --again so many times the box that the last epoch hands on is the search box of the same epochs.
Then it is halved along each axis, N times. Each part is the search box of a track of its own over the same epochs, and is
left out where that is lost. A receiver that stands was in one of the parts that are left; a line has the extents of their
regions behind the last epoch, by the splits of SETTINGS, and whether they hold the place.
places: in how many epochs the place of a list, as `gpslog` reads it, is in a kept box.

Numbers are floats, and prove nothing. Exit status: 0; 1 where a run fails or a log isn't accepted; 2 for a wrong command
line.
"""
import argparse
import itertools
import random
import tempfile
from collections.abc import Iterable, Iterator
from dataclasses import dataclass, replace
from pathlib import Path
from statistics import fmean

from gpscover import runs
from gpscover.command import measure, run_tool
from gpscover.errors import Error
from gpscover.geodesy import Frame, Vector, dot
from gpscover.integrity import is_held
from gpscover.log import UM_PER_M, Box, Epoch, Row, epochs
from gpscover.places import Meetings
from gpscover.region import extent_along, half_sides, hull_of, offsets, reaches, region_of
from gpscover.settings import Settings
from tools.exact_extents import linear_row

HalfSpace = tuple[list[float], float]  # (a, b): the points x with a . x <= b
MmBox = list[tuple[int, int]]  # the ends along each axis, in mm

UM_PER_MM = 1000
FAR_M = 1000.0  # within so much of the origin along each axis a linear program looks
TINY = 1e-9


@dataclass(frozen=True)
class Case:
    """A receiver's files, with a station's or without, and which epochs are meant."""

    obs: Path
    nav: Path
    settings: Settings
    station: Path | None
    first: int | None
    last: int | None
    program: Path

    def found(self, room: Path, command: str = "solve") -> tuple[list[Epoch], str]:
        """The epochs of a log that the program writes, and what its checker says of it."""
        log = room / "a.log"
        files = (self.obs, self.nav, self.settings, log)
        options = runs.chosen(self.first, self.last, self.station)
        runs.solved(command, files, options, self.program, None)
        said = runs.checked("check" if command == "solve" else "retrack", files, options, self.program)
        if not said:
            raise Error(f"{command}: {said}")
        return list(epochs(log)), f"yes {said.boxes}"

    def searched(self, splits: int, outliers: int) -> "Case":
        """The same with other numbers of splits and of outliers."""
        search = replace(self.settings.search, bisections=splits, outliers=outliers)
        return replace(self, settings=replace(self.settings, search=search))


def words(lengths: Iterable[float]) -> str:
    """Lengths in m."""
    return ", ".join(f"{length:.1f}" for length in lengths)


# ---- extents


def extents(case: Case, args: argparse.Namespace, room: Path) -> Iterator[str]:
    """A line for each number of splits and of outliers."""
    yield "| splits | q | east, north, up, m | held | reach the search box | `check` |\n|---|---|---|---|---|---|"
    for splits, outliers in itertools.product(args.splits, args.outliers):
        found, said = case.searched(splits, outliers).found(room)
        widths = [region_of(epoch).widths() for epoch in found if epoch.kept]
        held = sum(is_held(epoch, args.place) for epoch in found)
        means = words(map(fmean, zip(*widths)))
        cut = sum(map(reaches, found))
        yield f"| {splits} | {outliers} | {means} | {held} of {len(found)} | {cut} | {said} |"


def places(case: Case, args: argparse.Namespace, room: Path) -> Iterator[str]:
    """A line for a list of places."""
    listed, (found, said) = Meetings.of(args.places), case.found(room)
    at = [(epoch, listed.at(epoch.ps)) for epoch in found]
    held = sum(place is not None and is_held(epoch, place) for epoch, place in at)
    yield f"held in {held} of {len(found)} epochs, `check`: {said}"


# ---- a receiver that stands


def half_spaces(rows: list[Row], origin: Vector) -> Iterator[HalfSpace]:
    """Where a place is, from an origin, for which some clock offset is within all rows: two by two."""
    linear = [linear_row(row, origin) for row in rows]
    for (one, low, _), (other, _, high) in itertools.permutations(linear, 2):
        # low <= one . x + b and other . x + b <= high
        yield [b - a for a, b in zip(one[:3], other[:3])], high - low


def along_line(halves: list[HalfSpace], toward: float) -> list[float] | None:
    """The number that goes furthest one way among those in half-lines; None where they don't meet."""
    low, high = -FAR_M, FAR_M
    for (a,), b in halves:
        if a > TINY:
            high = min(high, b / a)
        elif a < -TINY:
            low = max(low, b / a)
        elif b < -TINY:
            return None
    return None if low > high + TINY else [high if toward > 0 else low]


def furthest(halves: list[HalfSpace], toward: list[float]) -> list[float] | None:
    """The point of half-spaces that goes furthest in a direction, by Seidel's method; None where they don't meet."""
    if len(toward) == 1:
        return along_line(halves, toward[0])
    point: list[float] = [FAR_M if part > 0 else -FAR_M for part in toward]
    for count, (a, b) in enumerate(halves):
        if sum(map(float.__mul__, a, point)) > b + TINY:
            found = on_plane(halves[:count], (a, b), toward)
            if found is None:
                return None
            point = found
    return point


def on_plane(halves: list[HalfSpace], plane: HalfSpace, toward: list[float]) -> list[float] | None:
    """The furthest point in the plane at the end of a half-space: there one coordinate is given by the others."""
    normal, end = plane
    axis = max(range(len(normal)), key=lambda k: abs(normal[k]))
    if abs(normal[axis]) < TINY:
        return None

    def without(a: list[float]) -> list[float]:
        share = a[axis] / normal[axis]
        return [x - share * y for k, (x, y) in enumerate(zip(a, normal)) if k != axis]

    within = [(without(a), b - a[axis] / normal[axis] * end) for a, b in halves]
    rest = furthest(within, without(toward))
    if rest is None:
        return None
    others = normal[:axis] + normal[axis + 1 :]
    value = (end - sum(map(float.__mul__, others, rest))) / normal[axis]
    return rest[:axis] + [value] + rest[axis:]


def allowed_together(found: list[Epoch], frame: Frame) -> list[float]:
    """The extents along a frame's axes of what all rows of some epochs allow at q = 0."""
    halves = [half for epoch in found for half in half_spaces(epoch.rows, frame.origin)]
    random.Random(1).shuffle(halves)
    ends = []
    for axis in frame.axes:
        most = [furthest(halves, [sign * part for part in axis]) for sign in (1.0, -1.0)]
        ends.append([dot(axis, point) for point in most if point is not None])
    if not all(len(pair) == 2 for pair in ends):
        raise Error("the rows of all epochs don't fit together")
    return [high - low for high, low in ends]


def standing(case: Case) -> Case:
    """The same for a receiver that stands, at q = 0."""
    return replace(case, settings=replace(case.settings, speed=0)).searched(case.settings.search.bisections, 0)


def stands(case: Case, args: argparse.Namespace, room: Path) -> Iterator[str]:
    """A line for some epochs of a track."""
    still = standing(case)
    found, said = still.found(room, "track")
    yield "| epochs | region | what the rows allow together | box handed on |\n|---|---|---|---|"
    for count in args.at:
        epoch = found[count - 1]
        region = region_of(epoch)
        frame = Frame(args.place, region.axes)
        sides = [side / UM_PER_M for side in hull_sides(epoch)]
        yield f"| {count} | {words(region.widths())} | {words(allowed_together(found[:count], frame))} | {words(sides)} |"
    held = sum(is_held(epoch, args.place) for epoch in found)
    yield f"held in {held} of {len(found)} epochs, `retrack`: {said}"


def hull_sides(epoch: Epoch) -> list[int]:
    """The sides in um of the least box round the kept boxes."""
    hull = hull_of(epoch.boxes)
    return [high - low for low, high in zip(hull.low, hull.high)]


# ---- a receiver that stands, from several search boxes


def cover_of(boxes: list[Box]) -> MmBox:
    """A box of whole mm round some boxes."""
    hull = hull_of(boxes)
    return [(low // UM_PER_MM, -(-high // UM_PER_MM)) for low, high in zip(hull.low, hull.high)]


def halved(box: MmBox) -> Iterator[MmBox]:
    """The eight parts of a box."""
    sides = [((low, (low + high) // 2), ((low + high) // 2, high)) for low, high in box]
    yield from map(list, itertools.product(*sides))


def tracked_in(case: Case, box: MmBox, room: Path) -> list[Box]:
    """The kept boxes behind the last epoch of a track from a search box of its own; none where it is lost."""
    x, y, z = ((low + high) // 2 for low, high in box)
    half = (box[0][1] - x, box[1][1] - y, box[2][1] - z)
    search = replace(case.settings.search, centre=(x, y, z), half=half)
    found, _ = replace(case, settings=replace(case.settings, search=search)).found(room, "track")
    return found[-1].boxes


def parts(case: Case, args: argparse.Namespace, room: Path) -> Iterator[str]:
    """A line for each halving."""
    still = standing(case)
    found, _ = still.found(room, "track")
    boxes = found[-1].boxes
    for _ in range(args.again):
        boxes = tracked_in(still, cover_of(boxes), room)
    left = [cover_of(boxes)]
    frame, origin = Frame.at(args.place), [round(axis * UM_PER_M) for axis in args.place]
    yield "| search boxes | of which are left | region | holds the place |\n|---|---|---|---|"
    for level in range(args.halvings + 1):
        if level:
            tried = [(part, tracked_in(still, part, room)) for box in left for part in halved(box)]
            left, boxes = [part for part, kept in tried if kept], [box for _, kept in tried for box in kept]
        centres, halves = offsets(boxes, origin), [half_sides(box) for box in boxes]
        widths = (high - low for low, high in (extent_along(axis, centres, halves) for axis in frame.axes))
        held = "yes" if any(box.contains(args.place) for box in boxes) else "no"
        yield f"| {8**level} | {len(left)} | {words(widths)} | {held} |"


# ---- the command line


def arguments() -> argparse.Namespace:
    """The words of the command line."""
    parser = argparse.ArgumentParser(description=__doc__, formatter_class=argparse.RawDescriptionHelpFormatter)
    ways = parser.add_subparsers(required=True)
    for do in (extents, stands, parts, places):
        way = ways.add_parser(do.__name__)
        for name in ("obs", "nav", "settings"):
            way.add_argument(name, metavar=name.upper(), type=Path)
        if do is places:
            way.add_argument("places", metavar="PLACES", type=Path)
        else:
            way.add_argument("place", metavar=("X", "Y", "Z"), nargs=3, type=measure)
        way.add_argument("--station", metavar="FILE", type=Path)
        way.add_argument("--from", dest="first", type=int)
        way.add_argument("--to", dest="last", type=int)
        way.add_argument("--program", type=Path, default=Path("./gpscover"))
        way.set_defaults(do=do)
    ways.choices["extents"].add_argument("--splits", type=int, nargs="+", default=[512, 64])
    ways.choices["extents"].add_argument("--outliers", type=int, nargs="+", default=[0, 1, 2, 3])
    ways.choices["stands"].add_argument("--at", type=int, nargs="+", default=[1, 10, 50, 100])
    ways.choices["parts"].add_argument("--again", type=int, default=0)
    ways.choices["parts"].add_argument("--halvings", type=int, default=2)
    return parser.parse_args()


def main() -> int:
    """Prints a table."""
    args = arguments()
    case = Case(
        args.obs, args.nav, Settings.read(args.settings), args.station, args.first, args.last, args.program.resolve()
    )
    with tempfile.TemporaryDirectory() as room:
        for line in args.do(case, args, Path(room)):
            print(line, flush=True)
    return 0


if __name__ == "__main__":
    run_tool(main)
