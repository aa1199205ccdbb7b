"""Tells what the regions of a log say of zones and directions, in whole numbers: which lie outside,
inside, or neither.

usage: gpslog answers ZONES LOG

ZONES is a file of zones in either form (`gpslog zones` writes one). For each epoch it prints `epoch
INDEX few`, or a line for each zone and direction: `epoch INDEX zone NAME outside|inside|open`,
`epoch INDEX reach NAME LO HI` or `.. none`. A zone is outside where each box that the epoch keeps
lies apart from it, and a prism where each lies beyond one of its sides; inside where there is a box
and each lies in it. A group is outside where it is so of each of its pieces, and inside where each
box lies in one of them. Behind the epochs of the second form stand `zone NAME outside A inside B open C
few D` and `reach NAME LO HI` over all of them. Where the log has bounds, a zone's answer is that of what
each of them leaves of each box.

These are the lines of `gpscover guard`. But the log is read as it stands here: whether it is right
`guard` asks first, and nothing that is printed here means more than that. Exit status: 0; 1 where a
file can't be read, or isn't of its form; 2 for a wrong command line.
"""

from __future__ import annotations

import argparse
import re
from collections import Counter
from collections.abc import Callable, Iterable, Iterator, Sequence
from dataclasses import dataclass

from gpscover.command import Command
from gpscover.errors import Error
from gpscover.log import Box, Epoch, PathLike, epochs
from gpscover.region import hull_of

Whole = tuple[int, int, int]
Side = tuple[Whole, int]  # (A, H)
Ends = tuple[int, int]
Kept = tuple[int, list[Box] | None, list[Side]]

HEADS = "gpszones 1", "gpszones 2"
ANSWERS = "outside", "inside", "open"
MOST_PIECES, MOST_SIDES = 64, 16
FARTHEST = 10**13
LONGEST = 2**20
GREATEST = 10**20
MOST_BYTES = 65_536


class ZonesError(Error):
    """A text that isn't one of zones: its first line that doesn't fit, or its size."""


@dataclass
class Corners:
    """A zone between two corners in um."""

    name: str
    low: Whole
    high: Whole

    def faces(self) -> list[Side]:
        """The planes behind which it lies."""
        x, y, z = self.high
        u, v, w = self.low
        return [((1, 0, 0), x), ((-1, 0, 0), -u), ((0, 1, 0), y), ((0, -1, 0), -v), ((0, 0, 1), z), ((0, 0, -1), -w)]

    def is_apart(self, box: Sequence[int], bounds: Sequence[Side]) -> bool:
        """Whether the bounds leave no grid point that a box shares with it."""
        low = [max(a, b) for a, b in zip(box[:3], self.low)]
        high = [min(a, b) for a, b in zip(box[3:6], self.high)]
        return any(a > b for a, b in zip(low, high)) or any(is_past(bound, [*low, *high]) for bound in bounds)

    def is_outside(self, boxes: Sequence[Box], bounds: Sequence[Side]) -> bool:
        return all(self.is_apart(box, bounds) for box in boxes)

    def is_inside(self, boxes: Sequence[Box], bounds: Sequence[Side]) -> bool:
        return are_behind(self.faces(), boxes, bounds)

    def answer(self, boxes: Sequence[Box], bounds: Sequence[Side] = ()) -> str:
        """What boxes (low corner and high corner) say of it, as far as they lie within bounds."""
        return answer_of(self.is_outside, self.is_inside, boxes, bounds)


@dataclass
class Prism:
    """A zone behind planes: the points p with A p <= H, in um, for each of its sides (A, H)."""

    name: str
    sides: list[Side]

    def is_outside(self, boxes: Sequence[Box], bounds: Sequence[Side]) -> bool:
        return all(any(is_beyond(side, box, bounds) for side in self.sides) for box in boxes)

    def is_inside(self, boxes: Sequence[Box], bounds: Sequence[Side]) -> bool:
        return are_behind(self.sides, boxes, bounds)

    def answer(self, boxes: Sequence[Box], bounds: Sequence[Side] = ()) -> str:
        """What boxes say of it, as far as they lie within bounds."""
        return answer_of(self.is_outside, self.is_inside, boxes, bounds)


@dataclass
class Group:
    """A zone of several pieces: the points of each of these prisms, which are lists of sides (A, H)."""

    name: str
    pieces: list[list[Side]]

    def prisms(self) -> list[Prism]:
        """Each piece as a zone."""
        return [Prism(self.name, sides) for sides in self.pieces]

    def is_outside(self, boxes: Sequence[Box], bounds: Sequence[Side]) -> bool:
        return all(is_so_of(piece.is_outside, boxes, bounds) for piece in self.prisms())

    def is_inside(self, boxes: Sequence[Box], bounds: Sequence[Side]) -> bool:
        return all(any(piece.is_inside([box], bounds) for piece in self.prisms()) for box in boxes)

    def answer(self, boxes: Sequence[Box], bounds: Sequence[Side] = ()) -> str:
        """What boxes say of it, as far as they lie within bounds: box by box, inside by any of the pieces."""
        return answer_of(self.is_outside, self.is_inside, boxes, bounds)


@dataclass
class Reach:
    """A direction, as a vector of whole numbers."""

    name: str
    along: Whole

    def ends(self, boxes: Sequence[Box]) -> Ends | None:
        """The least and the greatest product of it and a corner, or none."""
        spans = [span(self.along, box) for box in boxes]
        return (min(low for low, _ in spans), max(high for _, high in spans)) if spans else None


Zone = Corners | Prism | Group
Thing = Zone | Reach
Test = Callable[[Sequence[Box], Sequence[Side]], bool]


def span(a: Whole, box: Sequence[int]) -> Ends:
    """The least and the greatest product of a vector and a corner of a box."""
    pairs = [(a[k] * box[k], a[k] * box[k + 3]) for k in range(3)]
    return sum(min(pair) for pair in pairs), sum(max(pair) for pair in pairs)


# ---- what bounds leave of a box


def sides_of(epoch: Epoch) -> list[Side]:
    """The bounds of an epoch, as planes."""
    return [(bound.direction, bound.most) for bound in epoch.bounds]


def is_past(side: Side, box: Sequence[int]) -> bool:
    """Whether the whole box lies beyond a plane."""
    a, most = side
    return span(a, box)[0] > most


def opposite(side: Side) -> Side:
    """The plane behind which those grid points lie that lie beyond another."""
    (x, y, z), most = side
    return (-x, -y, -z), -most - 1


def sum_by(side: Side, bound: Side, axis: int) -> Side:
    """The sum of a side and a bound, each times the amount of what the other has on an axis.

    Where these differ in sign the sum has nothing there.
    """
    (a, most), (b, end) = side, bound
    n, k = abs(b[axis]), abs(a[axis])
    x, y, z = (n * u + k * v for u, v in zip(a, b))
    return (x, y, z), n * most + k * end


def is_beyond(side: Side, box: Sequence[int], bounds: Sequence[Side]) -> bool:
    """Whether the whole box lies beyond a plane, or one of the bounds leaves no point of it behind that.

    The least A p over the points p of a box with D p <= M is the least A p + t (D p - M) over the whole box, for that
    t >= 0 for which this is greatest. As it is a sum of lines in t with one bend for each axis, that t is 0 or one at
    which A + t D has nothing along an axis, or else there is no such point, and the whole box lies beyond the bound.
    """
    return is_past(side, box) or any(
        is_past(bound, box) or any(is_past(sum_by(side, bound, axis), box) for axis in range(3)) for bound in bounds
    )


def are_behind(sides: Sequence[Side], boxes: Sequence[Box], bounds: Sequence[Side]) -> bool:
    """Whether each box lies behind each of these planes, as far as it lies within bounds."""
    return all(is_beyond(opposite(side), box, bounds) for box in boxes for side in sides)


def is_so_of(test: Test, boxes: Sequence[Box], bounds: Sequence[Side]) -> bool:
    """Whether boxes pass a test, as far as they lie within bounds: the box round all is asked first, which mostly tells."""
    around = [hull_of(boxes)] if len(boxes) > 1 else boxes
    return test(around, bounds) or test(boxes, bounds)


def answer_of(is_outside: Test, is_inside: Test, boxes: Sequence[Box], bounds: Sequence[Side]) -> str:
    """What boxes say of a zone, as far as they lie within bounds."""
    if is_so_of(is_outside, boxes, bounds):
        return "outside"
    return "inside" if is_so_of(is_inside, boxes, bounds) else "open"


# ---- the file


def numbers(words: list[str], *bounds: int) -> tuple[int, ...]:
    """Whole numbers in their one spelling, each within its bound."""
    if len(words) != len(bounds) or not all(
        re.fullmatch("0|-?[1-9][0-9]*", w) and abs(int(w)) <= b for w, b in zip(words, bounds)
    ):
        raise ValueError
    return tuple(map(int, words))


def direction(words: list[str]) -> Whole:
    """A vector that isn't zero."""
    x, y, z = numbers(words, *[LONGEST] * 3)
    if (x, y, z) == (0, 0, 0):
        raise ValueError
    return x, y, z


def counts(words: list[str], *most: int) -> tuple[int, ...]:
    """Whole numbers from 1 to their bounds."""
    found = numbers(words, *most)
    if min(found) < 1:
        raise ValueError
    return found


def thing_of(words: list[str], second: bool) -> tuple[Thing, list[list[Side]]]:
    """The zone or direction of a line, and where the sides that are owed behind it go, one by one."""
    kind, name, *rest = words
    if not re.fullmatch("[a-z0-9-]{1,16}", name):
        raise ValueError
    if kind == "zone":
        ends = numbers(rest, *[FARTHEST] * 6)
        a, b, c, d, e, f = ends
        if a > d or b > e or c > f:
            raise ValueError
        return Corners(name, (a, b, c), (d, e, f)), []
    if second and kind == "reach":
        return Reach(name, direction(rest)), []
    if second and kind == "prism":
        (count,) = counts(rest, MOST_SIDES)
        sides: list[Side] = []
        return Prism(name, sides), [sides] * count
    if second and kind == "group":
        count, each = counts(rest, MOST_PIECES, MOST_SIDES)
        pieces: list[list[Side]] = [[] for _ in range(count)]
        return Group(name, pieces), [piece for piece in pieces for _ in range(each)]
    raise ValueError


def zone_file(path: PathLike) -> list[str]:
    """The lines of a file of zones; the last one is what stands behind the last LF."""
    with open(path, encoding="latin-1", newline="") as file:
        return file.read().split("\n")


class Reader:
    """The zones and directions of a file's lines, and where the sides go that are owed to the last one."""

    def __init__(self, second: bool) -> None:
        self.second = second
        self.owed: list[list[Side]] = []
        self.things: list[Thing] = []
        self.names: set[str] = set()

    def take(self, words: list[str]) -> None:
        """Takes a line. ValueError where it doesn't fit."""
        if self.owed:
            self.take_side(words)
            return
        if len(words) < 3 or words[1] in self.names:
            raise ValueError
        thing, self.owed = thing_of(words, self.second)
        self.names.add(thing.name)
        self.things.append(thing)

    def take_side(self, words: list[str]) -> None:
        """Takes a side of the last prism or group."""
        if words[0] != "side" or len(words) != 5:
            raise ValueError
        (most,) = numbers(words[4:], GREATEST)
        self.owed.pop(0).append((direction(words[1:4]), most))


def read_zones(path: PathLike) -> tuple[bool, list[Thing]]:
    """Whether a file is of the second form, and its zones and directions.

    ZonesError where a line doesn't fit, or where it has more bytes than `guard` reads.
    """
    lines, number = zone_file(path), 1
    size = sum(len(line) + 1 for line in lines) - 1
    if size > MOST_BYTES:
        raise ZonesError(f"{path}: it has {size} bytes, and a file of zones has at most {MOST_BYTES}")
    try:
        if len(lines) < 2 or lines[0] not in HEADS:
            raise ValueError
        reader = Reader(lines[0] == HEADS[1])
        for number, line in enumerate(lines[1:-1], 2):
            reader.take(line.split(" "))
        number = len(lines)
        if lines[-1] or reader.owed:
            raise ValueError
    except ValueError:
        raise ZonesError(f"{path}: line {number} doesn't fit") from None
    return reader.second, reader.things


def chosen_zones(paths: Sequence[PathLike], names: Sequence[str]) -> list[Zone]:
    """The zones of some files, or those with these names. Error where a name has none, or there is none at all."""
    things = [thing for path in paths for thing in read_zones(path)[1]]
    found = [thing for thing in things if not isinstance(thing, Reach)]
    unknown = set(names) - {zone.name for zone in found}
    if unknown or not found:
        raise Error(f"no zone {' '.join(sorted(unknown))} in {' '.join(map(str, paths))}")
    return [zone for zone in found if not names or zone.name in names]


def zone_arguments(parser: argparse.ArgumentParser, required: bool) -> None:
    """The words of files of zones and of some names in them."""
    parser.add_argument("--zones", metavar="ZONES", nargs="+", required=required, default=[], help="files of zones")
    parser.add_argument("--zone", metavar="NAME", action="append", default=[], help="a zone that is drawn (all)")


# ---- what is told


def told(ends: Ends | None) -> str:
    """The ends of a reach."""
    return "none" if ends is None else f"{ends[0]} {ends[1]}"


def wider(a: Ends | None, b: Ends | None) -> Ends | None:
    """The reach of both."""
    return b if a is None else a if b is None else (min(a[0], b[0]), max(a[1], b[1]))


class Answers:
    """What the epochs of a log say of zones and directions, and of all of them together."""

    def __init__(self, things: list[Thing]) -> None:
        self.things, self.few = things, 0
        self.counts: dict[str, Counter[str]] = {thing.name: Counter() for thing in things}
        self.reaches: dict[str, Ends | None] = {}

    def of_epoch(self, boxes: Sequence[Box], bounds: Sequence[Side]) -> Iterator[str]:
        """What an epoch's boxes and bounds say, a line each."""
        for thing in self.things:
            if isinstance(thing, Reach):
                ends = thing.ends(boxes)
                self.reaches[thing.name] = wider(self.reaches.get(thing.name), ends)
                yield f"reach {thing.name} {told(ends)}"
            else:
                answer = thing.answer(boxes, bounds)
                self.counts[thing.name][answer] += 1
                yield f"zone {thing.name} {answer}"

    def of_all(self) -> Iterator[str]:
        """What all epochs say together."""
        for thing in self.things:
            if isinstance(thing, Reach):
                yield f"reach {thing.name} {told(self.reaches.get(thing.name))}"
            else:
                count = self.counts[thing.name]
                counts = " ".join(f"{answer} {count[answer]}" for answer in ANSWERS)
                yield f"zone {thing.name} {counts} few {self.few}"


def kept(log: Iterable[Epoch]) -> Iterator[Kept]:
    """The number of each epoch, its boxes, and its bounds as sides."""
    for epoch in log:
        yield epoch.index, None if epoch.few else epoch.boxes, sides_of(epoch)


def lines(second: bool, things: list[Thing], log: Iterable[Kept]) -> Iterator[str]:
    """The lines of a log's epochs (index, boxes, bounds), and behind them those of all.

    The boxes are None in an epoch of few satellites.
    """
    answers = Answers(things)
    for index, boxes, bounds in log:
        if boxes is None:
            answers.few += 1
            yield f"epoch {index} few"
        else:
            yield from (f"epoch {index} {said}" for said in answers.of_epoch(boxes, bounds))
    if second:
        yield from answers.of_all()


def arguments(parser: argparse.ArgumentParser) -> None:
    """The words of the command line."""
    parser.add_argument("zones", metavar="ZONES")
    parser.add_argument("log", metavar="LOG")


def run(args: argparse.Namespace) -> int:
    """Prints the answers. The status."""
    second, things = read_zones(args.zones)
    for line in lines(second, things, kept(epochs(args.log))):
        print(line)
    return 0


COMMAND = Command("answers", "what the regions of a log say of zones", arguments, run, __doc__)
