"""Reads a log of gpscover epoch by epoch and folds its steps into the boxes that they close.

    from gpscover import open_log

    for epoch in open_log("receiver.log"):
        print(epoch.index, epoch.time, epoch.satellites, len(epoch.kept), "boxes")
        for kept in epoch.kept:
            print(kept.box.low, kept.box.high, kept.inner, kept.clock.to_metres())

Lengths are whole micrometres (um), as in the log. Times are picoseconds (ps) since 1980-01-06
00:00:00 GPS time. A log is read one epoch after the other, and none is kept, so a long one needs
little memory. It is read as it stands: whether it is right is what `gpscover check` says.
"""

from __future__ import annotations

import os
import re
from collections.abc import Iterator
from typing import TYPE_CHECKING, TextIO

from gpscover.epoch import GPS_EPOCH, PS_PER_MS, PS_PER_US, UM_PER_M, Bound, Box, Epoch, Interval, Kept, Point
from gpscover.epoch import Renewal, Row, RowSum, Rules, Skip, SkipReason, Term, calendar, gps_time
from gpscover.errors import LogError

if TYPE_CHECKING:
    import pandas

# Who reads a log finds its values here too.
__all__ = ["GPS_EPOCH", "PS_PER_MS", "PS_PER_US", "UM_PER_M", "Bound", "Box", "Epoch", "Interval", "Kept", "Point"]
__all__ += ["Renewal", "Row", "RowSum", "Rules", "Skip", "SkipReason", "Term", "calendar", "gps_time"]

PathLike = str | os.PathLike[str]

# The first line of a log. By the last two, pairs of satellites may show a box empty too. Behind
# all but the first one rows may be renewed, and behind the last one epochs may have bounds.
HEADS = "gpscover 1", "gpscover 2", "gpscover 3", "gpscover 4"
LATEST_PS = 4 * 10**21  # times of a log lie before it
LONGEST = 24  # characters of a number of a log, few enough to be a floating-point number too
SATELLITE = re.compile("[GE][0-9]{2}")
AXES = {"0": 0, "1": 1, "2": 2}
END_OF_FACE = {"0": 0, "1": 3, "2": 1, "3": 4, "4": 2, "5": 5}  # which end of a box a face is
CLOSING = {"out": 1, "edge": 3, "in": 4}  # lines that close a box, and how many numbers each has
MOST_SUMS = 64  # of a bound


# ---- lines


def whole(word: str) -> int:
    """A whole number of a log."""
    if len(word) > LONGEST:
        raise ValueError
    return int(word)


def wholes(words: list[str], count: int) -> tuple[int, ...]:
    """So many whole numbers of a log."""
    if len(words) != count or max(map(len, words)) > LONGEST:
        raise ValueError
    return tuple(map(int, words))


def box_of(ends: tuple[int, ...] | list[int]) -> Box:
    """A box of its low and its high corner. None has a low end above the high one."""
    if ends[0] > ends[3] or ends[1] > ends[4] or ends[2] > ends[5]:
        raise ValueError
    return Box._make(ends)


def satellite_of(word: str) -> str:
    """The name of a satellite."""
    if not SATELLITE.fullmatch(word):
        raise ValueError
    return word


def row_of(words: list[str]) -> Row:
    """The row of a `sat` line. On one without a last pair the error is the same at every point."""
    ends = wholes(words[2:], len(words) - 2)
    pairs = list(map(Interval._make, zip(ends[::2], ends[1::2], strict=True)))
    if words[0] != "sat" or len(pairs) not in (5, 6):
        raise ValueError
    place = (pairs[0], pairs[1], pairs[2])
    return Row(satellite_of(words[1]), place, pairs[3], pairs[4], pairs[-1])


def skip_of(words: list[str]) -> Skip:
    """What a `skip` line says."""
    if len(words) > 4:
        raise ValueError
    reason = SkipReason(words[2])
    return Skip(satellite_of(words[1]), reason, words[3] if len(words) > 3 else "")


def sum_of(words: list[str]) -> RowSum:
    """The sum of a `by` line."""
    aim, *numbers = wholes(words[1:], 11)
    if words[0] != "by":
        raise ValueError
    return RowSum(aim, tuple(map(Term._make, zip(numbers[::2], numbers[1::2]))))


def next_words(lines: Iterator[str]) -> list[str]:
    """The words of the next line, which there has to be."""
    line = next(lines, None)
    if line is None:
        raise EOFError
    return line.split(" ")


# ---- epochs


class Fold:
    """The steps of an epoch as they come, with the live boxes and the rows that are in use."""

    def __init__(self, epoch: Epoch, root: Box) -> None:
        self.epoch, self.rows = epoch, epoch.rows
        self.live: dict[int, list[int]] = {0: list(root)}
        self.following = 1

    def close(self, words: list[str]) -> None:
        """Closes a box by an `in`, `edge` or `out` line."""
        numbers = wholes(words[1:], CLOSING[words[0]])
        box = self.live.pop(numbers[0])
        if words[0] == "out":
            self.epoch.outs += 1
        else:
            clock = Interval(numbers[-2], numbers[-1])
            self.epoch.kept.append(Kept(box_of(box), words[0] == "in", clock, self.rows))

    def halve(self, identity: int, axis: int) -> None:
        """Puts the two halves of a box into the live boxes, under the next two numbers."""
        low, following = self.live.pop(identity), self.following
        high = low.copy()
        middle = (low[axis] + low[axis + 3]) // 2
        low[axis + 3], high[axis] = middle, middle + 1
        self.live[following], self.live[following + 1] = low, high
        self.following = following + 2

    def renew(self, steps: int, words: list[str], lines: Iterator[str]) -> None:
        """Takes the box of a `renew` line and the rows behind it, one a usable satellite."""
        box = box_of(wholes(words[1:], 6))
        self.rows = [row_of(next_words(lines)) for _ in range(self.epoch.satellites)]
        self.epoch.renewals.append(Renewal(steps, box, self.rows))


def fold_steps(epoch: Epoch, root: Box, lines: Iterator[str], renews: bool) -> None:
    """Takes the lines behind `root` up to `done`. Rows may be renewed where `renews` says so.

    Most of a log are cuts, which give a box a new end at one of its faces. They are taken here and not by a call.
    """
    fold = Fold(epoch, root)
    live, close, halve = fold.live, fold.close, fold.halve
    for count, line in enumerate(lines):
        words = line.split(" ")
        kind = words[0]
        if kind == "cut":
            _, identity, face, bound = words
            if len(bound) > LONGEST:
                raise ValueError
            live[int(identity)][END_OF_FACE[face]] = int(bound)
        elif kind == "split":
            _, identity, axis = words
            halve(int(identity), AXES[axis])
        elif kind in CLOSING:
            close(words)
        elif kind == "renew" and renews:
            fold.renew(count - len(epoch.renewals), words, lines)
        elif kind == "done":
            (epoch.splits,) = wholes(words[1:], 1)
            return
        else:
            raise ValueError
    raise EOFError


def read_bounds(epoch: Epoch, lines: Iterator[str]) -> str | None:
    """Takes the bounds behind `done`. The line behind them, which is None at the end."""
    for line in lines:
        words = line.split(" ")
        if words[0] != "bound":
            return line
        x, y, z, most, count = wholes(words[1:], 5)
        if not 1 <= count <= MOST_SUMS:
            raise ValueError
        epoch.bounds.append(Bound((x, y, z), most, [sum_of(next_words(lines)) for _ in range(count)]))
    return None


def read_block(words: list[str], outliers: int, lines: Iterator[str], head: str) -> tuple[Epoch, str | None]:
    """The epoch that a first line begins, and the line behind it, which is None at the end."""
    index, ps, satellites = wholes(words[1:], 3)
    if not 0 <= ps < LATEST_PS:
        raise ValueError
    epoch = Epoch(index, ps, satellites, words[0] == "few", outliers)
    for line in lines:
        words = line.split(" ")
        if words[0] == "sat" and not epoch.few:
            epoch.rows.append(row_of(words))
        elif words[0] == "skip":
            epoch.skips.append(skip_of(words))
        elif words[0] == "root" and not epoch.few:
            epoch.root = box_of(wholes(words[1:], 6))
            fold_steps(epoch, epoch.root, lines, head != HEADS[0])
            return epoch, read_bounds(epoch, lines) if head == HEADS[3] else next(lines, None)
        elif epoch.few:
            return epoch, line
        else:
            raise ValueError
    if not epoch.few:
        raise EOFError
    return epoch, None


class Searches:
    """The search boxes of a log's epochs.

    Where they lie in the first one and differ from it, the log is one of `track`. That of a track which goes on from an
    earlier log is smaller than the search box of the settings, which has to be given then.
    """

    def __init__(self, search: Box | None = None) -> None:
        self.first = search
        self.moved = False

    def add(self, epoch: Epoch) -> None:
        """Tells an epoch with a search box what it is in the log."""
        root = epoch.root
        if root is None:
            return
        first = self.first = self.first or root
        within = all(a <= b for a, b in zip(first.low, root.low)) and all(a >= b for a, b in zip(first.high, root.high))
        epoch.search = first if within else root
        self.moved = self.moved or epoch.search != root
        epoch.moves = self.moved


def blocks(lines: Iterator[str], search: Box | None = None) -> Iterator[Epoch]:
    """The epochs of a log's lines, in a search box where one is given."""
    head = next(lines, None)
    if head not in HEADS:
        raise ValueError
    rules = next(lines, "").split(" ")
    if rules[0] != "rules":
        raise ValueError
    line, searches = next(lines, None), Searches(search)
    while line is not None:
        words = line.split(" ")
        if words[0] not in ("epoch", "few"):
            raise ValueError
        epoch, line = read_block(words, whole(rules[1]), lines, head)
        searches.add(epoch)
        yield epoch


class Numbered:
    """The lines of a file without LF, counted. A last line that lacks its LF ends the file."""

    def __init__(self, file: TextIO) -> None:
        self.file, self.count = file, 0

    def __iter__(self) -> Iterator[str]:
        for self.count, line in enumerate(self.file, 1):
            if line[-1] != "\n":
                raise EOFError
            yield line[:-1]


def open_text(path: PathLike) -> TextIO:
    """The text of a log."""
    return open(path, encoding="ascii", errors="replace", newline="\n")


def epochs(path: PathLike, search: Box | None = None) -> Iterator[Epoch]:
    """The epochs of the log at `path`, in order.

    `search` is the search box of the settings, where the log doesn't begin with it: that of a track which goes on from
    an earlier log. LogError where it isn't a log, or ends within an epoch.
    """
    with open_text(path) as file:
        lines = Numbered(file)
        try:
            yield from blocks(iter(lines), search)
        except EOFError:
            where = f"{path} ends within an epoch, at line {lines.count}"
            raise LogError(f"{where}: its run was ended early") from None
        except (ValueError, IndexError, KeyError, TypeError):
            raise LogError(f"{path} line {lines.count}: this isn't a log of gpscover") from None


def rules_of(path: PathLike) -> Rules:
    """The rules of the log at `path`. LogError where it isn't a log."""
    with open_text(path) as file:
        head, words = file.readline(), file.readline().split()
    is_head = head.endswith("\n") and head[:-1] in HEADS
    try:
        if not is_head or words[0] != "rules":
            raise ValueError
        return Rules._make(wholes(words[1:], 3))
    except (ValueError, IndexError):
        number = 2 if is_head else 1
        raise LogError(f"{path} line {number}: this isn't a log of gpscover") from None


def has_bounds(path: PathLike) -> bool:
    """Whether the log at `path` is of the version in which epochs may have bounds."""
    with open_text(path) as file:
        return file.readline(100) == f"{HEADS[3]}\n"


class Log:
    """A log at a path. Each time that it is iterated its epochs are read anew."""

    def __init__(self, path: PathLike) -> None:
        self.path = path
        self.rules = rules_of(path)

    def __iter__(self) -> Iterator[Epoch]:
        return epochs(self.path)

    def __repr__(self) -> str:
        return f"Log({os.fspath(self.path)!r})"

    def to_frame(self) -> pandas.DataFrame:
        """A row an epoch: the columns of `gpslog summary --csv`, as a pandas frame."""
        from gpscover import frames

        return frames.epochs_frame(self)

    def boxes_frame(self) -> pandas.DataFrame:
        """A row a kept box, as a pandas frame."""
        from gpscover import frames

        return frames.boxes_frame(self)

    def rows_frame(self) -> pandas.DataFrame:
        """A row a usable satellite of each epoch, as a pandas frame."""
        from gpscover import frames

        return frames.rows_frame(self)


def open_log(path: PathLike) -> Log:
    """The log at a path. LogError where its first two lines aren't those of a log."""
    return Log(path)
