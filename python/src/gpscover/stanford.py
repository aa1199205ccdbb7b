"""The diagram of errors against protection levels, by counts of cells, as Stanford's of satellite-based augmentation.

Its areas are those of one alert limit. An epoch is available while its protection is within the limit, and its error
within its protection. A region that the search box cuts protects nothing, so it is unavailable whatever its length.
"""

from __future__ import annotations

import bisect
import math
from collections import Counter
from collections.abc import Iterable, Sequence
from dataclasses import dataclass

from gpscover.integrity import Numbers

AVAILABLE, UNAVAILABLE, MISLEADING = "available", "unavailable", "misleading"
BOTH, HAZARDOUS = "unavailable and misleading", "hazardously misleading"
CELLS_TO_LIMIT, CELLS = 30, 48  # along an axis with a limit, which is the end of a cell then
MOST_CELLS = 50  # along an axis without one
STEPS = (1, 2, 5, 10)  # times a power of ten: the sides of cells then

Cell = tuple[int, int]  # along the error, and along the protection


@dataclass(frozen=True)
class Judged:
    """An epoch along one direction; lengths in m."""

    error: float  # how far the reported position is from the true one
    protection: float
    cut: bool  # by the search box
    held: bool  # whether the region holds the true position

    def area(self, limit: float | None) -> str:
        """Where it stands. Without a limit what isn't cut is available or misleading."""
        if self.cut:
            return UNAVAILABLE
        misleads = self.error > self.protection
        if limit is not None and self.protection > limit:
            return BOTH if misleads else UNAVAILABLE
        if misleads:
            return HAZARDOUS if limit is not None and self.error > limit else MISLEADING
        return AVAILABLE


def judged_of(numbers: Numbers, cut: bool) -> tuple[Judged, Judged]:
    """An epoch along the ground, and up or down: the region's middle is the position that is reported."""
    ground, up = (Judged(error, reach, cut, numbers.held) for error, reach in zip(numbers.error, numbers.reach))
    return ground, up


def step_for(length: float) -> float:
    """The least of 1, 2, 5, 10 .. times a power of ten that is no less than a length above 0."""
    power: float = 10.0 ** math.floor(math.log10(length))
    return next((step * power for step in STEPS if step * power >= length), 10 * power)


def ends_of(epochs: Iterable[Judged], limit: float | None) -> list[float]:
    """The ends of the cells along both axes, from 0 on. Beside a limit longer lengths are in the last cell."""
    if limit is not None:
        return [limit * (k / CELLS_TO_LIMIT) for k in range(CELLS + 1)]
    longest = max((length for epoch in epochs for length in (epoch.error, epoch.protection)), default=0.0) or 1.0
    step = step_for(longest / MOST_CELLS)
    return [step * k for k in range(math.ceil(longest / step) + 2)]  # one more, for what the search box cuts


@dataclass
class Diagram:
    """Epochs counted by cells and by areas."""

    ends: Sequence[float]
    cells: Counter[Cell]
    areas: Counter[str]
    lost: Counter[Cell]  # of the epochs whose region doesn't hold the true position
    cut: Counter[Cell]  # of those that the search box cuts, which are in the uppermost cells
    beyond: int  # how many have a length beyond the axes, and so are in the last cell

    def place(self, epoch: Judged) -> Cell:
        """The cell of an epoch. A length at the end of a cell belongs to it."""
        last = len(self.ends) - 2
        x, y = (min(last, max(0, bisect.bisect_left(self.ends, it) - 1)) for it in (epoch.error, epoch.protection))
        return x, last if epoch.cut else y

    def square(self, cell: Cell) -> list[tuple[float, float]]:
        """The corners of a cell."""
        (a, b), (c, d) = ((self.ends[k], self.ends[k + 1]) for k in cell)
        return [(a, c), (b, c), (b, d), (a, d)]


def diagram_of(epochs: Sequence[Judged], limit: float | None) -> Diagram:
    """The diagram of some epochs."""
    found = Diagram(ends_of(epochs, limit), Counter(), Counter(), Counter(), Counter(), 0)
    for epoch in epochs:
        cell = found.place(epoch)
        found.cells[cell] += 1
        found.areas[epoch.area(limit)] += 1
        found.lost[cell] += not epoch.held
        found.cut[cell] += epoch.cut
        found.beyond += max(epoch.error, 0.0 if epoch.cut else epoch.protection) > found.ends[-1]
    return found


def share(count: int, total: int) -> str:
    """A count and its percentage, with more digits where it is next to none or to all."""
    percent = 100 * count / total
    digits = 4 if 0 < percent < 0.1 or 99.9 < percent < 100 else 1
    return f"{count:,} ({percent:.{digits}f} %)"
