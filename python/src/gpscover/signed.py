"""What is signed with a bundle of evidence, in words: what is declared, and what the log says of each epoch by that.

The words are made of the settings and the log alone. Lengths are in metres, exact where they are declared, and rounded
up where they are of regions.
"""

from __future__ import annotations

import math
from collections.abc import Iterator

from gpscover.geodesy import geodetic
from gpscover.log import UM_PER_M, Box, Epoch, PathLike, calendar, epochs
from gpscover.region import hull_of, region_or_none, upward
from gpscover.settings import Pair, Settings, keys_of

Line = tuple[str, str]  # name, and what is said


def metres(mm: int) -> str:
    """A length in mm as metres."""
    return f"{mm / 1000:.3f}"


def span(bound: Pair) -> str:
    """A bound in mm as metres."""
    return f"{metres(bound[0])} to {metres(bound[1])}"


class Seen:
    """What a log has of what is declared: its search box, and which satellites it uses."""

    def __init__(self, log: PathLike, search: Box | None = None) -> None:
        self.search = search
        self.satellites: set[str] = set()
        for epoch in epochs(log):
            self.search = self.search or epoch.search
            self.satellites |= {row.satellite for row in epoch.rows}

    def box_words(self) -> str:
        """The search box."""
        if self.search is None:
            return "of the settings"
        return box_words(self.search)


def box_words(box: Box) -> str:
    """A box in um as metres."""
    ends = zip("xyz", box.low, box.high)
    return ", ".join(f"{axis} {low / UM_PER_M:.6f} to {high / UM_PER_M:.6f}" for axis, low, high in ends) + " m"


def left_by(after: PathLike) -> Line:
    """Where a track begins that goes on from an earlier log: what that one's last paved epoch leaves."""
    last: Epoch | None = None
    for epoch in epochs(after):
        last = last if epoch.few else epoch
    if last is None or not last.kept:
        return "began", "anywhere in the search box, since earlier.log leaves no box by its last paved epoch"
    return "began", (
        f"at {calendar(last.ps)} GPS time in the earth-fixed box {box_words(hull_of(last.boxes))}, which earlier.log leaves,"
        " and came from there at the declared speed; whether it was there is told by what is signed of earlier.log"
    )


def bound_words(settings: Settings) -> str:
    """The bounds of every satellite."""
    named = keys_of(settings.bounds)
    if settings.galileo is not None:
        named["galileo offset"] = settings.galileo.offset
    return "; ".join(f"{name} {span(bound)}" for name, bound in named.items()) + " m"


def declared(settings: Settings, seen: Seen, track: bool) -> Iterator[Line]:
    """What is declared, by the settings and the log."""
    yield "q", f"at most {settings.search.outliers} of an epoch's satellites broke their bounds"
    yield "bounds", f"of the errors {'less the station ones ' if settings.station else ''}of each: {bound_words(settings)}"
    if own := [f"{name} {span(it)}" for name, it in settings.satellites.items() if name in seen.satellites]:
        yield "satellites", f"of the log have these added: {'; '.join(own)} m"
    yield "search", f"the receiver was in the earth-fixed box {seen.box_words()}"
    if track and settings.speed is not None:
        pieces = ", in each piece of the track by itself, which ends where no position fits" if settings.restart else ""
        yield "speed", f"at most {metres(settings.speed)} m/s on the straight way from each epoch to the next{pieces}"
    if settings.station is not None:
        place = settings.station.place
        told = "the position in the header of station.obs" if isinstance(place, str) else " ".join(map(metres, place))
        yield "stood", f"the station's antenna at {told}{'' if isinstance(place, str) else ' m'}"


def epoch_words(epoch: Epoch) -> str:
    """Where the receiver was in an epoch, if what is declared was so."""
    head = f"{calendar(epoch.ps)} GPS time:"
    region = region_or_none(epoch)
    if epoch.few:
        return f"{head} nothing is said, as too few satellites are usable"
    if region is None:
        return f"{head} what is declared was not so, as no position fits"
    latitude, longitude, height = geodetic(region.middle())
    east, north, up = (f"{upward(width):.1f}" for width in region.widths())
    cut = ", as far as the search box reaches" if region.faces else ""
    return (
        f"{head} in a region of {east} m east, {north} m north and {up} m up, whose middle is at"
        f" {math.degrees(latitude):.7f} {math.degrees(longitude):.7f} degrees and {height:.1f} m{cut}"
    )


def epoch_lines(log: PathLike, search: Box | None = None) -> Iterator[Line]:
    """A line for each epoch of a log. `search` is as `log.epochs` has it."""
    for epoch in epochs(log, search):
        yield f"epoch-{epoch.index}", epoch_words(epoch)


CLAIM = "where all that is declared below was so, the receiver was where the epochs' lines say, in a box that receiver.log keeps"
LIMITS = (
    "nothing is said of a position outside the search box, of epochs that are few or left out, of the time between two"
    " epochs, nor of a probability; and whether what is declared was so, no checker can tell"
)


def claim_lines(
    settings: Settings, log: PathLike, track: bool, after: PathLike | None = None, search: Box | None = None
) -> list[Line]:
    """What is signed. A track that goes on from an earlier log is given that one, and the search box of the settings."""
    more = [] if after is None else [left_by(after)]
    return [("claim", CLAIM), *declared(settings, Seen(log, search), track), *more, ("limits", LIMITS)]
