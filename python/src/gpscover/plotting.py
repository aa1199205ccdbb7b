"""What all pictures have in common: matplotlib's parts, colours, titles, legends, and how a picture is written."""

from __future__ import annotations

from typing import Any, Protocol, TypeVar

from gpscover.command import absent
from gpscover.geodesy import Frame
from gpscover.log import PS_PER_MS, Box, Epoch, PathLike, calendar, epochs
from gpscover.outline import Flat, outline
from gpscover.places import Meetings


class Gatherer(Protocol):
    """What is drawn of the epochs that are added to it."""

    meetings: Meetings

    def add(self, epoch: Epoch) -> None:
        """Adds an epoch."""


T = TypeVar("T")
Gathered = TypeVar("Gathered", bound=Gatherer)

EDGE_COLOUR, INNER_COLOUR, PLACE_COLOUR, BAND_COLOUR = "#f4b183", "#548235", "#c00000", "#9dc3e6"
CUT_COLOUR, EMPTY_COLOUR, LIMIT_COLOUR, EDGE_LINE_COLOUR = "#b36bd4", "#d9d9d9", "#404040", "#1f5f99"
# By the salt the same picture is the same file.
STYLE: dict[str, Any] = {"svg.hashsalt": "gpscover", "axes.grid": True, "grid.alpha": 0.3}
STYLE |= {"legend.fontsize": 9, "legend.frameon": False}
MOST_OUTLINES = 60  # of a track, or beside a zone


def tools() -> tuple[Any, Any]:
    """matplotlib's parts, or an Error that says how to get them."""
    try:
        import matplotlib

        matplotlib.use("Agg")
        matplotlib.rcParams.update(STYLE)
        from matplotlib import collections, pyplot
    except ImportError:
        raise absent("matplotlib", "-m gpscover draw ") from None
    return pyplot, collections


def by_bounds(count: int) -> str:
    """What a title says of so many regions with the lengths of certified bounds."""
    return f"; by certified bounds in {count} regions" if count else ""


def with_note(title: str, note: str | None, before: str = "\n") -> str:
    """A title and the user's further line."""
    return title + (f"{before}{note}" if note else "")


def finish(figure: Any, legend: list[Any], out: str, place: str = "lower center", rect: Any = (0, 0.04, 1, 1)) -> None:
    """Gives a picture its legend below the panels, if any, lays these out within a part of it, and writes it."""
    if legend:
        figure.legend(handles=legend, loc=place, ncol=len(legend))
    figure.tight_layout(rect=rect)
    save(figure, out)


def save(figure: Any, out: str) -> None:
    """Writes the picture without the date, so that the same picture is the same file."""
    figure.savefig(out, dpi=110, metadata={"Date": None} if out.endswith(".svg") else {"Software": None})


def legend_of(axes: Any) -> list[Any]:
    """What the legend has of a panel."""
    handles: list[Any] = axes.get_legend_handles_labels()[0]
    return handles


def gathered(into: Gathered, path: PathLike) -> Gathered:
    """What is drawn of a log, with all of its epochs added."""
    for epoch in epochs(path):
        into.add(epoch)
    into.meetings.refuse_strangers()
    return into


def since(seconds: float) -> str:
    """The label of an axis of time that begins at a GPS time in seconds."""
    return f"s since {calendar(round(seconds * 1000) * PS_PER_MS)} GPS time"


def ring_above(frame: Frame, boxes: list[Box]) -> list[Flat]:
    """The outline of boxes as seen from above."""
    return outline(boxes, frame.origin, *frame.axes[:2])


def some_of(outlines: list[T]) -> list[T]:
    """At most MOST_OUTLINES of some outlines, equally spaced, the last one among them."""
    every = max(1, -(-len(outlines) // MOST_OUTLINES))
    return outlines[::-1][::every][::-1]
