"""Pictures of what regions say of zones and of known places, and of the bounds that were used there."""

from __future__ import annotations

import math
from collections.abc import Sequence
from typing import Any

from gpscover.errors import Error
from gpscover.geodesy import Frame
from gpscover.integrity import Judge
from gpscover.log import Epoch, PathLike
from gpscover.observed import Found, share
from gpscover.outline import Flat, convex_hull
from gpscover.places import Meetings
from gpscover.plotting import BAND_COLOUR, CUT_COLOUR, EDGE_COLOUR, EDGE_LINE_COLOUR, INNER_COLOUR, LIMIT_COLOUR
from gpscover.plotting import PLACE_COLOUR
from gpscover.plotting import by_bounds, finish, legend_of, ring_above, some_of, tools, with_note
from gpscover.region import region_of
from gpscover.shapes import points_of
from gpscover.stanford import AVAILABLE, BOTH, HAZARDOUS, MISLEADING, UNAVAILABLE, Diagram
from gpscover.stanford import share as counted
from gpscover.zones import Zone, chosen_zones, sides_of

MOST_PANELS, PANELS_ABREAST = 6, 3  # of zones
ANSWER_COLOURS = {"outside": BAND_COLOUR, "inside": INNER_COLOUR, "open": EDGE_COLOUR}


class Fenced:
    """The regions of a log from above, and what each says of some zones."""

    def __init__(self, fences: list[Zone], meetings: Meetings) -> None:
        self.fences, self.meetings = fences, meetings
        self.frame: Frame | None = None  # at the middle of the first region
        self.rings: list[list[Flat] | None] = []  # of each paved epoch
        self.answers: list[list[str]] = []  # of each paved epoch
        self.known: list[Flat] = []
        self.few = 0

    def add(self, epoch: Epoch) -> None:
        """Adds an epoch: one of few satellites says nothing, and an empty one has no outline."""
        place = self.meetings.at(epoch.ps)
        if epoch.few:
            self.few += 1
            return
        boxes = epoch.boxes
        if boxes and self.frame is None:
            self.frame = Frame.at(region_of(epoch).middle())
        bounds = sides_of(epoch)
        self.answers.append([fence.answer(boxes, bounds) for fence in self.fences])
        self.rings.append(ring_above(self.frame, boxes) if boxes and self.frame else None)
        if place is not None and self.frame is not None:
            self.known.append(self.frame.offset(place)[:2])

    def rings_of(self, fence: Zone) -> list[list[Flat]]:
        """The outlines of a zone, one for each piece of a group; none before the first region."""
        frame = self.frame
        if frame is None:
            return []
        return [convex_hull([frame.offset(point)[:2] for point in points]) for points in points_of(fence) if points]

    def title(self, number: int) -> str:
        """How many epochs say what of a zone."""
        said = [answers[number] for answers in self.answers]
        counts = ", ".join(f"{answer} {said.count(answer)}" for answer in ANSWER_COLOURS)
        return f"{self.fences[number].name}: {counts}, few {self.few}"


def draw_fence(axes: Any, fenced: Fenced, number: int) -> None:
    """Draws a zone and the regions in the colours of what they say of it."""
    said = [(ring, answers[number]) for ring, answers in zip(fenced.rings, fenced.answers) if ring is not None]
    for ring, answer in some_of(said):
        style = {"facecolor": ANSWER_COLOURS[answer], "edgecolor": LIMIT_COLOUR, "linewidth": 0.4, "alpha": 0.6}
        axes.fill(*zip(*ring), **style)
    for zone in fenced.rings_of(fenced.fences[number]):
        axes.fill(*zip(*zone), facecolor="none", edgecolor=PLACE_COLOUR, linewidth=1.4, linestyle="--")
    if fenced.known:
        axes.plot(*zip(*fenced.known), color=EDGE_LINE_COLOUR, linewidth=1)
    axes.set_aspect("equal", adjustable="datalim")
    axes.set_title(fenced.title(number), fontsize=9)


def fences_legend(fenced: Fenced) -> list[Any]:
    """What the colours and lines beside zones mean."""
    from matplotlib import lines, patches

    colours = ANSWER_COLOURS.items()
    legend: list[Any] = [
        patches.Patch(color=colour, alpha=0.6, label=f"region: {answer}") for answer, colour in colours
    ]
    legend.append(lines.Line2D([], [], color=PLACE_COLOUR, linestyle="--", label="the zone"))
    if fenced.known:
        legend.append(lines.Line2D([], [], color=EDGE_LINE_COLOUR, label="known places"))
    return legend


def draw_fences(fenced: Fenced, out: str, note: str | None) -> None:
    """Draws a panel for each zone."""
    count = len(fenced.fences)
    abreast = min(count, PANELS_ABREAST)
    rows = -(-count // abreast)
    size = (1 + 4.2 * abreast, 0.8 + 5 * rows)
    figure, panels = tools()[0].subplots(rows, abreast, figsize=size, squeeze=False)
    for number, axes in enumerate(panels.flat):
        if number < count:
            draw_fence(axes, fenced, number)
        else:
            axes.set_axis_off()
    figure.supxlabel("east of the first region's middle, m", fontsize=9, y=0.05)
    figure.supylabel("north, m", fontsize=9)
    figure.suptitle(with_note(f"{len(fenced.answers) + fenced.few} epochs", note, "; "), fontsize=11)
    finish(figure, fences_legend(fenced), out, rect=(0.01, 0.06, 1, 1))


def fences_of(paths: Sequence[PathLike], names: Sequence[str]) -> list[Zone]:
    """The zones that have a panel each."""
    found = chosen_zones(paths, names)
    if len(found) > MOST_PANELS:
        raise Error(f"{len(found)} zones: name at most {MOST_PANELS} of them with --zone")
    return found


MANY_CELLS = 200  # in an SVG more than these are drawn as dots
BAR = 0.035  # how wide the bar of colours beside two panels is, of one of them


def panel_areas(limit: float | None, end: float) -> dict[str, tuple[list[Flat], tuple[str, float], Flat]]:
    """Of each area of a panel its corners, its colour and how dense this is, and where its name ends on the right."""
    a, e = limit, end
    if a is None:
        return {
            AVAILABLE: ([(0, 0), (e, e), (0, e)], (INNER_COLOUR, 0.08), (0.78 * e, 0.88 * e)),
            UNAVAILABLE: ([(0, 0.98 * e), (e, 0.98 * e), (e, e), (0, e)], (LIMIT_COLOUR, 0.08), (0.9 * e, 0.98 * e)),
            MISLEADING: ([(0, 0), (e, 0), (e, e)], (PLACE_COLOUR, 0.10), (0.98 * e, 0.12 * e)),
        }
    return {
        AVAILABLE: ([(0, 0), (a, a), (0, a)], (INNER_COLOUR, 0.08), (0.84 * a, 0.97 * a)),
        UNAVAILABLE: ([(0, a), (a, a), (e, e), (0, e)], (LIMIT_COLOUR, 0.08), (0.88 * e, 0.97 * e)),
        MISLEADING: ([(0, 0), (a, 0), (a, a)], (PLACE_COLOUR, 0.10), (0.97 * a, 0.15 * a)),
        BOTH: ([(a, a), (e, a), (e, e)], (CUT_COLOUR, 0.15), (0.985 * e, a + 0.36 * (e - a))),
        HAZARDOUS: ([(a, 0), (e, 0), (e, a), (a, a)], (PLACE_COLOUR, 0.30), (0.985 * e, 0.56 * a)),
    }


def draw_areas(axes: Any, diagram: Diagram, limit: float | None) -> None:
    """Draws the areas of a panel with their names, and how many epochs are in each."""
    from matplotlib import patheffects

    total = sum(diagram.cells.values())
    halo = [patheffects.withStroke(linewidth=2.5, foreground="white")]
    text = {"ha": "right", "va": "top", "fontsize": 8, "color": "black", "path_effects": halo, "zorder": 5}
    for name, (ring, (colour, alpha), place) in panel_areas(limit, diagram.ends[-1]).items():
        axes.fill(*zip(*ring), color=colour, alpha=alpha, linewidth=0)
        lines = name.replace(" misleading", "\nmisleading")
        axes.text(*place, f"{lines}\n{counted(diagram.areas[name], total)}", **text)
    if limit is not None:
        style = {"color": LIMIT_COLOUR, "linewidth": 1, "linestyle": "--"}
        axes.axhline(limit, **style)
        axes.axvline(limit, **style)


def draw_cells(axes: Any, diagram: Diagram, norm: Any) -> Any:
    """Draws the cells in the colours of their counts, and round those with epochs of a kind a line. The cells."""
    _, collections = tools()
    cells = sorted(diagram.cells)
    style = {"norm": norm, "zorder": 3, "rasterized": len(cells) > MANY_CELLS}
    squares = collections.PolyCollection([diagram.square(cell) for cell in cells], **style)
    squares.set_array([diagram.cells[cell] for cell in cells])
    axes.add_collection(squares)
    kinds = (diagram.cut, CUT_COLOUR, "the search box cuts the region"), (
        diagram.lost,
        PLACE_COLOUR,
        "the place isn't in it",
    )
    for counts, colour, name in kinds:
        if sum(counts.values()):
            ringed = [diagram.square(cell) for cell in sorted(counts) if counts[cell]]
            label = f"{sum(counts.values()):,}: {name}"
            style = {"facecolors": "none", "edgecolors": colour, "linewidths": 1.2, "zorder": 4}
            axes.add_collection(collections.PolyCollection(ringed, label=label, **style))
    return squares


def draw_integrity(judge: Judge, diagrams: list[Diagram], out: str, note: str | None) -> None:
    """Draws the errors and the protections along the ground and up."""
    from matplotlib import colors, ticker

    figure, (*panels, beside) = tools()[0].subplots(1, 3, figsize=(11.4, 6.4), width_ratios=(1, 1, BAR))
    limits = (None, None) if judge.limits is None else (judge.limits.horizontal, judge.limits.vertical)
    most = max(max(diagram.cells.values()) for diagram in diagrams)
    norm = colors.LogNorm(1, max(most, 10))
    for axes, diagram, limit, name in zip(panels, diagrams, limits, ("along the ground", "up or down")):
        draw_areas(axes, diagram, limit)
        squares = draw_cells(axes, diagram, norm)
        end = diagram.ends[-1]
        axes.set(xlim=(0, end), ylim=(0, end), aspect="equal", axisbelow=True)
        axes.set(xlabel=f"error of the region's middle {name}, m", ylabel=f"protection {name}, m")
    beside.set_box_aspect(1 / BAR)
    beside.grid(False)
    ticks = ticker.LogLocator(subs=(1, 2, 5))
    figure.colorbar(squares, cax=beside, label="epochs in a cell", ticks=ticks, format="{x:,.0f}").minorticks_off()
    last = f"of declared bounds, not of a probability{by_bounds(judge.certified)}"
    title = "\n".join([judge.held_line(), *judge.limit_lines(), last])
    if sum(diagram.beyond for diagram in diagrams):
        title += "; what is longer than an axis is in its last cell"
    figure.suptitle(with_note(title, note), fontsize=10)
    finish(figure, legend_of(panels[0]), out, rect=(0, 0.07, 1, 1))


def draw_observed(found: list[Found], out: str, note: str | None) -> None:
    """Draws the parts of the bounds by elevation and as a histogram."""
    rows = [row for epoch in found for row in epoch.rows]
    parts = [float(row.part) for row in rows]
    figure, (by_angle, counts) = tools()[0].subplots(
        1, 2, figsize=(10, 6), sharey=True, gridspec_kw={"width_ratios": (3, 1)}
    )
    for axes in (by_angle, counts):
        axes.axhspan(-1, 1, color=BAND_COLOUR, alpha=0.35, linewidth=0, label="the declared bounds")
    for passed, colour, label in ((False, EDGE_LINE_COLOUR, "may keep its bound"), (True, PLACE_COLOUR, "passed it")):
        shown = [(math.degrees(row.angle), part) for row, part in zip(rows, parts) if row.passed == passed]
        if shown:
            by_angle.scatter(*zip(*shown), s=8, color=colour, linewidths=0, label=f"{len(shown)}: {label}", zorder=3)
    by_angle.set(xlabel="elevation, degrees", ylabel="part of the bound that was used", xlim=(0, 90))
    counts.hist(parts, bins=40, orientation="horizontal", color=EDGE_LINE_COLOUR)
    counts.set(xlabel="rows")
    title = f"{len(found)} epochs; with {share(max(it.part for it in found))} of all bounds no more would be passed"
    figure.suptitle(with_note(title, note), fontsize=10)
    finish(figure, legend_of(by_angle), out, rect=(0, 0.06, 1, 1))
