"""Pictures of regions: of one epoch, over time, and along a track."""

from __future__ import annotations

import math
from collections.abc import Iterable
from typing import Any

from gpscover.errors import Error
from gpscover.geodesy import Frame, Vector, dot
from gpscover.integrity import in_um
from gpscover.log import UM_PER_M, Box, Epoch, PathLike, calendar, epochs
from gpscover.outline import Flat, convex_hull
from gpscover.places import Meetings
from gpscover.plotting import BAND_COLOUR, CUT_COLOUR, EDGE_COLOUR, EDGE_LINE_COLOUR, EMPTY_COLOUR, INNER_COLOUR
from gpscover.plotting import LIMIT_COLOUR, PLACE_COLOUR, T
from gpscover.plotting import by_bounds, finish, gathered, legend_of, ring_above, save, since, some_of, tools, with_note
from gpscover.region import Extent, Region, extent_along, half_sides, offsets, reaches, region_of, region_or_none
from gpscover.region import touched_faces, upward

NAMES = ("east", "north", "up")
MANY_BOXES = 500  # in an SVG more than these are drawn as dots, so that the file stays small
DIRECTIONS = (("east", "north"), ("east", "up"))
LONGEST_IN = 6.5  # the longest side of what is drawn, in inches
NOWHERE = (math.nan, math.nan)


def box_polygons(boxes: list[Box], origin: Vector, first: Vector, second: Vector) -> Any:
    """Each box seen along the axis that is across two local axes: a hexagon, as (number of boxes, 6, 2) metres.

    The hexagon's sides are the box's three, in the order of their direction, and then these turned round. That order is
    the same for all boxes.
    """
    import numpy

    ends = numpy.array(boxes, dtype=numpy.int64)
    base = numpy.array([round(value * UM_PER_M) for value in origin] * 2, dtype=numpy.int64)
    ends = (ends - base) / UM_PER_M
    plane = numpy.array([first, second]).T  # 3 x 2: the directions of x, y and z in the plane
    plane = plane * numpy.where((plane[:, 1] < 0) | ((plane[:, 1] == 0) & (plane[:, 0] < 0)), -1, 1)[:, None]
    order = numpy.argsort(numpy.arctan2(plane[:, 1], plane[:, 0]))
    sides = (ends[:, 3:] - ends[:, :3])[:, order, None] * plane[order][None]  # boxes x 3 x 2
    centres = (ends[:, :3] + ends[:, 3:]) / 2 @ numpy.array([first, second]).T
    start = centres - sides.sum(axis=1) / 2
    steps = numpy.concatenate([sides, -sides], axis=1)[:, :5]
    return numpy.concatenate([start[:, None], start[:, None] + numpy.cumsum(steps, axis=1)], axis=1)


def box_kinds(epoch: Epoch) -> tuple[tuple[list[Box], str, str], ...]:
    """The kept boxes by their colours: those on a face of the search box, the others at the edge, and inner ones."""
    search = epoch.search
    cut = {box for box in epoch.boxes if search is not None and touched_faces(box, search)}
    edge, inner = (
        [kept.box for kept in epoch.kept if kept.inner == it and kept.box not in cut] for it in (False, True)
    )
    return (
        (sorted(cut), CUT_COLOUR, "boxes on a face of the search box"),
        (edge, EDGE_COLOUR, "edge boxes"),
        (inner, INNER_COLOUR, "in boxes"),
    )


def draw_boxes(axes: Any, epoch: Epoch, region: Region, pair: tuple[str, str], dots: bool) -> None:
    """Draws the kept boxes of an epoch in the plane of two directions, as dots where that is wanted."""
    _, collections = tools()
    vectors = [region.axes[NAMES.index(name)] for name in pair]
    style = {"edgecolors": "#00000060", "linewidths": 0.15, "rasterized": dots}
    for boxes, colour, name in box_kinds(epoch):
        if boxes:
            polygons = box_polygons(boxes, region.origin, *vectors)
            label = f"{len(boxes):,} {name}"
            axes.add_collection(collections.PolyCollection(polygons, facecolors=colour, label=label, **style))


def draw_certified(axes: Any, region: Region, pair: tuple[str, str]) -> None:
    """Draws the outline of what the bounds of an epoch leave in the plane of two directions."""
    first, second = (region.axes[NAMES.index(name)] for name in pair)
    ring = convex_hull((dot(first, corner), dot(second, corner)) for corner in region.corners)
    style = {"facecolor": "none", "edgecolor": EDGE_LINE_COLOUR, "linewidth": 1.4}
    axes.fill(*zip(*ring), label="certified bounds", **style)


def limits_of(epoch: Epoch, region: Region, name: str, with_place: bool) -> Extent:
    """What a direction shows: the boxes and the extents with a margin, and the origin where it is a place."""
    axis, origin = region.axes[NAMES.index(name)], in_um(region.origin)
    boxes = extent_along(axis, offsets(epoch.boxes, origin), [half_sides(box) for box in epoch.boxes])
    low, high = (end(pair) for end, pair in zip((min, max), zip(boxes, region.extents[NAMES.index(name)])))
    if with_place:
        low, high = min(low, 0.0), max(high, 0.0)
    margin = 0.05 * (high - low)
    return low - margin, high + margin


def region_title(epoch: Epoch, region: Region) -> str:
    """Two lines: which epoch it is and by which rules, and its extents, rounded up.

    A third where the box cuts it.
    """
    east, north, up = (upward(width) for width in region.widths())
    certified = " by certified bounds" if region.certified else ""
    cut = f"\nreaches the search box at {' '.join(region.faces)}: it may go on outside" if region.faces else ""
    return (
        f"epoch {epoch.index}, {calendar(epoch.ps)} GPS time, {epoch.satellites} satellites, q = {epoch.outliers},"
        f" {epoch.splits:,} splits\neast {east:.1f} m, north {north:.1f} m, up {up:.1f} m{certified}{cut}"
    )


def panels_at_one_scale(pyplot: Any, shown: dict[str, Extent]) -> tuple[Any, list[Any]]:
    """A figure with two panels, east-north and east-up, in which a metre is as long along all four axes."""
    spans = {name: high - low for name, (low, high) in shown.items()}
    scale = LONGEST_IN / max(2 * spans["east"], spans["north"], spans["up"])  # inches a metre
    wide, heights = spans["east"] * scale, [spans[pair[1]] * scale for pair in DIRECTIONS]
    left, gap, bottom, above = 0.8, 0.9, 1.0, 0.9
    size = (max(left + 2 * wide + gap + 0.2, 6.0), bottom + max(heights) + above)
    figure = pyplot.figure(figsize=size)
    lefts = (left, left + wide + gap)
    places = [(x / size[0], bottom / size[1], wide / size[0], y / size[1]) for x, y in zip(lefts, heights)]
    return figure, [figure.add_axes(place) for place in places]


def draw_region(epoch: Epoch, place: Vector | None, out: str, note: str | None) -> None:
    """Draws the region of one epoch from above and from the side."""
    region = region_of(epoch, place)
    shown = {name: limits_of(epoch, region, name, place is not None) for name in NAMES}
    figure, both = panels_at_one_scale(tools()[0], shown)
    origin = "the cross" if place is not None else "the middle"
    for axes, pair in zip(both, DIRECTIONS):
        draw_boxes(axes, epoch, region, pair, out.endswith(".svg") and len(epoch.kept) > MANY_BOXES)
        if region.certified:
            draw_certified(axes, region, pair)
        if place is not None:
            axes.plot([0], [0], "+", color=PLACE_COLOUR, markersize=12, markeredgewidth=1.8, label="known place")
        axes.set(xlim=shown["east"], ylim=shown[pair[1]])
        axes.set(xlabel=f"east of {origin}, m", ylabel=f"{pair[1]} of {origin}, m")
    figure.suptitle(with_note(region_title(epoch, region), note), fontsize=10)
    figure.legend(handles=legend_of(both[0]), loc="lower center", ncol=3)
    save(figure, out)


def chosen_epoch(path: PathLike, index: int) -> Epoch:
    """The epoch of a number, with a region."""
    for epoch in epochs(path):
        if epoch.index == index:
            if epoch.few or not epoch.kept:
                raise Error(f"epoch {index} of {path} has no region: it is {'few' if epoch.few else 'empty'}")
            return epoch
    raise Error(f"{path} has no epoch {index}")


class Course:
    """The extents of the epochs and the places, along the axes at an origin."""

    def __init__(self, meetings: Meetings, moving: bool) -> None:
        self.meetings, self.moving = meetings, moving
        self.origin: Vector | None = None  # one for all epochs, in m
        self.times: list[float] = []
        self.extents: list[tuple[Extent, Extent, Extent]] = []
        self.known: list[Vector] = []
        self.cut: list[bool] = []  # whether the region reaches the search box
        self.empty: list[bool] = []  # whether no position fits
        self.certified = 0  # how many regions have the extents of bounds

    def origin_for(self, epoch: Epoch, place: Vector | None) -> Vector | None:
        """Where the axes of an epoch stand."""
        if self.moving:
            return place
        if self.origin is None:
            self.origin = place if place is not None else region_of(epoch).middle()
        return self.origin

    def add(self, epoch: Epoch) -> None:
        """Adds an epoch: a gap where it has no region, or where it moves and its place isn't known."""
        place = self.meetings.at(epoch.ps)
        origin = self.origin_for(epoch, place) if epoch.kept else None
        region = region_of(epoch, origin) if origin is not None else None
        self.times.append(epoch.ps / 1e12)
        self.extents.append(region.extents if region is not None else (NOWHERE, NOWHERE, NOWHERE))
        self.certified += region is not None and region.certified
        self.cut.append(reaches(epoch))
        self.empty.append(epoch.empty)
        known = (math.nan, math.nan, math.nan)
        if place is not None and origin is not None:
            known = Frame.at(origin).offset(place)
        self.known.append(known)

    def title(self) -> str:
        """How many epochs there are, and how many have a colour of their own."""
        counts = f"{len(self.times)} epochs; {sum(self.cut)} reach the search box, {sum(self.empty)} are empty"
        return counts + by_bounds(self.certified)


def edges_of(times: list[float]) -> list[Extent]:
    """Where the band of each epoch begins and ends: half-way to its neighbours."""
    if len(times) == 1:
        return [(times[0] - 0.5, times[0] + 0.5)]
    middles = [(a + b) / 2 for a, b in zip(times, times[1:])]
    starts = [2 * times[0] - middles[0], *middles]
    return list(zip(starts, [*middles, 2 * times[-1] - middles[-1]]))


def bands(edges: list[Extent], spans: list[Extent], wanted: Iterable[bool]) -> list[tuple[float, ...]]:
    """The corners of the wanted epochs' bands, with gaps between them where one isn't wanted: x, low, high."""
    points: list[tuple[float, float, float]] = []
    for (start, end), (low, high), is_wanted in zip(edges, spans, wanted):
        points += [(start, low, high), (end, low, high)] if is_wanted else [(start, math.nan, math.nan)]
    return list(zip(*points))


def draw_bands(axes: Any, course: Course, edges: list[Extent], spans: list[Extent]) -> None:
    """Draws the extents along one axis, and where there are none."""
    whole = [not cut for cut in course.cut]
    axes.fill_between(*bands(edges, spans, whole), color=BAND_COLOUR, linewidth=0, label="the region's extents")
    if any(course.cut):
        cut = bands(edges, spans, course.cut)
        axes.fill_between(*cut, color=CUT_COLOUR, linewidth=0, label="cut by the search box")
    if any(course.empty):
        everywhere = bands(edges, [(0, 1)] * len(edges), course.empty)
        style = {"color": EMPTY_COLOUR, "linewidth": 0, "transform": axes.get_xaxis_transform()}
        axes.fill_between(*everywhere, label="no position fits", **style)


def draw_course(course: Course, out: str, note: str | None) -> None:
    """Draws the extents over time: three panels, one below the other."""
    times = [time - course.times[0] for time in course.times]
    edges = edges_of(times)
    figure, panels = tools()[0].subplots(3, 1, figsize=(9, 8), sharex=True)
    for k, (axes, name) in enumerate(zip(panels, NAMES)):
        draw_bands(axes, course, edges, [extents[k] for extents in course.extents])
        if course.meetings.places:
            known = [known[k] for known in course.known]
            axes.plot(times, known, color=PLACE_COLOUR, linewidth=1, label="known places")
        axes.set_ylabel(f"{name}, m")
    panels[-1].set_xlabel(since(course.times[0]))
    figure.suptitle(with_note(course.title(), note), fontsize=11)
    finish(figure, legend_of(panels[0]), out)


class Tube:
    """The regions of a track: their outlines from above, their lengths, and where it was lost."""

    def __init__(self, meetings: Meetings) -> None:
        self.meetings = meetings
        self.frame: Frame | None = None  # at the middle of the first region
        self.times: list[float] = []
        self.rings: list[list[Flat]] = []
        self.widths: list[list[float]] = []
        self.known: list[Flat] = []
        # The number of a lost epoch, and the outline of its search box.
        self.lost: tuple[int, list[Flat]] | None = None
        self.certified = 0  # how many regions have the lengths of bounds

    def add(self, epoch: Epoch) -> None:
        """Adds an epoch; one without a region has no outline."""
        place = self.meetings.at(epoch.ps)
        region = region_or_none(epoch)
        if region is not None and self.frame is None:
            self.frame = Frame.at(region.middle())
        self.times.append(epoch.ps / 1e12)
        self.widths.append(region.widths() if region is not None else [math.nan] * 3)
        self.certified += region is not None and region.certified
        if self.frame is not None:
            self.add_shapes(self.frame, epoch, place)

    def add_shapes(self, frame: Frame, epoch: Epoch, place: Vector | None) -> None:
        """Adds what is seen of an epoch from above."""
        if epoch.kept:
            self.rings.append(ring_above(frame, epoch.boxes))
        if place is not None:
            self.known.append(frame.offset(place)[:2])
        if epoch.moves and epoch.empty and self.lost is None and epoch.root is not None:
            self.lost = epoch.index, ring_above(frame, [epoch.root])

    def drawn(self) -> list[list[Flat]]:
        """At most MOST_OUTLINES of the outlines."""
        return some_of(self.rings)

    def title(self) -> str:
        """How many epochs there are, and where it ends."""
        lost = f"; lost at epoch {self.lost[0]}" if self.lost else ""
        return f"{len(self.times)} epochs, {len(self.rings)} with a region{lost}{by_bounds(self.certified)}"


def tube_of(path: PathLike, meetings: Meetings) -> Tube:
    """The regions of a log."""
    tube = gathered(Tube(meetings), path)
    if not tube.rings:
        raise Error(f"{path} has no region to draw")
    return tube


def draw_above(axes: Any, tube: Tube) -> None:
    """Draws the outlines, the places and the search box in which the receiver was lost."""
    style = {"facecolor": BAND_COLOUR, "edgecolor": EDGE_LINE_COLOUR, "linewidth": 0.5, "alpha": 0.35}
    for number, ring in enumerate(tube.drawn()):
        axes.fill(*zip(*ring), label="" if number else "regions", **style)
    if tube.lost:
        index, ring = tube.lost
        style = {"facecolor": "none", "edgecolor": LIMIT_COLOUR, "linewidth": 1.2, "linestyle": "--"}
        axes.fill(*zip(*ring), label=f"search box of epoch {index}: lost", **style)
    if tube.known:
        axes.plot(*zip(*tube.known), color=PLACE_COLOUR, linewidth=1.2, label="known places")
    axes.set_aspect("equal", adjustable="datalim")
    axes.set(xlabel="east of the first region's middle, m", ylabel="north, m")


def draw_track(tube: Tube, beside: Tube | None, out: str, note: str | None) -> None:
    """Draws a track from above, and the lengths of its regions."""
    figure = tools()[0].figure(figsize=(11, 6.5))
    grid = figure.add_gridspec(3, 2, width_ratios=(1.2, 1))
    above = figure.add_subplot(grid[:, 0])
    draw_above(above, tube)
    for k, name in enumerate(NAMES):
        axes = figure.add_subplot(grid[k, 1])
        for other, colour, label in ((beside, CUT_COLOUR, "the other log"), (tube, EDGE_LINE_COLOUR, "this log")):
            if other is not None:
                times = [time - tube.times[0] for time in other.times]
                axes.plot(times, [widths[k] for widths in other.widths], color=colour, linewidth=1.2, label=label)
        axes.set_ylim(bottom=0)
        axes.set_ylabel(f"{name}, m")
        if beside is not None and k == 0:
            axes.legend()
    axes.set_xlabel(since(tube.times[0]))
    figure.suptitle(with_note(tube.title(), note), fontsize=11)
    finish(figure, legend_of(above), out, "lower left")
