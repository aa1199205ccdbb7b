#!/usr/bin/env python3
"""Draws the first regions of two logs of one receiver side by side: by itself, and with a station.

usage: PYTHONPATH=python/src python3 -m tools.station_picture ALONE STATION X Y Z OUT

ALONE is the log of the receiver by itself, STATION that of the same epochs with a station, X Y Z the known place in m,
which is the origin. Both are seen from above and from the side: their boxes, and as a line what certified bounds leave.
The region with the station stands in the panel of the other too, at its scale.
"""
import sys

from gpscover.command import measure, run_tool
from gpscover.log import open_log
from gpscover.drawn_regions import DIRECTIONS, box_polygons, draw_certified
from gpscover.outline import outline
from gpscover.plotting import EDGE_COLOUR, EDGE_LINE_COLOUR, PLACE_COLOUR, save, tools
from gpscover.region import region_of, upward

COLOURS = EDGE_COLOUR, "#9dc3e6"


def first_region(path, place):
    """The first epoch of a log with a region, and the region as it is seen from a place."""
    epoch = next(epoch for epoch in open_log(path) if epoch.kept)
    return epoch, region_of(epoch, place)


def draw_panel(axes, collections, drawn, colour, pair):
    """Draws a region's boxes in the plane of two directions, and the known place."""
    epoch, region = drawn
    first, second = (region.axes["east north up".split().index(name)] for name in pair)
    polygons = box_polygons(epoch.boxes, region.origin, first, second)
    boxes = collections.PolyCollection(polygons, facecolors=colour, edgecolors="#00000050", linewidths=0.1)
    axes.add_collection(boxes)
    if region.certified:
        draw_certified(axes, region, pair)
    axes.plot([0], [0], "+", color=PLACE_COLOUR, markersize=10, markeredgewidth=1.6)
    axes.autoscale_view()
    axes.set(aspect="equal", xlabel="east, m", ylabel=f"{pair[1]}, m")
    axes.grid(alpha=0.3)


def draw_outline(axes, drawn, pair):
    """Draws the hull of a region's boxes as a line."""
    epoch, region = drawn
    first, second = (region.axes["east north up".split().index(name)] for name in pair)
    ring = outline(epoch.boxes, region.origin, first, second)
    axes.fill(*zip(*ring), facecolor=COLOURS[1], edgecolor=EDGE_LINE_COLOUR)


def draw(alone, station, place, out):
    """Draws both regions from above and from the side."""
    pyplot, collections = tools()
    regions = [first_region(path, place) for path in (alone, station)]
    figure, panels = pyplot.subplots(2, 2, figsize=(7.2, 8.4), height_ratios=(1, 1.6))
    for row, pair in zip(panels, DIRECTIONS):
        for axes, drawn, colour in zip(row, regions, COLOURS):
            draw_panel(axes, collections, drawn, colour, pair)
        draw_outline(row[0], regions[1], pair)
    for axes, (_, region), name in zip(panels[0], regions, ("one receiver alone", "with the station")):
        east, north, up = (upward(width) for width in region.widths())
        axes.set_title(f"{name}\neast {east:.1f} m, north {north:.1f} m, up {up:.1f} m", fontsize=10)
    figure.tight_layout()
    save(figure, out)


def main():
    if len(sys.argv) != 7:
        print(__doc__, file=sys.stderr)
        return 2
    alone, station, *place, out = sys.argv[1:]
    draw(alone, station, tuple(map(measure, place)), out)
    return 0


if __name__ == "__main__":
    run_tool(main)
