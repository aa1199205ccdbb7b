"""Draws regions from a log of gpscover as SVG or PNG, by the ending of OUT.

usage: gpslog draw region LOG OUT [--epoch N] [--place X Y Z] [--places FILE] [--note TEXT]
       gpslog draw time LOG OUT [--places FILE] [--moving] [--note TEXT]
       gpslog draw track LOG OUT [--places FILE] [--beside LOG] [--note TEXT]
       gpslog draw zones LOG OUT --zones ZONES.. [--zone NAME].. [--places FILE] [--note TEXT]
       gpslog draw integrity LOG OUT --places FILE [--limit H V] [--note TEXT]
       gpslog draw observed LOG OUT (--place X Y Z | --places FILE) [--note TEXT]

`region` draws one epoch (1) from above, east and north, and from the side, east and up, at one
scale: the kept boxes as they are, inner ones over those at the edge, and over them the outline of
what certified bounds leave. Those on a face of the search
box, where the region may go on outside, have a colour of their own. A place in metres in the earth-
fixed frame, or that of the epoch in a list of places, is a cross and the origin; without one the
origin is the middle of the kept boxes. The title has the splits of the epoch.

`time` draws how far the region reaches along east, north and up in each epoch, beside a list of
places. Epochs whose region reaches the search box, and those without a region, have colours of
their own. The origin is the first place, with --moving the place of each epoch, and without a list
the middle of the first region.

`track` draws the regions of a log of `track` from above, at most 60 of them, the known places as a
line, the search box of an epoch in which the receiver was lost, and how far each region reaches
along east, north and up. --beside has another log of the same epochs, whose regions' lengths are
drawn beside these. The origin is the middle of the first region.

`zones` draws a panel for each zone of some files of zones, at most 6 of them, or for those that
--zone names: its outline from above and at most 60 of the regions in the colours of what their
boxes say of it (`gpslog answers`), with how many epochs say what. A prism is drawn as the hull of
its corners, and not at all where it has none, and a group as its pieces.

`integrity` counts epochs by cells, as the Stanford diagram does, along the ground and up: how far
the region's middle is from the known place, and how far its farthest corner is from its middle,
which is the protection. Below the diagonal the region is misleading. --limit has two alert limits
in metres along the ground and up: above its limit a panel has what is unavailable, and below it, from
the limit on, what is hazardously misleading. Each area has the number of its epochs and their part of
all. What the search box cuts protects nothing: it is unavailable, in the uppermost cells.

`observed` draws the part of its declared bound that each satellite used in each epoch at a known
place (`gpslog observed`), by elevation and as a histogram: 0 is the bound's middle, and 1 and -1 are
its ends.

FILE has a place on a line, as gpscover.places says. One that shares no time with the log is
refused.

Needs matplotlib, which Debian installs by `apt-get install python3-matplotlib` for
/usr/bin/python3.

Exit status: 0; 1 where a file can't be read or written, or matplotlib isn't there, or there is
nothing to draw; 2 for a wrong command line.
"""

from __future__ import annotations

import argparse
import math

from gpscover.command import Command, measure, name_ending, work_of
from gpscover.drawn_answers import Fenced, draw_fences, draw_integrity, draw_observed, fences_of
from gpscover.drawn_regions import Course, chosen_epoch, draw_course, draw_region, draw_track, tube_of
from gpscover.errors import Error
from gpscover.integrity import Judge, Limits, limit_argument
from gpscover.log import epochs
from gpscover.observed import meetings_of, observed, place_words
from gpscover.places import Meetings
from gpscover.plotting import gathered
from gpscover.region import region_or_none
from gpscover.stanford import Judged, diagram_of, judged_of
from gpscover.zones import zone_arguments


def run_region(args: argparse.Namespace) -> None:
    """Draws the region of one epoch."""
    epoch = chosen_epoch(args.log, args.epoch)
    place = args.place
    if args.places:
        meetings = Meetings.of(args.places)
        place = meetings.at(epoch.ps)
        meetings.refuse_strangers(f"epoch {epoch.index}")
    draw_region(epoch, place, args.out, args.note)


def run_time(args: argparse.Namespace) -> None:
    """Draws the extents over time."""
    meetings = Meetings.of(args.places or None)
    if args.moving and not meetings.places:
        raise Error("--moving needs --places")
    course = gathered(Course(meetings, args.moving), args.log)
    if all(math.isnan(extents[0][0]) for extents in course.extents):
        raise Error(f"{args.log} has no region to draw" + (" at a known place" if meetings.places else ""))
    draw_course(course, args.out, args.note)


def run_track(args: argparse.Namespace) -> None:
    """Draws a track."""
    tube = tube_of(args.log, Meetings.of(args.places or None))
    beside = tube_of(args.beside, Meetings.of(None)) if args.beside else None
    draw_track(tube, beside, args.out, args.note)


def run_zones(args: argparse.Namespace) -> None:
    """Draws zones."""
    fences = fences_of(args.zones, args.zone)
    fenced = gathered(Fenced(fences, Meetings.of(args.places or None)), args.log)
    if fenced.frame is None:
        raise Error(f"{args.log} has no region to draw")
    draw_fences(fenced, args.out, args.note)


def run_integrity(args: argparse.Namespace) -> None:
    """Draws errors against protection."""
    limits = Limits(*args.limit) if args.limit else None
    judge = Judge(Meetings.of(args.places), limits=limits)
    found: list[tuple[Judged, Judged]] = []
    for epoch in epochs(args.log):
        region = region_or_none(epoch)
        numbers = judge.add(epoch, region)
        if numbers is not None and region is not None:
            found.append(judged_of(numbers, bool(region.faces)))
    judge.meetings.refuse_strangers()
    if not found:
        raise Error(f"{args.log} has no region at a known place")
    pair = (limits.horizontal, limits.vertical) if limits else (None, None)
    diagrams = [diagram_of(judged, limit) for judged, limit in zip(zip(*found), pair)]
    draw_integrity(judge, diagrams, args.out, args.note)


def run_observed(args: argparse.Namespace) -> None:
    """Draws how much of the bounds was used."""
    draw_observed(list(observed(args.log, meetings_of(args))), args.out, args.note)


def arguments(parser: argparse.ArgumentParser) -> None:
    """The words of the command line."""
    ways = parser.add_subparsers(required=True)
    region, time, track, fenced, integrity, bounds = parsers = [
        ways.add_parser(name, help=about)
        for name, about in (
            ("region", "one epoch, from above and from the side"),
            ("time", "the extents over time"),
            ("track", "the regions of a log of track along the way"),
            ("zones", "the regions beside zones"),
            ("integrity", "the error against the protection at known places"),
            ("observed", "how much of the declared bounds was used at known places"),
        )
    ]
    for way, work in zip(parsers, (run_region, run_time, run_track, run_zones, run_integrity, run_observed)):
        way.add_argument("log", metavar="LOG")
        way.add_argument("out", metavar="OUT", type=name_ending(".svg", ".png", told=".svg or .png"))
        if way is bounds:
            place_words(way)
        else:
            way.add_argument("--places", metavar="FILE", required=way is integrity, help="a list of known places")
        way.add_argument("--note", metavar="TEXT", help="a further line of the title")
        way.set_defaults(work=work)
    region.add_argument("--epoch", type=int, default=1, metavar="N", help="the epoch's number in the log (1)")
    region.add_argument("--place", type=measure, nargs=3, metavar=("X", "Y", "Z"), help="a known place, m")
    time.add_argument("--moving", action="store_true", help="round the place of each epoch")
    track.add_argument("--beside", metavar="LOG", help="another log, whose regions' lengths are drawn too")
    zone_arguments(fenced, required=True)
    limit_argument(integrity)


COMMAND = Command("draw", "pictures of regions, as SVG or PNG", arguments, work_of, __doc__)
