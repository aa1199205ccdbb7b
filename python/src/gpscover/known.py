"""Tells what the regions of a log say of known places: which hold them, and protection levels.

usage: gpslog known LOG FILE [--azimuth A | --along FILE] [--limit H V] [--strict]

It prints the lines that `gpslog summary LOG --places FILE` has behind its table, and the warnings
on these places. FILE has a place on a line, as gpscover.places says. All lengths are of the
declared bounds, not of a probability.

Exit status: 0; 1 where a file can't be read, or LOG is no whole log, or shares no time with the
places; 2 for a wrong command line; 3 where --strict is given and there is a warning.
"""

from __future__ import annotations

import argparse

from gpscover.command import Command
from gpscover.log import epochs
from gpscover.region import region_or_none
from gpscover.summary import STRICT, judge_of, place_arguments


def arguments(parser: argparse.ArgumentParser) -> None:
    """The words of the command line."""
    parser.add_argument("log", metavar="LOG")
    parser.add_argument("places", metavar="FILE", help="a list of known places")
    parser.add_argument("--strict", action="store_true", help=f"end with {STRICT} on a warning")
    place_arguments(parser)


def run(args: argparse.Namespace) -> int:
    """Prints what is said of the places. The status."""
    judge = judge_of(args)
    assert judge is not None
    for epoch in epochs(args.log):
        judge.add(epoch, region_or_none(epoch))
    judge.meetings.refuse_strangers()
    print(*judge.lines(), sep="\n")
    warnings = list(judge.warnings())
    for warning in warnings:
        print(f"warning: {warning}")
    return STRICT if warnings and args.strict else 0


ABOUT = "which regions hold known places, and protection levels"
COMMAND = Command("known", ABOUT, arguments, run, __doc__)
