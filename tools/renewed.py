#!/usr/bin/env python3
"""Compares regions found with renewed rows and without: how far they reach, and what they cost.

usage: python3 -m tools.renewed PROGRAM OBS NAV SETTINGS [--halves KM ...] [--pairs] [--zenith LO HI] [--to N] [--recheck]

The first N epochs of OBS (1) are solved with each half side in km (1, 10 and 100), once as SETTINGS are with `renew = false` and
once with `renew = true`. With --pairs each of these is done without pairs of satellites and with them, and with --zenith LO HI
(mm) with `bounds.zenith` as SETTINGS have it, and with the troposphere as a delay at the zenith that is mapped: `troposphere =
[0, 0]` and `zenith = [LO, HI]`. Each log is checked and judged by PROGRAM, and with --recheck by `second/recheck.py`; all have to
say the same yes.

A row of the table has the means over the epochs with a region: its extents along east, north and up, the span of its clock
offsets, and the volume of its boxes; then how many epochs have none; how often rows were renewed in an epoch, the bytes of the
log, and the processor time of `solve`, `check` and `judge` (user, one run each).

Exit status: 0; 1 where a run fails, a yes differs or a file can't be read; 2 for a wrong command line.
"""
import argparse
import itertools
import re
import sys
import tempfile
from pathlib import Path

from gpscover.command import run_tool
from gpscover.log import epochs
from tools.pairs_table import Failed, ended, length, setting, without_bounds
from gpscover.region import region_of

RECHECK = Path(__file__).resolve().parents[1] / "second/recheck.py"
HEAD = ("half side", "pairs", "zenith", "renewed", "east, north, up", "clock", "volume, m3", "no region", "renewals", "log",
        "`solve`, `check`, `judge`")


def mapped(settings, zenith):
    """The settings with the whole delay of the troposphere between two amounts (mm) at the zenith, and mapped."""
    without = re.sub(r"(?m)^zenith *=.*\n", "", settings)
    ends = f"troposphere = [0, 0]\nzenith = [{zenith[0]}, {zenith[1]}]"
    text, count = re.subn(r"(?m)^troposphere *=.*$", ends, without)
    if count != 1:
        raise Failed("the settings don't have the key `troposphere` on a line of its own")
    return text


def with_values(settings, half, pairs, zenith, renew):
    """The text of settings with a half side in km and other values of some keys. None leaves pairs or zenith as they are."""
    text = setting(setting(without_bounds(settings), "half", half * 1_000_000), "renew", str(renew).lower())
    if pairs is not None:
        text = setting(text, "pairs", str(pairs).lower())
    return text if zenith is None else mapped(text, zenith)


def solved(arguments, room, settings):
    """The log of a run, which all checkers take, and the seconds of `solve`, `check` and `judge`."""
    changed, log = room / "settings.toml", room / "a.log"
    changed.write_text(settings, encoding="utf-8")
    files = [arguments.obs, arguments.nav, changed, log, "--to", str(arguments.to)]
    _, solving = ended([arguments.program, "solve", *files])
    checkers = [[arguments.program, "check", *files], [arguments.program, "judge", log]]
    checkers += [[sys.executable, RECHECK, *files]] * arguments.recheck
    checked = [ended(words) for words in checkers]
    if len({said for said, _ in checked}) != 1:
        raise Failed("the checkers don't count the same boxes")
    return log, [solving, *(seconds for _, seconds in checked[:2])]


def sizes(epoch):
    """The extents of an epoch's region along east, north and up and of the clock offset in m, and its volume in m3."""
    region = region_of(epoch)
    return [*region.widths(), region.clock[1] - region.clock[0], region.volume]


def cells(arguments, room, settings):
    """What a run gives, as the last cells of its row."""
    log, seconds = solved(arguments, room, settings)
    found, paved, renewals = [], 0, 0
    for epoch in epochs(log):
        paved += not epoch.few
        renewals += len(epoch.renewals)
        if epoch.kept:
            found.append(sizes(epoch))
    east, north, up, clock, space = [sum(values) / len(found) for values in zip(*found)] if found else [0.0] * 5
    return [f"{east:,.1f} x {north:,.1f} x {up:,.1f} m", f"{clock:,.1f} m", f"{space:,.0f}", str(paved - len(found)),
            f"{renewals / max(paved, 1):.1f}", length(log.stat().st_size), ", ".join(f"{part:.2f}" for part in seconds) + " s"]


def print_rows(arguments, room):
    """The table."""
    settings = Path(arguments.settings).read_text(encoding="utf-8")
    print("| " + " | ".join(HEAD) + " |\n|" + "---|" * len(HEAD))
    ways = itertools.product(arguments.halves, [False, True] if arguments.pairs else [None],
                             [None, arguments.zenith] if arguments.zenith else [None], [False, True])
    for half, pairs, zenith, renew in ways:
        said = "as given" if pairs is None else "yes" if pairs else "no"
        mapping = "[{}, {}] mm".format(*zenith) if zenith else "as given"
        row = cells(arguments, room, with_values(settings, half, pairs, zenith, renew))
        print("| " + " | ".join([f"{half:,} km", said, mapping, "yes" if renew else "no", *row]) + " |", flush=True)


def main():
    parser = argparse.ArgumentParser(description=__doc__, formatter_class=argparse.RawDescriptionHelpFormatter)
    for name in "program", "obs", "nav", "settings":
        parser.add_argument(name, metavar=name.upper())
    parser.add_argument("--halves", type=int, nargs="+", default=[1, 10, 100], metavar="KM")
    parser.add_argument("--pairs", action="store_true", help="without pairs of satellites, and with them")
    parser.add_argument("--zenith", type=int, nargs=2, metavar=("LO", "HI"), help="also with the troposphere mapped")
    parser.add_argument("--to", type=int, default=1, metavar="N", help="how many epochs (1)")
    parser.add_argument("--recheck", action="store_true", help="each log by the second checker too, which is slow")
    arguments = parser.parse_args()
    with tempfile.TemporaryDirectory() as room:
        print_rows(arguments, Path(room))
    return 0


if __name__ == "__main__":
    run_tool(main)
