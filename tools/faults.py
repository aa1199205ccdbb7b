#!/usr/bin/env python3
"""Makes the ranges of each satellite in turn too long, and counts what regions and RTKLIB's RAIM say of that.

usage: PYTHONPATH=python/src python3 -m tools.faults OBS NAV SETTINGS --place X Y Z [--station STATION] [--every N]
       [--program GPSCOVER] METRES..

Each fault is one satellite in one epoch, whose codes are all too long by so many metres (or too short, if these are below
zero), of every N-th epoch (1). X Y Z is where the receiver stood. A line of the table has of the faults of a size
  held     how often the region at q = 1 holds the place
  shown    how often no position fits at q = 0, so that something is wrong for sure
  named    how often `gpslog suspect log` names the satellite at q = 1, and how often another one
  raim     how often RTKLIB takes the satellite out (rnx2rtkp with examples/rtklib.conf, pos1-posopt5 = on and a mask of 4
           degrees), another one, or gives no position
  moved    by how far its position moves at most where it takes none out, and where it takes another one out
With a station the faults are the receiver's alone, and RTKLIB isn't asked. It is left out too where it isn't installed.

Exit status: 0; 1 where a run fails; 2 for a wrong command line.
"""
import argparse
import math
import re
import shutil
import subprocess
import tempfile
from collections import Counter
from dataclasses import replace
from pathlib import Path

from gpscover import Settings, open_log, solve
from gpscover.command import measure, run_tool
from gpscover.integrity import is_held
from gpscover.suspects import surely_broken

RAIM = "pos1-posopt5=on\npos1-elmask=4\n"
WIDTH = 16  # columns of an observation


def code_columns(lines):
    """Where the pseudoranges of a satellite of GPS begin in its line."""
    types, system = [], None
    for line in lines:
        if line[60:79] == "SYS / # / OBS TYPES":
            system = line[0].strip() or system
            types += line[7:58].split() if system == "G" else []
    return [3 + WIDTH * k for k, name in enumerate(types) if name[0] == "C"]


def with_fault(text, satellite, metres):
    """An observation file with the ranges of a satellite too long."""
    lines = text.splitlines()
    columns = code_columns(lines)
    for k, line in enumerate(lines):
        if line.startswith(satellite):
            for at in columns:
                if line[at : at + 14].strip():
                    line = f"{line[:at]}{float(line[at:at + 14]) + metres:14.3f}{line[at + 14:]}"
            lines[k] = line
    return "\n".join(lines) + "\n"


def thinned(text, every):
    """An observation file with each so-many-th of its epochs."""
    head, *blocks = re.split(r"(?m)^(?=>)", text)
    return "".join([head, *blocks[::every]])


def raim(obs, nav, room):
    """What RTKLIB says: of each epoch by its place in the file its position, and the satellites in it by the time."""
    conf, out = room / "raim.conf", room / "raim.pos"
    conf.write_text(Path("examples/rtklib.conf").read_text(encoding="utf-8") + RAIM, encoding="utf-8")
    words = ["rnx2rtkp", "-k", conf, "-y", "2", "-o", out, obs, nav]
    subprocess.run(words, stdout=subprocess.DEVNULL, stderr=subprocess.DEVNULL, check=True)
    used, found = {}, {}
    for line in Path(f"{out}.stat").read_text(encoding="utf-8").splitlines():
        words = line.split(",")
        if words[0] == "$SAT":
            used.setdefault(round(float(words[2])), set()).add(words[3])
    for line in out.read_text(encoding="utf-8").splitlines():
        if line[0] != "%":
            words = line.split()
            hours, minutes, seconds = words[1].split(":")
            clock = round(3600 * int(hours) + 60 * int(minutes) + float(seconds))
            found[clock] = [float(word) for word in words[2:5]]
    return {
        time % 86400: (found[time % 86400], satellites) for time, satellites in used.items() if time % 86400 in found
    }


def count_raim(counts, moved, right, wrong, satellite):
    """Counts what RTKLIB says of a satellite's fault, beside what it says without one."""
    for time, (place, satellites) in right.items():
        if satellite not in satellites:
            continue
        counts["asked"] += 1
        if time not in wrong:
            counts["none"] += 1
            continue
        there, left = wrong[time]
        away = math.dist(place, there)
        if satellite not in left:
            counts["raim"] += 1
        else:
            kind = "other" if satellites - left else "kept"
            counts[kind] += 1
            moved[kind] = max(moved.get(kind, 0.0), away)


def count_regions(counts, args, obs, settings, room, satellite):
    """Counts what the regions of a faulty file say."""
    for outliers in (1, 0):
        chosen = replace(settings, search=replace(settings.search, outliers=outliers))
        log = room / "faulty.log"
        solve(obs, args.nav, chosen, log, station=args.station, program=args.program)
        for epoch in open_log(log):
            if satellite not in [row.satellite for row in epoch.rows]:
                continue
            if outliers:
                counts["faults"] += 1
                counts["held"] += is_held(epoch, args.place)
                broken = surely_broken(epoch) if epoch.kept else []
                counts["named"] += broken == [satellite]
                counts["misnamed"] += bool(set(broken) - {satellite})
            else:
                counts["shown"] += epoch.empty


def table(args, room):
    """The lines of the table."""
    settings, text = Settings.read(args.settings), thinned(Path(args.obs).read_text(encoding="utf-8"), args.every)
    obs = room / "faulty.obs"
    obs.write_text(text, encoding="utf-8", newline="\n")
    asks = args.station is None and shutil.which("rnx2rtkp") is not None
    satellites = sorted({line[:3] for line in text.splitlines() if line[0] == "G" and line[1:3].isdigit()})
    right = raim(obs, args.nav, room) if asks else {}
    head = "size m  faults    held   shown   named another"
    yield head + ("     raim another    none    kept  moved m  another m" if asks else "")
    for metres in args.metres:
        counts, moved = Counter(), {}
        for satellite in satellites:
            obs.write_text(with_fault(text, satellite, metres), encoding="utf-8", newline="\n")
            count_regions(counts, args, obs, settings, room, satellite)
            if asks:
                count_raim(counts, moved, right, raim(obs, args.nav, room), satellite)
        line = f"{metres:6g}" + "".join(f"{counts[it]:8}" for it in ("faults", "held", "shown", "named", "misnamed"))
        if asks:
            line += " " + "".join(f"{counts[it]:8}" for it in ("raim", "other", "none", "kept"))
            line += f"{moved.get('kept', 0):9.1f}{moved.get('other', 0):11.1f}"
        yield line


def main():
    parser = argparse.ArgumentParser(description=__doc__, formatter_class=argparse.RawDescriptionHelpFormatter)
    for name in ("obs", "nav", "settings"):
        parser.add_argument(name, metavar=name.upper())
    parser.add_argument("metres", metavar="METRES", nargs="+", type=measure, help="how much too long ranges are")
    parser.add_argument("--place", nargs=3, type=measure, metavar=("X", "Y", "Z"), required=True)
    parser.add_argument("--station", help="the observation file of the station")
    parser.add_argument("--every", type=int, default=1, metavar="N", help="faults in every N-th epoch alone")
    parser.add_argument("--program", help="the program (the one that ./gpscover runs)")
    args = parser.parse_args()
    with tempfile.TemporaryDirectory() as room:
        for line in table(args, Path(room)):
            print(line, flush=True)


if __name__ == "__main__":
    run_tool(main)
