#!/usr/bin/env python3
"""Compares regions found with pairs of satellites and without: how far they reach beyond the exact ones, and what they cost.

usage: python3 -m tools.pairs_table PROGRAM OBS NAV SETTINGS [OBS NAV SETTINGS ...] [--outliers Q ...] [--halves M ...] [--splits N ...]
                      [--all]

The first epoch of each OBS is solved by its SETTINGS with each number of outliers at the first half side, and with each half
side in metres at the number of outliers that the settings name; with --all, with each pair of them. Each is done with each
number of splits, once with `pairs = true` and once without. A row of the table has for both the cuts and the bytes of the log,
the processor time of `pave` on its rows (user, the least of five runs; rows aren't renewed), and by how many percent the region
reaches further than the exact one along east, north and up (`exact_extents.py`), or `none` where no position fits. PROGRAM is
the built program. A run that isn't accepted by `check` ends the table, as does a log by `pave` that differs from that of
`solve`.

Exit status: 0; 1 where a run fails or a file can't be read; 2 for a wrong command line.
"""
import argparse
import re
import resource
import subprocess
import tempfile
from pathlib import Path

from gpscover.command import run_tool
from gpscover.errors import Error
from gpscover.log import epochs
from tools.exact_extents import excesses

SIDES = "cuts, log | `pave` | further |"
RUNS = 5
HEAD = f"| receiver | q | half side | splits | with pairs: {SIDES} without: {SIDES}"


class Failed(Error):
    """A run that didn't end as it should."""


def setting(text, key, value):
    """The settings with another value of a key of the table [search], which is put there where it is absent."""
    changed, count = re.subn(rf"^{key} *=.*$", f"{key} = {value}", text, flags=re.M)
    return changed if count else text.replace("[search]\n", f"[search]\n{key} = {value}\n", 1)


def without_bounds(text):
    """The settings without certified bounds in the log: they are of logs with pairs alone, and `pave` seeks none."""
    return re.sub(r"(?m)^directions *=.*\n", "", text)


def with_values(settings, values, pairs):
    """The text of settings with other values in the table [search]; rows aren't renewed, as `pave` doesn't either."""
    text = without_bounds(Path(settings).read_text(encoding="utf-8"))
    for key, value in (*values.items(), ("pairs", str(pairs).lower()), ("renew", "false")):
        text = setting(text, key, value)
    return text


def rows_of(log):
    """The rows of the first epoch of a log, as `pave` reads them: all up to its search box."""
    found = re.match(rb"(?:.*\n)*?root .*\n", log)
    if not found:
        raise Failed("the log has no epoch with a search box")
    return found.group()


def outliers_of(settings):
    """How many outliers the settings name."""
    found = re.search(r"^outliers *= *([0-9]+)", Path(settings).read_text(encoding="utf-8"), flags=re.M)
    if not found:
        raise Failed(f"{settings}: no number of outliers")
    return int(found.group(1))


def ended(words):
    """What a command says, which is to end with 0, and its seconds of processor time, but for the system's."""
    before = resource.getrusage(resource.RUSAGE_CHILDREN)
    ran = subprocess.run(words, capture_output=True, text=True, check=False)
    after = resource.getrusage(resource.RUSAGE_CHILDREN)
    if ran.returncode != 0:
        raise Failed(f"{' '.join(map(str, words))}: status {ran.returncode} {(ran.stdout + ran.stderr).strip()}")
    return ran.stdout, after.ru_utime - before.ru_utime


def run(words):
    """The seconds of a command alone."""
    return ended(words)[1]


def paved(program, room, log):
    """The least processor time in seconds of paving the rows of a log of one epoch anew."""
    rows, again = room / "a.rows", room / "again.log"
    rows.write_bytes(rows_of(log.read_bytes()))
    least = min(run([program, "pave", rows, again]) for _ in range(RUNS))
    if again.read_bytes() != log.read_bytes():
        raise Failed("pave wrote another log than solve")
    return least


def length(written):
    """So many bytes, to be read."""
    return f"{written / 1e6:.2f} MB" if written >= 1e6 else f"{written / 1e3:.1f} KB"


def cells(program, room, files, values, pairs):
    """What one run gives: its cuts and log, its time, and how much further the region reaches."""
    obs, nav, settings = files
    changed, log = room / "settings.toml", room / "a.log"
    changed.write_text(with_values(settings, values, pairs), encoding="utf-8")
    words = [obs, nav, changed, log, "--to", "1"]
    for command in ("solve", "check"):
        run([program, command, *words])
    written = log.read_bytes()
    cuts = sum(line.startswith(b"cut ") for line in written.splitlines())
    compared = [excesses(epoch) for epoch in epochs(log) if epoch.kept]
    further = ", ".join(f"{each:.0f}" for _, each in compared[0][:3]) + " %" if compared and compared[0] else "none"
    return f"{cuts:,}, {length(len(written))}", f"{1000 * paved(program, room, log):.0f} ms", further


def cases(arguments, settings):
    """The numbers of outliers and half sides of the rows for a receiver."""
    if arguments.all:
        return [(outliers, half) for outliers in arguments.outliers for half in arguments.halves]
    own = outliers_of(settings)
    return [(outliers, arguments.halves[0]) for outliers in arguments.outliers] + [(own, half) for half in arguments.halves[1:]]


def print_rows(arguments, room, files):
    """The rows of a receiver."""
    for outliers, half in cases(arguments, files[2]):
        for splits in arguments.splits:
            values = {"outliers": outliers, "half": half * 1000, "bisections": splits}
            both = [cell for pairs in (True, False) for cell in cells(arguments.program, room, files, values, pairs)]
            row = (Path(files[0]).stem, outliers, f"{half:,} m", f"{splits:,}", *both)
            print("| " + " | ".join(map(str, row)) + " |", flush=True)


def main():
    parser = argparse.ArgumentParser(description=__doc__, formatter_class=argparse.RawDescriptionHelpFormatter)
    parser.add_argument("program", metavar="PROGRAM")
    parser.add_argument("files", metavar="FILE", nargs="+", help="OBS NAV SETTINGS of each receiver")
    parser.add_argument("--outliers", type=int, nargs="+", default=[1])
    parser.add_argument("--halves", type=int, nargs="+", default=[1000])
    parser.add_argument("--splits", type=int, nargs="+", default=[64, 512])
    parser.add_argument("--all", action="store_true", help="each number of outliers with each half side")
    arguments = parser.parse_args()
    if len(arguments.files) % 3 != 0:
        parser.error("a receiver has OBS, NAV and SETTINGS")
    print(HEAD)
    print("|" + "---|" * 10)
    with tempfile.TemporaryDirectory() as room:
        for first in range(0, len(arguments.files), 3):
            print_rows(arguments, Path(room), arguments.files[first:first + 3])
    return 0


if __name__ == "__main__":
    run_tool(main)
