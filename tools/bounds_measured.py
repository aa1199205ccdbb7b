#!/usr/bin/env python3
"""Measures the certified bounds that `solve` writes for recorded receivers: the tables of docs/MEASURED.md.

usage: python3 -m tools.bounds_measured PROGRAM DATA [--every N] [--to N]

PROGRAM is the built program, and DATA a folder with the files NAME.obs, NAME.nav and NAME_MODE.toml of the recorded
pairs. Each run has eight azimuths, pairs, and the settings of its pair but for what is said here.

- Of the six pairs in their modes, all epochs (or the first N of --to), half side 1 km, 8 splits, q = 0, 1 and 2: how
  many epochs are paved and how many of these have ten bounds or more; the bytes of the bounds an epoch; how much
  further the bounds that were asked for lie than the exact ones in every N-th epoch (6), on average and at worst, by
  tools/certified_table.py, where no corner lies beyond the search box, which cuts bounds and not corners; and the yes
  that `check`, `judge` and the second checker say.
- From far: of the four pairs in single mode the first 60 epochs, with the delays mapped by elevation, rows renewed, and
  q = 1, from half sides of 1 and of 100 km: how much further the bounds from 100 km lie, on average and at worst, with
  8 and 64 splits.

Exit status: 0; 1 where a run fails, a yes differs or a file can't be read; 2 for a wrong command line.
"""
import argparse
import math
import re
import sys
import tempfile
from pathlib import Path

from gpscover.bounded import asked_of, bound_lines
from gpscover.command import run_tool
from gpscover.log import UM_PER_M, epochs
from tools.certified_table import Exact
from tools.pairs_table import Failed, ended, setting

RECHECK = Path(__file__).resolve().parents[1] / "second/recheck.py"
SINGLE = ("cres_2008", "geonet0759_2005", "javad_2011", "ubx_2008")
RUNS = (("cres_2008", "single"), ("geonet0759_2005", "dual"), ("geonet0759_2005", "single"), ("javad_2011", "dual"),
        ("javad_2011", "single"), ("ubx_2008", "single"))
ASKED = 10  # eight azimuths, up and down
KM = 1_000_000  # mm
MAPPED = {"troposphere": "[0, 0]\nzenith = [1600, 3000]", "ionosphere": "[0, 0]\nvertical = [0, 10000]"}
FAR = 60  # epochs


def settings_of(data, name, mode, values):
    """The text of a pair's settings with eight azimuths, pairs, and other values of some keys of the table [search]."""
    text = (data / f"{name}_{mode}.toml").read_text(encoding="utf-8")
    for key, value in {"pairs": "true", "directions": 8, **values}.items():
        text = setting(text, key, value)
    return text


def mapped(text):
    """The settings with both delays declared overhead, and mapped."""
    for key, value in MAPPED.items():
        text, count = re.subn(rf"(?m)^{key} *=.*$", f"{key} = {value}", text)
        if count != 1:
            raise Failed(f"the settings don't have the key `{key}` on a line of its own")
    return text


class Runner:
    """Solves pairs of DATA by the program, in a folder."""

    def __init__(self, program, data, room):
        self.program, self.data, self.room = program, data, room

    def files(self, name, text, options):
        """The words of a run behind its command; the settings are written."""
        path = self.room / "settings.toml"
        path.write_text(text, encoding="utf-8")
        return [self.data / f"{name}.obs", self.data / f"{name}.nav", path, self.room / "a.log", *options]

    def solved(self, name, text, options):
        """The paved epochs of a run."""
        ended([self.program, "solve", *self.files(name, text, options), "--quiet"])
        return [epoch for epoch in epochs(self.room / "a.log") if not epoch.few]

    def yes(self, name, text, options):
        """What all checkers say of the log of the last run."""
        words = self.files(name, text, options)
        checkers = [self.program, "check", *words], [self.program, "judge", words[3]], [sys.executable, RECHECK, *words]
        said = {ended(checker)[0] for checker in checkers}
        if len(said) != 1:
            raise Failed(f"the checkers don't say the same of {name}")
        return said.pop().strip()


def ends_of(values):
    """A mean and the greatest, in mm."""
    return f"{sum(values) / len(values):.1f}, {max(values):.0f} mm" if values else "none"


def is_inside(epoch, exact):
    """Whether all corners of what the rows of an epoch allow lie in its search box."""
    centre, corners = exact.of(epoch)
    ends = [(low / UM_PER_M - at, high / UM_PER_M - at) for low, high, at in zip(epoch.root.low, epoch.root.high, centre)]
    return all(low <= part <= high for corner in corners for (low, high), part in zip(ends, corner))


def print_near(runner, every, options):
    """The table of the bounds themselves."""
    print("| recorded pair | q | paved | ten bounds | bytes an epoch | bounds: mean, worst | all say |\n|" + "---|" * 7)
    for outliers in range(3):
        for name, mode in RUNS:
            values = {"half": KM, "bisections": 8, "outliers": outliers, "renew": "false"}
            text = settings_of(runner.data, name, mode, values)
            found, exact = runner.solved(name, text, options), Exact()
            ten = sum(len(epoch.bounds) >= ASKED for epoch in found)
            size = sum(len(line) + 1 for epoch in found for bound in epoch.bounds for line in bound_lines(bound))
            compared = [epoch for epoch in found[every - 1 :: every] if epoch.kept and is_inside(epoch, exact)]
            more = [excess for epoch in compared for excess in exact.excesses(epoch, asked_of(epoch))]
            cells = f"{name}, {mode}", outliers, len(found), ten, f"{size / len(found):,.0f}", ends_of(more)
            print("|", " | ".join(map(str, (*cells, runner.yes(name, text, options)))), "|", flush=True)


def further(near, far):
    """By how many mm the bounds of an epoch lie further than those of another along the same directions."""
    ends = {bound.direction: bound.most for bound in asked_of(near)}
    both = [bound for bound in asked_of(far) if bound.direction in ends]
    return [(bound.most - ends[bound.direction]) / math.hypot(*bound.direction) / 1000 for bound in both]


def print_far(runner, epochs_most):
    """The table of the bounds from far."""
    print("| recorded pair | 8 splits: from 100 km | 64 splits |\n|" + "---|" * 3)
    options = ["--to", str(min(FAR, epochs_most or FAR))]
    for name in SINGLE:
        cells = []
        for splits in 8, 64:
            runs = []
            for half in KM, 100 * KM:
                values = {"half": half, "bisections": splits, "outliers": 1, "renew": "true"}
                runs.append(runner.solved(name, mapped(settings_of(runner.data, name, "single", values)), options))
            if len(runs[0]) != len(runs[1]):
                raise Failed(f"the runs of {name} don't pave the same epochs")
            cells.append(ends_of([more for near, far in zip(*runs) for more in further(near, far)]))
        print("|", " | ".join([name, *cells]), "|", flush=True)


def main():
    parser = argparse.ArgumentParser(description=__doc__, formatter_class=argparse.RawDescriptionHelpFormatter)
    parser.add_argument("program", metavar="PROGRAM")
    parser.add_argument("data", metavar="DATA", type=Path)
    parser.add_argument("--every", type=int, default=6, metavar="N", help="compare every N-th epoch (6)")
    parser.add_argument("--to", type=int, metavar="N", help="the first N epochs alone")
    words = parser.parse_args()
    with tempfile.TemporaryDirectory() as room:
        runner = Runner(words.program, words.data, Path(room))
        print_near(runner, words.every, ["--to", str(words.to)] if words.to else [])
        print()
        print_far(runner, words.to)
    return 0


if __name__ == "__main__":
    run_tool(main)
