#!/usr/bin/env python3
"""Tables what the steps of a run took, by what each left in OUT/costs.

usage: costs.py OUT [--wall SECONDS --jobs N]

A line has a step, how often it was done, the seconds by the clock from its begin to its end, the processor time
of the programs that it called and of itself, the greatest peak of memory of both in MB (that of a program at
least what the step had when it called it), and the bytes of what it wrote. With --wall, how long the whole run
took on so many jobs, a last line says what part of that wasn't `solve` and `check`. A step that was done twice
counts once.
"""
import argparse
import json
import sys
from pathlib import Path

from network import COSTS

WRITTEN = {
    "settings": "settings",
    "unpack": "obs",
    "solve": "log",
    "check": "verdict",
    "compress": "zst",
    "rows": "csv",
    "look": "html",
    "day": "csv",
    "database": "sqlite",
    "page": "html",
}


def step_row(step, found):
    """The line of a step."""
    sums = [sum(it[key] for it in found) for key in ("wall_s", "program_s", "own_s")]
    peaks = [max(it[key] for it in found) for key in ("program_mb", "own_mb")]
    written = sum(it["bytes"].get(WRITTEN[step], 0) for it in found)
    return [step, f"{len(found):,}", *(f"{it:.1f}" for it in sums), *(f"{it:.0f}" for it in peaks), f"{written:,}"]


def main():
    parser = argparse.ArgumentParser(description="What the steps of a run took.")
    parser.add_argument("out")
    parser.add_argument("--wall", type=float)
    parser.add_argument("--jobs", type=int, default=1)
    args = parser.parse_args()
    found = {step: [] for step in COSTS}
    for path in sorted(Path(args.out, "costs").rglob("*.json")):
        it = json.loads(path.read_text(encoding="utf-8"))
        found[it["step"]].append(it)
    head = ["step", "done", "clock s", "program s", "own s", "program MB", "own MB", "bytes"]
    for cells in (head, ["---"] * len(head), *(step_row(step, its) for step, its in found.items() if its)):
        print("| " + " | ".join(cells) + " |")
    if args.wall:
        work = sum(it["wall_s"] for step in ("solve", "check") for it in found[step])
        print(
            f"{work:.1f} s of solve and check in {args.wall:.1f} s on {args.jobs} jobs:"
            f" {100 * (1 - work / (args.wall * args.jobs)):.1f} % is all else"
        )
    return 0


if __name__ == "__main__":
    sys.exit(main())
