#!/usr/bin/env python3
"""Checks a sample of a run's logs by the second checker, from the files as they were given.

usage: audit.py DATABASE LOGS [--sample N | --chain STATION] [--seed S] [--settings FOLDER] [--earlier LOGS]

DATABASE is network.sqlite, LOGS the folder logs of the same run, FOLDER its settings (beside LOGS unless
named). N parts (3) are drawn by a generator that begins with S; with --chain all parts of a station are taken,
in their order. Of each, the observation and navigation files under the names that the database has are
unpacked, and these, the settings and the log have to have the checksums of the database; then
second/recheck.py, which shares no code with gpscover, has to print the same verdict. A line a part.

A part of a chain is checked with the log from which it goes on, whose checksum has to be that of the part before
too: so with --chain each link is seen, and a line says where a chain begins. Where that log is of an earlier run,
--earlier names its folder logs.

Exit status: 0; 1 where a part isn't as the database says.
"""
import argparse
import random
import sqlite3
import subprocess
import sys
import tempfile
from pathlib import Path

from files import StepError, digest, unpack_all, unpack_one, unpacked

ROOT = Path(__file__).resolve().parent.parent


def files_of(base, part):
    """The rows of the files of a part by role; navigation files are a list."""
    columns = "role, name, sha256, verdict, command"
    words = f"SELECT {columns} FROM files WHERE station = ? AND day = ? AND part = ? ORDER BY rowid"
    found = {"navigation": []}
    for role, *row in base.execute(words, part):
        if role == "navigation":
            found[role].append(row)
        else:
            found[role] = row
    return found


def expect(path, wanted, what):
    """The checksum of a file has to be that of the database."""
    if digest(path)["sha256"] != wanted:
        raise StepError(f"{what} has another checksum")


def after_words(part, files, args, room):
    """The words that name the log from which a part goes on, which is unpacked and has to be that of the database."""
    if "after" not in files:
        return []
    behind, wanted, *_ = files["after"]
    folders = [folder for folder in (args.logs, args.earlier) if folder]
    found = [path for path in (Path(folder, part[0], f"{behind}.log.zst") for folder in folders) if path.exists()]
    if not found:
        raise StepError(
            f"the log of {behind}, from which it goes on, isn't there: --earlier names the logs of another run"
        )
    unpacked(found[0], f"{room}/after")
    expect(f"{room}/after", wanted, f"the log of {behind}, from which it goes on,")
    return ["--after", f"{room}/after"]


def behind_of(base, part, files):
    """How a line tells from which part a part goes on; the log of that one has to be the one that it was given."""
    if "after" not in files:
        return ""
    behind, wanted, *_ = files["after"]
    day, number = behind.split("/")
    words = "SELECT sha256 FROM files WHERE role = 'log' AND station = ? AND day = ? AND part = ?"
    for (own,) in base.execute(words, (part[0], day, int(number))):
        if own != wanted:
            raise StepError(f"it goes on from a log that isn't the one of {behind}")
    return f" behind {behind}"


def drawn(parts, args):
    """The parts that are checked: those of a station, or a sample."""
    if args.chain is not None:
        return [part for part in parts if part[0] == args.chain]
    return sorted(random.Random(args.seed).sample(parts, min(args.sample, len(parts))))


def verdict_of(part, files, args, room):
    """What the second checker says of a part, whose files are those of the database."""
    station, day, number = part
    beside = [files["beside"]] if "beside" in files else []
    for name, wanted, *_ in [files["observations"], *files["navigation"], *beside]:
        expect(name, wanted, name)
    obs, nav = unpack_all(files["observations"][0], [name for name, *_ in files["navigation"]], room)
    settings = Path(args.settings or Path(args.logs).parent / "settings", station, f"{day}.toml")
    log = f"{room}/log"
    unpacked(Path(args.logs, station, day, f"{number}.log.zst"), log)
    for path, role in (obs, "obs"), (nav, "nav"), (settings, "settings"), (log, "log"):
        expect(path, files[role][1], f"{role} ({path})" if role == "settings" else role)
    after = after_words(part, files, args, room)
    track = ["--track"] if files["log"][3] == "track" else []
    words = [
        sys.executable,
        ROOT / "second/recheck.py",
        *track,
        obs,
        nav,
        settings,
        log,
        *files["log"][0].split(),
        *after,
    ]
    for name, *_ in beside:
        unpack_one(name, f"{room}/station")
        expect(f"{room}/station", files["station"][1], "station")
        words += ["--station", f"{room}/station"]
    ended = subprocess.run(words, capture_output=True, text=True)
    return (ended.stdout or ended.stderr).strip()


def main():
    parser = argparse.ArgumentParser(description="Checks a sample of a run's logs by the second checker.")
    parser.add_argument("database")
    parser.add_argument("logs")
    which = parser.add_mutually_exclusive_group()
    which.add_argument("--sample", type=int, default=3)
    which.add_argument("--chain", metavar="STATION")
    parser.add_argument("--earlier", metavar="LOGS")
    parser.add_argument("--seed", type=int, default=0)
    parser.add_argument("--settings")
    args = parser.parse_args()
    base = sqlite3.connect(f"file:{args.database}?mode=ro", uri=True)
    parts = base.execute("SELECT station, day, part FROM files WHERE role = 'log' ORDER BY 1, 2, 3").fetchall()
    wrong, chosen = 0, drawn(parts, args)
    if not chosen:
        raise SystemExit(f"audit.py: no part{f' of {args.chain}' if args.chain else ''} is in the database")
    for part in chosen:
        files, behind = files_of(base, part), ""
        with tempfile.TemporaryDirectory() as room:
            try:
                behind = behind_of(base, part, files)
                said = verdict_of(part, files, args, room)
            except (StepError, OSError) as error:
                said = f"{error}"
        is_same = said == files["log"][2]
        wrong += not is_same
        more = "" if is_same else f", and not {files['log'][2]}"
        print(f"{part[0]} {part[1]} part {part[2]}{behind}: {said}{more}", flush=True)
    return 1 if wrong else 0


if __name__ == "__main__":
    sys.exit(main())
