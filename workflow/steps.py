#!/usr/bin/env python3
"""One step of the work on a part, on a day or on the whole run, as the rules of the Snakefile call it.

usage: steps.py STEP --out OUT [--station S --day D [--part N]] [--program P] [--name KEY=FILE ..] [WORD ..]

A step writes to a name in OUT/tmp of its own, and renames what it wrote when it is whole and on the disk. So a
file that is there under its own name is whole, whatever ended the step. While a step runs, a note of it stands
in OUT/notes; it goes with a good end, and holds the line for the user after a bad one.

Exit status: 0; 1 with one line, which names station, day and part, on standard error.
"""
import argparse
import contextlib
import csv
import os
import re
import resource
import shutil
import socket
import subprocess
import sys
import time
from pathlib import Path
from string import Template

import report
import tables
from epoch_table import ROW_HEAD, Piece, epoch_lines, handed_on
from gpscover.errors import Error
from gpscover.integrity import Limits
from gpscover.log import Box
from gpscover.observations import absent_codes, search_of
from gpscover.settings import Settings, toml
from files import StepError, digest, last_line, read_json, run, settle, unpack_all, unpack_one, unpacked, write_json
from network import BEHIND, COSTS, told

ROOT = Path(__file__).resolve().parent.parent
BOUNDS_HEAD = "[bounds]"


def numbers(text, kind):
    """The numbers of a word of the command line, or None where it is empty."""
    return tuple(map(kind, text.split(","))) if text else None


def run_on(words, what, settings, files):
    """Runs the program on files: their paths and the names that they were given, by role. A code that a file lacks is
    named."""
    try:
        run(words, what, stdout=subprocess.DEVNULL)
    except StepError as error:
        found = re.search(r"\b(obs|station) 16 CodeAbsent", f"{error}")
        path, name = files[found[1]] if found else ("", "")
        absent = absent_codes(path, Settings.read(settings)) if found else []
        if not absent:
            raise
        raise StepError(f"{error}: {name} has no {' and no '.join(absent)}") from None


# ---- unpack


def unpack(args, room):
    """Unpacks the files of a part, and notes what they were made of. Without a station its file is empty."""
    obs, nav = unpack_all(args.file["observations"], args.words, room)
    names = [("observations", args.file["observations"]), *(("navigation", name) for name in args.words)]
    Path(f"{room}/station").touch()
    if args.file["beside"]:
        unpack_one(args.file["beside"], f"{room}/station")
        names.append(("beside", args.file["beside"]))
    write_json(f"{room}/sources", [{"role": role, "name": name, **digest(name)} for role, name in names])
    settle(obs, args.file["obs"])
    settle(nav, args.file["nav"])
    settle(f"{room}/station", args.file["station"])
    settle(f"{room}/sources", args.file["sources"])


# ---- settings


def filled(path, place, beside):
    """The settings of a template: `$centre` is the station's place in mm, `$station` that of its station."""
    text = Path(path).read_text(encoding="utf-8")
    places = {"centre": place, "station": beside}
    try:
        return Template(text).substitute({key: list(at) for key, at in places.items() if at})
    except (KeyError, ValueError) as error:
        raise StepError(f"{path}: {error} can't be filled: does the station have a place?") from None


def metres(place):
    """A place in mm as words in m."""
    return [f"{at / 1000:.3f}" for at in place]


def by_elevation(args, text, place, room):
    """Settings whose tables of bounds are made by `gpslog bounds` of a first look without splits."""
    head, found, _ = text.partition(BOUNDS_HEAD)
    if not found or place is None:
        raise StepError("bounds: the template needs a line [bounds], and the station a place")
    first = "\n".join("bisections = 0" if it.startswith("bisections") else it for it in text.splitlines())
    Path(f"{room}/first").write_text(first + "\n", encoding="utf-8")
    obs, nav = unpack_all(args.file["observations"], args.words, room)
    words = [args.program, "solve", obs, nav, f"{room}/first", f"{room}/log"]
    run_on(words, "a first look", f"{room}/first", {"obs": (obs, args.file["observations"])})
    words = [sys.executable, "-m", "gpscover", "bounds", f"{room}/log", *metres(place), *args.bounds.split()]
    return head + run(words, "bounds", stdout=subprocess.PIPE).stdout.decode()


def settings(args, room):
    """The settings of a day: those of the station, or a template with its place and its bounds by elevation."""
    if not os.path.exists(args.file["template"]):
        raise StepError(f"{args.file['template']} isn't there")
    place, beside = (numbers(it, int) for it in (args.place, args.beside))
    text = filled(args.file["template"], place, beside)
    if args.bounds:
        text = by_elevation(args, text, place, room)
    Path(f"{room}/settings").write_text(text, encoding="utf-8")
    settle(f"{room}/settings", args.file["settings"])


# ---- solve, check, compress


def program_of(args):
    """The program, where it is one."""
    if not os.access(args.program, os.X_OK):
        raise StepError(f"{args.program} isn't a program: name another one in the configuration")
    return args.program


def station_words(args):
    """The words that name the station's file, where there is one."""
    path = args.file["station"]
    return ["--station", path] if os.path.getsize(path) else []


def command_words(args, room):
    """The two commands of a part, with the words that both have behind the files: `track` and `retrack` where the day's
    settings say how fast the receiver moves at most, else `solve` and `check`.

    What ties a part to another one stands here alone: in a chain it goes on from the log of the part before, and else
    each part is searched from the settings' search box on.
    """
    with contextlib.suppress(ValueError):  # settings that can't be read are refused by the program, which says why
        if "motion" in toml().loads(Path(args.file["settings"]).read_text(encoding="utf-8")):
            return "track", "retrack", [*args.words, *station_words(args), *after_words(args, room)]
        if args.behind:
            raise StepError("chain: the settings have no table [motion], so no day can go on from another")
    return "solve", "check", [*args.words, *station_words(args)]


def after_words(args, room):
    """The words that name the log of the part before, where there is one. It has to be the one that was checked."""
    zst, said = args.file.get("before"), args.file.get("said")
    if not zst:
        return []
    try:
        is_right = is_checked(zst, read_json(said), f"{room}/after")
    except StepError as error:
        put_aside(args, f"{error}", zst)
    if not is_right:
        put_aside(args, "it isn't the one that was checked", zst)
    return ["--after", f"{room}/after"]


def chain_box(args):
    """The search box of a part's settings in um, which a log that goes on from another one doesn't say; or None."""
    with contextlib.suppress(Error):
        return search_of(args.file["settings"], args.file["obs"])
    return None


def solve(args, room):
    """Solves or tracks the epochs of a part. The report is left out: the log has all of it."""
    command, _, more = command_words(args, room)
    given = {it["role"]: it["name"] for it in read_json(args.file["sources"])}
    files = [args.file[key] for key in ("obs", "nav", "settings")]
    roles = {"obs": (files[0], given["observations"]), "station": (args.file["station"], given.get("beside"))}
    run_on([program_of(args), command, *files, f"{room}/log", *more], command, files[2], roles)
    settle(f"{room}/log", args.file["log"])


def commit():
    """The commit of the repository, or an empty text."""
    words = ["git", "-C", str(ROOT), "rev-parse", "HEAD"]
    with contextlib.suppress(OSError):
        return subprocess.run(words, capture_output=True, text=True).stdout.strip()
    return ""


def put_aside(args, verdict, log=None):
    """Keeps a log that wasn't accepted, that of the part or of the one before, with what was said of it, where no later
    step looks."""
    log = log or args.file["log"]
    target = "/".join((args.out, "refused", *Path(log).parts[-3:]))
    os.makedirs(os.path.dirname(target), exist_ok=True)
    os.replace(log, target)
    Path(f"{target}.verdict").write_text(verdict + "\n", encoding="utf-8")
    raise StepError(f"the log isn't accepted: {verdict}; it is kept as {target}")


def check(args, room):
    """Checks a log with the options that it was solved with, and notes verdict and checksums."""
    solved_by, command, more = command_words(args, room)
    keys = ("obs", "nav", "settings", "log") + tuple(key for key in ("station", "after") if f"--{key}" in more)
    paths = {**args.file, "after": f"{room}/after"}
    files = {key: digest(paths[key]) for key in keys}
    words = [program_of(args), command, *(paths[key] for key in keys[:4]), *more]
    ended = subprocess.run(words, capture_output=True, text=True)
    said = last_line(ended.stdout or ended.stderr)
    if ended.returncode == 1 or ended.returncode == 3 and said.startswith("log "):
        put_aside(args, said)
    if ended.returncode != 0 or not said.startswith("yes "):
        raise StepError(f"{command}: status {ended.returncode}, {said}")
    if files != {key: digest(paths[key]) for key in keys}:
        put_aside(args, "a file has changed while it was checked")
    value = {"station": args.station, "day": args.day, "part": int(args.part), "options": " ".join(args.words)}
    value["command"] = solved_by
    if args.behind:
        value["chain"] = {"behind": args.behind, "search": chain_box(args)}
    program = {"sha256": digest(args.program)["sha256"], "commit": commit()}
    sources = read_json(args.file["sources"])
    write_json(f"{room}/verdict", {**value, "verdict": said, "files": files, "sources": sources, "program": program})
    settle(f"{room}/verdict", args.file["verdict"])


def compress(args, room):
    """Compresses a log, which has to be the one that the verdict is of."""
    wanted = read_json(args.file["verdict"])["files"]["log"]
    with open(f"{room}/zst", "wb") as file:
        run(["zstd", "-q", "-c", "-T1", args.file["log"]], "zstd", stdout=file)
    if unpacked(f"{room}/zst", f"{room}/log") != wanted:
        put_aside(args, "it isn't the one that was checked")
    settle(f"{room}/zst", args.file["zst"])


# ---- tables


def is_checked(zst, verdict, target):
    """Whether a compressed log, which is unpacked to `target`, is the one that the verdict is of."""
    return unpacked(zst, target) == verdict["files"]["log"]


def rows(args, room):
    """A line an epoch of a checked log. A log that isn't the checked one is put aside, so that it is made again."""
    args.file["log"], verdict = args.file["zst"], read_json(args.file["verdict"])
    try:
        is_right = is_checked(args.file["zst"], verdict, f"{room}/log")
    except StepError as error:
        put_aside(args, f"{error}")
    if not is_right:
        put_aside(args, "it isn't the one that was checked")
    known, limits = (numbers(it, float) for it in (args.known, args.limits))
    place = known and tuple(at / 1000 for at in known)
    with open(f"{room}/csv", "w", encoding="utf-8", newline="") as file:
        table = csv.writer(file, lineterminator="\n")
        table.writerow(ROW_HEAD)
        head, is_track = [args.station, args.day, args.part], verdict["command"] == "track"
        piece = (
            Piece(args.day, handed_on(args.file["before"]) if args.file.get("before") else None) if is_track else None
        )
        search = verdict.get("chain", {}).get("search")
        for values in epoch_lines(f"{room}/log", piece, place, limits and Limits(*limits), search and Box(*search)):
            table.writerow(head + values)
    settle(f"{room}/csv", args.file["csv"])


def halves(paths):
    """The verdicts of a day's parts, and as many files of another kind."""
    return paths[: len(paths) // 2], paths[len(paths) // 2 :]


def look(args, room):
    """The page of a day: `gpslog page` of the logs of its parts."""
    logs = []
    for verdict, zst in zip(*halves(args.words)):
        logs.append(f"{room}/{args.station}-{args.day}-{Path(zst).name.partition('.')[0]}.log")
        if not is_checked(zst, read_json(verdict), logs[-1]):
            raise StepError(f"{zst} isn't the log that was checked")
    words = ["--settings", args.file["settings"], "--title", f"{args.station} {args.day}"]
    if args.known:
        Path(f"{room}/places").write_text(" ".join(metres(numbers(args.known, int))) + "\n", encoding="ascii")
        words += ["--places", f"{room}/places"]
        words += ["--limit", *args.limits.split(",")] if args.limits else []
    run([sys.executable, "-m", "gpscover", "page", *logs, f"{room}/page.html", *words], "page")
    settle(f"{room}/page.html", args.file["html"])


def day(args, room):
    """One table of a day of a station: the rows of its parts in order, all of the same files."""
    verdicts, parts = halves(args.words)
    found = [read_json(path)["files"] for path in verdicts]
    for key in ("obs", "nav", "settings"):
        if len({files[key]["sha256"] for files in found}) != 1:
            raise StepError(f"the parts were made of different files ({key})")
    last = 0
    with open(f"{room}/csv", "w", encoding="utf-8", newline="") as whole:
        for number, path in enumerate(parts):
            with open(path, encoding="utf-8", newline="") as file:
                head = file.readline()
                whole.write(head if number == 0 else "")
                for line in file:
                    epoch, before = int(line.split(",", 4)[3]), last
                    if epoch <= before:
                        raise StepError(f"epoch {epoch} stands behind {before}")
                    last = epoch
                    whole.write(line)
    settle(f"{room}/csv", args.file["csv"])


def database(args, room):
    """The database of the run."""
    tables.make_database(args, f"{room}/sqlite")
    settle(f"{room}/sqlite", args.file["sqlite"])


def page(args, room):
    """The page of the run."""
    Path(f"{room}/html").write_text(report.page(args.file["sqlite"], args.epochs, *args.words), encoding="utf-8")
    settle(f"{room}/html", args.file["html"])


# ---- the frame of a step


def note_of(args):
    """The note of a step."""
    return Path(args.out, "notes", args.station or "run", args.day or "", f"{args.part or 'day'}.{args.step}")


def own_peak():
    """The peak of this process in KiB. `getrusage` would say that of the one that began it, if it had more."""
    with open("/proc/self/status", encoding="ascii", errors="replace") as file:
        return next((int(line.split()[1]) for line in file if line.startswith("VmHWM:")), 0)


def costs(args, began):
    """Notes in OUT/costs what the step took, itself and the programs that it called. No table has it."""
    child, own = (resource.getrusage(who) for who in (resource.RUSAGE_CHILDREN, resource.RUSAGE_SELF))
    line = {
        "step": args.step,
        "wall_s": round(time.time() - began, 3),
        "program_s": round(child.ru_utime + child.ru_stime, 3),
        "own_s": round(own.ru_utime + own.ru_stime, 3),
        "program_mb": round(child.ru_maxrss / 1024, 1),
        "own_mb": round(own_peak() / 1024, 1),
        "bytes": {key: os.path.getsize(path) for key, path in args.file.items() if os.path.isfile(path)},
    }
    path = Path(args.out, "costs", args.station or "run", args.day or "", f"{args.part or 'day'}.{args.step}.json")
    path.parent.mkdir(parents=True, exist_ok=True)
    write_json(path, line)


def arguments():
    """The words of the command line."""
    parser = argparse.ArgumentParser(description="One step of the workflow.")
    parser.add_argument("step", choices=COSTS)
    parser.add_argument("--out", required=True)
    parser.add_argument("--station", default="")
    parser.add_argument("--day", default="")
    parser.add_argument("--part", default="")
    parser.add_argument("--program", default="")
    parser.add_argument("--place", default="")
    parser.add_argument("--beside", default="")
    parser.add_argument("--bounds", default="")
    parser.add_argument("--known", default="")
    parser.add_argument("--limits", default="")
    parser.add_argument("--epochs", type=int, default=0)
    parser.add_argument("--name", nargs="+", default=[], metavar="KEY=FILE")
    args, args.words = parser.parse_known_args()
    if args.words[:1] == ["--"]:
        del args.words[0]
    args.behind = ""
    if BEHIND in args.words:  # the step's own: it follows the words of the program
        *args.words, _, args.behind = args.words
    args.file = dict(name.split("=", 1) for name in args.name)
    return args


def perform(args):
    """Does the step in a folder of its own, which goes with it."""
    name = f"{args.station}.{args.day}.{args.part}.{args.step}.{socket.gethostname()}.{os.getpid()}"
    room = Path(args.out, "tmp", name)
    room.mkdir(parents=True)
    try:
        globals()[args.step](args, str(room))
    finally:
        shutil.rmtree(room, ignore_errors=True)


def main():
    args, began = arguments(), time.time()
    note, name = note_of(args), told(args.station, args.day, args.part)
    with contextlib.suppress(OSError):  # a full disk has no room for a note either; the step says so by itself
        note.parent.mkdir(parents=True, exist_ok=True)
        note.write_text("")
    try:
        perform(args)
    except (StepError, Error, OSError) as error:
        line = f"{name}: {args.step}: {error}"
        print(f"gpscover: {line}", file=sys.stderr)
        with contextlib.suppress(OSError):
            note.write_text(line + "\n", encoding="utf-8")
        return 1
    with contextlib.suppress(OSError):
        note.unlink()
        costs(args, began)
    return 0


if __name__ == "__main__":
    sys.exit(main())
