"""Puts the evidence of a run together in one folder, and checks a bundle that somebody else made.

usage: gpslog evidence make FOLDER OBS NAV SETTINGS LOG [--station STATION] [--zones ZONES]
[--track [--after EARLIER]] [--from N] [--to N] [--program GPSCOVER]
       gpslog evidence check FOLDER [--sha256 HEX] [--other-program | --second-only] [--program
GPSCOVER]

`make` copies the four files into a new FOLDER, has both checkers test the log, GPSCOVER (the
program that ./gpscover runs) and second/recheck.py, and writes FOLDER/evidence.txt: the sizes and
checksums of the files and of both checkers, the versions, the options, both verdicts, and how many
epochs the observations have, and of these are in the log, paved, few, empty, reach the search box,
or are left out, which are those that the log doesn't have. --from and --to are those that the log
was solved with. --track says that it is one of `track`: it is checked as one, by `retrack` and by
recheck.py --track, and where it ends with an epoch that keeps no box this one is named. --after
names the log that it goes on from: that is a file of the bundle too, and both checkers are given
it. What is signed says where that one left the receiver; whether it is right is its own evidence,
and a chain of tracks is as many bundles. --station
names the observation file of the station of a log that was solved with one: it is a fifth file of
the bundle, and both checkers are given it. --zones names a file of zones: it is in the bundle too,
with what `guard` of GPSCOVER says of it as receiver.answers, which `gpslog answers` has to say of
the log's boxes as well. Where not both checkers say yes, of as many boxes, or the answers differ,
there is no evidence: nothing is left, and the verdicts are printed.

evidence.txt begins with what is signed, in words: what is declared, and behind the verdicts a line
for each epoch with where the receiver was then. The checksum of evidence.txt, which is printed
last, is what is signed or sent by another way.

`check` makes all of this anew from these files and tells each line of evidence.txt that is
another, each file that is missing and each that doesn't belong there. Where anything in FOLDER
isn't a file of its own, but a link, a folder or a device, nothing of it is read. --sha256 compares
the checksum of evidence.txt too. Where the checkers or the versions here are others, that is told
as well; with --other-program only what they say has to be the same. With --second-only GPSCOVER isn't
run: the second checker and `gpslog answers` alone have to say what the bundle does.

docs/CERTIFIER.md says what such a bundle shows and what it doesn't.

Exit status: 0; 1 where a file can't be read or written, a verdict isn't yes, or the bundle differs;
2 for a wrong command line.
"""

from __future__ import annotations

import argparse
import contextlib
import hashlib
import re
import shutil
import stat
import subprocess
import sys
from collections import Counter
from collections.abc import Iterator, Sequence
from dataclasses import dataclass
from pathlib import Path

from gpscover import zones
from gpscover.command import Command, work_of
from gpscover.errors import Error, UsageError
from gpscover.log import Box, PathLike, epochs
from gpscover.observations import file_epochs, search_of
from gpscover.program import home, own_program
from gpscover.region import reaches
from gpscover.settings import Settings
from gpscover.signed import claim_lines, epoch_lines
from gpscover.zones import read_zones

Lines = list[tuple[str, str]]  # name, and what is found

SECOND = "second/recheck.py"  # from the top of the repository
SHEET = "evidence.txt"
FILES = {"obs": "receiver.obs", "nav": "receiver.nav", "settings": "settings.toml", "log": "receiver.log"}
STATION = {"station": "station.obs"}  # where there is one
AFTER = {"after": "earlier.log"}  # from which a track goes on
ZONES = {"zones": "receiver.zones", "answers": "receiver.answers"}  # where there are some
HEAD = "gpscover evidence 2"
FORMER_HEAD = "gpscover evidence 1"
ITSELF = ("program", "second", "version", "release")  # the lines that say who checked
FIRST = ("program", "version", "release", "check", "retrack", "guard")  # those of the program
GREATEST = 200_000  # the greatest epoch number
OPTIONS = re.compile(r"(--track )?--from ([1-9]\d{0,5}) --to ([1-9]\d{0,5})", re.ASCII)


@dataclass
class Options:
    """What a log was made with: its first and its last epoch, whether it is one of `track`, and
    whether there are a station, zones and an earlier log."""

    first: int
    last: int
    track: bool = False
    station: bool = False
    zones: bool = False
    after: bool = False

    def files(self) -> dict[str, str]:
        """The names of the files by their roles."""
        more = (STATION if self.station else {}) | (AFTER if self.after else {}) | (ZONES if self.zones else {})
        return FILES | more

    def more_words(self, folder: Path) -> list[str]:
        """The words that name the station's file and the earlier log, for both checkers."""
        words = ["--station", str(folder / STATION["station"])] if self.station else []
        return words + (["--after", str(folder / AFTER["after"])] if self.after else [])

    def earlier(self, folder: Path) -> Path | None:
        """The earlier log, if there is one."""
        return folder / AFTER["after"] if self.after else None

    def search(self, folder: Path) -> Box | None:
        """The search box of the settings, where the log begins in a smaller one."""
        return search_of(folder / FILES["settings"], folder / FILES["obs"]) if self.after else None

    def command(self) -> str:
        """The program's command that checks it."""
        return "retrack" if self.track else "check"

    def track_words(self) -> list[str]:
        """The word, if any, by which the sheet and the second checker are told that it is one of
        `track`."""
        return ["--track"] if self.track else []

    def epochs(self) -> list[str]:
        """The words that select the epochs, for both checkers."""
        return ["--from", str(self.first), "--to", str(self.last)]


def checksum(path: PathLike) -> str:
    """The SHA-256 of a file, in hexadecimal digits."""
    digest = hashlib.sha256()
    with open(path, "rb") as file:
        while part := file.read(1 << 20):
            digest.update(part)
    return digest.hexdigest()


def identity(path: PathLike) -> str:
    """The size of a file in bytes and its checksum."""
    try:
        return f"{Path(path).stat().st_size} bytes sha256 {checksum(path)}"
    except OSError as error:
        return f"can't be read: {error.strerror}"


def version(program: str) -> str:
    """The lines of `./gpscover --version`, the last of which is of the program that it runs: by
    what it was proved and built."""
    ran = subprocess.run([str(home() / "gpscover"), "--version"], capture_output=True, text=True)
    *lines, own = ran.stdout.splitlines()
    with contextlib.suppress(OSError):
        if f"SHA-256 {checksum(program)}, " in own:
            return ", ".join([*lines, own.partition(", ")[2]])
    return ", ".join([*lines, "another program"])


def release() -> str:
    """The sums of the release and of the sources that it was proved and built of, and by which kit."""
    lines = (home() / "release/SHA256SUMS").read_text(encoding="utf-8").splitlines()
    sums = {name: first for first, _, name in (line.partition("  ") for line in lines)}
    return f"sha256 {sums.get('gpscover')}, of sources with sha256 {sums.get('sources')}, {lines[-1]}"


def verdict(words: list[str], between: str = " ") -> str:
    """What a checker says, with this between its lines, or how it ended."""
    try:
        ran = subprocess.run(words, stdin=subprocess.DEVNULL, capture_output=True, text=True)
    except OSError as error:
        return f"can't be run: {error.strerror}"
    said = between.join((ran.stdout + ran.stderr).split("\n")).strip()
    return said if ran.returncode in (0, 1) else f"status {ran.returncode}: {said}"


def counts(folder: Path, options: Options) -> str:
    """What the log says of the epochs of the file, in one line."""
    marks: Counter[str] = Counter()
    anew: list[int] = []  # the epochs behind which a track begins anew
    ended = 0  # the epoch that ends a track, if it is the last one
    try:
        total = file_epochs(folder / FILES["obs"])
        for epoch in epochs(folder / FILES["log"], options.search(folder)):
            marks["few" if epoch.few else "paved"] += 1
            marks["empty"] += epoch.empty
            marks["reach"] += reaches(epoch)
            if ended:  # by an epoch before this one
                anew.append(ended)
            ended = epoch.index if epoch.empty and options.track else 0
    except (Error, OSError, ValueError) as error:
        return f"can't be counted: {error}".replace(str(folder) + "/", "")
    there = marks["few"] + marks["paved"]
    return (
        f"{total} in the file, {there} in the log: {marks['paved']} paved, {marks['few']} few,"
        f" {marks['empty']} empty, {marks['reach']} reach the search box; {total - there} left out"
        + "".join(f"; the track begins anew behind epoch {index}, which keeps no box" for index in anew)
        + (f"; the track ends with epoch {ended}, which keeps no box" if ended else "")
    )


def answers(folder: Path) -> list[str]:
    """What the log's boxes and bounds say of the zones, by `gpslog answers`."""
    second, things = read_zones(folder / ZONES["zones"])
    return list(zones.lines(second, things, zones.kept(epochs(folder / FILES["log"]))))


def guard_words(folder: Path, program: str, options: Options) -> list[str]:
    """The words by which the program says it."""
    files = [str(folder / name) for name in (*list(FILES.values())[:3], ZONES["zones"], FILES["log"])]
    more = options.track_words() + options.epochs() + options.more_words(folder)
    return [program, "guard", *files, *more]


def compared(folder: Path, found: list[str]) -> str:
    """Whether these answers are those of the bundle."""
    there = (folder / ZONES["answers"]).read_text(encoding="utf-8", errors="replace").splitlines()
    return f"the {len(there)} lines of {ZONES['answers']}" if there == found else f"others than {ZONES['answers']}"


def zone_lines(folder: Path, program: str | None, options: Options) -> Iterator[tuple[str, str]]:
    """Who says what of the zones, and what is said of all epochs together."""
    if program is not None:
        yield "guard", compared(folder, verdict(guard_words(folder, program, options), "\n").split("\n"))
    try:
        found = answers(folder)
    except (Error, OSError) as error:
        found = [str(error)]
    yield "again", compared(folder, found)
    for line in found:
        kind, _, rest = line.partition(" ")
        if kind in ("zone", "reach"):
            name, _, told = rest.partition(" ")
            yield f"{kind}-{name}", told


def claims(folder: Path, options: Options) -> Lines:
    """What is signed, in words."""
    try:
        more = options.earlier(folder), options.search(folder)
        return claim_lines(Settings.read(folder / FILES["settings"]), folder / FILES["log"], options.track, *more)
    except (Error, OSError) as error:
        return [("claim", f"none: {error}".replace(str(folder) + "/", ""))]


def regions(folder: Path, options: Options) -> Iterator[tuple[str, str]]:
    """Where the receiver was in each epoch, in words; up to where the log can be read."""
    with contextlib.suppress(Error, OSError):
        yield from epoch_lines(folder / FILES["log"], options.search(folder))


def made(folder: Path, program: str | None, second: Path, options: Options) -> Lines:
    """The lines of the evidence in order; without a program those that need none."""
    files = [str(folder / name) for name in FILES.values()]
    command, chosen = options.command(), options.epochs()
    words = [*files, *chosen, *options.more_words(folder)]
    again = [sys.executable, str(second), *options.track_words(), *words]
    lines = claims(folder, options)
    lines += [(role, f"{name} {identity(folder / name)}") for role, name in options.files().items()]
    if program is not None:
        lines += [("program", identity(program)), ("version", version(program)), ("release", release())]
    lines += [("second", identity(second)), ("options", " ".join(options.track_words() + chosen))]
    if program is not None:
        lines.append((command, verdict([program, command, *words])))
    lines += [("recheck", verdict(again)), ("epochs", counts(folder, options))]
    if options.zones:
        lines += zone_lines(folder, program, options)
    return [*lines, *regions(folder, options)]


def sheet(lines: Lines) -> str:
    """The text of the evidence."""
    return "".join(f"{line}\n" for line in [HEAD, *(f"{name} {found}" for name, found in lines)])


def dissent(said: dict[str, str], command: str) -> str:
    """What the checkers that were asked say where it isn't the same yes, or an empty text."""
    first = said.get(command, said["recheck"])
    if not first.startswith("yes ") or said["recheck"] != first:
        return f"{command} says {first}, recheck says {said['recheck']}"
    told = [f"{who} says {said[who]}" for who in ("guard", "again") if said.get(who, "").startswith("others ")]
    return ", ".join(told)


def run_make(args: argparse.Namespace) -> None:
    """Makes a bundle."""
    if args.after is not None and not args.track:
        raise UsageError("--after needs --track")
    folder = Path(args.bundle)
    given = (args.station, args.zones, args.after)
    options = Options(args.first, args.last, args.track, *(path is not None for path in given))
    more = [path for path in (args.station, args.after, args.zones) if path is not None]
    paths = [args.obs, args.nav, args.settings, args.log, *more]
    program = str(args.program or own_program())
    folder.mkdir()
    try:
        lines = fill(folder, paths, program, home() / SECOND, options)
    except BaseException:
        shutil.rmtree(folder)
        raise
    print(sheet(lines), end="")
    print(f"{SHEET} sha256 {checksum(folder / SHEET)}")


def fill(folder: Path, paths: Sequence[PathLike], program: str, second: Path, options: Options) -> Lines:
    """Puts the files of a bundle and its evidence into a folder. The evidence's lines."""
    for path, name in zip(paths, options.files().values()):
        shutil.copyfile(path, folder / name)
    if options.zones:
        told = verdict(guard_words(folder, program, options), "\n")
        (folder / ZONES["answers"]).write_text(f"{told}\n", encoding="utf-8", newline="\n")
    lines = made(folder, program, second, options)
    if told := dissent(dict(lines), options.command()):
        raise Error(f"no evidence: {told}")
    (folder / SHEET).write_text(sheet(lines), encoding="utf-8", newline="\n")
    return lines


def read_sheet(folder: Path) -> tuple[Lines, Options]:
    """What evidence.txt says: (name, what was found) in order, and the options."""
    lines = (folder / SHEET).read_text(encoding="utf-8", errors="replace").splitlines()
    parts = (line.partition(" ") for line in lines[1:])
    said = [(name, told) for name, _, told in parts]
    if lines[:1] == [FORMER_HEAD]:
        raise Error(
            f"{folder / SHEET} is of a gpscover before this one: check it by the one that its line `version` names"
        )
    found = OPTIONS.fullmatch(dict(said).get("options", ""))
    if lines[:1] != [HEAD] or not found or max(map(int, found.groups()[1:])) > GREATEST:
        raise Error(f"{folder / SHEET}: this isn't evidence of gpscover, or it was changed")
    track, first, last = found.groups()
    names = dict(said)
    return said, Options(int(first), int(last), bool(track), *(role in names for role in ("station", "zones", "after")))


def differences(said: Lines, found: Lines, is_other: bool) -> Iterator[str]:
    """What evidence.txt says otherwise than what is found, a line each."""
    if [name for name, _ in said] != [name for name, _ in found]:
        yield f"the lines of {SHEET} aren't those of evidence: {' '.join(name for name, _ in said)}"
    was = dict(said)
    for name, value in found:
        if was.get(name) != value and not (is_other and name in ITSELF):
            yield f"{name}: the bundle says {was.get(name, 'nothing')}; here it is {value}"


def refuse_links(folder: Path) -> None:
    """Error where anything in a bundle isn't a file of its own: it could be read from elsewhere, or
    never end."""
    for path in sorted(folder.iterdir()):
        if not stat.S_ISREG(path.lstat().st_mode):
            raise Error(f"{path} isn't a file of the bundle's own, but a link, a folder or a device")


def strangers(folder: Path, options: Options) -> Iterator[str]:
    """The files of a bundle that are missing, and those that don't belong there."""
    wanted, there = {*options.files().values(), SHEET}, {path.name for path in folder.iterdir()}
    yield from (f"{name} is missing" for name in sorted(wanted - there))
    yield from (f"{name} doesn't belong to the bundle" for name in sorted(there - wanted))


def run_check(args: argparse.Namespace) -> None:
    """Checks a bundle."""
    folder = Path(args.bundle)
    refuse_links(folder)
    said, options = read_sheet(folder)
    program = None if args.second_only else str(args.program or own_program())
    if program is None:
        said = [(name, told) for name, told in said if name not in FIRST]
    found = made(folder, program, home() / SECOND, options)
    told = [*strangers(folder, options), *differences(said, found, args.other_program)]
    if args.sha256 not in (None, checksum(folder / SHEET)):
        told.append(f"{SHEET} has the checksum {checksum(folder / SHEET)}")
    now = dict(found)
    if others := dissent(now, options.command()):
        told.append(f"the checkers don't both say yes: {others}")
    if told:
        raise Error("the bundle differs\n" + "\n".join(told))
    who = "the second checker; the first one wasn't run" if args.second_only else "both checkers"
    print(f"the bundle is as it says: {now['recheck']} of {who}; {now['epochs']}")


def epoch_number(text: str) -> int:
    """A number of an epoch among the words."""
    if not text.isdecimal() or not 1 <= int(text) <= GREATEST:
        raise argparse.ArgumentTypeError(f"{text} isn't a number from 1 to {GREATEST}")
    return int(text)


def arguments(parser: argparse.ArgumentParser) -> None:
    """The words of the command line."""
    ways = parser.add_subparsers(required=True)
    make = ways.add_parser("make", help="copy the files, check the log twice, and write what was found")
    check = ways.add_parser("check", help="find all of it anew and compare")
    for way, work in ((make, run_make), (check, run_check)):
        way.add_argument("bundle", metavar="FOLDER")
        way.add_argument("--program", help="the program (the one that ./gpscover runs)")
        way.set_defaults(work=work)
    for name in ("obs", "nav", "settings", "log"):
        make.add_argument(name, metavar=name.upper())
    make.add_argument("--station", help="the observation file of the station, if there was one")
    make.add_argument("--zones", help="a file of zones, of which the program and the log's boxes are asked")
    make.add_argument("--track", action="store_true", help="the log is one of `track`")
    make.add_argument("--after", metavar="EARLIER", help="the log from which the track goes on")
    make.add_argument(
        "--from", dest="first", type=epoch_number, default=1, metavar="N", help="the log's first epoch (1)"
    )
    make.add_argument(
        "--to", dest="last", type=epoch_number, default=GREATEST, metavar="N", help=f"its last one ({GREATEST})"
    )
    check.add_argument("--sha256", metavar="HEX", help=f"the checksum that {SHEET} has to have")
    asked = check.add_mutually_exclusive_group()
    asked.add_argument("--other-program", action="store_true", help="let the checkers and versions here be others")
    asked.add_argument("--second-only", action="store_true", help="run the second checker alone")


ABOUT = "evidence of a run: makes a bundle, or checks one"
COMMAND = Command("evidence", ABOUT, arguments, work_of, __doc__)
