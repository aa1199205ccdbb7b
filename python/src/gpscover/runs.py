"""Runs the proved program and gives what it found as values.

    from gpscover import check, solve

    solve("receiver.obs", "receiver.nav", "settings.toml", "receiver.log")
    print(check("receiver.obs", "receiver.nav", "settings.toml", "receiver.log").boxes)

The program is the one that is named, that of the variable GPSCOVER, that of ./gpscover in the
repository, or `gpscover` on the path. Nothing here is proved: what a run says is the program's.
"""

from __future__ import annotations

import contextlib
import re
import subprocess
import sys
import tempfile
from collections.abc import Callable, Iterator
from dataclasses import dataclass
from functools import cached_property
from pathlib import Path

from gpscover.errors import Error
from gpscover.log import Log, PathLike, open_log, open_text
from gpscover.program import find_program
from gpscover.settings import Settings

__all__ = ["Guarded", "ProgramError", "Refused", "Report", "Verdict", "check", "guard", "judge"]
__all__ += ["progress_bar", "retrack", "solve", "track"]

Progress = Callable[[int], None]  # is called with the number of each epoch that is done

YES = re.compile(r"yes (\d+)")
NO = re.compile(r"no (\d+) (\w+) line (\d+)(.*)")
REFUSED = re.compile(r"(settings|nav|station|obs|zones|log|after|rows) (\d+) (\w+)(?: line (\d+))?(.*)")


class ProgramError(Error):
    """A run that ended without an answer: its status, and what it said."""

    def __init__(self, status: int, said: str) -> None:
        super().__init__(said or f"the program ended with {status}")
        self.status, self.said = status, said


class Refused(ProgramError):
    """A file that isn't accepted, by the number, the name and the line of docs/ERRORS.md."""

    def __init__(self, status: int, said: str, role: str, reason: tuple[int, str, int | None]):
        super().__init__(status, said)
        self.role = role  # settings, nav, station, obs, zones, log or rows
        self.number, self.name, self.line = reason


@dataclass(frozen=True)
class Report:
    """What a run of `solve` or `track` made. What it says beside the log is read off that when it is asked for."""

    log: Log
    tracked: bool  # whether the log is one of `track`

    @property
    def epochs(self) -> int:
        """How many the log has."""
        return self.ends[0]

    @property
    def lost(self) -> int | None:
        """The number of the epoch in which a receiver that moves was lost."""
        return self.ends[1]

    @cached_property
    def ends(self) -> tuple[int, int | None]:
        """How many epochs the log has, and the last one's number where it ends a track: where it keeps no box."""
        count, last, kept = 0, None, True
        with open_text(self.log.path) as file:
            for line in file:
                word, _, rest = line.partition(" ")
                if word in ("epoch", "few"):
                    count, last, kept = count + 1, int(rest.split(" ")[0]), word == "few"
                elif word in ("in", "edge"):
                    kept = True
        return count, last if self.tracked and not kept else None


@dataclass(frozen=True)
class Verdict:
    """A yes with the number of kept boxes, or a no with the test that fails and the log's line."""

    yes: bool
    boxes: int | None = None
    number: int | None = None
    name: str | None = None
    line: int | None = None

    def __bool__(self) -> bool:
        return self.yes


@dataclass(frozen=True)
class Guarded:
    """What is surely true of zones and directions: of an epoch, or of all where it is None."""

    epoch: int | None
    kind: str  # zone, reach or few
    name: str
    told: tuple[str, ...]  # outside, inside or open; the two ends of a reach, or none; the counts


def refusal(status: int, said: str) -> ProgramError:
    """The error of a run that ended with a status and these words."""
    found = REFUSED.match(said)
    if status == 3 and found:
        role, number, name, line, _ = found.groups()
        return Refused(status, said, role, (int(number), name, int(line) if line else None))
    return ProgramError(status, said)


def no_of(said: str) -> Verdict | None:
    """The verdict of a line that says no, or None."""
    found = NO.match(said)
    if found is None:
        return None
    return Verdict(False, None, int(found[1]), found[2], int(found[3]))


@contextlib.contextmanager
def settings_file(settings: PathLike | Settings) -> Iterator[str]:
    """The path of a file with the settings."""
    if not isinstance(settings, Settings):
        yield str(settings)
        return
    with tempfile.TemporaryDirectory() as room:
        path = Path(room) / "settings.toml"
        settings.write(path)
        yield str(path)


def chosen(first: int | None, last: int | None, station: PathLike | None, after: PathLike | None = None) -> list[str]:
    """The words that select epochs, and that name the file of a station and an earlier log."""
    given = {"--from": first, "--to": last, "--station": station, "--after": after}
    return [word for name, it in given.items() if it is not None for word in (name, str(it))]


def lines_of(words: list[str]) -> Iterator[str]:
    """The lines that a run prints. ProgramError where it ends with another status than 0 or 1."""
    with tempfile.TemporaryFile("w+", encoding="utf-8", errors="replace") as errors:
        try:
            run = subprocess.Popen(words, stdout=subprocess.PIPE, stderr=errors, text=True)
        except OSError as error:
            raise ProgramError(125, f"{words[0]} can't be run: {error.strerror}") from None
        with run:
            try:
                yield from (line.rstrip("\n") for line in run.stdout or ())
            except GeneratorExit:
                run.kill()
                raise
        errors.seek(0)
        if run.returncode not in (0, 1):
            raise refusal(run.returncode, errors.read().strip())


def solved(
    command: str,
    files: tuple[PathLike, PathLike, PathLike | Settings, PathLike],
    options: list[str],
    program: PathLike | None,
    progress: Progress | None,
) -> Report:
    """Runs `solve` or `track`. Its report is wanted for the progress alone."""
    obs, nav, settings, log = files
    quiet = ["--quiet"] if progress is None else []
    with settings_file(settings) as toml:
        words = [str(find_program(program)), command, *options, *quiet, "--", str(obs), str(nav), toml]
        for line in lines_of([*words, str(log)]):
            word, _, rest = line.partition(" ")
            if progress is not None and word == "epoch":
                progress(int(rest.split(" ")[0]))
    return Report(open_log(log), command == "track")


def solve(
    obs: PathLike,
    nav: PathLike,
    settings: PathLike | Settings,
    log: PathLike,
    *,
    first: int | None = None,
    last: int | None = None,
    station: PathLike | None = None,
    program: PathLike | None = None,
    progress: Progress | None = None,
) -> Report:
    """Solves the epochs of a receiver's files and writes the log.

    `first` and `last` select epochs by their numbers in OBS. `station` is the observation file of a
    second receiver at a known place. Refused where a file isn't accepted, ProgramError where the run
    ends otherwise.
    """
    files = (obs, nav, settings, log)
    return solved("solve", files, chosen(first, last, station), program, progress)


def track(
    obs: PathLike,
    nav: PathLike,
    settings: PathLike | Settings,
    log: PathLike,
    *,
    first: int | None = None,
    last: int | None = None,
    station: PathLike | None = None,
    after: PathLike | None = None,
    program: PathLike | None = None,
    progress: Progress | None = None,
) -> Report:
    """The same for a receiver whose greatest speed the settings declare.

    `after` is an earlier log, behind whose last paved epoch the track goes on.
    """
    files = (obs, nav, settings, log)
    return solved("track", files, chosen(first, last, station, after), program, progress)


def verdict_of(words: list[str]) -> Verdict:
    """What a run of a checker says."""
    (said,) = list(lines_of(words)) or [""]
    failed = no_of(said)
    if failed is not None:
        return failed
    found = YES.fullmatch(said)
    if found is None:
        raise ProgramError(1, said)
    return Verdict(True, int(found[1]))


def checked(
    command: str,
    files: tuple[PathLike, PathLike, PathLike | Settings, PathLike],
    options: list[str],
    program: PathLike | None,
) -> Verdict:
    """Runs `check` or `retrack`."""
    obs, nav, settings, log = files
    with settings_file(settings) as toml:
        words = [str(find_program(program)), command, *options, "--", str(obs), str(nav), toml]
        return verdict_of([*words, str(log)])


def check(
    obs: PathLike,
    nav: PathLike,
    settings: PathLike | Settings,
    log: PathLike,
    *,
    first: int | None = None,
    last: int | None = None,
    station: PathLike | None = None,
    program: PathLike | None = None,
) -> Verdict:
    """Checks a log of `solve` against its files. Refused where a file isn't accepted."""
    return checked("check", (obs, nav, settings, log), chosen(first, last, station), program)


def retrack(
    obs: PathLike,
    nav: PathLike,
    settings: PathLike | Settings,
    log: PathLike,
    *,
    first: int | None = None,
    last: int | None = None,
    station: PathLike | None = None,
    after: PathLike | None = None,
    program: PathLike | None = None,
) -> Verdict:
    """Checks a log of `track` against its files, and the earlier log that it goes on behind.

    Refused where a file isn't accepted.
    """
    return checked("retrack", (obs, nav, settings, log), chosen(first, last, station, after), program)


def judge(log: PathLike, *, program: PathLike | None = None) -> Verdict:
    """Tests a log with its rows taken as given."""
    return verdict_of([str(find_program(program)), "judge", "--", str(log)])


def guarded_line(line: str) -> Guarded:
    """What a line of `guard` says."""
    words = line.split(" ")
    epoch = None
    if words[0] == "epoch":
        epoch, words = int(words[1]), words[2:]
    return Guarded(epoch, words[0], words[1] if len(words) > 1 else "", tuple(words[2:]))


def guard(
    obs: PathLike,
    nav: PathLike,
    settings: PathLike | Settings,
    zones: PathLike,
    log: PathLike,
    *,
    tracked: bool = False,
    first: int | None = None,
    last: int | None = None,
    station: PathLike | None = None,
    after: PathLike | None = None,
    program: PathLike | None = None,
) -> list[Guarded]:
    """Checks a log, and says what its regions say of zones; `tracked` where it is one of `track`,
    `after` being the earlier log that it goes on behind.

    Refused where a file isn't accepted, or the log fails a test.
    """
    options = chosen(first, last, station, after) + (["--track"] if tracked else [])
    with settings_file(settings) as toml:
        words = [str(find_program(program)), "guard", *options, "--", str(obs), str(nav), toml]
        lines = list(lines_of([*words, str(zones), str(log)]))
    failed = no_of(lines[0]) if lines else None
    if failed is not None:
        reason = (failed.number or 0, failed.name or "", failed.line)
        raise Refused(1, lines[0], "log", reason)
    return [guarded_line(line) for line in lines]


def progress_bar(total: int | None = None) -> Progress | None:
    """A bar of tqdm on standard error, or None without it or where that is no terminal."""
    if not sys.stderr.isatty():
        return None
    try:
        from tqdm import tqdm
    except ImportError:
        return None
    bar = tqdm(total=total, unit="epoch")

    def step(_: int) -> None:
        bar.update(1)

    return step
