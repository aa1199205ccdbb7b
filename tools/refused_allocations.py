#!/usr/bin/env python3
"""Refuses each allocation of a run in turn, and tables what comes of it.

usage: python3 -m tools.refused_allocations PROGRAM [OBS NAV SETTINGS ROWS LOG] > docs/FAULTS.md

The runs are those of each command over the files of examples/ and of crates/gpscover/data, and over the five named
files, of which OBS is cut to its first epoch. A run is made once whole, where its allocations are counted. Then, for
each of their numbers, it is made twice: once that one alone is refused, and once all from it on. Such a run has to end
with status 6 and `no memory`, or as the whole one. Its standard output and LOG have to be starts of the whole ones, LOG
as it was before where the refused allocation comes before LOG is created, and no other file may change. The refusing is
done by refused_allocations.c, which is preloaded into the program; it wants gcc, Linux and glibc. The status is 1 where
a run ends otherwise, and each such run is told on standard error. It takes some minutes.
"""
import collections
import os
import shutil
import struct
import subprocess
import sys
import tempfile
from pathlib import Path

HERE = Path(__file__).resolve().parent
EXAMPLES, DATA = HERE.parent / "examples", HERE.parent / "crates/gpscover/data"
NO_MEMORY = (6, b"no memory\n")
# What stands in LOG before the runs in which all allocations from one on are refused.
OLDER = b"what stood there before\n"
# One of each kind.
ZONES = "gpszones 2\nzone a 0 0 0 1 1 1\nprism b 1\nside 1 0 0 0\nreach c 0 0 1\n"
NEVER, EVER = 0, (1 << 64) - 1

HEAD = """\
# Refused allocations

`tools/refused_allocations.py` makes this page. It makes each run of the table once whole and counts its allocations,
and then twice for each of their numbers: once that one alone is refused, and once that one and all behind it. Each such
run has to end with status 6 and the line `no memory`, or as if nothing had been refused; what it has printed and what
LOG holds have to be starts of the whole texts; where LOG wasn't created yet it has to be as it was, and no other file
may change.
"""

NOTES = """
'LOG as it was' is status 6 before LOG is created, or in a run that writes none; 'LOG cut' is status 6 with the start of
the log in LOG; 'whole' is a run that ended as if nothing had been refused; 'otherwise' counts the rest, which would be
faults of the program. 'Status' is that of the whole run: where it is 2, the program takes these words for no command.
'Before LOG' is how many allocations come before LOG is created. The files are those of `examples/` and of
`crates/gpscover/data`. A *long name* is a path of more than a thousand bytes.
"""
RECORDED = """
The recorded epoch is the first of a recorded receiver's files that aren't here.
"""

# What a run left: its status, the bytes on both streams, those of LOG or None, and the counts.
Ran = collections.namedtuple("Ran", "status out err log calls refused created before")


class Runs:
    """Runs of the program in a folder of its own, with some allocations refused."""

    def __init__(self, program, folder):
        self.program, self.folder = program, Path(folder)
        self.library = self.folder / "refused.so"
        source = HERE / "refused_allocations.c"
        subprocess.run(["gcc", "-shared", "-fPIC", "-O2", "-o", self.library, source], check=True)
        self.counts = self.folder / "counts"
        self.place = self.folder / "files"
        self.place.mkdir()

    def run(self, words, first=NEVER, last=NEVER, older=None):
        """A run with the allocations from the first number to the last refused, LOG being there before or not."""
        log = self.place / "new.log"
        log.unlink(missing_ok=True)
        if older is not None:
            log.write_bytes(older)
        self.counts.write_bytes(bytes(32))
        refusing = {"REFUSED_FROM": str(first), "REFUSED_TO": str(last), "REFUSED_COUNTS": str(self.counts)}
        how = {"cwd": self.place, "stdin": subprocess.DEVNULL, "capture_output": True, "timeout": 600}
        preloaded = {**os.environ, **refusing, "LD_PRELOAD": str(self.library)}
        ran = subprocess.run([self.program, *words], env=preloaded, **how)
        found = log.read_bytes() if log.exists() else None
        return Ran(ran.returncode, ran.stdout, ran.stderr, found, *struct.unpack("4Q", self.counts.read_bytes()))

    def others(self):
        """What tells that a file other than LOG was made or written."""
        paths = [path for path in self.place.iterdir() if path.name != "new.log"]
        return {path.name: (path.stat().st_size, path.stat().st_mtime_ns) for path in paths}


def outcome(ran, whole, older, is_before):
    """What came of a refused run, or what is wrong with it."""
    if (ran.status, ran.out, ran.err) == (whole.status, whole.out, whole.err):
        if ran.log == (whole.log if whole.created else older):
            return "whole"
        return "wrong: as the whole run, and LOG isn't"
    if (ran.status, ran.err) != NO_MEMORY:
        return f"wrong: status {ran.status}, {ran.err!r}"
    if not whole.out.startswith(ran.out):
        return "wrong: standard output isn't the start of the whole text"
    if not ran.created:
        return "as it was" if ran.log == older and not ran.out else "wrong: LOG or output without LOG being created"
    if is_before:
        return "wrong: LOG is created behind the refusal"
    if ran.log is None or not whole.log.startswith(ran.log):
        return "wrong: LOG isn't the start of the whole log"
    return "cut"


class Row:
    """The runs of one command over some files."""

    def __init__(self, name, runs, words):
        self.name, self.words, self.wrong = name, words, []
        self.whole = runs.run(words)
        before = runs.others()
        self.one = self.series(runs, lambda number: number, None)
        self.rest = self.series(runs, lambda number: EVER, OLDER)
        if runs.others() != before:
            self.wrong.append("another file was made or written")

    def series(self, runs, last, older):
        """What came of each number, where the allocations from it to that of `last` are refused."""
        came = {}
        for number in range(1, self.whole.calls + 1):
            ran = runs.run(self.words, number, last(number), older)
            # Where one alone is refused, the run is the whole one up to there.
            is_before = older is None and number <= self.whole.before
            came[number] = outcome(ran, self.whole, older, self.whole.created and is_before)
            if came[number].startswith("wrong") or not ran.refused:
                self.wrong.append(f"{number} to {last(number)}: {came[number]}, {ran.refused} refused")
        return came

    def cells(self):
        """The row of the table."""
        counts = [collections.Counter(came.values()) for came in (self.one, self.rest)]
        before = str(self.whole.before) if self.whole.created else "none"
        numbers = [str(count[kind]) for count in counts for kind in ("as it was", "cut", "whole")]
        return [f"`{self.name}`", str(self.whole.status), str(self.whole.calls), before, *numbers, str(len(self.wrong))]


def sample_runs(place):
    """The commands over the files of examples/ and of the program's own test, and with long names."""
    files = ["receiver.obs", "receiver.nav", "settings.toml"]
    for name in *files, "recorded-epoch.rows", "recorded-epoch.log", "one-edge-box.log", "renewed-rows.log":
        shutil.copy(EXAMPLES / name, place)
    lines = (EXAMPLES / "one-edge-box.log").read_text().splitlines(keepends=True)
    (place / "one-edge-box.rows").write_text("".join(lines[:-2]), newline="\n")
    for name in "settings.toml", "receiver.log":
        shutil.copy(DATA / name, place / f"data-{name}")
    (place / "some.zones").write_text(ZONES, newline="\n")
    small = [*files[:2], "data-settings.toml"]
    for log in "one-edge-box.log", "renewed-rows.log", "recorded-epoch.log", "data-receiver.log":
        yield f"judge {log}", ["judge", log]
    for rows in "one-edge-box.rows", "recorded-epoch.rows":
        yield f"pave {rows} LOG", ["pave", rows, "new.log"]
    for name, three in ("data", small), ("examples", files):
        yield f"solve the files of {name}, LOG", ["solve", *three, "new.log"]
        log = solved(place, name)
        yield "check LOG of these", ["check", *three, log]
        yield "guard ZONES and LOG of these", ["guard", *three, "some.zones", log]
    long = "./" * 600
    yield "pave ROWS LOG by long names", ["pave", long + "one-edge-box.rows", long + "new.log"]
    yield "judge a missing file", ["judge", long + "missing"]
    yield "no words", []
    yield "make 7 1", ["make", "7", "1"]
    yield "make 7 3", ["make", "7", "3"]


def recorded_runs(place, obs, nav, settings, rows, log):
    """The commands over one recorded epoch."""
    parts = Path(obs).read_text().split("\n> ")
    (place / "epoch.obs").write_text("\n> ".join(parts[:2]) + "\n", newline="\n")
    for path, name in (nav, "epoch.nav"), (settings, "epoch.toml"), (rows, "epoch.rows"), (log, "epoch.log"):
        shutil.copy(path, place / name)
    files = ["epoch.obs", "epoch.nav", "epoch.toml"]
    yield "judge the log of the recorded epoch", ["judge", "epoch.log"]
    yield "pave its rows", ["pave", "epoch.rows", "new.log"]
    yield "solve its files", ["solve", *files, "new.log"]
    yield "check the log of these", ["check", *files, solved(place, "epoch")]


def solved(place, name):
    """The name of the log that the run before has written, under a name of its own."""
    return str(Path(shutil.copy(place / "new.log", place / f"{name}-solved.log")).name)


def table(rows):
    """The table of all runs in Markdown."""
    kinds = ["LOG as it was", "LOG cut", "whole"]
    head = ["run", "status", "allocations", "before LOG", *(f"one refused: {kind}" for kind in kinds)]
    head += [*(f"all from it on: {kind}" for kind in kinds), "otherwise"]
    lines = [head, ["---"] * len(head), *(row.cells() for row in rows)]
    return "".join("| " + " | ".join(line) + " |\n" for line in lines)


def main(program, *recorded):
    rows = []
    with tempfile.TemporaryDirectory() as folder:
        runs = Runs(os.path.abspath(program), folder)
        tables = [sample_runs(runs.place)]
        if recorded:
            tables.append(recorded_runs(runs.place, *recorded))
        for name, words in (it for table in tables for it in table):
            rows.append(Row(name, runs, words))
            print(f"{name}: {rows[-1].whole.calls} allocations", file=sys.stderr)
            for wrong in rows[-1].wrong:
                print(f"{name}: {wrong}", file=sys.stderr)
            if rows[-1].whole.created:
                runs.run(words)
    print(HEAD + NOTES + (RECORDED if recorded else ""))
    print(table(rows), end="")
    return 1 if any(row.wrong for row in rows) else 0


if __name__ == "__main__":
    if len(sys.argv) not in (2, 7):
        sys.exit(__doc__)
    sys.exit(main(*sys.argv[1:]))
