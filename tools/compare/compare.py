#!/usr/bin/env python3
"""Runs recheck.py and the proved program over the same files and logs, and prints where their answers differ.

    python3 -m tools.compare.compare --program PATH --data DIRECTORY [--draws NUMBER] [--seed NUMBER] [PART ..]

The parts are recorded, records, rows, page, logs, tracks, cuts, renewals, bounds, selections, cases and drawn; without one
all are run.
An answer is the exit status with all that is printed. Two answers agree where they are the same. Where both say 53 on
the same line, the printed spans may differ, as each is of a program's own: then both own spans have to be at most W
wide, or G where they are of the bounds, and to share a number. Where one alone says 53, the log's span has to lie so
near to both own spans that it holds the one and not the other. Every other difference is printed whole.
"""

import argparse
import random
import re
import shutil
import subprocess
import sys
import tempfile
import time
from pathlib import Path

from tools.compare.second import PATH as SECOND, recheck
from tools.compare.bounds import over_one_box, text, with_bounds
from tools.compare.cases import named_cases
from tools.compare.cuts import log_with_cuts, with_cuts
from tools.compare.renewals import with_renewals

TOP = Path(__file__).resolve().parents[2]
from tools import changed_logs
from tools.made import made_two_systems

PLACE = 6 * 10**13  # um
PARTS = ("recorded", "records", "rows", "page", "logs", "tracks", "cuts", "renewals", "bounds", "selections", "cases",
         "drawn")


class Tally:
    """How many comparisons of each kind a part made."""

    KINDS = ("same", "53 with other spans", "53 of one alone", "different")

    def __init__(self, part):
        self.part, self.kinds = part, dict.fromkeys(self.KINDS, 0)
        self.answers = {}

    def add(self, kind, answer):
        """Counts a comparison by its kind and by the program's answer."""
        self.kinds[kind] += 1
        status, out, error = answer
        words = (out + error).split()
        name = "yes" if status == 0 else " ".join(words[:1] + words[1:2]) if words else f"status {status}"
        self.answers[name] = self.answers.get(name, 0) + 1

    def row(self):
        """A line of the table."""
        counts = " | ".join(str(self.kinds[kind]) for kind in self.KINDS)
        return f"| {self.part} | {sum(self.kinds.values())} | {counts} |"


class Tracing(recheck.Judge):
    """A judge that keeps its own row of each line it tested."""

    def __init__(self, lines, files):
        super().__init__(lines, files)
        self.own_rows = {}

    def own(self, row, satellite, used):
        own = self.files.row(self.own_epoch, satellite, used, self.part)
        self.own_rows[self.number] = own, row, self.files.rooms(self.part)
        super().own(row, satellite, used)


class TracingTrack(Tracing, recheck.TrackJudge):
    """The same of a track."""


class Pair:
    """Both programs on the same observation, navigation and settings files."""

    def __init__(self, program, directory, name="pair", moving=False):
        self.program, self.moving = program, moving
        self.paths = [Path(directory) / (name + end) for end in (".obs", ".nav", ".toml")]
        self.log = Path(directory) / (name + ".log")
        self.files = None

    def write(self, contents):
        """Writes the three files."""
        for path, content in zip(self.paths, contents):
            path.write_bytes(content)
        self.files = None

    def run(self, *arguments):
        """The answer of the proved program."""
        run = subprocess.run([self.program, *map(str, arguments)], capture_output=True, check=False)
        return run.returncode, run.stdout.decode(errors="replace"), run.stderr.decode(errors="replace")

    def solve(self):
        """The answer of `solve`, or `track`, and the log it wrote (None where it wrote none)."""
        self.log.unlink(missing_ok=True)
        answer = self.run("track" if self.moving else "solve", *self.paths, self.log)
        return answer, self.log.read_bytes() if self.log.exists() else None

    def own_answer(self, log, judge=False):
        """The answer of recheck.py, and its judge; the files are read once."""
        walker = None
        try:
            if not judge and self.files is None:
                self.files = recheck.Files(*map(str, self.paths), moving=self.moving)
            lines = recheck.read_log(log)
            tracing = TracingTrack if self.moving else Tracing
            walker = recheck.Judge(lines) if judge else tracing(lines, self.files)
            return (0, f"yes {walker.verdict()}\n", ""), walker
        except recheck.Ended as end:
            status, line = end.args
            return ((1, f"{line}\n", "") if status == 1 else (status, "", f"{line}\n")), walker

    def compare(self, log, tally, name, judge=False):
        """Compares both answers to a log (bytes)."""
        self.log.write_bytes(log)
        command = "retrack" if self.moving else "check"
        theirs = self.run("judge", self.log) if judge else self.run(command, *self.paths, self.log)
        own, walker = self.own_answer(log, judge)
        kind, note = self.kind(theirs, own, walker)
        tally.add(kind, theirs)
        if kind in ("different", "53 of one alone"):
            print(f"  {kind}: {tally.part}: {name}{' (judge)' if judge else ''}")
            print(f"    program {theirs}\n    recheck {own}" + (f"\n    {note}" if note else ""), flush=True)
        return theirs

    def compare_both(self, log, tally, name):
        """Compares both answers to a log that is checked, and to one that is judged."""
        for judge in (False, True):
            self.compare(log, tally, name, judge)

    def kind(self, theirs, own, walker):
        """Of which kind a pair of answers is, and a remark."""
        if theirs == own:
            return "same", ""
        places = [re.match(r"no 53 RowNarrow line (\d+)", answer[1]) for answer in (theirs, own)]
        if not any(places):
            return "different", ""
        line = min(int(place.group(1)) for place in places if place)
        numbers = [list(map(int, re.findall(r"-?\d+", answer[1])))[2:] if place else []
                   for answer, place in zip((theirs, own), places)]
        if line not in walker.own_rows:
            return "different", "recheck didn't come to that line"
        own_spans, row, rooms = walker.own_rows[line]
        logged = [tuple(span) for span, _ in zip(recheck.row_spans(row), own_spans)]
        notes = []
        for low, high, their_low, their_high in filter(None, numbers):
            if (low, high) not in logged:
                return "different", "what 53 calls theirs isn't a span of the line"
            place = logged.index((low, high))
            mine, room = own_spans[place], rooms[place]
            if not fits_own(mine, (their_low, their_high), room):
                return "different", f"own spans {mine} and {(their_low, their_high)}, {'WG'[place > 3]} {room}"
            notes.append(f"log {low} {high} own {mine} printed {(their_low, their_high)}")
        if all(places) and places[0].group(1) == places[1].group(1):
            return "53 with other spans", ""
        return "53 of one alone", "; ".join(notes)


def fits_own(mine, theirs, room):
    """Whether two own spans share a number and are at most so wide."""
    share = max(mine[0], theirs[0]) <= min(mine[1], theirs[1])
    return share and max(mine[1] - mine[0], theirs[1] - theirs[0]) <= room


def recorded(arguments, directory):
    """Each recorded pair: solved by the program, then checked and judged by both."""
    tally = Tally("recorded pairs")
    rinex = arguments.data / "rinex"
    print("| recorded pair | epochs | rows | lines of the log | verdict of both | recheck, s | rows in 1 s |\n" "|---|---|---|---|---|---|---|")
    for settings in sorted(rinex.glob("*.toml")):
        base = settings.stem.rsplit("_", 1)[0]
        pairs = [(base, base)] + [(base + "_crlf", base + "_crlf")] * (rinex / f"{base}_crlf.obs").exists()
        if base == "ubx_2008":
            pairs.append((base, "brdc0910.09n"))
        for obs, nav in pairs:
            pair = Pair(arguments.program, directory)
            pair.write([(rinex / f"{obs}.obs").read_bytes(), (rinex / f"{nav}.nav").read_bytes(),
                        settings.read_bytes()])
            _, log = pair.solve()
            start = time.time()
            name = f"{settings.stem}, {obs}.obs, {nav}.nav"
            theirs = pair.compare(log, tally, name)
            spent = time.time() - start
            pair.compare(log, tally, name, judge=True)
            rows = own_rows(pair, log)
            print(f"| {settings.stem}, {nav} | {len(pair.files.epochs)} | {rows[0]} | {log.count(10)} | "
                  f"{theirs[1].strip()} | {spent:.1f} | {rows[0] / rows[1] if rows[0] else 0:.0f} |", flush=True)
    for path in sorted((arguments.data / "logs").glob("*.log")) + sorted((TOP / "examples").glob("*.log")):
        pair = Pair(arguments.program, directory)
        pair.compare(path.read_bytes(), tally, path.name, judge=True)
    for path in sorted((arguments.data / "rows").glob("*.rows")):
        pair = Pair(arguments.program, directory)
        pair.run("pave", path, pair.log)
        pair.compare(pair.log.read_bytes(), tally, f"pave {path.name}", judge=True)
    return tally


def own_rows(pair, log):
    """How many rows a log has, and the seconds in which recheck.py forms them; prints own spans that don't share."""
    epochs, rows, spent = iter(pair.files.epochs), 0, 0.0
    for word, values in recheck.read_log(log):
        if word in (b"epoch", b"few"):
            epoch = next(epochs)
            used, box = dict(pair.files.satellites(epoch)), pair.files.box
        elif word == b"renew":
            box = values
        elif word == b"sat":
            start = time.time()
            satellite, *logged = values
            row = pair.files.row(epoch, satellite, used[satellite], box)
            spent += time.time() - start
            rows += 1
            for place, (mine, (low, high)) in enumerate(zip(row, recheck.row_spans(logged))):
                room = pair.files.rooms(box)[place]
                theirs = low + room, high - room
                if not fits_own(mine, theirs, room):
                    print(f"  different: own spans of epoch {epoch.index} satellite {satellite.decode()}: {mine} and " f"{theirs}, {'WG'[place > 3]} {room}")
    return rows, spent or 1.0


NUMBER = re.compile(rb"-?[0-9]+")


def log_changes(log, rooms, words=None):
    """Systematic small changes of a log: (name, changed log). With `words` only of the lines with these first words.

    The steps of its numbers are 1, and each of `rooms` (W, and G where it isn't 0) and one more.
    """
    lines = log.split(b"\n")[:-1]
    steps = [1, -1] + [sign * (room + more) for room in filter(None, rooms) for more in (0, 1) for sign in (1, -1)]

    def joined(changed):
        return b"".join(line + b"\n" for line in changed)

    yield "as it is", log
    yield "no LF at the end", log[:-1]
    yield "two LF at the end", log + b"\n"
    yield "empty", b""
    for at, line in enumerate(lines):
        if words and line.split(b" ")[0] not in words:
            continue
        name = f"line {at + 1}: "
        before, after = lines[:at], lines[at + 1:]
        yield name + "removed", joined(before + after)
        yield name + "doubled", joined(before + [line, line] + after)
        if after:
            yield name + "swapped with the next", joined(before + [after[0], line] + after[1:])
        yield name + "the text ends behind it", joined(before + [line])
        yield name + "the text ends in it", joined(before) + line
        yield name + "the text ends within it", joined(before) + line[:len(line) // 2]
        for what, changed in (("space in front", b" " + line), ("space behind", line + b" "), ("CR", line + b"\r"),
                              ("two spaces", line.replace(b" ", b"  ", 1)), ("tab", line.replace(b" ", b"\t", 1)),
                              ("empty", b""), ("word alone", line.split(b" ")[0]), ("capitals", line.upper()),
                              ("one more field", line + b" 1"), ("one field less", line.rpartition(b" ")[0]),
                              ("byte 0", line + b"\0"), ("byte 200", line + b"\xc8")):
            yield name + what, joined(before + [changed] + after)
        words = b"epoch few sat skip root renew cut split out in edge done rules bound by".split()
        first, _, rest = line.partition(b" ")
        for word in words:
            if word != first and at % 4 == words.index(word) % 4:
                yield name + f"the word {word.decode()}", joined(before + [word + b" " + rest] + after)
        for match in NUMBER.finditer(line):
            value = int(match.group())
            for step in steps:
                new = line[:match.start()] + b"%d" % (value + step) + line[match.end():]
                if line[match.start() - 1:match.start()] == b"G":
                    new = line[:match.start()] + b"%02d" % (value + step) + line[match.end():]
                yield f"{name}{value} {step:+d}", joined(before + [new] + after)
            for what, text in (("zero in front", b"0" + match.group()), ("plus", b"+" + match.group()),
                               ("negative", b"-" + match.group()), ("ten times", match.group() + b"0"),
                               ("zero", b"0"), ("empty", b"")):
                if at % 3 == 0:
                    new = line[:match.start()] + text + line[match.end():]
                    yield f"{name}{value} {what}", joined(before + [new] + after)


def logs(arguments, directory):
    """Systematic small changes of logs, checked and judged by both."""
    obs, nav, settings = small_files(6)
    tallies = []
    epochs = obs.split(b"> ")
    short = epochs[1].replace(b"  0 11", b"  0  5").split(b"\n")[:6]
    short[2] = short[2].replace(b"20466294.850", b"            ")
    short_epoch = b"\n".join(short).replace(b"05 59 29.", b"05 59 20.") + b"\n"
    full = epochs[1].replace(b"20466294.850", b"40466294.850")
    mixed = epochs[0] + b"> " + short_epoch + b"> " + full + b"> " + short_epoch.replace(b"05 59 20.", b"05 59 50.")
    inner = re.sub(rb"(?<== )\[-?\d+, \d+\]", b"[-100000, 100000]", settings)
    inner = inner.replace(b"half = 200000", b"half = 20000")
    for name, contents in (("log of the example", (obs, nav, settings)),
                           ("log with `few` and `skip`", (mixed, nav, settings)),
                           ("log with `in`", (mixed, nav, inner)),
                           ("log with `zenith`", (obs, nav, with_zenith(settings))),
                           ("log with `renew`", (obs, nav, with_renewed_rows(settings))),
                           ("log with `renew` and `zenith`", (obs, nav, with_renewed_rows(with_zenith(settings))))):
        tally = Tally(f"changed: {name}")
        pair = Pair(arguments.program, directory)
        pair.write(contents)
        answer, log = pair.solve()
        if answer[0]:
            print("  different: no log of", name, answer)
            continue
        pair.own_answer(log)
        for change, changed in log_changes(log, (pair.files.room, pair.files.bound_room)):
            pair.compare_both(changed, tally, change)
        tallies.append(tally)
    return tallies


def tracks(arguments, directory):
    """Systematic small changes of the logs of tracks, and of their parts, checked by both."""
    obs, nav, settings = small_files(6, epochs=3)
    few = re.sub(rb"(?m)(^> .* 30\.999.*)11(.*\n(?:.*\n){3})(?:.*\n){8}", rb"\1 3\2", obs)
    moved = obs.replace(b"20374273.891", b"20379273.891").replace(b"20466585.553", b"20461585.553")
    tallies = []
    for name, files, speed in (("a track", obs, 20_000), ("a receiver that stands", obs, 0),
                               ("an epoch of few", few, 1), ("a lost epoch", moved, 20_000),
                               ("a track with renewed rows", obs, 1_000_000)):
        tally = Tally(f"changed: {name}")
        pair = Pair(arguments.program, directory, moving=True)
        own = with_renewed_rows(settings) if "renewed" in name else settings
        pair.write((files, nav, own + b"[motion]\nspeed = %d\n" % speed))
        answer, log = pair.solve()
        if answer[0]:
            print("  different: no log of", name, answer)
            continue
        pair.own_answer(log)
        words = b"epoch", b"few", b"root", b"renew", b"cut", b"done"
        for change, changed in log_changes(log, (pair.files.room, speed * 1000), words):
            pair.compare(changed, tally, change)
        head, *blocks = re.split(rb"(?m)^(?=epoch|few)", log)
        for first, second in ((0, 1), (1, 2), (2, 0), (2, 1), (0, 0)):
            if max(first, second) < len(blocks):
                pair.compare(head + blocks[first] + blocks[second], tally, f"blocks {first} and {second}")
        tallies.append(tally)
    return tallies


def page(arguments, directory):
    """The changed logs of docs/CHANGED_LOGS.md, checked by both."""
    tally = Tally("logs of CHANGED_LOGS.md")
    pair = Pair(arguments.program, directory)
    obs, nav, settings = [text.decode() for text in small_files(12, epochs=4)]
    for name, text in changed_logs.variants(settings):
        pair.write([part.encode() for part in (changed_logs.three_epochs(obs), nav, text)])
        _, log = pair.solve()
        lines = log.decode().splitlines()
        changes = [*changed_logs.number_changes(lines), *changed_logs.line_changes(lines)]
        for number, (*what, changed) in enumerate(changes):
            pair.compare("".join(line + "\n" for line in changed).encode(), tally, f"{name} {number} {what}")
    return tally


def cuts(arguments, directory):
    """Logs with cuts: whole pavings that cut, cuts put into logs, and small changes of such logs."""
    chance = random.Random(arguments.seed)
    pavings, put, small = Tally("pavings with cuts"), Tally("cuts put into logs"), Tally("changed: logs with `cut`")
    pair, lines = Pair(arguments.program, directory), 0
    for number, contents in enumerate([small_files(8), *bases(arguments.data)]):
        pair.write(contents)
        _, log = pair.solve()
        for _ in range(10):
            paving, many = log_with_cuts(chance, log)
            lines += many
            pair.compare_both(paving, pavings, f"paving of files {number}")
        for base in (log, paving):
            for name, changed in with_cuts(chance, base, arguments.draws // 10):
                pair.compare_both(changed, put, f"files {number}, {name}")
    pair.write(small_files(2))
    paving, _ = log_with_cuts(chance, pair.solve()[1])
    pair.own_answer(paving)
    words = (b"root", b"cut", b"split", b"out", b"edge", b"done")
    for change, changed in log_changes(paving, (pair.files.room,), words):
        pair.compare_both(changed, small, f"paving of small files, {change}")
    print("log of four satellites with `cut`: recheck says", pair.own_answer(cut_log(), True)[0])
    for change, changed in log_changes(cut_log(), (10_000,)):
        pair.compare(changed, small, change, judge=True)
    for path in sorted((arguments.data / "rows").glob("*.rows")):
        pair.run("pave", path, pair.log)
        paving, many = log_with_cuts(chance, shortened(pair.log.read_bytes(), 3, 30))
        lines += many
        pair.compare(paving, pavings, f"paving of {path.name}", judge=True)
    print("pavings with cuts:", lines, "cuts")
    return [pavings, put, small]


def renewals(arguments, directory):
    """Renewals put into logs, and small changes of the lines of such a log."""
    chance = random.Random(arguments.seed)
    put, small = Tally("renewals put into logs"), Tally("changed: a log with `renew`")
    pair = Pair(arguments.program, directory)
    for number, contents in enumerate([small_files(8), *bases(arguments.data)]):
        pair.write(contents)
        _, log = pair.solve()
        pair.own_answer(log)
        for name, changed in with_renewals(chance, log, arguments.draws // 10, pair.files):
            pair.compare_both(changed, put, f"files {number}, {name}")
    pair.write(small_files(2))
    _, log = pair.solve()
    pair.own_answer(log)
    made = [changed for name, changed in with_renewals(chance, log, 40, pair.files) if name.endswith("the hull, own rows")]
    accepted = next(log for log in made if pair.own_answer(log)[0][0] == 0)
    for change, changed in log_changes(accepted, (pair.files.room,), (b"gpscover", b"renew", b"sat", b"done")):
        pair.compare_both(changed, small, change)
    return [put, small]


def bounds(arguments, directory):
    """Bounds over one box and behind the steps of logs, and small changes of the lines of such a log."""
    chance = random.Random(arguments.seed)
    alone, put, small = Tally("bounds over one box"), Tally("bounds put behind epochs"), Tally("changed: a log with `bound`")
    pair = Pair(arguments.program, directory)
    for name, lines, answer in over_one_box(chance, arguments.draws):
        status, out, _ = pair.compare(text(lines), alone, name, judge=True)
        if out != answer + "\n":
            print(f"  different: {name}: program {status} {out!r}, and by the definitions {answer}")
    for number, (obs, nav, settings) in enumerate([small_files(8), *bases(arguments.data)]):
        pair.write((obs, nav, with_pairs(settings)))
        _, log = pair.solve()
        pair.own_answer(log)
        ways = (False, True) if len(pair.files.epochs) == 1 else (True,)  # each log has one epoch
        for name, changed in with_bounds(chance, log, arguments.draws // 10):
            for judge in ways:
                pair.compare(changed, put, f"files {number}, {name}", judge)
    obs, nav, settings = small_files(2)
    pair.write((obs, nav, with_pairs(settings)))
    made = with_bounds(chance, pair.solve()[1], 40)
    accepted = next(log for name, log in made if "not renewed" in name and pair.own_answer(log)[0][0] == 0)
    for change, changed in log_changes(accepted, (pair.files.room,), (b"gpscover", b"epoch", b"done", b"bound", b"by")):
        pair.compare_both(changed, small, change)
    return [alone, put, small]


def shortened(log, epochs, splits):
    """The first epochs of a log, with at most so many splits in its rules; their steps no longer fit."""
    head, *blocks = re.split(rb"(?m)^(?=epoch|few)", log)
    most = min(splits, int(head.split()[4]))
    first, outliers, width = head.splitlines()[0], head.split()[3], head.split()[5]
    return b"%s\nrules %s %d %s\n" % (first, outliers, most, width) + b"".join(blocks[:epochs])


def selections(arguments, directory):
    """Checks of parts of a file with --from and --to, over logs of the same parts and of others."""
    tally = Tally("selections of epochs")
    pair = Pair(arguments.program, directory)
    obs, nav, settings = small_files(2, epochs=4)
    few = obs.replace(b"30.9990000  0 11", b"30.9990000  0  3", 1)
    few = re.sub(rb"(?m)(^> .* 30\.999.*\n(?:.*\n){3})(?:.*\n){8}", rb"\1", few)
    bad = ("0", "01", "200001", "-1", "+1", "x", "", "1 ", "1.0", "99999999999999999999999")
    for name, contents in (("four epochs", (obs, nav, settings)), ("one of few", (few, nav, settings))):
        pair.write(contents)
        whole = pair.solve()[1]
        head, *blocks = re.split(rb"(?m)^(?=epoch|few)", whole)
        if pair.run("check", *pair.paths, pair.log, "--from", "1")[0] == 2:
            print("selections: the program doesn't take --from and --to")
            return tally
        for first in range(5):
            for last in range(first, 5):
                pair.log.write_bytes(head + b"".join(blocks[first:last]))
                for start in ("", "1", "2", "4", "5"):
                    for end in ("", "1", "3", "200000"):
                        options = ["--from", start] * bool(start) + ["--to", end] * bool(end)
                        compare_words(pair, tally, [*map(str, pair.paths), str(pair.log), *options],
                                      f"{name}, log of {first} to {last}")
    paths = [*map(str, pair.paths), str(pair.log)]
    for text in bad:
        compare_words(pair, tally, paths + ["--from", text], "wrong number")
        compare_words(pair, tally, paths + ["--from", "1", "--to", text], "wrong number")
    for options in (["--from"], ["--to"], ["--from", "1", "--from", "2"], ["--to", "3", "--from", "2"], ["--step", "1"],
                    ["--from", "1", "x"], ["x", "--from", "1"], ["--from", "--to", "1"], ["--from", "1", "--to"],
                    ["--to", "1", "--to", "1"], ["-f", "1"]):
        compare_words(pair, tally, paths + options, "options")
    compare_words(pair, tally, paths[3:] + ["--from", "1"], "judge with an option")
    return tally


def compare_words(pair, tally, words, name):
    """Compares both checkers on a command line, each run as a process."""
    theirs = pair.run("check" if words[1:] and not words[1].startswith("-") else "judge", *words)
    run = subprocess.run([sys.executable, SECOND, *words], capture_output=True,
                         check=False)
    own = run.returncode, run.stdout.decode(), run.stderr.decode()
    same = theirs == own or theirs[0] == own[0] == 2
    tally.add("same" if same else "different", theirs)
    if not same:
        print(f"  different: {name}", words, theirs, own)


def first_epochs(obs, number, skipped=0):
    """The header and some epochs of an observation file."""
    end = obs.index(b"END OF HEADER")
    end = obs.index(b"\n", end) + 1
    blocks = re.split(rb"(?m)^(?=>)", obs[end:])[1:]
    return obs[:end] + b"".join(blocks[skipped:skipped + number])


def small_files(bisections, epochs=1):
    """The first epochs of a recorded receiver, its navigation file, and settings that take the header's position."""
    folder = TOP / "crates/gpscover/data"
    obs, nav, settings = [(folder / name).read_bytes() for name in ("receiver.obs", "receiver.nav", "settings.toml")]
    settings = re.sub(rb"bisections = \d+", b"bisections = %d" % bisections, settings)
    return first_epochs(obs, epochs), nav, settings


def both_files(bisections, message):
    """An epoch of a made receiver of GPS and Galileo by a message, the records of its satellites, and settings."""
    made = made_two_systems.Made(1, message)
    texts = made.texts(1, 0)
    head, *records = re.split(r"(?m)^(?=[GE])", texts["nav"])
    seen = set(re.findall(r"(?m)^[GE]\d\d(?=  )", texts["obs"]))
    records = [record for record in records if record[:3] in seen]
    settings = re.sub(r"bisections = \d+", f"bisections = {bisections}", made.settings(0, True))
    return texts["obs"].encode(), (head + "".join(records)).encode(), settings.encode()


def with_zenith(settings, low=1900, high=2700):
    """The settings with the troposphere mapped by elevation."""
    return re.sub(rb"(?m)^troposphere = .*$", b"troposphere = [0, 0]\nzenith = [%d, %d]" % (low, high), settings)


def with_renewed_rows(settings, half=10_000_000):
    """The settings with renewed rows over a large search box."""
    settings = re.sub(rb"(?m)^half = .*$", b"half = %d" % half, settings)
    return re.sub(rb"(?m)^(max_age = .*)$", rb"\1\nrenew = true", settings)


def with_pairs(settings):
    """The settings by which pairs of rows show boxes empty too."""
    without = re.sub(rb"(?m)^pairs = .*\n", b"", settings)
    return re.sub(rb"(?m)^(max_age = .*)$", rb"\1\npairs = true", without)


def bases(data):
    """The files that are changed: small pairs cut from the recorded ones."""
    rinex, two = data / "rinex", b"bisections = 8\n"

    def settings(name):
        return re.sub(rb"bisections = \d+\n", two, (rinex / name).read_bytes())

    return [
        list(small_files(8)),
        [first_epochs((rinex / "javad_2011.obs").read_bytes(), 2), (rinex / "javad_2011.nav").read_bytes(),
         settings("javad_2011_dual.toml")],
        [first_epochs((rinex / "cres_2008.obs").read_bytes(), 2, 100), (rinex / "cres_2008.nav").read_bytes(),
         settings("cres_2008_single.toml")],
        [first_epochs((rinex / "javad_2011_crlf.obs").read_bytes(), 1), (rinex / "javad_2011_crlf.nav").read_bytes(),
         settings("javad_2011_single.toml")],
        [*small_files(8)[:2], with_zenith(small_files(8)[2])],
        [*small_files(8)[:2], with_renewed_rows(small_files(8)[2])],
        *(list(both_files(8, message)) for message in recheck.MESSAGES),
    ]


def change_digit(chance, text):
    """Changes a digit of a number."""
    places = [match.start() for match in re.finditer(rb"[0-9]", text)]
    at = chance.choice(places)
    return text[:at] + b"%d" % chance.randrange(10) + text[at + 1:], at


def changed_file(chance, text):
    """A drawn change of a file: (what was done, changed text)."""
    how = chance.choices(("digit", "digits", "byte", "blank field", "column", "line removed", "line doubled",
                          "lines swapped", "line cut", "line extended", "sign", "exponent", "text ends"),
                         (30, 14, 8, 6, 4, 4, 4, 4, 4, 3, 6, 5, 2))[0]
    if how in ("digit", "digits"):
        for _ in range(1 if how == "digit" else chance.randrange(2, 6)):
            text, at = change_digit(chance, text)
        return f"{how} at byte {at}", text
    if how == "text ends":
        at = chance.randrange(len(text))
        return f"{how} at byte {at}", text[:at]
    if how == "byte":
        at = chance.randrange(len(text))
        new = chance.choice(b" 0123456789.-+GRDEe>\t\r\n#[]\"={}_\x7f\x80\xc3A")
        return f"{how} {at} to {new}", text[:at] + bytes([new]) + text[at + 1:]
    if how in ("sign", "exponent"):
        pattern = rb"[ +-](?=[0-9]*\.[0-9])" if how == "sign" else rb"(?<=[DdEe])[+-]?[0-9]{2}|[DdEe](?=[+-][0-9]{2})"
        places = list(re.finditer(pattern, text))
        if not places:
            return change_digit(chance, text)[::-1]
        match = chance.choice(places)
        new = chance.choice((b"-", b"+", b" ")) if how == "sign" else chance.choice(
            (b"e", b"d") if match.group().isalpha() else (b"+00", b"-01", b"-12", b"+01", b"-03", b"+05", b"-09"))
        return f"{how} at byte {match.start()} to {new}", text[:match.start()] + new + text[match.end():]
    lines = text.split(b"\n")
    at = chance.randrange(len(lines))
    line = lines[at]
    name = f"{how}: line {at + 1}"
    if how == "line removed":
        del lines[at]
    elif how == "line doubled":
        lines.insert(at, line)
    elif how == "lines swapped":
        other = chance.randrange(len(lines))
        lines[at], lines[other] = lines[other], line
        name += f" with {other + 1}"
    elif how == "line cut":
        lines[at] = line[:chance.randrange(len(line) + 1)]
    elif how == "line extended":
        lines[at] = line + chance.choice((b" ", b"   ", b"x", b"\t", b" 12", b"\r", b" " * 4100))
    elif how == "column":
        place = chance.randrange(len(line) + 1)
        lines[at] = line[:place] + chance.choice((b" ", b"")) + line[place + chance.randrange(2):]
    else:
        words = list(re.finditer(rb"\S+", line))
        if words:
            match = chance.choice(words)
            lines[at] = line[:match.start()] + b" " * len(match.group()) + line[match.end():]
    return name, b"\n".join(lines)


def compare_files(pair, contents, base_log, tally, name):
    """Compares both checkers on changed files: on the log of the unchanged ones, and on one that the program solves."""
    pair.write(contents)
    pair.compare(base_log, tally, name + ", the log of the unchanged files")
    answer, log = pair.solve()
    if log is not None and answer[0] == 0:
        theirs = pair.compare(log, tally, name + ", its own log")
        if theirs[0]:
            print("  different: the program doesn't accept its own log:", name, theirs)
        return True
    return False


def drawn(arguments, directory):
    """Drawn changes of observation, navigation and settings files."""
    chance = random.Random(arguments.seed)
    pair = Pair(arguments.program, directory)
    sets = []
    for contents in bases(arguments.data):
        pair.write(contents)
        _, log = pair.solve()
        sets.append((contents, log))
    tallies = [Tally(f"drawn changes of {role} files") for role in ("observation", "navigation", "settings")]
    solved = [0, 0, 0]
    for number in range(arguments.draws):
        contents, log = sets[0] if number % 2 else chance.choice(sets)
        role = chance.choices((0, 1, 2), (4, 4, 2))[0]
        changed = list(contents)
        name, changed[role] = changed_file(chance, contents[role])
        solved[role] += compare_files(pair, changed, log, tallies[role], f"draw {number}, {name}")
    for tally, acceptable in zip(tallies, solved):
        print(f"{tally.part}: {acceptable} acceptable")
    return tallies


def random_sure(chance, low, high):
    """SLO and SHI of an error from low to high, as a list of one pair; of none where they aren't written."""
    if chance.random() < 0.5:
        return []
    most = chance.choice((1, 1000, high - low, 2 * (high - low), 10**12))
    sure = (min(10**12, low + chance.choice((0, chance.randint(0, most)))),
            max(-10**12, high - chance.choice((0, chance.randint(0, most)))))
    return [sure] if sure != (low, high) else []


def random_rows(chance):
    """A rows text of one epoch: rows that nearly meet in a point of the box, with all sorts of widths."""
    outliers = chance.choice((0, 0, 1, 1, 2, 3, 8))
    number = min(64, outliers + 4 + chance.choice((0, 1, 2, 5, 20, 60)))
    size = chance.choice((10**4, 10**6, 10**8, 10**11, 10**13))
    centre = [chance.choice((0, chance.randint(-10**13 + size, 10**13 - size))) for _ in range(3)]
    low = [middle - chance.randint(0, size) for middle in centre]
    high = [middle + chance.randint(0, size) for middle in centre]
    point = [chance.randint(*ends) for ends in zip(low, high)]
    budget, width = chance.choice((0, 1, 5, 40, 200)), chance.choice((1000, 10**6, 10**10))
    lines = ["gpscover 1", f"rules {outliers} {budget} {width}",
             f"epoch 1 {chance.randrange(4 * 10**21)} {number}"]
    clock = chance.choice((0, chance.randint(-10**13, 10**13)))
    bounds = min(10**12, chance.choice((0, 1000, size // 10 + 1, size, 4 * size, 10**12)))
    symmetric = chance.random() < 0.6
    for satellite in chance.sample(range(1, 100), number):
        far = chance.choice((2 * 10**13, 2 * 10**13, size, 5 * 10**13))
        place = [max(-PLACE, min(PLACE, middle + chance.randint(-far, far))) for middle in point]
        width = chance.choice((0, 1, 1000, 10**5, size))
        way = recheck.isqrt(sum((here - there) ** 2 for here, there in zip(place, point)))
        measured = max(-PLACE, min(PLACE, way + clock + chance.randint(-bounds // 4, bounds // 4)
                                   + (chance.random() < 0.1) * 10**9))
        spans = [(max(-PLACE, middle - chance.randint(0, width)), min(PLACE, middle + chance.randint(0, width)))
                 for middle in place + [measured]]
        ends = sorted((chance.randint(-bounds, bounds), chance.choice((bounds, 0, chance.randint(-bounds, bounds)))))
        ends = (-bounds, bounds) if symmetric else ends
        error = tuple(min(max(end, -10**12), 10**12) for end in ends)
        sure = random_sure(chance, *error)
        lines.append(f"sat G{satellite:02d} " + " ".join(f"{a} {b}" for a, b in spans + [error] + sure))
    lines.append("root " + " ".join(map(str, low + high)))
    return ("\n".join(lines) + "\n").encode()


def rows(arguments, directory):
    """Drawn rows, made logs by `pave`, and drawn changes of one number of these logs; judged by both."""
    chance = random.Random(arguments.seed)
    tally = Tally("drawn rows, and numbers of their logs changed")
    pair = Pair(arguments.program, directory)
    text = Path(directory) / "drawn.rows"
    inner = 0
    for number in range(arguments.draws):
        text.write_bytes(random_rows(chance))
        pair.log.unlink(missing_ok=True)
        answer = pair.run("pave", text, pair.log)
        if answer[0]:
            print("  different: pave", number, answer, text.read_bytes()[:200])
            continue
        log = pair.log.read_bytes()
        inner += log.count(b"\nin ")
        pair.compare(log, tally, f"drawn rows {number}", judge=True)
        lines = log.split(b"\n")[:-1]
        steps = [at for at, line in enumerate(lines) if line.startswith((b"in", b"edge", b"out"))]
        for _ in range(3):
            at = chance.choice(steps or [2]) if chance.random() < 0.7 else chance.randrange(2, len(lines))
            match = chance.choice(list(NUMBER.finditer(lines[at])))
            step = chance.choice((1, -1, 1, -1, 1000, -1000, 10**6, -10**6))
            changed = lines[at][:match.start()] + b"%d" % (int(match.group()) + step) + lines[at][match.end():]
            if match.start() and lines[at][match.start() - 1:match.start()] == b"G":
                continue
            pair.compare(b"\n".join(lines[:at] + [changed] + lines[at + 1:]) + b"\n", tally,
                         f"drawn rows {number}, line {at + 1}: {match.group()} {step:+d}", judge=True)
    print("drawn rows:", inner, "`in` lines")
    return tally


def cut_log():
    """A small log with cuts; the four satellites of the worked log of LOG.md."""
    head = [b"gpscover 1", b"rules 0 1 1000000", b"epoch 1 1388102400000000000000 4"]
    for satellite, place in enumerate(((20, 0, 0), (0, 20, 0), (0, 0, 20), (12, 16, 0)), 1):
        spans = b" ".join(b"%d %d" % (axis * 10**12, axis * 10**12) for axis in place + (20,))
        head.append(b"sat G%02d %s -500000 500000" % (satellite, spans))
    return b"\n".join(head + [
        b"root -5000000 -1000000 -1000000 5000000 1000000 1000000", b"cut 0 1 2000000", b"cut 0 0 -2000000",
        b"split 0 1", b"edge 1 -1500000 500000", b"cut 2 0 -1100000", b"edge 2 -1500000 1500000", b"done 1"]) + b"\n"


def command_lines(arguments, directory, contents, log):
    """Wrong command lines and files that can't be read, each program run as a process."""
    tally = Tally("command lines")
    pair = Pair(arguments.program, directory)
    pair.write(contents)
    pair.log.write_bytes(log)
    good = [*map(str, pair.paths), str(pair.log)]
    absent, bad = str(Path(directory) / "absent"), str(Path(directory) / "bad")
    Path(bad).write_bytes(b"x")
    tries = [[], good[:2], good[:3], good + ["x"], good, [good[3]], [absent], [directory], [bad]]
    for at in range(4):
        tries += [good[:at] + [new] + good[at + 1:] for new in (absent, directory, bad)]
    tries += [[absent] * 4, [absent, bad, bad, bad], [bad, absent, good[2], bad], [bad, good[1], good[2], absent],
              [good[0], good[1], good[2], bad]]
    for words in tries:
        compare_words(pair, tally, words, "command line")
    return tally


def random_field(chance, bound):
    """A number of a field within its bounds, as 19 columns: often near a bound, with digits beyond the units."""
    low, high = bound if isinstance(bound, tuple) else (-bound, bound)
    share = chance.choice((0, 1, chance.random(), chance.random(), chance.random()))
    value = low + (high - low) * recheck.Fraction(int(share * 10**18), 10**18)
    digits = chance.choice((11, 12, 12))
    for exponent in range(-30, 10):
        if abs(value) < recheck.Fraction(10) ** exponent:
            break
    mantissa = int(value * recheck.Fraction(10) ** (digits - exponent))
    if mantissa < 0:
        return b"-.%0*dD%+03d" % (digits, -mantissa, exponent)
    return b".%0*dD%+03d" % (digits, mantissa, exponent)


# Of a message of Galileo: a second code, data sources by which a record is kept, and healths that are healthy.
GALILEO = {"F/NAV": ("C5Q", b"258 770 1023", b"0"), "I/NAV": ("C7Q", b"513 516 517 765", b"0 8 16 56")}


def random_files(chance, message=None):
    """Observation, navigation and settings files with records drawn from all that the bounds of the fields allow.

    With a message half of the satellites are of Galileo, by two codes where it is F/NAV.
    """
    dual, half = chance.random() < 0.5, chance.choice((1, 1, 1000, 200_000, 10**7, 10**8))
    dual = dual or message == "F/NAV"
    types = [b"G    2 C1C C2W"] + [b"E    2 C1C " + GALILEO[name][0].encode() for name in GALILEO if name == message]
    letter = b"M" if message else b"G"
    nav = b"     3.05           N".ljust(40) + letter.ljust(20) + b"RINEX VERSION / TYPE\n" + b"END OF HEADER\n".rjust(74)
    obs = (b"     3.05           O".ljust(40) + letter.ljust(20) + b"RINEX VERSION / TYPE\n"
           + b"".join(line.ljust(60) + b"SYS / # / OBS TYPES\n" for line in types) + b"END OF HEADER\n".rjust(74)
           + b"> 2030 06 05 %02d 00 %10.7f  0 12\n" % (chance.randrange(24), chance.random() * 59))
    hour = int(re.search(rb"> 2030 06 05 (\d\d)", obs).group(1))
    for satellite in range(1, 13):
        fields = {(on_line, place): random_field(chance, bound) for _, on_line, place, bound in recheck.FIELDS}
        toe = 3 * 86400 + hour * 3600 + chance.choice((-14_300, 14_300, chance.randrange(-14_000, 14_000)))
        fields[3, 0] = b"%d.%s" % (toe, b"%07d" % chance.randrange(10**7)) if chance.random() < 0.5 else b"%d" % toe
        day = chance.choice((2, 3, 4, 5, 6, 7, 8))
        fields[0, 0] = b""
        letter = b"E" if message and satellite > 6 else b"G"
        if letter == b"E":
            _, sources, healths = GALILEO[message]
            fields[5, 1], fields[6, 1] = chance.choice(sources.split()), chance.choice(healths.split())
            fields[6, 3] = random_field(chance, recheck.FIELDS[-1][3])
        nav += letter + b"%02d 2030 06 %02d %02d 00 00" % (satellite, day, hour if day < 8 else 0)
        for line in range(8):
            nav += b"    " * (line > 0) + b"".join(
                fields.get((line, place), b"0" * (line > 0)).rjust(19) for place in range(line == 0, 4)) + b"\n"
        metres = chance.uniform(15_000_100, 39_999_900)
        obs += letter + b"%02d%14.*f  %14.3f\n" % (satellite, chance.choice((3, 3, 5)), metres,
                                          metres + chance.uniform(-50, 50))
    def whole(bound):
        return chance.choice((-bound, bound, chance.randint(-bound, bound)))
    settings = f"""[search]
centre = [{whole(85 * 10**8)}, {whole(85 * 10**8)}, {whole(85 * 10**8)}]
half = [{half}, {chance.randint(1, half)}, {half}]
outliers = 1
bisections = 0
width = 1000
max_age = 14400
[signal]
mode = "{'dual' if dual else 'single'}"
codes = {'["C1C", "C2W"]' if dual else '["C1C"]'}
[bounds]
receiver = [-5000, 5000]
orbit_clock = [0, 0]
ionosphere = [0, 0]
troposphere = [0, 0]
"""
    if message:
        codes = f'"C1C", "{GALILEO[message][0]}"' if dual else '"C1C"'
        settings += f'[galileo]\nmessage = "{message}"\ncodes = [{codes}]\noffset = [-1000, 2000]\n'
    return obs, nav, settings.encode()


def random_zenith(chance, settings):
    """Settings of `random_files` with a span of the delay at the zenith, often at the ends of what is accepted."""
    low, high = sorted(chance.choice((-10_000, 0, 10_000, chance.randint(-10_000, 10_000))) for _ in range(2))
    return with_zenith(settings, low, high)


def random_vertical(chance, settings):
    """The same of the delay at the vertical, whose ends are farther out."""
    low, high = sorted(chance.choice((-100_000, 0, 100_000, chance.randint(-100_000, 100_000))) for _ in range(2))
    return re.sub(rb"(?m)^(troposphere = .*)$", rb"\1\nvertical = [%d, %d]" % (low, high), settings)


def records(arguments, directory):
    """Records drawn from the whole range of each field, places and boxes from the whole range of the settings."""
    chance = random.Random(arguments.seed)
    tally = Tally("drawn records")
    pair = Pair(arguments.program, directory)
    rows = 0
    for number in range(arguments.draws // 5):
        obs, nav, settings = random_files(chance)
        settings = random_zenith(chance, settings) if number % 2 else settings
        pair.write((obs, nav, random_vertical(chance, settings) if number % 3 == 0 else settings))
        answer, log = pair.solve()
        if log is None:
            print("  different: no log of drawn records", number, answer, pair.own_answer(b"")[0])
            continue
        pair.compare(log, tally, f"drawn records {number}")
        rows += own_rows(pair, log)[0]
    print("drawn records:", rows, "rows; own ones share numbers and are at most W or G wide but for what is printed "
          "above")
    return tally


def cases(arguments, directory):
    """Named cases: places of the two documents where two readers may differ."""
    pair = Pair(arguments.program, directory)
    contents = bases(arguments.data)[0]
    pair.write(contents)
    _, log = pair.solve()
    tally = Tally("named cases")
    for name, changed in named_cases(contents):
        compare_files(pair, changed, log, tally, name)
    return [tally, command_lines(arguments, directory, contents, log)]


def main():
    """Runs the parts and prints the table."""
    parser = argparse.ArgumentParser()
    parser.add_argument("--program", required=True, help="the proved program")
    parser.add_argument("--data", type=Path, required=True,
                        help="the directory with recorded rinex (NAME.obs, NAME.nav and settings), rows and logs")
    parser.add_argument("--draws", type=int, default=2000)
    parser.add_argument("--seed", type=int, default=20240101)
    parser.add_argument("part", nargs="*")
    arguments = parser.parse_args()
    arguments.program = str(Path(arguments.program).resolve())
    table = []
    directory = tempfile.mkdtemp()
    try:
        for part in arguments.part or PARTS:
            start = time.time()
            result = globals()[part](arguments, directory)
            tallies = result if isinstance(result, list) else [result]
            for tally in tallies:
                print(f"{tally.part}: answers of the program: {dict(sorted(tally.answers.items()))}")
            table += tallies
            print(f"{part}: {time.time() - start:.0f} s", flush=True)
    finally:
        shutil.rmtree(directory)
    print("\n| what | comparisons | " + " | ".join(Tally.KINDS) + " |\n|---|" + "---|" * (1 + len(Tally.KINDS)))
    for tally in table:
        print(tally.row())
    sys.exit(any(tally.kinds["different"] for tally in table))


if __name__ == "__main__":
    main()
