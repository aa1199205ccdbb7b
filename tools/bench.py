#!/usr/bin/env python3
"""Measures what the program takes on the example and on recorded files, and compares two runs.

usage: python3 -m tools.bench PROGRAM [--recorded FOLDER] [--quick] [--jobs N] [--out FILE] [--against FILE]

The first epoch of each file is solved with 64, 512 and 4,096 splits, with `pairs = true` and
without, and without renewed rows; its log is checked and judged, and its rows are paved again,
which has to give the same log. For each command a row has millions of instructions, by callgrind; the user time of the
processor, the least of five runs; and the peak of memory, by GNU time. FOLDER has recorded files
NAME.obs and NAME.nav with settings NAME_dual.toml or NAME_single.toml, of which the first is taken
where both are there; without one, or with --quick, the example alone is measured.

Times are taken one after the other. Instructions don't depend on what else the machine does, and
are counted by N processes beside each other, one for each processor. With four recorded files it
takes less than ten minutes on four quiet processors, and with --quick less than two.

Prints a table with the program's checksum and the commit of this clone, in Markdown. --out writes
it to FILE, and all numbers beside it as JSON with the ending .json, which --against reads of an
earlier run: it prints what has changed by more than 2 %, and, of times and memory, by more than
these are told apart (10 ms, 0.5 MB).

It wants Debian's valgrind and time. Exit status: 0; 1 where a run fails or a file can't be read or
written; 2 for a wrong command line.
"""
import argparse
import json
import os
import re
import shutil
import subprocess
import sys
import tempfile
from concurrent.futures import ThreadPoolExecutor
from pathlib import Path

from gpscover.command import run_tool
from gpscover.evidence import checksum
from tools.largest_sizes import EXAMPLES, TOP
from tools.pairs_table import RUNS, Failed, rows_of, run, with_values

COMMANDS = ("solve", "check", "pave", "judge")
SPLITS = (64, 512, 4096)
TIME, CALLGRIND = "/usr/bin/time", ("valgrind", "--tool=callgrind")
# Of each measure: its unit, how a number is written in it, and which difference is none.
MEASURES = {
    "instructions": (1e6, "{:,.1f} M", 0),
    "seconds": (1, "{:.2f} s", 0.01),
    "peak": (1e6, "{:.1f} MB", 0.5e6),
    "log": (1e3, "{:,.1f} KB", 0),
}
CHANGE = 0.02


# ---- runs


def recorded_sets(folder):
    """The recorded files of a folder: for each name its observations, navigation and settings."""
    sets = {}
    for settings in sorted(Path(folder).glob("*_*.toml")):
        name = settings.stem.rsplit("_", 1)[0]
        files = [settings.with_name(name + ending) for ending in (".obs", ".nav")]
        if all(file.is_file() for file in files):
            sets.setdefault(name, [*files, settings])
    return sets


def instructions_of(text):
    """The number of instructions that callgrind says it collected."""
    found = re.search(r"Collected *: *([0-9]+)", text)
    if not found:
        raise Failed("callgrind didn't say how many instructions it collected")
    return int(found.group(1))


def commands_of(program, files, splits, pairs, room):
    """The words of the commands on the first epoch of three files, which is solved in `room`."""
    obs, nav, settings = files
    changed, log, rows = room / "settings.toml", room / "a.log", room / "a.rows"
    changed.write_text(with_values(settings, {"bisections": splits}, pairs), encoding="utf-8")
    whole = [obs, nav, changed, log, "--to", "1"]
    run([program, "solve", *whole])
    rows.write_bytes(rows_of(log.read_bytes()))
    words = {"solve": whole, "check": whole, "pave": [rows, room / "again.log"], "judge": [log]}
    return {command: [program, command, *words[command]] for command in COMMANDS}


def timed(words, room):
    """What a command takes of time, in s, and of memory, in bytes."""
    peak = room / "peak"
    timing = [TIME, "--format=%M", f"--output={peak}", *words]
    seconds = min(run(timing) for _ in range(RUNS))
    return {"seconds": round(seconds, 4), "peak": 1024 * int(peak.read_text(encoding="ascii"))}


def timed_all(commands, room):
    """What the commands take, and the bytes of the log."""
    found = {command: timed(words, room) for command, words in commands.items()}
    log = (room / "a.log").read_bytes()
    if (room / "again.log").read_bytes() != log:
        raise Failed(f"pave writes another log than {' '.join(map(str, commands['solve']))}")
    return {**found, "log": len(log)}


def counted_all(commands, room):
    """How many instructions the commands take."""
    found, said = {}, room / "said"
    counting = [*CALLGRIND, "--callgrind-out-file=/dev/null", f"--log-file={said}"]
    for command, words in commands.items():
        run([*counting, *words])
        found[command] = instructions_of(said.read_text(encoding="utf-8"))
    return found


def cases_of(program, sets, room):
    """The key and the commands of each row, with a folder of its own."""
    for name, files in sets.items():
        for splits in SPLITS:
            for pairs in ("yes", "no"):
                key = f"{name}, {splits}, {pairs}"
                folder = room / key
                folder.mkdir()
                yield key, commands_of(program, files, splits, pairs == "yes", folder), folder


def measured_rows(program, sets, jobs):
    """The rows of all files: first their times one by one, then instructions on so many jobs."""
    rows = {}
    with tempfile.TemporaryDirectory() as room, ThreadPoolExecutor(jobs) as pool:
        cases = list(cases_of(program, sets, Path(room)))
        for key, commands, folder in cases:
            rows[key] = timed_all(commands, folder)
            print(f"{key}: timed", file=sys.stderr, flush=True)
        for key, counts in zip(rows, pool.map(lambda case: counted_all(*case[1:]), cases)):
            for command, count in counts.items():
                rows[key][command] = {"instructions": count, **rows[key][command]}
            print(f"{key}: counted", file=sys.stderr, flush=True)
    return rows


def commit():
    """The commit of this clone, with a word where a file differs from it."""
    words = ["git", "-C", TOP, "describe", "--always", "--abbrev=12", "--dirty", "--exclude=*"]
    ended = subprocess.run(words, capture_output=True, text=True, check=False)
    return ended.stdout.strip() or "unknown"


# ---- tables


def written(measure, number):
    """A number of a measure with its unit."""
    unit, form, _ = MEASURES[measure]
    return form.format(number / unit)


def table(bench):
    """The table, with what was measured above it."""
    head = ["files", "splits", "pairs", "log", *(f"`{command}`" for command in COMMANDS)]
    lines = [head, ["---"] * len(head)]
    for key, found in bench["rows"].items():
        cells = [", ".join(written(*it) for it in found[command].items()) for command in COMMANDS]
        lines.append([*key.split(", "), written("log", found["log"]), *cells])
    rows = "".join(f"| {' | '.join(cells)} |\n" for cells in lines)
    first = f"Program {bench['program']}, commit {bench['commit']}; the first epoch of each."
    return f"{first}\n\n{rows}"


def flat(rows):
    """The numbers of a table by row, command and measure."""
    for key, found in rows.items():
        yield (key, "", "log"), found["log"]
        for command in COMMANDS:
            for measure, number in found[command].items():
                yield (key, command, measure), number


def changes(before, after):
    """A line for each number that has changed, and one for each row that one table alone has."""
    earlier = dict(flat(before))
    for (key, command, measure), now in flat(after):
        was = earlier.get((key, command, measure))
        if was is not None and abs(now - was) > max(CHANGE * was, MEASURES[measure][2]):
            what = " ".join(filter(None, (command, measure)))
            share = f"{100 * (now / was - 1):+.1f} %" if was else "more than nothing"
            yield f"{key}: {what} {written(measure, was)}, now {written(measure, now)} ({share})"
    for key in sorted(before.keys() ^ after.keys()):
        yield f"{key}: only {'before' if key in before else 'now'}"


def arguments():
    """The words of the command line."""
    form = argparse.RawDescriptionHelpFormatter
    parser = argparse.ArgumentParser(description=__doc__, formatter_class=form)
    parser.add_argument("program", metavar="PROGRAM", type=Path)
    parser.add_argument("--recorded", metavar="FOLDER", type=Path)
    parser.add_argument("--quick", action="store_true", help="the example alone")
    parser.add_argument("--jobs", metavar="N", type=int, default=os.cpu_count())
    parser.add_argument("--out", metavar="FILE", type=Path)
    parser.add_argument("--against", metavar="FILE", type=Path)
    return parser.parse_args()


def earlier(path):
    """What an earlier run wrote."""
    try:
        return json.loads(path.read_text(encoding="utf-8"))
    except ValueError as error:
        raise Failed(f"{path}: {error}") from None


def measure(args):
    """Measures, prints and writes the table, and says what has changed."""
    absent = [tool for tool in (TIME, CALLGRIND[0]) if not shutil.which(tool)]
    if absent:
        raise Failed(f"there is no {' and no '.join(absent)}: apt-get install valgrind time")
    before = None
    if args.against:
        before = earlier(args.against.with_suffix(".json"))
    names = ("receiver.obs", "receiver.nav", "settings.toml")
    sets = {"example": [EXAMPLES / name for name in names]}
    if args.recorded and not args.quick:
        sets |= recorded_sets(args.recorded)
    program = args.program.resolve()
    rows = measured_rows(program, sets, args.jobs)
    bench = {"program": checksum(program), "commit": commit(), "rows": rows}
    print(table(bench), end="")
    if args.out:
        text = json.dumps(bench, indent=1) + "\n"
        args.out.write_text(table(bench), encoding="utf-8")
        args.out.with_suffix(".json").write_text(text, encoding="utf-8")
    if before:
        print("", *changes(before["rows"], rows) or ["nothing has changed"], sep="\n")


def main():
    measure(arguments())
    return 0


if __name__ == "__main__":
    run_tool(main)
