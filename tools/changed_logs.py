#!/usr/bin/env python3
"""Changes logs in one place each and tables what `check` says of them.

usage: python3 -m tools.changed_logs PROGRAM FOLDER

FOLDER has receiver.obs, receiver.nav and settings.toml, as crates/gpscover/data has. Three logs of their first three epochs
are solved: one with the settings as they are, one over a small box with wide bounds, so that there are boxes inside, and
one over a large box with pairs, whose rows are renewed. Of the second epoch four satellites are left, and there and in the
third one satellite lacks its code. Each number of each line goes up and down by one, and each line is dropped, doubled, put
behind the next, and replaced by the line at its place in another epoch; of the `cut` lines one in eight. Prints two tables
in Markdown.
"""
import collections
import os
import re
import subprocess
import sys
import tempfile
from concurrent.futures import ThreadPoolExecutor
from pathlib import Path

FIELDS = {
    "gpscover": ["version"],
    "rules": ["outliers", "bisections", "width"],
    "few": ["index", "time", "number"],
    "epoch": ["index", "time", "number"],
    "sat": ["satellite", "x lo", "x hi", "y lo", "y hi", "z lo", "z hi", "range lo", "range hi", "error lo",
            "error hi", "sure lo", "sure hi"],  # the last two only where the troposphere is mapped by elevation
    "skip": ["satellite", "test"],
    "root": ["a coordinate"] * 6,
    "renew": ["a coordinate"] * 6,
    "cut": ["box", "face", "bound"],
    "split": ["box", "axis"],
    "out": ["box"],
    "in": ["box", "clock", "lo", "hi"],
    "edge": ["box", "lo", "hi"],
    "done": ["number"],
}
CUTS_FOR_ONE = 8
WIDE = {"half": "half = 2000", "receiver": "receiver = [-30000, 30000]"}
RENEWED = {"half": "half = 10000000\nrenew = true\npairs = true"}


def without_code(epoch):
    """The lines of an epoch whose first satellite lacks its first code."""
    head, first, *more = epoch
    return [head, first[:3] + " " * 14 + first[17:], *more]


def with_four(epoch):
    """The lines of an epoch of which four satellites are left."""
    return [epoch[0][:32] + f"{4:3}" + epoch[0][35:], *epoch[1:5]]


def three_epochs(text):
    """The header and the first three epochs, the second and third changed."""
    lines = text.splitlines()
    starts = [at for at, line in enumerate(lines) if line.startswith(">")]
    first, second, third = (lines[starts[k] : starts[k + 1]] for k in range(3))
    kept = [*lines[: starts[0]], *first, *without_code(with_four(second)), *without_code(third)]
    return "".join(line + "\n" for line in kept)


def with_lines(settings, lines):
    """The settings with other lines for some keys."""
    for key, line in lines.items():
        settings = re.sub(rf"^{key} = .*$", line, settings, flags=re.M)
    return settings


def variants(settings):
    """The settings of the logs, each with a name."""
    return ("given", settings), ("wide", with_lines(settings, WIDE)), ("renewed", with_lines(settings, RENEWED))


def stepped(word, by):
    """The word with its number changed by so much; the number of a satellite keeps two digits."""
    if word[0] in "GE":
        return f"{word[0]}{int(word[1:]) + by:02}"
    return str(int(word) + by)


def changed_lines(lines):
    """The lines that are changed, with their places: all but most of the cuts."""
    cuts = 0
    for at, line in enumerate(lines):
        cuts += line.startswith("cut")
        if not line.startswith("cut") or cuts % CUTS_FOR_ONE == 1:
            yield at, line


def number_changes(lines):
    """Each number of each line up and down: the kind of the line, the field, the way, and the changed lines."""
    for at, line in changed_lines(lines):
        kind, *words = line.split(" ")
        for place, (name, _) in enumerate(zip(FIELDS[kind], words)):
            for way, by in (("up", 1), ("down", -1)):
                changed = [kind, *words]
                changed[place + 1] = stepped(words[place], by)
                yield kind, name, way, [*lines[:at], " ".join(changed), *lines[at + 1 :]]


def blocks_of(lines):
    """Where the blocks of the epochs begin and end."""
    starts = [at for at, line in enumerate(lines) if line.split(" ")[0] in ("epoch", "few")]
    return list(zip(starts, [*starts[1:], len(lines)]))


def place_elsewhere(lines, at):
    """The line at the same place of another epoch, rather of one of the same kind, if there is one."""
    blocks = blocks_of(lines)
    own = next((it for it in blocks if it[0] <= at < it[1]), None)
    if own is None:
        return None
    others = [it for it in blocks if it != own and it[0] + at - own[0] < it[1]]
    others.sort(key=lambda it: lines[it[0]].split(" ")[0] != lines[own[0]].split(" ")[0])
    return lines[others[0][0] + at - own[0]] if others else None


def line_changes(lines):
    """Each line dropped, doubled, put behind the next, and taken from another epoch."""
    for at, line in changed_lines(lines):
        kind = line.split(" ")[0]
        yield kind, "dropped", [*lines[:at], *lines[at + 1 :]]
        yield kind, "doubled", [*lines[: at + 1], *lines[at:]]
        if at + 1 < len(lines):
            yield kind, "behind the next", [*lines[:at], lines[at + 1], line, *lines[at + 2 :]]
        other = place_elsewhere(lines, at)
        if other is not None:
            yield kind, "from another epoch", [*lines[:at], other, *lines[at + 1 :]]


class Checks:
    """Runs `check` on changed logs of some files."""

    def __init__(self, program, files, folder):
        self.program, self.files, self.folder = program, files, folder

    def answer(self, number, lines, original):
        """What `check` says of a log of these lines."""
        if lines == original:
            return "the same line"
        log = os.path.join(self.folder, f"{number}.log")
        Path(log).write_text("".join(it + "\n" for it in lines))
        done = subprocess.run([self.program, "check", *self.files, log], capture_output=True, text=True, timeout=60)
        os.remove(log)
        if done.returncode == 0:
            return "yes"
        if done.returncode == 1:
            return done.stdout.split()[1]
        if done.returncode == 3:
            return f"refused, kind {done.stderr.split()[-1]}"
        return f"status {done.returncode}"


def solved(program, folder, name, obs, nav, settings):
    """The files of a variant and the lines of its log."""
    files = [os.path.join(folder, f"{name}.{it}") for it in ("obs", "nav", "toml")]
    for file, text in zip(files, (obs, nav, settings)):
        Path(file).write_text(text)
    log = os.path.join(folder, f"{name}.log")
    subprocess.run([program, "solve", *files, log], check=True, stdout=subprocess.DEVNULL)
    return files, Path(log).read_text().splitlines()


def cell(answers):
    """Answers with how often each came, the most frequent first."""
    return ", ".join(f"{it} ({count})" for it, count in answers.most_common())


def table(head, rows):
    """A table in Markdown."""
    lines = [head, ["---"] * len(head), *rows]
    return "".join("| " + " | ".join(it) + " |\n" for it in lines)


def main():
    program, folder = os.path.abspath(sys.argv[1]), Path(sys.argv[2])
    obs, nav, settings = (folder.joinpath(it).read_text() for it in ("receiver.obs", "receiver.nav", "settings.toml"))
    numbers, wholes = collections.defaultdict(collections.Counter), collections.defaultdict(collections.Counter)
    count = 0
    with tempfile.TemporaryDirectory() as room, ThreadPoolExecutor(os.cpu_count()) as pool:
        for name, text in variants(settings):
            files, lines = solved(program, room, name, three_epochs(obs), nav, text)
            checks = Checks(program, files, room)
            changes = [((numbers, kind, field, way), changed) for kind, field, way, changed in number_changes(lines)]
            changes += [((wholes, kind, "", way), changed) for kind, way, changed in line_changes(lines)]
            answers = pool.map(lambda it: checks.answer(it[0], it[1][1], lines), enumerate(changes))
            for ((counted, kind, field, way), _), answer in zip(changes, answers):
                counted[kind, field, way][answer] += 1
            count += len(changes)
    rows = dict.fromkeys((kind, field) for kind, fields in FIELDS.items() for field in fields
                         if (kind, field, "up") in numbers or not field.startswith("sure"))
    print(f"{count} changed logs\n")
    print(table(["line", "number", "up", "down"],
                [[f"`{kind}`", field, *(cell(numbers[kind, field, way]) for way in ("up", "down"))] for kind, field in rows]))
    ways = ["dropped", "doubled", "behind the next", "from another epoch"]
    print(table(["line", *ways], [[f"`{kind}`", *(cell(wholes[kind, "", way]) for way in ways)] for kind in FIELDS]))


if __name__ == "__main__":
    main()
