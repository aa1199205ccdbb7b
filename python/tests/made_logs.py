"""Logs that are made by hand, recorded ones, and how a command ends."""

import argparse
import contextlib
import io
import os
import tempfile
from pathlib import Path
from unittest import mock

from gpscover import cli, integrity, places, summary
from gpscover.log import epochs as read_epochs

TOP = Path(__file__).resolve().parent.parent.parent
EXAMPLES = TOP / "examples"
SOURCES = TOP / "python/src"
RECORDED = TOP / "scripts/recorded"
RENEWED = TOP / "examples/renewed-rows.log"  # the rows of G01 and G05 are renewed with a fifth of their errors
HEAD = "gpscover 1\nrules 1 10 1000\n"
# A box of 200 m at the equator, at longitude 0: east is y, north is z, up is x.
ROOT = "root 6378037000000 -100000000 -100000000 6378237000000 100000000 100000000\n"
STEPS = (
    "split 0 0\n"  # 1: the lower half, 2: x from 6378137.000001 m on
    "out 1\n"
    "split 2 1\n"  # 3: y up to 0, 4: y from 1 um on
    "edge 3 -5000000 7000000\n"
    "cut 4 5 50000000\n"  # z up to 50 m
    "cut 4 2 20000000\n"  # y from 20 m on
    "in 4 1000000 -9000000 2000000\n"
    "done 2\n"
)
PAVED = "epoch 1 895816769999000000000 5\n" + ROOT + STEPS
# In the same search box one of 4 m up, 10 m east and 20 m north is kept, which no face of it
# touches.
WITHIN = (
    "epoch 1 895816769999000000000 5\n"
    + ROOT
    + "".join(
        f"cut 0 {face} {end}\n"
        for face, end in enumerate((6378135000000, 6378139000000, 20000000, 30000000, -10000000, 10000000))
    )
    + "edge 0 0 0\ndone 0\n"
)


def tube_root(*ends):
    """The line of a search box, from its ends in m."""
    return "root " + " ".join(str(end * 10**6) for end in ends) + "\n"


# Behind this epoch two of a track, 5 m being the reach: one keeps its whole search box, one keeps
# no box.
TUBE = (
    WITHIN + "epoch 2 895816770999000000000 5\n" + tube_root(6378130, 15, -15, 6378144, 35, 15) + "edge 0 0 0\ndone 0\n"
)
LOST = "epoch 3 895816771999000000000 5\n" + tube_root(6378125, 10, -20, 6378149, 40, 20) + "out 0\ndone 0\n"


def epoch_of(text, head=HEAD):
    """The one epoch of a log with these lines behind its head."""
    (epoch,) = epochs_of(text, head)
    return epoch


def epochs_of(text, head=HEAD):
    """The epochs of a log with these lines behind its head."""
    with tempfile.TemporaryDirectory() as room:
        path = os.path.join(room, "made.log")
        Path(path).write_text(head + text, newline="\n")
        return list(read_epochs(path))


def box_at(point, sides, rest="edge 0 0 0\ndone 0\n"):
    """An epoch whose one box has these sides in m round a point in m."""
    ends = [round((p + sign * s / 2) * 1e6) for sign in (-1, 1) for p, s in zip(point, sides)]
    return f"epoch 1 0 5\nroot {' '.join(map(str, ends))}\n{rest}"


def totals_of(text):
    """What the summary says of all epochs of a log."""
    with tempfile.TemporaryDirectory() as room:
        path = os.path.join(room, "made.log")
        Path(path).write_text(HEAD + text, newline="\n")
        lines = []
        totals = summary.summarize(path, lambda epoch, found, mark, numbers: lines.append(mark))
        return lines, [totals.line(), *totals.warnings()]


def ended_with(module, *words):
    """The status of a command with these words, and what it prints on both streams.

    Its errors are raised.
    """
    out, err = io.StringIO(), io.StringIO()
    parser = cli.given(argparse.ArgumentParser(prog=module.COMMAND.name), module.COMMAND)
    with contextlib.redirect_stdout(out), contextlib.redirect_stderr(err):
        try:
            status = cli.status_of(parser.parse_args(list(map(str, words))))
        except SystemExit as end:
            status = end.code
    return status, out.getvalue(), err.getvalue()


def ended(module, *words):
    """The status with which `gpslog` ends, and what it prints on both streams.

    What it doesn't tell by a line of its own is raised.
    """
    out, err = io.StringIO(), io.StringIO()
    with mock.patch("gpscover.command.drop_output"):
        with contextlib.redirect_stdout(out), contextlib.redirect_stderr(err):
            try:
                cli.main([module.COMMAND.name, *map(str, words)])
            except SystemExit as end:
                return end.code or 0, out.getvalue(), err.getvalue()


@contextlib.contextmanager
def written(**texts):
    """The paths of files with these texts, in their order, in a folder that is removed behind it."""
    with tempfile.TemporaryDirectory() as room:
        paths = [Path(room) / name for name in texts]
        for path, text in zip(paths, texts.values()):
            path.write_text(text, newline="\n")
        yield paths


def logs_with_places():
    """The logs with lists of places beside them."""
    folders = [RECORDED] + [Path(it) for it in [os.environ.get("GPSCOVER_RECORDED")] if it]
    return [log for folder in folders for log in sorted(folder.glob("*.log"))]


def epochs_with_places(log):
    """The epochs of a log whose known place is in their search box, each with it."""
    known = places.read_places(log.with_suffix(".places"))
    for epoch in read_epochs(log):
        place = None if epoch.few else places.place_at(known, epoch.ps)
        if place is not None and integrity.in_search_box(epoch, place):
            yield epoch, place


FIVE = "".join(
    f"sat {name} {x} {x} {y} {y} {z} {z} {distance} {distance} -500000 500000\n"
    for name, x, y, z, distance in (
        ("G01", 2 * 10**13, 0, 0, 2 * 10**13),
        ("G02", 0, 2 * 10**13, 0, 2 * 10**13),
        ("G03", 0, 0, 2 * 10**13, 2 * 10**13),
        ("G04", 12 * 10**12, 16 * 10**12, 0, 2 * 10**13),
        ("G05", 0, 0, -2 * 10**13, 2 * 10**13 + 10**9),  # a pseudorange that is 1 km too long
    )
)

FAULTY = f"epoch 1 0 5\n{FIVE}root -1000000 -1000000 -1000000 1000000 1000000 1000000\n"
