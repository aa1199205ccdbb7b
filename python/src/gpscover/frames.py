"""A log as pandas frames, and as a table for other programs by the ending of OUT: .csv or .parquet.

usage: gpslog frame LOG OUT [--of epochs|boxes|rows]

A row is of an epoch, of a kept box or of a usable satellite. Needs pandas (Debian: apt-get install
python3-pandas), and Parquet pyarrow or fastparquet too.

Exit status: 0; 1 where a file can't be read or written, LOG is no whole log, or a library isn't
there; 2 for a wrong command line.
"""

from __future__ import annotations

import argparse
from collections.abc import Callable, Iterable
from typing import TYPE_CHECKING, Any

from gpscover.command import Command, absent, name_ending
from gpscover.errors import Error
from gpscover.log import Epoch, Log, has_bounds, open_log
from gpscover.region import region_or_none
from gpscover.summary import CERTIFIED_COLUMNS, certified_values, mark_of
from gpscover.geodesy import geodetic

if TYPE_CHECKING:
    import pandas

EPOCH_COLUMNS = "epoch time ps mark satellites outliers inner edge out splits".split()
REGION_COLUMNS = (
    "east_m north_m up_m clock_low_m clock_high_m volume_m3 latitude_rad longitude_rad height_m x_m y_m z_m faces"
).split()
ENDS = [f"{axis}_{end}_um" for end in ("low", "high") for axis in "xyz"]
BOX_COLUMNS = ["epoch", "time", "inner", *ENDS, "clock_low_um", "clock_high_um"]
ROW_ENDS = [f"{name}_{end}_um" for name in ("x", "y", "z", "range", "error", "sure") for end in ("low", "high")]
ROW_COLUMNS = ["epoch", "time", "satellite", *ROW_ENDS]


def library() -> Any:
    """pandas, or an Error that says how to get it."""
    try:
        import pandas
    except ImportError:
        raise absent("pandas") from None
    return pandas


def frame_of(columns: list[str], rows: Iterable[tuple[Any, ...]]) -> pandas.DataFrame:
    """A frame of some rows."""
    return library().DataFrame.from_records(list(rows), columns=columns)


def epoch_row(epoch: Epoch) -> tuple[Any, ...]:
    """An epoch's numbers in the order of the columns, None where it has no region."""
    region = region_or_none(epoch)
    inner = sum(kept.inner for kept in epoch.kept)
    mark = mark_of(epoch, region) or "ok"
    head = (epoch.index, epoch.time, epoch.ps, mark, epoch.satellites, epoch.outliers)
    counts = (inner, len(epoch.kept) - inner, epoch.outs, epoch.splits)
    if region is None:
        return (*head, *counts, *(None,) * len(REGION_COLUMNS))
    middle = region.middle()
    lengths = (*region.widths(), *region.clock, region.volume)
    return (*head, *counts, *lengths, *geodetic(middle), *middle, " ".join(region.faces))


def epochs_frame(log: Log) -> pandas.DataFrame:
    """A row an epoch: time in GPS time, counts, and the region's lengths and middle in metres.

    `ps` is the exact time in ps, as Python's whole numbers. A log that may have bounds has a column `certified` too.
    """
    if not has_bounds(log.path):
        return frame_of(EPOCH_COLUMNS + REGION_COLUMNS, map(epoch_row, log))
    rows = ((*epoch_row(epoch), *certified_values(region_or_none(epoch))) for epoch in log)
    return frame_of(EPOCH_COLUMNS + REGION_COLUMNS + CERTIFIED_COLUMNS, rows)


def numbers(values: list[Any]) -> Any:
    """Whole numbers as an array, of 64 bits each where all of them fit."""
    import numpy

    try:
        return numpy.array(values, dtype=numpy.int64)
    except OverflowError:
        return numpy.array(values, dtype=object)


def boxes_frame(log: Log) -> pandas.DataFrame:
    """A row a kept box, in um: its ends, and its span of clock offsets.

    A day has some hundred thousand boxes: those of an epoch are an array before the next one is read.
    """
    pandas = library()
    import numpy

    heads: list[tuple[Any, ...]] = []
    spans, inner, positions = [numbers([]).reshape(0, len(BOX_COLUMNS) - 3)], [], []
    for position, epoch in enumerate(log):
        heads.append((epoch.index, epoch.time))
        positions += [position] * len(epoch.kept)
        inner += [kept.inner for kept in epoch.kept]
        if epoch.kept:
            spans.append(numbers([(*kept.box, *kept.clock) for kept in epoch.kept]))
    head = frame_of(BOX_COLUMNS[:2], heads).iloc[positions].reset_index(drop=True)
    ends = pandas.DataFrame(numpy.concatenate(spans), columns=BOX_COLUMNS[3:])
    return pandas.concat([head.assign(inner=numpy.array(inner, dtype=bool)), ends], axis=1)


def rows_frame(log: Log) -> pandas.DataFrame:
    """A row a usable satellite of each epoch, in um: its spans over the search box."""
    rows = (
        (epoch.index, epoch.time, row.satellite, *sum(row.place, ()), *row.range, *row.error) + tuple(row.sure)
        for epoch in log
        for row in epoch.rows
    )
    return frame_of(ROW_COLUMNS, rows)


KINDS: dict[str, Callable[[Log], Any]] = {"epochs": epochs_frame, "boxes": boxes_frame, "rows": rows_frame}


def write_frame(frame: Any, path: str) -> None:
    """Writes a frame as CSV or Parquet, by the ending of the name."""
    if path.endswith(".csv"):
        frame.to_csv(path, index=False)
        return
    try:
        frame.astype({"ps": str} if "ps" in frame else {}).to_parquet(path)
    except ImportError:
        raise Error("Parquet needs pyarrow or fastparquet; Debian 12 has neither, pip has both") from None


def arguments(parser: argparse.ArgumentParser) -> None:
    """The words of the command line."""
    parser.add_argument("log", metavar="LOG")
    parser.add_argument("out", metavar="OUT", type=name_ending(".csv", ".parquet", told=".csv or .parquet"))
    parser.add_argument("--of", choices=KINDS, default="epochs", help="what a row is of (epochs)")


def run(args: argparse.Namespace) -> int:
    """Writes a frame. The status."""
    write_frame(KINDS[args.of](open_log(args.log)), args.out)
    return 0


COMMAND = Command("frame", "epochs, boxes or rows as a table, CSV or Parquet", arguments, run, __doc__)
