"""Writes the regions of a log for other programs, by the ending of OUT.

usage: gpslog export LOG OUT

  .csv                the values of `gpslog summary --csv`
  .kml                outlines for a map, as `gpslog summary --kml` writes them
  .geojson, .json     outlines for a map; a feature an epoch
  .gpkg               the same as a GeoPackage, where geopandas is installed
  .parquet            the frame of the epochs, where pandas and pyarrow are installed

Exit status: 0; 1 where a file can't be read or written, LOG is no whole log, or a library isn't
there; 2 for a wrong command line.
"""

from __future__ import annotations

import argparse
from collections.abc import Callable
from pathlib import Path

from gpscover import frames, geojson, kml
from gpscover.command import Command, absent, whole_file
from gpscover.errors import Error
from gpscover.log import open_log
from gpscover.summary import csv_writer, summarize


def write_csv(log: str, out: str) -> None:
    """Writes the values of each epoch."""
    with whole_file(out) as file:
        summarize(log, csv_writer(file, log))


def write_kml(log: str, out: str) -> None:
    """Writes a placemark for each epoch."""
    with whole_file(out) as file:
        file.write(kml.head())
        summarize(log, lambda *of_epoch: None, file)
        file.write(kml.TAIL)


def write_geojson(log: str, out: str) -> None:
    """Writes a feature for each epoch."""
    with whole_file(out) as file:
        file.writelines(f"{line}\n" for line in geojson.lines(log))


def write_geopackage(log: str, out: str) -> None:
    """Writes the features as a layer of a GeoPackage."""
    try:
        import geopandas
    except ImportError:
        raise absent("geopandas", "-m gpscover export ") from None
    found = list(geojson.features(log))
    if not found:
        raise Error(f"{log} has no epochs")
    frame = geopandas.GeoDataFrame.from_features(found, crs="EPSG:4326")
    try:
        frame.to_file(out, driver="GPKG", layer="regions")
    except (ValueError, RuntimeError) as error:  # as GDAL tells of a file that it can't write
        raise Error(f"{out}: {error}") from None


def write_parquet(log: str, out: str) -> None:
    """Writes the frame of the epochs."""
    frames.write_frame(frames.epochs_frame(open_log(log)), out)


WRITERS: dict[str, Callable[[str, str], None]] = {
    ".csv": write_csv,
    ".kml": write_kml,
    ".geojson": write_geojson,
    ".json": write_geojson,
    ".gpkg": write_geopackage,
    ".parquet": write_parquet,
}


def out_name(name: str) -> str:
    """A file's name with one of the endings."""
    if Path(name).suffix not in WRITERS:
        raise argparse.ArgumentTypeError(f"OUT ends with one of {' '.join(WRITERS)}")
    return name


def arguments(parser: argparse.ArgumentParser) -> None:
    """The words of the command line."""
    parser.add_argument("log", metavar="LOG")
    parser.add_argument("out", metavar="OUT", type=out_name)


def run(args: argparse.Namespace) -> int:
    """Writes the file. The status."""
    WRITERS[Path(args.out).suffix](args.log, args.out)
    return 0


ABOUT = "regions for other programs: CSV, KML, GeoJSON, GeoPackage, Parquet"
COMMAND = Command("export", ABOUT, arguments, run, __doc__)
