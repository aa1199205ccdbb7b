"""Regions for a map, in GeoJSON (RFC 7946): a feature for each epoch.

An epoch with a region is its outline as seen from above, counterclockwise, in longitude and
latitude of WGS 84. The properties have the rest: times, the mark, lengths and heights in metres. An
outline that crosses the meridian of 180 degrees isn't cut there.
"""

from __future__ import annotations

import json
from collections.abc import Iterator
from typing import Any

from gpscover.kml import ground_ring, heights, utc
from gpscover.log import Epoch, PathLike, calendar, epochs
from gpscover.outline import outline
from gpscover.region import Region, region_or_none, upward
from gpscover.summary import mark_of


def feature(epoch: Epoch, region: Region | None) -> dict[str, Any]:
    """An epoch; without a region it has no geometry."""
    properties: dict[str, Any] = {
        "epoch": epoch.index,
        "gps_time": calendar(epoch.ps),
        "utc": utc(epoch.ps),
        "satellites": epoch.satellites,
        "mark": mark_of(epoch, region) or "ok",
    }
    geometry = None
    if region is not None:
        low, high = heights(region)
        lengths = zip(("east_m", "north_m", "up_m"), map(upward, region.widths()))
        properties |= {**dict(lengths), "height_low_m": low, "height_high_m": high}
        properties |= {"certified": True} if region.certified else {}
        geometry = {"type": "Polygon", "coordinates": [ring(epoch, region)]}
    return {"type": "Feature", "geometry": geometry, "properties": properties}


def ring(epoch: Epoch, region: Region) -> list[list[float]]:
    """The outline of a region as [longitude, latitude] in degrees, the first corner at the end."""
    east, north, _ = region.axes
    corners = outline(epoch.boxes, region.origin, east, north)
    around = ground_ring(region, corners)
    return [[round(longitude, 9), round(latitude, 9)] for latitude, longitude in around]


def features(path: PathLike) -> Iterator[dict[str, Any]]:
    """The features of a log."""
    for epoch in epochs(path):
        yield feature(epoch, region_or_none(epoch))


def lines(path: PathLike) -> Iterator[str]:
    """The lines of the document, a feature a line."""
    yield '{"type": "FeatureCollection", "features": ['
    comma = ""
    for it in features(path):
        yield comma + json.dumps(it)
        comma = ","
    yield "]}"
