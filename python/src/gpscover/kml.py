"""Regions for a map, in KML 2.2: a placemark for each epoch, with its time, its heights and a style by its mark.

An epoch with a region is its outline as seen from above, twice, at its least and its greatest height. Times are UTC, as
KML wants them. Heights are those above the ellipsoid of WGS 84; a map takes them for heights above the sea, which
differ from them by up to 107 m.
"""

from __future__ import annotations

import datetime
import math

from gpscover.geodesy import geodetic
from gpscover.log import Epoch, calendar
from gpscover.outline import Flat, outline
from gpscover.region import Region, upward

# The days from which GPS time was a second more ahead of UTC. From 2017 on it is 18 s.
LEAPS = (
    "1981-07-01 1982-07-01 1983-07-01 1985-07-01 1988-01-01 1990-01-01 1991-01-01 1992-07-01"
    " 1993-07-01 1994-07-01 1996-01-01 1997-07-01 1999-01-01 2006-01-01 2009-01-01 2012-07-01"
    " 2015-07-01 2017-01-01"
).split()
STYLES = {  # the colour of a line and of an area as alpha, blue, green, red
    "": ("whole", "ff358254", "66358254"),
    "reaches": ("cut", "ffd46bb3", "66d46bb3"),
    "empty": ("empty", "ff0000c0", "660000c0"),
    "lost": ("empty", "ff0000c0", "660000c0"),
    "few": ("few", "ff7f7f7f", "667f7f7f"),
}
TAIL = "</Document></kml>\n"


def head() -> str:
    """What stands before the placemarks."""
    styles = "".join(
        f'<Style id="{name}"><LineStyle><color>{line}</color><width>2</width></LineStyle>'
        f"<PolyStyle><color>{area}</color></PolyStyle></Style>\n"
        for name, line, area in dict.fromkeys(STYLES.values())
    )
    return f'<?xml version="1.0" encoding="UTF-8"?>\n<kml xmlns="http://www.opengis.net/kml/2.2"><Document>\n{styles}'


def leap_seconds(when: datetime.datetime) -> int:
    """How many seconds GPS time is ahead of UTC at a date in GPS time."""
    ahead = 0
    for day in LEAPS:
        if when - datetime.timedelta(seconds=ahead + 1) >= datetime.datetime.fromisoformat(day):
            ahead += 1
    return ahead


def utc(ps: int) -> str:
    """A time in ps as date and time of day in UTC, to the nearest millisecond."""
    when = datetime.datetime.fromisoformat(calendar(ps))
    ahead = datetime.timedelta(seconds=leap_seconds(when))
    return (when - ahead).isoformat(timespec="milliseconds") + "Z"


def ground_ring(region: Region, corners: list[Flat]) -> list[tuple[float, float]]:
    """An outline of corners (east, north) as (latitude, longitude) in degrees, the first one again at the end."""
    points = (geodetic(region.point((east, north, 0.0))) for east, north in corners + corners[:1])
    return [(math.degrees(latitude), math.degrees(longitude)) for latitude, longitude, _ in points]


def polygon(ring: list[tuple[float, float]], height: float) -> str:
    """A ring of (latitude, longitude) in degrees at a height in m."""
    points = " ".join(f"{longitude:.9f},{latitude:.9f},{height:.3f}" for latitude, longitude in ring)
    return (
        "<Polygon><altitudeMode>absolute</altitudeMode><outerBoundaryIs><LinearRing><coordinates>"
        f"{points}</coordinates></LinearRing></outerBoundaryIs></Polygon>"
    )


def heights(region: Region) -> tuple[float, float]:
    """The least and the greatest height above the ellipsoid in m, along the up direction of the region's origin."""
    height = geodetic(region.origin)[2]
    low, high = region.extents[2]
    return height + low, height + high


def geometry(epoch: Epoch, region: Region) -> str:
    """The outline of a region at its least and its greatest height."""
    east, north, _ = region.axes
    ring = ground_ring(region, outline(epoch.boxes, region.origin, east, north))
    return "<MultiGeometry>" + "".join(polygon(ring, height) for height in heights(region)) + "</MultiGeometry>"


def words(epoch: Epoch, region: Region | None, mark: str) -> str:
    """What is said of an epoch."""
    said = f"{calendar(epoch.ps)} GPS time, {epoch.satellites} satellites"
    if region is None:
        return f"{said}, {mark}"
    east, north, up = (upward(width) for width in region.widths())
    low, high = heights(region)
    certified = ", certified" if region.certified else ""
    cut = f", reaches the search box at {' '.join(region.faces)}" if region.faces else ""
    return f"{said}, east {east:.1f} m, north {north:.1f} m, up {up:.1f} m, height {low:.1f} to {high:.1f} m{certified}{cut}"


def placemark(epoch: Epoch, region: Region | None, mark: str) -> str:
    """An epoch; without a region it has no outline."""
    return (
        "<Placemark><name>epoch"
        f" {epoch.index}</name><description>{words(epoch, region, mark)}</description>"
        f"<TimeStamp><when>{utc(epoch.ps)}</when></TimeStamp>"
        f"<styleUrl>#{STYLES[mark][0]}</styleUrl>"
        f"{'' if region is None else geometry(epoch, region)}</Placemark>\n"
    )
