"""What a page tells of each epoch beside its region: whether it holds a known place, and what it says of zones."""

from __future__ import annotations

import math
from collections import Counter
from collections.abc import Iterator, Sequence
from typing import Any

from gpscover.geodesy import Vector, geodetic
from gpscover.integrity import Judge
from gpscover.log import Epoch
from gpscover.outline import convex_hull
from gpscover.region import Region, upward
from gpscover.shapes import points_of
from gpscover.zones import ANSWERS, Zone, sides_of

Column = tuple[str, str]  # name and title

PLACE_COLUMNS: tuple[Column, ...] = (("held", "held"), ("hpl", "hpl m"), ("vpl", "vpl m"))


def ring_of(points: Sequence[Vector]) -> list[list[float]]:
    """The outline of some corners on the ground, as latitude and longitude in degrees."""
    places = (geodetic(point) for point in points)
    ring = convex_hull((math.degrees(longitude), math.degrees(latitude)) for latitude, longitude, _ in places)
    return [[round(latitude, 9), round(longitude, 9)] for longitude, latitude in ring]


def rings_of(zone: Zone) -> list[list[list[float]]]:
    """The outlines of a zone and of each piece of a group. What has no corners has none."""
    return [ring_of(points) for points in points_of(zone) if points]


class Beside:
    """The known places and the zones of a page, and how many epochs say what of these."""

    def __init__(self, judge: Judge | None = None, zones: Sequence[Zone] = ()) -> None:
        self.judge, self.zones = judge, zones
        self.answers: list[Counter[str]] = [Counter() for _ in zones]
        self.few = 0

    def columns(self) -> Iterator[Column]:
        """The columns of the table. Zones of two files may have one name."""
        yield from PLACE_COLUMNS if self.judge else ()
        for number, zone in enumerate(self.zones):
            yield f"zone {number}", f"zone {zone.name}"

    def cells(self, epoch: Epoch, region: Region | None) -> Iterator[str]:
        """What an epoch has in these columns."""
        if self.judge is not None:
            yield from self.place_cells(self.judge, epoch, region)
        self.few += epoch.few
        bounds = sides_of(epoch)
        for zone, answers in zip(self.zones, self.answers):
            answer = "" if epoch.few else zone.answer(epoch.boxes, bounds)
            answers[answer] += 1
            yield answer

    def place_cells(self, judge: Judge, epoch: Epoch, region: Region | None) -> list[str]:
        """What is said of the epoch's known place."""
        found = judge.add(epoch, region)
        if found is None:
            return [""] * len(PLACE_COLUMNS)
        return ["yes" if found.held else "no", f"{upward(found.hpl):.1f}", f"{upward(found.vpl):.1f}"]

    def lines(self) -> Iterator[str]:
        """What is said of all epochs."""
        yield from self.judge.lines() if self.judge else ()
        for zone, answers in zip(self.zones, self.answers):
            said = ", ".join(f"{answer} in {answers[answer]}" for answer in ANSWERS)
            yield f"zone {zone.name}: {said}, few {self.few}"

    def warnings(self) -> Iterator[str]:
        """What must not be passed over."""
        yield from self.judge.warnings() if self.judge else ()

    def drawn(self) -> list[dict[str, Any]]:
        """The zones for the map, with their columns. One without corners has no outline."""
        return [
            {"column": f"zone {k}", "name": zone.name, "rings": rings_of(zone)} for k, zone in enumerate(self.zones)
        ]
