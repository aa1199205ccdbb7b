"""Reads the places of the first line or polygon of a file of a map: KML, GeoJSON, or lines of numbers."""

from __future__ import annotations

import json
import xml.etree.ElementTree
from pathlib import Path
from typing import Any

from gpscover.command import measure
from gpscover.geodesy import Vector
from gpscover.log import PathLike
from gpscover.polygons import ShapeError


def place_of(longitude: object, latitude: object, height: object = 0.0, *_: object) -> Vector:
    """A place (latitude, longitude, height) of numbers or their texts."""
    return measure(latitude), measure(longitude), measure(height)


def kml_places(text: str, kind: str) -> list[Vector]:
    """The places of the first line or outer ring of a KML document."""
    for node in xml.etree.ElementTree.fromstring(text).iter():
        if node.tag.rpartition("}")[2] == kind:
            for inner in node.iter():
                if inner.tag.rpartition("}")[2] == "coordinates":
                    return [place_of(*word.split(",")) for word in (inner.text or "").split()]
    return []


def json_places(tree: Any, kind: str) -> list[Vector]:
    """The places of the first line or outer ring of a GeoJSON value."""
    if isinstance(tree, dict):
        if tree.get("type") == kind:
            line = tree["coordinates"][0] if kind == "Polygon" else tree["coordinates"]
            return [place_of(*position) for position in line]
        tree = list(tree.values())
    for part in tree if isinstance(tree, list) else []:
        found = json_places(part, kind)
        if found:
            return found
    return []


def row_places(text: str) -> list[Vector]:
    """The places of lines `LAT LON [HEIGHT]`."""
    rows = (line.split() for line in text.splitlines() if line.strip())
    return [place_of(longitude, latitude, *more) for latitude, longitude, *more in rows]


def places_in(text: str, kind: str) -> list[Vector]:
    """The places (latitude, longitude, height) of a text in one of the three forms."""
    if text.lstrip().startswith("<"):
        return kml_places(text, kind)
    if text.lstrip().startswith("{"):
        return json_places(json.loads(text), kind)
    return row_places(text)


def places_of(path: PathLike, kind: str) -> list[Vector]:
    """The places of a file. ShapeError where its text, whatever it is, has none."""
    try:
        found = places_in(Path(path).read_text(encoding="utf-8"), kind)
    except (ValueError, TypeError, LookupError, AttributeError, RecursionError, xml.etree.ElementTree.ParseError):
        found = []
    if not found:
        raise ShapeError(f"{path}: there is no {kind} in it, or not all of its places are numbers")
    return found
