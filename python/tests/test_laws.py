"""Laws of values, by hypothesis, and other libraries as oracles."""

import itertools
import math

import pytest
from hypothesis import given
from hypothesis import strategies as st
from made_logs import epoch_of

from gpscover import Box, geodesy
from gpscover.outline import convex_hull, outlines

END = st.integers(-(10**13), 10**13)
NEAR = st.integers(-(10**9), 10**9)


def boxes_of(end):
    """Boxes by a strategy for their ends."""
    return st.tuples(*[end] * 6).map(lambda ends: Box(*map(min, ends[:3], ends[3:]), *map(max, ends[:3], ends[3:])))


LATITUDE, LONGITUDE = st.floats(-1.57, 1.57), st.floats(-3.14, 3.14)
HEIGHT = st.floats(-10_000, 100_000)
FLAT = st.lists(st.tuples(st.integers(-50, 50), st.integers(-50, 50)), min_size=3, max_size=30)


@given(boxes_of(END), st.lists(st.tuples(st.integers(0, 2), st.booleans()), max_size=30))
def test_splits_partition_the_search_box(root, choices):
    """Each half is kept or split again: the kept boxes share no point and fill the root."""
    lines, live, following = [], 0, 1
    low, high = list(root.low), list(root.high)
    for axis, keeps_high in choices:
        if low[axis] == high[axis]:
            continue
        lines.append(f"split {live} {axis}")
        other = following if keeps_high else following + 1
        lines.append(f"edge {other} 0 0")
        middle = (low[axis] + high[axis]) // 2
        (low if keeps_high else high)[axis] = middle + 1 if keeps_high else middle
        live, following = following + keeps_high, following + 2
    lines += [f"edge {live} 0 0", f"done {following // 2}"]
    text = f"epoch 1 0 5\nroot {' '.join(map(str, root))}\n" + "\n".join(lines) + "\n"
    boxes = epoch_of(text).boxes

    def points(box):
        return math.prod(b - a + 1 for a, b in zip(box.low, box.high))

    assert sum(map(points, boxes)) == points(root)
    assert boxes[-1] == (*low, *high)


@given(LATITUDE, LONGITUDE, HEIGHT)
def test_geodesy_and_proj_agree(latitude, longitude, height):
    pyproj = pytest.importorskip("pyproj")
    transformer = pyproj.Transformer.from_crs("EPSG:4979", "EPSG:4978", always_xy=True)
    wanted = transformer.transform(math.degrees(longitude), math.degrees(latitude), height)
    found = geodesy.earth_fixed(latitude, longitude, height)
    assert math.dist(found, wanted) < 1e-5
    back = geodesy.geodetic(found)
    assert math.dist(geodesy.earth_fixed(*back), found) < 1e-5


@given(FLAT)
def test_the_hull_is_that_of_shapely(points):
    shapely = pytest.importorskip("shapely.geometry")
    wanted = shapely.MultiPoint(points).convex_hull
    hull = convex_hull(points)
    if wanted.geom_type != "Polygon":
        return
    found = shapely.Polygon(hull)
    assert found.exterior.is_ccw
    assert found.symmetric_difference(wanted).area == 0


@given(st.lists(boxes_of(NEAR), min_size=1, max_size=12), LATITUDE, LONGITUDE)
def test_an_outline_reaches_as_far_as_all_corners(boxes, latitude, longitude):
    """In each of 72 directions, and each of its own corners is one of a box."""
    east, north, up = geodesy.local_axes(latitude, longitude)
    planes = (east, north), (east, up), (north, up)
    all_corners = [corner for box in boxes for corner in itertools.product(*zip(box.low, box.high))]
    for (right, upward), ring in zip(planes, outlines(boxes, (0, 0, 0), *planes)):
        flat = [(geodesy.dot(right, corner) / 1e6, geodesy.dot(upward, corner) / 1e6) for corner in all_corners]
        assert all(min(math.dist(point, other) for other in flat) < 1e-8 for point in ring)
        for degrees in range(0, 360, 5):
            x, y = math.cos(math.radians(degrees)), math.sin(math.radians(degrees))
            reach, wanted = (max(x * p + y * q for p, q in points) for points in (ring, flat))
            assert reach == pytest.approx(wanted, rel=0, abs=3e-6)
