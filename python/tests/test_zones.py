"""Zones by exact fractions and by all corners, and what the program says of them.

Its `guard` has to print what `gpslog answers` does, of a thousand drawn zones, prisms, groups and
directions on a solved and a tracked log of examples/vehicle.obs, on one with bounds, and of zones that
are made.
"""

import itertools
import json
import math
import os
import random
import re
import shutil
import subprocess
import tempfile
from fractions import Fraction
from pathlib import Path

import pytest
from made_logs import EXAMPLES, RECORDED, ended, ended_with

from gpscover import bounded, polygons, shapes, zones
from gpscover.geodesy import dot, earth_fixed
from gpscover.log import Box
from gpscover.log import epochs as read_epochs
from gpscover.program import own_program
from gpscover.region import hull_of

DRAWN = 1000
PLACES = RECORDED / "cres_2008.places"


# Where the road of the vehicle turns, and areas beside it.
LATITUDE, LONGITUDE = 35.872719, 138.3872534
SPIKES = ((-60, -200), (-300, -150), (-90, -400), (-300, -450), (-60, -650), (-450, -700), (-450, -100))
NEEDLES = ((-50, -30), (-400, -60), (-60, -400), (-300, -420), (-420, -30))
NOTCH = ((-45, 0), (-45, -500), (-250, -500), (-250, -300), (-110, -260), (-250, -220), (-250, 0))

NONE = "there is no (Polygon|LineString) in it, or not all of its places are numbers"
THREE = "a: an area has three corners or more"
AREA, LANE = ("--area", "800,1150"), ("--lane", "120,-160,160")
# A file's name, its text, the option that reads it with the fields behind it, and the line that
# says what is wrong.
NO_SHAPES = (
    ("null-geometry.json", '{"type": "Feature", "geometry": null}', *AREA, NONE),
    ("empty-object.json", "{}", *AREA, NONE),
    ("number.json", "1", *AREA, NONE),
    ("null-corner.json", '{"type": "Polygon", "coordinates": [[[1, 2], [1, 3], null]]}', *AREA, NONE),
    ("no-coordinates.json", '{"type": "Polygon"}', *AREA, NONE),
    ("infinite.json", '{"type": "Polygon", "coordinates": [[[1, 2], [1, 3], [2, Infinity]]]}', *AREA, NONE),
    ("deep.json", '{"geometry": ' * 10_000, *AREA, NONE),
    ("deep.kml", "<a>" * 10_000, *AREA, NONE),
    ("one-corner.txt", "35.8 138.3\n", *AREA, THREE),
    ("one-point-thrice.txt", "35.875 138.392 900\n" * 3, *AREA, THREE),
    ("not-a-number.txt", "35.875 138.392\n35.875 nan\n35.876 138.393\n", *AREA, NONE),
    ("empty.txt", "", *LANE, NONE),
    ("one-number.txt", "35.8\n", *LANE, NONE),
    ("short-position.json", '{"type": "LineString", "coordinates": [[138], [138, 35.1]]}', *LANE, NONE),
    ("text-position.json", '{"type": "LineString", "coordinates": ["east", "west"]}', *LANE, NONE),
    ("empty-coordinates.kml", "<kml><LineString><coordinates/></LineString></kml>", *LANE, NONE),
    (
        "one-place-twice.kml",
        "<kml><LineString><coordinates>138,35 138,35</coordinates></LineString></kml>",
        *LANE,
        "a leg is longer than 0",
    ),
)


def said(*words):
    """The lines that the script prints for these words."""
    status, out, _ = ended_with(shapes, *words)
    assert status == 0
    return out.splitlines()


def prisms(lines):
    """The prisms of some lines, and the pieces of groups: lists of sides (A, H)."""
    found, each = [], 0
    for line in lines:
        word, *rest = line.split()
        if word == "side":
            x, y, z, most = map(int, rest)
            if len(found[-1]) == each:
                found.append([])
            found[-1].append(((x, y, z), most))
        elif word in ("prism", "group"):
            found.append([])
            each = int(rest[-1])
    return found


def holds(sides, point):
    """Whether a prism holds a point in um, by exact fractions."""
    return all(shapes.product(a, point) <= most for a, most in sides)


def answer(sides, boxes):
    """What boxes (lo, hi) in um say of a prism, by all of their corners."""
    values = [
        [[sum(x * y for x, y in zip(a, corner)) for corner in itertools.product(*zip(*box))] for box in boxes]
        for a, _ in sides
    ]
    if all(any(min(values[s][b]) > sides[s][1] for s in range(len(sides))) for b in range(len(boxes))):
        return "outside"
    if boxes and all(max(values[s][b]) <= sides[s][1] for s in range(len(sides)) for b in range(len(boxes))):
        return "inside"
    return "open"


def left(box, bound):
    """The corners of what a bound leaves of a box: those of the box within it, and where its edges meet the plane."""
    (d, most), lo, hi = bound, *box
    corners = [corner for corner in itertools.product(*zip(lo, hi)) if dot(d, corner) <= most]
    for axis in range(3):
        others = [k for k in range(3) if k != axis]
        for ends in itertools.product(*(((lo[k]), hi[k]) for k in others)):
            at = dict(zip(others, ends))
            if d[axis]:
                at[axis] = Fraction(most - sum(d[k] * at[k] for k in others), d[axis])
                if lo[axis] <= at[axis] <= hi[axis]:
                    corners.append((at[0], at[1], at[2]))
    return corners


def bounded_answer(pieces, boxes, bounds):
    """What boxes say of pieces, each as far as it lies within one bound or none, by all corners of that."""
    every = ((0, 0, 0), 0)
    parts = [[left(box, bound) for bound in (every, *bounds)] for box in boxes]

    def some(of, test):
        return any(all(map(test, corners)) for corners in of)

    def lies_out(of, sides):
        return any(some(of, lambda p, a=a, h=h: dot(a, p) > h) for a, h in sides)

    def lies_in(of, sides):
        return all(some(of, lambda p, a=a, h=h: dot(a, p) < h + 1) for a, h in sides)

    if all(lies_out(of, sides) for sides in pieces for of in parts):
        return "outside"
    if all(any(lies_in(of, sides) for sides in pieces) for of in parts):
        return "inside"
    return "open"


def um(point):
    return tuple(Fraction(part) * shapes.UM for part in point)


def drawn_place(draw):
    return (
        draw.uniform(-89, 89),
        draw.uniform(-180, 180),
        draw.uniform(-100, 3000),
        draw.uniform(1, 500),
        draw.uniform(1, 100),
    )


def around(draw, place):
    """A point within the radius and the heights of a place, or at their edge, in the plane below it."""
    latitude, longitude, height, radius, up = place
    ground = shapes.Ground(math.radians(latitude), math.radians(longitude))
    far, turn = radius * draw.choice((1, math.sqrt(draw.random()))), draw.uniform(0, 2 * math.pi)
    return ground.point(
        (far * math.cos(turn), far * math.sin(turn), height + up * draw.choice((-1, 1, draw.uniform(-1, 1))))
    )


class TestPlaces:
    def test_a_thousand_drawn_places_are_held_by_what_grew_and_hold_what_shrank(self):
        draw = random.Random(1)
        for number in range(DRAWN):
            place = drawn_place(draw)
            (grown,) = prisms(shapes.place_lines("a", place[:3], *place[3:], "outside"))
            for _ in range(3):
                assert holds(grown, um(around(draw, place))), (number, place)
            if number % 50:
                continue
            (shrunk,) = prisms(shapes.place_lines("a", place[:3], *place[3:], "inside"))
            self.assert_corners_within(shrunk, place)

    def assert_corners_within(self, sides, place):
        latitude, longitude, height, radius, up = place
        ground = shapes.Ground(math.radians(latitude), math.radians(longitude))
        found = shapes.corners(sides)
        assert found
        for x, y, z, divisor in found:
            point = [float(Fraction(part, divisor) / shapes.UM) - o for part, o in zip((x, y, z), ground.origin)]
            east, north, above = (dot(point, axis) for axis in ground.axes)
            assert math.hypot(east, north) < radius
            assert abs(above - height) < up

    def test_the_middle_of_a_place_is_inside_and_what_is_beyond_is_outside(self):
        place = (47.2, 8.5, 400.0, 25.0, 10.0)
        middle = [round(part * shapes.UM) for part in earth_fixed(math.radians(47.2), math.radians(8.5), 400.0)]
        near = [(tuple(p - 10**6 for p in middle), tuple(p + 10**6 for p in middle))]
        far = [(tuple(p + 40 * 10**6 for p in middle), tuple(p + 41 * 10**6 for p in middle))]
        for purpose in ("outside", "inside"):
            (sides,) = prisms(shapes.place_lines("a", place[:3], *place[3:], purpose))
            assert [answer(sides, boxes) for boxes in (near, far, near + far, [])] == [
                "inside",
                "outside",
                "open",
                "outside",
            ]


class TestAreas:
    def ring(self, draw, count):
        """A polygon round a place, star-shaped and so seldom convex."""
        latitude, longitude = draw.uniform(-80, 80), draw.uniform(-179, 179)
        turns = sorted(draw.uniform(0, 2 * math.pi) for _ in range(count))
        far = [draw.uniform(1e-4, 2e-3) for _ in turns]
        return [
            (latitude + f * math.sin(t), longitude + f * math.cos(t) / math.cos(math.radians(latitude)))
            for f, t in zip(far, turns)
        ]

    def test_points_of_drawn_polygons_are_held_by_a_part(self):
        draw = random.Random(2)
        for number in range(200):
            ring = self.ring(draw, draw.randint(3, 9))
            try:
                parts = prisms(shapes.area_lines("a", ring, 100.0, 130.0, "outside"))
            except shapes.ShapeError:
                continue
            for start, end in zip(ring, ring[1:] + ring[:1]):
                for share in (0.0, 0.5, 0.9):
                    at = [math.radians(p + share * (q - p)) for p, q in zip(start, end)]
                    for height in (100.0, 117.0, 130.0):
                        point = um(earth_fixed(*at, height))
                        near = any(
                            all(shapes.product(a, point) <= most + 200_000 * shapes.LONGEST for a, most in part)
                            for part in parts
                        )
                        held = any(holds(part, point) for part in parts)
                        assert held or (share and near), (number, share, height)

    def test_an_area_that_is_not_convex_is_one_zone_of_its_parts(self):
        square = [(47.0, 8.0), (47.0, 8.001), (47.001, 8.001), (47.001, 8.0)]
        notched = [*square, (47.0005, 8.0005)]
        for purpose in ("outside", "inside"):
            assert shapes.area_lines("a", square, 0.0, 20.0, purpose, parts=True)[0] == "prism a 6"
        # for outside the two parts have sides more, and both have as many
        (head, *sides) = shapes.area_lines("a", notched, 0.0, 20.0, "outside")
        apart = shapes.area_lines("a", notched, 0.0, 20.0, "outside", parts=True)
        each = len(sides) // 2
        assert head == f"group a 2 {each}"
        assert [line.split()[:2] for line in apart if line.startswith("prism")] == [["prism", "a-1"], ["prism", "a-2"]]
        assert [set(piece) for piece in prisms([head, *sides])] == [set(part) for part in prisms(apart)]
        # for inside a part has a face for each edge of its own, a floor and a lid
        assert shapes.area_lines("a", notched, 0.0, 20.0, "inside")[0] == "group a 2 6"
        with pytest.raises(
            shapes.ShapeError, match="a: for inside by parts it must be convex, with at most 14 corners"
        ):
            shapes.area_lines("a", notched, 0.0, 20.0, "inside", parts=True)

    def test_parts_of_drawn_polygons_for_inside_lie_in_them(self):
        shapely = pytest.importorskip("shapely.geometry")
        draw, several = random.Random(12), 0
        for number in range(60):
            ring = self.ring(draw, draw.randint(4, 8))
            try:
                parts = prisms(shapes.area_lines("a", ring, 100.0, 130.0, "inside"))
            except shapes.ShapeError:
                continue
            around = [(math.radians(p[0]), math.radians(p[1])) for p in ring]
            ground = shapes.Ground(*(sum(p[k] for p in around) / len(around) for k in (0, 1)))
            flat = shapely.Polygon([ground.local(*p, 0.0)[:2] for p in around])
            for x, y, z, divisor in (corner for sides in parts for corner in shapes.corners(sides)):
                point = [float(Fraction(part, divisor) / shapes.UM) for part in (x, y, z)]
                east, north, _ = ground.offset(point)
                assert flat.distance(shapely.Point(east, north)) < 0.1, number  # as edges at two heights are apart
            several += len(parts) > 1
        assert several > 20

    def drawn_flat(self, draw):
        """A polygon in a plane, star-shaped, in m."""
        count = draw.randint(5, 20)
        turns = [2 * math.pi * (k + draw.uniform(0, 0.9)) / count for k in range(count)]
        return [(f * math.cos(t), f * math.sin(t)) for t in turns for f in [draw.uniform(10, 200)]]

    def test_convex_parts_are_the_polygon_without_overlaps(self):
        shapely = pytest.importorskip("shapely.geometry")
        union = pytest.importorskip("shapely.ops").unary_union
        draw, fewer = random.Random(9), 0
        for number in range(200):
            flat = self.drawn_flat(draw)
            thirds, parts = polygons.triangles(flat), polygons.convex_parts(flat)
            drawn = [shapely.Polygon([flat[i] for i in part]) for part in parts]
            assert all(polygons.is_convex([flat[i] for i in part]) for part in parts if len(part) > 3), number
            assert all(len(part) <= polygons.MOST_PART_CORNERS for part in parts)
            whole = shapely.Polygon(flat)
            assert sum(part.area for part in drawn) == pytest.approx(whole.area)
            assert union(drawn).symmetric_difference(whole).area < 1e-6 * whole.area
            fewer += len(parts) < len(thirds)
        assert fewer > 100

    def test_a_part_ends_at_its_own_corners(self):
        """A V, whose middle lies between its arms: 25 m from both, so no part reaches there."""
        vee = [(47.0, 8.0), (47.002, 8.001), (47.0, 8.002), (47.0, 8.0018), (47.0016, 8.001), (47.0, 8.0002)]
        parts = prisms(shapes.area_lines("a", vee, 100.0, 130.0, "outside"))
        assert len(parts) == 2
        middle = [math.radians(sum(p[k] for p in vee) / len(vee)) for k in (0, 1)]
        for height in (100.0, 115.0, 130.0):
            assert not any(holds(part, um(earth_fixed(*middle, height))) for part in parts)
            for latitude, longitude in vee:
                at = um(earth_fixed(math.radians(latitude), math.radians(longitude), height))
                assert any(holds(part, at) for part in parts)

    def test_bevels_part_boxes_from_sharp_edges_and_hold_what_the_faces_do(self):
        draw, gained = random.Random(10), 0
        for number in range(100):
            ground = shapes.Ground(draw.uniform(-1.4, 1.4), draw.uniform(-3, 3))
            far, wide = draw.uniform(100, 300), draw.uniform(5, 30)
            flat = [(0.0, 0.0), (far, -wide), (far, wide)]
            faces, points = shapes.upright(ground, [[(*p, h) for p in flat] for h in (-80.0, 80.0)], -80.0, 80.0)
            more = shapes.bevels(faces[:3], 11)
            assert 3 <= len(more) <= 11
            sides, with_more = shapes.grown(faces, points), shapes.grown([*faces, *more], points)
            assert with_more[:5] == sides
            assert all(holds(with_more, um(point)) for point in points)
            middle = ground.point((-draw.uniform(5, 40), draw.uniform(-10, 10), draw.uniform(-20, 20)))
            box = tuple(tuple(round((p + sign * 5) * shapes.UM) for p in middle) for sign in (-1, 1))
            before, after = (answer(s, [box]) for s in (sides, with_more))
            assert (before, after) in (("open", "open"), ("open", "outside"), ("outside", "outside")), number
            gained += before != after
        assert gained > 30


class TestLanes:
    def test_drawn_legs_hold_their_line(self):
        draw = random.Random(3)
        for number in range(200):
            start = (draw.uniform(-80, 80), draw.uniform(-179, 179), draw.uniform(0, 500))
            end = (
                start[0] + draw.uniform(-0.01, 0.01),
                start[1] + draw.uniform(-0.01, 0.01),
                start[2] + draw.uniform(-20, 20),
            )
            for purpose in ("outside", "inside"):
                (sides,) = prisms(shapes.lane_lines("l", [start, end], 3.5, -1.0, 3.0, purpose))
                for share in (0.01, 0.5, 0.99):
                    at = [p + share * (q - p) for p, q in zip(start, end)]
                    a, b = (earth_fixed(math.radians(p[0]), math.radians(p[1]), p[2]) for p in (start, end))
                    assert holds(sides, um([p + share * (q - p) for p, q in zip(a, b)])), (number, purpose, share, at)


def drawn_boxes(draw, reach):
    """Up to three boxes within a reach of the origin."""
    ends = [
        [sorted(draw.randint(-reach, reach) for _ in range(2)) for _ in range(3)] for _ in range(draw.randint(0, 3))
    ]
    return [(tuple(e[0] for e in box), tuple(e[1] for e in box)) for box in ends]


class TestAnswers:
    def test_a_thousand_drawn_prisms_answer_as_all_corners_do(self):
        draw = random.Random(4)
        for number in range(DRAWN):
            reach = draw.choice((3, 10**6, 10**13))
            boxes = drawn_boxes(draw, reach)
            sides = []
            for _ in range(draw.randint(1, 4)):
                a = (
                    tuple(draw.randint(-5, 5) for _ in range(3))
                    if reach == 3
                    else tuple(draw.randint(-(2**20), 2**20) for _ in range(3))
                )
                if any(a):
                    sides.append((a, draw.randint(-sum(map(abs, a)) * reach, sum(map(abs, a)) * reach)))
            flat = [(*lo, *hi) for lo, hi in boxes]
            assert zones.Prism("a", sides).answer(flat) == answer(sides, boxes), (number, sides, boxes)

    def test_a_box_answers_as_the_prism_of_its_sides(self):
        draw = random.Random(5)
        for _ in range(DRAWN):
            ends = [sorted(draw.randint(-4, 4) for _ in range(2)) for _ in range(3)]
            sides = [(tuple(s * (k == i) for i in range(3)), s * ends[k][s > 0]) for k in range(3) for s in (-1, 1)]
            flat = [Box(*lo, *hi) for lo, hi in drawn_boxes(draw, 4)]
            low, high = zip(*ends)
            box = zones.Corners("a", low, high)
            assert box.answer(flat) == zones.Prism("a", sides).answer(flat)

    def test_a_thousand_drawn_prisms_answer_within_bounds_as_all_corners_of_what_these_leave_do(self):
        draw, said = random.Random(7), set()
        for number in range(DRAWN):
            reach = draw.choice((3, 3, 10**13))
            boxes = drawn_boxes(draw, reach)

            def plane(size, reach=reach):
                a = tuple(draw.randint(-size, size) for _ in range(3))
                a = a if any(a) else (0, size, 0)
                most = sum(map(abs, a)) * reach
                return a, draw.randint(-most // 2, most)

            sides = [plane(5 if reach == 3 else 2**20) for _ in range(draw.randint(1, 3))]
            bounds = [plane(5 if reach == 3 else 10**6) for _ in range(draw.randint(0, 3))]
            if draw.random() < 0.5 and bounds:  # a side near what a bound leaves
                (a, _), (d, most) = sides[0], bounds[0]
                turn = draw.choice((1, -1))
                sides[0] = tuple(turn * k for k in d), turn * most + draw.choice((-1, 0, 1))
            flat = [(*lo, *hi) for lo, hi in boxes]
            wanted = bounded_answer([sides], boxes, bounds)
            assert zones.Prism("a", sides).answer(flat, bounds) == wanted, (number, sides, boxes, bounds)
            said.add((bool(bounds), wanted, wanted != zones.Prism("a", sides).answer(flat)))
        assert {(True, "outside", True), (True, "inside", True), (True, "open", False)} <= said

    def test_a_box_answers_within_bounds_by_what_it_shares(self):
        draw = random.Random(8)
        for _ in range(DRAWN):
            ends = [sorted(draw.randint(-4, 4) for _ in range(2)) for _ in range(3)]
            low, high = zip(*ends)
            boxes = drawn_boxes(draw, 4)
            bounds = [(tuple(draw.randint(-3, 3) for _ in range(3)), draw.randint(-9, 9)) for _ in range(2)]
            flat = [Box(*lo, *hi) for lo, hi in boxes]
            box = zones.Corners("a", low, high)

            def points(part, zone=(low, high), bound=((0, 0, 0), 0)):
                shared = [range(max(a, b), min(c, d) + 1) for a, b, c, d in zip(part[0], zone[0], part[1], zone[1])]
                return [point for point in itertools.product(*shared) if dot(bound[0], point) <= bound[1]]

            outside = all(any(not points(part, bound=bound) for bound in (((0, 0, 0), 0), *bounds)) for part in boxes)
            assert (box.answer(flat, bounds) == "outside") == outside
            if not outside:
                by_faces = zones.Prism("a", box.faces()).answer(flat, bounds)
                assert by_faces == "outside" or box.answer(flat, bounds) == by_faces

    def test_a_thousand_drawn_groups_answer_as_all_corners_of_their_pieces_do(self):
        draw, said = random.Random(11), set()
        for number in range(DRAWN):
            boxes = drawn_boxes(draw, 3)

            def plane(most):
                a = tuple(draw.choice((-2, -1, 0, 0, 1, 2)) for _ in range(3))
                return (a if any(a) else (0, 1, 0)), draw.randint(-2, most)

            pieces = [[plane(9) for _ in range(draw.randint(1, 2))] for _ in range(draw.randint(1, 3))]
            if (
                draw.random() < 0.6
            ):  # the two halves of a space, so that each box that the plane doesn't cut lies in one
                (a, h), turn = plane(3), draw.choice((0, 1))
                pieces = [*pieces[:1], [(a, h)], [(tuple(-k for k in a), turn - h)]]
            bounds = [plane(6) for _ in range(draw.randint(0, 2))]
            flat = [(*lo, *hi) for lo, hi in boxes]
            group = zones.Group("a", pieces)
            wanted = bounded_answer(pieces, boxes, bounds)
            assert group.answer(flat, bounds) == wanted, (number, pieces, boxes, bounds)
            alone = {piece.answer(flat, bounds) for piece in group.prisms()}
            said.add((bool(bounds), wanted, wanted in alone))
            assert wanted != "outside" or alone == {"outside"}
        # boxes that lie in different pieces are inside the group, and in no piece
        assert {(b, a, True) for b in (True, False) for a in zones.ANSWERS} <= said
        assert {(True, "inside", False), (False, "inside", False)} <= said

    def test_a_group_of_one_piece_answers_as_the_prism(self):
        draw = random.Random(13)
        for _ in range(DRAWN // 4):
            flat = [Box(*lo, *hi) for lo, hi in drawn_boxes(draw, 4)]
            sides = [((draw.randint(1, 3), draw.randint(-3, 3), draw.randint(-3, 3)), draw.randint(-9, 9))]
            assert zones.Group("a", [sides]).answer(flat) == zones.Prism("a", sides).answer(flat)
            # a piece that repeats a side is the same piece, and a piece that stands twice says nothing more
            assert zones.Group("a", [sides * 2, sides]).answer(flat) == zones.Prism("a", sides).answer(flat)

    def test_lines_of_a_log(self):
        text = (
            "gpszones 2\nzone a 0 0 0 2 2 2\nprism b 1\nside 1 1 1 3\nreach c 2 0 -1\n"
            # x up to 2, and x from 5 with y up to 9
            "group d 2 2\nside 1 0 0 2\nside 1 0 0 2\nside -1 0 0 -5\nside 0 1 0 9\n"
        )
        log = [
            (1, [(0, 0, 0, 1, 1, 1)], []),
            (2, None, []),
            (3, [], []),
            (4, [(0, 0, 0, 1, 1, 1), (5, 5, 5, 6, 6, 6)], []),
        ]
        wanted = (
            "epoch 1 zone a inside,epoch 1 zone b inside,epoch 1 reach c -1 2,epoch 1 zone d inside,epoch 2 few,"
            "epoch 3 zone a outside,epoch 3 zone b outside,epoch 3 reach c none,epoch 3 zone d outside,"
            "epoch 4 zone a open,epoch 4 zone b open,epoch 4 reach c -1 7,epoch 4 zone d inside,"
            "zone a outside 1 inside 1 open 1 few 1,zone b outside 1 inside 1 open 1 few 1,reach c -1 7,"
            "zone d outside 1 inside 2 open 0 few 1"
        ).split(",")
        with tempfile.TemporaryDirectory() as folder:
            path = Path(folder) / "zones"
            path.write_text(text, encoding="utf-8")
            assert list(zones.lines(*zones.read_zones(path), log)) == wanted

    def test_the_first_line_that_does_not_fit(self):
        zone = "gpszones 2\nzone a 0 0 0 1 1 1\n"
        for text, line in (
            ("", 1),
            ("gpszones 2", 1),
            ("gpszones 3\n", 1),
            ("gpszones 1\nreach a 1 0 0\n", 2),
            (zone + "zone a 0 0 0 1 1 1\n", 3),
            ("gpszones 2\nprism a 0\n", 2),
            ("gpszones 2\nprism a 17\n", 2),
            ("gpszones 2\nprism a 2\nside 1 0 0 5\n", 4),
            ("gpszones 2\nprism a 1\nside 0 0 0 5\n", 3),
            ("gpszones 2\nprism a 1\nside 1 0 0 -0\n", 3),
            ("gpszones 2\nprism a 1\nside 1 0 0 5", 3),
            ("gpszones 1\ngroup a 1 1\nside 1 0 0 5\n", 2),
            ("gpszones 2\ngroup a 1\nside 1 0 0 5\n", 2),
            ("gpszones 2\ngroup a 0 1\n", 2),
            ("gpszones 2\ngroup a 1 0\n", 2),
            ("gpszones 2\ngroup a 65 1\n", 2),
            ("gpszones 2\ngroup a 1 17\n", 2),
            ("gpszones 2\ngroup a 1 1 1\nside 1 0 0 5\n", 2),
            ("gpszones 2\ngroup a 2 2\n" + 3 * "side 1 0 0 5\n", 6),
            ("gpszones 2\ngroup a 2 2\n" + 5 * "side 1 0 0 5\n", 7),
            ("gpszones 2\ngroup a 2 1\nside 1 0 0 5\nreach b 1 0 0\n", 4),
            ("gpszones 2\ngroup a 1 1\nside 1 0 0 5\nreach a 1 0 0\n", 4),
            ("gpszones 2\nreach a 1048577 0 0\n", 2),
            ("gpszones 2\nprism a 1\nside 1 0 0 100000000000000000001\n", 3),
            (zone + "zone b 0 0 0 1 1 -1\n", 3),
        ):
            with tempfile.TemporaryDirectory() as folder:
                path = Path(folder) / "zones"
                path.write_text(text, encoding="utf-8")
                with pytest.raises(zones.ZonesError, match=f"line {line} "):
                    zones.read_zones(path)

    def test_the_largest_group_is_read_piece_after_piece(self):
        lines = [f"side {k + 1} 0 0 {k}" for k in range(64 * 16)]
        with tempfile.TemporaryDirectory() as folder:
            path = Path(folder) / "zones"
            path.write_text("".join(line + "\n" for line in ["gpszones 2", "group a 64 16", *lines]), encoding="utf-8")
            ((second, (group,)),) = [zones.read_zones(path)]
        assert second
        assert group.pieces == [[((16 * m + k + 1, 0, 0), 16 * m + k) for k in range(16)] for m in range(64)]


class TestFiles:
    @classmethod
    def setup_class(cls):
        cls.room = tempfile.mkdtemp()

    @classmethod
    def teardown_class(cls):
        shutil.rmtree(cls.room)

    def test_kml_geojson_and_rows_say_the_same(self):
        ring = [(47.0, 8.0, 0.0), (47.0, 8.001, 0.0), (47.001, 8.001, 0.0), (47.0, 8.0, 0.0)]
        kml = "<kml xmlns='x'><Polygon><outerBoundaryIs><LinearRing><coordinates>{}</coordinates></LinearRing></outerBoundaryIs></Polygon></kml>"
        texts = (
            kml.format(" ".join(f"{p[1]},{p[0]}" for p in ring)),
            json.dumps(
                {"type": "Feature", "geometry": {"type": "Polygon", "coordinates": [[[p[1], p[0]] for p in ring]]}}
            ),
            "".join(f"{p[0]} {p[1]}\n" for p in ring),
        )
        with tempfile.TemporaryDirectory() as folder:
            written = []
            for number, text in enumerate(texts):
                path = Path(folder) / str(number)
                path.write_text(text, encoding="utf-8")
                written.append(said("--for", "outside", "--area", f"a,{path},0,20", "--reach", "r,47,8"))
        assert written[0] == written[1]
        assert written[0] == written[2]
        assert written[0][:2] == ["gpszones 2", "prism a 5"]
        assert [line.split()[1] for line in written[0][-3:]] == ["r-e", "r-n", "r-u"]

    def test_what_is_no_shape_is_refused_in_one_line(self):
        with tempfile.TemporaryDirectory() as room:
            for name, text, option, rest, told in NO_SHAPES:
                path = Path(room) / name
                path.write_text(text, encoding="utf-8")
                for purpose in ("outside", "inside"):
                    status, out, err = ended(shapes, "--for", purpose, option, f"a,{path},{rest}")
                    assert (status, out) == (1, "")
                    assert re.search(f"^gpslog zones: .*{told}.*\n$", err)

    def lane(self, points):
        """The words of a lane of so many points, in a file of its own."""
        path = Path(self.room) / f"lane-{points}"
        path.write_text("".join(f"47 {8 + k / 1000} 400\n" for k in range(points)), encoding="utf-8")
        return "--lane", f"l,{path},10,-2,2"

    def test_what_guard_would_not_read_is_refused_in_one_line(self):
        at = "--place", "a,47,8,400,20,10"
        many = [word for k in range(120) for word in ("--place", f"a{k},47,8,400,20,10")]
        for words, told in (
            ((*at, *at), "a: 2 zones or directions have this name"),
            (("--place", "r-e,47,8,400,20,10", "--reach", "r,47,8"), "r-e: 2 zones or directions have this name"),
            (many, "120 zones and directions take [0-9]+ bytes, and a file has at most 65536: make several files"),
            (self.lane(66), "l: it has 65 parts, and a zone at most 64: --parts makes several"),
        ):
            status, out, err = ended(shapes, "--for", "outside", *words)
            assert (status, out) == (1, "")
            assert re.search(f"^gpslog zones: {told}\n$", err)
        assert said("--for", "outside", *self.lane(65))[1] == "group l 64 6"
        names = [line.split()[1] for line in said("--for", "outside", *self.lane(66), "--parts") if "prism" in line]
        assert names == [f"l-{k}" for k in range(1, 66)]
        assert said("--for", "outside", *many[:160])[0] == "gpszones 2"

    def test_a_file_that_is_too_long_is_refused(self):
        first = "gpszones 1\n" + "".join(f"zone a{k:04} 0 0 0 1 1 1\n" for k in range(2848))
        with tempfile.TemporaryDirectory() as folder:
            path = Path(folder) / "zones"
            for name in ("bbb", "bbbb"):
                path.write_text(f"{first}zone {name} 0 0 0 1 1 1\n", encoding="utf-8")
                if path.stat().st_size == 65_536:
                    assert len(zones.read_zones(path)[1]) == 2849
                    continue
                with pytest.raises(zones.ZonesError, match="it has 65537 bytes, and a file of zones has at most 65536"):
                    zones.read_zones(path)

    def test_numbers_that_are_none_or_too_large_are_refused_among_the_words(self):
        for word in ("nan", "inf", "-inf", "1e400", "1e16", "x", ""):
            for option, fields in (
                ("--place", f"a,35,138,990,50,{word}"),
                ("--place", f"a,{word},138,990,50,20"),
                ("--area", f"a,none.json,{word},1150"),
                ("--lane", f"a,none.json,120,-160,{word}"),
                ("--reported", f"a,none,none,5,{word}"),
                ("--reach", f"a,47,{word}"),
            ):
                status, out, err = ended(shapes, "--for", "inside", option, fields)
                assert (status, out) == (2, "")
                told = f"argument {option}: {word} isn't a number of at most 10^15 in amount\n"
                assert err.endswith(told), err

    def test_places_that_are_none_are_refused(self):
        for fields, told in (
            ("a,35,138,990,0,20", "two of its corners are one point"),
            ("a,35,138,1e15,5,2", "too far away"),
        ):
            status, out, err = ended(shapes, "--for", "outside", "--place", fields)
            assert (status, out) == (1, "")
            assert re.search(f"^gpslog zones: .*{told}\n$", err)

    def test_axes_are_those_of_the_ellipsoid(self):
        assert shapes.reach_lines("r", 0, 0) == [
            "reach r-e 0 1048576 0",
            "reach r-n 0 0 1048576",
            "reach r-u 1048576 0 0",
        ]


def drawn_lines(draw, name, boxes):
    """The lines of a zone, a prism, a group or a direction that is drawn round some boxes; faces that
    just touch one aren't seldom."""
    hull = hull_of(boxes)
    kind = draw.choice(("zone", "zone", "prism", "prism", "group", "group", "reach"))
    if kind == "zone":
        ends = draw.choice((hull, hull, draw.choice(boxes)))
        moved = [end + draw.choice((0, 0, 1, -1, draw.randint(-(10**8), 10**8))) for end in ends]
        if any(moved[k] > moved[k + 3] for k in range(3)):
            moved = ends
        return [" ".join(map(str, ["zone", name, *moved]))]
    sides, pieces = [], draw.randint(2, 3) if kind == "group" else 1
    count = {"prism": draw.randint(1, 5), "group": pieces * draw.randint(1, 2), "reach": 1}[kind]
    for _ in range(count):
        size = draw.choice((1, 5, shapes.LONGEST))
        a = tuple(draw.randint(-size, size) for _ in range(3))
        a = a if any(a) else (0, -size, 0)
        ends = [end for box in draw.choice((boxes, [draw.choice(boxes)])) for end in zones.span(a, box)]
        most = draw.choice((max(ends), max(ends), min(ends))) + draw.choice(
            (0, 0, 1, -1, size * draw.randint(-(10**8), 10**8))
        )
        sides.append((a, most))
    if kind == "reach":
        return ["reach {} {} {} {}".format(name, *sides[0][0])]
    if kind == "group" and draw.random() < 0.5:  # two halves of a space, so that boxes lie in one or the other
        (a, most), shared = sides[0], draw.choice((0, 1))
        pieces, sides = 2, [(a, most), (tuple(-k for k in a), shared - most)]
    head = f"prism {name} {len(sides)}" if kind == "prism" else f"group {name} {pieces} {len(sides) // pieces}"
    return [head] + ["side {} {} {} {}".format(*a, most) for a, most in sides]


class TestGuards:
    """What the program says of a solved and of a tracked log, and of one with bounds."""

    @classmethod
    def setup_class(cls):
        cls.program = os.environ.get("GPSCOVER") or str(own_program())
        cls.folder = Path(tempfile.mkdtemp())
        text = (EXAMPLES / "settings.toml").read_text(encoding="utf-8")
        text = re.sub(r"(?m)^bisections = .*$", "bisections = 64", text)
        cls.settings = cls.folder / "settings.toml"
        cls.settings.write_text(
            text.replace("\n[bounds]\n", "\n[motion]\nspeed = 20000\n\n[bounds]\n"), encoding="utf-8"
        )
        cls.files = [str(EXAMPLES / "vehicle.obs"), str(EXAMPLES / "vehicle.nav"), str(cls.settings)]
        cls.logs: dict[Path, list[str]] = {}
        for command, options in (("solve", []), ("track", ["--track"])):
            log = cls.folder / f"{command}.log"
            subprocess.run([cls.program, command, *cls.files, log], check=True, stdout=subprocess.DEVNULL, timeout=600)
            cls.logs[log] = options
        of_bounds = cls.folder / "bounded.log"
        assert ended_with(bounded, str(cls.folder / "solve.log"), str(of_bounds)) == (0, "", "")
        cls.logs[of_bounds] = []

    @classmethod
    def teardown_class(cls):
        shutil.rmtree(cls.folder)

    def expect_lines(self, path, log, options):
        """The program and the script say the same, and this is what they say."""
        ran = subprocess.run(
            [self.program, "guard", *self.files, path, log, *options], capture_output=True, text=True, timeout=600
        )
        assert (ran.returncode, ran.stderr) == (0, "")
        wanted = list(zones.lines(*zones.read_zones(path), zones.kept(read_epochs(log))))
        assert ran.stdout == "".join(line + "\n" for line in wanted)
        return wanted

    def test_a_thousand_drawn_zones_on_the_logs(self):
        draw, said = random.Random(6), set()
        for log, options in self.logs.items():
            regions = [[kept.box for kept in epoch.kept] for epoch in read_epochs(log) if epoch.kept]
            for part in range(3):
                count = DRAWN // 6 + 1
                text = [line for k in range(count) for line in drawn_lines(draw, f"a{k}", draw.choice(regions))]
                path = self.folder / "drawn.zones"
                path.write_text("".join(line + "\n" for line in ["gpszones 2", *text]), encoding="utf-8")
                said |= {line.split()[-1] for line in self.expect_lines(path, log, options) if " zone " in line}
        assert said == {"outside", "inside", "open"}

    def test_the_first_form_has_no_totals(self):
        path = self.folder / "first.zones"
        for log, options in self.logs.items():
            hull = hull_of([kept.box for epoch in read_epochs(log) for kept in epoch.kept])
            path.write_text(
                "gpszones 1\nzone far 0 0 0 1 1 1\nzone all {} {} {} {} {} {}\n".format(*hull), encoding="utf-8"
            )
            found = [line.split(" zone ")[1] for line in self.expect_lines(path, log, options)]
            assert found == ["far outside", "all inside"] * 21

    def test_areas_that_are_not_convex_are_open_where_they_are_met(self):
        """Sharp areas beside the road, in m east and north of its corner, and in how many epochs a region meets them."""
        for ring, met in (SPIKES, 0), (NEEDLES, 0), (NOTCH, 2):
            area = self.folder / "area.txt"
            area.write_text("".join(f"{LATITUDE + n / 110950} {LONGITUDE + e / 90208}\n" for e, n in ring))
            path = self.folder / "area.zones"
            made = said("--for", "outside", "--area", f"a,{area},800,1150")
            path.write_text("".join(line + "\n" for line in made), encoding="utf-8")
            found = self.expect_lines(path, self.folder / "solve.log", [])
            told = [line.split() for line in found if line.startswith("epoch")]
            assert len({words[1] for words in told if words[-1] != "outside"}) == met

    def test_a_part_of_a_drive_is_told_from_the_log_of_that_part(self):
        """With --from and --to the log is that of these epochs: a whole one is denied, as `check` denies it."""
        path, part = self.folder / "part.zones", self.folder / "part.log"
        path.write_text("gpszones 1\nzone far 0 0 0 1 1 1\n", encoding="utf-8")
        options = ["--from", "8", "--to", "10"]
        subprocess.run([self.program, "solve", *self.files, part, *options], check=True, stdout=subprocess.DEVNULL)
        assert self.expect_lines(path, part, options) == [f"epoch {k} zone far outside" for k in (8, 9, 10)]
        for log, words in ((self.folder / "solve.log", options), (part, [])):
            ran = subprocess.run(
                [self.program, "guard", *self.files, path, log, *words], capture_output=True, text=True
            )
            assert (ran.returncode, ran.stdout, ran.stderr) == (1, "no 51 EpochDiffers line 3\n", "")

    def test_lanes_areas_and_limits_of_the_vehicle(self):
        lane = self.folder / "lane.txt"
        lane.write_text("35.8729 138.3905 1010\n35.87275 138.3871 1010\n35.8648 138.3871 950\n", encoding="utf-8")
        for log, options in self.logs.items():
            for purpose in ("inside", "outside"):
                words = ["--lane", f"l,{lane},200,-300,300", "--reported", f"at,{PLACES},{log},100,250"]
                words += ["--reach", "r,35.87,138.387"]
                path = self.folder / "made.zones"
                path.write_text("".join(line + "\n" for line in said("--for", purpose, *words)), encoding="utf-8")
                found = self.expect_lines(path, log, options)
                # The places of another program are held by each region: so none is outside.
                for index in range(1, 22):
                    assert f"epoch {index} zone at-{index} outside" not in found
