"""Pictures: what is drawn, and that it is."""

import os
import tempfile
from pathlib import Path

import pytest
from made_logs import HEAD, LOST, PAVED, RECORDED, TUBE, ended_with, epoch_of, written

from gpscover import Error, drawn_answers, drawn_regions, pictures, places, plotting, region, zones
from gpscover.log import epochs as read_epochs


def area(polygon):
    """The area of a polygon by the shoelace formula."""
    turned = [*polygon[1:], polygon[0]]
    return abs(sum(a[0] * b[1] - b[0] * a[1] for a, b in zip(polygon, turned))) / 2


def shadow(box, across):
    """The area of a box as seen along a unit vector: each of three faces times how far it is turned."""
    x, y, z = (2 * half for half in region.half_sides(box))
    return y * z * abs(across[0]) + x * z * abs(across[1]) + x * y * abs(across[2])


class TestPictures:
    def test_the_drawn_boxes_have_the_areas_of_the_log_s(self):
        for epoch in read_epochs(RECORDED / "javad_2011.log"):
            found = region.region_of(epoch)
            east, north, up = found.axes
            boxes = [kept.box for kept in epoch.kept]
            for first, second, across in ((east, north, up), (east, up, north)):
                drawn = drawn_regions.box_polygons(boxes, found.origin, first, second)
                for box, polygon in zip(boxes, drawn):
                    assert area(polygon.tolist()) == pytest.approx(shadow(box, across), rel=0, abs=5e-4)

    def test_the_drawn_boxes_reach_as_far_as_the_extents(self):
        for epoch in read_epochs(RECORDED / "ubx_2008.log"):
            found = region.region_of(epoch)
            drawn = drawn_regions.box_polygons(
                [kept.box for kept in epoch.kept], found.origin, found.axes[0], found.axes[2]
            )
            for k, extent in ((0, found.extents[0]), (1, found.extents[2])):
                assert drawn[..., k].min() == pytest.approx(extent[0], rel=0, abs=5e-6)
                assert drawn[..., k].max() == pytest.approx(extent[1], rel=0, abs=5e-6)

    def test_both_panels_have_one_scale(self):
        pyplot, _ = plotting.tools()
        figure, both = drawn_regions.panels_at_one_scale(
            pyplot, {"east": (-20, 30), "north": (-60, 10), "up": (-5, 110)}
        )
        size = figure.get_size_inches()
        scales = []
        for axes, tall in zip(both, (70, 115)):
            _, _, wide, high = axes.get_position().bounds
            scales += [wide * size[0] / 50, high * size[1] / tall]
        pyplot.close(figure)
        assert max(scales) - min(scales) < 1e-12

    def test_pictures_are_written(self):
        with tempfile.TemporaryDirectory() as room:
            log = str(RECORDED / "geonet0759_2005.log")
            known = str(RECORDED / "geonet0759_2005.places")
            fences = os.path.join(room, "zones")
            Path(fences).write_text(FENCES, encoding="utf-8")
            for words, ending in (
                (["region", "--epoch", "2"], "png"),
                (["region"], "svg"),
                (["time"], "png"),
                (["track", "--beside", log], "png"),
                (["track"], "svg"),
                (["zones", "--zones", fences], "png"),
                (["zones", "--zones", fences, "--zone", "a"], "svg"),
                (["integrity", "--limit", "150", "200"], "png"),
                (["integrity"], "svg"),
                (["observed"], "png"),
            ):
                out = os.path.join(room, f"out.{ending}")
                words = [words[0], log, out, *words[1:], "--places", known]
                assert ended_with(pictures, *words)[0] == 0
                assert (b"svg" if ending == "svg" else b"PNG") in Path(out).read_bytes()[:200]

    def test_the_title_has_the_extents(self):
        epoch = epoch_of(PAVED)
        assert "east 200.0 m, north 200.0 m, up 100.0 m" in drawn_regions.region_title(epoch, region.region_of(epoch))

    def test_an_epoch_without_a_region_is_refused(self):
        with pytest.raises(Error, match="it is empty"):
            drawn_regions.chosen_epoch(RECORDED / "cres_2008.log", 8)


# A box, a prism without corners, and a direction.
FENCES = "gpszones 2\nzone a 6378136000000 -20000000 -30000000 6378138000000 20000000 30000000\nprism b 1\nside 0 1 0 0\nreach c 1 0 0\n"


class TestPicturedZones:
    def fenced(self, text, names=()):
        with written(log=HEAD + text, zones=FENCES) as (path, fences):
            found = drawn_answers.Fenced(drawn_answers.fences_of([fences], names), places.Meetings(None, []))
            for epoch in read_epochs(path):
                found.add(epoch)
        return found

    def test_their_outlines_and_counts(self):
        found = self.fenced(TUBE + LOST + "few 4 895816774999000000000 3\n")
        # Round the middle of the first region, at y = 25 m and z = 0: y is east, z is north.
        (ring,) = found.rings_of(found.fences[0])
        assert {(round(x), round(y)) for x, y in ring} == {(x, y) for x in (-45, -5) for y in (-30, 30)}
        assert found.rings_of(found.fences[1]) == []
        # A group has an outline for each of its pieces with corners.
        pieces = [found.fences[0].faces(), found.fences[1].sides, found.fences[0].faces()]
        assert found.rings_of(zones.Group("d", pieces)) == [ring, ring]
        # The first box shares the face y = 20 m with a, the second holds a part of it, and in the
        # third epoch there is none.
        assert found.title(0) == "a: outside 1, inside 0, open 2, few 1"
        assert found.title(1) == "b: outside 3, inside 0, open 0, few 1"

    def test_names_choose_and_too_many_are_refused(self):
        assert [fence.name for fence in self.fenced(TUBE, ["b"]).fences] == ["b"]
        with pytest.raises(Error, match="no zone d"):
            self.fenced(TUBE, ["d"])
        many = "gpszones 1\n" + "".join(f"zone a{k} 0 0 0 1 1 1\n" for k in range(7))
        with written(zones=many) as (fences,), pytest.raises(Error, match="7 zones"):
            drawn_answers.fences_of([fences], [])


class TestPicturedTracks:
    def tube(self, text, known=()):
        with written(log=HEAD + text) as (path,):
            return drawn_regions.tube_of(path, places.Meetings("known", list(known)))

    def test_its_outlines_places_and_the_search_box_where_it_is_lost(self):
        tube = self.tube(TUBE + LOST, [(895816770999 * 10**9, (6378137.0, 28.0, 4.0))])
        # Round the middle of the first region, at y = 25 m and z = 0: y is east, z is north.
        for ring, (east, north) in zip([*tube.rings, tube.lost[1]], ((5, 10), (10, 15), (15, 20)), strict=True):
            corners = sorted((round(x, 2), round(y, 2)) for x, y in ring)
            assert corners == [(x, y) for x in (-east, east) for y in (-north, north)]
        assert [[round(part, 2) for part in place] for place in tube.known] == [[3, 4]]
        assert [round(width, 2) for width in tube.widths[1]] == [20, 30, 14]
        assert tube.title() == "3 epochs, 2 with a region; lost at epoch 3"
        assert self.tube(TUBE).title() == "2 epochs, 2 with a region"

    def test_the_last_outline_is_drawn_of_many(self):
        tube = drawn_regions.Tube(places.Meetings(None, []))
        for count, first, drawn in ((60, 0, 60), (61, 0, 31), (62, 1, 31), (312, 5, 52)):
            tube.rings = list(range(count))
            assert (tube.drawn()[0], tube.drawn()[-1], len(tube.drawn())) == (first, count - 1, drawn)

    def test_a_log_without_a_region_is_refused(self):
        with pytest.raises(Error, match="has no region to draw"):
            self.tube("few 1 0 3\n")
