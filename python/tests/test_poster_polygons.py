"""Polygons of posters: windows show what one canvas shows, corners that are left out change nothing,
and maps of GeoJSON."""

import dataclasses
import json
import math
import random
import unittest
from typing import Any, Dict, List, Sequence, Tuple
from unittest import mock

from .polygon_rule import Corner, flat, is_inside
from .poster_common import Files
from .test_polygons import SQUARE

import numpy as np

import trirast
from trirast import poster
from trirast.poster import _strips

Rings = Sequence[Sequence[Corner]]
RULES = ("even-odd", "nonzero")


def polygons_of(polygons: Sequence[Rings], colors: Any = (255, 255, 255, 255)) -> poster.Polygons:
    corners, ring_ends, polygon_ends = flat(polygons)
    rows = np.broadcast_to(np.array(colors), (len(polygons), np.shape(colors)[-1]))
    return poster.Polygons(
        np.array(corners, int).reshape(-1, 2), np.array(ring_ends, int), np.array(polygon_ends, int), rows
    )


def rings_of(polygons: poster.Polygons, number: int) -> List[List[Corner]]:
    """The rings of a polygon."""
    found = []
    for ring in range(polygons.rings[number], polygons.rings[number + 1]):
        begin = int(polygons.ring_ends[ring - 1]) if ring else 0
        found.append([(int(x), int(y)) for x, y in polygons.corners[begin : polygons.ring_ends[ring]]])
    return found


def random_polygons(pick: random.Random, count: int, reach: Tuple[int, int]) -> List[Rings]:
    """Polygons whose corners lie on sixteenths of pixels and meet samples often."""

    def ring() -> List[Corner]:
        return [(16 * pick.randrange(*reach), 16 * pick.randrange(*reach)) for _ in range(pick.randrange(12))]

    return [[ring() for _ in range(pick.randrange(4))] for _ in range(count)]


def colors_of(pick: random.Random, count: int) -> Any:
    return np.array([[pick.randrange(256) for _ in range(4)] for _ in range(count)], int).reshape(-1, 4)


class Windows(Files):
    def pixels(self, scene: poster.Scene, **more: Any) -> Any:
        poster.draw_poster(scene, self.path("a.ppm"), **more)
        size = 3 * scene.sheet.width * scene.sheet.height
        return np.frombuffer(self.content("a.ppm")[-size:], np.uint8).reshape(scene.sheet.height, scene.sheet.width, 3)

    def test_windows_show_what_a_canvas_shows(self) -> None:
        pick = random.Random(4)
        for samples in (1, 4, 16):
            draws: List[Dict[str, Any]] = [
                {"polygons": 5}, {"triangles": 2, "blend": "over"}, {"polygons": 0},
                {"polygons": 4, "rule": "nonzero", "blend": "over"},
                {"polygons": 6, "scissor": [30, 11, 170, 100], "sample_mask": 0x5555}, {"triangles": 1},
                {"polygons": 3, "write": [True, False, True]},
            ]
            given, colors = random_polygons(pick, 18, (-600, 4000)), colors_of(pick, 18)
            vertices = np.array(
                [[pick.randrange(256 * 200), pick.randrange(256 * 130), 0, 9, 99, 199, 120] for _ in range(9)]
            )
            triangles = np.arange(9).reshape(-1, 3)
            value = {"width": 200, "height": 130, "samples": samples, "clear": [5, 6, 7], "draws": draws}
            scene = poster.scene_of_arrays(vertices, triangles, value, polygons=polygons_of(given, colors))
            canvas = trirast.Canvas(200, 130, samples)
            canvas.clear((5, 6, 7))
            polygon = triangle = 0
            for draw in draws:
                state = {name: draw[name] for name in ("blend", "scissor", "sample_mask") if name in draw}
                if "triangles" in draw:
                    canvas.draw(vertices, triangles[triangle : triangle + draw["triangles"]], **state)
                    triangle += draw["triangles"]
                else:
                    mine = slice(polygon, polygon + draw["polygons"])
                    keep = "g" if "write" in draw else ""
                    canvas.draw_polygons(
                        *flat(given[mine]), colors[mine], rule=draw.get("rule", "even-odd"), keep=keep, **state
                    )
                    polygon = mine.stop
            for side, large in ((64, 2), (71, 2), (512, 0), (64, 1000), (150, 9)):
                with mock.patch.object(_strips, "LARGE", large):
                    self.assertTrue(
                        (self.pixels(scene, window=side, workers=2) == canvas.rgb()).all(), (samples, side, large)
                    )

    def test_past_the_last_place_of_a_canvas(self) -> None:
        width, height, reach = 32768, 70, (-40, 1100)
        pick = random.Random(6)
        given, colors = random_polygons(pick, 12, reach), colors_of(pick, 12)
        left = width - 100
        moved = [[[(x + 256 * left, y) for x, y in ring] for ring in polygon] for polygon in given]
        draw = {"polygons": 12, "blend": "over", "scissor": [left + 5, 0, left + 60, 66]}
        scene = poster.scene_of_polygons(
            polygons_of(moved, colors), {"width": width, "height": height, "samples": 4, "draws": [draw]}
        )
        canvas = trirast.Canvas(100, height, 4)
        canvas.clear()
        canvas.draw_polygons(*flat(given), colors, blend="over", scissor=(5, 0, 60, 66))
        found = self.pixels(scene, window=4096)
        self.assertFalse(found[:, :left].any())
        self.assertTrue((found[:, left:] == canvas.rgb()).all())
        far = [[(-256 * 30000, 0), (256 * 32767, 0), (0, 9999)]]
        for wide, is_refused in ((width, True), (20000, False)):
            scene = poster.scene_of_polygons(polygons_of([[], far]), {"width": wide, "height": 64})
            if is_refused:
                with self.assertRaisesRegex(poster.GuardBandError, r"polygons\[1\]"):
                    poster.draw_poster(scene, self.path("b.ppm"))
            else:
                poster.draw_poster(scene, self.path("b.ppm"))

    def test_other_samples(self) -> None:
        given = polygons_of([[[(100, 100), (9000, 400), (500, 8000)]]])
        scene = poster.scene_of_polygons(given, {"width": 40, "height": 40, "samples": 1})
        canvas = trirast.Canvas(40, 40, 16)
        canvas.clear()
        canvas.draw_polygons(given, colors=(255, 255, 255))
        self.assertTrue((self.pixels(scene, samples=16) == canvas.rgb()).all())

    def test_files_of_arrays(self) -> None:
        given = polygons_of([[SQUARE]], (1, 2, 3))
        poster.save_polygons(self.path("a.npz"), given, {"width": 4, "height": 2})
        scene = poster.scene_of(self.path("a.npz"))
        self.assertEqual(self.pixels(scene)[0].tolist(), [[1, 2, 3], [1, 2, 3], [0, 0, 0], [0, 0, 0]])
        vertices, triangles = np.zeros((3, 7), int), np.array([[0, 1, 2]])
        value = {"width": 4, "height": 2, "draws": [{"triangles": 1}, {"polygons": 1}]}
        poster.save_arrays(self.path("b.npz"), vertices, triangles, value, polygons=given)
        both = poster.scene_of(self.path("b.npz"))
        self.assertEqual((len(both.triangles), both.polygons.count), (1, 1))
        self.assertTrue((self.pixels(both) == self.pixels(scene)).all())
        self.assertNotEqual(both.checksum(), scene.checksum())


class Corners(unittest.TestCase):
    def test_corners_that_are_left_out_change_no_sample_of_a_strip(self) -> None:
        pick, numbers = random.Random(3), np.array([2, 0, 2, 1])
        for _ in range(60):
            given = random_polygons(pick, 3, (-60, 300))
            (left, width), (top, height) = ((16 * pick.randrange(150), 16 * pick.randrange(1, 60)) for _ in "xy")
            whole = polygons_of(given).owned()
            cut = whole.within(1, top, top + height).within(0, left, left + width)
            taken = cut.take(numbers).followed_by(cut).part(1, 6)
            for k, rule in ((number, rule) for number in range(3) for rule in RULES):
                self.assertEqual(rings_of(taken, 3 + k) if k < 2 else rings_of(taken, 1), rings_of(cut, k))
                for _ in range(20):
                    x, y = left + pick.randrange(width), top + pick.randrange(height)
                    self.assertEqual(is_inside(given[k], rule, x, y), is_inside(rings_of(cut, k), rule, x, y))

    def test_what_is_refused(self) -> None:
        corners, rings, ends, colors = np.array(SQUARE), np.array([4]), np.array([1]), np.array([(1, 2, 3)])
        masked: Any = np.ma
        value = {"width": 4, "height": 4}
        for wrong in (
            (corners * 1.0, rings, ends, colors), (corners[:, :1], rings, ends, colors),
            (corners + (1 << 23), rings, ends, colors), (corners, rings - 1, ends, colors),
            (corners, np.array([5, 4]), np.array([2]), colors), (corners, rings, np.array([0]), colors),
            (corners, rings, np.array([2]), colors), (corners, rings, ends, colors[:0]),
            (corners, rings, ends, colors * 99), (corners, rings, ends, colors[:, :2]), ([[1.5, 2]], [1], ends, colors),
            ([[1], [2, 3]], [2], ends, colors), (masked.array(corners), rings, ends, colors),
            (SQUARE, rings, ends, [[1, 2, 3], [4, 5]]), (SQUARE, rings, ends, "#fffff"),
        ):
            with self.assertRaises(poster.ArraysError):
                poster.scene_of_polygons(poster.Polygons(*wrong), value)
        states: List[Dict[str, Any]] = [
            {"polygons": 1, "cull": "front"}, {"polygons": 1, "rule": "winding"}, {"polygons": 1, "triangles": 1},
            {"polygons": 2}, {}, {"triangles": 1, "rule": "nonzero"}, {"polygons": 1.0},
        ]
        for state in states:
            with self.assertRaises(poster.ArraysError):
                poster.scene_of_polygons(poster.Polygons(corners, rings, ends, colors), {**value, "draws": [state]})
        with self.assertRaises(trirast.DrawListError):
            poster.scene_of_polygons(
                poster.Polygons(corners, rings, ends, colors), {**value, "draws": [{"polygons": 1, "fog": 1}]}
            )
        with self.assertRaises(poster.ArraysError):
            poster.Scene(
                poster.Sheet(3, 3), np.zeros((0, 7), int), np.zeros((0, 3), int), [],
                polygons=(corners, rings, ends, colors),  # type: ignore[arg-type]
            )

    def test_lists_and_one_colour(self) -> None:
        value = {"width": 4, "height": 4}
        whole = poster.scene_of_polygons(polygons_of([[SQUARE], [SQUARE]], (1, 2, 3, 255)), value).polygons
        for colors in ((1, 2, 3), [1, 2, 3, 255], np.array([1, 2, 3]), [(1, 2, 3), (1, 2, 3)]):
            found = poster.scene_of_polygons(
                poster.Polygons([*SQUARE, *SQUARE], [4, 8], (1, 2), colors), value
            ).polygons
            for one, other in zip(found.arrays, whole.arrays):
                self.assertEqual((one.tolist(), one.dtype), (other.tolist(), other.dtype))
        self.assertEqual(poster.scene_of_polygons(poster.Polygons([], [], [], []), value).polygons.count, 0)

    def test_other_colours_of_a_scene(self) -> None:
        scene = poster.scene_of_polygons(polygons_of([[SQUARE], [SQUARE]]), {"width": 4, "height": 4})
        other = dataclasses.replace(scene, polygons=dataclasses.replace(scene.polygons, colors=[(1, 2, 3), (4, 5, 6)]))
        self.assertEqual(other.polygons.colors.tolist(), [[1, 2, 3, 255], [4, 5, 6, 255]])
        with self.assertRaisesRegex(poster.ArraysError, "colors: expected 2 rows, one for each polygon, got 1"):
            dataclasses.replace(scene, polygons=dataclasses.replace(scene.polygons, colors=[(1, 2, 3)]))

    def test_messages(self) -> None:
        corners = np.array(SQUARE)
        value: Dict[str, Any] = {"width": 4, "height": 4}
        zero = "leave the leading 0 of offsets out$"
        wrong: List[Tuple[Tuple[Any, ...], str]] = [
            ((corners / 2, [4], [1], (1, 2, 3)), r"corners: expected .*, got ndarray float64; use trirast.snap\(xy\)$"),
            (
                (corners, [0, 4], [0, 1], (1, 2, 3)),
                f"polygon_ends.*: expected 2, .*, got 1; ring_ends and polygon_ends begin with 0: {zero}",
            ),
            ((corners, [0, 4], [1], (1, 2, 3)),
             f"polygon_ends.*: expected 2, .*, got 1; ring_ends begins with 0: {zero}"),
            (
                (corners, [4], [0, 1], [(1, 2, 3)]),
                f"colors: expected 2 rows, one for each polygon, got 1; polygon_ends begins with 0: {zero}",
            ),
        ]
        for arrays, text in wrong:
            with self.assertRaisesRegex(poster.ArraysError, text):
                poster.scene_of_polygons(poster.Polygons(*arrays), value)
        with self.assertRaisesRegex(
            trirast.BatchError, f"got 2 rings, and the last polygon ends at 1; ring_ends and .*: {zero}"
        ):
            trirast.Canvas(4, 4).draw_polygons(corners, [0, 4], [0, 1])
        given = poster.Polygons(corners, [4], [1], (1, 2, 3))
        lists: List[Tuple[Any, str]] = [
            ({"width": 4}, "MissingKey: height: expected an integer from 1 to 32768 pixels, got none"),
            (
                {**value, "clear": "#ffffff"},
                "WrongKind: clear: expected three numbers, each an integer from 0 to 255, got '#ffffff'",
            ),
            (
                {**value, "background": [1, 2, 3]},
                "UnknownKey: expected some of the keys width, .*, clear, .*, got 'background'",
            ),
            ({**value, "samples": 3}, "OutOfRange: samples: expected 1, 2, 4, 8 or 16, got 3"),
            (
                {**value, "draws": [{"polygons": 1, "blend": "alpha"}]},
                "OutOfRange in draw 0: blend: expected one of 'none', 'over', got 'alpha'",
            ),
            (
                {**value, "draws": [{"polygons": 1}, {"polygons": 0, "alpha": 3}]},
                "UnknownKey in draw 1: expected some of the keys polygons, .*, got 'alpha'",
            ),
            ({**value, "draws": [7]}, "WrongKind in draw 0: expected a dict with .*, got 7"),
            ({**value, "draws": [{"polygons": 0}] * 1025 + [7]},
             "WrongKind in draw 1025: expected a dict with .*, got 7"),
            (7, "WrongKind: expected a dict with the keys width, .*, got 7"),
        ]
        for each, text in lists:
            with self.assertRaisesRegex(trirast.DrawListError, text):
                poster.scene_of_polygons(given, each)


def box(west: float, south: float, east: float, north: float) -> List[List[float]]:
    return [[west, south], [east, south], [east, north], [west, north], [west, south]]


def feature(geometry: Any, **properties: Any) -> Dict[str, Any]:
    return {"type": "Feature", "properties": properties, "geometry": geometry}


class Maps(Files):
    def scene(self, value: Any, style: Any = None) -> poster.Scene:
        self.write("map.geojson", json.dumps(value).encode())
        if style is None:
            return poster.scene_of(self.path("map.geojson"))
        self.write("style.json", json.dumps(style).encode())
        return poster.scene_of(self.path("map.geojson"), self.path("style.json"))

    def picture(self, value: Any, style: Any = None) -> Any:
        scene = self.scene(value, style)
        poster.draw_poster(scene, self.path("a.ppm"))
        size = 3 * scene.sheet.width * scene.sheet.height
        return np.frombuffer(self.content("a.ppm")[-size:], np.uint8).reshape(
            scene.sheet.height, scene.sheet.width, 3
        ).tolist()

    def test_holes_parts_and_colours(self) -> None:
        ring: Any = {"type": "Polygon", "coordinates": [box(0, 0, 3, 3), box(1, 1, 2, 2)]}
        parts = {"type": "MultiPolygon", "coordinates": [[box(3, 0, 4, 1)], [box(3, 2, 4, 3)]]}
        mixed = {
            "type": "GeometryCollection",
            "geometries": [{"type": "Polygon", "coordinates": [[[4, 0, 7.5], *box(4, 0, 5, 1)[1:]]]}],
        }
        features = [
            feature(ring, kind="a", people=5), feature(parts, kind=7, people=20), feature(mixed, people=None),
            feature(None),
        ]
        value = {"type": "FeatureCollection", "features": features}
        style: Dict[str, Any] = {
            "window": [0, 0, 6, 3], "width": 6, "property": "kind", "colors": {"a": "#0102ff", "7": [9, 8, 7]},
            "color": "#202020",
        }
        a, b, rest, white = [1, 2, 255], [9, 8, 7], [32, 32, 32], [255, 255, 255]
        self.assertEqual(
            self.picture(value, style),
            [[a, a, a, b, white, white], [a, white, a, white, white, white], [a, a, a, b, rest, white]],
        )
        steps: Dict[str, Any] = {
            **style, "property": "people", "steps": [[6, "#000000"], [20, "#0000ff"]], "background": "#010101"
        }
        del steps["colors"]
        half = {**steps, "opacity": 0.5}
        self.assertEqual([pixel[2] for pixel in self.picture(value, steps)[2]], [32, 32, 32, 255, 32, 1])
        self.assertEqual([pixel[2] for pixel in self.picture(value, half)[2]], [17, 17, 17, 128, 17, 1])

    def test_neighbours_in_both_projections_leave_no_seam(self) -> None:
        pick = random.Random(8)
        lines = [
            [[x + pick.uniform(-1, 1), 50 + y + pick.uniform(-1, 1)] for y in range(0, 30, 3)]
            for x in range(-20, 24, 4)
        ]
        strips = [feature({"type": "Polygon", "coordinates": [[*a, *b[::-1]]]}) for a, b in zip(lines, lines[1:])]
        for projection in ("plate carree", "web mercator"):
            style = {
                "projection": projection, "window": [-10, 55, 10, 70], "width": 300, "color": "#000000", "opacity": 0.5,
                "samples": 16,
            }
            pixels = {
                tuple(pixel)
                for row in self.picture({"type": "FeatureCollection", "features": strips}, style)
                for pixel in row
            }
            self.assertEqual(pixels, {(127, 127, 127)})

    def test_places(self) -> None:
        style = {"projection": "web mercator", "width": 256}
        scene = self.scene(
            feature({"type": "Polygon", "coordinates": [[[-180, 90], [0, 0], [180, -90], [13, 52.5]]]}), style
        )
        self.assertEqual((scene.sheet.width, scene.sheet.height), (256, 256))
        # By the formula of the tiles of OpenStreetMap.
        latitude = math.radians(52.5)
        down = 65536 * (1 - math.log(math.tan(latitude) + 1 / math.cos(latitude)) / math.pi) / 2
        self.assertEqual(
            scene.polygons.corners.tolist(),
            [[0, 0], [32768, 32768], [65536, 65536], [round(65536 * 193 / 360), round(down)]],
        )
        scene = self.scene({"type": "Polygon", "coordinates": [box(-180, -90, 180, 90)]}, {"width": 32768})
        self.assertEqual((scene.sheet.height, int(scene.polygons.corners.max())), (16384, 8388607))

    def test_what_lies_far_outside_is_cut(self) -> None:
        left, right = [[0, 0], [-170, 80], [-170, -80]], [[0, 0], [-170, 80], [170, 80], [170, -80], [-170, -80]]
        value = {
            "type": "FeatureCollection",
            "features": [feature({"type": "Polygon", "coordinates": [ring]}) for ring in (left, right)],
        }
        style = {"window": [-0.3, -0.1, 0.3, 0.2], "width": 900, "samples": 16, "color": "#000000", "opacity": 0.5}
        scene = self.scene(value, style)
        self.assertGreaterEqual(scene.polygons.corners.min(), -256 * 64)
        self.assertLessEqual(scene.polygons.corners.max(), 256 * 964)
        self.assertEqual({tuple(pixel) for row in self.picture(value, style) for pixel in row}, {(127, 127, 127)})

    def test_a_property_that_no_feature_has(self) -> None:
        good = {"type": "Polygon", "coordinates": [box(0, 0, 3, 3)]}
        features = [feature(good, people=5), feature(None, kind="a"), {**feature(good), "properties": None}]
        value: Any = {"type": "FeatureCollection", "features": features}
        for name, color in (("kind", "a"), ("people", "5")):
            self.scene(value, {"property": name, "colors": {color: "#000000"}})
        with self.assertRaisesRegex(
            poster.MapError, r"style.json: property: expected one of \['kind', 'people'\] of .*, got 'poeple'"
        ):
            self.scene(value, {"property": "poeple", "steps": [[1, "#000000"]]})
        with self.assertRaisesRegex(poster.MapError, r"one of \[\] of "):
            self.scene(good, {"property": "kind", "colors": {}})

    def test_what_is_refused(self) -> None:
        good = {"type": "Polygon", "coordinates": [box(0, 0, 3, 3)]}
        maps: List[Any] = [
            3, {}, {"type": "FeatureCollection"}, {"type": "FeatureCollection", "features": [7]},
            {"type": "Point", "coordinates": [0, 0]}, {"type": "Polygon"}, {"type": "Polygon", "coordinates": [[[0]]]},
            {"type": "Polygon", "coordinates": [[[0, "1"]]]}, {"type": "Polygon", "coordinates": [[0, 1]]},
            {"type": "Polygon", "coordinates": [[[0, [1]], [2, 3]]]},
            {"type": "Polygon", "coordinates": [[[0, 1e999]]]}, {"type": "GeometryCollection"},
        ]
        for value in maps:
            with self.assertRaises(poster.MapError):
                self.scene(value)
        styles: List[Any] = [
            [], {"fog": 1}, {"projection": "mercator"}, {"window": [0, 0, 1]}, {"window": [1, 0, 0, 1]},
            {"window": [0, 0, 1, 91]}, {"width": 0}, {"width": 1.5}, {"color": "reddish"}, {"color": [1, 2, 256]},
            {"opacity": 2}, {"property": "a"}, {"colors": {}}, {"background": "#12345g"},
            {"property": "a", "steps": [1]}, {"property": "a", "steps": [[2, "#000000"], [1, "#000000"]]},
            {"property": "a", "colors": []},
        ]
        for style in styles:
            with self.assertRaises(poster.MapError, msg=style):
                self.scene(good, style)
        with self.assertRaisesRegex(poster.MapError, "opacity, got 'colours'"):
            self.scene(good, {"property": "kind", "colours": {}})
        for name in (7, None, ["kind"]):
            with self.assertRaisesRegex(poster.MapError, "style.json: property: expected a name, got "):
                self.scene(good, {"property": name, "colors": {}})
        with self.assertRaisesRegex(poster.MapError, "style.json: samples: expected one of 1, 2, 4, 8, 16, got 3"):
            self.scene(good, {"samples": 3})
        with self.assertRaisesRegex(
            poster.MapError, "width: expected a height of at most 32768 by this window, got 5242880"
        ):
            self.scene(good, {"window": [0, -80, 1, 80], "width": 32768})
        self.write("broken.geojson", b"{")
        with self.assertRaises(poster.MapError):
            poster.scene_of(self.path("broken.geojson"))
        with self.assertRaisesRegex(poster.MapError, "style: expected a map whose name ends in .geojson or .json"):
            poster.scene_of(self.path("list.npz"), self.path("style.json"))

    def test_a_map_by_a_name_of_another_end(self) -> None:
        self.write("map.json", json.dumps(feature({"type": "Polygon", "coordinates": [box(0, 0, 3, 3)]})).encode())
        with self.assertRaisesRegex(poster.MapError, r"map\.json: .* let its name end in \.geojson"):
            poster.scene_of(self.path("map.json"))
        self.write("list.json", b'{"type": "mesh"}')
        with self.assertRaises(trirast.DrawListError):
            poster.scene_of(self.path("list.json"))

    def test_areas_by_ids(self) -> None:
        hole = {"type": "Polygon", "coordinates": [box(0, 0, 3, 3), box(1, 1, 2, 2)]}
        parts = {"type": "MultiPolygon", "coordinates": [[box(3, 0, 4, 1)], [box(3, 2, 4, 3)]]}
        value = {"type": "FeatureCollection", "features": [feature(hole), feature(None), feature(parts)]}
        scene = self.scene(value, {"window": [0, 0, 6, 3], "width": 60, "samples": 16})
        canvas = trirast.Canvas(scene.sheet.width, scene.sheet.height, scene.sheet.samples)
        canvas.clear((255, 255, 255))
        canvas.draw_polygons(scene.polygons, first_id=0)
        ids = np.stack([canvas.ids(sample) for sample in range(scene.sheet.samples)])
        self.assertEqual([int((ids == number).sum()) for number in (0, 1, 2, 0xFFFFFF)], [12800, 0, 3200, 12800])


if __name__ == "__main__":
    unittest.main()
