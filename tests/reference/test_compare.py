"""Tests of what the lists of tests/reference/generated_lists.py and tests/reference/bound_triangles.py cover, as
`make compare` draws them.

    python3 -m pytest tests/reference/test_compare.py
"""

from __future__ import annotations

import itertools
import json
import math
import re
import unittest
from typing import ClassVar, Iterable, Iterator, Sequence
from unittest import mock

from tests.reference import bound_triangles, compare, generated_lists, renderer
from tools.draw_list import Draw, Vertex
from tests.reference.renderer import Point, Sample, side

Corners = list[Point]

LISTS = [json.loads(generated_lists.accepted_text(1, k)) for k in range(compare.LISTS)]
ENDS = list(generated_lists.at_the_ends())
SCENES = [renderer.read(json.dumps(value).encode()) for value in LISTS]


def draws() -> list[Draw]:
    return [draw for value in LISTS + ENDS for draw in value["draws"]]


def vertices() -> list[Vertex]:
    return [vertex for draw in draws() for vertex in draw["vertices"]]


def named(key: str) -> set[str]:
    return {json.dumps(draw[key]) for draw in draws() if key in draw}


def samples_between(low: int, high: int, offsets: Sequence[int]) -> Iterator[int]:
    """The coordinates of samples above low and under high."""
    return (
        256 * k + offset
        for k in range(low // 256, high // 256 + 1)
        for offset in offsets if low < 256 * k + offset < high
    )


def has_sample_inside(a: Point, b: Point, count: int) -> bool:
    """Whether a sample lies on the edge ab, between its ends."""
    (ax, ay), (bx, by) = sorted((a, b))
    if bx - ax > 40_000 or abs(by - ay) > 40_000:
        return False
    for dx, dy in renderer.SAMPLES[count]:
        if ax == bx:
            if (ax - dx) % 256 == 0 and any(True for _ in samples_between(min(ay, by), max(ay, by), [dy])):
                return True
        elif any(((x - ax) * (by - ay)) % (bx - ax) == 0 and (ay + (x - ax) * (by - ay) // (bx - ax) - dy) % 256 == 0
                 for x in samples_between(ax, bx, [dx])):
            return True
    return False


def on_opposite_sides(one: Corners, other: Corners) -> tuple[Point, Point] | None:
    """The edge that two triangles share, if they lie on opposite sides of it."""
    shared = set(one) & set(other)
    if len(shared) == 2 and len(set(one)) == len(set(other)) == 3:
        a, b = shared
        (c,), (d,) = set(one) - shared, set(other) - shared
        if side(a, b, c) * side(a, b, d) < 0:
            return a, b
    return None


def corners(triangle: renderer.Triangle) -> Corners:
    return [vertex[:2] for vertex in triangle.vertices]


class Keys(unittest.TestCase):
    def test_every_key(self) -> None:
        self.assertEqual({key for value in LISTS for key in value}, set(renderer.TOP_KEYS))
        self.assertEqual({key for value in LISTS for draw in value["draws"] for key in draw}, set(renderer.DRAW_KEYS))

    def test_every_word_and_truth_value(self) -> None:
        self.assertEqual(named("cull"), {'"none"', '"front"', '"back"'})
        self.assertEqual(named("depth_test"), {json.dumps(word) for word in renderer.DEPTH_TESTS})
        self.assertEqual(named("depth_write"), {"true", "false"})
        self.assertEqual(named("blend"), {'"none"', '"over"'})
        self.assertEqual({value.get("output") for value in LISTS}, {None, "color", "depth"})
        every_mask = {json.dumps(list(mask)) for mask in itertools.product((True, False), repeat=3)}
        self.assertEqual(named("write"), every_mask)
        self.assertEqual(named("sample_mask"), {str(mask) for mask in range(16)})

    def test_absent_keys(self) -> None:
        for key in ("samples", "clear", "clear_depth", "output"):
            self.assertTrue(any(key not in value for value in LISTS), key)
        for key in renderer.STATE_KEYS:
            self.assertTrue(any(key not in draw for draw in draws()), key)


class Ranges(unittest.TestCase):
    def check_ends(self, numbers: Iterable[int], low: int, high: int) -> None:
        numbers = set(numbers)
        self.assertEqual((min(numbers), max(numbers)), (low, high))

    def test_top_object(self) -> None:
        self.check_ends((value["width"] for value in LISTS), 1, 4096)
        self.check_ends((value["height"] for value in LISTS), 1, 4096)
        self.assertEqual({value.get("samples", 1) for value in LISTS}, {1, 4})
        self.check_ends((channel for value in LISTS for channel in value.get("clear", [])), 0, 255)
        self.check_ends((value["clear_depth"] for value in LISTS if "clear_depth" in value), 0, 65535)

    def test_vertices(self) -> None:
        for place in (0, 1):
            self.check_ends((vertex[place] for vertex in vertices()), *renderer.BAND)
        self.check_ends((vertex[2] for vertex in vertices()), 0, 65535)
        for place in range(3, 7):
            self.check_ends((vertex[place] for vertex in vertices()), 0, 255)

    def test_scissors(self) -> None:
        for place in range(4):
            self.check_ends((draw["scissor"][place] for draw in draws() if "scissor" in draw), 0, 4096)

    def test_counts(self) -> None:
        self.check_ends((len(value["draws"]) for value in LISTS + ENDS), 0, 1024)
        for key, most in (("vertices", 65536), ("triangles", 65536), ("strip", 65538), ("quads", 32768)):
            self.check_ends((len(draw[key]) for draw in draws() if key in draw), 0, most)

    def test_indices(self) -> None:
        indices = [k for draw in draws() for k in draw.get("strip", [])]
        indices += [k for draw in draws() for key in ("triangles", "quads") for face in draw.get(key, []) for k in face]
        self.check_ends(indices, 0, 65535)

    def test_ends_of_the_band_are_drawn(self) -> None:
        """Each end of a coordinate is that of a triangle with an area over the picture's first pixel."""
        found = set()
        for scene in SCENES:
            for triangle in scene.triangles:
                points = corners(triangle)
                values = [side(a, b, (128, 128)) for a, b in zip(points, points[1:] + points[:1])]
                if min(values) > 0 or max(values) < 0:
                    found |= {(axis, point[axis]) for point in points for axis in (0, 1)}
        self.assertLessEqual({(axis, end) for axis in (0, 1) for end in renderer.BAND}, found)


class Broken(unittest.TestCase):
    """The errors of the broken lists. No list has too many of anything: tests/program/fault_injection.py
    has such lists."""

    def test_every_other_fault(self) -> None:
        found = set()
        for k in range(compare.LISTS):
            try:
                renderer.read(generated_lists.broken_text(1, k))
            except renderer.ListFault as error:
                found.add(re.sub(r" in draw \d+", " in a draw", str(error)))
        anywhere = (renderer.UNKNOWN_KEY, renderer.MISSING_KEY, renderer.WRONG_KIND, renderer.OUT_OF_RANGE)
        in_a_draw = (*anywhere, renderer.BAD_INDEX, renderer.TWO_LISTS, renderer.NOT_CONVEX)
        wanted = {f"trirast: list fault {number} {name}" for number, name in (renderer.NOT_JSON, *anywhere)}
        wanted |= {f"trirast: list fault {number} {name} in a draw" for number, name in in_a_draw}
        self.assertEqual(found, wanted)


class Shapes(unittest.TestCase):
    def test_shared_edges_through_samples(self) -> None:
        found = {1: 0, 4: 0}
        for scene in SCENES:
            for one, other in zip(scene.triangles, scene.triangles[1:]):
                edge = on_opposite_sides(corners(one), corners(other))
                found[scene.samples] += edge is not None and has_sample_inside(*edge, scene.samples)
        self.assertGreater(min(found.values()), 20, found)

    def test_areas_of_zero(self) -> None:
        flat = [corners(t) for scene in SCENES for t in scene.triangles if side(*corners(t)) == 0]
        self.assertGreater(sum(len(set(points)) == 3 for points in flat), 50)
        self.assertGreater(sum(len(set(points)) < 3 for points in flat), 50)

    def test_slivers(self) -> None:
        """Triangles over a pixel long and under a pixel wide; and under 2/256 pixel, which are drawn in another way."""
        def widths() -> Iterator[float]:
            for scene in SCENES:
                for triangle in scene.triangles:
                    points = corners(triangle)
                    longest = max(math.dist(a, b) for a, b in itertools.combinations(points, 2))
                    if longest > 256 and side(*points) != 0:
                        yield abs(side(*points)) / longest

        thin = [width for width in widths() if width < 256]
        self.assertGreater(len(thin), 100)
        self.assertGreater(sum(width < 2 for width in thin), 50)


class Bounds(unittest.TestCase):
    """The triangles at the bound of whole values."""

    def check(self, kind: bound_triangles.Kind, samples: int) -> None:
        found: dict[int, int] = {}
        below = 0
        for one in bound_triangles.scene(kind, samples)["draws"]:
            points = [(vertex[0], vertex[1]) for vertex in one["vertices"]]
            first, second, third = (vertex[kind.place] for vertex in one["vertices"])
            area = abs(side(*points))
            by_unit = area // bound_triangles.unit(points, (first, second, third))
            found[by_unit] = found.get(by_unit, 0) + 1
            below += self.falls_short(one, kind, samples, by_unit)
        self.assertEqual(set(found), set(bound_triangles.bounds(kind)))
        self.assertEqual(sum(found.values()), bound_triangles.TRIANGLES)
        self.assertGreater(min(found.values()), 80)
        self.assertEqual(below, bound_triangles.TRIANGLES)

    def falls_short(self, one: Draw, kind: bound_triangles.Kind, samples: int, by_unit: int) -> bool:
        """Whether some first sample in the triangle's cell has a value that is 1 / by_unit below a whole number."""
        a, b, c = one["vertices"]
        left, top, right, bottom = one["scissor"]
        dx, dy = renderer.SAMPLES[samples][0]
        area = side(a, b, c)
        for x, y in itertools.product(range(left, right), range(top, bottom)):
            p = (256 * x + dx, 256 * y + dy)
            sides = side(b, c, p), side(c, a, p), side(a, b, p)
            if all(one * area >= 0 for one in sides):
                number = abs(sum(value * corner[kind.place] for value, corner in zip(sides, (a, b, c))))
                if number * by_unit % abs(area) == 0 and (number * by_unit // abs(area) + 1) % by_unit == 0:
                    return True
        return False

    def test_red(self) -> None:
        for samples in renderer.LIST.counts:
            self.check(bound_triangles.RED, samples)

    def test_depth(self) -> None:
        for samples in renderer.LIST.counts:
            self.check(bound_triangles.DEPTH, samples)


class Overdraw(unittest.TestCase):
    """What is drawn over samples that an earlier triangle changed."""

    met: ClassVar[set[tuple[object, ...]]]
    clear: ClassVar[renderer.Sample]
    samples: ClassVar[int]

    @classmethod
    def setUpClass(cls) -> None:
        cls.met = set()
        shade = renderer.shade

        def noting(triangle: renderer.Triangle, weights: tuple[int, int, int], size: int, old: Sample) -> Sample:
            new = shade(triangle, weights, size, old)
            if old != cls.clear:
                state = triangle.state
                cls.met |= {
                    ("blend", state.blend), ("write", state.write), ("sample mask", cls.samples, state.sample_mask)
                }
                cls.met |= {("test", state.depth_test, new != old), ("stored", state.depth_write, new[3] != old[3])}
                cls.met |= {("both", state.blend, state.depth_test)}
            return new

        with mock.patch.object(renderer, "shade", noting):
            for scene in SCENES:
                cls.clear, cls.samples = scene.clear, scene.samples
                renderer.render(scene)

    def test_every_blend_with_every_depth_test(self) -> None:
        wanted = {("both", blend, test) for blend in ("none", "over") for test in renderer.DEPTH_TESTS}
        self.assertLessEqual(wanted, self.met)

    def test_every_depth_test_changes_and_keeps_samples(self) -> None:
        wanted = {("test", test, True) for test in renderer.DEPTH_TESTS if test != "never"}
        wanted |= {("test", test, False) for test in renderer.DEPTH_TESTS}
        self.assertLessEqual(wanted, self.met)

    def test_depths_are_stored(self) -> None:
        self.assertIn(("stored", True, True), self.met)

    def test_every_write_mask(self) -> None:
        self.assertLessEqual({("write", mask) for mask in itertools.product((True, False), repeat=3)}, self.met)

    def test_every_sample_mask(self) -> None:
        self.assertLessEqual({("sample mask", 4, mask) for mask in range(1, 16)}, self.met)
        self.assertLessEqual({("sample mask", 1, mask) for mask in range(1, 16, 2)}, self.met)
