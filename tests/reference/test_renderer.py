"""Worked values of the reference renderer, reckoned by hand from the rules.

    python3 -m pytest tests/reference/test_renderer.py
"""

from __future__ import annotations

import json
import re
import unittest
from dataclasses import replace
from typing import Any, Sequence

from tools import picture_file
from tests.reference import renderer
from tools.draw_list import Draw, DrawList, Vertex, draw, draw_list as scene, vertex
from tools.places import text_of

# Column and row.
Pixel = tuple[int, int]

WHITE = "ff ff ff"
BLACK = "00 00 00"
RED = "ff 00 00"


FIRST = [vertex(128, 128), vertex(640, 128), vertex(128, 640)]
BEHIND: dict[str, Any] = {"depth_test": "less", "depth_write": True}


def first(colour: Sequence[int] = (255, 255, 255), alpha: int = 255, depths: Sequence[int] = (0, 0, 0)) -> list[Vertex]:
    """The vertices of the first triangle in a colour, with a depth for each vertex."""
    return [vertex(v[0], v[1], z, colour, alpha) for v, z in zip(FIRST, depths)]


def file_of(value: DrawList) -> bytes:
    return renderer.render(renderer.read(json.dumps(value).encode()))


def pixels(value: DrawList) -> dict[Pixel, str]:
    """The pixels that are not black, as a dictionary from column and row to hexadecimal bytes."""
    picture = picture_file.decode(file_of(value))
    places = ((k % picture.width, k // picture.width) for k in range(picture.width * picture.height))
    return {place: pixel.hex(" ") for place, pixel in zip(places, picture.pixels()) if any(pixel)}


def colour_of_one(*draws: Draw, **top: Any) -> str:
    return file_of(scene(1, 1, *draws, samples=4, **top))[-3:].hex(" ")


def error_of(text: object) -> str | None:
    data = text if isinstance(text, bytes) else (text if isinstance(text, str) else json.dumps(text)).encode()
    try:
        renderer.read(data)
    except renderer.ListFault as error:
        return str(error).replace("trirast: list fault ", "")
    return None


class Coverage(unittest.TestCase):
    def test_picture_without_draws(self) -> None:
        self.assertEqual(file_of(scene(1, 1)).hex(" "), "50 36 0a 31 20 31 0a 32 35 35 0a 00 00 00")

    def test_first_triangle(self) -> None:
        value = scene(3, 3, draw(FIRST))
        self.assertEqual(pixels(value), {(0, 0): WHITE, (1, 0): WHITE, (0, 1): WHITE})
        self.assertEqual(len(file_of(value)), 38)

    def test_shared_edge_belongs_to_one_side(self) -> None:
        corners = FIRST + [vertex(640, 640)]
        self.assertEqual(pixels(scene(3, 3, draw(corners, [(1, 3, 2)]))), {(1, 1): WHITE})
        both = {(0, 0): WHITE, (1, 0): WHITE, (0, 1): WHITE, (1, 1): WHITE}
        self.assertEqual(pixels(scene(3, 3, draw(corners, [(0, 1, 2), (1, 3, 2)]))), both)

    def test_area_zero_covers_nothing(self) -> None:
        line = [vertex(0, 0), vertex(256, 256), vertex(512, 512)]
        self.assertEqual(pixels(scene(3, 3, draw(line))), {})
        self.assertEqual(pixels(scene(3, 3, draw(FIRST, [(0, 0, 1)]))), {})

    def test_corners_of_the_guard_band(self) -> None:
        big = [vertex(4194303, 4194303), vertex(-4194304, 4194303), vertex(4194303, -4194304)]
        self.assertEqual(len(pixels(scene(2, 2, draw(big)))), 4)
        wide = [(8388607, 8388607), (-8388608, 8388607), (8388607, -8388608)]
        self.assertEqual(renderer.side(*wide), 281474943156225)
        deep = draw([vertex(x, y, 65535) for x, y in wide], depth_test="equal")
        self.assertEqual(list(pixels(scene(2, 2, deep)).values()), [WHITE] * 4)

    def test_half_of_a_large_picture(self) -> None:
        value = scene(65, 65, draw([vertex(0, 0), vertex(16640, 0), vertex(0, 16640)]))
        found = pixels(value)
        self.assertEqual(set(found), {(i, j) for j in range(64) for i in range(64 - j)})
        self.assertEqual(len(found), 2080)
        self.assertEqual(len(file_of(value)), 12688)

    def test_slivers_along_a_row_of_centres(self) -> None:
        below = [vertex(0, 128), vertex(4194303, 128), vertex(4194303, 129)]
        above = [vertex(0, 128), vertex(4194303, 128), vertex(4194303, 127)]
        self.assertEqual(len(pixels(scene(4, 1, draw(below)))), 4)
        self.assertEqual(pixels(scene(4, 1, draw(above))), {})

    def test_culling(self) -> None:
        turned = [(0, 2, 1)]
        self.assertEqual(len(pixels(scene(3, 3, draw(FIRST, turned)))), 3)
        self.assertEqual(len(pixels(scene(3, 3, draw(FIRST, turned, cull="back")))), 0)
        self.assertEqual(len(pixels(scene(3, 3, draw(FIRST, turned, cull="front")))), 3)
        self.assertEqual(len(pixels(scene(3, 3, draw(FIRST, cull="front")))), 0)

    def test_scissor(self) -> None:
        self.assertEqual(pixels(scene(3, 3, draw(FIRST, scissor=[1, 0, 2, 1]))), {(1, 0): WHITE})
        self.assertEqual(pixels(scene(3, 3, draw(FIRST, scissor=[1, 1, 1, 1]))), {})
        self.assertEqual(pixels(scene(3, 3, draw(FIRST, scissor=[3, 0, 0, 3]))), {})
        self.assertEqual(len(pixels(scene(3, 3, draw(FIRST, scissor=[0, 0, 4096, 4096])))), 3)


class FourSamples(unittest.TestCase):
    CORNER = [vertex(0, 0), vertex(256, 0), vertex(0, 256)]

    def test_half_a_pixel(self) -> None:
        self.assertEqual(colour_of_one(draw(self.CORNER)), "80 80 80")

    def test_values_at_each_sample(self) -> None:
        reds = [vertex(0, 0, 0, (0, 0, 0)), vertex(256, 0, 0, (255, 0, 0)), vertex(0, 256, 0, (0, 0, 0))]
        self.assertEqual(colour_of_one(draw(reds)), "20 00 00")

    def test_two_pixels(self) -> None:
        wide = draw([vertex(0, 0), vertex(512, 0), vertex(0, 512)])
        self.assertEqual(pixels(scene(2, 1, wide, samples=4)), {(0, 0): WHITE, (1, 0): "80 80 80"})
        cut = dict(wide, scissor=[1, 0, 2, 1])
        self.assertEqual(pixels(scene(2, 1, cut, samples=4)), {(1, 0): "80 80 80"})

    def test_edge_through_one_sample_of_a_column(self) -> None:
        def columns(third: int) -> dict[Pixel, str]:
            edge = [vertex(2016, -100000), vertex(2016, 100000), vertex(third, 0)]
            return pixels(scene(8, 8, draw(edge), samples=4))

        left = {(i, j): WHITE if i < 7 else "bf bf bf" for i in range(8) for j in range(8)}
        self.assertEqual(columns(-100000), left)
        self.assertEqual(columns(100000), {(7, j): "40 40 40" for j in range(8)})

    def test_sample_mask(self) -> None:
        reds = [vertex(0, 0, 0, (255, 0, 0)), vertex(512, 0, 0, (255, 0, 0)), vertex(0, 512, 0, (255, 0, 0))]
        self.assertEqual(colour_of_one(draw(self.CORNER), draw(reds, sample_mask=1)), "80 40 40")
        whites = [vertex(0, 0), vertex(512, 0), vertex(0, 512)]
        self.assertEqual(colour_of_one(draw(whites, sample_mask=5)), "80 80 80")
        self.assertEqual(colour_of_one(draw(whites, sample_mask=0)), BLACK)


class OnCanvases(unittest.TestCase):
    """2, 8 and 16 samples a pixel, which only a canvas has."""

    # Where samples lie, in hexadecimal digits of 1/16 pixel from the upper left corner.
    PLACES = {
        2: "cc 44", 8: "95 7b d9 53 3d 17 bf f1", 16: "99 75 5a c7 36 ad db b3 6e 81 42 2c 08 f4 ef 10",
    }

    def canvas_pixels(self, samples: int, width: int, *draws: Draw, origin: tuple[int, int] = (0, 0)) -> list[str]:
        read = renderer.read(json.dumps(scene(width, 1, *draws, samples=samples)).encode(), renderer.CANVAS)
        picture = renderer.render(replace(read, origin=origin))
        return [pixel.hex(" ") for pixel in picture_file.decode(picture).pixels()]

    def test_positions(self) -> None:
        for samples, places in self.PLACES.items():
            found = [f"{x // 16:x}{y // 16:x}" for x, y in renderer.SAMPLES[samples]]
            self.assertEqual(" ".join(found), places)

    def test_half_a_pixel(self) -> None:
        half = draw([vertex(0, 0), vertex(256, 0), vertex(0, 256)])
        for samples, grey in ((2, "80"), (8, "60"), (16, "8f")):
            self.assertEqual(self.canvas_pixels(samples, 1, half), [f"{grey} {grey} {grey}"])

    def test_samples_on_the_left_and_the_upper_border_belong_to_their_pixel(self) -> None:
        for left, wanted in ((0, [WHITE, BLACK]), (256, [BLACK, WHITE])):
            corners = [vertex(x, y) for y in (0, 256) for x in (left, left + 256)]
            self.assertEqual(self.canvas_pixels(16, 2, draw(corners, [(0, 1, 2), (2, 1, 3)])), wanted)

    def test_each_bit_of_a_mask_is_a_sixteenth(self) -> None:
        wide = [vertex(0, 0), vertex(512, 0), vertex(0, 512)]
        for mask, grey in ((1, "10"), (1 << 8, "10"), (1 << 15, "10"), (0x0180, "20"), (0xFF00, "80"), (0xFFFF, "ff")):
            self.assertEqual(self.canvas_pixels(16, 1, draw(wide, sample_mask=mask)), [f"{grey} {grey} {grey}"])
        self.assertEqual(self.canvas_pixels(8, 1, draw(wide, sample_mask=0xFF00)), [BLACK])
        self.assertEqual(self.canvas_pixels(16, 1, draw(wide)), [WHITE])

    def test_windows(self) -> None:
        whole = draw([vertex(256, 0), vertex(1024, 0), vertex(256, 768)], scissor=[2, 0, 32768, 32768])
        seen = self.canvas_pixels(2, 4, whole)
        self.assertEqual(seen, [BLACK, BLACK, WHITE, "80 80 80"])
        self.assertEqual(self.canvas_pixels(2, 3, whole, origin=(1, 0)), seen[1:])
        self.assertEqual(self.canvas_pixels(2, 5, whole, origin=(-1, 0)), [BLACK, *seen])
        left = [vertex(-512, 0), vertex(512, 0), vertex(-512, 1024)]
        self.assertEqual(self.canvas_pixels(2, 3, draw(left), origin=(-1, 0)), [WHITE, WHITE, "80 80 80"])
        cut = draw(left, scissor=[0, 0, 32768, 32768])
        self.assertEqual(self.canvas_pixels(2, 3, cut, origin=(-1, 0)), [BLACK, WHITE, "80 80 80"])

    def test_limits(self) -> None:
        for samples, mask, fault in (
            (3, 0, "5 OutOfRange"), (16, 65536, "5 OutOfRange in draw 0"), (16, 65535, None), (2, 16, None)
        ):
            text = json.dumps(scene(1, 1, draw(FIRST, sample_mask=mask), samples=samples)).encode()
            if fault is None:
                self.assertEqual(renderer.read(text, renderer.CANVAS).samples, samples)
                self.assertEqual(error_of(text), "5 OutOfRange")
                continue
            with self.assertRaisesRegex(renderer.ListFault, fault):
                renderer.read(text, renderer.CANVAS)


class Alpha(unittest.TestCase):
    """Alpha, which a canvas may store."""

    # Each sample of one pixel, and what stays of the pixel beside it.
    WIDE = [
        vertex(0, 0, 0, (200, 100, 0), 128), vertex(512, 0, 0, (200, 100, 0), 128),
        vertex(0, 512, 0, (200, 100, 0), 128),
    ]

    def samples_of(self, *draws: Draw, alpha: int | None = 0, samples: int = 1, **top: Any) -> list[renderer.Sample]:
        cleared = {} if alpha is None else {"clear_alpha": alpha}
        value = scene(1, 1, *draws, samples=samples, **cleared, **top)
        return renderer.drawn(renderer.read(json.dumps(value).encode(), renderer.CANVAS))

    def one(self, *draws: Draw, **top: Any) -> renderer.Sample:
        (sample,) = self.samples_of(*draws, **top)
        return sample

    def test_of_a_canvas_alone(self) -> None:
        self.assertEqual(error_of(scene(1, 1, clear_alpha=0)), "2 UnknownKey")
        self.assertEqual(self.one(alpha=7), (0, 0, 0, 65535, 7))
        self.assertEqual(self.one(alpha=None), (0, 0, 0, 65535))

    def test_replaces(self) -> None:
        self.assertEqual(self.one(draw(self.WIDE)), (200, 100, 0, 65535, 128))
        self.assertEqual(self.one(draw(self.WIDE), alpha=None), (200, 100, 0, 65535))

    def test_over(self) -> None:
        over = draw(self.WIDE, blend="over")
        # Colours that are multiplied by their alpha: 200 * 128 / 255, and on it again 100 * 127 / 255 more.
        self.assertEqual(self.one(over), (100, 50, 0, 65535, 128))
        self.assertEqual(self.one(over, over), (150, 75, 0, 65535, 192))
        self.assertEqual(self.one(over, alpha=255), (100, 50, 0, 65535, 255))

    def test_colours_read_the_alpha_before(self) -> None:
        equation = {
            "color_source": "stored_alpha", "color_stored": "zero", "alpha_source": "one", "alpha_stored": "zero"
        }
        self.assertEqual(self.one(draw(self.WIDE, blend=equation), alpha=51), (40, 20, 0, 65535, 128))
        self.assertEqual(self.one(draw(self.WIDE, blend=equation), alpha=None), (200, 100, 0, 65535))
        saturated = {
            "color_source": "source_alpha_saturated", "color_stored": "one", "alpha_source": "source_alpha_saturated",
            "alpha_stored": "one",
        }
        self.assertEqual(self.one(draw(self.WIDE, blend=saturated), alpha=204), (40, 20, 0, 65535, 255))

    def test_kept(self) -> None:
        kept = draw(self.WIDE, write=[True, True, True, False])
        self.assertEqual(self.one(kept, alpha=9), (200, 100, 0, 65535, 9))
        alone = draw(self.WIDE, write=[False, False, False, True])
        self.assertEqual(self.one(alone, alpha=9), (0, 0, 0, 65535, 128))

    def test_where_the_depth_test_fails(self) -> None:
        self.assertEqual(self.one(draw(self.WIDE, depth_test="greater"), alpha=9), (0, 0, 0, 65535, 9))

    def test_resolved(self) -> None:
        half = self.samples_of(draw(self.WIDE, sample_mask=1, blend="over"), samples=2)
        self.assertEqual(renderer.pixels(half, 2, "rgba").hex(" "), "32 19 00 40")
        self.assertEqual(renderer.pixels(half, 2, "bgra").hex(" "), "00 19 32 40")
        self.assertEqual(renderer.pixels(half, 2, "rgb").hex(" "), "32 19 00")
        # 255 * 50 / 64 = 199.2, 255 * 25 / 64 = 99.6.
        self.assertEqual(renderer.pixels(half, 2, "rgba_straight").hex(" "), "c7 64 00 40")
        opaque = self.samples_of(draw(self.WIDE), alpha=None)
        self.assertEqual(renderer.pixels(opaque, 1, "bgra_straight").hex(" "), "00 64 c8 ff")
        nothing = self.samples_of(alpha=0, clear=[9, 9, 9])
        self.assertEqual(renderer.pixels(nothing, 1, "rgba_straight").hex(" "), "00 00 00 00")


class Merging(unittest.TestCase):
    def test_values_are_rounded_down(self) -> None:
        colours = [(0, 255, 0), (3, 0, 0), (0, 0, 0)]
        value = scene(3, 3, draw([vertex(v[0], v[1], 0, c) for v, c in zip(FIRST, colours)]))
        self.assertEqual(pixels(value), {(0, 0): "00 ff 00", (1, 0): "01 7f 00", (0, 1): "00 7f 00"})

    def test_depth_is_rounded_down_at_each_sample(self) -> None:
        stored = draw(first(depths=(0, 3, 0)), depth_write=True)
        equal = draw(first((255, 0, 0), depths=(1, 1, 1)), depth_test="equal")
        self.assertEqual(pixels(scene(3, 3, stored, equal)), {(0, 0): WHITE, (1, 0): RED, (0, 1): WHITE})

    def test_equal_depths(self) -> None:
        near = draw(first(depths=(100,) * 3), **BEHIND)
        again = first((255, 0, 0), depths=(100,) * 3)
        self.assertEqual(set(pixels(scene(3, 3, near, draw(again, **BEHIND))).values()), {WHITE})
        same = draw(again, depth_test="less_equal")
        self.assertEqual(set(pixels(scene(3, 3, near, same)).values()), {RED})

    def test_depth_tests(self) -> None:
        passing = {
            99: {"less", "less_equal", "not_equal", "always"},
            100: {"equal", "less_equal", "greater_equal", "always"},
            101: {"greater", "not_equal", "greater_equal", "always"},
        }
        for new, names in passing.items():
            self.assertEqual({name for name, test in renderer.DEPTH_TESTS.items() if test(new, 100)}, names)

    def test_over(self) -> None:
        half = scene(3, 3, draw(first(alpha=128), blend="over"))
        self.assertEqual(set(pixels(half).values()), {"80 80 80"})
        dark = scene(3, 3, draw(first((0, 0, 0), alpha=128), blend="over"), clear=[255, 255, 255])
        found = pixels(dark)
        self.assertEqual((found[0, 0], found[1, 0], found[0, 1]), ("7f 7f 7f",) * 3)
        self.assertEqual((found[1, 1], found[2, 2]), (WHITE, WHITE))
        self.assertEqual(pixels(scene(3, 3, draw(first(alpha=0), blend="over"))), {})
        self.assertEqual(set(pixels(scene(3, 3, draw(first(alpha=255), blend="over"))).values()), {WHITE})

    def test_a_repeated_triangle_is_drawn_again(self) -> None:
        twice = scene(3, 3, draw(first(alpha=128), [(0, 1, 2), (0, 1, 2)], blend="over"))
        self.assertEqual(set(pixels(twice).values()), {"c0 c0 c0"})

    def test_write_mask(self) -> None:
        value = scene(3, 3, draw(FIRST, write=[True, False, False]))
        self.assertEqual(set(pixels(value).values()), {RED})
        blended = draw(first((200, 100, 50), alpha=64), blend="over", write=[True, False, True])
        found = pixels(scene(3, 3, blended, clear=[10, 20, 30]))
        self.assertEqual([found.pop(at) for at in ((0, 0), (1, 0), (0, 1))], ["3a 14 23"] * 3)
        self.assertEqual(set(found.values()), {"0a 14 1e"})

    def test_order_of_draws(self) -> None:
        small = draw([vertex(x, y, 0, (255, 0, 0)) for x, y in ((128, 128), (384, 128), (128, 384))])
        value = scene(3, 3, draw(FIRST), small)
        self.assertEqual(pixels(value), {(0, 0): RED, (1, 0): WHITE, (0, 1): WHITE})
        self.assertEqual(set(pixels(scene(3, 3, small, draw(FIRST))).values()), {WHITE})


class Primitives(unittest.TestCase):
    SQUARE = [vertex(x, y, alpha=128) for x, y in ((128, 128), (640, 128), (128, 640), (640, 640))]
    FOUR = {(0, 0), (1, 0), (0, 1), (1, 1)}

    def strip(self, places: Sequence[int], **state: Any) -> dict[Pixel, str]:
        return pixels(scene(3, 3, {"vertices": self.SQUARE, "strip": places, **state}))

    def quads(self, *quads: Sequence[int], **state: Any) -> dict[Pixel, str]:
        return pixels(scene(3, 3, {"vertices": self.SQUARE, "quads": list(quads), **state}))

    def test_strip_keeps_its_orientation(self) -> None:
        self.assertEqual(set(self.strip([0, 1, 2, 3], cull="back")), self.FOUR)
        self.assertEqual(self.strip([0, 1, 2, 3], cull="front"), {})

    def test_short_strips_draw_nothing(self) -> None:
        for places in ((), (0,), (0, 1)):
            self.assertEqual(self.strip(places), {})
        self.assertEqual(set(self.strip([0, 1, 2])), {(0, 0), (1, 0), (0, 1)})

    def test_repeated_indices_of_a_strip_draw_nothing_more(self) -> None:
        self.assertEqual(self.strip([0, 1, 2, 2, 3, 3, 1], cull="back"), self.strip([0, 1, 2], cull="back"))

    def test_quad_touches_its_diagonal_once(self) -> None:
        for quad in ([0, 1, 3, 2], [1, 3, 2, 0], [2, 3, 1, 0]):
            found = self.quads(quad, blend="over")
            self.assertEqual(found, {place: "80 80 80" for place in self.FOUR})

    def test_quads_that_are_not_convex(self) -> None:
        corners = [(128, 128), (640, 128), (256, 256), (128, 640), (640, 640), (384, 128)]
        vertices = [vertex(x, y) for x, y in corners]
        dent, crossed, straight, point = [0, 1, 2, 3], [0, 4, 1, 3], [0, 5, 1, 3], [0, 0, 1, 3]
        for quad in (dent, crossed, straight, point):
            found = error_of(scene(3, 3, {"vertices": vertices, "quads": [quad]}))
            self.assertEqual(found, "10 NotConvex in draw 0")

    def test_one_of_three_lists(self) -> None:
        lists: dict[str, list[int]] = {"triangles": [], "strip": [], "quads": []}
        self.assertEqual(error_of(scene(1, 1, {"vertices": []})), "3 MissingKey in draw 0")
        for left_out in lists:
            two = {key: value for key, value in lists.items() if key != left_out}
            self.assertEqual(error_of(scene(1, 1, {"vertices": [], **two})), "9 TwoLists in draw 0")
        self.assertEqual(error_of(scene(1, 1, {"vertices": [], **lists})), "9 TwoLists in draw 0")
        self.assertEqual(error_of(scene(1, 1, dict(lists))), "3 MissingKey in draw 0")
        for key in lists:
            self.assertIsNone(error_of(scene(1, 1, {"vertices": [], key: []})))

    def test_counts(self) -> None:
        def error(*draws: Draw) -> str | None:
            return error_of(scene(1, 1, *({"vertices": self.SQUARE, **faces} for faces in draws)))

        self.assertIsNone(error({"strip": [0] * 65538}))
        self.assertEqual(error({"strip": [0] * 65539}), "7 TooMany in draw 0")
        self.assertIsNone(error({"strip": [0] * 40002}, {"strip": [0] * 25538}))
        self.assertEqual(error({"strip": [0] * 40002}, {"strip": [0] * 25539}), "7 TooMany in draw 1")
        quad = [0, 1, 3, 2]
        self.assertIsNone(error({"quads": [quad] * 32768}))
        self.assertEqual(error({"quads": [quad] * 32769}), "7 TooMany in draw 0")
        self.assertIsNone(error({"strip": [0] * 65536}, {"quads": [quad]}))
        self.assertEqual(error({"strip": [0] * 65537}, {"quads": [quad]}), "7 TooMany in draw 1")

    def test_order_of_checks_in_quads(self) -> None:
        dented = [vertex(x, y) for x, y in ((128, 128), (640, 128), (256, 256), (128, 640))]
        for quads, error in (
            ([[0, 1, 2, 3], [0, 1, 2, 9]], "10 NotConvex in draw 0"),
            ([[0, 1, 2, 9], [0, 1, 2, 3]], "6 BadIndex in draw 0"),
            ([[0, 1, 2]], "4 WrongKind in draw 0"),
        ):
            self.assertEqual(error_of(scene(1, 1, {"vertices": dented, "quads": quads})), error)


class Depths(unittest.TestCase):
    def test_file_of_depths(self) -> None:
        value = scene(3, 3, draw(first(depths=(0, 3, 0)), depth_write=True), output="depth")
        wanted = b"P5\n3 3\n65535\n" + bytes.fromhex("0000 0001 ffff 0000 ffff ffff ffff ffff ffff")
        self.assertEqual(file_of(value), wanted)

    def test_depth_of_the_first_sample(self) -> None:
        corners = [vertex(0, 0, 0), vertex(256, 0, 255), vertex(0, 256, 0)]
        found = file_of(scene(1, 1, draw(corners, depth_write=True), samples=4, output="depth"))
        self.assertEqual(found, b"P5\n1 1\n65535\n" + bytes.fromhex("005f"))
        masked = draw(corners, depth_write=True, sample_mask=14)
        self.assertEqual(file_of(scene(1, 1, masked, samples=4, output="depth"))[-2:], b"\xff\xff")

    def test_word_of_the_output(self) -> None:
        self.assertIsNone(error_of(scene(1, 1, output="color")))
        self.assertEqual(error_of(scene(1, 1, output="Depth")), "5 OutOfRange")
        self.assertEqual(error_of(scene(1, 1, output=1)), "4 WrongKind")
        self.assertEqual(error_of(scene(1, 1, output=1, clear_depth=-1)), "5 OutOfRange")
        self.assertEqual(error_of(dict(scene(1, 1, output="red"), draws={})), "5 OutOfRange")


class Refusals(unittest.TestCase):
    def test_whole_list(self) -> None:
        empty = {"width": 1, "height": 1, "draws": []}
        self.assertIsNone(error_of(empty))
        self.assertEqual(error_of(""), "1 NotJson")
        self.assertEqual(error_of('{"width":1'), "1 NotJson")
        self.assertEqual(error_of(b"\xff"), "1 NotJson")
        self.assertEqual(error_of("[]"), "4 WrongKind")
        self.assertEqual(error_of({"width": 1, "height": 1}), "3 MissingKey")
        self.assertEqual(error_of(dict(empty, fog=1)), "2 UnknownKey")
        self.assertEqual(error_of('{"width":1.0,"height":1,"draws":[]}'), "4 WrongKind")
        # As serde_json reads them: a number is no text of JSON if no float of 64 bits is as large.
        for number, error in (("1e308", "4 WrongKind"), ("-1e309", "1 NotJson"), ("9" * 309, "1 NotJson")):
            self.assertEqual(error_of(f'{{"width":{number},"height":1,"draws":[]}}'), error)
        for wrong in ({"width": 0}, {"width": 4097}, {"samples": 2}):
            self.assertEqual(error_of(dict(empty, **wrong)), "5 OutOfRange")
        self.assertEqual(error_of(dict(empty, draws=[draw([], [])] * 1024)), None)
        self.assertEqual(error_of(dict(empty, draws=[draw([], [])] * 1025)), "7 TooMany")

    def test_draws(self) -> None:
        self.assertEqual(error_of(scene(3, 3, draw(FIRST, [(0, 1, 3)]))), "6 BadIndex in draw 0")
        for outside in (8388608, -8388609):
            far = [vertex(outside, 0), vertex(0, 0), vertex(0, 256)]
            self.assertEqual(error_of(scene(1, 1, draw(far))), "5 OutOfRange in draw 0")
        self.assertIsNone(error_of(scene(3, 3, draw(FIRST, [(0, 1, 2)] * 65536))))
        self.assertEqual(error_of(scene(3, 3, draw(FIRST, [(0, 1, 2)] * 65537))), "7 TooMany in draw 0")
        two = scene(3, 3, draw(FIRST, [(0, 1, 2)] * 40000), draw(FIRST, [(0, 1, 2)] * 25537))
        self.assertEqual(error_of(two), "7 TooMany in draw 1")
        self.assertEqual(error_of(scene(3, 3, draw(FIRST[:1] * 65537, []))), "7 TooMany in draw 0")

    def test_order_of_checks(self) -> None:
        self.assertEqual(error_of('{"width":0,"fog":1,"draws":[]}'), "2 UnknownKey")
        self.assertEqual(error_of('{"width":0,"draws":[]}'), "3 MissingKey")
        self.assertEqual(error_of('{"width":0,"height":"x","draws":[]}'), "5 OutOfRange")
        self.assertEqual(error_of('{"width":1,"height":"x","draws":7}'), "4 WrongKind")
        self.assertEqual(error_of('{"width":1,"height":1,"clear":[0,0],"draws":[]}'), "4 WrongKind")
        second = scene(1, 1, draw([], []), draw([], [(0, 0, 0)]))
        self.assertEqual(error_of(second), "6 BadIndex in draw 1")
        self.assertEqual(error_of(scene(1, 1, draw([[0, 0, 0, 0, 0, 0]], []))), "4 WrongKind in draw 0")
        self.assertEqual(error_of(scene(1, 1, draw([], [], cull="Back"))), "5 OutOfRange in draw 0")
        both = draw([[0, 0, 65536, 0, 0, 0, 0]], [(0, 0, 1)])
        self.assertEqual(error_of(scene(1, 1, both)), "5 OutOfRange in draw 0")


class Documents(unittest.TestCase):
    """The examples of docs/draw-list.md, read from the page itself."""

    def setUp(self) -> None:
        self.page = text_of("docs", "draw-list.md")

        # In the blocks of text, a list goes on in lines that are indented more.
        self.in_lines = re.sub(r"\n {5,}", "", self.page)

    def test_refused_examples(self) -> None:
        found = re.findall(r"^(\d+ \w+(?: in draw \d+)?) {2,}(.+)$", self.in_lines, re.MULTILINE)
        self.assertEqual(len(found), 25)
        for error, text in found:
            self.assertEqual(error_of(text), error, text)

    def test_accepted_examples(self) -> None:
        texts = re.findall(r"^an? .*\n {4}({.*})$", self.in_lines, re.MULTILINE)
        texts += re.findall(r"^```json\n(.*?)\n```$", self.page, re.MULTILINE | re.DOTALL)
        self.assertEqual(len(texts), 11)
        for text in texts:
            self.assertIsNone(error_of(text), text)


class Comparing(unittest.TestCase):
    def test_first_difference_is_said(self) -> None:
        one = file_of(scene(3, 3, draw(FIRST)))
        other = file_of(scene(3, 3, draw(FIRST, scissor=[0, 0, 1, 3])))
        self.assertIsNone(picture_file.difference(one, one))
        self.assertEqual(picture_file.difference(one, other), "1 pixels differ, first (1, 0): ff ff ff and 00 00 00")
