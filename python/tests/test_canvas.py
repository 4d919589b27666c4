"""Canvases."""

import os
import pickle
import tempfile
import unittest
import zlib
from array import array
from typing import Any, Callable, Dict, List, Tuple

import trirast
from trirast._canvas import Format

from .common import PIXELS, VERTICES, bytes_of

WHITE_ID = 16777215
COUNTS = (1, 2, 4, 8, 16)
# A triangle over all of a canvas of 3 by 3 pixels, in red 5.
LARGE = [[-1000, -1000, 7, 5, 0, 0, 255], [6000, -1000, 7, 5, 0, 0, 255], [-1000, 6000, 7, 5, 0, 0, 255]]


def cleared(width: int = 3, height: int = 3, **more: Any) -> trirast.Canvas:
    canvas = trirast.Canvas(width, height, **more)
    canvas.clear()
    return canvas


class Pictures(unittest.TestCase):
    def test_a_triangle_is_drawn_as_in_a_list(self) -> None:
        canvas = cleared()
        canvas.draw(VERTICES, [[0, 1, 2]])
        self.assertEqual(bytes_of(canvas.rgb()), PIXELS)
        rgba = bytes_of(canvas.rgba())
        self.assertEqual(bytes(rgba[k] for k in range(36) if k % 4 != 3), PIXELS)
        self.assertEqual(set(rgba[3::4]), {255})

    def test_two_batches_are_one_picture(self) -> None:
        two: List[List[int]] = [[0, 1, 2], [2, 1, 0]]
        whole, split = cleared(), cleared()
        whole.draw(VERTICES, two, blend="over")
        for triangle in two:
            split.draw(VERTICES, [triangle], blend="over")
        self.assertEqual(bytes_of(whole.rgb()), bytes_of(split.rgb()))

    def test_threads_share_a_canvas(self) -> None:
        vertices = [[0, 0, 5, 10, 20, 30, 255], [51200, 0, 6, 200, 9, 7, 255], [0, 76800, 7, 4, 5, 6, 255]]
        pictures = []
        for threads in (1, 2, 3, 9):
            canvas = trirast.Canvas(200, 300, samples=4)
            canvas.clear((1, 2, 3), 9, threads=threads)
            canvas.draw(vertices, [[0, 1, 2]], depth_test="less", depth_write=True, threads=threads)
            pictures.append((bytes_of(canvas.rgb(threads=threads)), bytes_of(canvas.depth(3, threads=threads))))
        self.assertEqual(pictures.count(pictures[0]), 4)
        draw = {"vertices": vertices, "triangles": [[0, 1, 2]], "depth_test": "less", "depth_write": True}
        picture = trirast.draw(
            {"width": 200, "height": 300, "samples": 4, "clear": [1, 2, 3], "clear_depth": 9, "draws": [draw]}
        )
        self.assertEqual(pictures[0][0], picture.bytes)

    def test_a_window_shows_a_part_of_the_screen(self) -> None:
        whole = cleared(6, 6)
        whole.draw(VERTICES, [[0, 1, 2]])
        rows = [bytes_of(whole.rgb())[18 * j : 18 * j + 18] for j in range(6)]
        part = cleared(2, 2, origin=(1, 0))
        part.draw(VERTICES, [[0, 1, 2]])
        self.assertEqual(bytes_of(part.rgb()), rows[0][3:9] + rows[1][3:9])

    def test_a_window_may_lie_anywhere(self) -> None:
        def drawn(by: int, x: int, y: int, **state: Any) -> bytes:
            canvas = cleared(40, 70, samples=4, origin=(x + by, y + by))
            corners = ((-30, -5), (30, -5), (-30, 60), (4, 65))
            vertices = [[256 * (x + by), 256 * (y + by), 0, 1 + k, 2, 3, 255] for k, (x, y) in enumerate(corners)]
            canvas.draw_batch(
                [trirast.Draw(vertices, [[0, 1, 2]]), trirast.Draw(vertices, [[1, 2, 3]], **state)], threads=2
            )
            return bytes_of(canvas.rgb())

        for x, y in ((-30, -5), (-30, 7), (3, -5)):
            self.assertEqual(drawn(0, x, y), drawn(100, x, y))
            for scissor in ((0, 0, 9, 50), (-12, 1, 32768, 32768), (-(1 << 31), -3, 5, (1 << 31) - 101)):
                moved = tuple(max(min(side + 100, (1 << 31) - 1), -(1 << 31)) for side in scissor)
                self.assertEqual(drawn(0, x, y, scissor=scissor), drawn(100, x, y, scissor=moved))
        self.assertEqual(set(drawn(0, -30, -5)[:3]), {1, 2, 3})
        far = cleared(origin=(-30, 0))
        for place in (8388607, 8388608, -8388609, (1 << 31) - 1):
            with self.assertRaises(trirast.BatchError):
                far.draw([[place, 0]], [[0, 0, 0]])
        far.draw([[8388607 - 256 * 30, 0]], [[0, 0, 0]])

    def test_an_image_is_loaded(self) -> None:
        image = bytes(range(27))
        canvas = cleared(samples=4)
        canvas.load(image)
        self.assertEqual(bytes_of(canvas.rgb()), image)
        out = bytearray(36)
        canvas.bgra(out)
        self.assertEqual(out[:4], bytes((2, 1, 0, 255)))
        canvas.load(out, format="bgra", threads=2)
        self.assertEqual(bytes_of(canvas.rgb()), image)

    def test_ids_name_triangles(self) -> None:
        canvas = trirast.Canvas(3, 3)
        canvas.clear((255, 255, 255))
        canvas.draw(VERTICES, [[0, 1, 2]], first_id=70000)
        ids = array("I", bytes_of(canvas.ids()))
        self.assertEqual(list(ids), [70000, 70000, WHITE_ID, 70000] + 5 * [WHITE_ID])

    def test_colors_of_one_sample_are_stored_and_read(self) -> None:
        for samples in COUNTS:
            canvas = trirast.Canvas(3, 70, samples=samples)
            canvas.clear((1, 2, 3), 9)
            image = bytes(k * 7 % 256 for k in range(3 * 3 * 70))
            canvas.store(image, samples - 1, threads=2)
            for sample in range(samples):
                found = bytes_of(canvas.colors(sample))
                self.assertEqual(found, image if sample == samples - 1 else bytes((1, 2, 3)) * 210)
                self.assertEqual(set(array("H", bytes_of(canvas.depth(sample)))), {9})
            bgra = bytes_of(canvas.colors(samples - 1, format="bgra"))
            self.assertEqual(
                (bgra[2::4], bgra[1::4], bgra[0::4], set(bgra[3::4])), (image[0::3], image[1::3], image[2::3], {255})
            )
            for refused in (lambda: canvas.colors(samples), lambda: canvas.store(image, samples)):
                self.assertRaises(trirast.SampleError, refused)

    def test_every_sample_of_each_count_is_drawn(self) -> None:
        for samples in COUNTS:
            canvas = trirast.Canvas(3, 70, samples=samples)
            canvas.clear((255, 255, 255), 9)
            canvas.draw(LARGE, [[0, 1, 2]], first_id=5, scissor=[0, 0, 3, 3], depth_write=True, threads=2)
            for sample in range(samples):
                self.assertEqual(array("I", bytes_of(canvas.ids(sample))).tolist(), 9 * [5] + 201 * [WHITE_ID])
                self.assertEqual(array("H", bytes_of(canvas.depth(sample))).tolist(), 9 * [7] + 201 * [9])
            with self.assertRaises(trirast.SampleError):
                canvas.ids(samples)

    def test_each_bit_of_a_mask_is_a_sample(self) -> None:
        for samples, mask in ((2, 0x2), (8, 0x81), (16, 0x8100), (16, 0x0001), (4, 0xFFF1), (1, 0xFFFE)):
            canvas = trirast.Canvas(3, 3, samples=samples)
            canvas.clear((255, 255, 255))
            canvas.draw(LARGE, [[0, 1, 2]], sample_mask=mask)
            drawn = [mask >> sample & 1 for sample in range(samples)]
            for sample, is_drawn in enumerate(drawn):
                self.assertEqual(set(array("I", bytes_of(canvas.ids(sample)))), {5 if is_drawn else WHITE_ID})
            sums = [each * sum(drawn) + 255 * (samples - sum(drawn)) for each in (5, 0, 0)]
            self.assertEqual(bytes_of(canvas.rgb()), bytes((each + samples // 2) // samples for each in sums) * 9)
        with self.assertRaises(ValueError):
            cleared().draw(LARGE, [[0, 1, 2]], sample_mask=0x10000)

    def test_some_channels_are_kept(self) -> None:
        for keep, wanted in (
            ("", (5, 6, 7)), ("r", (1, 6, 7)), ("gb", (5, 2, 3)), ("bgr", (1, 2, 3)), ("a", (5, 6, 7))
        ):
            canvas = trirast.Canvas(3, 3, samples=4)
            canvas.clear((1, 2, 3))
            canvas.draw(LARGE, [[0, 1, 2]], colors=(5, 6, 7), keep=keep)
            self.assertEqual(bytes_of(canvas.rgb()), bytes(wanted) * 9)

    def test_alpha_is_stored(self) -> None:
        canvas = cleared(alpha=True)
        self.assertTrue(canvas.alpha)
        self.assertEqual(bytes_of(canvas.rgba()), bytes(36))
        canvas.draw(LARGE, [[0, 1, 2]], colors=(200, 100, 0, 128), blend="over")
        self.assertEqual(bytes_of(canvas.rgba()), bytes((100, 50, 0, 128)) * 9)
        self.assertEqual(bytes_of(canvas.rgba(straight=True)), bytes((199, 100, 0, 128)) * 9)
        self.assertEqual(bytes_of(canvas.bgra(straight=True)), bytes((0, 100, 199, 128)) * 9)
        self.assertEqual(bytes_of(canvas.colors(format="rgba")), bytes((100, 50, 0, 128)) * 9)
        canvas.draw(LARGE, [[0, 1, 2]], colors=(1, 2, 3, 4), keep="a")
        self.assertEqual(bytes_of(canvas.rgba()), bytes((1, 2, 3, 128)) * 9)
        copied = pickle.loads(pickle.dumps(canvas))
        self.assertTrue(copied.alpha)
        self.assertEqual(bytes_of(copied.rgba()), bytes((1, 2, 3, 128)) * 9)

    def test_alpha_of_a_colour_to_which_a_canvas_is_cleared(self) -> None:
        canvas = trirast.Canvas(1, 1, alpha=True)
        for color, wanted in (((9, 8, 7), 255), ((9, 8, 7, 6), 6)):
            canvas.clear(color)
            self.assertEqual(bytes_of(canvas.rgba()), bytes((9, 8, 7, wanted)))
        without = trirast.Canvas(1, 1)
        without.clear((9, 8, 7, 6))
        self.assertEqual((without.alpha, bytes_of(without.rgba())), (False, bytes((9, 8, 7, 255))))

    def test_images_with_alpha_are_loaded(self) -> None:
        canvas = cleared(1, 1, alpha=True)
        wanted_of: Dict[Format, Tuple[int, ...]] = {
            "rgb": (9, 8, 7, 255), "rgba": (9, 8, 7, 51), "bgra": (7, 8, 9, 51), "rgba_straight": (2, 2, 1, 51),
        }
        for format, wanted in wanted_of.items():
            image = bytes((9, 8, 7, 51)[: 3 if format == "rgb" else 4])
            canvas.load(image, format=format)
            self.assertEqual(bytes_of(canvas.rgba()), bytes(wanted), format)
            canvas.clear()
            canvas.store(image, format=format)
            self.assertEqual(bytes_of(canvas.rgba()), bytes(wanted), format)
        without = cleared(1, 1)
        without.load(bytes((9, 8, 7, 51)), format="rgba")
        self.assertEqual(bytes_of(without.rgba()), bytes((9, 8, 7, 255)))

    def test_a_picture_with_alpha_is_a_png_file(self) -> None:
        canvas = cleared(2, 1, alpha=True)
        canvas.draw(LARGE, [[0, 1, 2]], colors=(200, 100, 0, 128), blend="over", scissor=(0, 0, 1, 1))
        with tempfile.TemporaryDirectory() as folder:
            path = os.path.join(folder, "x.png")
            canvas.save(path)
            with open(path, "rb") as file:
                data = file.read()
            with self.assertRaisesRegex(
                ValueError, "^path: expected a name that ends in .png, for a picture with alpha, got "
            ):
                canvas.save(os.path.join(folder, "x.ppm"))
        self.assertEqual(data, canvas._repr_png_())
        # Eight bits of red, green, blue and alpha.
        self.assertEqual(data[24:26], bytes((8, 6)))
        packed = data[data.index(b"IDAT") + 4 : data.index(b"IEND") - 8]
        self.assertEqual(zlib.decompress(packed), bytes((0, 199, 100, 0, 128, 0, 0, 0, 0)))

    def test_the_memory_is_the_callers(self) -> None:
        memory = bytearray(trirast.Canvas.size(3, 3))
        canvas = trirast.Canvas(3, 3, memory=memory)
        canvas.clear((7, 7, 7), 0x0101)
        # Behind the plane of marks lie the samples to which the tile was cleared.
        self.assertEqual(set(memory[384 : 384 + 320]), {1, 7})
        del canvas
        with self.assertRaises(ValueError):
            trirast.Canvas(3, 3, memory=bytearray(9))


class Refused(unittest.TestCase):
    def test_a_size_that_there_is_not(self) -> None:
        for numbers in (
            (0, 1, 1), (1, 4097, 1), (-1, 1, 1), (1 << 32, 1, 1),
            *((1, 1, samples) for samples in (0, 3, 5, 15, 17, 32)),
        ):
            with self.assertRaises(trirast.CanvasError):
                trirast.Canvas(numbers[0], numbers[1], samples=numbers[2])

    def test_a_batch_is_refused_whole(self) -> None:
        canvas = cleared()
        with self.assertRaises(trirast.BatchError) as caught:
            canvas.draw(VERTICES, [[0, 1, 2], [0, 1, 3]])
        self.assertEqual(
            (caught.exception.name, caught.exception.draw, caught.exception.element, caught.exception.value),
            ("BadIndex", 0, 5, 3),
        )
        with self.assertRaises(trirast.BatchError) as caught:
            canvas.draw(VERTICES, [[0, 1, 2]], first_id=WHITE_ID + 1)
        self.assertEqual(
            (caught.exception.name, caught.exception.draw, caught.exception.element, caught.exception.value),
            ("TooManyIds", 0, None, None),
        )
        self.assertEqual(bytes_of(canvas.rgb()), bytes(27))
        with self.assertRaises(trirast.SampleError):
            canvas.ids(1)

    def test_buffers_of_another_size(self) -> None:
        canvas = cleared()
        calls: List[Callable[[], Any]] = [
            lambda: canvas.load(bytes(26)),
            lambda: canvas.rgb(bytearray(26)),
            lambda: canvas.depth(0, bytearray(18)),
            lambda: canvas.clear((0, 0)),
            lambda: canvas.clear((0, 0, 256)),
            lambda: canvas.clear((0, 0, 0), 65536),
            lambda: canvas.load(bytes(27), format="bgr"),  # type: ignore[arg-type]
        ]
        for call in calls:
            with self.assertRaises(ValueError):
                call()


class Edges(unittest.TestCase):
    def test_edge_functions(self) -> None:
        found = memoryview(trirast.edges_at((0, 0), (2560, 0), (0, 2560), [(256, 512), (2560, 2560)])).tolist()
        area = 2560 * 2560
        self.assertEqual(found, [[2560 * 1792, 256 * 2560, 512 * 2560, area, 1], [-area, area, area, area, 0]])
        for corners in (((0, 0), (1, 0), (0, 8388608), [(0, 0)]), ((0, 0), (1, 0), (0, 1), [(0, 0), (8388608, 0)])):
            with self.assertRaises(trirast.PositionError):
                trirast.edges_at(*corners)
        self.assertEqual(len(memoryview(trirast.edges_at((0, 0), (1, 0), (0, 1), []))), 0)

    def test_a_point_is_covered_where_a_canvas_is_drawn(self) -> None:
        corners = ((300, -400), (2300, 700), (-500, 1900))
        points = [(256 * (number % 8) + 128, 256 * (number // 8) + 128) for number in range(64)]
        for order in (corners, corners[::-1]):
            canvas = trirast.Canvas(8, 8)
            canvas.clear((255, 255, 255))
            canvas.draw(order, [[0, 1, 2]], first_id=0)
            ids = array("I", bytes_of(canvas.ids()))
            self.assertEqual(set(ids), {0, WHITE_ID})
            rows: Any = memoryview(trirast.edges_at(*order, points)).tolist()
            for number, (a, b, c, doubled_area, covered) in zip(ids, rows):
                self.assertEqual((covered, a + b + c), (int(number == 0), doubled_area))


if __name__ == "__main__":
    unittest.main()
