"""Draw lists and their pictures."""

import json
import os
import tempfile
import unittest
from typing import Any

import trirast

from .common import DRAW_LIST, FILE, PIXELS


def text() -> str:
    return json.dumps(DRAW_LIST)


class Draw(unittest.TestCase):
    def test_takes_a_value_a_text_and_bytes(self) -> None:
        data = text().encode()
        for given in (DRAW_LIST, text(), data, bytearray(data), memoryview(data)):
            picture = trirast.draw(given)
            self.assertEqual(picture.header + picture.bytes, FILE)
            self.assertEqual(trirast.draw_file(given), FILE)

    def test_draws_by_each_tile_size_and_several_threads(self) -> None:
        high = {**DRAW_LIST, "height": 100}
        wanted = trirast.draw(high).bytes
        for tile_size in (8, 16, 32, 64):
            for threads in (1, 2, 5, 100):
                self.assertEqual(trirast.draw(high, tile_size, threads).bytes, wanted)

    def test_draws_into_a_buffer_of_the_caller(self) -> None:
        for threads in (1, 3):
            memory = bytearray(len(PIXELS))
            picture = trirast.draw(DRAW_LIST, 8, threads, out=memory)
            self.assertEqual((bytes(memory), picture.bytes), (PIXELS, PIXELS))

    def test_refuses_a_buffer_that_does_not_fit(self) -> None:
        outs: Any = (bytes(27), bytearray(26), bytearray(28), memoryview(bytearray(54))[::2])
        for out in outs:
            with self.assertRaises(ValueError):
                trirast.draw(DRAW_LIST, out=out)

    def test_refuses_no_threads(self) -> None:
        with self.assertRaises(ValueError):
            trirast.draw(DRAW_LIST, threads=0)


class ImageInfo(unittest.TestCase):
    def test_has_the_sizes_of_colours_and_of_depths(self) -> None:
        self.assertEqual(trirast.image_info(DRAW_LIST), (3, 3, 3, 11, 38))
        info = trirast.image_info({**DRAW_LIST, "output": "depth"})
        self.assertEqual((info.pixel_bytes, info.file_bytes, info.is_depth), (2, 13 + 18, True))


class Picture(unittest.TestCase):
    def test_has_its_pixels(self) -> None:
        picture = trirast.draw(DRAW_LIST)
        self.assertEqual((picture.width, picture.height, picture.is_depth), (3, 3, False))
        self.assertEqual([picture.pixel(column, 0) for column in range(3)], [(255,) * 3, (255,) * 3, (0,) * 3])
        self.assertEqual((picture.pixels.shape, picture.pixels.tobytes()), ((3, 3, 3), PIXELS))
        for place in ((3, 0), (0, 3), (-1, 0)):
            with self.assertRaises(IndexError):
                picture.pixel(*place)

    def test_has_depths(self) -> None:
        picture = trirast.draw({**DRAW_LIST, "output": "depth", "clear_depth": 258})
        self.assertEqual((picture.depth(2, 2), picture.pixels.shape), (258, (3, 3, 2)))
        with self.assertRaises(IndexError):
            picture.depth(3, 2)

    def test_has_either_colours_or_depths(self) -> None:
        with self.assertRaises(ValueError):
            trirast.draw({**DRAW_LIST, "output": "depth"}).pixel(0, 0)
        with self.assertRaises(ValueError):
            trirast.draw(DRAW_LIST).depth(0, 0)

    def test_offers_the_array_interface(self) -> None:
        for output, shape, kind in (("color", (3, 3, 3), "|u1"), ("depth", (3, 3), ">u2")):
            picture = trirast.draw({**DRAW_LIST, "output": output})
            offered = picture.__array_interface__
            self.assertEqual((offered["version"], offered["shape"], offered["typestr"]), (3, shape, kind))
            self.assertEqual(bytes(offered["data"]), picture.bytes)

    def test_saves_its_file(self) -> None:
        with tempfile.TemporaryDirectory() as folder:
            path = os.path.join(folder, "picture.ppm")
            saves: Any = (trirast.draw(DRAW_LIST).save, trirast.draw(DRAW_LIST).save_ppm)
            for save in saves:
                save(path)
                with open(path, "rb") as file:
                    self.assertEqual(file.read(), FILE)
            with self.assertRaises(ValueError):
                trirast.draw({**DRAW_LIST, "output": "depth"}).save_ppm(path)


if __name__ == "__main__":
    unittest.main()
