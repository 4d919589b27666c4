"""The history of a pixel: its objects, their text, and what is raised for pixels and lists that are not there."""

import unittest
from typing import Any

import trirast

from .common import DRAW_LIST, VERTICES

BLACK, WHITE = (0, 0, 0), (255, 255, 255)


class History(unittest.TestCase):
    def test_a_drawn_triangle_has_its_fragment(self) -> None:
        pixel = trirast.why(DRAW_LIST, 1, 0)
        self.assertEqual((pixel.x, pixel.y, pixel.color, pixel.depth), (1, 0, WHITE, None))
        (sample,) = pixel.samples
        self.assertEqual((sample.sample, sample.position, sample.begin), (0, (384, 128), (BLACK, 65535)))
        (event,) = sample.events
        self.assertEqual((event.draw, event.triangle, event.result, event.reasons), (0, 0, "drawn", ()))
        self.assertEqual(event.fragment, (WHITE, 255, 0))
        self.assertEqual((event.before, event.after, sample.end), ((BLACK, 65535), (WHITE, 65535), (WHITE, 65535)))

    def test_a_triangle_that_misses_is_listed_if_all_are(self) -> None:
        # The centre of the pixel lies on the hypotenuse, which is a right edge.
        self.assertEqual(trirast.why(DRAW_LIST, 1, 1).samples[0].events, ())
        (event,) = trirast.why(DRAW_LIST, 1, 1, all_triangles=True).samples[0].events
        self.assertEqual((event.result, event.reasons, event.fragment), ("missed", ("not_covered",), None))

    def test_one_sample_of_four(self) -> None:
        depths: Any = {**DRAW_LIST, "samples": 4, "output": "depth"}
        pixel = trirast.why(depths, 0, 0, sample=3)
        self.assertEqual((pixel.color, pixel.depth, [sample.sample for sample in pixel.samples]), (None, 65535, [3]))

    def test_a_history_prints_itself(self) -> None:
        lines = str(trirast.why(DRAW_LIST, 0, 0)).split("\n")
        self.assertEqual(lines[:3], ["pixel (0, 0)", "sample 0 at (0.500, 0.500)", "  begins (0, 0, 0) depth 65535"])
        self.assertIn("drawn", lines[3])
        self.assertEqual(lines[-2:], ["  ends (255, 255, 255) depth 65535", "colour (255, 255, 255)"])

    def test_a_reason_is_printed_as_the_program_does(self) -> None:
        def drawn(**state: Any) -> str:
            return str(
                trirast.why({**DRAW_LIST, "draws": [{**DRAW_LIST["draws"][0], **state}]}, 0, 0).samples[0].events[0]
            )

        self.assertIn("  depth failed  fragment (255, 255, 255) ", drawn(depth_test="greater"))
        self.assertTrue(drawn(depth_test="greater").endswith("; fails the depth test against 65535"))
        self.assertTrue(drawn(scissor=[1, 1, 2, 2], sample_mask=0).endswith("; outside the scissor; masked"))

    def test_the_colour_is_that_of_all_samples_if_one_is_asked_for(self) -> None:
        four: Any = {**DRAW_LIST, "samples": 4}
        picture = trirast.draw(four)
        for x, y in ((x, y) for x in range(3) for y in range(3)):
            colors = {trirast.why(four, x, y, sample).color for sample in (None, 0, 1, 2, 3)}
            self.assertEqual(colors, {picture.pixel(x, y)})
        self.assertGreater(len(set(trirast.why(four, 1, 1).samples)), 1)

    def test_a_history_of_many_events_is_whole(self) -> None:
        many: Any = {**DRAW_LIST, "draws": [{"vertices": VERTICES, "triangles": [[0, 1, 2]] * 1000}]}
        events = trirast.why(many, 0, 0).samples[0].events
        self.assertEqual([event.triangle for event in events], list(range(1000)))

    def test_pixels_that_are_not_there(self) -> None:
        for x, y, sample in ((3, 0, None), (0, 3, None), (-1, 0, None), (1 << 32, 0, None), (0, 0, 1), (0, 0, -1)):
            with self.assertRaises(IndexError) as raised:
                trirast.why(DRAW_LIST, x, y, sample)
            self.assertIsInstance(raised.exception, trirast.PixelError if sample is None else trirast.SampleError)

    def test_the_samples_of_a_triangle_are_counted(self) -> None:
        # The triangle covers the centres of three pixels. A second one over them leaves the first shown by none.
        once = trirast.triangle_samples(DRAW_LIST, 0, 0)
        self.assertEqual(once, (0, 0, 3, 3, 3))
        self.assertEqual(str(once), "draw 0 triangle 0 covers 3, changes 3, shown by 3 samples")
        black: Any = [[*vertex[:3], 0, 0, 0, 255] for vertex in VERTICES]
        twice: Any = {**DRAW_LIST, "draws": [*DRAW_LIST["draws"], {"vertices": black, "triangles": [[0, 1, 2]]}]}
        self.assertEqual(trirast.triangle_samples(twice, 0, 0), (0, 0, 3, 3, 0))
        self.assertEqual(trirast.triangle_samples(twice, 1, 0), (1, 0, 3, 3, 3))

    def test_triangles_that_are_not_there(self) -> None:
        for draw, triangle in ((1, 0), (0, 1), (-1, 0), (1 << 64, 0)):
            with self.assertRaises(IndexError) as raised:
                trirast.triangle_samples(DRAW_LIST, draw, triangle)
            self.assertIsInstance(raised.exception, trirast.TriangleError)

    def test_a_draw_list_error_is_that_of_draw(self) -> None:
        refused: Any = {**DRAW_LIST, "draws": [{"vertices": VERTICES, "triangles": [[0, 1, 3]]}]}
        with self.assertRaises(trirast.DrawListError) as raised:
            trirast.why(refused, 0, 0)
        error = raised.exception
        self.assertEqual((str(error), error.number, error.draw), ("list fault 6 BadIndex in draw 0", 6, 0))


if __name__ == "__main__":
    unittest.main()
