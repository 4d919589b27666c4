"""Copies, by copy and by pickle, have memory of their own."""

import copy
import pickle
import unittest
from typing import Any, Callable, List

import trirast

from .common import DRAW_LIST, NUMPY, PIXELS, VERTICES, bytes_of, run

TRIANGLE = [[0, 1, 2]]
COPIES: List[Callable[[Any], Any]] = [copy.copy, copy.deepcopy, lambda each: pickle.loads(pickle.dumps(each))]


def drawn(**more: Any) -> trirast.Canvas:
    canvas = trirast.Canvas(3, 70, samples=4, origin=(-1, 0), **more)
    canvas.clear((1, 2, 3), 4)
    canvas.draw(VERTICES, TRIANGLE)
    return canvas


class Canvases(unittest.TestCase):
    def test_have_samples_of_their_own(self) -> None:
        for memory in (None, bytearray(trirast.Canvas.size(3, 70, samples=4))):
            for copied in COPIES:
                canvas = drawn(memory=memory)
                wanted = bytes_of(canvas.rgb()), bytes_of(canvas.depth(3))
                other = copied(canvas)
                self.assertEqual((other.width, other.height, other.samples, other.origin), (3, 70, 4, (-1, 0)))
                self.assertEqual((bytes_of(other.rgb()), bytes_of(other.depth(3))), wanted)
                other.clear((9, 9, 9))
                self.assertEqual(bytes_of(canvas.rgb()), wanted[0])
                canvas.clear((8, 8, 8))
                self.assertEqual(set(bytes_of(other.rgb(threads=2))), {9})

    def test_stay_where_the_first_is_gone(self) -> None:
        for how in ("copy.copy(canvas)", "copy.deepcopy(canvas)", "pickle.loads(pickle.dumps(canvas))"):
            done = run(f"""
                import copy, pickle, trirast
                canvas = trirast.Canvas(2048, 2048)
                canvas.clear()
                canvas = {how}
                canvas.clear((7, 7, 7))
                print(set(memoryview(canvas.rgb()).tobytes()))
            """)
            self.assertEqual((done.returncode, done.stdout, done.stderr), (0, b"{7}\n", b""))

    def test_keep_what_a_derived_class_adds(self) -> None:
        for copied in COPIES:
            layer = Layer(3, 3)
            layer.name = "roads"
            other = copied(layer)
            self.assertEqual((type(other), other.name, other.width), (Layer, "roads", 3))

    def test_of_another_interface_are_refused(self) -> None:
        canvas = drawn()
        interface, *others = canvas.__getstate__()["_canvas"]
        for state in ((interface + 1, *others), (interface, *others[:-1], b"")):
            with self.assertRaisesRegex(ValueError, "canvas: expected one of interface"):
                trirast.Canvas.__new__(trirast.Canvas).__setstate__({"_canvas": state})

    def test_fields_are_read_only(self) -> None:
        canvas: Any = drawn()
        for name in ("width", "height", "samples", "origin"):
            with self.assertRaises(AttributeError):
                setattr(canvas, name, 10**7)
        self.assertEqual(len(bytes_of(canvas.rgb())), 3 * 70 * 3)


class Layer(trirast.Canvas):
    """A canvas with a name."""

    name = ""


class Others(unittest.TestCase):
    def test_pictures_have_bytes_of_their_own(self) -> None:
        for output in ("color", "depth"):
            for copied in COPIES:
                picture = trirast.draw({**DRAW_LIST, "output": output})
                wanted = picture.bytes
                other = copied(picture)
                other.pixels[0, 0, 0] = 77
                self.assertEqual((picture.bytes, other.bytes[1:]), (wanted, wanted[1:]))
                self.assertEqual((other.is_depth, other.header, other.bytes[0]), (picture.is_depth, picture.header, 77))

    def test_draws_are_drawn_alike(self) -> None:
        for copied in COPIES:
            draw = copied(trirast.Draw(VERTICES, TRIANGLE, cull="none", blend="over", scissor=(0, 0, 3, 3)))
            canvas = trirast.Canvas(3, 3)
            canvas.clear()
            canvas.draw_batch([draw])
            self.assertEqual(bytes_of(canvas.rgb()), PIXELS)

    def test_errors_say_the_same(self) -> None:
        calls: List[Callable[[], Any]] = [
            lambda: trirast.draw("{}"),
            lambda: drawn().draw(VERTICES, [[0, 1, 3]]),
            lambda: trirast.Canvas(0, 1),
            lambda: trirast.why(DRAW_LIST, 9, 9),
        ]
        for call in calls:
            with self.assertRaises(trirast.Error) as caught:
                call()
            for copied in COPIES:
                other = copied(caught.exception)
                self.assertEqual(
                    (type(other), str(other), vars(other)),
                    (type(caught.exception), str(caught.exception), vars(caught.exception)),
                )


class Pictures(unittest.TestCase):
    def test_fields_are_read_only(self) -> None:
        picture: Any = trirast.draw(DRAW_LIST)
        for name, value in (("width", 10**7), ("height", 10**7), ("is_depth", True), ("pixels", memoryview(b""))):
            with self.assertRaises(AttributeError):
                setattr(picture, name, value)

    def test_have_the_shape_of_their_bytes(self) -> None:
        if NUMPY is None:
            self.skipTest("there is no numpy")
        done = run("""
            import numpy, trirast
            picture = trirast.draw({"width": 3, "height": 2, "draws": []})
            try:
                picture.width = 10**7
            except AttributeError:
                pass
            print(numpy.asarray(picture).shape, numpy.asarray(picture).sum())
        """)
        self.assertEqual((done.returncode, done.stdout), (0, b"(2, 3, 3) 0\n"))

    def test_of_too_few_bytes_are_refused(self) -> None:
        with self.assertRaisesRegex(ValueError, "memory: expected 18 bytes, got 17"):
            trirast.Picture(3, 2, False, memoryview(bytearray(17)))


if __name__ == "__main__":
    unittest.main()
