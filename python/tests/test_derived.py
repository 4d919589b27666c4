"""What is derived from bytes, str, sequences and arrays, and says something else of itself than it has: it is taken for
what it has, or refused, and no memory is read that it does not have."""

import unittest

from .common import DRAW_LIST, NUMPY, run

LYING = f"""
import trirast
VERTICES, LIST = {DRAW_LIST["draws"][0]["vertices"]}, {DRAW_LIST}
records = b"".join(__import__("struct").pack("=iiHBBBB2x", *row) for row in VERTICES)
MUCH = 1 << 30

def made(call):
    try:
        return call()
    except (TypeError, ValueError) as error:
        return type(error).__name__

def lying(kind, **more):
    members = {{"__len__": lambda self: MUCH, **more}}
    return type("Lying", (kind,), members)

class Long(bytes):
    def __len__(self):
        return MUCH

def drawn(*given, **more):
    canvas = trirast.Canvas(3, 3)
    canvas.draw(*given, **more)
    return sum(memoryview(canvas.rgb()).tobytes()) // 765

"""


class Derived(unittest.TestCase):
    def must_print(self, text: str, printed: str) -> None:
        done = run(LYING + text)
        self.assertEqual((done.returncode, done.stdout.decode(), done.stderr.decode()), (0, printed, ""))

    def test_from_bytes(self) -> None:
        self.must_print(
            """
indices = bytes(memoryview(__import__("array").array("I", [0, 1, 2])))
kinds = [
    lying(bytes), lying(bytearray), lying(bytes, __bytes__=lambda self: Long(self)),
    lying(bytes, __bytes__=lambda self: b"12"), lying(bytes, __getitem__=lambda self, key: 9, __iter__=lambda self: []),
]
for kind in kinds:
    print(drawn(kind(records), kind(indices)), drawn(kind(records)), drawn(kind(records), colors=(255, 255, 255)))
    text = kind(__import__("json").dumps(LIST).encode())
    print(trirast.draw(text).width, trirast.why(text, 0, 0).color, trirast.triangle_samples(text, 0, 0).covered)
""",
            5 * "3 3 3\n3 (255, 255, 255) 3\n",
        )

    def test_from_str(self) -> None:
        self.must_print(
            """
text = __import__("json").dumps(LIST)
for kind in (
    lying(str), lying(str, encode=lambda self, *_more: b""), lying(str, encode=lambda self, *_more: Long(b"{}")),
    lying(str, __hash__=None, __eq__=lambda self, other: False),
):
    canvas = trirast.Canvas(3, 3)
    canvas.draw(VERTICES, blend=kind("over"), cull=kind("none"))
    print(trirast.draw(kind(text)).width, canvas.colors(format=kind("rgba")) is not None)
    print(made(lambda: canvas.draw(VERTICES, blend=kind("below"))), made(lambda: canvas.colors(format=kind("red"))))
""",
            4 * "3 True\nValueError ValueError\n",
        )

    def test_from_sequences(self) -> None:
        self.must_print(
            """
for length in 0, 2, 3, 4, 7, MUCH:
    for kind in list, tuple:
        Some = lying(kind, __len__=lambda self: length)
        canvas = trirast.Canvas(3, 3)
        calls = [
            lambda: drawn(Some(VERTICES)), lambda: drawn([Some(row) for row in VERTICES]),
            lambda: drawn(VERTICES, Some([Some([0, 1, 2])])), lambda: drawn(VERTICES, colors=Some([255, 255, 255])),
            lambda: canvas.clear(Some([1, 2, 3])), lambda: canvas.clear(Some([1, 2, 3, 4, 5])),
            lambda: trirast.Draw(VERTICES, scissor=Some([0, 0, 3, 3])), lambda: trirast.snap(Some([Some([0, 1])])),
            lambda: trirast.edges_at(Some([0, 0]), (1, 0), (0, 1), Some([Some([0, 0])])),
            lambda: canvas.draw_polygons(Some([Some([0, 1])]), Some([1]), Some([1])),
        ]
        for call in calls:
            made(call)
        assert set(memoryview(canvas.rgb()).tobytes()) <= {0, 1, 2, 3}
print("ended")
""",
            "ended\n",
        )

    def test_from_arrays(self) -> None:
        if NUMPY is None:
            self.skipTest("there is no numpy")
        self.must_print(
            """
import numpy as np

lies = {
    "strides": property(lambda self: (4096,)), "shape": property(lambda self: (MUCH,)), "size": MUCH,
    "nbytes": MUCH, "itemsize": 2048, "ctypes": property(lambda self: 8), "ndim": 1, "T": property(lambda self: 8),
    "__array_interface__": {"version": 3, "typestr": "|u1", "shape": (MUCH,), "data": (8, False)},
    "__array__": lambda self, *_more, **_names: np.zeros(0), "view": lambda self, *_more: np.zeros(0),
    "__getitem__": lambda self, key: np.zeros(0), "__len__": lambda self: MUCH,
}
own = np.frombuffer(records, trirast.VERTEX)
wide = np.zeros(3, trirast.VERTEX + [("more", "u4", 9)])
other = np.zeros(3, [("y", "i8"), ("x", "i8")])
for array in wide, other:
    for name in set(array.dtype.names) & set(own.dtype.names):
        array[name] = own[name]
for chosen in [[name] for name in lies] + [list(lies)]:
    Lying = type("Lying", (np.ndarray,), {name: lies[name] for name in chosen})
    for array in own, wide, other, np.array(VERTICES), np.array(VERTICES)[:, :2]:
        given = np.ndarray.view(array, Lying)
        index = np.ndarray.view(np.array([[0, 1, 2]]), Lying)
        canvas = trirast.Canvas(3, 3)
        assert made(lambda: drawn(given, index)) in (3, "TypeError", "ValueError"), chosen
        assert made(lambda: drawn(given)) in (3, "TypeError", "ValueError"), chosen
        image = np.ndarray.view(np.full((3, 3, 3), 7, np.uint8), Lying)
        made(lambda: canvas.load(image))
        made(lambda: canvas.rgb(image))
        made(lambda: trirast.Canvas(3, 3, memory=np.ndarray.view(np.zeros(1 << 16, np.uint8), Lying)).clear())
        made(lambda: canvas.draw_polygons(given, index, index))
        made(lambda: trirast.polygon_boxes(index, index, index))
        made(lambda: trirast.snap(np.ndarray.view(np.zeros((3, 2)), Lying)))
        made(lambda: trirast.draw(LIST, out=image))
print("ended")
""",
            "ended\n",
        )


if __name__ == "__main__":
    unittest.main()
